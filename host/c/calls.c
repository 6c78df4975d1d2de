/* What a block file says besides its best increases:
     calls slacks FILE             the slack of each gate before increases
     calls curve FILE              start and saving at start, then the width and the gain of each pair
     calls judge FILE INCREASE...  what a list of increases saves, one for each gate
     calls ticks FILE WANTED       the fewest spare ticks with which some list saves so much
   A refusal is printed with its place, and the status is 1; it is 2 where there is no answer. */

#include "block_file.h"
#include "honduvi.h"

#include <errno.h>
#include <inttypes.h>
#include <string.h>

static uint8_t file[HONDUVI_MAX_BYTES];
static size_t length;

static int usage(void)
{
    fprintf(stderr, "usage: calls slacks FILE, calls curve FILE, calls judge FILE INCREASE... or calls ticks FILE WANTED\n");
    return 2;
}

static int refused(uint32_t number, uint32_t place)
{
    printf("refused %" PRIu32 " %" PRIu32 "\n", number, place);
    return 1;
}

/* Whether a word is a number in digits, up to `most`. */
static int number_of(const char *word, uint64_t most, uint64_t *number)
{
    errno = 0;
    *number = strtoull(word, NULL, 10);
    return word[0] != 0 && word[strspn(word, "0123456789")] == 0 && errno == 0 && *number <= most;
}

static int slacks(void)
{
    int32_t slacks[HONDUVI_MAX_GATES];
    honduvi_answer answer = honduvi_slacks(file, length, slacks, HONDUVI_MAX_GATES);
    if (answer.number != 0)
        return refused(answer.number, answer.place);
    for (uint32_t gate = 0; gate < answer.place; gate++)
        printf("%" PRIu32 " %" PRId32 "\n", gate, slacks[gate]);
    return 0;
}

static int curve(void)
{
    static uint32_t widths[HONDUVI_MAX_PAIRS];
    static uint64_t gains[HONDUVI_MAX_PAIRS];
    honduvi_curve_answer answer = honduvi_curve(file, length, widths, HONDUVI_MAX_PAIRS, gains, HONDUVI_MAX_PAIRS);
    if (answer.number != 0)
        return refused(answer.number, answer.place);
    printf("start %" PRIu32 " saving %" PRIu64 "\n", answer.start, answer.at_start);
    for (uint32_t pair = 0; pair < answer.pairs; pair++)
        printf("%" PRIu32 " %" PRIu64 "\n", widths[pair], gains[pair]);
    return 0;
}

static int judge(int count, char **words)
{
    uint32_t increases[HONDUVI_MAX_GATES];
    uint64_t increase;
    if (count > HONDUVI_MAX_GATES)
        return usage();
    for (int gate = 0; gate < count; gate++) {
        if (!number_of(words[gate], UINT32_MAX, &increase))
            return usage();
        increases[gate] = (uint32_t)increase;
    }
    honduvi_answer answer = honduvi_judge(file, length, increases, (size_t)count);
    if (answer.number != 0)
        return refused(answer.number, answer.place);
    printf("saving %" PRIu64 "\n", answer.saving);
    return 0;
}

static int ticks(const char *word)
{
    uint64_t wanted;
    if (!number_of(word, UINT64_MAX, &wanted))
        return usage();
    honduvi_ticks_answer answer = honduvi_fewest_ticks(file, length, wanted);
    if (answer.number != 0)
        return refused(answer.number, answer.place);
    printf("ticks %" PRIu64 "\n", answer.ticks);
    return 0;
}

int main(int count, char **words)
{
    const char *call = count < 3 ? "" : words[1];
    int is_slacks = strcmp(call, "slacks") == 0 && count == 3;
    int is_curve = strcmp(call, "curve") == 0 && count == 3;
    int is_judge = strcmp(call, "judge") == 0;
    int is_ticks = strcmp(call, "ticks") == 0 && count == 4;

    if (!is_slacks && !is_curve && !is_judge && !is_ticks)
        return usage();
    length = read_block_file(words[2], file);
    if (is_slacks)
        return written(slacks());
    if (is_curve)
        return written(curve());
    if (is_judge)
        return written(judge(count - 3, words + 3));
    return written(ticks(words[3]));
}
