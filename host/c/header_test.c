/* What a caller built with the header relies on: the answers' layout, null pointers with length 0 for every call, small blocks
   with answers by hand, the limits by name, and a gain of more than 32 bits. */

#include "honduvi.h"

#include <stdio.h>
#include <string.h>

#define AT(type, field, offset) _Static_assert(offsetof(type, field) == (offset), #type " has " #field " at " #offset)

_Static_assert(sizeof(honduvi_answer) == 16, "two numbers of 32 bits and one of 64 bits");
AT(honduvi_answer, number, 0);
AT(honduvi_answer, place, 4);
AT(honduvi_answer, saving, 8);

_Static_assert(sizeof(honduvi_curve_answer) == 24, "four numbers of 32 bits and one of 64 bits");
AT(honduvi_curve_answer, number, 0);
AT(honduvi_curve_answer, place, 4);
AT(honduvi_curve_answer, start, 8);
AT(honduvi_curve_answer, pairs, 12);
AT(honduvi_curve_answer, at_start, 16);

_Static_assert(sizeof(honduvi_ticks_answer) == 16, "two numbers of 32 bits and one of 64 bits");
AT(honduvi_ticks_answer, number, 0);
AT(honduvi_ticks_answer, place, 4);
AT(honduvi_ticks_answer, ticks, 8);

#define U 32768

/* one gate of delay 5, p 128, step (2,3); deadline 8 */
static const uint8_t one_gate[] = {1, 0, 8, 1, 1, 0, 0, 0, 8, 0, 128, 2, 0, 8, 0, 5, 0, 128, 0, 2, 0, 3};
/* edition 2: two gates of delay 1, p 128, step (4,3) each, joined by a wire of delay 4; deadline 9. Both gain the same, so
   gate 0 gets all three ticks */
static const uint8_t two_gates[] = {1, 0, 8, 2, 2, 0, 0, 0, 9, 0, 128, 2, 0, 8, 0, 1, 0, 128, 0, 4, 0, 3,
                                    2, 0, 8, 0, 1, 0, 128, 0, 4, 0, 3, 3, 0, 4, 0, 1, 0, 4};
/* edition 3: the same gates, activity 258 of the input and 257 between them, a wire of delay 3; deadline 8 */
static const uint8_t measured_gates[] = {1, 0, 8, 3, 2, 0, 0, 0, 8, 1, 2, 2, 0, 8, 0, 1, 1, 1, 0, 4, 0, 3,
                                         2, 0, 8, 0, 1, 255, 255, 0, 4, 0, 3, 3, 0, 4, 0, 1, 0, 3};

static int calls, right = 1;

static void check(int holds, const char *what)
{
    calls++;
    if (!holds)
        printf("header: wrong: %s\n", what), right = 0;
}

#define CHECK(holds) check(holds, #holds)

static int is(honduvi_answer answer, uint32_t number, uint32_t place, uint64_t saving)
{
    return answer.number == number && answer.place == place && answer.saving == saving;
}

static int curve_is(honduvi_curve_answer answer, uint32_t number, uint32_t place, uint32_t start, uint32_t pairs,
                    uint64_t at_start)
{
    return answer.number == number && answer.place == place && answer.start == start && answer.pairs == pairs &&
           answer.at_start == at_start;
}

static int ticks_are(honduvi_ticks_answer answer, uint32_t number, uint32_t place, uint64_t ticks)
{
    return answer.number == number && answer.place == place && answer.ticks == ticks;
}

/* no file, and no lent area */
static void null_pointers(void)
{
    CHECK(is(honduvi_best_increases(NULL, 0, NULL, 0), 1, 0, 0));
    CHECK(is(honduvi_slacks(NULL, 0, NULL, 0), 1, 0, 0));
    CHECK(curve_is(honduvi_curve(NULL, 0, NULL, 0, NULL, 0), 1, 0, 0, 0, 0));
    CHECK(is(honduvi_judge(NULL, 0, NULL, 0), 1, 0, 0));
    CHECK(ticks_are(honduvi_fewest_ticks(NULL, 0, 0), 1, 0, 0));
    CHECK(is(honduvi_best_increases(one_gate, sizeof one_gate, NULL, 0), 10, 4, 0));
    CHECK(is(honduvi_slacks(one_gate, sizeof one_gate, NULL, 0), 10, 1, 0));
    CHECK(curve_is(honduvi_curve(one_gate, sizeof one_gate, NULL, 0, NULL, 0), 10, HONDUVI_MAX_PAIRS, 0, 0, 0));
    CHECK(is(honduvi_judge(one_gate, sizeof one_gate, NULL, 0), 10, 1, 0));
}

static void best_increases(void)
{
    static const uint8_t one_right[5] = {0, 0, 0, 2, 9}, both_right[8] = {0, 0, 0, 3, 0, 0, 0, 0};
    uint8_t one[5] = {9, 9, 9, 9, 9}, both[8];
    CHECK(is(honduvi_best_increases(one_gate, sizeof one_gate, one, sizeof one), 0, 1, 6 * U));
    CHECK(memcmp(one, one_right, sizeof one) == 0);
    CHECK(is(honduvi_best_increases(two_gates, sizeof two_gates, both, sizeof both), 0, 2, 9 * U));
    CHECK(memcmp(both, both_right, sizeof both) == 0);
    CHECK(is(honduvi_best_increases(measured_gates, sizeof measured_gates, both, sizeof both), 0, 2, 9 * 258));
    CHECK(memcmp(both, both_right, sizeof both) == 0);
}

/* the lone gate has 3 ticks to spare, and its step takes 2 of them */
static void other_calls(void)
{
    static uint32_t widths[HONDUVI_MAX_PAIRS];
    static uint64_t gains[HONDUVI_MAX_PAIRS + 1];
    int32_t slacks[2] = {-9, -9};
    const uint32_t list[2] = {2, UINT32_MAX}, wide[1] = {3}, slow[2] = {2, 2};
    gains[1] = 9;
    CHECK(is(honduvi_slacks(one_gate, sizeof one_gate, slacks, 2), 0, 1, 0));
    CHECK(slacks[0] == 3 && slacks[1] == -9);
    CHECK(curve_is(honduvi_curve(one_gate, sizeof one_gate, widths, HONDUVI_MAX_PAIRS, gains, HONDUVI_MAX_PAIRS + 1), 0, 0, 5, 1,
                   0));
    CHECK(widths[0] == 2 && gains[0] == 3 * U && widths[1] == 0 && gains[1] == 9);
    CHECK(is(honduvi_judge(one_gate, sizeof one_gate, list, 2), 0, 0, 6 * U));
    CHECK(is(honduvi_judge(one_gate, sizeof one_gate, wide, 1), 13, 0, 0));
    CHECK(is(honduvi_judge(two_gates, sizeof two_gates, slow, 2), 14, 0, 0));
    CHECK(ticks_are(honduvi_fewest_ticks(one_gate, sizeof one_gate, 3 * U + 1), 0, 0, 2));
    CHECK(ticks_are(honduvi_fewest_ticks(one_gate, sizeof one_gate, UINT64_MAX), 17, 0, 0));
}

/* a block field that counts so many gates, and none of them behind it */
static honduvi_answer counted(int gates)
{
    const uint8_t field[] = {1, 0, 8, 1, (uint8_t)gates, 0, 0, 0, 8, 0, 128};
    return honduvi_slacks(field, sizeof field, NULL, 0);
}

/* 25 gates and a wire from each to each other one, which are 600, then so many bytes */
static honduvi_answer wired(size_t behind)
{
    static uint8_t file[HONDUVI_MAX_BYTES] = {1, 0, 8, 1, 25, 0, 0, 0, 8, 0, 128};
    static const uint8_t gate[] = {2, 0, 4, 0, 0, 0, 128};
    size_t length = 11;
    for (int g = 0; g < 25; g++)
        memcpy(file + length, gate, sizeof gate), length += sizeof gate;
    for (int wire = 0; wire < 25 * 25; wire++) {
        const uint8_t field[] = {3, 0, 2, (uint8_t)(wire / 25), (uint8_t)(wire % 25)};
        if (field[3] != field[4])
            memcpy(file + length, field, sizeof field), length += sizeof field;
    }
    return honduvi_slacks(file, length + behind, NULL, 0);
}

/* the header's counts of gates and wires are those that the library takes */
static void limits(void)
{
    CHECK(is(counted(HONDUVI_MAX_GATES), 1, 11, 0));
    CHECK(is(counted(HONDUVI_MAX_GATES + 1), 4, 0, 0));
    CHECK(HONDUVI_MAX_WIRES == 25 * 24);
    CHECK(is(wired(0), 8, 0, 0));
    CHECK(is(wired(1), 7, 11 + 25 * 7 + 5 * HONDUVI_MAX_WIRES, 0));
}

/* edition 3: 66 gates side by side between the first and the last, every activity 65,535; the last has a step (1,1000) and gains
   66 x 65,535 x 1,000, more than 32 bits hold */
static void large_gain(void)
{
    static uint8_t file[HONDUVI_MAX_BYTES] = {1, 0, 8, 3, 68, 0, 0, 0, 8, 255, 255};
    static const uint8_t gate[] = {2, 0, 4, 0, 0, 255, 255}, last[] = {2, 0, 8, 0, 0, 255, 255, 0, 1, 3, 232};
    static uint32_t widths[HONDUVI_MAX_PAIRS];
    static uint64_t gains[HONDUVI_MAX_PAIRS];
    size_t length = 11;
    for (int g = 0; g < 67; g++)
        memcpy(file + length, gate, sizeof gate), length += sizeof gate;
    memcpy(file + length, last, sizeof last), length += sizeof last;
    for (uint8_t g = 1; g < 67; g++) {
        const uint8_t wires[] = {3, 0, 4, 0, g, 0, 0, 3, 0, 4, g, 67, 0, 0};
        memcpy(file + length, wires, sizeof wires), length += sizeof wires;
    }
    CHECK(curve_is(honduvi_curve(file, length, widths, HONDUVI_MAX_PAIRS, gains, HONDUVI_MAX_PAIRS), 0, 0, 0, 1, 0));
    CHECK(widths[0] == 1 && gains[0] == 4325310000 && widths[1] == 0 && gains[1] == 0);
}

int main(void)
{
    null_pointers();
    best_increases();
    other_calls();
    limits();
    large_gain();
    if (right)
        printf("header: %d answers\n", calls);
    return right ? 0 : 1;
}
