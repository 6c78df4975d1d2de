/* How much stack each call takes on the blocks that nest deepest, in every edition: stack BYTES [GATES] fails where one takes more
   on blocks of the most gates, or of so many. */

#define _GNU_SOURCE
#include "honduvi.h"

#include <stdio.h>
#include <stdlib.h>
#include <string.h>
#include <ucontext.h>

#define STACK (1 << 20)
#define PAINT 0xa5

static uint8_t file[HONDUVI_MAX_BYTES];
static size_t length;
static int edition, gates = HONDUVI_MAX_GATES;
static ucontext_t caller, callee;

static void put(uint8_t byte)
{
    file[length++] = byte;
}

/* from edition 2 on with a delay of 1 */
static void put_wire(int from, int to)
{
    put(3), put(0), put(edition == 1 ? 2 : 4), put((uint8_t)from), put((uint8_t)to);
    if (edition != 1)
        put(0), put(1);
}

/* the block field and the gates, each of delay 1 with one step, deadline 1,000; p 128, in edition 3 activity 128 */
static void put_gates(void)
{
    static const uint8_t gate[] = {2, 0, 8, 0, 1, 0, 128, 0, 4, 0, 9};
    const uint8_t block[] = {1, 0, 8, (uint8_t)edition, (uint8_t)gates, 0, 0, 3, 232, 0, 128};
    length = 0;
    memcpy(file, block, sizeof block), length += sizeof block;
    for (int g = 0; g < gates; g++)
        memcpy(file + length, gate, sizeof gate), length += sizeof gate;
}

static void chain(void)
{
    for (int g = 0; g + 1 < gates; g++)
        put_wire(g, g + 1);
}

/* every gate of the chain also leads to the last: a part beside a wire, in series, beside a wire, and so on */
static void ladder(void)
{
    chain();
    for (int g = 0; g + 2 < gates; g++)
        put_wire(g, gates - 1);
}

/* the first gate also leads to every gate of the chain */
static void ladder_from_first(void)
{
    chain();
    for (int g = 2; g < gates; g++)
        put_wire(0, g);
}

/* the chain, and a wire from each gate of its first half to the one as far from the other end: a part inside another and so on */
static void nested(void)
{
    chain();
    for (int g = 0; g + 1 < gates - 1 - g; g++)
        put_wire(g, gates - 1 - g);
}

static void beside(void)
{
    for (int g = 1; g + 1 < gates; g++)
        put_wire(0, g), put_wire(g, gates - 1);
}

static void expect(int holds)
{
    if (!holds)
        puts("stack: a block was answered otherwise than it should be"), exit(1);
}

static void best_increases(void)
{
    static uint8_t increases[4 * HONDUVI_MAX_GATES];
    expect(honduvi_best_increases(file, length, increases, sizeof increases).number == 0);
}

static void slacks(void)
{
    static int32_t slacks[HONDUVI_MAX_GATES];
    expect(honduvi_slacks(file, length, slacks, HONDUVI_MAX_GATES).number == 0);
}

static void curve(void)
{
    static uint32_t widths[HONDUVI_MAX_PAIRS];
    static uint64_t gains[HONDUVI_MAX_PAIRS];
    expect(honduvi_curve(file, length, widths, HONDUVI_MAX_PAIRS, gains, HONDUVI_MAX_PAIRS).number == 0);
}

static void judge(void)
{
    static const uint32_t increases[HONDUVI_MAX_GATES];
    expect(honduvi_judge(file, length, increases, HONDUVI_MAX_GATES).number == 0);
}

/* nothing wanted, a little, and more than there is, so that the whole curve is passed */
static void fewest_ticks(void)
{
    expect(honduvi_fewest_ticks(file, length, 0).number == 0);
    expect(honduvi_fewest_ticks(file, length, 1).number == 0);
    expect(honduvi_fewest_ticks(file, length, UINT64_MAX).number == 17);
}

static void nothing(void)
{
}

/* the bytes of a painted stack that a function overwrote */
static size_t taken(void (*function)(void))
{
    static uint8_t *stack;
    if (stack == NULL && (stack = malloc(STACK)) == NULL)
        puts("stack: no memory"), exit(1);
    memset(stack, PAINT, STACK);
    getcontext(&callee);
    callee.uc_stack.ss_sp = stack;
    callee.uc_stack.ss_size = STACK;
    callee.uc_link = &caller;
    makecontext(&callee, function, 0);
    swapcontext(&caller, &callee);
    size_t free = 0;
    while (free < STACK && stack[free] == PAINT)
        free++;
    return STACK - free;
}

/* the most that a call takes on a block of any shape, in any edition */
static size_t most_taken(void (*call)(void))
{
    static void (*const shapes[])(void) = {chain, beside, ladder, ladder_from_first, nested};
    size_t most = 0;
    for (edition = 1; edition <= 3; edition++)
        for (size_t i = 0; i < sizeof shapes / sizeof shapes[0]; i++) {
            put_gates();
            shapes[i]();
            size_t bytes = taken(call) - taken(nothing);
            most = bytes > most ? bytes : most;
        }
    return most;
}

int main(int count, char **arguments)
{
    static const struct {
        const char *name;
        void (*call)(void);
    } calls[] = {{"best increases", best_increases},
                 {"slacks", slacks},
                 {"curve", curve},
                 {"judge", judge},
                 {"fewest ticks", fewest_ticks}};
    size_t most = count > 1 ? strtoul(arguments[1], NULL, 10) : 0;
    int right = 1;
    if (count > 2)
        gates = atoi(arguments[2]);
    printf("stack: the most bytes on %d gates in a chain, side by side, in ladders and nested, editions 1 to 3", gates);
    for (size_t i = 0; i < sizeof calls / sizeof calls[0]; i++) {
        size_t bytes = most_taken(calls[i].call);
        printf("%s %s %zu", i == 0 ? ":" : ",", calls[i].name, bytes);
        right = right && bytes <= most;
    }
    puts("");
    if (!right)
        printf("stack: more than %zu bytes\n", most);
    return right ? 0 : 1;
}
