/* The library's calls on a block file. Link with liblayout.a or libhonduvi.so (x86-64). docs/FORMAT.md has the file's bytes. */

#ifndef HONDUVI_H
#define HONDUVI_H

#include <stddef.h>
#include <stdint.h>

#ifdef __cplusplus
extern "C" {
#endif

/* The most gates and wires of a block, and the most pairs of its curve. No file of more than HONDUVI_MAX_BYTES bytes is
   accepted. */
#define HONDUVI_MAX_GATES 200
#define HONDUVI_MAX_WIRES 600
#define HONDUVI_MAX_PAIRS 1600
#define HONDUVI_MAX_BYTES 16384

/* Every call reads the block file of file_len bytes, of edition 1, 2 or 3, and returns its answer by value. number 0:
   accepted. Any other number: refused; place says where, all else in the answer is 0, and no lent element is changed. Where
   several refusals fit, that of the first field at fault comes first; within a field 7, a header cut short (1), 2, 3, a body
   cut short (1), 4, 5, 6. Behind the fields the first that fits in the call's line:

     best increases  8, 9, 10, 11, 12
     slacks          8, 9, 10
     curve           8, 9, 10, 11
     judge           8, 9, 10, 13, 14
     fewest ticks    8, 9, 11, 17

   A byte offset is that of the field's tag, or the end of the file where no byte is left.

    1  place: byte offset   a due block or gate field is missing, or a header or body passes the end
    2  place: byte offset   the tag is not the one due
    3  place: byte offset   the length is not one of that tag's in that edition
    4  place: byte offset   a number is out of its range
    5  place: byte offset   drops do not fall strictly
    6  place: byte offset   a wire joins a gate to itself, or stood before, whatever its delay
    7  place: byte offset   a byte follows HONDUVI_MAX_WIRES wires
    8  place: lowest gate on a loop
    9  place: lowest gate with a wire where it must have none, or none where it must have one
   10  place: length due   a lent area is shorter than 4n bytes (best increases), n elements (slacks, judge) or
                           HONDUVI_MAX_PAIRS elements (either of the curve's); n is the gate count
   11  place: lowest gate left, other than 0 and n - 1, when gates with one wire in and one wire out are taken away,
              joining the two wires, and doubled wires merged, until neither applies; the block is not series-parallel
   12  place: 0             the block is late: even without increases a path misses the deadline
   13  place: lowest gate whose increase exceeds the sum of its widths
   14  place: 0             with the increases a path misses the deadline
   17  place: 0             no number of spare ticks reaches the wanted saving

   Memory: file_len is in bytes, every other length in elements of the pointer's type. A null pointer is allowed with length 0
   only. Pointers to int32_t and uint32_t are aligned to 4 bytes, those to uint64_t to 8. The areas of one call may not overlap.
   A call writes what is said of it below and nothing else; it keeps nothing, allocates nothing and always returns, so that
   several threads may call at once. 192 KiB of stack are enough, by measurement. */

/* best increases: place n, the saving. slacks: place n, saving 0. judge: place 0, the saving. */
typedef struct {
    uint32_t number;
    uint32_t place;
    uint64_t saving;
} honduvi_answer;

/* place 0; start, how many pairs were written, and the saving at start. */
typedef struct {
    uint32_t number;
    uint32_t place;
    uint32_t start;
    uint32_t pairs;
    uint64_t at_start;
} honduvi_curve_answer;

/* place 0; the ticks. */
typedef struct {
    uint32_t number;
    uint32_t place;
    uint64_t ticks;
} honduvi_ticks_answer;

/* The best increases of the block's gates and what they save. Writes 4n bytes: four for each gate in order, high byte first.
   Of lists that save as much, the best is the one with the smaller increase at the highest gate at which they differ.
   4 * HONDUVI_MAX_GATES bytes are enough for every block. */
honduvi_answer honduvi_best_increases(const uint8_t *file, size_t file_len, uint8_t *increases, size_t increases_len);

/* The slacks of the gates before increases, negative where a path through the gate is late. Writes n elements.
   HONDUVI_MAX_GATES elements are enough for every block. The block need not be series-parallel. */
honduvi_answer honduvi_slacks(const uint8_t *file, size_t file_len, int32_t *slacks, size_t slacks_len);

/* The saving curve: with 0 spare ticks the best list saves at_start; of the ticks beyond, the first widths[0] save gains[0]
   each, the next widths[1] save gains[1] each, and so on; more ticks save nothing. Gains fall strictly. start is how long the
   longest path lasts without increases; the block's own arrival and deadline play no part. Writes `pairs` elements to each
   area. Both need HONDUVI_MAX_PAIRS elements. */
honduvi_curve_answer honduvi_curve(const uint8_t *file, size_t file_len, uint32_t *widths, size_t widths_len,
                                   uint64_t *gains, size_t gains_len);

/* The verdict on a list of increases, one for each gate, and what it saves. Reads n elements, of any value; those beyond play
   no part. Writes nothing. The block need not be series-parallel. */
honduvi_answer honduvi_judge(const uint8_t *file, size_t file_len, const uint32_t *increases, size_t increases_len);

/* The fewest spare ticks with which some list saves at least `wanted`. The block's own arrival and deadline play no part.
   Writes nothing. */
honduvi_ticks_answer honduvi_fewest_ticks(const uint8_t *file, size_t file_len, uint64_t wanted);

#ifdef __cplusplus
}
#endif

#endif
