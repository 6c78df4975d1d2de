/* Reads a block file and prints the best increase of each gate: example FILE */

#include "block_file.h"
#include "honduvi.h"

#include <inttypes.h>

/* Four bytes, high byte first. */
static uint32_t increase_of(const uint8_t *increases, size_t gate)
{
    const uint8_t *at = increases + 4 * gate;
    return (uint32_t)at[0] << 24 | (uint32_t)at[1] << 16 | (uint32_t)at[2] << 8 | (uint32_t)at[3];
}

int main(int count, char **arguments)
{
    static uint8_t file[HONDUVI_MAX_BYTES];
    uint8_t increases[4 * HONDUVI_MAX_GATES];

    if (count != 2) {
        fprintf(stderr, "usage: example FILE\n");
        return 2;
    }
    size_t length = read_block_file(arguments[1], file);
    honduvi_answer answer = honduvi_best_increases(file, length, increases, sizeof increases);
    if (answer.number != 0) {
        printf("refused %" PRIu32 " %" PRIu32 "\n", answer.number, answer.place);
        return written(1);
    }
    printf("saving %" PRIu64 "\n", answer.saving);
    for (size_t gate = 0; gate < answer.place; gate++)
        printf("%zu %" PRIu32 "\n", gate, increase_of(increases, gate));
    return written(0);
}
