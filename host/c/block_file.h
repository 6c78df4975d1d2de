/* Reading a block file, for the examples. */

#ifndef BLOCK_FILE_H
#define BLOCK_FILE_H

#include "honduvi.h"

#include <stdio.h>
#include <stdlib.h>

/* How many bytes were read to `file`, which has HONDUVI_MAX_BYTES; of a longer one, which is refused however it goes on, these.
   Where none can be read, the program ends with status 2. */
static size_t read_block_file(const char *name, uint8_t *file)
{
    FILE *stream = fopen(name, "rb");
    size_t length = stream == NULL ? 0 : fread(file, 1, HONDUVI_MAX_BYTES, stream);
    if (stream == NULL || ferror(stream)) {
        perror(name);
        exit(2);
    }
    fclose(stream);
    return length;
}

/* The status of a program that has printed all of its answer: 2 where that could not be written. */
static int written(int status)
{
    if (fflush(stdout) == 0 && !ferror(stdout))
        return status;
    perror("standard output");
    return 2;
}

#endif
