/* first FILE: the traces of a raw file, with their channels and first samples; of a refused file where and why it is refused.
 * Exit status: 0 accepted, 1 refused, 2 no file. docs/CALLS.md shows it; tests/snippets compiles it and runs it. */
#include "dwejrasq.h"
#include <inttypes.h>
#include <stdio.h>
#include <stdlib.h>

static int refused(uint32_t number, uint64_t place) {
    printf("refused: number %" PRIu32 " at byte %" PRIu64 "\n", number, place);
    return 1;
}

int main(int argc, char **argv) {
    /* The whole file, and room for its rows: no more than one for each eight bytes, six numbers each. */
    FILE *from = argc == 2 ? fopen(argv[1], "rb") : NULL;
    long size = from && fseek(from, 0, SEEK_END) == 0 ? ftell(from) : -1;
    size_t length = size < 0 ? 0 : (size_t)size, room = length / 8 * 6;
    uint8_t *file = malloc(length + 1);
    uint32_t *rows = calloc(room + 1, sizeof *rows);
    if (size < 0 || !file || !rows || fseek(from, 0, SEEK_SET) != 0 || fread(file, 1, length, from) != length) {
        fprintf(stderr, "first: a file that can be read is asked for\n");
        return 2;
    }

    uint64_t count, place;
    uint32_t number = dwj_table(file, length, rows, room, &count, &place);
    if (number != 0) return refused(number, place);
    printf("accepted: %" PRIu64 " rows\n", count);
    for (const uint32_t *row = rows; row < rows + 6 * count; row += 6) {
        if (row[0] != 7) continue; /* no trace; of a trace row[1] is the place and row[4] the code */
        uint32_t detector[4], sample;
        uint8_t name[4], cold[4];
        number = dwj_channel(row[4], detector, name, cold);
        if (number != 0) return refused(number, row[1]);
        number = dwj_sample(file, length, row[1], 1, &sample, &place);
        if (number != 0) return refused(number, place);
        printf("byte %" PRIu32 ": code %" PRIu32 ", channel %.*s, ", row[1], row[4], (int)detector[2], (char *)name);
        printf("first sample %" PRIu32 "\n", sample);
    }
    return 0;
}
