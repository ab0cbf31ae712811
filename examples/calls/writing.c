/* writing FILE: every call of the writers, from C. It assembles a small file in memory, which has each kind once, and writes FILE, any file, again
 * from its fields. Exit status: 0 done, 1 refused, 2 no file. docs/CALLS.md shows lines of it; tests/snippets compiles it and runs it;
 * writing.expected is what it prints of examples/every-kind.raw. */
#include "dwejrasq.h"
#include <inttypes.h>
#include <stdio.h>
#include <stdlib.h>
#include <string.h>

/* All bytes of a file, and how many they are; NULL where it can't be read. */
static uint8_t *whole(const char *name, size_t *length) {
    FILE *from = fopen(name, "rb");
    if (!from) return NULL;
    long size = fseek(from, 0, SEEK_END) == 0 ? ftell(from) : -1;
    *length = size < 0 ? 0 : (size_t)size;
    uint8_t *bytes = size < 0 ? NULL : malloc(*length + 1); /* one more: a file of no bytes needs a pointer too */
    if (bytes && (fseek(from, 0, SEEK_SET) != 0 || fread(bytes, 1, *length, from) != *length)) {
        free(bytes);
        bytes = NULL;
    }
    fclose(from);
    return bytes;
}

static int refused(const char *call, uint32_t number, uint64_t place) {
    printf("%s: refused, number %" PRIu32 " at byte %" PRIu64 "\n", call, number, place);
    return 1;
}

/* A file in an output of so many bytes: 0, and *end is its length; or the first refusal, after which nothing more is written. Each call gives the
 * place behind what it wrote. A container is closed over eight free bytes and what was written behind them. */
static uint32_t assembled(uint8_t *out, size_t room, uint64_t *end, uint64_t *refused_at) {
    uint64_t at = 0, start;
    uint32_t number = dwj_write_header(out, room, 1, 0, &at, refused_at);

    /* A configuration of two entries. */
    const int32_t phonon[11] = {11017002, 2, 1050, 325, -333, 0, 7, 2, 800, -51200, 4};
    const int32_t charge[8] = {11017006, 2, 4001, -3000, 9, 800, -51200, 4};
    start = at;
    if (!number) number = dwj_write_phonon(out, room, start + 8, phonon, &at, refused_at);
    if (!number) number = dwj_write_charge(out, room, at, charge, &at, refused_at);
    if (!number) number = dwj_close_configuration(out, room, start, at, &at, refused_at);

    /* An event of all six record kinds, administrative first; lent bytes stand as in a file. */
    const uint32_t administrative[6] = {1100115, 1630, 7, 1263573000, 0, 0};
    const uint8_t samples[8] = {0xD0, 0x07, 0xD1, 0x07, 0xD3, 0x07, 0xD0, 0x07};
    const uint8_t time[4] = {0x88, 0xFF, 0xFF, 0xFF}, mask[4] = {0x01, 0x00, 0x00, 0x00};
    const uint32_t gps[7] = {2010, 15, 0, 16, 30, 0, 1234567}, trigger[6] = {4, 16, 0, 0, 0, 0};
    const uint32_t tlb[6] = {0x01000004, 0x02000000, 0x03000000, 0x04000000, 0x05000000, 0};
    start = at;
    if (!number) number = dwj_write_administrative(out, room, start + 8, administrative, &at, refused_at);
    if (!number) number = dwj_write_trace(out, room, at, 0xA000, 1, 11017002, -51200, 800, 4, samples, 8, &at, refused_at);
    if (!number) number = dwj_write_history(out, room, at, 1, time, 4, 1, mask, 4, 0, mask, 0, 0, mask, 0, &at, refused_at);
    if (!number) number = dwj_write_gps(out, room, at, gps, &at, refused_at);
    if (!number) number = dwj_write_trigger(out, room, at, trigger, &at, refused_at);
    if (!number) number = dwj_write_tlb(out, room, at, tlb, &at, refused_at);
    if (!number) number = dwj_close_event(out, room, start, at, 0, 0, 0, &at, refused_at);
    *end = at;
    return number;
}

int main(int argc, char **argv) {
    size_t length = 0;
    uint8_t *file = argc == 2 ? whole(argv[1], &length) : NULL;
    if (!file) {
        fprintf(stderr, "writing: a file that can be read is asked for\n");
        return 2;
    }

    /* 13: what is written doesn't fit, so the output is made larger and written anew. Over 16,777,216 bytes it would be 1. */
    size_t room = 64;
    uint8_t *out = NULL;
    uint64_t end, refused_at;
    uint32_t number;
    do {
        free(out);
        room *= 2;
        out = malloc(room);
        if (!out) return 2;
        number = assembled(out, room, &end, &refused_at);
    } while (number == 13);
    if (number != 0) return refused("assembling", number, refused_at);

    /* The reader takes it. */
    uint64_t count, place;
    uint32_t *rows = calloc(6 * (end / 8) + 1, sizeof *rows);
    if (!rows) return 2;
    number = dwj_table(out, end, rows, 6 * (end / 8), &count, &place);
    if (number != 0) return refused("table", number, place);
    printf("assembled: %" PRIu64 " bytes, %" PRIu64 " rows\n", end, count);

    /* Rewrite: the file's fields, read and written again; an output as long as the file is enough. */
    uint8_t *again = malloc(length + 1);
    if (!again) return 2;
    number = dwj_rewrite(file, length, again, length, &end, &refused_at);
    if (number != 0) return refused("rewrite", number, refused_at);
    printf("rewritten: %" PRIu64 " bytes, %s\n", end, end == length && memcmp(again, file, length) == 0 ? "the same" : "another file");

    free(again);
    free(rows);
    free(out);
    free(file);
    return 0;
}
