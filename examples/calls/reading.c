/* reading FILE: every call of the reader, from C, on any file. Exit status: 0 accepted, 1 refused, 2 no file. docs/CALLS.md shows lines of it;
 * tests/snippets compiles it and runs it; reading.expected is what it prints of examples/every-kind.raw. */
#include "dwejrasq.h"
#include <inttypes.h>
#include <stdio.h>
#include <stdlib.h>

/* Kinds of rows. */
enum { PHONON = 3, CHARGE = 4, EVENT = 5, TRACE = 7, TLB = 11 };
/* Rows that the visitor is lent room for. Each of its calls checks the file, so that many small pieces take long. */
enum { PIECE = 8192 };

/* All bytes of a file, and how many they are; NULL where it can't be read. */
static uint8_t *whole(const char *name, size_t *length) {
    FILE *from = fopen(name, "rb");
    if (!from) return NULL;
    long size = fseek(from, 0, SEEK_END) == 0 ? ftell(from) : -1;
    *length = size < 0 ? 0 : (size_t)size;
    uint8_t *bytes = size < 0 ? NULL : malloc(*length + 1); /* one more: a file of no bytes needs a pointer too */
    if (bytes && (fseek(from, 0, SEEK_SET) != 0 || fread(bytes, 1, *length, from) != *length)) {
        free(bytes);
        bytes = NULL;
    }
    fclose(from);
    return bytes;
}

static int refused(const char *call, uint32_t number, uint64_t place) {
    printf("%s: refused, number %" PRIu32 " at byte %" PRIu64 "\n", call, number, place);
    return 1;
}

/* The first row of one of two kinds, or NULL. */
static const uint32_t *first_of(uint32_t kind, uint32_t other, const uint32_t *rows, uint64_t count) {
    for (const uint32_t *row = rows; row < rows + 6 * count; row += 6)
        if (row[0] == kind || row[0] == other) return row;
    return NULL;
}

int main(int argc, char **argv) {
    size_t length = 0;
    uint8_t *file = argc == 2 ? whole(argv[1], &length) : NULL;
    /* Room for the rows: no more than one for each eight bytes, six numbers each. */
    size_t room = 6 * (length / 8);
    uint32_t *rows = calloc(room + 1, sizeof *rows);
    if (!file || !rows) {
        fprintf(stderr, "reading: a file that can be read is asked for\n");
        return 2;
    }

    /* Table: the whole file is checked; its rows. */
    uint64_t count, place, refused_at;
    uint32_t number = dwj_table(file, length, rows, room, &count, &place);
    if (number != 0) return refused("table", number, place);
    printf("table: %" PRIu64 " rows in %" PRIu64 " bytes\n", count, place);

    /* A row is a trace, an entry or a TLB record only where its kind says so; a file may have none of them. */
    const uint32_t *trace = first_of(TRACE, TRACE, rows, count);
    const uint32_t *entry = first_of(PHONON, CHARGE, rows, count);
    const uint32_t *tlb = first_of(TLB, TLB, rows, count);

    if (trace) {
        /* Record: the fields of the record at a place. */
        int64_t values[12];
        number = dwj_record(file, length, trace[1], values, &refused_at);
        if (number != 0) return refused("record", number, refused_at);
        uint32_t code = (uint32_t)values[3], last = (uint32_t)values[6];
        printf("record: code %" PRIu32 ", t0 %" PRId64 " ns, %" PRIu32 " samples\n", code, values[4], last);

        /* Samples: where they stand in the file, two bytes each; and one of them by its number, from 1. */
        uint64_t offset, size;
        dwj_samples(file, length, trace[1], &offset, &size);
        uint32_t sample;
        number = dwj_sample(file, length, trace[1], last, &sample, &refused_at);
        if (number != 0) return refused("sample", number, refused_at);
        printf("samples: %" PRIu64 " bytes from byte %" PRIu64 " on; the last is %" PRIu32 "\n", size, offset, sample);

        /* Channel and Code: a code's names, and back. */
        uint32_t numbers[4], again;
        uint8_t analysis[4], cold[4];
        number = dwj_channel(code, numbers, analysis, cold);
        if (number != 0) return refused("channel", number, 0);
        number = dwj_code(numbers[0], numbers[1], analysis, numbers[2], &again);
        if (number != 0) return refused("code", number, 0);
        printf("channel: type %" PRIu32 ", detector %" PRIu32 ", ", numbers[0], numbers[1]);
        printf("%.*s; code %" PRIu32 "\n", (int)numbers[2], (char *)analysis, again);

        /* Find: the first trace with a code in an event with a number, which stands in the row behind the event's; place 0 is nothing. */
        uint32_t event_number = rows[6 * trace[3] + 4];
        number = dwj_find(file, length, event_number, code, &place, &refused_at);
        if (number != 0) return refused("find", number, refused_at);
        if (place != 0) printf("find: event number %" PRIu32 ", byte %" PRIu64 "\n", event_number, place);
    } else {
        printf("no trace\n");
    }

    if (entry) {
        /* Setting: an entry in working units; of a charge entry units[0] alone. */
        int64_t setting[8];
        double units[4];
        number = dwj_setting(file, length, entry[1], setting, units, &refused_at);
        if (number != 0) return refused("setting", number, refused_at);
        printf("setting: code %" PRId64 ", tower %" PRId64 ", gain %.2f\n", setting[1], setting[2], units[0]);
        if (setting[0] == PHONON) printf("setting: QET bias %.2f, SQUID bias %.2f, lockpoint %.2f\n", units[1], units[2], units[3]);
    } else {
        printf("no entry\n");
    }

    /* ZIP: which bits the word of the first tower has, row[4] of a TLB record. */
    for (uint32_t zip = 1; tlb && zip <= 24; zip++)
        if (dwj_zip(tlb[4], zip)) printf("zip: %" PRIu32 " of the first tower\n", zip);

    /* Walker: a row at a time; kind 0 is the end. */
    uint64_t walker[6], events = 0;
    uint32_t row[6];
    number = dwj_open(file, length, walker, row, &refused_at);
    while (number == 0 && row[0] != 0) {
        events += row[0] == EVENT;
        number = dwj_next(file, length, walker, row, &refused_at);
    }
    if (number != 0) return refused("walker", number, refused_at);
    printf("walker: %" PRIu64 " events\n", events);

    /* Visitor: many rows at a time, from the number first on; none are left where *count is 0. */
    static uint32_t piece[6 * PIECE];
    uint64_t first = 0, traces = 0;
    do {
        number = dwj_visit(file, length, first, piece, 6 * PIECE, &count, &place);
        if (number != 0) return refused("visitor", number, place);
        for (uint64_t i = 0; i < count; i++) traces += piece[6 * i] == TRACE;
        first += count;
    } while (count != 0);
    printf("visitor: %" PRIu64 " rows, %" PRIu64 " of them traces\n", first, traces);

    free(rows);
    free(file);
    return 0;
}
