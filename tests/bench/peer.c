/*
 * A reader of raw event files in plain C: the speed peer of the library's Table.
 *
 * Written from the format's rules alone (docs/FORMAT.md), by hand and for speed: one pass over the file, rows stored on the way, nothing
 * allocated. A refused file may leave rows behind in the caller's buffer. The machine is taken to be little-endian.
 */
#include <stddef.h>
#include <stdint.h>
#include <string.h>

/* The answers, from 0. */
enum {
    ACCEPTED, TOO_LARGE, NO_ROOM, NOT_A_FILE, WRONG_FORMAT, WRONG_KIND, WRONG_LENGTH, WRONG_EVENT, MONITORING,
    WRONG_ORDER, WRONG_FIELD, WRONG_COUNT, ROWS_DO_NOT_FIT
};

/* Kind words as they stand in a file; of an event, the upper half. */
enum {
    MAGIC = 0x01020304, CONFIGURATION = 0x00010000, PHONON = 0x00010001, CHARGE = 0x00010002, EVENT = 0xA980,
    ADMINISTRATIVE = 0x02, TRACE = 0x11, TRACE_TIMES = 0x12, TRACE_SAMPLES = 0x13, HISTORY = 0x21, GPS = 0x60,
    TRIGGER = 0x80, TLB = 0x81
};

/* Kinds of rows, from 1. */
enum {
    ROW_HEADER = 1, ROW_CONFIGURATION, ROW_PHONON, ROW_CHARGE, ROW_EVENT, ROW_ADMINISTRATIVE, ROW_TRACE,
    ROW_HISTORY, ROW_GPS, ROW_TRIGGER, ROW_TLB
};

enum { LIMIT = 16777216, ROW = 6 };

#define LIKELY(x) __builtin_expect(!!(x), 1)
#define UNLIKELY(x) __builtin_expect(!!(x), 0)

/* Channels by detector type, a bit for each channel number. All types and channels in use are small. */
enum { TYPES = 12 };
static const uint16_t phonon_channels[TYPES] = {
    [1] = 0x018, [2] = 0x03C, [4] = 0x03C, [5] = 0x03C, [6] = 0x03C, [7] = 0x006, [10] = 0xF3C, [11] = 0xF3C,
};
static const uint16_t charge_channels[TYPES] = {
    [1] = 0x006, [2] = 0x003, [4] = 0x003, [5] = 0x003, [6] = 0x003, [7] = 0x001, [10] = 0x0C3, [11] = 0x0C3,
};
static const uint16_t all_channels[TYPES] = {
    [1] = 0x01E, [2] = 0x03F, [3] = 0x001, [4] = 0x03F, [5] = 0x03F, [6] = 0x03F, [7] = 0x007,
    [10] = 0xFFF, [11] = 0xFFF,
};

static const uint8_t month_days[13] = {0, 31, 28, 31, 30, 31, 30, 31, 31, 30, 31, 30, 31};

/* Word number i of the words at p. */
static inline uint32_t word(const uint8_t *p, size_t i)
{
    uint32_t w;
    memcpy(&w, p + 4 * i, sizeof w);
    return w;
}

/* Whether a detector code names a channel of the given map. The detector's number in the middle is free. */
static inline int has_channel(uint32_t code, const uint16_t *map)
{
    uint32_t channel = code % 1000;

    return code < TYPES * 1000000u && channel < 16 && (map[code / 1000000] >> channel & 1);
}

/* Whether one of the eight digits is above nine. */
static inline int bad_digits(uint32_t bcd)
{
    return (bcd >> 3 & (bcd >> 2 | bcd >> 1) & 0x11111111) != 0;
}

/* The checks below take a structure's contents and their length, and answer 0 or the refusal. */

static inline uint32_t check_administrative(const uint8_t *p, uint32_t length)
{
    if (UNLIKELY(length != 24))
        return WRONG_LENGTH;

    uint32_t series = word(p, 0), time = word(p, 1);
    uint32_t place = series / 1000000, year = series / 10000 % 100;
    uint32_t month = series / 100 % 100, day = series % 100;

    if (place >= 50)
        place -= 50;
    if (place > 7 || !(0xCF >> place & 1))
        return WRONG_FIELD;
    if (month - 1 > 11)
        return WRONG_FIELD;
    if (day - 1 >= month_days[month] + (uint32_t)(month == 2 && year % 4 == 0))
        return WRONG_FIELD;
    if (time > 2359 || time % 100 > 59)
        return WRONG_FIELD;
    return ACCEPTED;
}

static inline uint32_t check_trace(const uint8_t *p, uint32_t length)
{
    if (UNLIKELY(length < 48))
        return WRONG_LENGTH;
    if (UNLIKELY(word(p, 0) != TRACE))
        return WRONG_KIND;
    if (UNLIKELY(word(p, 1) != 12))
        return WRONG_LENGTH;
    if (UNLIKELY(word(p, 3) - 1 > 7))
        return WRONG_FIELD;
    if (UNLIKELY(!has_channel(word(p, 4), all_channels)))
        return WRONG_FIELD;
    if (UNLIKELY(word(p, 5) != TRACE_TIMES))
        return WRONG_KIND;
    if (UNLIKELY(word(p, 6) != 12))
        return WRONG_LENGTH;
    if (UNLIKELY(word(p, 8) == 0))
        return WRONG_FIELD;
    if (UNLIKELY(word(p, 10) != TRACE_SAMPLES))
        return WRONG_KIND;

    uint32_t n = word(p, 11);

    if (UNLIKELY(n != word(p, 9) || n % 2 != 0 || n - 2 > 32766))
        return WRONG_COUNT;
    return LIKELY(length == 48 + 2 * n) ? ACCEPTED : WRONG_LENGTH;
}

/* Also gives the two counts of times. Counts stay below 2^31, so 64 bits hold every product and sum. */
static inline uint32_t check_history(const uint8_t *p, uint32_t length, uint32_t *vetoes, uint32_t *triggers)
{
    if (length < 16 || length % 4 != 0)
        return WRONG_LENGTH;

    uint64_t words = length / 4, at = 0;
    uint32_t times, width;

    times = *vetoes = word(p, 0);
    if (times > INT32_MAX)
        return WRONG_FIELD;
    at += 1 + (uint64_t)times;
    if (at >= words)
        return WRONG_LENGTH;
    width = word(p, at);
    if (width > INT32_MAX || (times == 0) != (width == 0))
        return WRONG_FIELD;
    at += 1 + (uint64_t)times * width;

    if (at >= words)
        return WRONG_LENGTH;
    times = *triggers = word(p, at);
    if (times > INT32_MAX)
        return WRONG_FIELD;
    at += 1 + (uint64_t)times;
    if (at >= words)
        return WRONG_LENGTH;
    width = word(p, at);
    if (width != (times == 0 ? 0 : 6))
        return WRONG_FIELD;
    at += 1 + (uint64_t)times * width;

    return at == words ? ACCEPTED : WRONG_LENGTH;
}

/* Binary coded decimals keep their order, so the bounds are compared as they stand. */
static inline uint32_t check_gps(const uint8_t *p, uint32_t length)
{
    if (length != 12)
        return WRONG_LENGTH;

    uint32_t date = word(p, 0), time = word(p, 1), tenths = word(p, 2);
    uint32_t day = date & 0xFFFF, pair = date >> 16 & 0xFF;

    /* A year divides by four as its last two digits do; a century's year, as its first two. */
    if (pair == 0)
        pair = date >> 24;
    uint32_t leap = ((pair >> 4) * 2 + (pair & 15)) % 4 == 0;

    if (bad_digits(date) || day - 1 >= 0x365 + leap)
        return WRONG_FIELD;
    if (bad_digits(time & 0x0FFFFFFF) || (time & 0x0FFFFFFF) > 0x235959 || (time & 0xFFFF) > 0x5959
        || (time & 0xFF) > 0x59)
        return WRONG_FIELD;
    if (bad_digits(tenths) || tenths > 0x09999999)
        return WRONG_FIELD;
    return ACCEPTED;
}

static inline uint32_t check_trigger(const uint8_t *p, uint32_t length)
{
    if (length != 28)
        return WRONG_LENGTH;
    return word(p, 0) == 0 ? ACCEPTED : WRONG_FIELD;
}

static inline uint32_t check_tlb(const uint8_t *p, uint32_t length)
{
    if (length != 24)
        return WRONG_LENGTH;
    for (uint32_t i = 0; i < 6; i++)
        if (word(p, i) != 0 && word(p, i) >> 24 != i + 1)
            return WRONG_FIELD;
    return ACCEPTED;
}

static inline void put(uint32_t *row, uint32_t kind, size_t start, size_t length, size_t parent, uint32_t first,
                       uint32_t second)
{
    row[0] = kind;
    row[1] = (uint32_t)start;
    row[2] = (uint32_t)length;
    row[3] = (uint32_t)parent;
    row[4] = first;
    row[5] = second;
}

#define REFUSE(number) \
    do { \
        *count = 0; \
        *place = at; \
        return (number); \
    } while (0)

/* The record in hand passes its check; its words are read for the row only after that. */
#define PASS(check) \
    do { \
        uint32_t refusal = (check); \
        if (UNLIKELY(refusal != ACCEPTED)) \
            REFUSE(refusal); \
    } while (0)

/* The record in hand ends inside its event. */
#define INSIDE() \
    do { \
        if (UNLIKELY(size > end - at - 8)) \
            REFUSE(NO_ROOM); \
    } while (0)

/* The record in hand is the event's first with this kind of row. */
#define ONCE(row) \
    do { \
        if (UNLIKELY(seen >> (row) & 1)) \
            REFUSE(WRONG_ORDER); \
        seen |= 1u << (row); \
    } while (0)

/* Fills rows, as many as fit into `capacity` numbers, and answers the number; count and place go out beside it. */
uint32_t peer_table(const uint8_t *file, size_t length, uint32_t *rows, size_t capacity, uint64_t *count,
                    uint64_t *place)
{
    size_t at = 0;                 /* the structure in hand */
    size_t number = 0;             /* rows so far */
    size_t fitting = capacity / ROW;
    uint32_t kind, size;

    if (length > LIMIT)
        REFUSE(TOO_LARGE);

    /* File header. */
    if (length < 8)
        REFUSE(NO_ROOM);
    if (word(file, 0) != MAGIC)
        REFUSE(NOT_A_FILE);
    if ((word(file, 1) & 0xFFFF) != 0x0200)
        REFUSE(WRONG_FORMAT);
    if (number++ < fitting)
        put(rows, ROW_HEADER, 0, 8, 0, word(file, 1), 0);

    /* Configuration and its entries. */
    at = 8;
    if (length - at < 8)
        REFUSE(NO_ROOM);
    if (word(file + at, 0) != CONFIGURATION)
        REFUSE(WRONG_KIND);
    size = word(file + at, 1);
    if (size > length - at - 8)
        REFUSE(NO_ROOM);
    number++;

    size_t end = at + 8 + size;

    for (at += 8; at < end; at += 8 + size) {
        const uint8_t *p = file + at;

        if (end - at < 8)
            REFUSE(NO_ROOM);
        kind = word(p, 0);
        size = word(p, 1);
        if (kind != PHONON && kind != CHARGE)
            REFUSE(WRONG_KIND);
        if (size > end - at - 8)
            REFUSE(NO_ROOM);
        if (size != (kind == PHONON ? 44 : 32))
            REFUSE(WRONG_LENGTH);
        if (!has_channel(word(p, 2), kind == PHONON ? phonon_channels : charge_channels))
            REFUSE(WRONG_FIELD);
        if (number < fitting)
            put(rows + ROW * number, kind == PHONON ? ROW_PHONON : ROW_CHARGE, at, 8 + size, 2, word(p, 2), word(p, 3));
        number++;
    }
    if (fitting >= 2)
        put(rows + ROW, ROW_CONFIGURATION, 8, end - 8, 0, (uint32_t)(number - 2), 0);

    /* Events. */
    while (at < length) {
        const uint8_t *p = file + at;
        size_t event = at;

        if (UNLIKELY(length - at < 8))
            REFUSE(NO_ROOM);
        uint32_t first = word(p, 0);
        if (UNLIKELY(first >> 16 != EVENT))
            REFUSE(WRONG_KIND);
        /* Bit masks of the classes 0 and 2, the categories 0, 1 and 6, the types 0 to 10. */
        if (UNLIKELY(!(0x05 >> (first >> 12 & 15) & 0x43 >> (first >> 8 & 15) & 1) || (first & 0xFF) > 10))
            REFUSE(WRONG_EVENT);
        if (UNLIKELY((first & 0xFF) == 7))
            REFUSE(MONITORING);
        size = word(p, 1);
        if (UNLIKELY(size > length - at - 8))
            REFUSE(NO_ROOM);
        if (UNLIKELY(size == 0))
            REFUSE(WRONG_ORDER);
        end = at + 8 + size;
        number++;

        size_t parent = number;    /* the event's row, counted from 1 */

        /* The first record: administrative, or refused. */
        at += 8;
        p = file + at;
        if (UNLIKELY(end - at < 8))
            REFUSE(NO_ROOM);
        kind = word(p, 0);
        size = word(p, 1);
        if (UNLIKELY(kind != ADMINISTRATIVE)) {
            if (kind != TRACE && kind != HISTORY && kind != GPS && kind != TRIGGER && kind != TLB)
                REFUSE(WRONG_KIND);
            REFUSE(size > end - at - 8 ? NO_ROOM : WRONG_ORDER);
        }
        if (UNLIKELY(size > end - at - 8))
            REFUSE(NO_ROOM);
        PASS(check_administrative(p + 8, size));
        if (LIKELY(number < fitting))
            put(rows + ROW * number, ROW_ADMINISTRATIVE, at, 32, parent, word(p, 4), word(p, 5));
        number++;

        /* The other records. Of those that may stand once, the row kinds already met are bits of `seen`. */
        uint32_t seen = 0;

        for (at += 32; at < end; at += 8 + size) {
            uint32_t row, one, two;

            p = file + at;
            if (UNLIKELY(end - at < 8))
                REFUSE(NO_ROOM);
            kind = word(p, 0);
            size = word(p, 1);

            switch (kind) {
            case TRACE:
                INSIDE();
                PASS(check_trace(p + 8, size));
                row = ROW_TRACE, one = word(p, 6), two = word(p, 11);
                break;
            case HISTORY:
                INSIDE();
                ONCE(ROW_HISTORY);
                PASS(check_history(p + 8, size, &one, &two));
                row = ROW_HISTORY;
                break;
            case GPS:
                INSIDE();
                ONCE(ROW_GPS);
                PASS(check_gps(p + 8, size));
                row = ROW_GPS, one = word(p, 2), two = word(p, 3);
                break;
            case TRIGGER:
                INSIDE();
                ONCE(ROW_TRIGGER);
                PASS(check_trigger(p + 8, size));
                row = ROW_TRIGGER, one = word(p, 3), two = word(p, 4);
                break;
            case TLB:
                INSIDE();
                ONCE(ROW_TLB);
                PASS(check_tlb(p + 8, size));
                row = ROW_TLB, one = word(p, 2), two = word(p, 3);
                break;
            case ADMINISTRATIVE:
                INSIDE();
                REFUSE(WRONG_ORDER);
            default:
                REFUSE(WRONG_KIND);
            }
            if (LIKELY(number < fitting))
                put(rows + ROW * number, row, at, 8 + size, parent, one, two);
            number++;
        }
        if (LIKELY(parent <= fitting))
            put(rows + ROW * (parent - 1), ROW_EVENT, event, end - event, 0, first & 0xFFFF,
                (uint32_t)(number - parent));
    }

    *count = number;
    *place = length;
    return number <= fitting ? ACCEPTED : ROWS_DO_NOT_FIT;
}
