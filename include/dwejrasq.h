/* The reader's and the writers' calls for C. Every call takes any bytes and any numbers and ends. docs/CALLS.md has programs that use them.
 *
 * A call's result is 0 where it is accepted, or one of the refusal numbers below. Three calls are otherwise: dwj_zip answers a bit, dwj_samples has no
 * result, and dwj_next, handed numbers that no dwj_open gave, answers the refusal number that stands in them, be it one of these or none.
 *
 *    1  the file, or the output, has more than 16,777,216 bytes
 *    2  too few bytes are left: a structure's two words have no room, or it runs past what holds it
 *    3  the file doesn't begin with the word 0x01020304
 *    4  the file isn't of format 2.0
 *    5  a kind that may not stand here, in a structure's first word or inside a trace, or an event's word without 0xA980
 *    6  a length that doesn't go with the kind, or with the counts inside
 *    7  an event's class, category or type isn't admitted
 *    8  an event of type 7, which isn't read
 *    9  an event has no records, doesn't begin with its administrative record, or has a kind twice that may stand in it once
 *   10  a field is outside its rule
 *   11  a trace's count of samples is odd, under 2, over 32,768 or unlike the count that repeats it; or no sample has this number
 *   12  the rows need more room than was lent
 *   13  a place or an end isn't in the output, an end leaves no eight bytes behind its place, or the output has too little room
 *
 * The place of 1 is always 0.
 *
 * What a caller must see to, since C cannot check it:
 *  - each pointer is valid for the length given with it, or for the length named here, and aligned for its type; a length of 0
 *    still needs a pointer that is not null: dwj_table(file, length, NULL, 0, ..) is not allowed (dwj_table says what is);
 *  - no lent buffer overlaps another, or the file;
 *  - no other thread or process changes the file or a lent buffer during the call; a mapped file is changed by whoever writes to it.
 * No call keeps a pointer, allocates, or writes to the file, and none has a state of its own: calls may run in several threads at once, on the same
 * file too, as long as each has its own buffers and numbers to write into.
 */
#ifndef DWEJRASQ_H
#define DWEJRASQ_H

#include <stddef.h>
#include <stdint.h>

/* The version, as the file VERSION has it; CHANGELOG.md says what a caller must know of each. */
#define DWJ_VERSION "0.5.0"
#define DWJ_VERSION_MAJOR 0
#define DWJ_VERSION_MINOR 5
#define DWJ_VERSION_PATCH 0

/* The longest file and the longest output, in bytes. */
#define DWJ_LONGEST 16777216

/* The refusal numbers. */
#define DWJ_TOO_LARGE 1
#define DWJ_TOO_SHORT 2
#define DWJ_NOT_A_FILE 3
#define DWJ_WRONG_FORMAT 4
#define DWJ_WRONG_KIND 5
#define DWJ_WRONG_LENGTH 6
#define DWJ_NOT_ADMITTED 7
#define DWJ_MONITORING 8
#define DWJ_MISPLACED 9
#define DWJ_WRONG_FIELD 10
#define DWJ_WRONG_COUNT 11
#define DWJ_FEW_ROWS 12
#define DWJ_NO_ROOM 13

/* The row kinds, and what a row's two values are for each:
 *    1  file header     version word: DAQ major and minor, format major and minor, from the highest byte down; 0
 *    2  configuration   count of its entries; 0
 *    3  phonon entry    detector code; tower, as an unsigned number (-1 is 4,294,967,295)
 *    4  charge entry    detector code; tower, as an unsigned number
 *    5  event           class in bits 12 to 15, category in 8 to 11, type in 0 to 7; count of its records
 *    6  administrative  event number; event time, seconds from 1970 on
 *    7  trace           detector code; count of samples
 *    8  history         count of veto times; count of trigger times
 *    9  GPS             a decimal digit in four bits: year and day, four digits each; status in the top four bits, a 0, then hour, minute and
 *                       second, two digits each
 *   10  trigger         first mask; second mask
 *   11  TLB             word of the first tower; of the second
 */
#define DWJ_HEADER 1
#define DWJ_CONFIGURATION 2
#define DWJ_PHONON 3
#define DWJ_CHARGE 4
#define DWJ_EVENT 5
#define DWJ_ADMINISTRATIVE 6
#define DWJ_TRACE 7
#define DWJ_HISTORY 8
#define DWJ_GPS 9
#define DWJ_TRIGGER 10
#define DWJ_TLB 11

#ifdef __cplusplus
extern "C" {
#endif

/* Table: checks the whole file and fills its rows, six numbers each:
 *   kind, start, length in bytes, number of the parent's row from 1 (0 at the top), value one, value two.
 * rows_length counts numbers, not rows; 6 * (file_length / 8) are room for all rows of any file. *count and *place are always written.
 *   0   *count rows stand first in rows, the rest of it is unchanged, *place is file_length
 *   12  *count is the rows needed, *place is file_length, rows is unchanged
 *   else  *count is 0, *place is where the file is refused, rows is unchanged
 * To ask only whether a file is accepted, and how many rows it has, lend room for no row: any pointer that isn't null, with rows_length 0. An
 * accepted file, which has two rows at least, then gives 12 and *count; a refused one its refusal.
 */
uint32_t dwj_table(const uint8_t *file, size_t file_length, uint32_t *rows, size_t rows_length, uint64_t *count, uint64_t *place);

/* Record: the record or entry at a place of the file, without an event's rules. On 0 values[0] is the row kind, then the fields in
 * this order, then zeros up to twelve; *refused_at is unchanged. On a refusal values is unchanged and *refused_at is its place.
 *    3  phonon: code, tower; gain, QET bias, SQUID bias and lockpoint, these four x100; RTF offset, variable gain, delta t (ns), t0 (ns),
 *       trace length (samples)
 *    4  charge: code, tower, gain x100, bias, RTF offset, delta t, t0, trace length
 *    6  administrative: the series as LLYYMMDD and HHMM, event number, event time, milliseconds since the last event, live milliseconds
 *    7  trace: base address, digitizer channel, detector code, t0 (ns), delta t (ns), count of samples
 *    8  history (times in microseconds, signed words): count of veto times, where they start, words of a veto mask, where the masks start; the same four for the trigger;
 *       a start is a place of the file. A list that is empty starts behind its count or width: where the next word stands, or the record ends
 *    9  GPS: year, day, status, hour, minute, second, tenths of a microsecond
 *   10  trigger: six masks
 *   11  TLB: six words, by tower
 * Entry words, and a trace's t0, are signed.
 */
uint32_t dwj_record(const uint8_t *file, size_t file_length, size_t place, int64_t values[12], uint64_t *refused_at);

/* Setting: an entry in working units; Record's refusals, then 5 there for another kind. On 0 *refused_at is unchanged; on a refusal whole and
 * units are unchanged, both of them, and *refused_at is its place.
 *    3  phonon: whole = 3, code, tower, RTF offset, variable gain, delta t, t0, trace length;
 *       units = gain, QET bias, SQUID bias, lockpoint
 *    4  charge: whole = 4, code, tower, bias, RTF offset, delta t, t0, trace length; units = gain, 0, 0, 0
 */
uint32_t dwj_setting(const uint8_t *file, size_t file_length, size_t place, int64_t whole[8], double units[4], uint64_t *refused_at);

/* Samples: of the trace at a place, the part of the file that holds its samples: *size bytes from *offset on. Both are 0 where Record
 * finds no trace there; nothing is refused. A sample has 16 bits, the lower byte first, and the earlier sample stands first: sample k, from 1, is
 * file[*offset + 2 * (k - 1)] + 256 * file[*offset + 2 * (k - 1) + 1].
 */
void dwj_samples(const uint8_t *file, size_t file_length, size_t place, uint64_t *offset, uint64_t *size);

/* Sample: of the trace at a place, the sample with a number, from 1. Record's refusals; then, at the place asked, 5 for another kind and
 * 11 for a number out of range. On a refusal *value is unchanged and *refused_at is its place, on 0 *refused_at is unchanged.
 */
uint32_t dwj_sample(const uint8_t *file, size_t file_length, size_t place, size_t number, uint32_t *value, uint64_t *refused_at);

/* Find: of the traces with a code in events with a number, the one that stands first in the file. On 0 *place is its place, or 0 for
 * nothing (no trace stands there); *refused_at is unchanged. On a refusal, which is the file's, *place is unchanged and *refused_at is the
 * refusal's place.
 */
uint32_t dwj_find(const uint8_t *file, size_t file_length, uint32_t number, uint32_t code, uint64_t *place, uint64_t *refused_at);

/* Walker: a file's rows one at a time. walker is its numbers; only dwj_open and dwj_next give meaningful ones, and any others are safe:
 * the call ends, with a row that lies in the file, at the end, or with the refusal that the numbers name. dwj_open checks the whole file
 * once and gives the first row; dwj_next gives the next one. On 0 row is the row, or zeros at the end (no row has kind 0), again and
 * again; *refused_at is unchanged. Over a refused file each call gives its refusal: row is unchanged and *refused_at is its place.
 * walker is written by every call, a refused one too. The file must be the same in each call. Of walker[0], the refusal's number, and of walker[4]
 * and walker[5] the low 32 bits count.
 */
uint32_t dwj_open(const uint8_t *file, size_t file_length, uint64_t walker[6], uint32_t row[6], uint64_t *refused_at);
uint32_t dwj_next(const uint8_t *file, size_t file_length, uint64_t walker[6], uint32_t row[6], uint64_t *refused_at);

/* Visitor: a file's rows from the number first on, counted from 0, up to the last or until rows is full; so a file is read in pieces, the
 * next from first + *count on, until *count is 0. Each call checks the file and passes over the rows before. With room for no row, rows_length
 * below 6, *count is 0 too, so that such a loop must lend more; 12 is never given.
 *    0  *count rows stand in rows, what lies past them is unchanged, *place is file_length
 *   else  *count is 0, *place is where the file is refused, rows is unchanged
 */
uint32_t dwj_visit(const uint8_t *file, size_t file_length, size_t first, uint32_t *rows, size_t rows_length, uint64_t *count, uint64_t *place);

/* Channel: of a detector code. numbers = type, detector number, length of the analysis name, length of the cold name; the names are
 * ASCII, with zeros up to four bytes and without an end mark. 10 where the code names no listed channel; all unchanged then.
 */
uint32_t dwj_channel(uint32_t code, uint32_t numbers[4], uint8_t analysis[4], uint8_t cold[4]);

/* Code: the detector code of a type, a number from 0 to 999 and an analysis name. 10 where there is none; *code is unchanged then. */
uint32_t dwj_code(uint32_t type, uint32_t number, const uint8_t *name, size_t name_length, uint32_t *code);

/* ZIP: 1 where the bit of a ZIP, from 1 to 24, is set in a TLB word, else 0. The word's top byte, its tower, is not looked at. */
uint32_t dwj_zip(uint32_t word, uint32_t zip);

/* Writers: each writes one record or entry into an output, from a place on. On 0 the record's bytes stand there, every other byte of the
 * output is unchanged, *next is the place behind it and *refused_at is unchanged. On a refusal no byte is changed, *next is unchanged
 * and *refused_at is its place: 1 for an output longer than 16,777,216 bytes, at place 0; else at the place given, the first of the
 * fields in the order of their words (as Record would refuse it; 6 for lent bytes that are not as many as their count asks), then
 * 13 where the record does not fit from there on. Lent bytes stand as in a file, in its byte order, and must not overlap the output. They have no
 * limit of their own: what isn't of the size that its count asks is 6, however long it is.
 */

/* An entry's words in Record's order, those x100 as they stand in the file. */
uint32_t dwj_write_phonon(uint8_t *out, size_t out_length, size_t place, const int32_t fields[11], uint64_t *next, uint64_t *refused_at);
uint32_t dwj_write_charge(uint8_t *out, size_t out_length, size_t place, const int32_t fields[8], uint64_t *next, uint64_t *refused_at);

/* A record's fields in Record's order. */
uint32_t dwj_write_administrative(uint8_t *out, size_t out_length, size_t place, const uint32_t fields[6], uint64_t *next, uint64_t *refused_at);
uint32_t dwj_write_gps(uint8_t *out, size_t out_length, size_t place, const uint32_t fields[7], uint64_t *next, uint64_t *refused_at);
uint32_t dwj_write_trigger(uint8_t *out, size_t out_length, size_t place, const uint32_t fields[6], uint64_t *next, uint64_t *refused_at);
uint32_t dwj_write_tlb(uint8_t *out, size_t out_length, size_t place, const uint32_t fields[6], uint64_t *next, uint64_t *refused_at);

/* A trace with the bytes of its n samples. */
uint32_t dwj_write_trace(uint8_t *out, size_t out_length, size_t place, uint32_t address, uint32_t channel, uint32_t code, int32_t t0, uint32_t delta_t, uint32_t n, const uint8_t *samples, size_t samples_length, uint64_t *next, uint64_t *refused_at);

/* A history: of the veto, and then of the trigger, the count of times, the bytes of the times, the words of a mask, the bytes of the
 * masks. A count or a width with its top bit set is a negative number, and refused with 10.
 */
uint32_t dwj_write_history(uint8_t *out, size_t out_length, size_t place, uint32_t veto_times, const uint8_t *veto_times_bytes, size_t veto_times_length, uint32_t veto_width, const uint8_t *veto_masks, size_t veto_masks_length, uint32_t trigger_times, const uint8_t *trigger_times_bytes, size_t trigger_times_length, uint32_t trigger_width, const uint8_t *trigger_masks, size_t trigger_masks_length, uint64_t *next, uint64_t *refused_at);

/* The file header, 8 bytes from byte 0 on: the two DAQ bytes. On 0 *next is 8; on 1 or 13, both at 0, it is unchanged, and so is the output. */
uint32_t dwj_write_header(uint8_t *out, size_t out_length, uint8_t major, uint8_t minor, uint64_t *next, uint64_t *refused_at);

/* Closings: a container from place to end, over the contents already written from place + 8 on. 1; 13 at place, where place or end is
 * past the output or end below place + 8; an event's class, category and type (7, 8), then 9 where it has no contents, at place; then
 * the contents as the reader refuses them, at their places. On 0 the eight bytes from place on are written, all else is unchanged, *next is end
 * and *refused_at is unchanged. On a refusal the output, the eight bytes too, and *next are unchanged, and *refused_at is its place.
 */
uint32_t dwj_close_configuration(uint8_t *out, size_t out_length, size_t place, size_t end, uint64_t *next, uint64_t *refused_at);
uint32_t dwj_close_event(uint8_t *out, size_t out_length, size_t place, size_t end, uint32_t event_class, uint32_t category, uint32_t type, uint64_t *next, uint64_t *refused_at);

/* Rewrite: an accepted file's fields, written again from byte 0 of the output on; what stands there then is the file, the output
 * behind it is unchanged, *next is the file's length and *refused_at is unchanged. 1 for either buffer, at 0; the file's refusal; 13 at 0 where
 * the output is shorter than the file: then the output and *next are unchanged, and *refused_at is its place. The two must not overlap.
 */
uint32_t dwj_rewrite(const uint8_t *file, size_t file_length, uint8_t *out, size_t out_length, uint64_t *next, uint64_t *refused_at);

#ifdef __cplusplus
}
#endif

#endif
