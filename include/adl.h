/* Guard tables and run records for the C firmware.
 *
 * A guard table says when each event of a drawing may be taken. A run record says which events were taken. The four calls below check a
 * table, take an event, say which events may be taken now, and say whether the run is finished.
 *
 * The table is a string of bytes; its fields are packed without gaps, most significant bit first:
 *
 *     E        16 bits   number of events, 1 to 512
 *     R        16 bits   number of rows, 1 to 12,288
 *     then E event records of 32 bits, that of event 0 first:
 *     guard    14 bits   the row that says whether the event may be taken; below R
 *     first     9 bits   the first control bit that taking the event clears
 *     count     9 bits   how many control bits it clears, from `first` on
 *     then R rows of 32 bits, row 0 first:
 *     kind      2 bits   what the row says, see below
 *     left     15 bits
 *     right    15 bits
 *
 *     kind 0: control bit `left` is set; left is below E, right is 0
 *     kind 1: row `left` says no; right is 0
 *     kind 2: row `left` and row `right` both say yes
 *     kind 3: row `left` or row `right` says yes, or both do
 *
 * A row names only rows lower than itself. Row R-1 says whether the run is finished. In an event record either first and count are both
 * 0, or count is at least 1 and first + count is the event's own number. The table is 4 + 4E + 4R bytes long, neither more nor less. A
 * table that keeps all of this is sound.
 *
 * The run record is 64 bytes. Event e has control bit e, and bit 0 is the top bit of byte 0: the bit of event e is
 * (record[e / 8] >> (7 - e % 8)) & 1. A blank record, with which a run starts, is 64 zero bytes. Bits at or past E stay 0.
 *
 * For all four calls:
 * - The caller owns all bytes: table, record and offer buffer. They are lent for the time of the call. The library keeps no state and no
 *   pointer between calls and allocates nothing, so calls on different records may run at the same time, on the same table too.
 * - A pointer leads to at least as many bytes as the length beside it says: readable where it is const, else readable and writable too.
 *   No pointer is null, not even beside the length 0. No alignment is needed.
 * - The areas lent to one call must not overlap, and nobody else may write to them during the call.
 * - Each call checks the whole table again, so a table that was damaged in the meantime is noticed as far as the damage made it unsound.
 * - Answers are 0, 255 (finished only) or the number of a refusal. Where several refusals apply, the lowest number is given. After a
 *   refusal every lent byte is what it was.
 * - Step, offer and finished work out the rows in a sheet of 12,288 values that lies on the stack; ./bench measures the stack used.
 */
#ifndef ADL_H
#define ADL_H

#include <stddef.h>
#include <stdint.h>

#ifdef __cplusplus
extern "C" {
#endif

/* The answers. */
enum {
    ADL_SOUND = 0,          /* check: the table is sound */
    ADL_DONE = 0,           /* step: the event was taken; offer: the 64 bytes were written */
    ADL_NOT_FINISHED = 0,   /* finished: the run is not finished */
    ADL_SHORT_BUFFER = 1,   /* the record is not of 64 bytes, or the offer buffer is of less than 64 */
    ADL_UNSOUND_TABLE = 12, /* the table breaks a rule above */
    ADL_STRAY_BIT = 13,     /* the record has a set bit at or past E */
    ADL_NO_EVENT = 14,      /* the event number is at or past E */
    ADL_NOT_NOW = 15,       /* the event's guard row says no */
    ADL_FINISHED = 255      /* finished: the run is finished */
};

/* Sizes. */
enum {
    ADL_RECORD_BYTES = 64,
    ADL_OFFER_BYTES = 64,
    ADL_MOST_EVENTS = 512,
    ADL_MOST_ROWS = 12288,
    ADL_MOST_TABLE_BYTES = 51204 /* 4 + 4 * 512 + 4 * 12288 */
};

/* Checks a table.
 *
 * 0    the table is sound
 * 12   it is not
 *
 * Writes nothing.
 */
uint8_t adl_check(const uint8_t *table, size_t table_len);

/* Takes an event, if it may be taken now: clears the control bits that its event record names, if any, and sets its own.
 *
 * 0    the event was taken and the record is brought up to date
 * 1    record_len is not 64
 * 12   the table is unsound
 * 13   the record has a set bit at or past E
 * 14   the event number is at or past E
 * 15   the event's guard row says no
 *
 * Any number may be given as event. Only the answer 0 changes the record.
 */
uint8_t adl_step(const uint8_t *table, size_t table_len, uint8_t *record, size_t record_len, uint64_t event);

/* Says which events may be taken now: writes 64 bytes to out, in the bit order of the record. The bit of event e is 1 where adl_step with
 * this record and e would answer 0; all other bits, those at or past E among them, are 0.
 *
 * 0    the 64 bytes were written
 * 1    record_len is not 64, or out_len is less than 64
 * 12   the table is unsound
 * 13   the record has a set bit at or past E
 *
 * Only the answer 0 writes, and only the first 64 bytes of out: those past them stay as they are. What out held before does not matter.
 */
uint8_t adl_offer(const uint8_t *table, size_t table_len, const uint8_t *record, size_t record_len, uint8_t *out, size_t out_len);

/* Says whether the run is finished, which is what row R-1 says. In a table translated from a drawing it says yes exactly when the events
 * taken so far make a whole run.
 *
 * 0    it is not finished
 * 255  it is finished
 * 1    record_len is not 64
 * 12   the table is unsound
 * 13   the record has a set bit at or past E
 *
 * Writes nothing.
 */
uint8_t adl_finished(const uint8_t *table, size_t table_len, const uint8_t *record, size_t record_len);

#ifdef __cplusplus
}
#endif

#endif
