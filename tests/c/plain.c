/* See plain.h. Written from document 01 alone. */
#include "plain.h"
#include "plain_table.h"

#include <string.h>

enum { DONE = 0, FINISHED = 255, SHORT_BUFFER = 1, UNSOUND_TABLE = 12, BIT_PAST_EVENTS = 13, NO_EVENT = 14, NOT_NOW = 15 };
enum { RECORD_BYTES = 64, OFFER_BYTES = 64 };

static uint32_t events_of(const uint8_t *table) {
    return (uint32_t)table[0] << 8 | table[1];
}

static uint32_t rows_of(const uint8_t *table) {
    return (uint32_t)table[2] << 8 | table[3];
}

/* Event records and rows are 32 bits each and follow each other, so both are reached by one index: event e is e, row r is E + r. */
static uint32_t entry(const uint8_t *table, uint32_t index) {
    const uint8_t *at = table + 4 + 4 * (size_t)index;
    return (uint32_t)at[0] << 24 | (uint32_t)at[1] << 16 | (uint32_t)at[2] << 8 | at[3];
}

/* The fields of an event record. */
static uint32_t guard_of(uint32_t event) { return event >> 18; }
static uint32_t first_of(uint32_t event) { return (event >> 9) & 0x1FF; }
static uint32_t count_of(uint32_t event) { return event & 0x1FF; }

/* The fields of a row. */
static uint32_t kind_of(uint32_t row) { return row >> 30; }
static uint32_t left_of(uint32_t row) { return (row >> 15) & 0x7FFF; }
static uint32_t right_of(uint32_t row) { return row & 0x7FFF; }

static int sound_event(uint32_t event, uint32_t number, uint32_t rows) {
    uint32_t first = first_of(event), count = count_of(event);
    if (guard_of(event) >= rows) return 0;
    if (count == 0) return first == 0;
    return first + count == number;
}

static int sound_row(uint32_t row, uint32_t number, uint32_t events) {
    uint32_t left = left_of(row), right = right_of(row);
    switch (kind_of(row)) {
    case CONTROL_BIT:
        return left < events && right == 0;
    case NOT:
        return left < number && right == 0;
    default:
        return left < number && right < number;
    }
}

uint8_t plain_check(const uint8_t *table, size_t table_len) {
    if (table_len < 4) return UNSOUND_TABLE;
    uint32_t events = events_of(table), rows = rows_of(table);
    if (events < 1 || events > MOST_EVENTS) return UNSOUND_TABLE;
    if (rows < 1 || rows > MOST_ROWS) return UNSOUND_TABLE;
    if (table_len != 4 + 4 * (size_t)events + 4 * (size_t)rows) return UNSOUND_TABLE;
    for (uint32_t e = 0; e < events; e++) {
        if (!sound_event(entry(table, e), e, rows)) return UNSOUND_TABLE;
    }
    for (uint32_t r = 0; r < rows; r++) {
        if (!sound_row(entry(table, events + r), r, events)) return UNSOUND_TABLE;
    }
    return DONE;
}

static uint8_t mask_of(uint32_t bit) {
    return (uint8_t)(0x80 >> (bit % 8));
}

/* Whether the record has a set bit at or past E: in the byte that E falls into, unless that is a whole one, or in a later byte. */
static int has_bit_past_events(const uint8_t *record, uint32_t events) {
    uint32_t byte = events / 8;
    if (events % 8 != 0) {
        if (record[byte] & (0xFF >> (events % 8))) return 1;
        byte++;
    }
    for (; byte < RECORD_BYTES; byte++) {
        if (record[byte] != 0) return 1;
    }
    return 0;
}

/* Works out every row of a sound table, lowest first; a row names only lower ones, so what it names is there. */
static void fill_values(const uint8_t *table, const uint8_t *record, uint8_t *values) {
    uint32_t events = events_of(table), rows = rows_of(table);
    for (uint32_t r = 0; r < rows; r++) {
        uint32_t row = entry(table, events + r), left = left_of(row), right = right_of(row);
        switch (kind_of(row)) {
        case CONTROL_BIT:
            values[r] = (record[left / 8] & mask_of(left)) != 0;
            break;
        case NOT:
            values[r] = !values[left];
            break;
        case BOTH:
            values[r] = values[left] && values[right];
            break;
        case EITHER:
            values[r] = values[left] || values[right];
            break;
        }
    }
}

uint8_t plain_step(const uint8_t *table, size_t table_len, uint8_t *record, size_t record_len, uint64_t event) {
    uint8_t values[MOST_ROWS] = {0};
    if (record_len != RECORD_BYTES) return SHORT_BUFFER;
    if (plain_check(table, table_len) != DONE) return UNSOUND_TABLE;
    if (has_bit_past_events(record, events_of(table))) return BIT_PAST_EVENTS;
    if (event >= events_of(table)) return NO_EVENT;
    fill_values(table, record, values);

    uint32_t number = (uint32_t)event, taken = entry(table, number);
    if (!values[guard_of(taken)]) return NOT_NOW;
    for (uint32_t bit = first_of(taken); bit < first_of(taken) + count_of(taken); bit++) {
        record[bit / 8] &= (uint8_t)~mask_of(bit);
    }
    record[number / 8] |= mask_of(number);
    return DONE;
}

uint8_t plain_offer(const uint8_t *table, size_t table_len, const uint8_t *record, size_t record_len, uint8_t *out, size_t out_len) {
    uint8_t values[MOST_ROWS] = {0};
    if (record_len != RECORD_BYTES || out_len < OFFER_BYTES) return SHORT_BUFFER;
    if (plain_check(table, table_len) != DONE) return UNSOUND_TABLE;
    if (has_bit_past_events(record, events_of(table))) return BIT_PAST_EVENTS;
    fill_values(table, record, values);

    memset(out, 0, OFFER_BYTES);
    for (uint32_t e = 0; e < events_of(table); e++) {
        if (values[guard_of(entry(table, e))]) out[e / 8] |= mask_of(e);
    }
    return DONE;
}

uint8_t plain_finished(const uint8_t *table, size_t table_len, const uint8_t *record, size_t record_len) {
    uint8_t values[MOST_ROWS] = {0};
    if (record_len != RECORD_BYTES) return SHORT_BUFFER;
    if (plain_check(table, table_len) != DONE) return UNSOUND_TABLE;
    if (has_bit_past_events(record, events_of(table))) return BIT_PAST_EVENTS;
    fill_values(table, record, values);
    return values[rows_of(table) - 1] ? FINISHED : DONE;
}
