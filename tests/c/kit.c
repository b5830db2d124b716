/* See kit.h. */
#include "kit.h"

#include <stdio.h>
#include <stdlib.h>
#include <string.h>

/* A value that does not fit its field, or a table that does not fit its room, is a mistake in the test itself. */
static uint32_t fit(uint32_t value, unsigned bits) {
    if (value >> bits != 0) {
        fprintf(stderr, "%lu does not fit %u bits\n", (unsigned long)value, bits);
        exit(2);
    }
    return value;
}

static void put_word(struct table *table, size_t at, uint32_t word) {
    if (at + 4 > TABLE_ROOM) {
        fprintf(stderr, "a table is too long for its room\n");
        exit(2);
    }
    for (int i = 0; i < 4; i++) table->bytes[at + (size_t)i] = (uint8_t)(word >> (24 - 8 * i));
}

static uint32_t event_word(uint32_t guard, uint32_t first, uint32_t count) {
    return fit(guard, 14) << 18 | fit(first, 9) << 9 | fit(count, 9);
}

static uint32_t row_word(uint32_t kind, uint32_t left, uint32_t right) {
    return fit(kind, 2) << 30 | fit(left, 15) << 15 | fit(right, 15);
}

void table_start(struct table *table, uint32_t events, uint32_t rows) {
    put_word(table, 0, fit(events, 16) << 16 | fit(rows, 16));
    table->length = 4;
}

void add_event(struct table *table, uint32_t guard, uint32_t first, uint32_t count) {
    put_word(table, table->length, event_word(guard, first, count));
    table->length += 4;
}

void add_row(struct table *table, uint32_t kind, uint32_t left, uint32_t right) {
    put_word(table, table->length, row_word(kind, left, right));
    table->length += 4;
}

void set_event(struct table *table, uint32_t event, uint32_t guard, uint32_t first, uint32_t count) {
    put_word(table, 4 + 4 * (size_t)event, event_word(guard, first, count));
}

void set_row(struct table *table, uint32_t row, uint32_t kind, uint32_t left, uint32_t right) {
    put_word(table, 4 + 4 * ((size_t)table_events(table) + row), row_word(kind, left, right));
}

uint32_t table_events(const struct table *table) {
    return (uint32_t)table->bytes[0] << 8 | table->bytes[1];
}

uint32_t table_rows(const struct table *table) {
    return (uint32_t)table->bytes[2] << 8 | table->bytes[3];
}

int get_bit(const uint8_t *bytes, uint32_t bit) {
    return (bytes[bit / 8] >> (7 - bit % 8)) & 1;
}

void put_bit(uint8_t *bytes, uint32_t bit, int value) {
    uint8_t mask = (uint8_t)(0x80 >> (bit % 8));
    if (value) bytes[bit / 8] |= mask;
    else bytes[bit / 8] &= (uint8_t)~mask;
}

/* What stands around lent bytes: no two neighbours alike, and never 0. */
static uint8_t pattern(size_t i) {
    return (uint8_t)(1 + (i * 37 + 11) % 251);
}

struct lent lend(const uint8_t *content, size_t length, size_t edge) {
    struct lent lent = {NULL, edge != 0 ? edge : 1, length, edge};
    size_t end = lent.before + length, size = end + lent.after;
    lent.block = malloc(size);
    if (lent.block == NULL) exit(2);
    for (size_t i = 0; i < lent.before; i++) lent.block[i] = pattern(i);
    memcpy(lent.block + lent.before, content, length);
    for (size_t i = end; i < size; i++) lent.block[i] = pattern(i);
    return lent;
}

uint8_t *lent_bytes(const struct lent *lent) {
    return lent->block + lent->before;
}

void give_back(struct lent *lent) {
    free(lent->block);
    lent->block = NULL;
}

/* The first byte of the block that is not as it should be, or the block's size. */
static size_t first_change(const struct lent *lent, const uint8_t *wanted) {
    size_t end = lent->before + lent->length, size = end + lent->after, i = 0;
    while (i < lent->before && lent->block[i] == pattern(i)) i++;
    if (i < lent->before) return i;
    if (memcmp(lent->block + lent->before, wanted, lent->length) != 0) {
        while (lent->block[i] == wanted[i - lent->before]) i++;
        return i;
    }
    i = end;
    while (i < size && lent->block[i] == pattern(i)) i++;
    return i;
}

int lent_differ(const struct lent *lent, const uint8_t *wanted, const char *call, const char *name) {
    size_t end = lent->before + lent->length, at = first_change(lent, wanted);
    if (at == end + lent->after) return 0;
    if (call == NULL) return 1;
    uint8_t should = at >= lent->before && at < end ? wanted[at - lent->before] : pattern(at);
    printf("%s: byte %ld of the %s (%zu bytes) is %u, not %u\n", call, (long)at - (long)lent->before, name, lent->length,
           (unsigned)lent->block[at], (unsigned)should);
    return 1;
}

uint64_t draw(uint64_t *state) {
    uint64_t z = *state += 0x9E3779B97F4A7C15u;
    z = (z ^ z >> 30) * 0xBF58476D1CE4E5B9u;
    z = (z ^ z >> 27) * 0x94D049BB133111EBu;
    return z ^ z >> 31;
}

uint32_t draw_from(uint64_t *state, uint32_t low, uint32_t high) {
    return low + (uint32_t)(draw(state) % ((uint64_t)high - low + 1));
}
