/* What play.c, compare.c and benchmarks/stack.c share: building a table, and lending bytes to a call. */
#ifndef KIT_H
#define KIT_H

#include <stddef.h>
#include <stdint.h>

/* Room for the largest table and for one that is a few bytes too long. */
enum { TABLE_ROOM = 51204 + 60 };

struct table {
    size_t length;
    uint8_t bytes[TABLE_ROOM];
};

/* A table is built from its start: first E and R, then every event record, then every row. Nothing is checked but that each field fits
 * its bits, as unsound tables are wanted too.
 */
void table_start(struct table *table, uint32_t events, uint32_t rows);
void add_event(struct table *table, uint32_t guard, uint32_t first, uint32_t count);
void add_row(struct table *table, uint32_t kind, uint32_t left, uint32_t right);

/* Writes an event record or a row of a built table anew. */
void set_event(struct table *table, uint32_t event, uint32_t guard, uint32_t first, uint32_t count);
void set_row(struct table *table, uint32_t row, uint32_t kind, uint32_t left, uint32_t right);

uint32_t table_events(const struct table *table);
uint32_t table_rows(const struct table *table);

/* A record's bit: whether it is set, and setting it to a value. Bit 0 is the top bit of byte 0. */
int get_bit(const uint8_t *bytes, uint32_t bit);
void put_bit(uint8_t *bytes, uint32_t bit, int value);

/* Bytes lent to a call. With an edge they lie between that many bytes of a pattern on either side, which shows what was written outside
 * of them. With edge 0 they end where their heap block ends, so that valgrind sees what is read past them. The address is never null, and
 * with edge 0 or an odd edge it is odd, so that no call can lean on alignment.
 */
struct lent {
    uint8_t *block;
    size_t before, length, after;
};

struct lent lend(const uint8_t *content, size_t length, size_t edge);
uint8_t *lent_bytes(const struct lent *lent);
void give_back(struct lent *lent);

/* Whether the lent bytes are now other than `wanted` or the pattern around them was changed; if so, and call is not null, prints the first
 * such byte.
 */
int lent_differ(const struct lent *lent, const uint8_t *wanted, const char *call, const char *name);

/* The next number of a pseudo-random sequence (splitmix64), and one from low to high, both included. */
uint64_t draw(uint64_t *state);
uint32_t draw_from(uint64_t *state, uint32_t low, uint32_t high);

#endif
