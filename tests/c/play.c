/* Plays small tables, built by hand, and fails if any answer or any byte is not as document 01 with card 1 of document 02 says: the drawings T and U
 * worked through there, every refusal of every call, every way in which a table can be unsound, and the smallest and the largest table.
 *
 * Everything is played twice: with a pattern around all lent bytes, to see that nothing else is written, and with lent bytes that end
 * where their heap block ends, so that valgrind sees what is read past them.
 */
#include "adl.h"
#include "kit.h"

#include <stdarg.h>
#include <stdio.h>
#include <string.h>

enum { EDGE = 33 };
enum { ROOM = 200 }; /* bytes of an array for a record or an offer: more than any length that is tried */
enum { BIT = 0, NOT = 1, BOTH = 2, EITHER = 3 };

static unsigned long checks, failed;
static size_t edge;
static char place[160]; /* what is being played, for the message of a failed check */

static void at(const char *format, ...) {
    va_list arguments;
    va_start(arguments, format);
    vsnprintf(place, sizeof place, format, arguments);
    va_end(arguments);
}

/* One mistake can fail very many checks; the first failures say what it is. */
enum { MOST_MESSAGES = 50 };

static void same_answer(const char *call, uint8_t got, uint8_t wanted) {
    checks++;
    if (got == wanted) return;
    if (failed++ < MOST_MESSAGES) printf("%s: answer %u, not %u\n    in: %s\n", call, (unsigned)got, (unsigned)wanted, place);
}

static void same_bytes(const char *call, const char *name, const struct lent *lent, const uint8_t *wanted) {
    int quiet = failed >= MOST_MESSAGES;
    checks++;
    if (!lent_differ(lent, wanted, quiet ? NULL : call, name)) return;
    failed++;
    if (!quiet) printf("    in: %s\n", place);
}

/* The four calls, each held against the answer and the bytes that it should give. A table never changes. */

static void want_check(const struct table *t, uint8_t answer) {
    struct lent table = lend(t->bytes, t->length, edge);
    same_answer("check", adl_check(lent_bytes(&table), t->length), answer);
    same_bytes("check", "table", &table, t->bytes);
    give_back(&table);
}

static void want_step(const struct table *t, const uint8_t *record, size_t record_len, uint64_t event, uint8_t answer,
                      const uint8_t *after) {
    struct lent table = lend(t->bytes, t->length, edge), run = lend(record, record_len, edge);
    same_answer("step", adl_step(lent_bytes(&table), t->length, lent_bytes(&run), record_len, event), answer);
    same_bytes("step", "table", &table, t->bytes);
    same_bytes("step", "record", &run, after);
    give_back(&table);
    give_back(&run);
}

/* `offered` is what the first 64 bytes of the buffer should be if the answer is 0. */
static void want_offer(const struct table *t, const uint8_t *record, size_t record_len, size_t out_len, uint8_t answer,
                       const uint8_t *offered) {
    uint8_t wanted[ROOM];
    for (size_t i = 0; i < ROOM; i++) wanted[i] = (uint8_t)(0x5A + 3 * i);
    struct lent table = lend(t->bytes, t->length, edge), run = lend(record, record_len, edge), out = lend(wanted, out_len, edge);
    if (answer == ADL_DONE) memcpy(wanted, offered, ADL_OFFER_BYTES);
    same_answer("offer", adl_offer(lent_bytes(&table), t->length, lent_bytes(&run), record_len, lent_bytes(&out), out_len), answer);
    same_bytes("offer", "table", &table, t->bytes);
    same_bytes("offer", "record", &run, record);
    same_bytes("offer", "offer buffer", &out, wanted);
    give_back(&table);
    give_back(&run);
    give_back(&out);
}

static void want_finished(const struct table *t, const uint8_t *record, size_t record_len, uint8_t answer) {
    struct lent table = lend(t->bytes, t->length, edge), run = lend(record, record_len, edge);
    same_answer("finished", adl_finished(lent_bytes(&table), t->length, lent_bytes(&run), record_len), answer);
    same_bytes("finished", "table", &table, t->bytes);
    same_bytes("finished", "record", &run, record);
    give_back(&table);
    give_back(&run);
}

/* All calls that take a record turn this one away with the same number and leave it. */
static void want_refusal(const struct table *t, const uint8_t *record, size_t record_len, uint64_t event, uint8_t answer) {
    want_step(t, record, record_len, event, answer, record);
    want_offer(t, record, record_len, ADL_OFFER_BYTES, answer, NULL);
    want_finished(t, record, record_len, answer);
}

/* T: take 0, then fill 1 any number of times, then send 2 or drop 3, then free 4. */
static void build_t(struct table *t) {
    table_start(t, 5, 11);
    add_event(t, 4, 0, 0);    /* take */
    add_event(t, 7, 0, 0);    /* fill */
    add_event(t, 7, 0, 0);    /* send */
    add_event(t, 7, 0, 0);    /* drop */
    add_event(t, 9, 0, 0);    /* free */
    add_row(t, BIT, 0, 0);    /* 0: take is taken */
    add_row(t, BIT, 2, 0);    /* 1: send is taken */
    add_row(t, BIT, 3, 0);    /* 2: drop is taken */
    add_row(t, BIT, 4, 0);    /* 3: free is taken */
    add_row(t, NOT, 0, 0);    /* 4: take is still to come */
    add_row(t, EITHER, 1, 2); /* 5: the choice is made */
    add_row(t, NOT, 5, 0);    /* 6: the choice is open */
    add_row(t, BOTH, 0, 6);   /* 7: after take, before the choice */
    add_row(t, NOT, 3, 0);    /* 8: free is still to come */
    add_row(t, BOTH, 5, 8);   /* 9: after the choice, before free */
    add_row(t, BIT, 4, 0);    /* 10: finished */
}

/* U: any number of rounds a 0, b 1, reset 2, the last of them with or without its reset; then c 3. The reset clears the bits of a and b. */
static void build_u(struct table *t) {
    table_start(t, 4, 12);
    add_event(t, 4, 0, 0);    /* a */
    add_event(t, 6, 0, 0);    /* b */
    add_event(t, 10, 0, 2);   /* reset */
    add_event(t, 9, 0, 0);    /* c */
    add_row(t, BIT, 0, 0);    /* 0: a is taken in this round */
    add_row(t, BIT, 1, 0);    /* 1: b is taken in this round */
    add_row(t, BIT, 3, 0);    /* 2: c is taken */
    add_row(t, EITHER, 0, 2); /* 3: a round has begun, or the loop is left */
    add_row(t, NOT, 3, 0);    /* 4: a round can begin */
    add_row(t, NOT, 1, 0);    /* 5: b is still to come in this round */
    add_row(t, BOTH, 0, 5);   /* 6: after a, before b */
    add_row(t, NOT, 6, 0);    /* 7: no round is halfway */
    add_row(t, NOT, 2, 0);    /* 8: c is still to come */
    add_row(t, BOTH, 7, 8);   /* 9: no round is halfway, before c */
    add_row(t, BOTH, 1, 8);   /* 10: after b, before c */
    add_row(t, BIT, 3, 0);    /* 11: finished */
}

/* The lines worked through for T and U. Offers and record are given for every point: before each call, and after the last one. */
struct line {
    char drawing;
    int turned_away;       /* whether the last event is turned away; if not, the run is whole */
    const char *events;    /* one digit for each step */
    const char *offers[6]; /* the events that may come next */
    uint8_t bytes[6];      /* the record's first byte; all others are 0 */
};

static const struct line lines[] = {
    {'T', 0, "024", {"0", "123", "4", ""}, {0, 128, 160, 168}},
    {'T', 0, "01134", {"0", "123", "123", "123", "4", ""}, {0, 128, 192, 192, 208, 216}},
    {'T', 1, "023", {"0", "123", "4", "4"}, {0, 128, 160, 160}},
    {'T', 1, "0244", {"0", "123", "4", "", ""}, {0, 128, 160, 168, 168}},
    {'T', 1, "021", {"0", "123", "4", "4"}, {0, 128, 160, 160}},
    {'U', 0, "3", {"03", ""}, {0, 16}},
    {'U', 0, "0123", {"03", "1", "23", "03", ""}, {0, 128, 192, 32, 48}},
    {'U', 0, "013", {"03", "1", "23", ""}, {0, 128, 192, 208}},
    {'U', 1, "0132", {"03", "1", "23", "", ""}, {0, 128, 192, 208, 208}},
    {'U', 1, "03", {"03", "1", "1"}, {0, 128, 128}},
};

static void build(struct table *t, char drawing) {
    if (drawing == 'T') build_t(t);
    else build_u(t);
}

/* T is whole exactly when free is taken, U when c is. Their bits are in the record's first byte. */
static uint8_t whole(char drawing, uint8_t byte) {
    return byte & (drawing == 'T' ? 8 : 16) ? ADL_FINISHED : ADL_NOT_FINISHED;
}

/* The line's steps on one record, from the blank one on. */
static void play_run(const struct line *line) {
    struct table t;
    uint8_t wanted[ROOM] = {0};
    size_t calls = strlen(line->events);
    build(&t, line->drawing);
    struct lent table = lend(t.bytes, t.length, edge), record = lend(wanted, ADL_RECORD_BYTES, edge);
    const uint8_t *rows = lent_bytes(&table);
    uint8_t *run = lent_bytes(&record);
    for (size_t i = 0; i < calls; i++) {
        uint8_t answer = line->turned_away && i + 1 == calls ? ADL_NOT_NOW : ADL_DONE;
        at("%c, events %s, call %zu", line->drawing, line->events, i + 1);
        same_answer("step", adl_step(rows, t.length, run, ADL_RECORD_BYTES, (uint64_t)(line->events[i] - '0')), answer);
        wanted[0] = line->bytes[i + 1];
        same_bytes("step", "record", &record, wanted);
        same_answer("finished", adl_finished(rows, t.length, run, ADL_RECORD_BYTES), whole(line->drawing, wanted[0]));
    }
    if (!line->turned_away) same_answer("finished", adl_finished(rows, t.length, run, ADL_RECORD_BYTES), ADL_FINISHED);
    same_bytes("finished", "record", &record, wanted);
    same_bytes("finished", "table", &table, t.bytes);
    give_back(&table);
    give_back(&record);
}

/* The record after an event of T or U is taken. */
static void take(char drawing, uint8_t *record, uint32_t event) {
    put_bit(record, event, 1);
    if (drawing == 'U' && event == 2) {
        put_bit(record, 0, 0);
        put_bit(record, 1, 0);
    }
}

/* Event numbers past every table: also those that a cut to 8, 9, 16 or 32 bits would turn into a small number. */
static const uint64_t past[] = {
    512, 513, 0x4000, 0xFFFF, 0x10000, 0x10001, 0x7FFFFFFF, 0x80000000, 0xFFFFFFFF, (uint64_t)1 << 32, ((uint64_t)1 << 32) + 1,
    ((uint64_t)1 << 32) + 2, ((uint64_t)1 << 32) + 3, (uint64_t)1 << 63, ((uint64_t)1 << 63) + 1, UINT64_MAX - 1, UINT64_MAX,
};
enum { PAST = sizeof past / sizeof past[0] };

static void want_no_event(const struct table *t, const uint8_t *record) {
    uint32_t events = table_events(t);
    for (uint64_t e = events; e < (uint64_t)events + 300; e++) want_step(t, record, ADL_RECORD_BYTES, e, ADL_NO_EVENT, record);
    for (size_t i = 0; i < PAST; i++) want_step(t, record, ADL_RECORD_BYTES, past[i], ADL_NO_EVENT, record);
}

/* At every point of the line, on a fresh record: finished, offer, and a step with every event there is and with some that are not. */
static void play_points(const struct line *line) {
    struct table t;
    size_t calls = strlen(line->events);
    build(&t, line->drawing);
    for (size_t i = 0; i <= calls; i++) {
        uint8_t record[ROOM] = {line->bytes[i]}, offered[ADL_OFFER_BYTES] = {0};
        for (const char *c = line->offers[i]; *c != '\0'; c++) put_bit(offered, (uint32_t)(*c - '0'), 1);
        at("%c, events %s, point %zu", line->drawing, line->events, i);
        want_check(&t, ADL_SOUND);
        want_finished(&t, record, ADL_RECORD_BYTES, whole(line->drawing, record[0]));
        for (size_t out_len = ADL_OFFER_BYTES; out_len <= ROOM; out_len += out_len < 66 ? 1 : 67) {
            want_offer(&t, record, ADL_RECORD_BYTES, out_len, ADL_DONE, offered);
        }
        for (uint32_t e = 0; e < table_events(&t); e++) {
            uint8_t after[ROOM];
            memcpy(after, record, ROOM);
            if (get_bit(offered, e)) take(line->drawing, after, e);
            want_step(&t, record, ADL_RECORD_BYTES, e, get_bit(offered, e) ? ADL_DONE : ADL_NOT_NOW, after);
        }
        want_no_event(&t, record);
    }
}

/* Refusal 1, and that it comes before all others: the table is unsound or the record has a bit past E in half of the tries. */
static void play_lengths(void) {
    static const size_t wrong[] = {0, 1, 8, 32, 63, 65, 72, 128};
    struct table t;
    uint8_t record[ROOM] = {128}, all_set[ROOM];
    build_t(&t);
    memset(all_set, 255, ROOM);
    for (int unsound = 0; unsound < 2; unsound++) {
        if (unsound) t.length--;
        for (size_t i = 0; i < sizeof wrong / sizeof wrong[0]; i++) {
            at("record of %zu bytes, %s table", wrong[i], unsound ? "unsound" : "sound");
            want_refusal(&t, record, wrong[i], 1, ADL_SHORT_BUFFER);
            want_refusal(&t, all_set, wrong[i], UINT64_MAX, ADL_SHORT_BUFFER);
            want_offer(&t, record, wrong[i], 0, ADL_SHORT_BUFFER, NULL);
            want_offer(&t, record, wrong[i], ROOM, ADL_SHORT_BUFFER, NULL);
        }
        for (size_t out_len = 0; out_len < ADL_OFFER_BYTES; out_len++) {
            at("offer buffer of %zu bytes, %s table", out_len, unsound ? "unsound" : "sound");
            want_offer(&t, record, ADL_RECORD_BYTES, out_len, ADL_SHORT_BUFFER, NULL);
            want_offer(&t, all_set, ADL_RECORD_BYTES, out_len, ADL_SHORT_BUFFER, NULL);
        }
    }
}

/* A table with `events` events that may be taken, and a run that is finished, exactly if bit 0 is set. */
static void build_bit_0(struct table *t, uint32_t events) {
    table_start(t, events, 1);
    for (uint32_t e = 0; e < events; e++) add_event(t, 0, 0, 0);
    add_row(t, BIT, 0, 0);
}

/* Refusal 13: each of the 512 bits alone, set in the record of a table with this many events. It comes before 14 and 15. */
static void play_bits_past(uint32_t events) {
    struct table t;
    build_bit_0(&t, events);
    for (uint32_t bit = 0; bit < 512; bit++) {
        uint8_t record[ROOM] = {0}, after[ROOM] = {0}, offered[ADL_OFFER_BYTES] = {0};
        put_bit(record, bit, 1);
        at("%u events, bit %u alone", (unsigned)events, (unsigned)bit);
        if (bit >= events) {
            want_refusal(&t, record, ADL_RECORD_BYTES, events - 1, ADL_STRAY_BIT);
            want_step(&t, record, ADL_RECORD_BYTES, events, ADL_STRAY_BIT, record);
            continue;
        }
        memcpy(after, record, ROOM);
        if (bit == 0) put_bit(after, events - 1, 1);
        for (uint32_t e = 0; bit == 0 && e < events; e++) put_bit(offered, e, 1);
        want_step(&t, record, ADL_RECORD_BYTES, events - 1, bit == 0 ? ADL_DONE : ADL_NOT_NOW, after);
        want_step(&t, record, ADL_RECORD_BYTES, events, ADL_NO_EVENT, record);
        want_offer(&t, record, ADL_RECORD_BYTES, ADL_OFFER_BYTES, ADL_DONE, offered);
        want_finished(&t, record, ADL_RECORD_BYTES, bit == 0 ? ADL_FINISHED : ADL_NOT_FINISHED);
    }
}

static void play_all_bits_past(void) {
    static const uint32_t events[] = {1, 2, 7, 8, 9, 63, 64, 65, 255, 256, 257, 504, 511, 512};
    for (size_t i = 0; i < sizeof events / sizeof events[0]; i++) play_bits_past(events[i]);
}

/* The truth tables of the four kinds: event e is guarded by row e. */
static void play_kinds(void) {
    struct table t;
    table_start(&t, 8, 8);
    for (uint32_t e = 0; e < 8; e++) add_event(&t, e, 0, 0);
    add_row(&t, BIT, 0, 0);
    add_row(&t, BIT, 1, 0);
    add_row(&t, NOT, 0, 0);
    add_row(&t, BOTH, 0, 1);
    add_row(&t, BOTH, 1, 0);
    add_row(&t, EITHER, 0, 1);
    add_row(&t, EITHER, 1, 0);
    add_row(&t, NOT, 3, 0);
    for (int a = 0; a < 2; a++) {
        for (int b = 0; b < 2; b++) {
            int says[8] = {a, b, !a, a && b, a && b, a || b, a || b, !(a && b)};
            uint8_t record[ROOM] = {0}, offered[ADL_OFFER_BYTES] = {0};
            put_bit(record, 0, a);
            put_bit(record, 1, b);
            for (uint32_t e = 0; e < 8; e++) put_bit(offered, e, says[e]);
            at("kinds with bit 0 %d and bit 1 %d", a, b);
            want_offer(&t, record, ADL_RECORD_BYTES, ADL_OFFER_BYTES, ADL_DONE, offered);
            want_finished(&t, record, ADL_RECORD_BYTES, says[7] ? ADL_FINISHED : ADL_NOT_FINISHED);
        }
    }
}

/* A table that should be sound or not. Unsound, it is turned away with 12 by all calls; that comes after 1 and before all others. */
static void want_table(const struct table *t, uint8_t answer, const char *why) {
    uint8_t blank[ROOM] = {0}, all_set[ROOM];
    memset(all_set, 255, ROOM);
    at("%s: %s", answer == ADL_SOUND ? "sound" : "unsound", why);
    want_check(t, answer);
    want_refusal(t, blank, ADL_RECORD_BYTES - 1, 0, ADL_SHORT_BUFFER);
    if (answer == ADL_SOUND) {
        want_step(t, blank, ADL_RECORD_BYTES, UINT64_MAX, ADL_NO_EVENT, blank);
        return;
    }
    want_refusal(t, blank, ADL_RECORD_BYTES, 0, answer);
    want_refusal(t, blank, ADL_RECORD_BYTES, UINT64_MAX, answer);
    want_refusal(t, all_set, ADL_RECORD_BYTES, UINT64_MAX, answer);
}

static void play_table_lengths(void) {
    struct table t;
    build_t(&t);
    size_t length = t.length;
    want_table(&t, ADL_SOUND, "T");
    for (t.length = 0; t.length < length; t.length++) want_table(&t, ADL_UNSOUND_TABLE, "T cut short");
    for (t.length = length + 1; t.length <= length + 16; t.length++) {
        t.bytes[t.length - 1] = 0;
        want_table(&t, ADL_UNSOUND_TABLE, "T with bytes after it");
    }
}

/* A table of this size, as long as it should be: all guards are row 0, and all rows say bit 0. */
static void build_size(struct table *t, uint32_t events, uint32_t rows) {
    table_start(t, events, rows);
    for (uint32_t e = 0; e < events; e++) add_event(t, 0, 0, 0);
    for (uint32_t r = 0; r < rows; r++) add_row(t, BIT, 0, 0);
}

static void play_sizes(void) {
    static const struct {
        uint32_t events, rows;
        uint8_t answer;
        const char *why;
    } sizes[] = {
        {0, 1, 12, "E 0"},
        {0, 0, 12, "E 0 and R 0"},
        {513, 1, 12, "E 513"},
        {513, 12288, 12, "E 513 and R 12288"},
        {1, 0, 12, "R 0"},
        {512, 0, 12, "R 0 and E 512"},
        {1, 12289, 12, "R 12289"},
        {512, 12289, 12, "R 12289 and E 512"},
        {1, 1, 0, "E 1 and R 1"},
        {512, 1, 0, "E 512 and R 1"},
        {1, 12288, 0, "E 1 and R 12288"},
        {512, 12288, 0, "E 512 and R 12288"},
    };
    struct table t;
    for (size_t i = 0; i < sizeof sizes / sizeof sizes[0]; i++) {
        build_size(&t, sizes[i].events, sizes[i].rows);
        want_table(&t, sizes[i].answer, sizes[i].why);
    }
    t.length -= 4;
    want_table(&t, ADL_UNSOUND_TABLE, "the largest table without its last row");
}

/* Numbers of events and rows far past the table's end. Worked out in 16 bits, the length of the first two would be right. */
static void play_wild_sizes(void) {
    struct table t;
    build_size(&t, 1, 1);
    t.bytes[0] = 0x40;
    want_table(&t, ADL_UNSOUND_TABLE, "E 16385 in a table for E 1");
    build_size(&t, 1, 1);
    t.bytes[2] = 0x40;
    want_table(&t, ADL_UNSOUND_TABLE, "R 16385 in a table for R 1");
    memset(t.bytes, 255, 4);
    want_table(&t, ADL_UNSOUND_TABLE, "E and R 65535");
}

/* T with another event record for event 0, the first, or 4, the last. T has 11 rows. */
static void play_event_records(void) {
    static const struct {
        uint32_t event, guard, first, count;
        uint8_t answer;
        const char *why;
    } records[] = {
        {0, 11, 0, 0, 12, "guard of event 0 is R"},
        {0, 16383, 0, 0, 12, "guard of event 0 is 16383"},
        {0, 10, 0, 0, 0, "guard of event 0 is R-1"},
        {0, 4, 1, 0, 12, "event 0: first 1, count 0"},
        {0, 4, 0, 1, 12, "event 0: first 0, count 1"},
        {0, 4, 511, 1, 12, "event 0: first 511, count 1, which is 0 in nine bits"},
        {0, 4, 256, 256, 12, "event 0: first 256, count 256, which is 0 in nine bits"},
        {4, 11, 0, 0, 12, "guard of event 4 is R"},
        {4, 10, 0, 0, 0, "guard of event 4 is R-1"},
        {4, 9, 4, 0, 12, "event 4: first 4, count 0"},
        {4, 9, 1, 0, 12, "event 4: first 1, count 0"},
        {4, 9, 511, 0, 12, "event 4: first 511, count 0"},
        {4, 9, 1, 2, 12, "event 4: first 1, count 2, one too few"},
        {4, 9, 1, 4, 12, "event 4: first 1, count 4, one too many"},
        {4, 9, 0, 3, 12, "event 4: first 0, count 3, one too few"},
        {4, 9, 0, 5, 12, "event 4: first 0, count 5, one too many"},
        {4, 9, 4, 1, 12, "event 4: first 4, count 1, its own bit"},
        {4, 9, 511, 5, 12, "event 4: first 511, count 5, which is 4 in nine bits"},
        {4, 9, 5, 511, 12, "event 4: first 5, count 511, which is 4 in nine bits"},
        {4, 9, 0, 4, 0, "event 4: first 0, count 4"},
        {4, 9, 3, 1, 0, "event 4: first 3, count 1"},
    };
    struct table t;
    for (size_t i = 0; i < sizeof records / sizeof records[0]; i++) {
        build_t(&t);
        set_event(&t, records[i].event, records[i].guard, records[i].first, records[i].count);
        want_table(&t, records[i].answer, records[i].why);
    }
}

/* T with another row r. */
static void want_row(uint32_t r, uint32_t kind, uint32_t left, uint32_t right, uint8_t answer) {
    struct table t;
    char why[80];
    build_t(&t);
    set_row(&t, r, kind, left, right);
    snprintf(why, sizeof why, "T with row %u of kind %u, left %u, right %u", (unsigned)r, (unsigned)kind, (unsigned)left, (unsigned)right);
    want_table(&t, answer, why);
}

/* Row r of T as one of kind 0. T has 5 events, so bit 4 is the last that may be named. */
static void play_bit_row(uint32_t r) {
    want_row(r, BIT, 4, 0, ADL_SOUND);
    want_row(r, BIT, 5, 0, ADL_UNSOUND_TABLE);
    want_row(r, BIT, 512, 0, ADL_UNSOUND_TABLE);
    want_row(r, BIT, 32767, 0, ADL_UNSOUND_TABLE);
    want_row(r, BIT, 0, 1, ADL_UNSOUND_TABLE);
    want_row(r, BIT, 0, 16384, ADL_UNSOUND_TABLE);
}

/* Row r of T as one that names other rows: which of the 11 rows, and of those that are not there, may be named on the left, and on the
 * right.
 */
static void play_naming_row(uint32_t r, uint32_t kind) {
    static const uint32_t wild[] = {512, 12288, 16384, 32767};
    for (uint32_t named = 0; named <= 12; named++) {
        want_row(r, kind, named, 0, named < r ? ADL_SOUND : ADL_UNSOUND_TABLE);
        if (r == 0) continue; /* the left side is wrong already */
        int right = kind == NOT ? named == 0 : named < r;
        want_row(r, kind, 0, named, right ? ADL_SOUND : ADL_UNSOUND_TABLE);
    }
    for (size_t i = 0; i < sizeof wild / sizeof wild[0]; i++) {
        want_row(r, kind, wild[i], 0, ADL_UNSOUND_TABLE);
        want_row(r, kind, 0, wild[i], ADL_UNSOUND_TABLE);
    }
}

/* The first row, one in the middle and the last. */
static void play_rows(void) {
    static const uint32_t rows[] = {0, 7, 10};
    for (size_t i = 0; i < sizeof rows / sizeof rows[0]; i++) {
        play_bit_row(rows[i]);
        for (uint32_t kind = NOT; kind <= EITHER; kind++) play_naming_row(rows[i], kind);
    }
}

/* The smallest table: its only event may be taken once its own bit is set, which also finishes the run. */
static void play_smallest(void) {
    struct table t;
    uint8_t record[ROOM] = {0}, offered[ADL_OFFER_BYTES] = {0};
    build_bit_0(&t, 1);
    at("E 1 and R 1, blank");
    want_check(&t, ADL_SOUND);
    want_step(&t, record, ADL_RECORD_BYTES, 0, ADL_NOT_NOW, record);
    want_offer(&t, record, ADL_RECORD_BYTES, ADL_OFFER_BYTES, ADL_DONE, offered);
    want_finished(&t, record, ADL_RECORD_BYTES, ADL_NOT_FINISHED);
    at("E 1 and R 1, bit 0 set");
    record[0] = offered[0] = 128;
    want_step(&t, record, ADL_RECORD_BYTES, 0, ADL_DONE, record);
    want_offer(&t, record, ADL_RECORD_BYTES, ADL_OFFER_BYTES, ADL_DONE, offered);
    want_finished(&t, record, ADL_RECORD_BYTES, ADL_FINISHED);
}

/* The largest table: rows 0 to 511 say their control bit, and each later row turns the one before it round, so that the last row says bit
 * 511 and the one before it says that bit 511 is not set. The latter guards all events. Event 511 clears all other bits.
 */
static void build_largest(struct table *t) {
    table_start(t, 512, 12288);
    for (uint32_t e = 0; e < 511; e++) add_event(t, 12286, 0, 0);
    add_event(t, 12286, 0, 511);
    for (uint32_t r = 0; r < 512; r++) add_row(t, BIT, r, 0);
    for (uint32_t r = 512; r < 12288; r++) add_row(t, NOT, r - 1, 0);
}

static void play_largest(void) {
    struct table t;
    uint8_t record[ROOM] = {0}, offered[ADL_OFFER_BYTES], after[ROOM] = {0};
    build_largest(&t);
    at("E 512 and R 12288, all bits set but the last");
    memset(record, 255, ADL_RECORD_BYTES);
    memset(offered, 255, ADL_OFFER_BYTES);
    record[63] = 254;
    after[63] = 1;
    want_check(&t, ADL_SOUND);
    want_offer(&t, record, ADL_RECORD_BYTES, ADL_OFFER_BYTES, ADL_DONE, offered);
    want_finished(&t, record, ADL_RECORD_BYTES, ADL_NOT_FINISHED);
    want_step(&t, record, ADL_RECORD_BYTES, 510, ADL_DONE, record);
    want_step(&t, record, ADL_RECORD_BYTES, 511, ADL_DONE, after);
    want_step(&t, record, ADL_RECORD_BYTES, 512, ADL_NO_EVENT, record);
    at("E 512 and R 12288, only the last bit set");
    memset(offered, 0, ADL_OFFER_BYTES);
    want_offer(&t, after, ADL_RECORD_BYTES, ADL_OFFER_BYTES, ADL_DONE, offered);
    want_finished(&t, after, ADL_RECORD_BYTES, ADL_FINISHED);
    want_step(&t, after, ADL_RECORD_BYTES, 0, ADL_NOT_NOW, after);
    want_step(&t, after, ADL_RECORD_BYTES, 511, ADL_NOT_NOW, after);
}

/* The same table with another last event record or last row. */
static void play_largest_changed(void) {
    static const struct {
        int row; /* whether the last row is changed; if not, the last event record is */
        uint32_t fields[3];
        uint8_t answer;
        const char *why;
    } changes[] = {
        {0, {12288, 0, 511}, 12, "largest table, last guard is R"},
        {0, {12287, 0, 510}, 12, "largest table, last event clears one too few"},
        {0, {12287, 1, 511}, 12, "largest table, last event clears its own bit too"},
        {0, {12287, 1, 510}, 0, "largest table, last event clears from bit 1 on"},
        {1, {BIT, 512, 0}, 12, "largest table, last row says bit 512"},
        {1, {EITHER, 12287, 0}, 12, "largest table, last row names itself on the left"},
        {1, {EITHER, 0, 12287}, 12, "largest table, last row names itself on the right"},
        {1, {BOTH, 12286, 12286}, 0, "largest table, last row names the one before it twice"},
    };
    struct table t;
    for (size_t i = 0; i < sizeof changes / sizeof changes[0]; i++) {
        const uint32_t *fields = changes[i].fields;
        build_largest(&t);
        if (changes[i].row) set_row(&t, 12287, fields[0], fields[1], fields[2]);
        else set_event(&t, 511, fields[0], fields[1], fields[2]);
        want_table(&t, changes[i].answer, changes[i].why);
    }
}

/* An event that clears any range of bits below it, one record byte boundary after the other. Bits outside the range stay. */
static void play_cleared_ranges(void) {
    struct table t;
    build_size(&t, 40, 2);
    set_row(&t, 1, EITHER, 0, 0);
    for (uint32_t first = 0; first < 39; first++) {
        uint8_t record[ROOM] = {255, 255, 255, 255, 254}, after[ROOM];
        set_event(&t, 39, 1, first, 39 - first);
        memcpy(after, record, ROOM);
        for (uint32_t bit = first; bit < 39; bit++) put_bit(after, bit, 0);
        put_bit(after, 39, 1);
        at("event 39 clears from bit %u on", (unsigned)first);
        want_step(&t, record, ADL_RECORD_BYTES, 39, ADL_DONE, after);
        put_bit(record, 39, 1); /* an event may be taken again while its bit is set */
        want_step(&t, record, ADL_RECORD_BYTES, 39, ADL_DONE, after);
    }
}

static void play_all(void) {
    for (size_t i = 0; i < sizeof lines / sizeof lines[0]; i++) {
        play_run(&lines[i]);
        play_points(&lines[i]);
    }
    play_lengths();
    play_all_bits_past();
    play_kinds();
    play_table_lengths();
    play_sizes();
    play_wild_sizes();
    play_event_records();
    play_rows();
    play_smallest();
    play_largest();
    play_largest_changed();
    play_cleared_ranges();
}

int main(void) {
    edge = EDGE;
    play_all();
    edge = 0;
    play_all();
    printf("play: %lu checks, %lu failed\n", checks, failed);
    return failed != 0;
}
