/* Compares the proved library with plain.c on seeded pseudo-random cases: answers, and every byte of what was lent and around it.
 *
 *     compare [cases [seed [first case]]]
 *
 * Each case depends on the seed and its own number alone. A case that differs is printed with both, and the run stops; `compare 1 SEED
 * CASE` tries it again. Every answer that a call can give has to come up, unless the first case is given.
 */
#include "adl.h"
#include "kit.h"
#include "plain.h"

#include <inttypes.h>
#include <stdio.h>
#include <stdlib.h>
#include <string.h>

enum { EDGE = 33, ROOM = 200 };
enum { BIT = 0, NOT = 1, BOTH = 2, EITHER = 3 };
enum { CHECK, STEP, OFFER, FINISHED, CALLS };

/* What the calls of one case are given. */
static struct table table;
static uint8_t record[ROOM], out[ROOM];
static size_t record_len, out_len, edge;
static uint64_t event;

static uint64_t seed, number; /* number: that of the case */
static uint64_t state;        /* of the pseudo-random sequence */

/* The answers that a call can give, and how often it gave them. */
static const struct {
    const char *name;
    size_t count;
    uint8_t answers[6];
} calls[CALLS] = {
    {"check", 2, {0, 12}},
    {"step", 6, {0, 1, 12, 13, 14, 15}},
    {"offer", 4, {0, 1, 12, 13}},
    {"finished", 5, {0, 1, 12, 13, 255}},
};
static unsigned long seen[CALLS][256];

static uint32_t any(uint32_t low, uint32_t high) { return draw_from(&state, low, high); }
static int percent(uint32_t share) { return any(0, 99) < share; }

static void print_hex(const char *name, const uint8_t *bytes, size_t length) {
    printf("%s, %zu bytes: ", name, length);
    for (size_t i = 0; i < length; i++) printf("%02x", (unsigned)bytes[i]);
    printf("\n");
}

/* Prints the case and ends the program. */
static void stop(const char *what) {
    printf("%s\n", what);
    printf("seed %" PRIu64 ", case %" PRIu64 "\n", seed, number);
    printf("event %" PRIu64 ", offer buffer of %zu bytes, edge %zu\n", event, out_len, edge);
    print_hex("record", record, record_len);
    print_hex("table", table.bytes, table.length);
    printf("compare: failed\n");
    exit(1);
}

static void same_answer(int call, uint8_t got, uint8_t wanted) {
    seen[call][got]++;
    if (got == wanted) return;
    printf("%s: answer %u, not %u\n", calls[call].name, (unsigned)got, (unsigned)wanted);
    stop("an answer differs");
}

static void same_bytes(int call, const char *name, const struct lent *lent, const uint8_t *wanted) {
    if (lent_differ(lent, wanted, calls[call].name, name)) stop("a byte differs");
}

/* The four calls, each made by the library and by plain.c on the same case. Both get the table that is lent to the library. */

static void compare_check(const struct lent *lent) {
    const uint8_t *bytes = lent_bytes(lent);
    same_answer(CHECK, adl_check(bytes, table.length), plain_check(bytes, table.length));
    same_bytes(CHECK, "table", lent, table.bytes);
}

/* Leaves the record that plain.c left in `after`, and gives the answer. */
static uint8_t compare_step(const struct lent *lent, uint8_t after[ROOM]) {
    const uint8_t *bytes = lent_bytes(lent);
    struct lent run = lend(record, record_len, edge);
    memcpy(after, record, ROOM);
    uint8_t answer = plain_step(bytes, table.length, after, record_len, event);
    same_answer(STEP, adl_step(bytes, table.length, lent_bytes(&run), record_len, event), answer);
    same_bytes(STEP, "table", lent, table.bytes);
    same_bytes(STEP, "record", &run, after);
    give_back(&run);
    return answer;
}

/* Leaves what plain.c wrote in `offered`. */
static void compare_offer(const struct lent *lent, uint8_t offered[ROOM]) {
    const uint8_t *bytes = lent_bytes(lent);
    struct lent run = lend(record, record_len, edge), buffer = lend(out, out_len, edge);
    memcpy(offered, out, ROOM);
    uint8_t answer = plain_offer(bytes, table.length, record, record_len, offered, out_len);
    same_answer(OFFER, adl_offer(bytes, table.length, lent_bytes(&run), record_len, lent_bytes(&buffer), out_len), answer);
    same_bytes(OFFER, "table", lent, table.bytes);
    same_bytes(OFFER, "record", &run, record);
    same_bytes(OFFER, "offer buffer", &buffer, offered);
    give_back(&run);
    give_back(&buffer);
}

static void compare_finished(const struct lent *lent) {
    const uint8_t *bytes = lent_bytes(lent);
    struct lent run = lend(record, record_len, edge);
    uint8_t answer = plain_finished(bytes, table.length, record, record_len);
    same_answer(FINISHED, adl_finished(bytes, table.length, lent_bytes(&run), record_len), answer);
    same_bytes(FINISHED, "table", lent, table.bytes);
    same_bytes(FINISHED, "record", &run, record);
    give_back(&run);
}

static void compare_all(void) {
    uint8_t after[ROOM], offered[ROOM];
    struct lent lent = lend(table.bytes, table.length, edge);
    compare_check(&lent);
    compare_step(&lent, after);
    compare_offer(&lent, offered);
    compare_finished(&lent);
    give_back(&lent);
}

/* Random sound tables: mostly small, as most of what can go wrong shows there; some of every size up to the largest. */

static uint32_t any_event_count(void) {
    static const uint32_t edges[] = {1, 8, 9, 64, 65, 504, 511, 512};
    if (percent(55)) return any(1, 12);
    if (percent(60)) return any(1, 64);
    return percent(50) ? any(1, 512) : edges[any(0, 7)];
}

static uint32_t any_row_count(void) {
    if (percent(65)) return any(1, 24);
    if (percent(70)) return any(1, 200);
    if (percent(80)) return any(1, 2000);
    return percent(70) ? any(1, 12288) : 12288;
}

/* A row below r, half of the time one shortly before it, so that chains come up. */
static uint32_t any_lower_row(uint32_t r) {
    return percent(50) ? any(r > 4 ? r - 4 : 0, r - 1) : any(0, r - 1);
}

static void add_any_row(uint32_t r, uint32_t events) {
    if (r == 0 || percent(30)) add_row(&table, BIT, any(0, events - 1), 0);
    else if (percent(35)) add_row(&table, NOT, any_lower_row(r), 0);
    else add_row(&table, percent(45) ? BOTH : EITHER, any_lower_row(r), any_lower_row(r));
}

static void make_table(uint32_t events, uint32_t rows) {
    table_start(&table, events, rows);
    for (uint32_t e = 0; e < events; e++) {
        uint32_t count = e > 0 && percent(25) ? any(1, e) : 0;
        add_event(&table, any(0, rows - 1), count > 0 ? e - count : 0, count);
    }
    for (uint32_t r = 0; r < rows; r++) add_any_row(r, events);
}

/* One change to the table. It may still be sound afterwards. */

static void change_bytes(void) {
    uint32_t last = (uint32_t)table.length - 1;
    if (percent(40)) {
        uint32_t bit = any(0, 8 * last + 7);
        table.bytes[bit / 8] ^= (uint8_t)(1 << (bit % 8));
    } else if (percent(50)) {
        table.bytes[any(0, last)] = (uint8_t)any(0, 255);
    } else {
        table.bytes[any(0, 3)] ^= (uint8_t)(1 << any(0, 7)); /* E and R */
    }
}

static void change_length(void) {
    if (percent(50)) {
        table.length -= any(1, 8);
    } else if (percent(40)) {
        table.length = percent(50) ? any(0, 4) : any(0, (uint32_t)table.length);
    } else {
        for (uint32_t more = any(1, 8); more > 0; more--) table.bytes[table.length++] = (uint8_t)any(0, 255);
    }
}

static void change_event_record(void) {
    uint32_t e = any(0, table_events(&table) - 1), rows = table_rows(&table);
    if (percent(50)) {
        set_event(&table, e, any(rows - 1, rows + 1), 0, 0);
    } else if (percent(40)) {
        set_event(&table, e, 0, any(0, 511), any(0, 1)); /* mostly a first without a count */
    } else if (e < 511 && percent(30)) {
        uint32_t first = any(e + 1, 511);
        set_event(&table, e, 0, first, 512 + e - first); /* right in nine bits */
    } else {
        uint32_t sum = e > 1 && percent(50) ? e - 1 : e + 1, count = any(1, sum < 511 ? sum : 511);
        set_event(&table, e, 0, sum - count, count);
    }
}

static void change_row(void) {
    uint32_t r = any(0, table_rows(&table) - 1), events = table_events(&table), near = any(r > 0 ? r - 1 : 0, r + 1);
    if (percent(25)) set_row(&table, r, BIT, any(events - 1, events + 1), 0);
    else if (percent(20)) set_row(&table, r, BIT, 0, any(0, 32767));
    else if (percent(20)) set_row(&table, r, NOT, 0, any(0, 2));
    else if (percent(20)) set_row(&table, r, NOT, near, 0);
    else if (percent(50)) set_row(&table, r, percent(50) ? BOTH : EITHER, near, 0);
    else set_row(&table, r, percent(50) ? BOTH : EITHER, 0, near);
}

static void damage_table(void) {
    switch (any(0, 4)) {
    case 0:
        change_length();
        break;
    case 1:
        change_event_record();
        break;
    case 2:
        change_row();
        break;
    default:
        change_bytes();
        break;
    }
}

/* Makes a table; says whether it was left as it was built, which is sound. One in a hundred has an event or a row too many. */
static int make_any_table(void) {
    uint32_t events = any_event_count(), rows = any_row_count();
    int intact = percent(50);
    if (percent(1)) {
        intact = 0;
        make_table(percent(50) ? 513 : events, 12289);
    } else if (percent(1)) {
        intact = 0;
        make_table(513, rows);
    } else {
        make_table(events, rows);
        if (!intact) damage_table();
    }
    return intact;
}

/* Records: blank, or any bits below E; some with bits at or past E too. What stands past the 64 bytes is never looked at. */
static void make_record(uint32_t events) {
    uint32_t share = any(1, 99), past = events < 512 && percent(20);
    for (size_t i = 0; i < ROOM; i++) record[i] = i < ADL_RECORD_BYTES ? 0 : (uint8_t)any(0, 255);
    if (!percent(25)) {
        for (uint32_t e = 0; e < events; e++) put_bit(record, e, percent(share));
    }
    if (!past) return;
    if (percent(30)) put_bit(record, events, 1);
    else if (percent(30)) put_bit(record, 511, 1);
    else put_bit(record, any(events, 511), 1);
}

static void make_lengths(void) {
    static const size_t record_lens[] = {0, 63, 65, 128}, out_lens[] = {0, 1, 63, 64, 65, 200};
    record_len = percent(88) ? ADL_RECORD_BYTES : record_lens[any(0, 3)];
    out_len = percent(60) ? ADL_OFFER_BYTES : out_lens[any(0, 5)];
    for (size_t i = 0; i < ROOM; i++) out[i] = (uint8_t)any(0, 255);
}

/* Mostly an event that there is. Else one at or past E: just past, or one that a cut to 8, 16 or 32 bits would turn into one below E. */
static uint64_t any_event(uint32_t events) {
    uint64_t below = any(0, events - 1);
    if (percent(75)) return below;
    switch (any(0, 5)) {
    case 0:
        return events;
    case 1:
        return (uint64_t)events + any(0, 600);
    case 2:
        return below + ((uint64_t)1 << any(8, 63));
    case 3:
        return UINT64_MAX - any(0, 1);
    case 4:
        return draw(&state);
    default:
        return below + ((uint64_t)1 << 32);
    }
}

/* An event is offered exactly if a step would take it: tried for all events of a small table, for some of a large one. */
static void try_offers(const struct lent *lent, const uint8_t *offered) {
    uint32_t events = table_events(&table), tries = events * (events + table_rows(&table)) <= 3000 ? events : 5;
    uint8_t after[ROOM];
    for (uint32_t i = 0; i < tries; i++) {
        uint32_t e = tries == events ? i : any(0, events - 1);
        event = e;
        uint8_t answer = compare_step(lent, after);
        if (answer != (get_bit(offered, e) ? ADL_DONE : ADL_NOT_NOW)) stop("offer and step disagree");
    }
    for (uint32_t bit = events; bit < 512; bit++) {
        if (get_bit(offered, bit)) stop("offer names an event that there is not");
    }
}

/* An offered event, looked for from a random one on; E if none is offered. */
static uint32_t any_offered(const uint8_t *offered) {
    uint32_t events = table_events(&table), from = any(0, events - 1);
    for (uint32_t i = 0; i < events; i++) {
        if (get_bit(offered, (from + i) % events)) return (from + i) % events;
    }
    return events;
}

/* From the blank record on, takes offered events again and again. */
static void walk(void) {
    uint8_t offered[ROOM], after[ROOM];
    struct lent lent = lend(table.bytes, table.length, edge);
    memset(record, 0, ADL_RECORD_BYTES);
    record_len = ADL_RECORD_BYTES;
    out_len = ADL_OFFER_BYTES;
    for (int steps = 0; steps < 6; steps++) {
        compare_offer(&lent, offered);
        compare_finished(&lent);
        try_offers(&lent, offered);
        event = any_offered(offered);
        if (event == table_events(&table)) break;
        if (compare_step(&lent, after) != ADL_DONE) stop("an offered event is not taken");
        memcpy(record, after, ROOM);
    }
    give_back(&lent);
}

static void try_case(void) {
    state = seed;
    state = draw(&state) + number; /* so that neighbouring seeds do not share cases */
    state = draw(&state);
    edge = percent(50) ? EDGE : 0;
    int intact = make_any_table();
    if (intact && plain_check(table.bytes, table.length) != ADL_SOUND) stop("a table that was built sound is not");
    /* The number of events that the table says: a damaged one may say anything. */
    uint32_t events = table_events(&table);
    if (events < 1 || events > 512) events = any(1, 512);
    make_record(events);
    make_lengths();
    event = any_event(events);
    compare_all();
    if (intact) walk();
}

/* Prints how often each answer came up; gives the number of those that never did, though they can. */
static int print_answers(void) {
    int missing = 0;
    for (int call = 0; call < CALLS; call++) {
        printf("%-9s", calls[call].name);
        for (size_t i = 0; i < calls[call].count; i++) {
            uint8_t answer = calls[call].answers[i];
            printf("  %u: %lu", (unsigned)answer, seen[call][answer]);
            missing += seen[call][answer] == 0;
        }
        printf("\n");
    }
    return missing;
}

int main(int argc, char **argv) {
    uint64_t cases = argc > 1 ? strtoull(argv[1], NULL, 10) : 20000;
    uint64_t first = argc > 3 ? strtoull(argv[3], NULL, 10) : 0;
    seed = argc > 2 ? strtoull(argv[2], NULL, 10) : 1;
    for (number = first; number < first + cases; number++) try_case();
    int missing = print_answers();
    if (argc > 3) missing = 0;
    if (missing != 0) printf("%d answers that can come up never did: too few cases\n", missing);
    printf("compare: %" PRIu64 " cases, seed %" PRIu64 ", %s\n", cases, seed, missing == 0 ? "all alike" : "failed");
    return missing != 0;
}
