/* How much stack each call takes, for ./bench.
 *
 * The calls on a text are those of libharness.a, the four on a table those of libfirmware.a. Each has to do with its limit; the gate runs this.
 */
#include "adl.h"
#include "kit.h"
#include "painted.h"

#include <stdint.h>
#include <stdio.h>
#include <stdlib.h>
#include <string.h>

uint64_t adl_test_read(const uint8_t *text, size_t len);
uint64_t adl_test_print(const uint8_t *text, size_t len, uint8_t *out, size_t out_len);
uint64_t adl_test_translate(const uint8_t *text, size_t len, uint8_t *out, size_t out_len);
uint64_t adl_test_list(const uint8_t *text, size_t len, uint8_t *out);
uint64_t adl_test_name(const uint8_t *text, size_t len, uint64_t event, uint8_t *out, size_t out_len);
uint64_t adl_test_values(const uint8_t *text, size_t len, uint64_t event);
uint64_t adl_test_eventb(const uint8_t *text, size_t len, uint64_t event, uint8_t *out, size_t out_len);

/* What a call may take: those on a table, read and print, and the others on a text, which expand or list as well. */
enum { MOST_TABLE = 16384, MOST_READ = 24576, MOST_TEXT_CALL = 49152 };

/* What the calls are given. */
static uint8_t text[16384], lines[32768], event_text[65536], record[ADL_RECORD_BYTES], offered[ADL_OFFER_BYTES];
static size_t length;
static uint64_t event; /* of which the text is written */
static struct table table;

/* Calls. */

static void read_text(void) { adl_test_read(text, length); }
static void print_text(void) { adl_test_print(text, length, lines, sizeof lines); }
static void list_text(void) { adl_test_list(text, length, lines); }
static void name_event(void) { adl_test_name(text, length, 0, lines, sizeof lines); }
static void values_of_event(void) { adl_test_values(text, length, 0); }
static void write_event(void) { adl_test_eventb(text, length, event, event_text, sizeof event_text); }
static void check(void) { adl_check(table.bytes, table.length); }
static void finished(void) { adl_finished(table.bytes, table.length, record, sizeof record); }

static void translate_text(void) {
    table.length = (size_t)adl_test_translate(text, length, table.bytes, sizeof table.bytes);
}

static void offer(void) {
    adl_offer(table.bytes, table.length, record, sizeof record, offered, sizeof offered);
}

/* Each event in turn and one past them: some are taken, resets among them, and some are not. What the deepest of these steps needs. */
static void step(void) {
    memset(record, 0, sizeof record);
    for (uint64_t event = 0; event <= table_events(&table); event++) adl_step(table.bytes, table.length, record, sizeof record, event);
}

struct call {
    const char *title;
    void (*run)(void);
    size_t most;
};

static const struct call text_calls[] = {{"read", read_text, MOST_READ},
                                         {"print", print_text, MOST_READ},
                                         {"translate", translate_text, MOST_TEXT_CALL},
                                         {"list", list_text, MOST_TEXT_CALL},
                                         {"name", name_event, MOST_TEXT_CALL},
                                         {"values", values_of_event, MOST_TEXT_CALL}};
static const struct call table_calls[] = {
    {"check", check, MOST_TABLE}, {"step", step, MOST_TABLE}, {"offer", offer, MOST_TABLE}, {"finished", finished, MOST_TABLE}};

enum { TEXT_CALLS = sizeof text_calls / sizeof *text_calls, TABLE_CALLS = sizeof table_calls / sizeof *table_calls };

/* Drawings. */

static size_t trip(char *at) {
    return (size_t)sprintf(at, "flow(trip,1)(leaf(take)(0)loop(leaf(fill))(0)xor(leaf(send)leaf(drop))(0)leaf(free)(1))");
}

/* The drawing called U in document 01, which has a reset. */
static size_t rounds(char *at) {
    return (size_t)sprintf(at, "flow(t,1)(loop(flow(r,1)(leaf(a)(0)leaf(b)(1)))(0)leaf(c)(1))");
}

/* A root with 255 leaves. */
static size_t leaves(char *at) {
    char *start = at;
    at += sprintf(at, "flow(r,1)(");
    for (int i = 0; i < 255; i++) at += sprintf(at, "leaf(l%d)(%d)", i, i == 0);
    at += sprintf(at, ")");
    return (size_t)(at - start);
}

/* Eleven nested flows and a leaf, the deepest drawing. */
static size_t nested(char *at) {
    char *start = at;
    for (int i = 0; i < 11; i++) at += sprintf(at, "flow(f%d,1)(", i);
    at += sprintf(at, "leaf(x)");
    for (int i = 0; i < 11; i++) at += sprintf(at, "(1))");
    return (size_t)(at - start);
}

/* 23 children all(v:16) over a flow of one leaf, and 8 leaves: 768 copies, the largest drawing. */
static size_t copies(char *at) {
    char *start = at;
    at += sprintf(at, "flow(r,1)(");
    for (int i = 0; i < 23; i++) at += sprintf(at, "all(v:16)(flow(f%d,v,1)(leaf(x%d)(1)))(0)", i, i);
    for (int i = 0; i < 8; i++) at += sprintf(at, "leaf(l%d)(%d)", i, i == 0);
    at += sprintf(at, ")");
    return (size_t)(at - start);
}

/* The drawing of this title among the ratios, with shorter names and no blanks: as many events as a machine may have, to depth 12. */
static size_t deep_ors(char *at) {
    char *start = at;
    at += sprintf(at, "flow(r,1)(or(flow(a,1)(xor(flow(b,1)(or(flow(c,1)(or(flow(d,1)(or(flow(e,1)(");
    for (int i = 0; i < 16; i++) at += sprintf(at, "leaf(l%d)(%d)", i, i == 0);
    at += sprintf(at, ")leaf(l16)leaf(l17))(0)loop(leaf(l18))(0)leaf(l19)(1)");
    at += sprintf(at, ")leaf(l20)leaf(l21))(0)loop(leaf(l22))(0)leaf(l23)(1)");
    at += sprintf(at, ")leaf(l24)leaf(l25))(0)leaf(l26)(1)");
    at += sprintf(at, ")leaf(l27)leaf(l28))(0)leaf(l29)(1)");
    at += sprintf(at, ")leaf(l30))(0)leaf(l31)(1))");
    return (size_t)(at - start);
}

/* The largest table: every fourth event is a reset of all before it, kinds in turn. */
static void full_table(void) {
    table_start(&table, ADL_MOST_EVENTS, ADL_MOST_ROWS);
    for (uint32_t e = 0; e < ADL_MOST_EVENTS; e++) add_event(&table, e % 7, 0, e % 4 == 3 ? e : 0);
    for (uint32_t r = 0; r < ADL_MOST_ROWS; r++) {
        uint32_t kind = r % 4;
        add_row(&table, kind, kind == 0 ? r % ADL_MOST_EVENTS : r - 1, kind < 2 ? 0 : r / 2);
    }
    if (adl_check(table.bytes, table.length) != ADL_SOUND) exit(1);
}

/* Lines. */

/* The first run is not measured: in it the dynamic linker finds the functions, and its own work is not to be on the painted stack. */
static size_t stack_of(void (*run)(void)) {
    run();
    return used(run);
}

/* Calls that took more than they may. */
static int over;

static void print_calls(const struct call *calls, int count) {
    for (int i = 0; i < count; i++) {
        size_t bytes = stack_of(calls[i].run);
        over += bytes > calls[i].most;
        printf(" %9zu", bytes);
    }
}

/* What the deepest of the drawing's events needs. The first number turned away is the one past them, or 0 if there is no machine. */
static void print_eventb(void) {
    size_t deepest = 0;
    for (event = 0; adl_test_eventb(text, length, event, event_text, sizeof event_text) >> 32 == 0; event++) {
        size_t bytes = stack_of(write_event);
        if (bytes > deepest) deepest = bytes;
    }
    if (event == 0) printf(" %9s", "-");
    else printf(" %9zu", deepest);
}

static void print_limits(void) {
    printf("%-20s", "limit");
    for (int i = 0; i < TEXT_CALLS; i++) printf(" %9zu", text_calls[i].most);
    printf(" %9s", "-");
    for (int i = 0; i < TABLE_CALLS; i++) printf(" %9zu", table_calls[i].most);
    printf("\n");
}

static void print_drawing(const char *title, size_t (*drawing)(char *)) {
    length = drawing((char *)text);
    if (adl_test_read(text, length) >> 32) exit(1);
    printf("%-20s", title);
    print_calls(text_calls, TEXT_CALLS);
    print_eventb();
    print_calls(table_calls, TABLE_CALLS);
    printf("\n");
}

static void print_head(void) {
    printf("3. Stack: bytes that one proved call takes below its caller\n\n%-20s", "input");
    for (int i = 0; i < TEXT_CALLS; i++) printf(" %9s", text_calls[i].title);
    printf(" %9s", "eventb");
    for (int i = 0; i < TABLE_CALLS; i++) printf(" %9s", table_calls[i].title);
    printf("\n");
}

int main(void) {
    print_head();
    print_drawing("T", trip);
    print_drawing("U", rounds);
    print_drawing("255 leaves", leaves);
    print_drawing("eleven nested flows", nested);
    print_drawing("768 copies", copies);
    print_drawing("32 events, deep ors", deep_ors);
    full_table();
    printf("%-20s%*s", "12,288 rows", 10 * (TEXT_CALLS + 1), "");
    print_calls(table_calls, TABLE_CALLS);
    printf("\n");
    print_limits();
    printf("\n%s. The last four are the C calls of libfirmware.a.\n",
           over ? "OVER THE LIMITS" : "All within the limits");
    printf("Eventb is that of the deepest event; - for a drawing that has no machine: with a replicator, or more than 32 events.\n");
    return over > 0;
}
