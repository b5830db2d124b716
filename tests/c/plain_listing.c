/* The listing, names and values, see plain_text.h. */
#include "plain_diagram.h"
#include "plain_text.h"

#include <string.h>

enum { MOST_LISTING = 32768, REPLICATOR_KINDS = 1 << ALL | 1 << SOME | 1 << ONE };

static int is_replicator(const struct node *node) {
    return REPLICATOR_KINDS >> node->kind & 1;
}

/* The values of the replicators around, outermost first. */
struct values {
    uint32_t count, list[MOST_AROUND];
};

/* The listing. */

struct writer {
    const uint8_t *text;
    const struct diagram *diagram;
    uint8_t *out;
    size_t written;
    uint32_t event; /* the number of the next one */
    struct values values;
};

static void write_bytes(struct writer *w, const void *bytes, size_t count) {
    memcpy(w->out + w->written, bytes, count);
    w->written += count;
}

static void write_word(struct writer *w, const char *word) {
    write_bytes(w, word, strlen(word));
}

static void write_number(struct writer *w, uint32_t number) {
    uint8_t digits[10];
    size_t first = sizeof digits;
    do {
        digits[--first] = (uint8_t)('0' + number % 10);
        number /= 10;
    } while (number > 0);
    write_bytes(w, digits + first, sizeof digits - first);
}

static void write_event(struct writer *w, struct span name, const char *before_name) {
    write_number(w, w->event++);
    write_word(w, before_name);
    write_bytes(w, w->text + name.place, name.length);
    for (uint32_t i = 0; i < w->values.count; i++) {
        write_word(w, " ");
        write_number(w, w->values.list[i]);
    }
    write_word(w, "\n");
}

static void write_node(struct writer *w, uint32_t at);

static void write_copies(struct writer *w, const struct node *replicator, uint32_t body) {
    uint32_t *value = &w->values.list[w->values.count++];
    for (*value = 0; *value < replicator->size; ++*value) write_node(w, body);
    w->values.count--;
}

/* The events of a node, depth first, left to right. */
static void write_node(struct writer *w, uint32_t at) {
    const struct node *nodes = w->diagram->nodes, *node = nodes + at;
    if (is_replicator(node)) {
        write_copies(w, node, at + 1);
        return;
    }
    for (uint32_t below = at + 1; below < node->end; below = nodes[below].end) write_node(w, below);
    if (node->kind == LEAF) write_event(w, node->name, " ");
    if (node->kind == LOOP && node[1].kind == FLOW) write_event(w, node[1].name, " reset ");
}

static void write_counts(struct writer *w, const char *first, uint32_t a, const char *second, uint32_t b) {
    write_word(w, first);
    write_number(w, a);
    write_word(w, second);
    write_number(w, b);
    write_word(w, "\n");
}

/* To a buffer that takes every listing. */
static size_t write_listing(const uint8_t *text, size_t len, uint8_t *out) {
    struct diagram diagram;
    struct writer writer = {.text = text, .diagram = &diagram, .out = out};
    uint64_t refused = read_diagram(text, len, &diagram);
    if (refused) {
        write_counts(&writer, "refused ", (uint32_t)(refused >> 32), " ", (uint32_t)refused);
        return writer.written;
    }
    write_counts(&writer, "events ", diagram.nodes[0].events, " copies ", diagram.nodes[0].copies);
    write_node(&writer, 0);
    return writer.written;
}

static void copy_front(uint8_t *out, size_t out_len, const uint8_t *bytes, size_t count) {
    memcpy(out, bytes, count < out_len ? count : out_len);
}

uint64_t plain_list(const uint8_t *text, size_t len, uint8_t *out, size_t out_len) {
    uint8_t whole[MOST_LISTING];
    if (out_len >= MOST_LISTING) return write_listing(text, len, out);
    size_t written = write_listing(text, len, whole);
    copy_front(out, out_len, whole, written);
    return written;
}

/* Names and values. */

struct event {
    struct span name;
    int reset;
    struct values values;
};

/* The node below that has the event, whose number within the node is made one within that. */
static uint32_t node_below(const struct node *nodes, uint32_t at, uint32_t *event) {
    uint32_t below = at + 1;
    for (; *event >= nodes[below].events; below = nodes[below].end) *event -= nodes[below].events;
    return below;
}

/* Goes down to the leaf or loop of an event, counting instead of going through the events before it. */
static struct event find_event(const struct node *nodes, uint32_t event) {
    struct event found = {.reset = 0};
    uint32_t at = 0;
    while (nodes[at].kind != LEAF && !found.reset) {
        if (is_replicator(nodes + at)) {
            found.values.list[found.values.count++] = event / nodes[at + 1].events;
            event %= nodes[at + 1].events;
        }
        found.reset = nodes[at].kind == LOOP && event == nodes[at + 1].events;
        at = found.reset ? at + 1 : node_below(nodes, at, &event);
    }
    found.name = nodes[at].name;
    return found;
}

static uint64_t read_event(const uint8_t *text, size_t len, uint64_t event, struct event *found) {
    struct diagram diagram;
    uint64_t refused = read_diagram(text, len, &diagram);
    if (refused) return refused;
    if (event >= diagram.nodes[0].events) return refusal(NO_EVENT, 0);
    *found = find_event(diagram.nodes, (uint32_t)event);
    return 0;
}

uint64_t plain_name(const uint8_t *text, size_t len, uint64_t event, uint8_t *out, size_t out_len) {
    struct event found;
    if (read_event(text, len, event, &found)) return 0;
    copy_front(out, out_len, text + found.name.place, found.name.length);
    return found.name.length;
}

uint64_t plain_values(const uint8_t *text, size_t len, uint64_t event) {
    struct event found;
    uint64_t refused = read_event(text, len, event, &found);
    if (refused) return refused;
    const uint32_t *list = found.values.list;
    return (uint64_t)found.reset << 24 | (uint64_t)found.values.count << 18 | (uint64_t)list[0] << 12 | list[1] << 6 | list[2];
}
