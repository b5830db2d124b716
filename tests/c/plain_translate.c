/* Translation, see plain_text.h.
 *
 * Each node copy is a part. The drawing is gone through twice: first each part gets rows that say whether it has begun and whether it is
 * complete, then the row that says whether it may have events now is handed down to the guards of its events.
 *
 * Every flow has a solid child, so only a loop is complete without an event, and a child of a flow begins only when all before it are
 * complete. So a child that is no loop and has begun, or is complete, spares every question about the children before it.
 */
#include "plain_diagram.h"
#include "plain_text.h"

enum { MOST_TABLE = 4 + 4 * MOST_EVENTS + 4 * MOST_ROWS };

/* The number of a row, or NONE where no row is needed: a condition that always holds, or in `later` one that never does. */
typedef uint32_t row;
enum { NONE = 0xFFFF };

struct part {
    enum kind kind;            /* ALL, SOME and ONE stand for the groups too */
    uint32_t below, below_end; /* the parts directly below it */
    uint32_t first, end;       /* its events */
    row begun, complete;
    int goes_on;               /* whether events may still come when it is complete */
    row earlier;               /* in a flow: all before it are complete */
    row later;                 /* in a flow: something after it has begun */
};

struct maker {
    const struct node *nodes;
    uint8_t *out;
    uint32_t events; /* E */
    uint32_t rows;   /* so far */
    uint32_t met;    /* events so far */
    uint32_t count;  /* of the parts so far */
    struct part parts[MOST_COPIES];
};

/* The table: row e is control bit e. */

static void put_word(uint8_t *out, uint32_t index, uint32_t word) {
    uint8_t *at = out + 4 * index;
    at[0] = (uint8_t)(word >> 24);
    at[1] = (uint8_t)(word >> 16);
    at[2] = (uint8_t)(word >> 8);
    at[3] = (uint8_t)word;
}

static row add_row(struct maker *m, uint32_t kind, row left, row right) {
    put_word(m->out, 1 + m->events + m->rows, kind << 30 | left << 15 | right);
    return m->rows++;
}

static row not(struct maker *m, row a) {
    return add_row(m, NOT, a, 0);
}

static row both(struct maker *m, row a, row b) {
    return a == NONE ? b : b == NONE ? a : add_row(m, BOTH, a, b);
}

static row either(struct maker *m, row a, row b) {
    return a == NONE ? b : add_row(m, EITHER, a, b);
}

static void put_event(struct maker *m, uint32_t event, row guard, uint32_t first, uint32_t count) {
    put_word(m->out, 1 + event, guard << 18 | first << 9 | count);
}

/* What has begun and what is complete. */

static row any_begun(struct maker *m, const struct part *part) {
    row begun = NONE;
    for (uint32_t i = part->below; i < part->below_end; i++) begun = either(m, begun, m->parts[i].begun);
    return begun;
}

static int any_goes_on(const struct maker *m, const struct part *part) {
    for (uint32_t i = part->below; i < part->below_end; i++) {
        if (m->parts[i].goes_on) return 1;
    }
    return 0;
}

static void state_of_all(struct maker *m, struct part *part) {
    part->begun = any_begun(m, part);
    for (uint32_t i = part->below; i < part->below_end; i++) part->complete = both(m, part->complete, m->parts[i].complete);
    part->goes_on = any_goes_on(m, part);
}

/* Says that a part is not halfway: NONE if it can never be. */
static row settled(struct maker *m, const struct part *part) {
    return part->complete == part->begun ? NONE : either(m, part->complete, not(m, part->begun));
}

/* Complete if some member has begun and none is halfway. */
static void state_of_chosen(struct maker *m, struct part *part) {
    part->begun = part->complete = any_begun(m, part);
    for (uint32_t i = part->below; i < part->below_end; i++) part->complete = both(m, part->complete, settled(m, &m->parts[i]));
    part->goes_on = part->kind == SOME || any_goes_on(m, part);
}

/* What a child before the first would be told of `later` is that the flow has begun, and what one after the last would be told of
 * `earlier`, that it is complete.
 */
static void state_of_flow(struct maker *m, struct part *flow) {
    row later = NONE, earlier = NONE;
    for (uint32_t i = flow->below_end; i-- > flow->below;) {
        struct part *child = &m->parts[i];
        child->later = later;
        later = child->kind == LOOP ? either(m, later, child->begun) : child->begun;
    }
    for (uint32_t i = flow->below; i < flow->below_end; i++) {
        struct part *child = &m->parts[i];
        child->earlier = earlier;
        earlier = child->kind == LOOP ? both(m, earlier, child->complete) : child->complete;
    }
    flow->begun = later;
    flow->complete = earlier;
    flow->goes_on = m->parts[flow->below_end - 1].goes_on;
}

/* The reset clears the flow's bits, so the flow has begun exactly within a round, and a loop over it is complete unless the flow is halfway. A
 * loop over a leaf is always complete.
 */
static void state_of_loop(struct maker *m, struct part *loop) {
    const struct part *body = &m->parts[loop->below];
    loop->begun = body->begun;
    loop->goes_on = 1;
    if (body->kind != FLOW) return;
    loop->begun = either(m, m->met++, body->begun);
    loop->complete = settled(m, body);
}

static enum kind kind_of_part(enum kind kind) {
    switch (kind) {
    case AND: return ALL;
    case OR: return SOME;
    case XOR: return ONE;
    default: return kind;
    }
}

static void make_part(struct maker *m, uint32_t at, uint32_t node);

/* Keeps room for the parts below side by side, then fills it. */
static void make_below(struct maker *m, struct part *part, uint32_t at) {
    const struct node *nodes = m->nodes;
    part->below = m->count;
    for (uint32_t below = at + 1; below < nodes[at].end; below = nodes[below].end) m->count += nodes[at].size;
    part->below_end = m->count;
    uint32_t next = part->below;
    for (uint32_t below = at + 1; below < nodes[at].end; below = nodes[below].end) {
        for (uint32_t copy = 0; copy < nodes[at].size; copy++) make_part(m, next++, below);
    }
}

static void make_part(struct maker *m, uint32_t at, uint32_t node) {
    struct part *part = &m->parts[at];
    *part = (struct part){.kind = kind_of_part(m->nodes[node].kind), .first = m->met, .complete = NONE, .earlier = NONE, .later = NONE};
    if (part->kind == LEAF) part->begun = part->complete = m->met++;
    else make_below(m, part, node);
    switch (part->kind) {
    case FLOW: state_of_flow(m, part); break;
    case LOOP: state_of_loop(m, part); break;
    case ALL: state_of_all(m, part); break;
    case SOME: case ONE: state_of_chosen(m, part); break;
    default: break;
    }
    part->end = m->met;
}

/* What may come next: the events of a part, only while the context says yes. */

static void allow(struct maker *m, const struct part *part, row context);

static void allow_leaf(struct maker *m, const struct part *leaf, row context) {
    put_event(m, leaf->first, both(m, context, not(m, leaf->begun)), 0, 0);
}

/* A child that does not go on is done when a later one has begun. */
static void allow_flow(struct maker *m, const struct part *flow, row context) {
    for (uint32_t i = flow->below; i < flow->below_end; i++) {
        const struct part *child = &m->parts[i];
        row now = both(m, context, child->earlier);
        if (child->goes_on && child->later != NONE) now = both(m, now, not(m, child->later));
        allow(m, child, now);
    }
}

/* A member may have events if it was the one to begin, or none was. */
static void allow_one(struct maker *m, const struct part *part, row context) {
    row blank = not(m, part->begun), start = both(m, context, blank);
    for (uint32_t i = part->below; i < part->below_end; i++) {
        const struct part *member = &m->parts[i];
        if (member->kind == LEAF) put_event(m, member->first, start, 0, 0);
        else allow(m, member, both(m, context, either(m, member->begun, blank)));
    }
}

/* Its flow has a child beside it that is no loop, so a loop over a leaf has a context. */
static void allow_loop(struct maker *m, const struct part *loop, row context) {
    const struct part *body = &m->parts[loop->below];
    if (body->kind == LEAF) {
        put_event(m, body->first, context, 0, 0);
        return;
    }
    allow(m, body, context);
    put_event(m, body->end, both(m, context, body->complete), body->first, body->end - body->first);
}

static void allow(struct maker *m, const struct part *part, row context) {
    switch (part->kind) {
    case LEAF: allow_leaf(m, part, context); break;
    case FLOW: allow_flow(m, part, context); break;
    case ONE: allow_one(m, part, context); break;
    case LOOP: allow_loop(m, part, context); break;
    default:
        for (uint32_t i = part->below; i < part->below_end; i++) allow(m, &m->parts[i], context);
    }
}

/* The last row says finished. */
static uint64_t write_table(struct maker *m) {
    for (uint32_t e = 0; e < m->events; e++) add_row(m, CONTROL_BIT, e, 0);
    make_part(m, 0, 0);
    allow(m, &m->parts[0], NONE);
    add_row(m, BOTH, m->parts[0].complete, m->parts[0].complete);
    put_word(m->out, 0, m->events << 16 | m->rows);
    return 4 + 4 * (uint64_t)m->events + 4 * (uint64_t)m->rows;
}

uint64_t plain_translate(const uint8_t *text, size_t len, uint8_t *out, size_t out_len) {
    struct diagram diagram;
    struct maker maker;
    if (out_len < MOST_TABLE) return refusal(SHORT_SHEET, 0);
    uint64_t refused = read_diagram(text, len, &diagram);
    if (refused) return refused;
    maker.nodes = diagram.nodes;
    maker.out = out;
    maker.events = diagram.nodes[0].events;
    maker.rows = maker.met = 0;
    maker.count = 1;
    return write_table(&maker);
}
