/* Reading and printing, see plain_text.h.
 *
 * The bytes are gone through once for 3 and 4, those of remarks too. Then each node's reader calls those of the nodes below it. The
 * rules beyond grammar are looked at on the way; where each is first broken is kept until the whole text is known to be
 * grammatical.
 */
#include "plain_diagram.h"
#include "plain_text.h"

#include <string.h>

uint64_t refusal(unsigned number, size_t place) {
    return (uint64_t)number << 32 | place;
}

/* Bytes: 3 and 4. */

enum { FOREIGN, BLANK, MARK, WORD, REMARK };

#define ROW(a, b, c, d, e, f, g, h, i, j, k, l, m, n, o, p) a, b, c, d, e, f, g, h, i, j, k, l, m, n, o, p

/* The class of each byte outside of remarks; those past 127 are foreign, and # starts a remark. */
static const uint8_t classes[256] = {
    ROW(0, 0, 0, 0, 0, 0, 0, 0, 0, 0, 1, 0, 0, 0, 0, 0), /* 10 */
    ROW(0, 0, 0, 0, 0, 0, 0, 0, 0, 0, 0, 0, 0, 0, 0, 0),
    ROW(1, 0, 0, 4, 0, 0, 0, 0, 2, 2, 0, 0, 2, 0, 0, 0), /* 32 # ( ) , */
    ROW(3, 3, 3, 3, 3, 3, 3, 3, 3, 3, 2, 0, 0, 0, 0, 0), /* digits : */
    ROW(0, 3, 3, 3, 3, 3, 3, 3, 3, 3, 3, 3, 3, 3, 3, 3), /* A to O */
    ROW(3, 3, 3, 3, 3, 3, 3, 3, 3, 3, 3, 0, 0, 0, 0, 3), /* P to Z _ */
    ROW(0, 3, 3, 3, 3, 3, 3, 3, 3, 3, 3, 3, 3, 3, 3, 3), /* a to o */
    ROW(3, 3, 3, 3, 3, 3, 3, 3, 3, 3, 3, 0, 0, 0, 0, 0), /* p to z */
};

/* From within a remark to where it ends, at the next byte 10 or the end of the text; a foreign byte is come to before that. */
static size_t skip_remark(const uint8_t *text, size_t len, size_t at) {
    while (at < len && text[at] >= 32 && text[at] <= 126) at++;
    return at;
}

/* A foreign byte anywhere comes before a long word. */
static uint64_t check_bytes(const uint8_t *text, size_t len) {
    size_t run = 0, long_word = len;
    for (size_t at = 0; at < len; at++) {
        uint8_t class = classes[text[at]];
        if (class == REMARK) {
            at = skip_remark(text, len, at);
            if (at == len) break;
            class = text[at] == '\n' ? BLANK : FOREIGN;
        }
        if (class == FOREIGN) return refusal(FOREIGN_BYTE, at);
        run = class == WORD ? run + 1 : 0;
        if (run == MOST_WORD + 1 && long_word == len) long_word = at - MOST_WORD;
    }
    return long_word < len ? refusal(LONG_WORD, long_word) : 0;
}

/* Tokens. */

enum { TEXT_END = 0, A_WORD = 'a' };
enum { NAME_SLOTS = 2 * MOST_NODES, UNBROKEN = MOST_TEXT };

struct reader {
    const uint8_t *text;
    size_t length;
    size_t at, end;               /* the next token; `at` is the length if there is none */
    int token;                    /* TEXT_END, A_WORD, or the byte of a mark */
    uint64_t refused;             /* 5 or 6, once met */
    size_t broken[COPIES];        /* where the rule of each number is first broken */
    struct span pars[MOST_DEPTH]; /* of the replicators around, outermost first */
    unsigned around;
    struct node *nodes;
    unsigned count;
    uint16_t names[NAME_SLOTS]; /* nodes whose names were met, each plus 1, where its name's hash puts it */
};

/* Blanks and remarks, of which none has a foreign byte. */
static size_t skip_blanks(const uint8_t *text, size_t len, size_t at) {
    while (at < len) {
        uint8_t class = classes[text[at]];
        if (class == BLANK) at++;
        else if (class == REMARK) at = skip_remark(text, len, at);
        else break;
    }
    return at;
}

static void advance(struct reader *r) {
    size_t at = skip_blanks(r->text, r->length, r->end);
    r->at = r->end = at;
    r->token = TEXT_END;
    if (at == r->length) return;
    r->end++;
    r->token = r->text[at];
    if (classes[r->text[at]] == MARK) return;
    r->token = A_WORD;
    while (r->end < r->length && classes[r->text[r->end]] == WORD) r->end++;
}

/* The readers below say 0 once the text is turned away. */

static int refuse(struct reader *r, unsigned number) {
    r->refused = refusal(number, r->at);
    return 0;
}

static int read_mark(struct reader *r, int mark) {
    if (r->token != mark) return refuse(r, OFF_GRAMMAR);
    advance(r);
    return 1;
}

#define PACKED(a, b, c, d) ((uint32_t)(a) << 24 | (uint32_t)(b) << 16 | (uint32_t)(c) << 8 | (uint32_t)(d))

/* The kind whose keyword the next token is. */
static enum kind keyword(const struct reader *r) {
    uint32_t packed = 0;
    if (r->token != A_WORD || r->end - r->at > 4) return NO_KIND;
    for (size_t at = r->at; at < r->end; at++) packed = packed << 8 | r->text[at];
    switch (packed) {
    case PACKED('l', 'e', 'a', 'f'): return LEAF;
    case PACKED('f', 'l', 'o', 'w'): return FLOW;
    case PACKED('l', 'o', 'o', 'p'): return LOOP;
    case PACKED(0, 'a', 'n', 'd'): return AND;
    case PACKED(0, 0, 'o', 'r'): return OR;
    case PACKED(0, 'x', 'o', 'r'): return XOR;
    case PACKED(0, 'a', 'l', 'l'): return ALL;
    case PACKED('s', 'o', 'm', 'e'): return SOME;
    case PACKED(0, 'o', 'n', 'e'): return ONE;
    default: return NO_KIND;
    }
}

/* Among the bytes of words only digits are lower than the letters, and only the underscore lies between them. */
static int read_name(struct reader *r, struct span *name) {
    uint8_t first = r->token == A_WORD ? r->text[r->at] : '_';
    if (first < 'A' || first == '_' || keyword(r) != NO_KIND) return refuse(r, OFF_GRAMMAR);
    *name = (struct span){(uint32_t)r->at, (uint32_t)(r->end - r->at)};
    advance(r);
    return 1;
}

/* sw and ref are one word each, 0 or 1. */
static int at_bit(const struct reader *r) {
    return r->token == A_WORD && r->end - r->at == 1 && (r->text[r->at] == '0' || r->text[r->at] == '1');
}

static int read_bit(struct reader *r, int *bit) {
    if (!at_bit(r)) return refuse(r, OFF_GRAMMAR);
    *bit = r->text[r->at] == '1';
    advance(r);
    return 1;
}

/* 1 to 16 without leading zero. */
static int read_size(struct reader *r, uint32_t *size) {
    size_t length = r->end - r->at;
    const uint8_t *word = r->text + r->at;
    if (r->token != A_WORD) return refuse(r, OFF_GRAMMAR);
    if (length == 1 && word[0] >= '1' && word[0] <= '9') *size = word[0] - '0';
    else if (length == 2 && word[0] == '1' && word[1] >= '0' && word[1] <= '6') *size = 10 + word[1] - '0';
    else return refuse(r, OFF_GRAMMAR);
    advance(r);
    return 1;
}

/* The rules beyond grammar: 7 to 10. */

static void breaks(struct reader *r, unsigned number, size_t place) {
    if (place < r->broken[number]) r->broken[number] = place;
}

static int alike(const struct reader *r, struct span a, struct span b) {
    return a.length == b.length && memcmp(r->text + a.place, r->text + b.place, a.length) == 0;
}

/* The slot where a name's search begins. The last multiplication spreads names that differ in their last bytes only. */
static uint32_t first_slot(const struct reader *r, struct span name) {
    uint32_t hash = name.length;
    for (uint32_t i = 0; i < name.length; i++) hash = hash * 31 + r->text[name.place + i];
    return (hash * 2654435769u >> 16) % NAME_SLOTS;
}

/* Names met so far are found by their hash, so that many leaves do not take the square of their number. */
static void meet_name(struct reader *r, const struct node *node) {
    uint32_t slot = first_slot(r, node->name);
    for (; r->names[slot] != 0; slot = (slot + 1) % NAME_SLOTS) {
        if (!alike(r, r->nodes[r->names[slot] - 1].name, node->name)) continue;
        breaks(r, NAME_TWICE, node->name.place);
        return;
    }
    r->names[slot] = (uint16_t)(node - r->nodes + 1);
}

/* Nodes: 5 and 6. */

enum { ROOT = 1 << FLOW, MEMBER = 1 << LEAF | 1 << FLOW, CHILD = (1 << NO_KIND) - 1 };

static int read_node(struct reader *r, unsigned allowed, unsigned depth);

/* Reads a node that may be of these kinds and counts it where it stands. */
static int read_below(struct reader *r, struct node *above, unsigned allowed, unsigned depth) {
    const struct node *below = r->nodes + r->count;
    if (!read_node(r, allowed, depth)) return 0;
    above->copies += above->size * below->copies;
    above->events += above->size * below->events;
    return 1;
}

static int read_leaf(struct reader *r, struct node *leaf) {
    if (!read_mark(r, '(') || !read_name(r, &leaf->name)) return 0;
    meet_name(r, leaf);
    leaf->events = 1;
    return read_mark(r, ')');
}

/* Names until sw is met, each after a comma: exactly those around, outermost first. */
static int read_pars_and_sw(struct reader *r, const struct node *flow) {
    unsigned listed = 0;
    int same = 1, strong;
    if (!read_mark(r, ',')) return 0;
    while (!at_bit(r)) {
        struct span par;
        if (!read_name(r, &par) || !read_mark(r, ',')) return 0;
        same = same && listed < r->around && alike(r, par, r->pars[listed]);
        listed++;
    }
    if (!same || listed != r->around) breaks(r, PARAMETER, flow->place);
    if (!read_bit(r, &strong)) return 0;
    if (!strong) breaks(r, WEAK, flow->place);
    return 1;
}

/* A child and its ref. Adds 1 to the solid ones, but 2 for one that may not be solid: exactly 1 of them is right then. */
static int read_child(struct reader *r, struct node *flow, unsigned depth, unsigned *solid) {
    const struct node *child = r->nodes + r->count;
    int ref;
    if (!read_below(r, flow, CHILD, depth)) return 0;
    if (!read_mark(r, '(') || !read_bit(r, &ref) || !read_mark(r, ')')) return 0;
    if (ref) *solid += child->kind == LEAF || child->kind == FLOW || child->kind == XOR || child->kind == ONE ? 1 : 2;
    return 1;
}

static int read_flow(struct reader *r, struct node *flow, unsigned depth) {
    unsigned solid = 0;
    if (!read_mark(r, '(') || !read_name(r, &flow->name)) return 0;
    meet_name(r, flow);
    if (!read_pars_and_sw(r, flow) || !read_mark(r, ')') || !read_mark(r, '(')) return 0;
    do {
        if (!read_child(r, flow, depth + 1, &solid)) return 0;
    } while (r->token != ')');
    advance(r);
    if (solid != 1) breaks(r, SOLID_LINE, flow->place);
    return 1;
}

static int read_body(struct reader *r, struct node *above, unsigned depth) {
    return read_mark(r, '(') && read_below(r, above, MEMBER, depth + 1) && read_mark(r, ')');
}

/* Its reset is an event, if it is over a flow. */
static int read_loop(struct reader *r, struct node *loop, unsigned depth) {
    if (!read_body(r, loop, depth)) return 0;
    loop->events += loop[1].kind == FLOW;
    return 1;
}

static int read_group(struct reader *r, struct node *group, unsigned depth) {
    if (!read_mark(r, '(') || !read_below(r, group, MEMBER, depth + 1)) return 0;
    do {
        if (!read_below(r, group, MEMBER, depth + 1)) return 0;
    } while (r->token != ')');
    advance(r);
    return 1;
}

static int read_replicator(struct reader *r, struct node *replicator, unsigned depth) {
    struct span par;
    if (!read_mark(r, '(') || !read_name(r, &par) || !read_mark(r, ':')) return 0;
    if (!read_size(r, &replicator->size) || !read_mark(r, ')')) return 0;
    for (unsigned i = 0; i < r->around; i++) {
        if (alike(r, r->pars[i], par)) breaks(r, PARAMETER, replicator->place);
    }
    r->pars[r->around++] = par;
    if (!read_body(r, replicator, depth)) return 0;
    r->around--;
    return 1;
}

static int read_rest(struct reader *r, struct node *node, unsigned depth) {
    switch (node->kind) {
    case LEAF: return read_leaf(r, node);
    case FLOW: return read_flow(r, node, depth);
    case LOOP: return read_loop(r, node, depth);
    case AND: case OR: case XOR: return read_group(r, node, depth);
    default: return read_replicator(r, node, depth);
    }
}

static int read_node(struct reader *r, unsigned allowed, unsigned depth) {
    enum kind kind = keyword(r);
    if (kind == NO_KIND || !(allowed >> kind & 1)) return refuse(r, OFF_GRAMMAR);
    if (r->count == MOST_NODES || depth > MOST_DEPTH) return refuse(r, TOO_BIG);
    struct node *node = r->nodes + r->count++;
    *node = (struct node){.kind = kind, .place = (uint32_t)r->at, .size = 1, .copies = 1};
    if (r->around > MOST_AROUND) breaks(r, PARAMETER, node->place);
    advance(r);
    if (!read_rest(r, node, depth)) return 0;
    node->end = r->count;
    return 1;
}

/* The whole text. */

static uint64_t read_root(struct reader *r) {
    advance(r);
    if (!read_node(r, ROOT, 1) || !read_mark(r, TEXT_END)) return r->refused;
    for (unsigned number = NAME_TWICE; number <= WEAK; number++) {
        if (r->broken[number] != UNBROKEN) return refusal(number, r->broken[number]);
    }
    return r->nodes->copies > MOST_COPIES || r->nodes->events > MOST_EVENTS ? refusal(COPIES, 0) : 0;
}

uint64_t read_diagram(const uint8_t *text, size_t len, struct diagram *diagram) {
    if (len > MOST_TEXT) return refusal(LONG_DRAWING, MOST_TEXT);
    uint64_t refused = check_bytes(text, len);
    if (refused) return refused;
    struct reader reader = {.text = text, .length = len, .nodes = diagram->nodes};
    for (unsigned number = NAME_TWICE; number <= WEAK; number++) reader.broken[number] = UNBROKEN;
    return read_root(&reader);
}

uint64_t plain_read(const uint8_t *text, size_t len) {
    struct diagram diagram;
    uint64_t refused = read_diagram(text, len, &diagram);
    if (refused) return refused;
    const struct node *root = diagram.nodes;
    return (uint64_t)root->end << 20 | (uint64_t)root->copies << 10 | root->events;
}

/* An accepted text has nothing but its tokens, blanks and remarks. What ends a remark is a blank, or the end. */
uint64_t plain_print(const uint8_t *text, size_t len, uint8_t *out, size_t out_len) {
    struct diagram diagram;
    if (out_len < MOST_TEXT) return refusal(SHORT_SHEET, 0);
    uint64_t refused = read_diagram(text, len, &diagram);
    if (refused) return refused;
    size_t written = 0;
    for (size_t at = 0; at < len; at++) {
        uint8_t class = classes[text[at]];
        if (class == REMARK) at = skip_remark(text, len, at);
        else if (class != BLANK) out[written++] = text[at];
    }
    return written;
}
