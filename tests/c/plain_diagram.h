/* A drawing as plain_read.c reads it, for the other files of plain_text.h. */
#ifndef PLAIN_DIAGRAM_H
#define PLAIN_DIAGRAM_H

#include "plain_table.h"

#include <stddef.h>
#include <stdint.h>

enum { SHORT_SHEET = 1, LONG_DRAWING = 2, FOREIGN_BYTE = 3, LONG_WORD = 4, OFF_GRAMMAR = 5, TOO_BIG = 6 };
enum { NAME_TWICE = 7, PARAMETER = 8, SOLID_LINE = 9, WEAK = 10, COPIES = 11, NO_EVENT = 14 };
enum { MOST_TEXT = 16384, MOST_WORD = 24, MOST_NODES = 256, MOST_DEPTH = 12, MOST_AROUND = 3, MOST_COPIES = 768 };

enum kind { LEAF, FLOW, LOOP, AND, OR, XOR, ALL, SOME, ONE, NO_KIND };

/* A part of the text. */
struct span {
    uint32_t place, length;
};

/* The counts are those of one copy of the node, itself and all below it. */
struct node {
    enum kind kind;
    uint32_t place;   /* of its keyword */
    struct span name; /* of a leaf or flow */
    uint32_t size;    /* how many copies of those below it there are: 1, unless it is a replicator */
    uint32_t end;     /* the node after all those below it */
    uint32_t copies, events;
};

/* The nodes stand in the order of the text: node 0 is the root, and what is directly below node n begins at n + 1, each where the one
 * before it ends.
 */
struct diagram {
    struct node nodes[MOST_NODES];
};

/* Reads a text: 0, or the refusal. */
uint64_t read_diagram(const uint8_t *text, size_t len, struct diagram *diagram);

uint64_t refusal(unsigned number, size_t place);

#endif
