/* What plain.c and plain_translate.c both know of a table. */
#ifndef PLAIN_TABLE_H
#define PLAIN_TABLE_H

enum { MOST_EVENTS = 512, MOST_ROWS = 12288 };

/* The kinds of its rows. */
enum { CONTROL_BIT = 0, NOT = 1, BOTH = 2, EITHER = 3 };

#endif
