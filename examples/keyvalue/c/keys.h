/* What the service knows of each key, and ranges of points as text. */
#ifndef KEYS_H
#define KEYS_H

#include "fabric_node.h"

enum { MAX_NAME = 64, MAX_TEXT = 400, MAX_RANGES = 32, MAX_SHOWN = 34 * MAX_RANGES };

struct ticket {
    uint64_t series, number; /* a series of 0: there is none */
};

struct key {
    char name[MAX_NAME + 1];
    uint64_t point;
    double until;             /* it may be served until then */
    struct ticket last;       /* the last one that was given */
    struct ticket given_up;   /* the same, of a point that was given up, */
    double kept_until;        /* and until when another service may take it */
    char value[MAX_TEXT + 1]; /* by the entries of its partition that were applied; empty: there is none */
    struct key *next, *after; /* of all keys; of those with one hash */
};

extern struct key *all_keys;

/* Seconds of a clock that goes on while the machine sleeps, as a span does. */
double now(void);

/* The key of this name. A service without memory ends: a crash is safe. */
struct key *key_of(const char *name);

bool has_point(const struct fabric_node_range *ranges, size_t count, uint64_t point);

/* LO-HI,LO-HI.. of at most 32 ranges; `-` of none. */
void show_ranges(const struct fabric_node_range *ranges, size_t count, char text[MAX_SHOWN]);
size_t read_ranges(const char *text, struct fabric_node_range ranges[MAX_RANGES]);

#endif
