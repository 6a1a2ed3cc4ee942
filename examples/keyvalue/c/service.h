/* The parts of the service: tickets of keys that its node holds, and values of partitions that it leads.
 *
 * One thread does all. So while a handler runs, no answer is under way that rests on a span. */
#ifndef SERVICE_H
#define SERVICE_H

#include "keys.h"
#include "lines.h"

enum { MAX_SERVICES = 16, MAX_PARTITIONS = 64, MAX_ANSWER = 65536 };

struct service {
    unsigned number; /* its place among the addresses */
    char *addresses[MAX_SERVICES];
    unsigned services;
    unsigned first, partitions; /* its partitions: the first one, and how many */
    const char *tries;
    struct fabric_node *node;
    struct lines *lines;
};

extern struct service service;

/* Whether --try has the word. */
bool tries(const char *word);

/* Writes a line of the log: a reading of the clock, and words. */
void say(double reading, const char *form, ...);

void tickets_gained(const struct fabric_node_range *ranges, size_t count);
void tickets_losing(const struct fabric_node_range *ranges, size_t count);
void tickets_lost(void);
void tickets_next(struct key *key, char *answer);
void tickets_take(const char *ranges, char *answer);

void values_primary(uint16_t partition);
void values_promised(uint16_t partition);
void values_committed(uint16_t partition, uint32_t lsn);
void values_lost(void);
void values_put(const struct key *key, const char *text, char *answer);
void values_get(const struct key *key, char *answer);
void values_peek(const struct key *key, char *answer);

#endif
