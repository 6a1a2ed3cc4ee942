/* Tickets of the keys whose points the node holds: each is greater than all that were given of its key before.
 *
 * They are in memory alone. Who gains a part of the ring asks the other services for its tickets. Who has lost it hands
 * them over for as long as the other one waits, and then forgets them. So what is handed over is never older than what
 * somebody has given meanwhile. If nobody has them, a new series begins, by the time of day: the machines must agree on
 * that. */
#define _POSIX_C_SOURCE 200809L
#include "service.h"

#include <inttypes.h>
#include <stdio.h>
#include <stdlib.h>
#include <string.h>
#include <time.h>

#define PATIENCE 0.3 /* seconds: how long one waits for tickets, and how long one keeps them for others */

/* Another service was asked for its tickets of a part of the ring. Until it has answered, none of it is given here. */
struct fetch {
    struct fabric_node_range ranges[MAX_RANGES];
    size_t count;
    double until;
    bool is_void; /* what comes is of no use: the part was given up again */
    bool is_over; /* the connection has ended */
    struct fetch *next;
};

static struct fetch *fetches;

/* ---- What the node says. ---- */

/* Takes the ticket of a point that was given up, if it is kept still. It moves: it is not here any more. */
static struct ticket taken(struct key *key)
{
    struct ticket moved = now() < key->kept_until ? key->given_up : (struct ticket){0, 0};
    key->given_up = (struct ticket){0, 0};
    return moved;
}

static void heard(void *context, struct connection *from, const char *line)
{
    struct fetch *fetch = context;
    char name[MAX_NAME + 1];
    struct ticket ticket;
    if (line == NULL) {
        fetch->is_over = true; /* without an `end` its time has to pass all the same */
    } else if (strcmp(line, "end") == 0) {
        fetch->until = 0;
        connection_close(from);
    } else if (now() < fetch->until && !fetch->is_void &&
               sscanf(line, "%64s %" SCNu64 " %" SCNu64, name, &ticket.series, &ticket.number) == 3) {
        key_of(name)->last = ticket;
    }
}

/* Frees those whose connection and whose time are over. */
static void free_fetches(void)
{
    struct fetch **place = &fetches;
    while (*place != NULL) {
        struct fetch *it = *place;
        if (it->is_over && now() >= it->until) {
            *place = it->next;
            free(it);
        } else {
            place = &it->next;
        }
    }
}

static void fetch_from(const char *address, const struct fabric_node_range *ranges, size_t count)
{
    char line[MAX_SHOWN + 8] = "take ";
    struct fetch *fetch = calloc(1, sizeof *fetch);
    if (fetch == NULL)
        abort();
    memcpy(fetch->ranges, ranges, count * sizeof *ranges);
    fetch->count = count;
    fetch->until = now() + PATIENCE;
    fetch->next = fetches;
    fetches = fetch;
    show_ranges(ranges, count, line + 5);
    lines_ask(service.lines, address, line, heard, fetch);
}

void tickets_gained(const struct fabric_node_range *ranges, size_t count)
{
    for (struct key *key = all_keys; key != NULL; key = key->next)
        if (has_point(ranges, count, key->point))
            key->last = taken(key);
    free_fetches();
    for (unsigned i = 0; i < service.services; i++)
        if (i + 1 != service.number)
            fetch_from(service.addresses[i], ranges, count);
}

static void make_void(void)
{
    for (struct fetch *it = fetches; it != NULL; it = it->next)
        it->is_void = true;
}

/* Once this has returned, nothing that was asked before is answered from a span that was given up. */
void tickets_losing(const struct fabric_node_range *ranges, size_t count)
{
    if (tries("early"))
        return;
    for (struct key *key = all_keys; key != NULL; key = key->next)
        if (has_point(ranges, count, key->point)) {
            key->until = 0;
            key->given_up = key->last;
            key->kept_until = now() + PATIENCE;
            key->last = (struct ticket){0, 0};
        }
    make_void();
}

void tickets_lost(void)
{
    for (struct key *key = all_keys; key != NULL; key = key->next) {
        key->until = 0;
        key->last = (struct ticket){0, 0};
    }
    make_void();
}

/* ---- What clients ask. ---- */

/* Until when the point may be served. The span counts from the reading, which was taken before the question. Whatever
 * passes until the answer makes it shorter. */
static double span_from(double reading, uint64_t point)
{
    double seconds = 0;
    if (!tries("late"))
        return fabric_node_holds(service.node, point, &seconds) == FABRIC_NODE_OK ? reading + seconds : 0;
    struct fabric_node_answer answer;
    char line[32];
    unsigned long ticks;
    snprintf(line, sizeof line, "hold %016" PRIx64, point);
    if (fabric_node_ask(service.node, line, &answer) == FABRIC_NODE_OK &&
        sscanf(answer.lines[0], "held %*s %lu", &ticks) == 1)
        seconds = now() + (double)ticks / 1e3;
    fabric_node_free_answer(&answer);
    return seconds;
}

static bool is_awaited(uint64_t point)
{
    for (const struct fetch *it = fetches; it != NULL; it = it->next)
        if (now() < it->until && has_point(it->ranges, it->count, point))
            return true;
    return false;
}

void tickets_next(struct key *key, char *answer)
{
    double reading = now();
    struct timespec time;
    if (reading >= key->until) {
        key->until = span_from(reading, key->point);
        reading = now();
    }
    if (reading >= key->until || is_awaited(key->point)) {
        strcpy(answer, "elsewhere");
        return;
    }
    clock_gettime(CLOCK_REALTIME, &time);
    if (key->last.series == 0)
        key->last.series = (uint64_t)time.tv_sec * 1000000 + (uint64_t)time.tv_nsec / 1000;
    key->last.number++;
    say(reading, "ticket %s", key->name);
    sprintf(answer, "ticket %" PRIu64 " %" PRIu64, key->last.series, key->last.number);
}

/* ---- What other services ask. ---- */

/* The tickets of a part of the ring that was given up. They move: who takes them over goes on with them. */
void tickets_take(const char *text, char *answer)
{
    struct fabric_node_range ranges[MAX_RANGES];
    size_t count = read_ranges(text, ranges), at = 0;
    for (struct key *key = all_keys; key != NULL && at < MAX_ANSWER - 128; key = key->next) {
        struct ticket moved = {0, 0};
        if (has_point(ranges, count, key->point))
            moved = taken(key);
        if (moved.series != 0)
            at += (size_t)sprintf(answer + at, "%s %" PRIu64 " %" PRIu64 "\n", key->name, moved.series, moved.number);
    }
    strcpy(answer + at, "end");
}
