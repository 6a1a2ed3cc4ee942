/* A service beside its node: it gives tickets of the keys that it holds, and keeps the values of those that it leads.
 *
 * usage: service N ADDRESSES PARTITIONS [--try WORDS] -- FABRICD node N FILE --parent ..
 *
 * N is its place among ADDRESSES, HOST:PORT,HOST:PORT.., which are those of all services. PARTITIONS is FIRST-LAST.
 * The README above this folder says what a client may write, and what the words of --try are for. python/service.py
 * does the same. */
#define _POSIX_C_SOURCE 200809L
#include "service.h"

#include <inttypes.h>
#include <stdarg.h>
#include <stdio.h>
#include <stdlib.h>
#include <string.h>
#include <time.h>

struct service service;

bool tries(const char *word)
{
    return strstr(service.tries, word) != NULL;
}

void say(double reading, const char *form, ...)
{
    va_list words;
    va_start(words, form);
    printf("%.6f ", reading);
    vprintf(form, words);
    va_end(words);
    putchar('\n');
    fflush(stdout);
}

/* For the test: stands still between a line of the child and its `done`, until it is told to go on. */
static void stop(const char *handler)
{
    char line[64];
    if (!tries("stop"))
        return;
    say(now(), "stopped %s", handler);
    if (fgets(line, sizeof line, stdin) == NULL)
        say(now(), "nobody says when to go on");
}

/* ---- What the node says. It waits until a handler has returned: then nothing rests on what is given up. ---- */

static int gained(void *context, const struct fabric_node_range *ranges, size_t count)
{
    char text[MAX_SHOWN];
    (void)context;
    show_ranges(ranges, count, text);
    say(now(), "gained %s", text);
    tickets_gained(ranges, count);
    return 0;
}

static int losing(void *context, const struct fabric_node_range *ranges, size_t count)
{
    char text[MAX_SHOWN];
    (void)context;
    show_ranges(ranges, count, text);
    say(now(), "losing %s", text);
    stop("losing");
    tickets_losing(ranges, count);
    return 0;
}

static int lost(void *context)
{
    (void)context;
    say(now(), "lost");
    tickets_lost();
    values_lost();
    return 0;
}

static int primary(void *context, uint16_t partition, struct fabric_node_epoch epoch)
{
    (void)context;
    say(now(), "primary %u %" PRIu32 ".%" PRIu32, partition, epoch.data_loss, epoch.configuration);
    values_primary(partition);
    return 0;
}

static int promised(void *context, uint16_t partition, struct fabric_node_epoch epoch)
{
    (void)context;
    say(now(), "promised %u %" PRIu32 ".%" PRIu32, partition, epoch.data_loss, epoch.configuration);
    stop("promised");
    values_promised(partition);
    return 0;
}

static int committed(void *context, uint16_t partition, struct fabric_node_epoch epoch, uint32_t lsn)
{
    (void)context;
    (void)epoch;
    values_committed(partition, lsn);
    return 0;
}

/* ---- What clients ask. ---- */

static void answer_to(const char *line, char *answer)
{
    char word[8], name[MAX_NAME + 1], text[MAX_TEXT + 1] = "";
    int words = sscanf(line, "%7s %64s %400[ -~]", word, name, text);
    strcpy(answer, "fault");
    if (words >= 2 && strcmp(word, "take") == 0)
        tickets_take(line + 5, answer);
    else if (words == 3 && strcmp(word, "put") == 0)
        values_put(key_of(name), text, answer);
    else if (words == 2 && strcmp(word, "next") == 0)
        tickets_next(key_of(name), answer);
    else if (words == 2 && strcmp(word, "get") == 0)
        values_get(key_of(name), answer);
    else if (words == 2 && strcmp(word, "peek") == 0)
        values_peek(key_of(name), answer);
}

static void hear(void *context, struct connection *from, const char *line)
{
    static char answer[MAX_ANSWER];
    (void)context;
    if (line == NULL)
        return;
    answer_to(line, answer);
    connection_say(from, answer);
}

/* ---- Around it. ---- */

/* Starts the child. That of a former process may not have ended yet, and has the folder then. */
static void start(const char *const words[])
{
    static const struct fabric_node_handlers handlers = {NULL, gained, losing, lost, primary, promised, committed};
    struct fabric_node_failure failure;
    while ((service.node = fabric_node_start(words, &handlers, &failure)) == NULL) {
        say(now(), "start %s: %s", fabric_node_error_name(failure.error), failure.text);
        nanosleep(&(struct timespec){0, 100000000}, NULL);
    }
}

int main(int count, char **words)
{
    unsigned last;
    int cut = 1;
    while (cut < count && strcmp(words[cut], "--") != 0)
        cut++;
    if (cut < 4 || cut + 1 >= count || sscanf(words[3], "%u-%u", &service.first, &last) != 2)
        return 2;
    service.number = (unsigned)atoi(words[1]);
    service.partitions = last - service.first + 1;
    service.tries = cut == 6 ? words[5] : "";
    for (char *it = strtok(words[2], ","); it != NULL && service.services < MAX_SERVICES; it = strtok(NULL, ","))
        service.addresses[service.services++] = it;
    if (service.number < 1 || service.number > service.services || service.partitions > MAX_PARTITIONS)
        return 2;
    service.lines = lines_listen(service.addresses[service.number - 1], hear, NULL);
    if (service.lines == NULL)
        return 1;
    start((const char *const *)&words[cut + 1]);
    for (;;) {
        enum fabric_node_error error = fabric_node_poll(service.node, 0);
        if (error != FABRIC_NODE_OK)
            say(now(), "fault %s", fabric_node_error_name(error)); /* the child has ended, and `lost` was called */
        lines_wait(service.lines, 50, fabric_node_descriptor(service.node));
    }
}
