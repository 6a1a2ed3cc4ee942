#define _GNU_SOURCE
#include "keys.h"

#include <inttypes.h>
#include <stdio.h>
#include <stdlib.h>
#include <string.h>
#include <time.h>

enum { BUCKETS = 4096 };

struct key *all_keys;
static struct key *buckets[BUCKETS];

double now(void)
{
    struct timespec time;
    clock_gettime(CLOCK_BOOTTIME, &time);
    return (double)time.tv_sec + (double)time.tv_nsec / 1e9;
}

/* Where a key lies on the ring: FNV-1a, mixed so that keys that are alike lie far from each other. */
static uint64_t point_of(const char *name)
{
    uint64_t point = UINT64_C(0xcbf29ce484222325);
    for (; *name != '\0'; name++)
        point = (point ^ (unsigned char)*name) * UINT64_C(0x100000001b3);
    return (point ^ point >> 32) * UINT64_C(0x9e3779b97f4a7c15);
}

struct key *key_of(const char *name)
{
    uint64_t point = point_of(name);
    struct key **place = &buckets[point % BUCKETS];
    while (*place != NULL && strcmp((*place)->name, name) != 0)
        place = &(*place)->after;
    if (*place != NULL)
        return *place;
    struct key *made = calloc(1, sizeof *made);
    if (made == NULL)
        abort();
    snprintf(made->name, sizeof made->name, "%s", name);
    made->point = point;
    made->next = all_keys;
    all_keys = *place = made;
    return made;
}

bool has_point(const struct fabric_node_range *ranges, size_t count, uint64_t point)
{
    for (size_t i = 0; i < count; i++)
        if (ranges[i].lo <= point && point <= ranges[i].hi)
            return true;
    return false;
}

void show_ranges(const struct fabric_node_range *ranges, size_t count, char text[MAX_SHOWN])
{
    size_t at = 0;
    strcpy(text, "-");
    for (size_t i = 0; i < count && i < MAX_RANGES; i++)
        at += (size_t)snprintf(text + at, MAX_SHOWN - at, "%s%016" PRIx64 "-%016" PRIx64, i > 0 ? "," : "",
                               ranges[i].lo, ranges[i].hi);
}

size_t read_ranges(const char *text, struct fabric_node_range ranges[MAX_RANGES])
{
    size_t count = 0;
    int length = 0;
    while (count < MAX_RANGES &&
           sscanf(text, "%" SCNx64 "-%" SCNx64 "%n", &ranges[count].lo, &ranges[count].hi, &length) == 2) {
        count++;
        text += length;
        text += *text == ',';
    }
    return count;
}
