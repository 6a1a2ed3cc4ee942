/*
 * Calls one word of libfabric: reads its bytes from standard input, writes the reply to standard output, and ends with the
 * code.
 *
 * usage: words [-l|-m] audit|point|event|report|frame_line|frame_bytes|record_line|record_bytes
 *
 * -l calls the word for each line of the input, and writes a line for each: the code, and the reply. -m calls it once for
 * each allocation that it makes, and lets this one fail; it is there where the compiler has WRAPPED and the linker wraps
 * malloc, realloc and free.
 *
 * Each reply is asked for with rooms of several lengths, and what the header says of rooms is checked on the way. So is that
 * a word frees what it allocates, where that can be seen. The program aborts where either is broken.
 */
#include "fabric.h"

#include <stdio.h>
#include <stdlib.h>
#include <string.h>

typedef uint8_t word(const uint8_t *, size_t, uint8_t *, size_t, size_t *);
typedef uint8_t test(const uint8_t *, size_t);

static const struct named {
    const char *name;
    word *with_room;
    test *without;
} words[] = {
    {"audit", fabric_audit, NULL},
    {"point", fabric_point, NULL},
    {"event", NULL, fabric_event},
    {"report", NULL, fabric_report},
    {"frame_line", fabric_frame_line, NULL},
    {"frame_bytes", fabric_frame_bytes, NULL},
    {"record_line", fabric_record_line, NULL},
    {"record_bytes", fabric_record_bytes, NULL},
};

struct reply {
    uint8_t *text;
    size_t length;
    uint8_t code;
};

enum { FILL = 0xa5, BEHIND = 16, FIRST_ROOM = 8, NONE = 0 };

static void expect(int is_so) {
    if (!is_so) {
        abort();
    }
}

/* What the library allocates: what is not freed yet, how many times, and which time fails. */
static long held, times, failing;

#ifdef WRAPPED
void *__real_malloc(size_t);
void *__real_realloc(void *, size_t);
void __real_free(void *);

static int fails(void) {
    times++;
    return times == failing;
}

void *__wrap_malloc(size_t size) {
    void *memory = fails() ? NULL : __real_malloc(size);
    held += memory != NULL;
    return memory;
}

void *__wrap_realloc(void *memory, size_t size) {
    void *more = fails() ? NULL : __real_realloc(memory, size);
    held += memory == NULL && more != NULL;
    return more;
}

void __wrap_free(void *memory) {
    held -= memory != NULL;
    __real_free(memory);
}
#endif

/* Memory for some bytes and some behind them, so that no pointer is NULL. */
static uint8_t *take(size_t size) {
    uint8_t *bytes = malloc(size + BEHIND);
    expect(bytes != NULL);
    memset(bytes, FILL, size + BEHIND);
    return bytes;
}

static void expect_fill(const uint8_t *bytes, size_t from, size_t to) {
    for (size_t i = from; i < to; i++) {
        expect(bytes[i] == FILL);
    }
}

/* One call with a room of this length, in which this allocation fails. What lies behind the reply stays as it was. */
static struct reply call_at(const struct named *it, const uint8_t *bytes, size_t size, size_t room, long fail) {
    struct reply given = {take(room), 0, 0};
    long held_before = held;
    times = 0;
    failing = fail;
    given.code = it->without != NULL ? it->without(bytes, size)
                                     : it->with_room(bytes, size, given.text, room, &given.length);
    failing = 0;
    expect(held == held_before);
    if (given.code == FABRIC_NO_ROOM) {
        expect(given.length > room);
        expect_fill(given.text, 0, room + BEHIND);
    } else {
        expect(given.length <= room);
        expect_fill(given.text, given.length, room + BEHIND);
    }
    expect(given.length == 0 || (given.code != FABRIC_NOT_READ && given.code != FABRIC_OUT_OF_MEMORY));
    return given;
}

static int is_same(struct reply a, struct reply b) {
    return a.code == b.code && a.length == b.length && memcmp(a.text, b.text, a.length) == 0;
}

/* The reply, the same with each room that is long enough. */
static struct reply call(const struct named *it, const uint8_t *bytes, size_t size) {
    struct reply given = call_at(it, bytes, size, FIRST_ROOM, NONE);
    if (given.code == FABRIC_NO_ROOM) {
        size_t length = given.length;
        free(given.text);
        given = call_at(it, bytes, size, length, NONE);
        expect(given.code != FABRIC_NO_ROOM && given.length == length);
    }
    const size_t rooms[] = {0, given.length - (given.length > 0), given.length + 1};
    for (size_t i = 0; i < sizeof rooms / sizeof rooms[0]; i++) {
        struct reply other = call_at(it, bytes, size, rooms[i], NONE);
        expect(other.length == given.length);
        expect(rooms[i] < given.length ? other.code == FABRIC_NO_ROOM : is_same(other, given));
        free(other.text);
    }
    return given;
}

/* Each allocation fails once: the reply is the same, or says that memory was short. */
static void call_short(const struct named *it, const uint8_t *bytes, size_t size) {
    struct reply given = call(it, bytes, size);
    for (long at = 1, made = at; made >= at; at++) {
        struct reply other = call_at(it, bytes, size, given.length, at);
        made = times;
        expect(is_same(other, given) || (made >= at && other.code == FABRIC_OUT_OF_MEMORY));
        free(other.text);
    }
    free(given.text);
}

static void print(struct reply given, int is_line) {
    if (is_line) {
        printf("%u%s", (unsigned)given.code, given.length > 0 ? " " : "");
    }
    fwrite(given.text, 1, given.length, stdout);
    if (is_line) {
        putchar('\n');
    }
}

static uint8_t *read_all(size_t *size) {
    size_t most = 1 << 16;
    uint8_t *bytes = take(most);
    *size = 0;
    for (size_t got; (got = fread(bytes + *size, 1, most - *size, stdin)) > 0;) {
        *size += got;
        if (*size == most) {
            most = 2 * most;
            bytes = realloc(bytes, most + BEHIND);
            expect(bytes != NULL);
        }
    }
    return bytes;
}

static void call_lines(const struct named *it, const uint8_t *bytes, size_t size) {
    for (size_t from = 0; from < size;) {
        const uint8_t *feed = memchr(bytes + from, '\n', size - from);
        size_t end = feed == NULL ? size : (size_t)(feed - bytes);
        struct reply given = call(it, bytes + from, end - from);
        print(given, 1);
        free(given.text);
        from = end + 1;
    }
}

int main(int count, char **given) {
    const char *how = count == 3 ? given[1] : "";
    for (size_t at = 0; (count == 2 || count == 3) && at < sizeof words / sizeof words[0]; at++) {
        if (strcmp(words[at].name, given[count - 1]) != 0) {
            continue;
        }
        size_t size;
        uint8_t *bytes = read_all(&size);
        struct reply reply = {NULL, 0, 0};
        if (strcmp(how, "-l") == 0) {
            call_lines(&words[at], bytes, size);
        } else if (strcmp(how, "-m") == 0) {
            call_short(&words[at], bytes, size);
        } else {
            reply = call(&words[at], bytes, size);
            print(reply, 0);
        }
        free(reply.text);
        free(bytes);
        return reply.code;
    }
    fputs("usage: words [-l|-m] WORD\n", stderr);
    return 2;
}
