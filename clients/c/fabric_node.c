/* The client of a node as a child process. fabric_node.h says what it does, docs/embedding.md what both sides say.
 *
 * The parts, in order: ranges, the grammar of the child's lines, folders, the process, what lines mean, handlers, asking,
 * and the calls. pipe2 and a folder for a spawned process are POSIX since 2024; the C library wants a name for them. */
#define _GNU_SOURCE
#include "fabric_node.h"

#include <errno.h>
#include <fcntl.h>
#include <inttypes.h>
#include <limits.h>
#include <poll.h>
#include <pthread.h>
#include <signal.h>
#include <spawn.h>
#include <stdio.h>
#include <stdlib.h>
#include <string.h>
#include <sys/socket.h>
#include <sys/wait.h>
#include <time.h>
#include <unistd.h>

enum {
    MAX_ASKED = 4096,     /* bytes of a line with its tag, without its line feed */
    MAX_LINE = 65536,     /* bytes of a line of the child, without its line feed */
    MAX_WAITING = 262144, /* bytes that wait for a child that does not read */
    MAX_RANGES = 32,      /* ranges of one line */
    MAX_NAMES = 64,       /* names of one line */
    MAX_FIELDS = 8,       /* fields of a line, those of its head too */
    MAX_SHOWN = 100,      /* bytes of a bad line that a fault shows */
    MAX_ENTRIES = 100000, /* entries of a log */
    PAGE = 64             /* entries of one answer */
};

#define SECOND INT64_C(1000000000)
#define MILLISECOND INT64_C(1000000)
#define FOREVER INT64_MAX
#define FIRST_PAUSE (SECOND / 10) /* before an ended child is started again */
#define LAST_PAUSE (10 * SECOND)
#define MAX_PATIENCE (10 * SECOND) /* that a child may take to end by itself */

/* Nanoseconds of a clock that goes on while the machine sleeps: a span must not stand still in that time. */
static int64_t now(void)
{
    struct timespec time;
    clock_gettime(CLOCK_BOOTTIME, &time);
    return time.tv_sec * SECOND + time.tv_nsec;
}

/* ---- Ranges: sets of points, rising. ---- */

struct ranges {
    struct fabric_node_range *items;
    size_t count;
};

static bool push_range(struct ranges *ranges, uint64_t lo, uint64_t hi)
{
    struct fabric_node_range *items = realloc(ranges->items, (ranges->count + 1) * sizeof *items);
    if (items == NULL)
        return false;
    items[ranges->count++] = (struct fabric_node_range){lo, hi};
    ranges->items = items;
    return true;
}

/* What of one range is not among the others. */
static bool push_rest(struct ranges *left, struct fabric_node_range range, const struct ranges *others)
{
    for (size_t i = 0; i < others->count; i++) {
        struct fabric_node_range other = others->items[i];
        if (other.hi < range.lo || other.lo > range.hi)
            continue;
        if (range.lo < other.lo && !push_range(left, range.lo, other.lo - 1))
            return false;
        if (other.hi >= range.hi)
            return true; /* nothing is left, and one more than the last point would be the first one */
        range.lo = other.hi + 1;
    }
    return push_range(left, range.lo, range.hi);
}

/* The points that are not among the others. */
static bool minus(const struct ranges *points, const struct ranges *others, struct ranges *left)
{
    *left = (struct ranges){NULL, 0};
    for (size_t i = 0; i < points->count; i++)
        if (!push_rest(left, points->items[i], others)) {
            free(left->items);
            *left = (struct ranges){NULL, 0};
            return false;
        }
    return true;
}

static bool has_point(const struct ranges *ranges, uint64_t point)
{
    for (size_t i = 0; i < ranges->count; i++)
        if (ranges->items[i].lo <= point && point <= ranges->items[i].hi)
            return true;
    return false;
}

/* ---- The grammar. `%` and a letter is a field, and the Python client has the same table. ---- */

static const char *const report_forms[] = {
    "own %r %f", "accused %w", "discharged %w", "heir %w %U", "tookover %w %r", "gave %w %u %r", "took %w %u %r",
    "returned %w %u %r", "left %y", "stopped", "found %x %w", "nowhere %x", "promised %p %e", "adopted %p %e %u",
    "accepted %p %e %u", "primary %p %e", "committed %p %e %u", "configured %p %e", "superseded %p %e", "units %l",
    "resolved %p %n %v", "unresolved %p %n", "names %p", "names %p %m", "refused %c %s", "refused %c toofew %b", NULL};

static const char *const answer_forms[] = {
    "entry %p %e %u %h", "held %x %U", "unheld %x", "leads %p %e", "follows %p", "unknown", "late", "fault line",
    "fault nosuch", "fault large", "fault busy", "node %w %a %U %f", "arbiter %U %U", "owns %r", "link %w %k %U", "up %o",
    "replica %p %e %q %u", "changing %p %e %U", "open %U", "watchers %U", NULL};

/* What a line says: its form, and where its fields begin. Fields are read behind the match, so they are in range. */
struct words {
    const char *form;
    const char *fields[MAX_FIELDS];
    size_t count;
};

static bool is_digit(char c)
{
    return '0' <= c && c <= '9';
}

static uint64_t number_at(const char *text)
{
    return strtoull(text, NULL, 10);
}

static uint64_t point_at(const char *text)
{
    return strtoull(text, NULL, 16);
}

static struct fabric_node_epoch epoch_at(const char *text)
{
    return (struct fabric_node_epoch){(uint32_t)number_at(text), (uint32_t)number_at(strchr(text, '.') + 1)};
}

/* The length of a number in these bounds; 0 if there is none. */
static size_t number_length(const char *text, uint64_t least, uint64_t most)
{
    uint64_t value = 0;
    size_t n = 0;
    for (; is_digit(text[n]); n++) {
        uint64_t digit = (uint64_t)(text[n] - '0');
        if (value > (UINT64_MAX - digit) / 10)
            return 0;
        value = 10 * value + digit;
    }
    bool has_spelling = n == 1 || (n > 1 && text[0] != '0');
    return has_spelling && least <= value && value <= most ? n : 0;
}

static size_t pair_length(const char *text, uint64_t least, uint64_t most, uint64_t least_second)
{
    size_t first = number_length(text, least, most);
    if (first == 0 || text[first] != '.')
        return 0;
    size_t second = number_length(text + first + 1, least_second, UINT32_MAX);
    return second == 0 ? 0 : first + 1 + second;
}

static size_t who_length(const char *text)
{
    if (text[0] == 'a')
        return '1' <= text[1] && text[1] <= '9' ? 2 : 0;
    return pair_length(text, 1, 999, 1);
}

static size_t hex_length(const char *text, size_t most)
{
    size_t n = 0;
    while (n < most && (is_digit(text[n]) || ('a' <= text[n] && text[n] <= 'f')))
        n++;
    return n;
}

static size_t point_length(const char *text)
{
    return hex_length(text, 16) == 16 ? 16 : 0;
}

static size_t bytes_length(const char *text)
{
    size_t n = hex_length(text, 2 * FABRIC_NODE_MAX_TEXT + 1);
    return n % 2 == 0 && n <= 2 * FABRIC_NODE_MAX_TEXT ? n : 0;
}

/* At most 32 ranges, rising, with a point missing between neighbours; or a dash. */
static size_t ranges_length(const char *text)
{
    if (text[0] == '-')
        return 1;
    uint64_t last = 0;
    for (size_t i = 0, at = 0; i < MAX_RANGES; i++) {
        if (point_length(text + at) == 0 || text[at + 16] != '-' || point_length(text + at + 17) == 0)
            return 0;
        uint64_t lo = point_at(text + at), hi = point_at(text + at + 17);
        if (lo > hi || (i > 0 && (lo <= last || lo - last < 2)))
            return 0;
        last = hi;
        at += 33;
        if (text[at] != ',')
            return at;
        at++;
    }
    return 0;
}

static size_t numbers_length(const char *text, uint64_t least, uint64_t most)
{
    if (text[0] == '-')
        return 1;
    for (size_t at = 0;;) {
        size_t n = number_length(text + at, least, most);
        if (n == 0)
            return 0;
        at += n;
        if (text[at] != ',')
            return at;
        at++;
    }
}

static size_t name_length(const char *text)
{
    size_t n = 0;
    while ('!' <= text[n] && text[n] <= '~' && text[n] != ',')
        n++;
    return n <= 64 ? n : 0;
}

static size_t names_length(const char *text)
{
    for (size_t i = 0, at = 0; i < MAX_NAMES; i++) {
        size_t n = name_length(text + at);
        if (n == 0)
            return 0;
        at += n;
        if (text[at] != ',')
            return at;
        at++;
    }
    return 0;
}

/* The length of the word at the front, if it is one of those between the bars. */
static size_t choice_length(const char *text, const char *choices)
{
    size_t n = strcspn(text, " ");
    for (const char *at = choices; n > 0; at++) {
        size_t length = strcspn(at, "|");
        if (length == n && memcmp(at, text, n) == 0)
            return n;
        at += length;
        if (*at == '\0')
            break;
    }
    return 0;
}

static size_t word_length(char letter, const char *text)
{
    switch (letter) {
    case 'y':
        return choice_length(text, "fence|lost|counters|accused");
    case 'a':
        return choice_length(text, "seeking|linked|routing|left");
    case 'k':
        return choice_length(text, "hello|offered|bound|parting|accused|discharged|heir");
    case 'q':
        return choice_length(text, "none|idle|secondary|primary");
    case 'c':
        return choice_length(text, "link|part|give|join|create|swap|heal|lose|write|resolve|names");
    default:
        return choice_length(text, "notrouting|full|linked|notlinked|busy|toomany|empty|notmanager|exists|nounit|notmember|"
                                   "notprimary|notready|counters");
    }
}

/* The length of a field; 0 if the text does not begin with one. No field is empty. */
static size_t field_length(char letter, const char *text)
{
    switch (letter) {
    case 'u':
        return number_length(text, 0, UINT32_MAX);
    case 'U':
        return number_length(text, 0, UINT64_MAX);
    case 'f':
        return text[0] == '-' ? 1 : number_length(text, 0, UINT64_MAX);
    case 'p':
        return number_length(text, 0, UINT16_MAX);
    case 'b':
        return number_length(text, 0, UINT8_MAX);
    case 'e':
        return pair_length(text, 0, UINT32_MAX, 0);
    case 'i':
        return pair_length(text, 1, 999, 1);
    case 'w':
        return who_length(text);
    case 'x':
        return point_length(text);
    case 'r':
        return ranges_length(text);
    case 'l':
        return numbers_length(text, 0, UINT16_MAX);
    case 'o':
        return numbers_length(text, 1, 999);
    case 'h':
        return bytes_length(text);
    case 'n':
        return name_length(text);
    case 'm':
        return names_length(text);
    case 'v':
        return strlen(text) <= 400 ? strlen(text) : 0;
    default:
        return word_length(letter, text);
    }
}

/* The text behind what the form matches, with its fields added to the words; NULL if it does not match. */
static const char *match(const char *form, const char *text, struct words *words)
{
    while (*form != '\0') {
        if (*form != '%') {
            if (*text++ != *form++)
                return NULL;
            continue;
        }
        size_t length = field_length(form[1], text);
        if (length == 0)
            return NULL;
        words->fields[words->count++] = text;
        text += length;
        form += 2;
    }
    return text;
}

/* Finds the form that the whole text has. */
static bool find_form(const char *const forms[], const char *text, struct words *words)
{
    for (size_t i = 0; forms[i] != NULL; i++) {
        *words = (struct words){.form = forms[i]};
        const char *rest = match(forms[i], text, words);
        if (rest != NULL && *rest == '\0')
            return true;
    }
    return false;
}

/* A report of a node. The fields of its head are left out. */
static bool read_report(const char *text, struct words *words)
{
    struct words head = {.form = NULL};
    const char *rest = match("%U - %i %U ", text, &head);
    return rest != NULL && find_form(report_forms, rest, words);
}

/* What a line of an answer says. A report in it begins with a number. */
static bool read_words(const char *text, struct words *words)
{
    return is_digit(text[0]) ? read_report(text, words) : find_form(answer_forms, text, words);
}

static bool has_word(const struct words *words, const char *word)
{
    size_t length = strlen(word);
    return strncmp(words->form, word, length) == 0 && (words->form[length] == ' ' || words->form[length] == '\0');
}

static bool ranges_at(const char *text, struct ranges *ranges)
{
    *ranges = (struct ranges){NULL, 0};
    size_t length = ranges_length(text);
    for (size_t at = 0; at + 33 <= length; at += 34)
        if (!push_range(ranges, point_at(text + at), point_at(text + at + 17))) {
            free(ranges->items);
            *ranges = (struct ranges){NULL, 0};
            return false;
        }
    return true;
}

/* ---- Folders of which this process has a node. A second child for one would be a second parent's child. ---- */

struct folder {
    char *path;
    struct folder *next;
};

static pthread_mutex_t folders_lock = PTHREAD_MUTEX_INITIALIZER;
static struct folder *folders;

/* The path of a folder that is not there yet: that of the folder above it, and its name. */
static char *path_of_missing(const char *folder)
{
    char *above = strdup(folder), *found = NULL, *path = NULL;
    if (above == NULL)
        return NULL;
    for (size_t n = strlen(above); n > 1 && above[n - 1] == '/'; n--)
        above[n - 1] = '\0';
    char *slash = strrchr(above, '/');
    const char *name = slash == NULL ? above : slash + 1;
    if (slash == NULL) {
        found = realpath(".", NULL);
    } else {
        *slash = '\0';
        found = realpath(slash == above ? "/" : above, NULL);
    }
    const char *front = found == NULL ? "" : found;
    size_t size = strlen(front) + strlen(name) + 2;
    path = malloc(size);
    if (path != NULL)
        snprintf(path, size, "%s/%s", strcmp(front, "/") == 0 ? "" : front, name);
    free(found);
    free(above);
    return path;
}

/* The folder that the words name, as docs/service.md says: `--folder D`, `--folder=D`, or the current one. */
static char *folder_of(const char *const words[])
{
    const char *folder = ".";
    for (size_t i = 0; words[i] != NULL; i++) {
        if (strncmp(words[i], "--folder=", 9) == 0)
            folder = words[i] + 9;
        else if (strcmp(words[i], "--folder") == 0 && words[i + 1] != NULL)
            folder = words[i + 1];
    }
    char *path = realpath(folder, NULL);
    return path != NULL ? path : path_of_missing(folder);
}

/* Holds a folder, if it is free. */
static enum fabric_node_error hold_folder(const char *path)
{
    enum fabric_node_error error = FABRIC_NODE_OK;
    pthread_mutex_lock(&folders_lock);
    for (const struct folder *f = folders; f != NULL; f = f->next)
        if (strcmp(f->path, path) == 0)
            error = FABRIC_NODE_FOLDER;
    if (error == FABRIC_NODE_OK) {
        struct folder *held = malloc(sizeof *held);
        char *copy = strdup(path);
        if (held == NULL || copy == NULL) {
            free(held);
            free(copy);
            error = FABRIC_NODE_MEMORY;
        } else {
            *held = (struct folder){copy, folders};
            folders = held;
        }
    }
    pthread_mutex_unlock(&folders_lock);
    return error;
}

static void let_go_of_folder(const char *path)
{
    pthread_mutex_lock(&folders_lock);
    for (struct folder **f = &folders; *f != NULL; f = &(*f)->next)
        if (strcmp((*f)->path, path) == 0) {
            struct folder *held = *f;
            *f = held->next;
            free(held->path);
            free(held);
            break;
        }
    pthread_mutex_unlock(&folders_lock);
}

/* ---- The node, and what it knows. ---- */

/* What a line gives up: points, a partition, or everything. */
struct subject {
    struct ranges ranges;
    int32_t partition; /* -1: none */
    bool everything;
};

/* What a line with a number gave up, until its `done`. */
struct given {
    uint64_t number;
    struct subject subject;
    struct given *next;
};

/* A question about a point or a partition. Its answer is void once a line came that gives that up. */
struct question {
    bool has_point;
    uint64_t point;
    int32_t partition; /* -1: none */
    bool is_void;
    struct question *next;
};

/* An answer that is open. It stands on the stack of who asks. */
struct open {
    uint32_t tag;
    struct fabric_node_answer *answer;
    bool is_over;
    bool is_cut; /* the child ended before its `done` */
    struct open *next;
};

enum handler { GAINED, LOSING, LOST, PRIMARY, PROMISED, COMMITTED };

static const char *const handler_names[] = {"gained", "losing", "lost", "primary", "promised", "committed"};

/* A call of a handler that is due, and the number of which `done` is said once it has returned; 0 if there is none. */
struct event {
    enum handler handler;
    struct ranges ranges;
    uint16_t partition;
    struct fabric_node_epoch epoch;
    uint32_t lsn;
    uint64_t number;
    struct event *next;
};

struct fabric_node {
    pthread_t thread;
    struct fabric_node_handlers handlers;
    char **words;
    char *here; /* relative paths in the words mean the same at each start, wherever the service has gone */
    char *folder;
    char fault[FABRIC_NODE_MAX_FAULT + 1];
    char reason[64]; /* `COMMAND REASON` of the last answer, if it says `refused` */

    pid_t process; /* 0: no child runs */
    int input, output;
    bool is_greeted; /* the child has said its first line */
    bool reads;      /* it takes what is sent */
    int64_t due, pause;

    struct ranges owned;
    uint64_t last_number;
    struct given *given;
    struct open *open;
    struct question *questions;
    struct event *events;
    bool owes_lost; /* the child has ended, and `lost` was not called yet */
    uint32_t tag;

    bool is_handling;
    bool is_over;  /* no child is started any more */
    bool is_stuck; /* the last `lost` failed, so that what the child gave may still be in use */
    bool is_closed;
    unsigned calls; /* calls of the service that have not returned */

    size_t begin, end; /* of what is unread */
    size_t waiting;    /* bytes that are unsent */
    char unread[2 * MAX_LINE + 2];
    char unsent[MAX_WAITING + MAX_ASKED + 64];
};

static void free_event(struct event *event)
{
    free(event->ranges.items);
    free(event);
}

static void drop_events(struct fabric_node *node)
{
    while (node->events != NULL) {
        struct event *event = node->events;
        node->events = event->next;
        free_event(event);
    }
}

/* Takes a number off those that are given up, where it is open. */
static bool take_given(struct fabric_node *node, uint64_t number)
{
    for (struct given **g = &node->given; *g != NULL; g = &(*g)->next)
        if ((*g)->number == number) {
            struct given *taken = *g;
            *g = taken->next;
            free(taken->subject.ranges.items);
            free(taken);
            return true;
        }
    return false;
}

static void free_node(struct fabric_node *node)
{
    for (size_t i = 0; node->words != NULL && node->words[i] != NULL; i++)
        free(node->words[i]);
    free(node->words);
    free(node->here);
    free(node->folder);
    free(node->owned.items);
    drop_events(node);
    free(node);
}

/* ---- The process. Nothing but `wait_for_bytes` and `wait_for_end` waits. ---- */

static void close_input(struct fabric_node *node)
{
    if (node->input >= 0)
        close(node->input);
    node->input = -1;
    node->waiting = 0;
    node->reads = false;
}

/* Whether the process has not ended. Where someone else has waited for it, its number may be that of another one. */
static bool is_running(const struct fabric_node *node)
{
    siginfo_t ended = {.si_pid = 0};
    return waitid(P_PID, (id_t)node->process, &ended, WEXITED | WNOHANG | WNOWAIT) == 0 && ended.si_pid == 0;
}

static void kill_process(const struct fabric_node *node)
{
    if (is_running(node))
        kill(node->process, SIGKILL);
}

/* A child that takes no more lines is of no use. What it wrote before its end is still read, in order. */
static void stop_sending(struct fabric_node *node)
{
    node->waiting = 0;
    node->reads = false;
    kill_process(node);
}

static void flush_lines(struct fabric_node *node)
{
    size_t sent = 0;
    while (sent < node->waiting) {
        ssize_t n = send(node->input, node->unsent + sent, node->waiting - sent, MSG_NOSIGNAL);
        if (n >= 0) {
            sent += (size_t)n;
        } else if (errno != EINTR) {
            bool waits = errno == EAGAIN || errno == EWOULDBLOCK;
            if (!waits || node->waiting - sent > MAX_WAITING) {
                stop_sending(node);
                return;
            }
            break;
        }
    }
    memmove(node->unsent, node->unsent + sent, node->waiting - sent);
    node->waiting -= sent;
}

static void send_line(struct fabric_node *node, const char *line, size_t length)
{
    if (!node->reads)
        return;
    memcpy(node->unsent + node->waiting, line, length);
    node->waiting += length;
    flush_lines(node);
}

/* The wait of a poll, rounded up, so that it does not end before its time. */
static int milliseconds_until(int64_t until)
{
    if (until == FOREVER)
        return -1;
    int64_t left = until - now();
    if (left <= 0)
        return 0;
    left = (left + MILLISECOND - 1) / MILLISECOND;
    return left > INT_MAX ? INT_MAX : (int)left;
}

/* Waits for bytes, and takes them. False: the output has ended. It is called where no whole line is unread, so what is
 * unread is less than a line, and there is room. */
static bool wait_for_bytes(struct fabric_node *node, int64_t until)
{
    struct pollfd ready[2] = {{node->output, POLLIN, 0}, {node->waiting > 0 ? node->input : -1, POLLOUT, 0}};
    poll(ready, 2, milliseconds_until(until));
    if (node->waiting > 0)
        flush_lines(node);
    memmove(node->unread, node->unread + node->begin, node->end - node->begin);
    node->end -= node->begin;
    node->begin = 0;
    ssize_t n = read(node->output, node->unread + node->end, MAX_LINE);
    if (n < 0)
        return errno == EAGAIN || errno == EWOULDBLOCK || errno == EINTR;
    node->end += (size_t)n;
    return n > 0;
}

/* After standard input was closed: reads on without a use for it, until the end or until patience is over. */
static void wait_for_end(struct fabric_node *node)
{
    int64_t until = now() + MAX_PATIENCE;
    do
        node->begin = node->end = 0;
    while (now() < until && wait_for_bytes(node, until));
    while (now() < until && is_running(node))
        poll(NULL, 0, 5);
}

/* Ends the process if it still runs, and says how it ended. Its end is a crash, and safe. */
static void end_process(struct fabric_node *node)
{
    int status = 0;
    close_input(node);
    close(node->output);
    kill_process(node);
    pid_t waited;
    do
        waited = waitpid(node->process, &status, 0);
    while (waited < 0 && errno == EINTR);
    if (waited > 0 && WIFSIGNALED(status))
        snprintf(node->fault, sizeof node->fault, "signal %d", WTERMSIG(status));
    else
        snprintf(node->fault, sizeof node->fault, "status %d", waited > 0 ? WEXITSTATUS(status) : 0);
    node->process = 0;
    node->begin = node->end = 0;
}

static int spawn(struct fabric_node *node, int input, int output)
{
    posix_spawn_file_actions_t actions;
    posix_spawnattr_t attributes;
    sigset_t usual;
    int error = posix_spawn_file_actions_init(&actions);
    if (error != 0)
        return error;
    error = posix_spawnattr_init(&attributes);
    if (error == 0) {
        sigemptyset(&usual);
        sigaddset(&usual, SIGPIPE); /* a service that ignores it must not make its child ignore it */
        posix_spawnattr_setsigdefault(&attributes, &usual);
        posix_spawnattr_setflags(&attributes, POSIX_SPAWN_SETSIGDEF);
        error = posix_spawn_file_actions_addchdir_np(&actions, node->here);
        if (error == 0)
            error = posix_spawn_file_actions_adddup2(&actions, input, 0);
        if (error == 0)
            error = posix_spawn_file_actions_adddup2(&actions, output, 1);
        if (error == 0)
            error = posix_spawnp(&node->process, node->words[0], &actions, &attributes, node->words, environ);
        posix_spawnattr_destroy(&attributes);
    }
    posix_spawn_file_actions_destroy(&actions);
    return error;
}

static void wait_longer(struct fabric_node *node)
{
    node->due = now() + node->pause;
    node->pause = 2 * node->pause < LAST_PAUSE ? 2 * node->pause : LAST_PAUSE;
}

static void start_process(struct fabric_node *node)
{
    /* A socket and not a pipe, so that a write to a child that has ended raises no SIGPIPE. */
    int sockets[2] = {-1, -1}, pipes[2] = {-1, -1};
    int error = 0;
    if (socketpair(AF_UNIX, SOCK_STREAM | SOCK_CLOEXEC, 0, sockets) != 0 || pipe2(pipes, O_CLOEXEC) != 0)
        error = errno;
    if (error == 0)
        error = spawn(node, sockets[1], pipes[1]);
    if (sockets[1] >= 0)
        close(sockets[1]);
    if (pipes[1] >= 0)
        close(pipes[1]);
    node->last_number = 0;
    if (error != 0) {
        if (sockets[0] >= 0)
            close(sockets[0]);
        if (pipes[0] >= 0)
            close(pipes[0]);
        node->process = 0;
        snprintf(node->fault, sizeof node->fault, "start: %s", strerror(error));
        wait_longer(node);
        return;
    }
    node->input = sockets[0];
    node->output = pipes[0];
    fcntl(node->input, F_SETFL, O_NONBLOCK);
    fcntl(node->output, F_SETFL, O_NONBLOCK);
    node->reads = true;
}

/* Ends the child. That gives up everything, and ends every open answer with `unknown`. */
static void end_child(struct fabric_node *node, const char *fault)
{
    end_process(node);
    if (fault != NULL)
        snprintf(node->fault, sizeof node->fault, "%s", fault);
    for (; node->open != NULL; node->open = node->open->next)
        node->open->is_over = node->open->is_cut = true;
    for (struct question *q = node->questions; q != NULL; q = q->next)
        q->is_void = true;
    free(node->owned.items);
    node->owned = (struct ranges){NULL, 0};
    while (node->given != NULL)
        take_given(node, node->given->number);
    drop_events(node);
    /* A child without its first line gave nothing, so there is nothing to let go of. */
    if (node->is_greeted)
        node->owes_lost = true;
    node->is_greeted = false;
    wait_longer(node);
}

/* ---- What lines mean. JUNK: the line may not come now. MEMORY: it found none. In both cases the child is ended. ---- */

static bool is_named_by(const struct question *question, const struct subject *subject)
{
    if (question->has_point && has_point(&subject->ranges, question->point))
        return true;
    return subject->everything || (question->partition >= 0 && question->partition == subject->partition);
}

static void make_void(struct fabric_node *node, const struct subject *subject)
{
    for (struct question *q = node->questions; q != NULL; q = q->next)
        q->is_void = q->is_void || is_named_by(q, subject);
}

/* Adds an event behind the others. It takes the ranges, also where it fails. */
static bool push_event(struct fabric_node *node, struct event event)
{
    struct event *made = malloc(sizeof *made);
    if (made == NULL) {
        free(event.ranges.items);
        return false;
    }
    *made = event;
    made->next = NULL;
    struct event **last = &node->events;
    while (*last != NULL)
        last = &(*last)->next;
    *last = made;
    return true;
}

/* Takes what is owned now. It takes the ranges, also where it fails. */
static enum fabric_node_error gain(struct fabric_node *node, struct ranges ranges)
{
    struct ranges more;
    if (!minus(&ranges, &node->owned, &more)) {
        free(ranges.items);
        return FABRIC_NODE_MEMORY;
    }
    free(node->owned.items);
    node->owned = ranges;
    if (more.count > 0 && !push_event(node, (struct event){.handler = GAINED, .ranges = more}))
        return FABRIC_NODE_MEMORY;
    return FABRIC_NODE_OK;
}

/* An `own` without a number. Points are lost by a line with a number only. */
static enum fabric_node_error hear_own(struct fabric_node *node, const struct words *words)
{
    struct ranges ranges, less;
    if (!ranges_at(words->fields[0], &ranges))
        return FABRIC_NODE_MEMORY;
    if (!minus(&node->owned, &ranges, &less)) {
        free(ranges.items);
        return FABRIC_NODE_MEMORY;
    }
    if (less.count > 0) {
        free(less.items);
        free(ranges.items);
        return FABRIC_NODE_JUNK;
    }
    return gain(node, ranges);
}

/* The event of a report of a partition. */
static struct event event_of(enum handler handler, const struct words *words, uint64_t number)
{
    struct event event = {.handler = handler, .number = number};
    event.partition = (uint16_t)number_at(words->fields[0]);
    event.epoch = epoch_at(words->fields[1]);
    if (handler == COMMITTED)
        event.lsn = (uint32_t)number_at(words->fields[2]);
    return event;
}

static enum fabric_node_error hear_report(struct fabric_node *node, const struct words *words)
{
    if (has_word(words, "own"))
        return hear_own(node, words);
    bool is_primary = has_word(words, "primary");
    if (is_primary || has_word(words, "committed"))
        return push_event(node, event_of(is_primary ? PRIMARY : COMMITTED, words, 0)) ? FABRIC_NODE_OK : FABRIC_NODE_MEMORY;
    if (has_word(words, "promised") || has_word(words, "adopted"))
        make_void(node, &(struct subject){.partition = (int32_t)number_at(words->fields[0])});
    return FABRIC_NODE_OK;
}

/* Notes what a number gives up, and what is called for it. It takes the ranges of both, also where it fails. */
static enum fabric_node_error give_up(struct fabric_node *node, struct subject subject, struct event event)
{
    make_void(node, &subject);
    struct given *made = malloc(sizeof *made);
    if (made == NULL) {
        free(subject.ranges.items);
        free(event.ranges.items);
        return FABRIC_NODE_MEMORY;
    }
    *made = (struct given){event.number, subject, node->given};
    node->given = made;
    return push_event(node, event) ? FABRIC_NODE_OK : FABRIC_NODE_MEMORY;
}

/* Points that are lost, and what is owned then. It takes both, also where it fails. */
static enum fabric_node_error lose(struct fabric_node *node, uint64_t number, struct ranges less)
{
    struct ranges left, copy;
    const struct ranges none = {NULL, 0};
    if (!minus(&node->owned, &less, &left)) {
        free(less.items);
        return FABRIC_NODE_MEMORY;
    }
    free(node->owned.items);
    node->owned = left;
    if (!minus(&less, &none, &copy)) {
        free(less.items);
        return FABRIC_NODE_MEMORY;
    }
    struct event event = {.handler = LOSING, .ranges = copy, .number = number};
    return give_up(node, (struct subject){less, -1, false}, event);
}

static enum fabric_node_error hear_given_own(struct fabric_node *node, uint64_t number, const struct words *words)
{
    struct ranges ranges, less;
    if (!ranges_at(words->fields[0], &ranges))
        return FABRIC_NODE_MEMORY;
    enum fabric_node_error error = FABRIC_NODE_MEMORY;
    if (minus(&node->owned, &ranges, &less))
        error = lose(node, number, less);
    if (error == FABRIC_NODE_OK)
        return gain(node, ranges);
    free(ranges.items);
    return error;
}

/* What the line gives up is given up from here on. Its handler may be called later, if another one runs now. */
static enum fabric_node_error hear_given(struct fabric_node *node, uint64_t number, const struct words *words)
{
    struct ranges less;
    if (number != node->last_number + 1)
        return FABRIC_NODE_JUNK;
    node->last_number = number;
    if (has_word(words, "gave"))
        return ranges_at(words->fields[2], &less) ? lose(node, number, less) : FABRIC_NODE_MEMORY;
    if (has_word(words, "own"))
        return hear_given_own(node, number, words);
    if (has_word(words, "promised")) {
        struct event event = event_of(PROMISED, words, number);
        return give_up(node, (struct subject){.partition = event.partition}, event);
    }
    if (!has_word(words, "left"))
        return FABRIC_NODE_JUNK;
    free(node->owned.items);
    node->owned = (struct ranges){NULL, 0};
    struct subject everything = {.partition = -1, .everything = true};
    return give_up(node, everything, (struct event){.handler = LOST, .number = number});
}

static bool push_line(struct fabric_node_answer *answer, const char *text)
{
    char **lines = realloc(answer->lines, (answer->count + 1) * sizeof *lines);
    if (lines == NULL)
        return false;
    answer->lines = lines;
    lines[answer->count] = strdup(text);
    return lines[answer->count] != NULL && ++answer->count > 0;
}

static struct open **find_open(struct fabric_node *node, uint64_t tag)
{
    struct open **open = &node->open;
    while (*open != NULL && (*open)->tag != tag)
        open = &(*open)->next;
    return open;
}

/* A line of an answer, behind its `@`; or its `done`. */
static enum fabric_node_error hear_answer(struct fabric_node *node, const char *text, bool is_done)
{
    struct words words;
    size_t length = number_length(text, 0, UINT32_MAX);
    if (length == 0 || text[length] != (is_done ? '\0' : ' ') || (!is_done && !read_words(text + length + 1, &words)))
        return FABRIC_NODE_JUNK;
    struct open **open = find_open(node, number_at(text));
    if (*open == NULL)
        return FABRIC_NODE_JUNK;
    if (!is_done)
        return push_line((*open)->answer, text + length + 1) ? FABRIC_NODE_OK : FABRIC_NODE_MEMORY;
    (*open)->is_over = true;
    *open = (*open)->next;
    return FABRIC_NODE_OK;
}

static enum fabric_node_error hear(struct fabric_node *node, const char *text)
{
    struct words words;
    if (text[0] == '@')
        return hear_answer(node, text + 1, false);
    if (strncmp(text, "done ", 5) == 0)
        return hear_answer(node, text + 5, true);
    if (text[0] != '#')
        return read_report(text, &words) ? hear_report(node, &words) : FABRIC_NODE_JUNK;
    size_t length = number_length(text + 1, 1, UINT64_MAX);
    if (length == 0 || text[1 + length] != ' ' || !read_report(text + length + 2, &words))
        return FABRIC_NODE_JUNK;
    return hear_given(node, number_at(text + 1), &words);
}

/* The first line: the child's greeting, or the fault of its start. */
static enum fabric_node_error greet(struct fabric_node *node, const char *text)
{
    if (strncmp(text, "fault ", 6) == 0 && text[6] != '\0') {
        end_child(node, text);
        return FABRIC_NODE_OK;
    }
    if (strncmp(text, "fabricd ", 8) != 0)
        return FABRIC_NODE_JUNK;
    size_t version = strcspn(text + 8, " ");
    const char *protocol = text + 8 + version + 1;
    if (version == 0 || version > 64 || text[8 + version] == '\0')
        return FABRIC_NODE_JUNK;
    size_t length = number_length(protocol, 0, UINT64_MAX);
    if (length == 0 || protocol[length] != '\0')
        return FABRIC_NODE_JUNK;
    if (strcmp(protocol, "1") != 0) {
        char fault[MAX_SHOWN];
        snprintf(fault, sizeof fault, "protocol: %.32s", protocol);
        end_child(node, fault);
        return FABRIC_NODE_OK;
    }
    node->is_greeted = true;
    node->pause = FIRST_PAUSE;
    return FABRIC_NODE_OK;
}

/* ---- Handlers. ---- */

static int call_handler(struct fabric_node *node, const struct event *event)
{
    const struct fabric_node_handlers *call = &node->handlers;
    switch (event->handler) {
    case GAINED:
        return call->gained(call->context, event->ranges.items, event->ranges.count);
    case LOSING:
        return call->losing(call->context, event->ranges.items, event->ranges.count);
    case LOST:
        return call->lost(call->context);
    case PRIMARY:
        return call->primary(call->context, event->partition, event->epoch);
    case PROMISED:
        return call->promised(call->context, event->partition, event->epoch);
    default:
        return call->committed(call->context, event->partition, event->epoch, event->lsn);
    }
}

/* Nobody knows what a handler that failed has let go of. So the child ends, and `lost` is called. */
static void fail(struct fabric_node *node, enum handler handler)
{
    char fault[MAX_SHOWN];
    snprintf(fault, sizeof fault, "handler: %s", handler_names[handler]);
    if (node->process != 0)
        end_child(node, fault);
    else if (handler == LOST && !node->owes_lost)
        node->is_over = node->is_stuck = true;
}

/* Says `done`, unless the child that awaits it has ended meanwhile: then nothing is open. */
static void finish(struct fabric_node *node, uint64_t number)
{
    char line[32];
    if (!take_given(node, number))
        return;
    int length = snprintf(line, sizeof line, "done %" PRIu64 "\n", number);
    send_line(node, line, (size_t)length);
}

/* Takes the call that is due next. The end of a child drops what was due before, so `lost` comes first then. */
static struct event *take_event(struct fabric_node *node, struct event *lost)
{
    struct event *event = node->events;
    if (node->owes_lost) {
        node->owes_lost = false;
        *lost = (struct event){.handler = LOST};
        return lost;
    }
    if (event != NULL)
        node->events = event->next;
    return event;
}

/* Calls the handlers of what was heard, in order. While one runs, others wait until it has returned. */
static enum fabric_node_error run_handlers(struct fabric_node *node)
{
    enum fabric_node_error error = FABRIC_NODE_OK;
    struct event lost, *event;
    if (node->is_handling)
        return FABRIC_NODE_OK;
    while ((event = take_event(node, &lost)) != NULL) {
        node->is_handling = true;
        bool has_failed = call_handler(node, event) != 0;
        node->is_handling = false;
        if (has_failed) {
            error = FABRIC_NODE_HANDLER;
            fail(node, event->handler);
        } else {
            finish(node, event->number);
        }
        if (event != &lost)
            free_event(event);
    }
    return error;
}

/* ---- Turns: one line, one wait or one start. ---- */

/* The next line, ended by a zero byte, or NULL if no whole one has come. Of a line that is too long, a front. */
static char *next_line(struct fabric_node *node, size_t *length)
{
    char *line = node->unread + node->begin;
    char *feed = memchr(line, '\n', node->end - node->begin);
    if (feed == NULL && node->end - node->begin <= MAX_LINE)
        return NULL;
    *length = feed == NULL ? MAX_LINE + 1 : (size_t)(feed - line);
    if (feed != NULL)
        node->begin += *length + 1;
    line[*length] = '\0';
    return line;
}

static bool is_printable(const char *line, size_t length)
{
    for (size_t i = 0; i < length; i++)
        if (line[i] < ' ' || line[i] > '~')
            return false;
    return true;
}

/* Ends a child for a line that is not to be trusted. */
static void end_for_junk(struct fabric_node *node, const char *line, size_t length)
{
    char fault[MAX_SHOWN + 16] = "junk: ";
    size_t shown = length < MAX_SHOWN ? length : MAX_SHOWN;
    for (size_t i = 0; i < shown; i++)
        fault[6 + i] = is_printable(line + i, 1) ? line[i] : '?';
    fault[6 + shown] = '\0';
    end_child(node, fault);
}

/* Handles one line, if a whole one has come, and calls what is due. */
static enum fabric_node_error take_line(struct fabric_node *node, bool *happened)
{
    size_t length = 0;
    char *line = node->process == 0 ? NULL : next_line(node, &length);
    *happened = line != NULL;
    if (line == NULL)
        return FABRIC_NODE_OK;
    enum fabric_node_error error = FABRIC_NODE_JUNK;
    if (length <= MAX_LINE && is_printable(line, length))
        error = node->is_greeted ? hear(node, line) : greet(node, line);
    if (error == FABRIC_NODE_JUNK) {
        end_for_junk(node, line, length);
        error = FABRIC_NODE_OK;
    } else if (error == FABRIC_NODE_MEMORY) {
        end_child(node, "memory");
    }
    enum fabric_node_error failed = run_handlers(node);
    return failed != FABRIC_NODE_OK ? failed : error;
}

/* Without a child: waits for the next start, and makes it. */
static void rest(struct fabric_node *node, int64_t until)
{
    if (now() >= node->due)
        start_process(node);
    else
        poll(NULL, 0, milliseconds_until(until < node->due ? until : node->due));
}

/* Handles a line that has come, or else waits for one, for an end or for a start. */
static enum fabric_node_error turn(struct fabric_node *node, int64_t until, bool *happened)
{
    enum fabric_node_error error = take_line(node, happened);
    if (*happened)
        return error;
    if (node->process == 0) {
        rest(node, until);
        return FABRIC_NODE_OK;
    }
    if (wait_for_bytes(node, until))
        return take_line(node, happened);
    *happened = true;
    end_child(node, NULL);
    return run_handlers(node);
}

/* ---- The calls. ---- */

static enum fabric_node_error enter(struct fabric_node *node)
{
    if (!pthread_equal(pthread_self(), node->thread))
        return FABRIC_NODE_MISUSE;
    node->calls++;
    return FABRIC_NODE_OK;
}

/* Frees a node that was closed, once no call of it goes on. After a `lost` that failed its folder stays held. */
static enum fabric_node_error leave(struct fabric_node *node, enum fabric_node_error error)
{
    node->calls--;
    if (node->calls == 0 && node->is_closed) {
        if (!node->is_stuck)
            let_go_of_folder(node->folder);
        free_node(node);
    }
    return error;
}

static enum fabric_node_error fault_of(const char *text)
{
    static const enum fabric_node_error errors[] = {FABRIC_NODE_LINE, FABRIC_NODE_NOSUCH, FABRIC_NODE_LARGE};
    for (size_t i = 0; i < sizeof errors / sizeof errors[0]; i++)
        if (strcmp(text + 6, fabric_node_error_name(errors[i])) == 0)
            return errors[i];
    return FABRIC_NODE_BUSY;
}

/* The error that an answer says. */
static enum fabric_node_error error_of(struct fabric_node *node, const struct fabric_node_answer *answer)
{
    struct words words;
    for (size_t i = 0; i < answer->count; i++) {
        if (!read_words(answer->lines[i], &words))
            continue;
        if (has_word(&words, "late"))
            return FABRIC_NODE_LATE;
        if (has_word(&words, "unknown"))
            return FABRIC_NODE_UNKNOWN;
        if (has_word(&words, "fault"))
            return fault_of(answer->lines[i]);
        if (has_word(&words, "refused")) {
            snprintf(node->reason, sizeof node->reason, "%s", words.fields[0]);
            return FABRIC_NODE_REFUSED;
        }
    }
    return FABRIC_NODE_OK;
}

/* Sends one request, and waits for its `done`. Other lines are handled meanwhile, in their order. */
static enum fabric_node_error ask(struct fabric_node *node, const char *line, struct fabric_node_answer *answer)
{
    char asked[MAX_ASKED + 2];
    struct open open = {.tag = node->tag + 1, .answer = answer};
    node->reason[0] = '\0';
    if (line[0] == '\0' || !is_printable(line, strlen(line)))
        return FABRIC_NODE_LINE;
    int length = snprintf(asked, sizeof asked, "@%" PRIu32 " %s", open.tag, line);
    if (length > MAX_ASKED)
        return FABRIC_NODE_LARGE;
    if (!node->is_greeted)
        return FABRIC_NODE_ENDED;
    asked[length] = '\n';
    node->tag = open.tag;
    open.next = node->open;
    node->open = &open;
    send_line(node, asked, (size_t)length + 1);
    enum fabric_node_error error = FABRIC_NODE_OK;
    while (!open.is_over && error == FABRIC_NODE_OK) {
        bool happened;
        error = turn(node, FOREVER, &happened);
    }
    if (error != FABRIC_NODE_OK)
        return error;
    return open.is_cut ? FABRIC_NODE_UNKNOWN : error_of(node, answer);
}

static void note_failure(struct fabric_node_failure *failure, enum fabric_node_error error, const char *text)
{
    if (failure == NULL)
        return;
    failure->error = error;
    snprintf(failure->text, sizeof failure->text, "%.*s", FABRIC_NODE_MAX_FAULT, text);
}

static bool has_all(const struct fabric_node_handlers *call)
{
    return call != NULL && call->gained != NULL && call->losing != NULL && call->lost != NULL && call->primary != NULL &&
           call->promised != NULL && call->committed != NULL;
}

static char **copy_words(const char *const words[])
{
    size_t count = 0;
    while (words[count] != NULL)
        count++;
    char **copy = calloc(count + 1, sizeof *copy);
    for (size_t i = 0; copy != NULL && i < count; i++)
        if ((copy[i] = strdup(words[i])) == NULL) {
            while (i > 0)
                free(copy[--i]);
            free(copy);
            return NULL;
        }
    return copy;
}

static struct fabric_node *make_node(const char *const words[], const struct fabric_node_handlers *handlers)
{
    struct fabric_node *node = calloc(1, sizeof *node);
    if (node == NULL)
        return NULL;
    node->thread = pthread_self();
    node->handlers = *handlers;
    node->words = copy_words(words);
    node->here = realpath(".", NULL);
    node->folder = folder_of(words);
    node->pause = FIRST_PAUSE;
    if (node->words == NULL || node->here == NULL || node->folder == NULL) {
        free_node(node);
        return NULL;
    }
    return node;
}

/* The first start. It fails where a later one would be made again. */
static enum fabric_node_error start_first(struct fabric_node *node)
{
    start_process(node);
    while (node->process != 0 && !node->is_greeted) {
        bool happened;
        enum fabric_node_error error = turn(node, FOREVER, &happened);
        if (error != FABRIC_NODE_OK)
            return error;
    }
    if (node->process != 0)
        return FABRIC_NODE_OK;
    if (strncmp(node->fault, "junk: ", 6) == 0)
        return FABRIC_NODE_JUNK;
    return strncmp(node->fault, "protocol: ", 10) == 0 ? FABRIC_NODE_PROTOCOL : FABRIC_NODE_START;
}

struct fabric_node *fabric_node_start(const char *const words[], const struct fabric_node_handlers *handlers,
                                      struct fabric_node_failure *failure)
{
    if (words == NULL || words[0] == NULL || !has_all(handlers)) {
        note_failure(failure, FABRIC_NODE_MISUSE, "words and all six handlers are needed");
        return NULL;
    }
    struct fabric_node *node = make_node(words, handlers);
    if (node == NULL) {
        note_failure(failure, FABRIC_NODE_MEMORY, "");
        return NULL;
    }
    enum fabric_node_error error = hold_folder(node->folder);
    if (error != FABRIC_NODE_OK) {
        note_failure(failure, error, node->folder);
        free_node(node);
        return NULL;
    }
    error = start_first(node);
    if (error != FABRIC_NODE_OK) {
        note_failure(failure, error, node->fault);
        let_go_of_folder(node->folder);
        free_node(node);
        return NULL;
    }
    note_failure(failure, FABRIC_NODE_OK, "");
    return node;
}

enum fabric_node_error fabric_node_ask(struct fabric_node *node, const char *line, struct fabric_node_answer *answer)
{
    *answer = (struct fabric_node_answer){0, NULL};
    enum fabric_node_error error = enter(node);
    return error != FABRIC_NODE_OK ? error : leave(node, ask(node, line, answer));
}

void fabric_node_free_answer(struct fabric_node_answer *answer)
{
    for (size_t i = 0; i < answer->count; i++)
        free(answer->lines[i]);
    free(answer->lines);
    *answer = (struct fabric_node_answer){0, NULL};
}

/* The number of the entry that the answer to a write says is committed. UNKNOWN: it says so of none. */
static enum fabric_node_error committed_of(const struct fabric_node_answer *answer, uint16_t partition, uint32_t *lsn)
{
    struct words words;
    struct event accepted = {.lsn = 0};
    bool is_accepted = false;
    for (size_t i = 0; i < answer->count; i++) {
        if (!read_words(answer->lines[i], &words))
            continue;
        bool accepts = has_word(&words, "accepted");
        if (!accepts && !has_word(&words, "committed"))
            continue;
        struct event event = event_of(COMMITTED, &words, 0);
        if (event.partition != partition)
            continue;
        if (accepts && !is_accepted) {
            accepted = event;
            is_accepted = true;
        } else if (!accepts && is_accepted && event.lsn >= accepted.lsn &&
                   event.epoch.data_loss == accepted.epoch.data_loss &&
                   event.epoch.configuration == accepted.epoch.configuration) {
            *lsn = accepted.lsn;
            return FABRIC_NODE_OK;
        }
    }
    return FABRIC_NODE_UNKNOWN;
}

enum fabric_node_error fabric_node_write(struct fabric_node *node, uint16_t partition, const char *text, uint32_t *lsn)
{
    char line[FABRIC_NODE_MAX_TEXT + 32];
    struct fabric_node_answer answer = {0, NULL};
    size_t size = strlen(text);
    enum fabric_node_error error = enter(node);
    if (error != FABRIC_NODE_OK)
        return error;
    if (size < 1 || size > FABRIC_NODE_MAX_TEXT)
        return leave(node, FABRIC_NODE_LINE);
    snprintf(line, sizeof line, "write %u %s", (unsigned)partition, text);
    error = ask(node, line, &answer);
    if (error == FABRIC_NODE_OK)
        error = committed_of(&answer, partition, lsn);
    fabric_node_free_answer(&answer);
    return leave(node, error);
}

static void ask_about(struct fabric_node *node, struct question *question)
{
    question->next = node->questions;
    node->questions = question;
}

static void take_back(struct fabric_node *node, const struct question *question)
{
    struct question **q = &node->questions;
    while (*q != question)
        q = &(*q)->next;
    *q = question->next;
}

/* Asks for an answer of one line. Its words are NULL where it is void: an answer that a later line has taken back, or one
 * of a child that has ended. What is given up now is not even asked. */
static enum fabric_node_error ask_now(struct fabric_node *node, struct question *question, const char *line,
                                      struct fabric_node_answer *answer, struct words *words)
{
    words->form = NULL;
    for (const struct given *g = node->given; g != NULL; g = g->next)
        if (is_named_by(question, &g->subject))
            return FABRIC_NODE_OK;
    ask_about(node, question);
    enum fabric_node_error error = ask(node, line, answer);
    take_back(node, question);
    if (error == FABRIC_NODE_UNKNOWN || error == FABRIC_NODE_ENDED)
        return FABRIC_NODE_OK;
    if (error == FABRIC_NODE_OK && !question->is_void && answer->count == 1 && !read_words(answer->lines[0], words))
        words->form = NULL;
    return error;
}

enum fabric_node_error fabric_node_holds(struct fabric_node *node, uint64_t point, double *seconds)
{
    char line[32];
    struct words words;
    struct fabric_node_answer answer = {0, NULL};
    struct question question = {.has_point = true, .point = point, .partition = -1};
    *seconds = 0;
    enum fabric_node_error error = enter(node);
    if (error != FABRIC_NODE_OK)
        return error;
    snprintf(line, sizeof line, "hold %016" PRIx64, point);
    /* Before it is sent: what passes between then and the child's reading makes the span shorter. */
    int64_t sent = now();
    error = ask_now(node, &question, line, &answer, &words);
    if (error == FABRIC_NODE_OK && words.form != NULL && has_word(&words, "held") && point_at(words.fields[0]) == point) {
        double left = (double)number_at(words.fields[1]) / 1e3 - (double)(now() - sent) / 1e9;
        *seconds = left > 0 ? left : 0;
    }
    fabric_node_free_answer(&answer);
    return leave(node, error);
}

enum fabric_node_error fabric_node_leads(struct fabric_node *node, uint16_t partition, bool *leads,
                                         struct fabric_node_epoch *epoch)
{
    char line[32];
    struct words words;
    struct fabric_node_answer answer = {0, NULL};
    struct question question = {.partition = partition};
    *leads = false;
    enum fabric_node_error error = enter(node);
    if (error != FABRIC_NODE_OK)
        return error;
    snprintf(line, sizeof line, "lead %u", (unsigned)partition);
    error = ask_now(node, &question, line, &answer, &words);
    if (error == FABRIC_NODE_OK && words.form != NULL && has_word(&words, "leads") &&
        number_at(words.fields[0]) == partition) {
        *leads = true;
        *epoch = epoch_at(words.fields[1]);
    }
    fabric_node_free_answer(&answer);
    return leave(node, error);
}

/* Appends the entry that a line of an answer says. JUNK: it is not the one that comes next. */
static enum fabric_node_error push_entry(struct fabric_node_entries *entries, const char *line, uint16_t partition,
                                         uint32_t lsn)
{
    struct words words;
    if (!read_words(line, &words) || !has_word(&words, "entry") || number_at(words.fields[0]) != partition ||
        number_at(words.fields[2]) != lsn)
        return FABRIC_NODE_JUNK;
    if (entries->count % PAGE == 0) {
        struct fabric_node_entry *items = realloc(entries->items, (entries->count + PAGE) * sizeof *items);
        if (items == NULL)
            return FABRIC_NODE_MEMORY;
        entries->items = items;
    }
    struct fabric_node_entry *entry = &entries->items[entries->count++];
    *entry = (struct fabric_node_entry){.epoch = epoch_at(words.fields[1]), .lsn = lsn};
    for (const char *hex = words.fields[3]; hex[0] != '\0'; hex += 2) {
        const char digits[3] = {hex[0], hex[1], '\0'};
        entry->text[entry->size++] = (char)strtoul(digits, NULL, 16);
    }
    return FABRIC_NODE_OK;
}

/* Asks for one page from the number `first` on, and says how many entries it has. */
static enum fabric_node_error read_page(struct fabric_node *node, uint16_t partition, uint32_t first,
                                        struct fabric_node_entries *entries, size_t *count)
{
    char line[48];
    struct fabric_node_answer answer = {0, NULL};
    snprintf(line, sizeof line, "log %u %" PRIu32 " %d", (unsigned)partition, first, PAGE);
    enum fabric_node_error error = ask(node, line, &answer);
    *count = answer.count;
    for (size_t i = 0; error == FABRIC_NODE_OK && i < answer.count; i++)
        error = push_entry(entries, answer.lines[i], partition, first + (uint32_t)i);
    fabric_node_free_answer(&answer);
    if (error != FABRIC_NODE_JUNK)
        return error;
    /* An answer to another question: the child is not to be trusted. */
    if (node->process != 0)
        end_child(node, "junk: an answer to another question");
    error = run_handlers(node);
    return error != FABRIC_NODE_OK ? error : FABRIC_NODE_UNKNOWN;
}

static enum fabric_node_error read_pages(struct fabric_node *node, uint16_t partition, uint32_t first,
                                         struct fabric_node_entries *entries)
{
    size_t count = PAGE;
    enum fabric_node_error error = FABRIC_NODE_OK;
    fabric_node_free_entries(entries);
    while (error == FABRIC_NODE_OK && count >= PAGE && first + entries->count <= MAX_ENTRIES)
        error = read_page(node, partition, first + (uint32_t)entries->count, entries, &count);
    return error;
}

enum fabric_node_error fabric_node_log(struct fabric_node *node, uint16_t partition, uint32_t first,
                                       struct fabric_node_entries *entries)
{
    *entries = (struct fabric_node_entries){0, NULL};
    enum fabric_node_error error = enter(node);
    if (error != FABRIC_NODE_OK)
        return error;
    if (first < 1 || first > MAX_ENTRIES)
        return leave(node, FABRIC_NODE_LINE);
    struct question question;
    /* A replica that promised or adopted meanwhile may have another log, and the pages would be of two. */
    do {
        question = (struct question){.partition = partition};
        ask_about(node, &question);
        error = read_pages(node, partition, first, entries);
        take_back(node, &question);
    } while (error == FABRIC_NODE_OK && question.is_void);
    if (error != FABRIC_NODE_OK)
        fabric_node_free_entries(entries);
    return leave(node, error);
}

void fabric_node_free_entries(struct fabric_node_entries *entries)
{
    free(entries->items);
    *entries = (struct fabric_node_entries){0, NULL};
}

enum fabric_node_error fabric_node_poll(struct fabric_node *node, int milliseconds)
{
    enum fabric_node_error error = enter(node);
    if (error != FABRIC_NODE_OK)
        return error;
    if (node->is_handling)
        return leave(node, FABRIC_NODE_MISUSE);
    if (node->is_over)
        return leave(node, FABRIC_NODE_ENDED);
    int64_t until = now() + (milliseconds > 0 ? milliseconds * MILLISECOND : 0);
    bool happened = false;
    do
        error = turn(node, until, &happened);
    while (error == FABRIC_NODE_OK && !happened && now() < until);
    while (error == FABRIC_NODE_OK && happened)
        error = take_line(node, &happened);
    return leave(node, error);
}

int fabric_node_descriptor(const struct fabric_node *node)
{
    return node->process == 0 ? -1 : node->output;
}

enum fabric_node_error fabric_node_close(struct fabric_node *node)
{
    enum fabric_node_error error = enter(node);
    if (error != FABRIC_NODE_OK)
        return error;
    node->is_over = node->is_closed = true;
    if (node->process != 0) {
        close_input(node);
        wait_for_end(node);
        end_child(node, NULL);
    }
    return leave(node, run_handlers(node));
}

const char *fabric_node_fault(const struct fabric_node *node)
{
    return node->fault;
}

const char *fabric_node_reason(const struct fabric_node *node)
{
    return node->reason;
}

const char *fabric_node_error_name(enum fabric_node_error error)
{
    static const char *const names[] = {"ok",    "refused", "late",     "unknown", "busy",   "nosuch",  "line",   "large",
                                        "ended", "start",   "protocol", "junk",    "folder", "handler", "misuse", "memory"};
    return (size_t)error < sizeof names / sizeof names[0] ? names[error] : "?";
}
