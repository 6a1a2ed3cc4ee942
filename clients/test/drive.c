/* Drives the C client through a scenario: usage: drive PYTHON PLAY SCENARIO FOLDER. drive.py does the same with the Python
 * client, and says what the calls of a scenario are. */
#define _GNU_SOURCE
#include "fabric_node.h"

#include <dirent.h>
#include <errno.h>
#include <inttypes.h>
#include <poll.h>
#include <stdio.h>
#include <stdlib.h>
#include <string.h>
#include <sys/wait.h>
#include <time.h>
#include <unistd.h>

enum { MOST_LINES = 200, MOST_LENGTH = 400 };

static struct fabric_node *node;
static struct fabric_node_handlers handlers;
static const char *words[8];
static char calls[MOST_LINES][MOST_LENGTH];
static size_t call_count;
static const char *actions[MOST_LINES];
static size_t action_count;
static int depth;
static bool is_quiet;
static int counts[6];
static const char *const names[6] = {"gained", "losing", "lost", "primary", "promised", "committed"};

static int run(const char *line);

static void indent(void)
{
    for (int i = 0; i < depth; i++)
        printf("  ");
}

static void say_error(const char *word, enum fabric_node_error error)
{
    const char *reason = error == FABRIC_NODE_REFUSED ? fabric_node_reason(node) : "";
    indent();
    printf("%s error %s%s%s\n", word, fabric_node_error_name(error), reason[0] == '\0' ? "" : " ", reason);
}

static void say_lines(const struct fabric_node_answer *answer)
{
    for (size_t i = 0; i < answer->count; i++) {
        indent();
        printf("  %s\n", answer->lines[i]);
    }
}

/* Does what the scenario says for this call of the handler. */
static int act(int handler)
{
    int failed = 0;
    counts[handler]++;
    depth++;
    for (size_t i = 0; i < action_count && failed == 0; i++) {
        char name[16], number[16], own[16];
        int length = 0;
        sscanf(actions[i], "on %15s %15s %n", name, number, &length);
        snprintf(own, sizeof own, "%d", counts[handler]);
        if (strcmp(name, names[handler]) == 0 && (strcmp(number, "*") == 0 || strcmp(number, own) == 0))
            failed = run(actions[i] + length);
    }
    depth--;
    return failed;
}

static int on_ranges(int handler, const struct fabric_node_range *ranges, size_t count)
{
    if (is_quiet)
        return act(handler);
    indent();
    printf("%s %s", names[handler], count == 0 ? "-" : "");
    for (size_t i = 0; i < count; i++)
        printf("%s%016" PRIx64 "-%016" PRIx64, i == 0 ? "" : ",", ranges[i].lo, ranges[i].hi);
    printf("\n");
    return act(handler);
}

static int gained(void *context, const struct fabric_node_range *ranges, size_t count)
{
    (void)context;
    return on_ranges(0, ranges, count);
}

static int losing(void *context, const struct fabric_node_range *ranges, size_t count)
{
    (void)context;
    return on_ranges(1, ranges, count);
}

static int lost(void *context)
{
    (void)context;
    if (!is_quiet) {
        indent();
        printf("lost\n");
    }
    return act(2);
}

static int on_epoch(int handler, uint16_t partition, struct fabric_node_epoch epoch)
{
    indent();
    printf("%s %u %" PRIu32 ".%" PRIu32 "\n", names[handler], (unsigned)partition, epoch.data_loss, epoch.configuration);
    return act(handler);
}

static int primary(void *context, uint16_t partition, struct fabric_node_epoch epoch)
{
    (void)context;
    return on_epoch(3, partition, epoch);
}

static int promised(void *context, uint16_t partition, struct fabric_node_epoch epoch)
{
    (void)context;
    return on_epoch(4, partition, epoch);
}

static int committed(void *context, uint16_t partition, struct fabric_node_epoch epoch, uint32_t lsn)
{
    (void)context;
    indent();
    printf("committed %u %" PRIu32 ".%" PRIu32, (unsigned)partition, epoch.data_loss, epoch.configuration);
    printf(" %" PRIu32 "\n", lsn);
    return act(5);
}

/* Says why a start failed. A folder is another one in each run. */
static void say_failure(const char *word, const struct fabric_node_failure *failure)
{
    indent();
    printf("%s error %s", word, fabric_node_error_name(failure->error));
    if (failure->error != FABRIC_NODE_FOLDER)
        printf(" %s", failure->text);
    printf("\n");
}

static void do_misuse(void)
{
    static const char *const none[] = {NULL};
    struct fabric_node_failure failure;
    struct fabric_node_handlers some = handlers;
    some.promised = NULL;
    fabric_node_start(words, &some, &failure);
    say_failure("misuse", &failure);
    fabric_node_start(none, &handlers, &failure);
    say_failure("misuse", &failure);
}

static void do_nowhere(void)
{
    static const char *const nowhere[] = {"/nowhere/fabricd", "--folder", "/nowhere", NULL};
    struct fabric_node_failure failure;
    fabric_node_start(nowhere, &handlers, &failure);
    say_failure("nowhere", &failure);
}

/* A start with these words, the last one of which may be another spelling of the folder. */
static void do_start(const char *word)
{
    char folder[3 * MOST_LENGTH];
    const char *alias[8];
    struct fabric_node_failure failure;
    snprintf(folder, sizeof folder, "--folder=%s/../%s/.", words[6], strrchr(words[6], '/') + 1);
    memcpy(alias, words, sizeof alias);
    alias[5] = folder;
    alias[6] = NULL;
    struct fabric_node *made = fabric_node_start(strcmp(word, "alias") == 0 ? alias : words, &handlers, &failure);
    if (made == NULL) {
        say_failure(word, &failure);
        return;
    }
    node = made;
    indent();
    printf("%s\n", word);
}

static void do_ask(const char *word, const char *line)
{
    struct fabric_node_answer answer;
    enum fabric_node_error error = fabric_node_ask(node, line, &answer);
    if (error != FABRIC_NODE_OK) {
        say_error(word, error);
    } else {
        indent();
        printf("ask\n");
    }
    say_lines(&answer);
    fabric_node_free_answer(&answer);
}

static void do_askcount(const char *line)
{
    struct fabric_node_answer answer;
    enum fabric_node_error error = fabric_node_ask(node, line, &answer);
    size_t bytes = 0;
    for (size_t i = 0; i < answer.count; i++)
        bytes += strlen(answer.lines[i]);
    if (error != FABRIC_NODE_OK)
        say_error("askcount", error);
    else
        printf("ask %zu %zu\n", answer.count, bytes);
    fabric_node_free_answer(&answer);
}

static char *many(int count)
{
    char *text = calloc((size_t)count + 1, 1);
    memset(text, 'x', (size_t)count);
    return text;
}

static void do_write(const char *word, unsigned partition, const char *text)
{
    uint32_t lsn = 0;
    enum fabric_node_error error = fabric_node_write(node, (uint16_t)partition, text, &lsn);
    if (error != FABRIC_NODE_OK) {
        say_error(word, error);
        return;
    }
    indent();
    printf("write %" PRIu32 "\n", lsn);
}

static void do_log(unsigned partition, unsigned first)
{
    struct fabric_node_entries entries;
    enum fabric_node_error error = fabric_node_log(node, (uint16_t)partition, first, &entries);
    if (error != FABRIC_NODE_OK) {
        say_error("log", error);
    } else {
        indent();
        printf("log %zu\n", entries.count);
    }
    for (size_t i = 0; i < entries.count; i++) {
        const struct fabric_node_entry *entry = &entries.items[i];
        if (i > 0 && i + 1 < entries.count)
            continue;
        indent();
        printf("  %" PRIu32 ".%" PRIu32 " %" PRIu32 " %s\n", entry->epoch.data_loss, entry->epoch.configuration, entry->lsn,
               entry->text);
    }
    fabric_node_free_entries(&entries);
}

static void do_holds(uint64_t point, int low, int high)
{
    double seconds = 0;
    enum fabric_node_error error = fabric_node_holds(node, point, &seconds);
    int left = (int)(1000 * seconds) + (1000 * seconds > (int)(1000 * seconds));
    if (error != FABRIC_NODE_OK) {
        say_error("holds", error);
        return;
    }
    indent();
    if (low <= left && left <= high)
        printf("holds %d-%d\n", low, high);
    else
        printf("holds %d\n", left);
}

static void do_leads(unsigned partition)
{
    bool leads = false;
    struct fabric_node_epoch epoch = {0, 0};
    enum fabric_node_error error = fabric_node_leads(node, (uint16_t)partition, &leads, &epoch);
    if (error != FABRIC_NODE_OK) {
        say_error("leads", error);
        return;
    }
    indent();
    if (leads)
        printf("leads %" PRIu32 ".%" PRIu32 "\n", epoch.data_loss, epoch.configuration);
    else
        printf("leads None\n");
}

static long milliseconds(void)
{
    struct timespec time;
    clock_gettime(CLOCK_MONOTONIC, &time);
    return time.tv_sec * 1000 + time.tv_nsec / 1000000;
}

/* Polls until a handler was called so often, or the time is over. */
static void do_until(const char *name, int count, int time)
{
    int handler = 0;
    while (strcmp(names[handler], name) != 0)
        handler++;
    for (long end = milliseconds() + time; counts[handler] < count && milliseconds() < end;) {
        enum fabric_node_error error = fabric_node_poll(node, (int)(end - milliseconds()));
        if (error != FABRIC_NODE_OK) {
            say_error("until", error);
            return;
        }
    }
    indent();
    printf("until %s %d\n", name, counts[handler]);
}

static void do_fault(void)
{
    indent();
    printf("fault %s\n", fabric_node_fault(node));
}

static void do_poll(int time)
{
    enum fabric_node_error error = fabric_node_poll(node, time);
    if (error != FABRIC_NODE_OK)
        say_error("poll", error);
}

static void do_polled(int time, int low, int high)
{
    long began = milliseconds();
    enum fabric_node_error error = fabric_node_poll(node, time);
    long passed = milliseconds() - began;
    if (error != FABRIC_NODE_OK)
        say_error("polled", error);
    else if (low <= passed && passed <= high)
        printf("polled %d-%d\n", low, high);
    else
        printf("polled %ld\n", passed);
}

static void do_readable(int time)
{
    struct pollfd ready = {fabric_node_descriptor(node), POLLIN, 0};
    indent();
    if (ready.fd < 0)
        printf("readable none\n");
    else
        printf("readable %s\n", poll(&ready, 1, time) > 0 ? "yes" : "no");
}

static void do_close(void)
{
    enum fabric_node_error error = fabric_node_close(node);
    if (error != FABRIC_NODE_OK) {
        say_error("close", error);
        return;
    }
    indent();
    printf("close\n");
}

static void do_big(const char *word, const char *rest)
{
    char *text = many(atoi(rest));
    if (strcmp(word, "askbig") == 0)
        do_ask(word, text);
    else
        do_write(word, 7, text);
    free(text);
}

/* The calls that take numbers. */
static void run_other(const char *word, const char *rest)
{
    unsigned a = 0, b = 0;
    uint64_t point = 0;
    int low = 0, high = 0, time = 0;
    char name[16] = "";
    if (strcmp(word, "log") == 0 && sscanf(rest, "%u %u", &a, &b) == 2)
        do_log(a, b);
    else if (strcmp(word, "holds") == 0 && sscanf(rest, "%16" SCNx64 " %d %d", &point, &low, &high) == 3)
        do_holds(point, low, high);
    else if (strcmp(word, "until") == 0 && sscanf(rest, "%15s %d %d", name, &low, &high) == 3)
        do_until(name, low, high);
    else if (strcmp(word, "polled") == 0 && sscanf(rest, "%d %d %d", &time, &low, &high) == 3)
        do_polled(time, low, high);
    else if (strcmp(word, "leads") == 0)
        do_leads((unsigned)atoi(rest));
    else if (strcmp(word, "poll") == 0)
        do_poll(atoi(rest));
    else if (strcmp(word, "readable") == 0)
        do_readable(atoi(rest));
    else if (strcmp(word, "sleep") == 0)
        usleep((useconds_t)atoi(rest) * 1000);
    else if (strcmp(word, "faults") == 0)
        for (int i = 1; i <= atoi(rest); i++) {
            do_until("lost", i, 60000);
            do_fault();
        }
    else
        printf("what is %s?\n", word);
}

/* The calls that take no numbers. Whether it was one. */
static bool run_plain(const char *word, const char *rest)
{
    if (strcmp(word, "start") == 0 || strcmp(word, "second") == 0 || strcmp(word, "alias") == 0)
        do_start(word);
    else if (strcmp(word, "ask") == 0)
        do_ask(word, rest);
    else if (strcmp(word, "askcount") == 0)
        do_askcount(rest);
    else if (strcmp(word, "asklines") == 0)
        do_ask(word, "state\n@2 end");
    else if (strcmp(word, "askbig") == 0 || strcmp(word, "writebig") == 0)
        do_big(word, rest);
    else if (strcmp(word, "fault") == 0)
        do_fault();
    else if (strcmp(word, "close") == 0)
        do_close();
    else if (strcmp(word, "quiet") == 0)
        is_quiet = true;
    else if (strcmp(word, "misuse") == 0)
        do_misuse();
    else if (strcmp(word, "nowhere") == 0)
        do_nowhere();
    else
        return false;
    return true;
}

/* Makes a call. Whether a handler shall fail. */
static int run(const char *line)
{
    char word[16] = "";
    int length = 0;
    sscanf(line, "%15s %n", word, &length);
    const char *rest = line + length;
    if (strcmp(word, "on") == 0)
        actions[action_count++] = line;
    else if (strcmp(word, "fail") == 0)
        return 1;
    else if (strcmp(word, "chdir") == 0)
        return chdir(rest) != 0;
    else if (strcmp(word, "write") == 0)
        do_write(word, (unsigned)atoi(rest), rest + strcspn(rest, " ") + (strchr(rest, ' ') != NULL));
    else if (!run_plain(word, rest))
        run_other(word, rest);
    return 0;
}

static int descriptors(void)
{
    int count = 0;
    DIR *folder = opendir("/proc/self/fd");
    while (readdir(folder) != NULL)
        count++;
    closedir(folder);
    return count;
}

static void read_calls(const char *path)
{
    char line[MOST_LENGTH];
    bool is_calls = false;
    FILE *file = fopen(path, "r");
    while (fgets(line, sizeof line, file) != NULL) {
        line[strcspn(line, "\n")] = '\0';
        if (line[0] == '[')
            is_calls = strcmp(line, "[calls]") == 0;
        else if (is_calls && line[0] != '\0' && strncmp(line, "//", 2) != 0)
            strcpy(calls[call_count++], line);
    }
    fclose(file);
}

int main(int argc, char **argv)
{
    if (argc != 5)
        return 2;
    setvbuf(stdout, NULL, _IOLBF, 0);
    handlers = (struct fabric_node_handlers){NULL, gained, losing, lost, primary, promised, committed};
    const char *const child[] = {argv[1], "-I", "-S", argv[2], argv[3], "--folder", argv[4]};
    memcpy(words, child, sizeof child);
    read_calls(argv[3]);
    int before = descriptors();
    run("start");
    for (size_t i = 0; i < call_count; i++)
        run(calls[i]);
    printf("descriptors %d\n", descriptors() - before);
    bool has_child = waitpid(-1, NULL, WNOHANG) >= 0 || errno != ECHILD;
    printf(has_child ? "a child is left\n" : "no child\n");
    return 0;
}
