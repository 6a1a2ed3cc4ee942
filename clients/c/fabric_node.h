/* A service beside its node: starts `fabricd node N FILE --parent`, and speaks protocol 1 with it.
 *
 * One thread makes a node and makes all its calls. Handlers run in that thread, within ask, write, log, holds, leads,
 * poll and close. Handlers may call everything but poll. README.md beside this folder says more. */
#ifndef FABRIC_NODE_H
#define FABRIC_NODE_H

#include <stdbool.h>
#include <stddef.h>
#include <stdint.h>

#ifdef __cplusplus
extern "C" {
#endif

enum fabric_node_error {
    FABRIC_NODE_OK,
    FABRIC_NODE_REFUSED,  /* the answer has a report `refused`; fabric_node_reason says why */
    FABRIC_NODE_LATE,     /* the time of the answer has passed: a write may be committed or not */
    FABRIC_NODE_UNKNOWN,  /* nobody knows what became of the line, or the child ended before its `done` */
    FABRIC_NODE_BUSY,     /* as many answers are open as the child may have */
    FABRIC_NODE_NOSUCH,   /* the line names a node that is not configured, or the own one */
    FABRIC_NODE_LINE,     /* the line is not of the grammar, or a number or a text is out of range */
    FABRIC_NODE_LARGE,    /* the line and its tag have more than 4,096 bytes */
    FABRIC_NODE_ENDED,    /* no child runs: nothing was sent */
    FABRIC_NODE_START,    /* the first start failed */
    FABRIC_NODE_PROTOCOL, /* at the first start: the child speaks another protocol */
    FABRIC_NODE_JUNK,     /* at the first start: the child's first line is none */
    FABRIC_NODE_FOLDER,   /* this process has a node for the folder already */
    FABRIC_NODE_HANDLER,  /* a handler failed; the child has ended, so what was asked is unknown */
    FABRIC_NODE_MISUSE,   /* a handler is missing, there are no words, poll in a handler, or another thread */
    FABRIC_NODE_MEMORY    /* no memory; a child that runs has ended, if a line of it found none */
};

enum { FABRIC_NODE_MAX_TEXT = 512, FABRIC_NODE_MAX_FAULT = 200 };

struct fabric_node;

/* Both points belong to the range. */
struct fabric_node_range {
    uint64_t lo, hi;
};

struct fabric_node_epoch {
    uint32_t data_loss, configuration;
};

/* All six are needed. A handler returns 0 once it has done what it is called for. If it returns another value, no `done`
 * is said and the child is ended; then `lost` is called. If that fails too, no child is started any more. */
struct fabric_node_handlers {
    void *context;
    int (*gained)(void *context, const struct fabric_node_range *ranges, size_t count);
    int (*losing)(void *context, const struct fabric_node_range *ranges, size_t count);
    int (*lost)(void *context);
    int (*primary)(void *context, uint16_t partition, struct fabric_node_epoch epoch);
    int (*promised)(void *context, uint16_t partition, struct fabric_node_epoch epoch);
    int (*committed)(void *context, uint16_t partition, struct fabric_node_epoch epoch, uint32_t lsn);
};

/* The words of each line of an answer, without the tag. */
struct fabric_node_answer {
    size_t count;
    char **lines;
};

struct fabric_node_entry {
    struct fabric_node_epoch epoch;
    uint32_t lsn;
    uint16_t size;
    char text[FABRIC_NODE_MAX_TEXT + 1]; /* `size` bytes, and a zero byte behind them */
};

struct fabric_node_entries {
    size_t count;
    struct fabric_node_entry *items;
};

struct fabric_node_failure {
    enum fabric_node_error error;
    char text[FABRIC_NODE_MAX_FAULT + 1];
};

/* Starts the child with these words, the last one followed by NULL, and waits for its first line. On failure the result is
 * NULL and `failure`, unless it is NULL, says why. */
struct fabric_node *fabric_node_start(const char *const words[], const struct fabric_node_handlers *handlers,
                                      struct fabric_node_failure *failure);

/* Sends one request, and returns at its `done`. The answer is filled also for an error that the answer says. Free it in
 * each case. */
enum fabric_node_error fabric_node_ask(struct fabric_node *node, const char *line, struct fabric_node_answer *answer);
void fabric_node_free_answer(struct fabric_node_answer *answer);

/* Adds an entry of 1 to 512 bytes, and gives its number once it is committed. */
enum fabric_node_error fabric_node_write(struct fabric_node *node, uint16_t partition, const char *text, uint32_t *lsn);

/* The entries of the own replica from the number `first` on, 1 to 100,000. Free them in each case. */
enum fabric_node_error fabric_node_log(struct fabric_node *node, uint16_t partition, uint32_t first,
                                       struct fabric_node_entries *entries);
void fabric_node_free_entries(struct fabric_node_entries *entries);

/* For how many seconds from now on the point may be served; 0 if it is not held, and on each error. */
enum fabric_node_error fabric_node_holds(struct fabric_node *node, uint64_t point, double *seconds);

/* Whether the own replica is primary, and of which epoch. False on each error. */
enum fabric_node_error fabric_node_leads(struct fabric_node *node, uint16_t partition, bool *leads,
                                         struct fabric_node_epoch *epoch);

/* Calls the handlers of what has come. Returns once anything happened, after so many milliseconds at the latest. It alone
 * starts a child again. */
enum fabric_node_error fabric_node_poll(struct fabric_node *node, int milliseconds);

/* What to wait for, beside others, between two polls: readable once lines have come. -1 if no child runs. The next child
 * has another one. Poll before each wait, since lines may have been read along with an answer. */
int fabric_node_descriptor(const struct fabric_node *node);

/* Closes the child's standard input, waits for its end, and frees the node. In a handler it is freed when the call that
 * runs the handler returns, so it must not be used behind that. */
enum fabric_node_error fabric_node_close(struct fabric_node *node);

/* Why the last child ended: its fault line, its status, or what it did wrong. Empty before that. */
const char *fabric_node_fault(const struct fabric_node *node);

/* What was refused and why, as `write notprimary`, if the last call that asked ended with REFUSED; else empty. */
const char *fabric_node_reason(const struct fabric_node *node);

/* The name of an error, as the Python client has it: `refused`, `late` .. */
const char *fabric_node_error_name(enum fabric_node_error error);

#ifdef __cplusplus
}
#endif

#endif
