/* Lines of text over TCP. Nothing waits but lines_wait, and a connection to another service for a tenth of a second. */
#ifndef LINES_H
#define LINES_H

struct lines;
struct connection;

/* Called with each line of a connection, and with NULL at its end. */
typedef void heard_function(void *context, struct connection *from, const char *line);

/* HOST:PORT, digits. NULL: nothing can listen there. */
struct lines *lines_listen(const char *address, heard_function *heard, void *context);

/* Sends a line to another service. The end comes at once where nobody listens. */
void lines_ask(struct lines *lines, const char *address, const char *line, heard_function *heard, void *context);

/* Waits until a line or something of the other descriptor has come, and takes the lines. -1 is no descriptor. */
void lines_wait(struct lines *lines, int milliseconds, int other);

/* Sends a line. Whoever does not read is dropped, and never waited for. */
void connection_say(struct connection *connection, const char *line);

/* Ends a connection. Its end is heard within this call. */
void connection_close(struct connection *connection);

#endif
