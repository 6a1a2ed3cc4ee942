#define _POSIX_C_SOURCE 200809L
#include "lines.h"

#include <arpa/inet.h>
#include <errno.h>
#include <netinet/in.h>
#include <netinet/tcp.h>
#include <poll.h>
#include <stdbool.h>
#include <stdio.h>
#include <stdlib.h>
#include <string.h>
#include <sys/socket.h>
#include <sys/time.h>
#include <unistd.h>

enum { MAX_CONNECTIONS = 64, MAX_LINE = 65536 }; /* whoever sends more bytes without a line feed is dropped */

struct connection {
    int socket; /* -1: this place is free */
    heard_function *heard;
    void *context;
    size_t size; /* of what is unread */
    char unread[MAX_LINE + 1];
};

struct lines {
    int listener;
    heard_function *heard;
    void *context;
    struct connection connections[MAX_CONNECTIONS];
};

static bool read_address(const char *text, struct sockaddr_in *address)
{
    char host[64];
    const char *colon = strrchr(text, ':');
    if (colon == NULL || (size_t)(colon - text) >= sizeof host)
        return false;
    memcpy(host, text, (size_t)(colon - text));
    host[colon - text] = '\0';
    *address = (struct sockaddr_in){.sin_family = AF_INET, .sin_port = htons((uint16_t)atoi(colon + 1))};
    return inet_pton(AF_INET, host, &address->sin_addr) == 1;
}

struct lines *lines_listen(const char *address, heard_function *heard, void *context)
{
    struct sockaddr_in at;
    struct lines *lines = calloc(1, sizeof *lines);
    int one = 1;
    if (lines == NULL || !read_address(address, &at))
        return NULL;
    *lines = (struct lines){.listener = socket(AF_INET, SOCK_STREAM, 0), .heard = heard, .context = context};
    for (size_t i = 0; i < MAX_CONNECTIONS; i++)
        lines->connections[i].socket = -1;
    setsockopt(lines->listener, SOL_SOCKET, SO_REUSEADDR, &one, sizeof one);
    if (bind(lines->listener, (struct sockaddr *)&at, sizeof at) != 0 || listen(lines->listener, 64) != 0)
        return NULL;
    return lines;
}

/* Takes the socket, and closes it where there is no place. */
static struct connection *add(struct lines *lines, int socket, heard_function *heard, void *context)
{
    int one = 1;
    setsockopt(socket, IPPROTO_TCP, TCP_NODELAY, &one, sizeof one);
    for (size_t i = 0; i < MAX_CONNECTIONS; i++) {
        struct connection *it = &lines->connections[i];
        if (it->socket < 0) {
            it->socket = socket;
            it->heard = heard;
            it->context = context;
            it->size = 0;
            return it;
        }
    }
    close(socket);
    return NULL;
}

void connection_close(struct connection *connection)
{
    if (connection->socket < 0)
        return;
    close(connection->socket);
    connection->socket = -1;
    connection->heard(connection->context, connection, NULL);
}

void connection_say(struct connection *connection, const char *line)
{
    struct iovec parts[2] = {{(void *)line, strlen(line)}, {"\n", 1}};
    struct msghdr message = {.msg_iov = parts, .msg_iovlen = 2};
    ssize_t whole = (ssize_t)parts[0].iov_len + 1;
    if (connection->socket >= 0 && sendmsg(connection->socket, &message, MSG_DONTWAIT | MSG_NOSIGNAL) < whole)
        connection_close(connection);
}

void lines_ask(struct lines *lines, const char *address, const char *line, heard_function *heard, void *context)
{
    struct sockaddr_in at;
    struct timeval tenth = {0, 100000}; /* it bounds how long a connection may take */
    struct connection *made = NULL;
    int it = socket(AF_INET, SOCK_STREAM, 0);
    if (it >= 0 && setsockopt(it, SOL_SOCKET, SO_SNDTIMEO, &tenth, sizeof tenth) == 0 && read_address(address, &at) &&
        connect(it, (struct sockaddr *)&at, sizeof at) == 0)
        made = add(lines, it, heard, context);
    else if (it >= 0)
        close(it);
    if (made == NULL)
        heard(context, NULL, NULL);
    else
        connection_say(made, line);
}

/* Takes what has come on a connection. */
static void take(struct connection *it)
{
    ssize_t count = recv(it->socket, it->unread + it->size, MAX_LINE - it->size, MSG_DONTWAIT);
    if (count <= 0) {
        if (count == 0 || (errno != EAGAIN && errno != EINTR))
            connection_close(it);
        return;
    }
    it->size += (size_t)count;
    char *begin = it->unread, *feed;
    while (it->socket >= 0 && (feed = memchr(begin, '\n', it->size - (size_t)(begin - it->unread))) != NULL) {
        *feed = '\0';
        it->heard(it->context, it, begin);
        begin = feed + 1;
    }
    it->size -= (size_t)(begin - it->unread);
    memmove(it->unread, begin, it->size);
    if (it->size >= MAX_LINE)
        connection_close(it);
}

void lines_wait(struct lines *lines, int milliseconds, int other)
{
    struct pollfd ready[MAX_CONNECTIONS + 2];
    for (size_t i = 0; i < MAX_CONNECTIONS; i++)
        ready[i] = (struct pollfd){lines->connections[i].socket, POLLIN, 0};
    ready[MAX_CONNECTIONS] = (struct pollfd){lines->listener, POLLIN, 0};
    ready[MAX_CONNECTIONS + 1] = (struct pollfd){other, POLLIN, 0};
    if (poll(ready, MAX_CONNECTIONS + 2, milliseconds) <= 0)
        return;
    for (size_t i = 0; i < MAX_CONNECTIONS; i++)
        if (ready[i].revents != 0 && lines->connections[i].socket == ready[i].fd)
            take(&lines->connections[i]);
    if (ready[MAX_CONNECTIONS].revents != 0) {
        int accepted = accept(lines->listener, NULL, NULL);
        if (accepted >= 0)
            add(lines, accepted, lines->heard, lines->context);
    }
}
