/* What the clients of wozgirt-server for C and C++ share: a socket with deadlines, and the lines of the server. Programs include
 * wozgirt_lock.h or wozgirt_session.h. Times are milliseconds of the monotonic clock; INT64_MAX is never. No function here
 * allocates or keeps anything outside of its arguments. */
#ifndef WOZGIRT_CONNECTION_H
#define WOZGIRT_CONNECTION_H
#if defined(__STRICT_ANSI__) && !defined(_POSIX_C_SOURCE) && !defined(_DEFAULT_SOURCE) && !defined(_GNU_SOURCE)
#define _POSIX_C_SOURCE 200809L
#endif
#include <errno.h>
#include <fcntl.h>
#include <inttypes.h>
#include <poll.h>
#include <stdint.h>
#include <stdio.h>
#include <string.h>
#include <sys/socket.h>
#include <time.h>
#include <unistd.h>
#ifdef __cplusplus
extern "C" {
#endif

/* What a client asks. An acquire and a try have a label, a release has a token; a ping and a leave name no lock. */
enum wozgirt_lock_verb {
    WOZGIRT_LOCK_NOTHING,
    WOZGIRT_LOCK_ACQUIRE,
    WOZGIRT_LOCK_TRY,
    WOZGIRT_LOCK_RELEASE,
    WOZGIRT_LOCK_CANCEL,
    WOZGIRT_LOCK_PING,
    WOZGIRT_LOCK_LEAVE
};

/* What a line is to a question. */
enum wozgirt_lock_answer {
    WOZGIRT_LOCK_OTHER,   /* no answer to it */
    WOZGIRT_LOCK_YES,     /* granted, released, cancelled, pong, left */
    WOZGIRT_LOCK_NOT_YET, /* waiting, busy */
    WOZGIRT_LOCK_NO       /* refused */
};

enum { WOZGIRT_LOCK_LONGEST_NAME = 128, WOZGIRT_LOCK_LONGEST_LINE = 256 };

/* A client. Programs read only `line`. */
struct wozgirt_lock_client {
    int socket;
    pid_t owner;                          /* the process that opened it */
    volatile int asked;                   /* an enum wozgirt_lock_verb: what has no answer yet */
    int64_t patience;                     /* how long an answer may take that waits for no lock */
    size_t have;                          /* how much of `bytes` was read and is not in `line` */
    char line[WOZGIRT_LOCK_LONGEST_LINE]; /* the last line of the server */
    char bytes[1024];
};

/* Makes it a client of this process, without a connection. */
static inline void wozgirt_lock_begin(struct wozgirt_lock_client *client, int64_t patience)
{
    client->socket = -1;
    client->owner = getpid();
    client->asked = WOZGIRT_LOCK_NOTHING;
    client->patience = patience;
    client->have = 0;
    client->line[0] = '\0';
}

/* Ends the connection: what was held is free for others. It may be called again, and for a client of zeros. */
static inline void wozgirt_lock_close(struct wozgirt_lock_client *client)
{
    if (client->owner && client->socket >= 0) {
        if (client->owner == getpid())
            shutdown(client->socket, SHUT_RDWR); /* a child may have the socket, too */
        close(client->socket);
    }
    client->socket = -1;
    client->asked = WOZGIRT_LOCK_NOTHING;
    client->have = 0;
}

static inline int64_t wozgirt_lock_now(void)
{
    struct timespec time = {0, 0};
    clock_gettime(CLOCK_MONOTONIC, &time);
    return (int64_t)time.tv_sec * 1000 + time.tv_nsec / 1000000;
}

/* The time this many milliseconds from now (negative: never). */
static inline int64_t wozgirt_lock_after(int64_t milliseconds)
{
    int64_t now = wozgirt_lock_now();
    return milliseconds < 0 || milliseconds > INT64_MAX - now ? INT64_MAX : now + milliseconds;
}

static inline int64_t wozgirt_lock_earlier(int64_t one, int64_t other)
{
    return one < other ? one : other;
}

static inline int64_t wozgirt_lock_later(int64_t one, int64_t other)
{
    return one > other ? one : other;
}

/* Waits until the socket can be read (POLLIN) or written (POLLOUT): 1; 0 if it cannot until then; -1 with errno. */
static inline int wozgirt_lock_await(int file, int event, int64_t until)
{
    for (;;) {
        struct pollfd wait = {file, (short)event, 0};
        int64_t left = until - wozgirt_lock_now();
        int count = poll(&wait, 1, left <= 0 ? 0 : left < 60000 ? (int)left : 60000);
        if (count > 0)
            return 1;
        if (count < 0 && errno != EINTR)
            return -1;
        if (left <= 0)
            return 0;
    }
}

/* Connects a socket that does not block: 1, 0, -1 as above. A server whose queue is full is asked again and again. */
static inline int wozgirt_lock_connect(int file, const struct sockaddr *address, socklen_t size, int64_t until)
{
    while (connect(file, address, size) != 0) {
        if (errno == EINPROGRESS || errno == EALREADY) {
            int fault = 0, ready = wozgirt_lock_await(file, POLLOUT, until);
            socklen_t length = sizeof fault;
            if (ready != 1 || getsockopt(file, SOL_SOCKET, SO_ERROR, &fault, &length) != 0)
                return ready == 1 ? -1 : ready;
            errno = fault;
            return fault ? -1 : 1;
        }
        if (errno != EAGAIN && errno != EINTR)
            return -1;
        if (wozgirt_lock_now() >= until)
            return 0;
        poll(NULL, 0, 5);
    }
    return 1;
}

/* Sends all of it: 1, 0, -1 as above. If the other end has closed the connection, `wozgirt_lock_hear` reports it, after the lines
 * that the server sent before. */
static inline int wozgirt_lock_send(int file, const char *bytes, size_t length, int64_t until)
{
    while (length) {
        ssize_t sent = send(file, bytes, length, MSG_NOSIGNAL | MSG_DONTWAIT);
        if (sent < 0 && (errno == EPIPE || errno == ECONNRESET))
            return 1;
        int ready = sent >= 0 || errno == EINTR ? 1 : errno == EAGAIN ? wozgirt_lock_await(file, POLLOUT, until) : -1;
        if (ready != 1)
            return ready;
        bytes += sent > 0 ? sent : 0;
        length -= sent > 0 ? (size_t)sent : 0;
    }
    return 1;
}

/* Takes the next line out of what was read: whether there is one. */
static inline int wozgirt_lock_take(struct wozgirt_lock_client *client)
{
    char *end = (char *)memchr(client->bytes, '\n', client->have);
    size_t length = end ? (size_t)(end - client->bytes) : 0;
    if (!end || length >= sizeof client->line)
        return 0;
    memcpy(client->line, client->bytes, length);
    client->line[length] = '\0';
    client->have -= length + 1;
    memmove(client->bytes, end + 1, client->have);
    return 1;
}

/* The next line of the server, into `line`: 1, 0, -1 as above. */
static inline int wozgirt_lock_hear(struct wozgirt_lock_client *client, int64_t until)
{
    while (!wozgirt_lock_take(client)) {
        int is_too_long = client->have == sizeof client->bytes || memchr(client->bytes, '\n', client->have) != NULL;
        int ready = is_too_long ? -1 : wozgirt_lock_await(client->socket, POLLIN, until);
        if (is_too_long)
            errno = EPROTO;
        if (ready != 1)
            return ready;
        ssize_t got = recv(client->socket, client->bytes + client->have, sizeof client->bytes - client->have, MSG_DONTWAIT);
        if (got == 0)
            errno = ECONNRESET;
        if (got == 0 || (got < 0 && errno != EINTR && errno != EAGAIN))
            return -1;
        client->have += got > 0 ? (size_t)got : 0;
    }
    return 1;
}

/* Whether a lock may have this name: 1 to 128 ASCII letters, digits, '.', '_', '-' and '/'. */
static inline int wozgirt_lock_is_name(const char *name)
{
    size_t length = strspn(name, "ABCDEFGHIJKLMNOPQRSTUVWXYZabcdefghijklmnopqrstuvwxyz0123456789._-/");
    return !name[length] && length > 0 && length <= WOZGIRT_LOCK_LONGEST_NAME;
}

/* Writes a decimal, of at most 20 digits, without an end: its length. */
static inline size_t wozgirt_lock_decimal(char *text, uint64_t number)
{
    size_t length = 1;
    for (uint64_t rest = number; rest >= 10; rest /= 10)
        length++;
    for (size_t at = length; at-- > 0; number /= 10)
        text[at] = (char)('0' + number % 10);
    return length;
}

/* Whether the text is a decimal below 2^64, and nothing else. If not, `number` stays as it is. */
static inline int wozgirt_lock_number(const char *text, uint64_t *number)
{
    uint64_t value = 0;
    const char *at = text;
    for (; *at >= '0' && *at <= '9'; at++) {
        uint64_t digit = (uint64_t)(*at - '0');
        if (value > (UINT64_MAX - digit) / 10)
            return 0;
        value = value * 10 + digit;
    }
    if (at == text || *at)
        return 0;
    *number = value;
    return 1;
}

/* Writes a question, with the end of the line and nothing after it: its length. NAME is "" where no lock is named. */
static inline size_t wozgirt_lock_write(char *line, enum wozgirt_lock_verb verb, const char *name, uint64_t number)
{
    static const char *const words[] = {"", "acquire", "try", "release", "cancel", "ping", "leave"};
    size_t length = strlen(words[verb]), rest = strlen(name);
    memcpy(line, words[verb], length);
    if (rest) {
        line[length] = ' ';
        memcpy(line + length + 1, name, rest);
        length += rest + 1;
    }
    if (verb == WOZGIRT_LOCK_ACQUIRE || verb == WOZGIRT_LOCK_TRY || verb == WOZGIRT_LOCK_RELEASE) {
        line[length++] = ' ';
        length += wozgirt_lock_decimal(line + length, number);
    }
    line[length++] = '\n';
    return length;
}

/* Whether a line is this word, the name if that is not "", the number if one is asked for, and nothing else. */
static inline int wozgirt_lock_says(const char *line, const char *word, const char *name, uint64_t *number)
{
    size_t first = strlen(word), second = strlen(name);
    if (strncmp(line, word, first) != 0)
        return 0;
    line += first;
    if (second && (*line != ' ' || strncmp(line + 1, name, second) != 0))
        return 0;
    line += second ? second + 1 : 0;
    return number ? *line == ' ' && wozgirt_lock_number(line + 1, number) : !*line;
}

/* Takes these last characters away from a line that ends with them. */
static inline void wozgirt_lock_drop(char *line, const char *end)
{
    size_t length = strlen(line), count = strlen(end);
    if (length >= count && strcmp(line + length - count, end) == 0)
        line[length - count] = '\0';
}

/* Whether the rules forbid by now to wait for the lock: this comes after `waiting`, and nothing waits for it any more. */
static inline int wozgirt_lock_denies(const char *line, const char *name)
{
    static const char denial[] = "refused permission ";
    return strncmp(line, denial, sizeof denial - 1) == 0 && strcmp(line + sizeof denial - 1, name) == 0;
}

/* What a line answers to this question. The token is written where a lock is granted. */
static inline enum wozgirt_lock_answer wozgirt_lock_read(const char *line, enum wozgirt_lock_verb verb, const char *name,
                                                         uint64_t *token)
{
    static const char *const yes[] = {"", "granted", "granted", "released", "cancelled", "pong", "left"};
    const int is_for_token = verb == WOZGIRT_LOCK_ACQUIRE || verb == WOZGIRT_LOCK_TRY;
    const char *of = strncmp(line, "refused ", 8) == 0 ? strchr(line + 8, ' ') : NULL;
    uint64_t before;
    if (wozgirt_lock_says(line, yes[verb], name, is_for_token ? token : NULL))
        return WOZGIRT_LOCK_YES;
    if (verb == WOZGIRT_LOCK_ACQUIRE && wozgirt_lock_says(line, "waiting", name, &before))
        return WOZGIRT_LOCK_NOT_YET;
    if (verb == WOZGIRT_LOCK_TRY && wozgirt_lock_says(line, "busy", name, NULL))
        return WOZGIRT_LOCK_NOT_YET;
    if (strncmp(line, "refused ", 8) == 0 && (!of || strcmp(of + 1, name) == 0))
        return WOZGIRT_LOCK_NO;
    return WOZGIRT_LOCK_OTHER;
}

#ifdef __cplusplus
}
#endif
#endif
