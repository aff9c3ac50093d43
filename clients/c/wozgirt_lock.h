/* A client of wozgirt-server for C and C++: locks that programs share, over a Unix socket. This header and wozgirt_connection.h are
 * all of it; no library is linked. docs/CLIENTS.md says what a hold is, and what a token is for. This is tested, not proved; it
 * makes no locking decisions.
 *
 *     struct wozgirt_lock_client client;
 *     uint64_t token;
 *     if (wozgirt_lock_open(&client, "/run/wozgirt/lock.sock") == WOZGIRT_LOCK_DONE) {
 *         if (wozgirt_lock_acquire(&client, "deploy", 0, 5000, &token) == WOZGIRT_LOCK_DONE) {
 *             write_with(token);
 *             wozgirt_lock_release(&client, "deploy", token);
 *         }
 *         wozgirt_lock_close(&client);
 *     }
 *
 * Threads that share a client hold a mutex around each call. This client asks for no lease. Where the server gives one to all
 * (--lease-for-all, and each server that shares a log with others by --etcd), call `wozgirt_lock_check` each quarter of it. With
 * -std=c11 include this header before the system's.
 *
 * Each call ends within 0.2 s of its deadline, whether the server answers or not. An answer to something else than what was asked
 * ends the connection. A signal whose handler returns ends no call. If a handler leaves a call by siglongjmp(), or the thread is
 * cancelled in it, the next call ends the connection. After fork() a child opens a client of its own: of its parent's it can only
 * close its copy, which the server does not notice. */
#ifndef WOZGIRT_LOCK_H
#define WOZGIRT_LOCK_H
#include "wozgirt_connection.h"
#include <sys/un.h>
#ifdef __cplusplus
extern "C" {
#endif

enum wozgirt_lock_result {
    WOZGIRT_LOCK_DONE = 0,    /* granted, released, heard, connected */
    WOZGIRT_LOCK_LATE = 1,    /* the lock was not granted in time, and nothing waits for it */
    WOZGIRT_LOCK_REFUSED = 2, /* `line` of the client is `refused` and the reason; nothing has changed */
    WOZGIRT_LOCK_LOST = 3,    /* the connection is closed, and so all that was held is lost: others may have it. errno says why:
                                 ETIMEDOUT if no answer came in time, EPROTO if it was one to something else, ECANCELED if a call was
                                 left in its middle, ENOTCONN if it was closed before */
    WOZGIRT_LOCK_NAME = 4,    /* a lock's name has 1 to 128 letters, digits, '.', '_', '-' and '/', and a socket's fits its struct */
    WOZGIRT_LOCK_CHILD = 5,   /* another process opened this, or none: nothing was done */
    WOZGIRT_LOCK_SILENT = 6   /* only of a session: see wozgirt_session.h */
};

/* In milliseconds: the deadline of a call that does not wait for a lock, and of the first answer to one that does; and how long
 * after the deadline of a wait the server may take to withdraw it. */
enum { WOZGIRT_LOCK_PATIENCE = 10000, WOZGIRT_LOCK_WITHDRAWAL = 150 };

static inline int wozgirt_lock_lose(struct wozgirt_lock_client *client, int why)
{
    wozgirt_lock_close(client);
    errno = why;
    return WOZGIRT_LOCK_LOST;
}

/* Connects to the server at this path within this many milliseconds (negative: for ever), which for this client replace
 * WOZGIRT_LOCK_PATIENCE. With WOZGIRT_LOCK_LOST errno says why not. */
static inline int wozgirt_lock_open_within(struct wozgirt_lock_client *client, const char *path, int64_t milliseconds)
{
    struct sockaddr_un address;
    int64_t until = wozgirt_lock_after(milliseconds);
    memset(&address, 0, sizeof address);
    wozgirt_lock_begin(client, milliseconds);
    if (strlen(path) >= sizeof address.sun_path)
        return WOZGIRT_LOCK_NAME;
    address.sun_family = AF_UNIX;
    memcpy(address.sun_path, path, strlen(path));
    client->socket = socket(AF_UNIX, SOCK_STREAM | SOCK_CLOEXEC | SOCK_NONBLOCK, 0);
    if (client->socket < 0)
        return wozgirt_lock_lose(client, errno);
    int ready = wozgirt_lock_connect(client->socket, (struct sockaddr *)&address, sizeof address, until);
    return ready == 1 ? WOZGIRT_LOCK_DONE : wozgirt_lock_lose(client, ready ? errno : ETIMEDOUT);
}

static inline int wozgirt_lock_open(struct wozgirt_lock_client *client, const char *path)
{
    return wozgirt_lock_open_within(client, path, WOZGIRT_LOCK_PATIENCE);
}

/* Whether a question may be asked: not by a child, nor as long as the answer to another one may come. */
static inline int wozgirt_lock_enter(struct wozgirt_lock_client *client)
{
    if (client->owner != getpid())
        return WOZGIRT_LOCK_CHILD;
    if (client->socket < 0)
        return wozgirt_lock_lose(client, ENOTCONN);
    if (client->asked || client->have)
        return wozgirt_lock_lose(client, client->asked ? ECANCELED : EPROTO);
    return WOZGIRT_LOCK_DONE;
}

static inline int wozgirt_lock_say(struct wozgirt_lock_client *client, enum wozgirt_lock_verb verb, const char *name, uint64_t number,
                                   int64_t until)
{
    char line[WOZGIRT_LOCK_LONGEST_LINE];
    client->asked = (int)verb;
    int ready = wozgirt_lock_send(client->socket, line, wozgirt_lock_write(line, verb, name, number), until);
    return ready == 1 ? WOZGIRT_LOCK_DONE : wozgirt_lock_lose(client, ready ? errno : ETIMEDOUT);
}

/* Reads the answer to this question; WOZGIRT_LOCK_LATE if none comes until then. */
static inline int wozgirt_lock_listen(struct wozgirt_lock_client *client, enum wozgirt_lock_verb verb, const char *name, int64_t until,
                                      enum wozgirt_lock_answer *answer, uint64_t *token)
{
    int ready = wozgirt_lock_hear(client, until);
    if (ready != 1)
        return ready ? wozgirt_lock_lose(client, errno) : WOZGIRT_LOCK_LATE;
    *answer = wozgirt_lock_read(client->line, verb, name, token);
    return *answer ? WOZGIRT_LOCK_DONE : wozgirt_lock_lose(client, EPROTO);
}

/* Asks a question that waits for no lock, and reads the answer. */
static inline int wozgirt_lock_ask(struct wozgirt_lock_client *client, enum wozgirt_lock_verb verb, const char *name, uint64_t number,
                                   uint64_t *token)
{
    int64_t until = wozgirt_lock_after(client->patience);
    enum wozgirt_lock_answer answer = WOZGIRT_LOCK_OTHER;
    int result = wozgirt_lock_enter(client);
    if (result == WOZGIRT_LOCK_DONE)
        result = wozgirt_lock_say(client, verb, name, number, until);
    if (result == WOZGIRT_LOCK_DONE)
        result = wozgirt_lock_listen(client, verb, name, until, &answer, token);
    if (result != WOZGIRT_LOCK_DONE)
        return result == WOZGIRT_LOCK_LATE ? wozgirt_lock_lose(client, ETIMEDOUT) : result;
    client->asked = WOZGIRT_LOCK_NOTHING;
    return answer == WOZGIRT_LOCK_NOT_YET ? WOZGIRT_LOCK_LATE : answer == WOZGIRT_LOCK_YES ? WOZGIRT_LOCK_DONE : WOZGIRT_LOCK_REFUSED;
}

/* Withdraws an acquire, to which the server has given `answer` so far: two more lines are missing, or one. */
static inline int wozgirt_lock_withdraw(struct wozgirt_lock_client *client, const char *name, enum wozgirt_lock_answer answer,
                                        int64_t until, uint64_t *token)
{
    int result = wozgirt_lock_say(client, WOZGIRT_LOCK_CANCEL, name, 0, until);
    while (result == WOZGIRT_LOCK_DONE) {
        int ready = wozgirt_lock_hear(client, until);
        if (ready != 1)
            return wozgirt_lock_lose(client, ready ? errno : ETIMEDOUT);
        enum wozgirt_lock_answer first = wozgirt_lock_read(client->line, WOZGIRT_LOCK_ACQUIRE, name, token);
        enum wozgirt_lock_answer second = wozgirt_lock_read(client->line, WOZGIRT_LOCK_CANCEL, name, NULL);
        const int ends = first == WOZGIRT_LOCK_YES || wozgirt_lock_denies(client->line, name);
        if ((answer == WOZGIRT_LOCK_OTHER && first) || (answer == WOZGIRT_LOCK_NOT_YET && ends)) {
            answer = first;
            continue;
        }
        if (second != (answer == WOZGIRT_LOCK_NOT_YET ? WOZGIRT_LOCK_YES : WOZGIRT_LOCK_NO))
            return wozgirt_lock_lose(client, EPROTO);
        client->asked = WOZGIRT_LOCK_NOTHING;
        return answer == WOZGIRT_LOCK_YES ? WOZGIRT_LOCK_DONE : WOZGIRT_LOCK_LATE;
    }
    return result;
}

/* Asks for a lock, and waits for it this many milliseconds (0: not at all; negative: for ever). With WOZGIRT_LOCK_DONE it is held,
 * and the token is greater than all earlier tokens of this lock. If the server does not answer in time, the result is
 * WOZGIRT_LOCK_LOST, and this client has lost all that it held. The journal keeps the label. */
static inline int wozgirt_lock_acquire(struct wozgirt_lock_client *client, const char *name, uint64_t label, int64_t wait,
                                       uint64_t *token)
{
    int64_t until = wozgirt_lock_after(wait), first = wozgirt_lock_earlier(until, wozgirt_lock_after(client->patience));
    enum wozgirt_lock_answer answer = WOZGIRT_LOCK_OTHER;
    if (!wozgirt_lock_is_name(name))
        return WOZGIRT_LOCK_NAME;
    if (wait == 0)
        return wozgirt_lock_ask(client, WOZGIRT_LOCK_TRY, name, label, token);
    int result = wozgirt_lock_enter(client);
    if (result == WOZGIRT_LOCK_DONE)
        result = wozgirt_lock_say(client, WOZGIRT_LOCK_ACQUIRE, name, label, first);
    if (result == WOZGIRT_LOCK_DONE)
        result = wozgirt_lock_listen(client, WOZGIRT_LOCK_ACQUIRE, name, first, &answer, token);
    if (result == WOZGIRT_LOCK_LATE && first < until)
        return wozgirt_lock_lose(client, ETIMEDOUT);
    if (result == WOZGIRT_LOCK_DONE && answer == WOZGIRT_LOCK_NOT_YET) {
        result = wozgirt_lock_listen(client, WOZGIRT_LOCK_ACQUIRE, name, until, &answer, token);
        if (result == WOZGIRT_LOCK_DONE && answer != WOZGIRT_LOCK_YES && !wozgirt_lock_denies(client->line, name))
            return wozgirt_lock_lose(client, EPROTO);
    }
    if (result != WOZGIRT_LOCK_DONE)
        return result == WOZGIRT_LOCK_LATE ? wozgirt_lock_withdraw(client, name, answer, until + WOZGIRT_LOCK_WITHDRAWAL, token) : result;
    client->asked = WOZGIRT_LOCK_NOTHING;
    return answer == WOZGIRT_LOCK_YES ? WOZGIRT_LOCK_DONE : WOZGIRT_LOCK_REFUSED;
}

/* Ends the hold with this token. */
static inline int wozgirt_lock_release(struct wozgirt_lock_client *client, const char *name, uint64_t token)
{
    return wozgirt_lock_is_name(name) ? wozgirt_lock_ask(client, WOZGIRT_LOCK_RELEASE, name, token, NULL) : WOZGIRT_LOCK_NAME;
}

/* Asks whether the server still has this client: with WOZGIRT_LOCK_LOST others may hold what it held. */
static inline int wozgirt_lock_check(struct wozgirt_lock_client *client)
{
    return wozgirt_lock_ask(client, WOZGIRT_LOCK_PING, "", 0, NULL);
}

#ifdef __cplusplus
}
#endif
#endif
