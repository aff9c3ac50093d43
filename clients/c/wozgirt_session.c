/* The session of wozgirt_session.h, where it is described. That header includes this file; or it is compiled by itself, and linked.
 *
 * Each question has a number, and is done once, so the session asks the next server again until there is an answer. A call that breaks
 * off, at its deadline or by a jump out of it, leaves a `leave` without an answer: the next call waits for that answer first. */
#ifndef WOZGIRT_SESSION_H
#ifndef WOZGIRT_SESSION_LINKED
#define WOZGIRT_SESSION_LINKED
#endif
#include "wozgirt_session.h"
#endif
#include <netdb.h>
#include <netinet/in.h>
#include <netinet/tcp.h>
#ifdef __cplusplus
extern "C" {
#endif

enum {
    WOZGIRT_SESSION_CONNECT = 2000, /* in milliseconds: how long one server may take to be there, */
    WOZGIRT_SESSION_ANSWER = 5000,  /* and to say how the session is; */
    WOZGIRT_SESSION_FIRST = 10000,  /* how long all are tried at first; */
    WOZGIRT_SESSION_PAUSE = 50,     /* the pause until they are tried again; */
    WOZGIRT_SESSION_LEAVE = 1000,   /* how long a close may take */
    WOZGIRT_SESSION_PARTS = 8       /* after this part of its lease a session speaks, and after another one leaves the server */
};

/* The end of a place: the comma before the next one, or the end of the text. */
static inline size_t wozgirt_session_behind(const char *servers, size_t at)
{
    while (servers[at] && !(servers[at] == ',' && (strncmp(servers + at + 1, "tcp:", 4) == 0 || servers[at + 1] == '/' ||
                                                   strncmp(servers + at + 1, "./", 2) == 0)))
        at++;
    return at;
}

/* A socket that is connected to one of these addresses, or -1. */
static inline int wozgirt_session_reach(const struct addrinfo *all, int64_t until)
{
    const int yes = 1;
    for (const struct addrinfo *it = all; it; it = it->ai_next) {
        int64_t end = wozgirt_lock_earlier(until, wozgirt_lock_after(WOZGIRT_SESSION_CONNECT));
        int file = socket(it->ai_family, SOCK_STREAM | SOCK_CLOEXEC | SOCK_NONBLOCK, 0);
        if (file >= 0 && wozgirt_lock_connect(file, it->ai_addr, it->ai_addrlen, end) == 1) {
            setsockopt(file, IPPROTO_TCP, TCP_NODELAY, &yes, sizeof yes);
            return file;
        }
        if (file >= 0)
            close(file);
    }
    return -1;
}

/* A socket that is connected to HOST:PORT, or -1. */
static inline int wozgirt_session_tcp(char *host, int64_t until)
{
    struct addrinfo hints, *all = NULL;
    char *port = strrchr(host, ':');
    memset(&hints, 0, sizeof hints);
    hints.ai_socktype = SOCK_STREAM;
    if (!port || port == host)
        return -1;
    *port = '\0';
    if (*host == '[' && port[-1] == ']') {
        port[-1] = '\0';
        host++;
    }
    if (getaddrinfo(host, port + 1, &hints, &all) != 0)
        return -1;
    int file = wozgirt_session_reach(all, until);
    freeaddrinfo(all);
    return file;
}

/* Connects to the next server of the text: whether it is there. */
static inline int wozgirt_session_connect(struct wozgirt_session *it, int64_t until)
{
    char place[sizeof it->servers];
    size_t end = wozgirt_session_behind(it->servers, it->at), length = end - it->at;
    memcpy(place, it->servers + it->at, length);
    place[length] = '\0';
    it->at = it->servers[end] ? end + 1 : 0;
    if (strncmp(place, "tcp:", 4) != 0) {
        int64_t left = wozgirt_lock_earlier(until - wozgirt_lock_now(), WOZGIRT_SESSION_CONNECT);
        return wozgirt_lock_open_within(&it->client, place, left > 0 ? left : 0) == WOZGIRT_LOCK_DONE;
    }
    wozgirt_lock_begin(&it->client, 0);
    it->client.socket = wozgirt_session_tcp(place + 4, until);
    return it->client.socket >= 0;
}

/* Sends a line, if there is a server; one that does not take it in time is lost, and the next one gets it. */
static inline void wozgirt_session_say(struct wozgirt_session *it, const char *line, size_t length, int64_t until)
{
    int64_t end = wozgirt_lock_earlier(until, wozgirt_lock_after(it->lease / WOZGIRT_SESSION_PARTS));
    if (it->client.socket >= 0 && wozgirt_lock_send(it->client.socket, line, length, end) != 1)
        wozgirt_lock_close(&it->client);
}

/* Sends `WORD NUMBER`. */
static inline void wozgirt_session_tell(struct wozgirt_session *it, const char *word, uint64_t number, int64_t until)
{
    char line[WOZGIRT_LOCK_LONGEST_LINE];
    size_t length = strlen(word);
    memcpy(line, word, length);
    line[length++] = ' ';
    length += wozgirt_lock_decimal(line + length, number);
    line[length++] = '\n';
    wozgirt_session_say(it, line, length, until);
}

/* Sends what has no answer yet, with its number. */
static inline void wozgirt_session_repeat(struct wozgirt_session *it, int64_t until)
{
    char line[WOZGIRT_LOCK_LONGEST_LINE];
    size_t length = wozgirt_lock_decimal(line, it->number);
    line[length++] = ' ';
    length += wozgirt_lock_write(line + length, it->asked, it->asked_name, it->asked_number);
    it->asked_at = wozgirt_lock_now();
    wozgirt_session_say(it, line, length, until);
}

static inline int wozgirt_session_lose(struct wozgirt_session *it, int why)
{
    it->is_lost = 1;
    it->is_waiting = 0;
    it->token = 0;
    it->asked = WOZGIRT_LOCK_NOTHING;
    return wozgirt_lock_lose(&it->client, why);
}

/* Waits until the servers may be tried again. */
static inline void wozgirt_session_pause(int64_t until)
{
    int64_t left = wozgirt_lock_earlier(until - wozgirt_lock_now(), WOZGIRT_SESSION_PAUSE);
    poll(NULL, 0, left > 0 ? (int)left : 0);
}

/* Ends the connection to a server that says what no lock server says; the session does not ask it again at once. */
static inline void wozgirt_session_shun(struct wozgirt_session *it, int64_t until)
{
    wozgirt_lock_close(&it->client);
    wozgirt_session_pause(until);
}

/* Notes what the answer to the question says. */
static inline void wozgirt_session_answered(struct wozgirt_session *it, enum wozgirt_lock_answer answer, uint64_t token)
{
    switch (it->asked) {
    case WOZGIRT_LOCK_ACQUIRE:
    case WOZGIRT_LOCK_TRY:
        it->token = answer == WOZGIRT_LOCK_YES ? token : answer == WOZGIRT_LOCK_NOT_YET ? it->early : 0;
        it->is_waiting = it->asked == WOZGIRT_LOCK_ACQUIRE && answer == WOZGIRT_LOCK_NOT_YET && !it->early;
        break;
    case WOZGIRT_LOCK_RELEASE:
        it->token = answer == WOZGIRT_LOCK_YES ? 0 : it->token;
        break;
    case WOZGIRT_LOCK_CANCEL:
        it->is_waiting = 0; /* if it is refused, a grant came first, or the place is gone */
        break;
    default:
        break;
    }
    it->early = 0;
    it->is_refused = answer == WOZGIRT_LOCK_NO;
    it->spoken = wozgirt_lock_later(it->spoken, it->asked_at);
    it->asked = WOZGIRT_LOCK_NOTHING;
}

/* Notes a grant that has no number. One of a hold that is known, or that is given up, means nothing. */
static inline void wozgirt_session_granted(struct wozgirt_session *it, uint64_t token)
{
    if (token <= it->last || it->token)
        return;
    if (it->is_waiting)
        it->token = token;
    else if (it->asked == WOZGIRT_LOCK_ACQUIRE)
        it->early = token;
    it->is_waiting = 0;
}

/* Takes a line of the server: an answer, a grant, or the answer to a ping. */
static inline void wozgirt_session_take(struct wozgirt_session *it, int64_t until)
{
    char *line = it->client.line, *rest = strchr(line, ' ');
    uint64_t number = 0, token = 0;
    if (it->pinged && strcmp(line, "pong") == 0) {
        it->spoken = wozgirt_lock_later(it->spoken, it->pinged);
        it->pinged = 0;
    } else if (*it->name && wozgirt_lock_says(line, "granted", it->name, &token)) {
        wozgirt_session_granted(it, token);
    } else if (it->is_waiting && wozgirt_lock_denies(line, it->name)) {
        it->is_waiting = 0;
        it->is_refused = 1;
    } else {
        line[strcspn(line, " ")] = '\0';
        if (!rest || !wozgirt_lock_number(line, &number) || number > it->number) {
            wozgirt_session_shun(it, until);
        } else if (number == it->number && it->asked) {
            memmove(line, rest + 1, strlen(rest + 1) + 1);
            enum wozgirt_lock_answer answer = wozgirt_lock_read(line, it->asked, it->asked_name, &token);
            if (answer == WOZGIRT_LOCK_OTHER)
                wozgirt_session_shun(it, until);
            else
                wozgirt_session_answered(it, answer, token);
        }
    }
}

/* Reads how the session is: whether this server reports it. */
static inline int wozgirt_session_hear(struct wozgirt_session *it, uint64_t *holds, int *waits, int64_t until)
{
    char key[24];
    uint64_t count = 0;
    wozgirt_session_tell(it, "session", it->key, until);
    if (it->client.socket < 0 || wozgirt_lock_hear(&it->client, until) != 1)
        return 0;
    /* a server without etcd says `alone`, and is taken only if there is no other: its locks are not those of others */
    if (!it->servers[wozgirt_session_behind(it->servers, 0)])
        wozgirt_lock_drop(it->client.line, " alone");
    key[wozgirt_lock_decimal(key, it->key)] = '\0';
    if (!wozgirt_lock_says(it->client.line, "session", key, &count))
        return 0;
    for (; count; count--) {
        if (wozgirt_lock_now() > until || wozgirt_lock_hear(&it->client, until) != 1)
            return 0;
        if (*it->name) {
            wozgirt_lock_says(it->client.line, "holds", it->name, holds);
            *waits |= wozgirt_lock_says(it->client.line, "waits", it->name, NULL);
        }
    }
    return 1;
}

/* Notes what a server reports of the session: whether what was held or waited for is still there. */
static inline int wozgirt_session_is_kept(struct wozgirt_session *it, uint64_t holds, int waits)
{
    if (it->asked == WOZGIRT_LOCK_LEAVE)
        return 1;
    if (it->token && holds != it->token && (it->asked != WOZGIRT_LOCK_RELEASE || it->asked_number != it->token))
        return 0;
    if (it->is_waiting && !holds && !waits && it->asked != WOZGIRT_LOCK_CANCEL)
        return 0;
    if (it->is_waiting && holds) {
        it->is_waiting = 0;
        it->token = holds;
    } else if (!it->token && holds && it->asked == WOZGIRT_LOCK_ACQUIRE) {
        it->early = holds;
    }
    return 1;
}

/* Asks for the lease: whether there is one. */
static inline int wozgirt_session_borrow(struct wozgirt_session *it, int64_t until)
{
    uint64_t lease = 0;
    wozgirt_session_tell(it, "lease", (uint64_t)it->lease, until);
    while (it->client.socket >= 0 && wozgirt_lock_now() <= until && wozgirt_lock_hear(&it->client, until) == 1) {
        if (wozgirt_lock_says(it->client.line, "lease", "", &lease)) {
            it->lease = lease <= (uint64_t)it->lease ? (int64_t)lease : it->lease;
            return lease > 0;
        }
        wozgirt_session_take(it, until);
    }
    return 0;
}

/* Continues with the next server, if it answers until then: WOZGIRT_LOCK_LOST if what was held or waited for is gone. */
static inline int wozgirt_session_go_on(struct wozgirt_session *it, int64_t until)
{
    uint64_t holds = 0;
    int waits = 0;
    int64_t begun = wozgirt_lock_now();
    int is_there = wozgirt_session_connect(it, until);
    int64_t end = wozgirt_lock_earlier(until, wozgirt_lock_after(WOZGIRT_SESSION_ANSWER));
    is_there = is_there && wozgirt_session_hear(it, &holds, &waits, end);
    /* a grant may come from here on, so what the server reported is noted first */
    if (is_there && !wozgirt_session_is_kept(it, holds, waits))
        return wozgirt_session_lose(it, ESTALE);
    if (is_there && wozgirt_session_borrow(it, end)) {
        it->spoken = begun;
        it->pinged = 0;
        if (it->asked)
            wozgirt_session_repeat(it, until);
        return WOZGIRT_LOCK_DONE;
    }
    wozgirt_lock_close(&it->client);
    if (it->at == 0)
        wozgirt_session_pause(until);
    return WOZGIRT_LOCK_DONE;
}

/* Speaks if that is due, and leaves a server that is silent. */
static inline void wozgirt_session_speak(struct wozgirt_session *it, int64_t now, int64_t until)
{
    const int64_t part = it->lease / WOZGIRT_SESSION_PARTS;
    if (it->pinged && now >= it->pinged + part) {
        wozgirt_lock_close(&it->client);
    } else if (!it->pinged && now >= it->spoken + part) {
        it->pinged = now;
        wozgirt_session_say(it, "ping\n", 5, until);
    }
}

/* Waits for one event, and does what is due; WOZGIRT_LOCK_LATE if that time comes. */
static inline int wozgirt_session_step(struct wozgirt_session *it, int64_t until)
{
    const int64_t now = wozgirt_lock_now(), end = it->spoken + it->lease / (it->token ? 2 : 1); /* half is left to stop work */
    const int64_t due = (it->pinged ? it->pinged : it->spoken) + it->lease / WOZGIRT_SESSION_PARTS;
    if (now >= end)
        return wozgirt_session_lose(it, ETIMEDOUT);
    if (it->client.socket < 0)
        return now >= until ? WOZGIRT_LOCK_LATE : wozgirt_session_go_on(it, wozgirt_lock_earlier(until, end));
    int ready = wozgirt_lock_hear(&it->client, wozgirt_lock_earlier(wozgirt_lock_earlier(until, due), end));
    if (ready > 0)
        wozgirt_session_take(it, until);
    else if (ready < 0)
        wozgirt_lock_close(&it->client);
    else
        wozgirt_session_speak(it, wozgirt_lock_now(), until);
    /* within this millisecond it reads what is there, but no more from a server that says much */
    return it->client.socket >= 0 && wozgirt_lock_now() - (ready > 0) >= until ? WOZGIRT_LOCK_LATE : WOZGIRT_LOCK_DONE;
}

/* Waits for the answer to what is asked, if anything is; WOZGIRT_LOCK_LATE, and it is still asked, if that does not come. */
static inline int wozgirt_session_finish(struct wozgirt_session *it, int64_t until)
{
    int result = WOZGIRT_LOCK_DONE;
    while (result == WOZGIRT_LOCK_DONE && it->asked)
        result = wozgirt_session_step(it, until);
    return result == WOZGIRT_LOCK_DONE && it->is_refused ? WOZGIRT_LOCK_REFUSED : result;
}

/* Asks a question that is done once. An answer to the question before it, if one is missing, no longer counts. */
static inline void wozgirt_session_put(struct wozgirt_session *it, enum wozgirt_lock_verb verb, const char *name, uint64_t number)
{
    it->is_refused = 0;
    it->asked = verb;
    it->asked_number = number;
    memcpy(it->asked_name, name, strlen(name) + 1);
    it->number++;
}

/* Asks, and waits for the answer, which is then the client's `line`. */
static inline int wozgirt_session_ask(struct wozgirt_session *it, enum wozgirt_lock_verb verb, const char *name, uint64_t number,
                                      int64_t until)
{
    wozgirt_session_put(it, verb, name, number);
    wozgirt_session_repeat(it, until);
    return wozgirt_session_finish(it, until);
}

/* Gives up what is held or waited for: `wozgirt_session_finish` gets the servers' answer. */
static inline void wozgirt_session_give_up(struct wozgirt_session *it)
{
    wozgirt_session_put(it, WOZGIRT_LOCK_LEAVE, "", 0);
    it->token = 0;
    it->early = 0;
    it->is_waiting = 0;
}

/* Begins a call. If the last one was left in its middle, it is unknown what of it was sent and read. */
static inline int wozgirt_session_enter(struct wozgirt_session *it, enum wozgirt_lock_verb verb)
{
    if (it->client.owner != getpid())
        return WOZGIRT_LOCK_CHILD;
    if (it->is_lost)
        return wozgirt_session_lose(it, ENOTCONN);
    if (it->inside) {
        wozgirt_lock_close(&it->client);
        if (it->inside != WOZGIRT_LOCK_PING)
            wozgirt_session_give_up(it);
    }
    it->inside = (int)verb;
    return WOZGIRT_LOCK_DONE;
}

WOZGIRT_SESSION_FUNCTION int wozgirt_session_open(struct wozgirt_session *session, const char *servers, int64_t lease)
{
    const int64_t end = wozgirt_lock_after(WOZGIRT_SESSION_FIRST);
    memset(session, 0, sizeof *session);
    wozgirt_lock_begin(&session->client, 0);
    session->is_lost = 1;
    if (!*servers || strlen(servers) >= sizeof session->servers || lease < WOZGIRT_SESSION_PARTS)
        return WOZGIRT_LOCK_NAME;
    memcpy(session->servers, servers, strlen(servers));
    session->lease = lease;
    int file = open("/dev/urandom", O_RDONLY | O_CLOEXEC);
    ssize_t got = file < 0 ? -1 : read(file, &session->key, sizeof session->key);
    if (file >= 0)
        close(file);
    int rounds = got == (ssize_t)sizeof session->key ? 3 : 0;
    for (; rounds > 0 && wozgirt_lock_now() < end; rounds -= session->at == 0)
        if (wozgirt_session_go_on(session, end) == WOZGIRT_LOCK_DONE && session->client.socket >= 0) {
            session->is_lost = 0;
            return WOZGIRT_LOCK_DONE;
        }
    return wozgirt_session_lose(session, wozgirt_lock_now() < end ? errno : ETIMEDOUT);
}

/* Withdraws an acquire whose deadline has come: WOZGIRT_LOCK_LATE, or WOZGIRT_LOCK_DONE if it was granted before. */
static inline int wozgirt_session_withdraw(struct wozgirt_session *it, int64_t until)
{
    int result = wozgirt_session_finish(it, until);
    const int is_cancelled = result == WOZGIRT_LOCK_DONE && it->is_waiting;
    if (is_cancelled)
        result = wozgirt_session_ask(it, WOZGIRT_LOCK_CANCEL, it->name, 0, until);
    if (result == WOZGIRT_LOCK_LATE) {
        if (it->asked != WOZGIRT_LOCK_LEAVE) {
            wozgirt_session_give_up(it);
            wozgirt_session_repeat(it, until);
        }
        return WOZGIRT_LOCK_SILENT;
    }
    if (result == WOZGIRT_LOCK_LOST || (result == WOZGIRT_LOCK_REFUSED && !is_cancelled))
        return result;
    return it->token ? WOZGIRT_LOCK_DONE : WOZGIRT_LOCK_LATE;
}

/* The acquire of a session that is inside a call. */
static inline int wozgirt_session_get(struct wozgirt_session *it, const char *name, uint64_t label, int64_t wait, uint64_t *token)
{
    const int64_t until = wozgirt_lock_after(wait == 0 ? -1 : wait);
    int result = wozgirt_session_finish(it, until);
    if (result == WOZGIRT_LOCK_LATE)
        return wozgirt_session_withdraw(it, until + WOZGIRT_LOCK_WITHDRAWAL);
    if (result == WOZGIRT_LOCK_LOST)
        return result;
    if (it->token) {
        memcpy(it->client.line, "refused session", sizeof "refused session");
        return WOZGIRT_LOCK_REFUSED;
    }
    if (strcmp(it->name, name) != 0) {
        memcpy(it->name, name, strlen(name) + 1);
        it->last = 0;
    }
    result = wozgirt_session_ask(it, wait == 0 ? WOZGIRT_LOCK_TRY : WOZGIRT_LOCK_ACQUIRE, name, label, until);
    while (result == WOZGIRT_LOCK_DONE && it->is_waiting)
        result = wozgirt_session_step(it, until);
    if (result == WOZGIRT_LOCK_LATE)
        result = wozgirt_session_withdraw(it, until + WOZGIRT_LOCK_WITHDRAWAL);
    if (result != WOZGIRT_LOCK_DONE)
        return result;
    if (!it->token)
        return it->is_refused ? WOZGIRT_LOCK_REFUSED : WOZGIRT_LOCK_LATE; /* it was only tried */
    *token = it->last = it->token;
    return WOZGIRT_LOCK_DONE;
}

WOZGIRT_SESSION_FUNCTION int wozgirt_session_acquire(struct wozgirt_session *session, const char *name, uint64_t label, int64_t wait,
                                                     uint64_t *token)
{
    int result = wozgirt_lock_is_name(name) ? wozgirt_session_enter(session, WOZGIRT_LOCK_ACQUIRE) : WOZGIRT_LOCK_NAME;
    if (result != WOZGIRT_LOCK_DONE)
        return result;
    result = wozgirt_session_get(session, name, label, wait, token);
    session->inside = WOZGIRT_LOCK_NOTHING;
    return result;
}

WOZGIRT_SESSION_FUNCTION int wozgirt_session_release(struct wozgirt_session *session, const char *name, uint64_t token)
{
    int result = wozgirt_lock_is_name(name) ? wozgirt_session_enter(session, WOZGIRT_LOCK_RELEASE) : WOZGIRT_LOCK_NAME;
    if (result != WOZGIRT_LOCK_DONE)
        return result;
    result = wozgirt_session_finish(session, INT64_MAX);
    if (result != WOZGIRT_LOCK_LOST)
        result = wozgirt_session_ask(session, WOZGIRT_LOCK_RELEASE, name, token, INT64_MAX);
    if (result == WOZGIRT_LOCK_REFUSED && token == session->token)
        session->token = 0; /* it was lost before */
    session->inside = WOZGIRT_LOCK_NOTHING;
    return result;
}

WOZGIRT_SESSION_FUNCTION int wozgirt_session_check(struct wozgirt_session *session)
{
    const int64_t now = wozgirt_lock_now();
    int result = wozgirt_session_enter(session, WOZGIRT_LOCK_PING);
    if (result != WOZGIRT_LOCK_DONE)
        return result;
    while (result == WOZGIRT_LOCK_DONE)
        result = wozgirt_session_step(session, session->client.socket < 0 ? INT64_MAX : now);
    session->inside = WOZGIRT_LOCK_NOTHING;
    return result == WOZGIRT_LOCK_LATE ? WOZGIRT_LOCK_DONE : result;
}

WOZGIRT_SESSION_FUNCTION void wozgirt_session_close(struct wozgirt_session *session)
{
    const int64_t until = wozgirt_lock_after(WOZGIRT_SESSION_LEAVE);
    if (wozgirt_session_enter(session, WOZGIRT_LOCK_LEAVE) == WOZGIRT_LOCK_DONE) {
        wozgirt_session_give_up(session);
        wozgirt_session_repeat(session, until);
        wozgirt_session_finish(session, until);
    }
    wozgirt_session_lose(session, ENOTCONN);
}

#ifdef __cplusplus
}
#endif
