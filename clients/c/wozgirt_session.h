/* Locks in a session, for C and C++: with several servers over one log, where the next server has the same hold if one is lost, or
 * with one server, which has it after a restart. docs/CLIENTS.md says what is guaranteed. Nothing of this is proved.
 *
 *     struct wozgirt_session session;
 *     uint64_t token;
 *     const char *servers = "/run/wozgirt/lock.sock,tcp:10.0.0.2:7000,tcp:10.0.0.3:7000";
 *     if (wozgirt_session_open(&session, servers, 30000) == WOZGIRT_LOCK_DONE) {
 *         if (wozgirt_session_acquire(&session, "deploy", 0, 5000, &token) == WOZGIRT_LOCK_DONE) {
 *             write_with(token);
 *             wozgirt_session_release(&session, "deploy", token);
 *         }
 *         wozgirt_session_close(&session);
 *     }
 *
 * The functions are in wozgirt_session.c. This header includes it, and then they are static: nothing is linked. With
 * WOZGIRT_SESSION_LINKED defined this header only declares them; then compile wozgirt_session.c once, and link it.
 *
 * A session holds one lock at a time, and has a lease, which each call renews if a server answers. Call `wozgirt_session_check` at
 * least each eighth of it: if a server is silent, it continues with another one. A session that is not renewed is lost. A comma
 * separates servers if `tcp:`, `/` or `./` follows. For a server that speaks TLS, name the socket of wozgirt-tunnel@.service. Threads
 * that share a session hold a mutex around each call. With -std=c11 include this header before the system's.
 *
 * Each call ends within 0.2 s of its deadline. If no server answers, a call without one ends when the lease is over, or, where the
 * session holds a lock, when half of it is. Hosts are looked up by getaddrinfo(), which takes its own time for names: give addresses
 * where deadlines matter. An answer to something else than what was asked ends the connection, and another server is asked. A signal
 * whose handler returns ends no call. If a handler leaves an acquire or a release by siglongjmp(), or the thread is cancelled in it,
 * the next call gives up the lock; a handler may not leave a lookup of a name. After fork() a child opens a session of its own: of
 * its parent's it can only close its copy, which the servers do not notice. */
#ifndef WOZGIRT_SESSION_H
#define WOZGIRT_SESSION_H
#include "wozgirt_lock.h"
#ifdef __cplusplus
extern "C" {
#endif

#ifdef WOZGIRT_SESSION_LINKED
#define WOZGIRT_SESSION_FUNCTION
#else
#define WOZGIRT_SESSION_FUNCTION static inline
#endif

/* A session. With WOZGIRT_LOCK_REFUSED the client's `line` says why; only wozgirt_session.c uses the rest. Times are as in
 * wozgirt_connection.h. */
struct wozgirt_session {
    struct wozgirt_lock_client client;
    char servers[1024];
    size_t at;                                       /* where the next server is in the text */
    uint64_t key, number;                            /* of the session; of the last question, by which that is done once */
    enum wozgirt_lock_verb asked;                    /* what has no answer yet, */
    char asked_name[WOZGIRT_LOCK_LONGEST_NAME + 1];  /* of which lock, */
    uint64_t asked_number;                           /* with which label or token, */
    int64_t asked_at;                                /* and when it was sent last */
    char name[WOZGIRT_LOCK_LONGEST_NAME + 1];        /* the lock that is held or waited for, or was last */
    uint64_t token;                                  /* of the hold, or 0 */
    uint64_t early;                                  /* of a grant that came before the answer that says to wait, or 0 */
    uint64_t last;                                   /* of the last hold of this lock: a grant that is not newer is a repetition */
    int64_t lease, spoken;                           /* a server received a line of this session then, or later */
    int64_t pinged;                                  /* when the ping was sent that is not answered, or 0 */
    volatile int inside;                             /* the call that is under way, as an enum wozgirt_lock_verb */
    int is_waiting, is_refused, is_lost;
};

/* Begins a session at one of these servers, with a lease of this many milliseconds. It tries all of them for 10 s at most: with
 * WOZGIRT_LOCK_LOST none of them is there, or each refuses it a session, as one does that keeps none. WOZGIRT_LOCK_NAME if the text
 * is empty or has 1,024 bytes or more, or the lease is below 8. */
WOZGIRT_SESSION_FUNCTION int wozgirt_session_open(struct wozgirt_session *session, const char *servers, int64_t lease);

/* Asks for a lock, and waits for it this many milliseconds (0: not at all; negative: for ever). With WOZGIRT_LOCK_DONE it is held,
 * and the token is greater than all earlier tokens of this lock. With WOZGIRT_LOCK_SILENT no server answered in time, and nothing is
 * held; servers may keep the place in the queue, or the hold, until the next call of this session gives it up, or its lease is over.
 * With WOZGIRT_LOCK_LOST the session is over, and what it held is lost: open another. errno says why, as for wozgirt_lock.h; ESTALE if
 * the servers no longer know what it had. A session that holds a lock is refused another. The journal keeps the label. */
WOZGIRT_SESSION_FUNCTION int wozgirt_session_acquire(struct wozgirt_session *session, const char *name, uint64_t label, int64_t wait,
                                                     uint64_t *token);

/* Ends the hold with this token. */
WOZGIRT_SESSION_FUNCTION int wozgirt_session_release(struct wozgirt_session *session, const char *name, uint64_t token);

/* Renews the lease: with WOZGIRT_LOCK_LOST others may hold what this session held. It waits only for a server, if the one that it
 * had is lost. */
WOZGIRT_SESSION_FUNCTION int wozgirt_session_check(struct wozgirt_session *session);

/* Gives up what is held, within a second, and ends the connection. Where no server answers, others get what was held when the lease
 * is over. It may be called again. */
WOZGIRT_SESSION_FUNCTION void wozgirt_session_close(struct wozgirt_session *session);

#ifdef __cplusplus
}
#endif
#ifndef WOZGIRT_SESSION_LINKED
#include "wozgirt_session.c"
#endif
#endif
