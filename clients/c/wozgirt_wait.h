/* Locks for the threads of one process, in C and C++: a mutex, and a condition variable for each thread that waits, around the locks
 * of wozgirt.h. This header is tested, not proved; it makes no locking decisions. Link with -pthread.
 *
 *     static struct wozgirt_wait locks;
 *
 *     if (wozgirt_wait_open(&locks, 4, 8) != WOZGIRT_DONE) ..           before there are threads
 *
 *     uint64_t token;                                                   in a thread, which calls itself 7
 *     if (wozgirt_wait_acquire(&locks, 7, 0, 0, 5000, &token) == WOZGIRT_DONE) {
 *         write_with(token);
 *         wozgirt_wait_release(&locks, 7, 0, token);
 *     }
 *
 * Each thread calls itself by a number of its own, which no other uses meanwhile. Waiters are served first come, first served, and
 * only the thread that gets the lock wakes. A thread that would wait for itself, over other threads, is refused with
 * WOZGIRT_CIRCLE (a deadlock). If a history is full, the locks begin new segments, so there is no end; tokens continue. The rules of
 * wozgirt.h hold: no call in the handler of a signal, nor may a handler leave a call by siglongjmp(). After fork() the locks are closed
 * to the child: each call returns WOZGIRT_CLOSED, and a close does nothing. With -std=c11 include this header before the system's. */
#ifndef WOZGIRT_WAIT_H
#define WOZGIRT_WAIT_H
#if defined(__STRICT_ANSI__) && !defined(_POSIX_C_SOURCE) && !defined(_DEFAULT_SOURCE) && !defined(_GNU_SOURCE)
#define _POSIX_C_SOURCE 200809L
#endif
#include "wozgirt.h"
#include <errno.h>
#include <pthread.h>
#include <stdint.h>
#include <string.h>
#include <time.h>
#include <unistd.h>
#ifdef __cplusplus
extern "C" {
#endif

/* A thread that waits. It is on the thread's own stack. */
struct wozgirt_waiter {
    struct wozgirt_waiter *next, *before;
    pthread_cond_t granted;
    uint64_t client, token;
    uint32_t lock;
    int is_granted;
};

/* Locks, for threads. Only the functions of this header use them. */
struct wozgirt_wait {
    struct wozgirt_locks locks;
    struct wozgirt_waiter *first, *last; /* in the order of the asks */
    pthread_mutex_t mutex;               /* is held around each use of what is above it */
    pid_t owner;                         /* the process that opened it, or 0 */
};

/* Opens `count` locks, from 0, each over a ring of `machines` machines: refused as by `wozgirt_locks_open`. What was in the
 * struct does not matter. */
static inline uint32_t wozgirt_wait_open(struct wozgirt_wait *wait, uint32_t count, uint32_t machines)
{
    memset(wait, 0, sizeof *wait);
    if (pthread_mutex_init(&wait->mutex, NULL) != 0)
        return WOZGIRT_NO_MEMORY;
    const uint32_t code = wozgirt_locks_open(&wait->locks, count, machines);
    if (code == WOZGIRT_DONE)
        wait->owner = getpid();
    else
        pthread_mutex_destroy(&wait->mutex);
    return code;
}

/* Whether it is open, for this process: in a child a thread that is not there may have the mutex. */
static inline int wozgirt_wait_is_open(const struct wozgirt_wait *wait)
{
    return wait->owner == getpid();
}

/* Closes them, after the last call of any thread. What was not opened stays as it is. */
static inline void wozgirt_wait_close(struct wozgirt_wait *wait)
{
    if (!wozgirt_wait_is_open(wait))
        return;
    wozgirt_locks_close(&wait->locks);
    pthread_mutex_destroy(&wait->mutex);
    wait->owner = 0;
}

/* The thread that waits so, or null. */
static inline struct wozgirt_waiter *wozgirt_wait_find(struct wozgirt_wait *wait, uint64_t client, uint32_t lock)
{
    struct wozgirt_waiter *waiter = wait->first;
    while (waiter && (waiter->client != client || waiter->lock != lock))
        waiter = waiter->next;
    return waiter;
}

/* Hands out what the last input granted, to the threads that wait for it. Under the mutex, after each input. */
static inline void wozgirt_wait_hand_out(struct wozgirt_wait *wait)
{
    struct wozgirt_grant grant;
    while (wozgirt_locks_next(&wait->locks, &grant) == WOZGIRT_DONE) {
        struct wozgirt_waiter *waiter = wozgirt_wait_find(wait, grant.client, grant.lock);
        if (!waiter)
            continue; /* it gave itself another's number */
        waiter->token = grant.token;
        waiter->is_granted = 1;
        pthread_cond_signal(&waiter->granted);
    }
}

static inline void wozgirt_wait_enter(struct wozgirt_wait *wait, struct wozgirt_waiter *waiter)
{
    waiter->before = wait->last;
    *(wait->last ? &wait->last->next : &wait->first) = waiter;
    wait->last = waiter;
}

static inline void wozgirt_wait_exit(struct wozgirt_wait *wait, struct wozgirt_waiter *waiter)
{
    *(waiter->before ? &waiter->before->next : &wait->first) = waiter->next;
    *(waiter->next ? &waiter->next->before : &wait->last) = waiter->before;
}

/* A condition variable by the monotonic clock. */
static inline int wozgirt_wait_condition(pthread_cond_t *condition)
{
    pthread_condattr_t kind;
    int fault = pthread_condattr_init(&kind);
    if (fault)
        return fault;
    fault = pthread_condattr_setclock(&kind, CLOCK_MONOTONIC);
    if (!fault)
        fault = pthread_cond_init(condition, &kind);
    pthread_condattr_destroy(&kind);
    return fault;
}

/* This many milliseconds from now. */
static inline struct timespec wozgirt_wait_until(int64_t milliseconds)
{
    struct timespec time = {0, 0};
    clock_gettime(CLOCK_MONOTONIC, &time);
    time.tv_nsec += (long)(milliseconds % 1000) * 1000000;
    time.tv_sec += (time_t)(milliseconds / 1000 + time.tv_nsec / 1000000000);
    time.tv_nsec %= 1000000000;
    return time;
}

/* Sleeps until the grant, or until then (null: for ever): whether the time is over. The thread cannot be cancelled here. */
static inline int wozgirt_wait_sleep(struct wozgirt_wait *wait, struct wozgirt_waiter *me, const struct timespec *until)
{
    int fault = 0, state;
    pthread_setcancelstate(PTHREAD_CANCEL_DISABLE, &state);
    while (!me->is_granted && fault != ETIMEDOUT)
        fault = until ? pthread_cond_timedwait(&me->granted, &wait->mutex, until) : pthread_cond_wait(&me->granted, &wait->mutex);
    pthread_setcancelstate(state, NULL);
    return fault == ETIMEDOUT;
}

/* Waits in the queue until the grant, or until then. A grant that comes together with the end is released. */
static inline uint32_t wozgirt_wait_stand(struct wozgirt_wait *wait, struct wozgirt_waiter *me, const struct timespec *until)
{
    int is_over;
    if (wozgirt_wait_condition(&me->granted) != 0) {
        wozgirt_locks_cancel(&wait->locks, me->client, me->lock);
        return WOZGIRT_NO_MEMORY;
    }
    wozgirt_wait_enter(wait, me);
    is_over = wozgirt_wait_sleep(wait, me, until);
    wozgirt_wait_exit(wait, me);
    pthread_cond_destroy(&me->granted);
    if (!is_over)
        return WOZGIRT_DONE;
    if (me->is_granted)
        wozgirt_locks_release(&wait->locks, me->client, me->lock, me->token);
    else
        wozgirt_locks_cancel(&wait->locks, me->client, me->lock);
    wozgirt_wait_hand_out(wait);
    return WOZGIRT_BUSY;
}

/* Asks for a lock, and waits for it this many milliseconds (0: not at all; negative: for ever). WOZGIRT_DONE: it is held, and the
 * token is greater than all earlier tokens of this lock. WOZGIRT_BUSY: it was not granted in time, and nothing waits for it.
 * Else as `wozgirt_locks_acquire`, or `wozgirt_locks_try` at 0, refuses. The order is a label of the caller: the history keeps it. */
static inline uint32_t wozgirt_wait_acquire(struct wozgirt_wait *wait, uint64_t client, uint32_t lock, uint64_t order,
                                            int64_t milliseconds, uint64_t *token)
{
    struct wozgirt_waiter me;
    struct wozgirt_hold hold = {0, 0};
    uint32_t (*const ask)(struct wozgirt_locks *, uint64_t, uint32_t, uint64_t, struct wozgirt_hold *) =
        milliseconds == 0 ? wozgirt_locks_try : wozgirt_locks_acquire;
    const int is_endless = milliseconds < 0 || milliseconds > INT32_MAX;
    const struct timespec until = wozgirt_wait_until(is_endless ? 0 : milliseconds);
    uint32_t code;
    if (!wozgirt_wait_is_open(wait))
        return WOZGIRT_CLOSED;
    pthread_mutex_lock(&wait->mutex);
    code = ask(&wait->locks, client, lock, order, &hold);
    if (code == WOZGIRT_HISTORY_FULL && wozgirt_locks_cut(&wait->locks) == WOZGIRT_DONE)
        code = ask(&wait->locks, client, lock, order, &hold);
    if (code == WOZGIRT_WAITS) {
        memset(&me, 0, sizeof me);
        me.client = client;
        me.lock = lock;
        code = wozgirt_wait_stand(wait, &me, is_endless ? NULL : &until);
        hold.token = me.token;
    }
    pthread_mutex_unlock(&wait->mutex);
    if (code == WOZGIRT_DONE)
        *token = hold.token;
    return code;
}

/* Asks for a lock, and does not wait. */
static inline uint32_t wozgirt_wait_try(struct wozgirt_wait *wait, uint64_t client, uint32_t lock, uint64_t order, uint64_t *token)
{
    return wozgirt_wait_acquire(wait, client, lock, order, 0, token);
}

/* Ends the hold with this token; the first thread in the queue wakes. */
static inline uint32_t wozgirt_wait_release(struct wozgirt_wait *wait, uint64_t client, uint32_t lock, uint64_t token)
{
    if (!wozgirt_wait_is_open(wait))
        return WOZGIRT_CLOSED;
    pthread_mutex_lock(&wait->mutex);
    const uint32_t code = wozgirt_locks_release(&wait->locks, client, lock, token);
    wozgirt_wait_hand_out(wait);
    pthread_mutex_unlock(&wait->mutex);
    return code;
}

/* Ends all that the thread holds. */
static inline uint32_t wozgirt_wait_leave(struct wozgirt_wait *wait, uint64_t client)
{
    if (!wozgirt_wait_is_open(wait))
        return WOZGIRT_CLOSED;
    pthread_mutex_lock(&wait->mutex);
    const uint32_t code = wozgirt_locks_leave(&wait->locks, client);
    wozgirt_wait_hand_out(wait);
    pthread_mutex_unlock(&wait->mutex);
    return code;
}

#ifdef __cplusplus
}
#endif
#endif
