/* Locks for the clients of one program: two clients want two locks, and each answer is compared with what it has to be.
 * The library waits for nothing: who waits is granted by a later input, and `wozgirt_locks_next` tells of it. */
#include "wozgirt.h"
#include <stdio.h>

static int failed = 0;

static void expect(const char *what, uint64_t is, uint64_t wanted)
{
    if (is != wanted) {
        printf("%s: %llu, wanted %llu\n", what, (unsigned long long)is, (unsigned long long)wanted);
        failed = 1;
    }
}

enum { ANNA = 11, BELA = 22, CARL = 33 };

static void closed(struct wozgirt_locks *locks)
{
    struct wozgirt_hold hold = {7, 7};
    struct wozgirt_grant grant = {7, 7, 7};
    expect("closed locks", wozgirt_locks_acquire(locks, ANNA, 0, 1, &hold), WOZGIRT_CLOSED);
    expect("a try", wozgirt_locks_try(locks, ANNA, 0, 1, &hold), WOZGIRT_CLOSED);
    expect("a release", wozgirt_locks_release(locks, ANNA, 0, 1), WOZGIRT_CLOSED);
    expect("a cancel", wozgirt_locks_cancel(locks, ANNA, 0), WOZGIRT_CLOSED);
    expect("a leave", wozgirt_locks_leave(locks, ANNA), WOZGIRT_CLOSED);
    expect("a grant", wozgirt_locks_next(locks, &grant), WOZGIRT_CLOSED);
    expect("a cut", wozgirt_locks_cut(locks), WOZGIRT_CLOSED);
    expect("nothing was written", hold.token == 7 && hold.ahead == 7 && grant.client == 7 && grant.lock == 7, 1);
    wozgirt_locks_close(locks);
    expect("closed again", locks->at == NULL, 1);
}

static void opened(struct wozgirt_locks *locks)
{
    closed(locks);
    expect("no locks", wozgirt_locks_open(locks, 0, 8), WOZGIRT_BAD_LOCKS);
    expect("1,000,001 locks", wozgirt_locks_open(locks, 1000001, 8), WOZGIRT_BAD_LOCKS);
    expect("one machine", wozgirt_locks_open(locks, 2, 1), WOZGIRT_BAD_MACHINES);
    expect("1,025 machines", wozgirt_locks_open(locks, 2, 1025), WOZGIRT_BAD_MACHINES);
    expect("the struct is as it was", locks->at == NULL, 1);
    expect("two locks", wozgirt_locks_open(locks, 2, 8), WOZGIRT_DONE);
    expect("open again", wozgirt_locks_open(locks, 2, 8), WOZGIRT_OPEN);
}

/* One lock: a hold, who waits for it, and how it goes on. */
static void one_lock(struct wozgirt_locks *locks)
{
    struct wozgirt_hold hold = {7, 7};
    struct wozgirt_grant grant = {7, 7, 7};
    expect("a lock past the last", wozgirt_locks_acquire(locks, ANNA, 2, 1, &hold), WOZGIRT_NO_LOCK);
    expect("is not written", hold.token, 7);
    expect("Anna", wozgirt_locks_acquire(locks, ANNA, 0, 1, &hold), WOZGIRT_DONE);
    expect("her token", hold.token * 10 + hold.ahead, 10);
    expect("Anna again", wozgirt_locks_acquire(locks, ANNA, 0, 1, &hold), WOZGIRT_HOLDS);
    expect("Bela tries", wozgirt_locks_try(locks, BELA, 0, 2, &hold), WOZGIRT_BUSY);
    expect("Bela", wozgirt_locks_acquire(locks, BELA, 0, 2, &hold), WOZGIRT_WAITS);
    expect("nobody is before him", hold.token * 10 + hold.ahead, 0);
    expect("Bela again", wozgirt_locks_acquire(locks, BELA, 0, 2, &hold), WOZGIRT_STANDS);
    expect("Carl", wozgirt_locks_acquire(locks, CARL, 0, 3, &hold), WOZGIRT_WAITS);
    expect("Bela is before him", hold.ahead, 1);
    expect("Carl gives up", wozgirt_locks_cancel(locks, CARL, 0), WOZGIRT_DONE);
    expect("twice", wozgirt_locks_cancel(locks, CARL, 0), WOZGIRT_NOT_WAITING);
    expect("no grant so far", wozgirt_locks_next(locks, &grant), WOZGIRT_NO_MORE);
    expect("is not written", grant.client, 7);
    expect("a wrong token", wozgirt_locks_release(locks, ANNA, 0, 2), WOZGIRT_NOT_HELD);
    expect("another's token", wozgirt_locks_release(locks, BELA, 0, 1), WOZGIRT_NOT_HELD);
    expect("Anna is done", wozgirt_locks_release(locks, ANNA, 0, 1), WOZGIRT_DONE);
    expect("a grant is left", wozgirt_locks_release(locks, BELA, 0, 2), WOZGIRT_GRANTS_LEFT);
    expect("so nothing is cut", wozgirt_locks_cut(locks), WOZGIRT_GRANTS_LEFT);
    expect("a grant", wozgirt_locks_next(locks, &grant), WOZGIRT_DONE);
    expect("is Bela's", grant.client * 100 + grant.token * 10 + grant.lock, 2220);
    expect("no other", wozgirt_locks_next(locks, &grant), WOZGIRT_NO_MORE);
}

/* Two locks: a circle, and a client that leaves both. Bela holds lock 0. */
static void two_locks(struct wozgirt_locks *locks)
{
    struct wozgirt_hold hold = {7, 7};
    struct wozgirt_grant grant = {7, 7, 7};
    uint64_t lines = 0;
    expect("Anna has the other", wozgirt_locks_try(locks, ANNA, 1, 4, &hold), WOZGIRT_DONE);
    expect("Bela wants it", wozgirt_locks_acquire(locks, BELA, 1, 5, &hold), WOZGIRT_WAITS);
    expect("Anna wants his", wozgirt_locks_acquire(locks, ANNA, 0, 6, &hold), WOZGIRT_CIRCLE);
    expect("Anna is done", wozgirt_locks_release(locks, ANNA, 1, 1), WOZGIRT_DONE);
    expect("a grant", wozgirt_locks_next(locks, &grant), WOZGIRT_DONE);
    expect("is Bela's", grant.client * 100 + grant.token * 10 + grant.lock, 2221);
    expect("Anna waits for one", wozgirt_locks_acquire(locks, ANNA, 0, 7, &hold), WOZGIRT_WAITS);
    expect("Carl for the other", wozgirt_locks_acquire(locks, CARL, 1, 8, &hold), WOZGIRT_WAITS);
    expect("new segments, with holds and lines", wozgirt_locks_cut(locks), WOZGIRT_DONE);
    expect("Bela holds on", wozgirt_locks_acquire(locks, BELA, 0, 9, &hold), WOZGIRT_HOLDS);
    expect("Bela leaves", wozgirt_locks_leave(locks, BELA), WOZGIRT_DONE);
    while (wozgirt_locks_next(locks, &grant) == WOZGIRT_DONE)
        lines += grant.client * 100 + grant.token * 10 + grant.lock;
    expect("two grants", lines, 1130 + 3331);
    expect("all leave", wozgirt_locks_leave(locks, ANNA) + wozgirt_locks_leave(locks, CARL), 2 * WOZGIRT_DONE);
    expect("no grant", wozgirt_locks_next(locks, &grant), WOZGIRT_NO_MORE);
    expect("the lock is free", wozgirt_locks_try(locks, CARL, 0, 9, &hold), WOZGIRT_DONE);
    expect("its token", hold.token, 4);
}

int main(void)
{
    struct wozgirt_locks locks = {0};
    opened(&locks);
    one_lock(&locks);
    two_locks(&locks);
    wozgirt_locks_close(&locks);
    expect("the struct is empty", locks.at == NULL, 1);
    printf("%s\n", failed ? "some answers differ" : "locks answer as they have to");
    return failed;
}
