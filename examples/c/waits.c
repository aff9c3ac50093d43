/* Threads that wait for locks by wozgirt_wait.h, and what comes of it when the deadline passes, the grant and the deadline
 * cross, a thread would wait for itself, or gives another's token. With the word endless, too, more grants than a history has
 * events. */
#define _POSIX_C_SOURCE 200809L
#include <pthread.h>

/* How often a thread woke, under the mutex that it waits with. */
static unsigned wakes = 0;

static int counted_wait(pthread_cond_t *condition, pthread_mutex_t *mutex)
{
    const int fault = pthread_cond_wait(condition, mutex);
    wakes++;
    return fault;
}

#define pthread_cond_wait counted_wait
#include "wozgirt_wait.h"
#include <signal.h>
#include <stdio.h>
#include <stdlib.h>
#include <sys/wait.h>

enum { THREADS = 8, LOCKS = 3, MACHINES = 4, TURNS = 400 };

static struct wozgirt_wait locks;
static uint64_t tokens[LOCKS]; /* the last of each lock: only who holds it touches it */
static int inside[LOCKS];
static int failed = 0;

static void expect(const char *what, uint64_t is, uint64_t wanted)
{
    if (is != wanted) {
        printf("%s: %llu, wanted %llu\n", what, (unsigned long long)is, (unsigned long long)wanted);
        failed = 1;
    }
}

static void stop_on(int fault)
{
    if (fault) {
        fprintf(stderr, "no thread\n");
        exit(1);
    }
}

static uint64_t acquire(uint64_t client, uint32_t lock)
{
    uint64_t token = 0;
    expect("acquire", wozgirt_wait_acquire(&locks, client, lock, client, -1, &token), WOZGIRT_DONE);
    return token;
}

static void *work(void *given)
{
    const uint64_t client = (uintptr_t)given;
    for (uint32_t turn = 0; turn < TURNS; turn++) {
        const uint32_t lock = (uint32_t)(client + turn) % LOCKS;
        const uint64_t token = acquire(client, lock);
        expect("alone", (uint64_t)inside[lock]++, 0);
        expect("the next token", token, ++tokens[lock]);
        inside[lock]--;
        expect("release", wozgirt_wait_release(&locks, client, lock, token), WOZGIRT_DONE);
    }
    return NULL;
}

static void exclude(void)
{
    pthread_t threads[THREADS];
    uint64_t all = 0;
    for (uintptr_t i = 0; i < THREADS; i++)
        stop_on(pthread_create(&threads[i], NULL, work, (void *)(i + 1)));
    for (int i = 0; i < THREADS; i++)
        pthread_join(threads[i], NULL);
    for (int i = 0; i < LOCKS; i++)
        all += tokens[i];
    expect("all were granted", all, THREADS * TURNS);
}

/* A thread that asks for lock 0 within so long, and what it is told. */
struct asker {
    pthread_t thread;
    uint64_t client, token;
    int64_t milliseconds;
    uint32_t code;
};

static void *ask(void *given)
{
    struct asker *asker = given;
    asker->code = wozgirt_wait_acquire(&locks, asker->client, 0, 0, asker->milliseconds, &asker->token);
    return NULL;
}

static int waiters(void)
{
    int count = 0;
    for (const struct wozgirt_waiter *waiter = locks.first; waiter; waiter = waiter->next)
        count++;
    return count;
}

static void pause_for(long milliseconds)
{
    const struct timespec time = {milliseconds / 1000, milliseconds % 1000 * 1000000};
    nanosleep(&time, NULL);
}

/* Starts a thread that asks, and leaves when this many wait. */
static void start(struct asker *asker, uint64_t client, int64_t milliseconds, int count)
{
    memset(asker, 0, sizeof *asker);
    asker->client = client;
    asker->milliseconds = milliseconds;
    stop_on(pthread_create(&asker->thread, NULL, ask, asker));
    for (int is_there = 0; !is_there; pause_for(1)) {
        pthread_mutex_lock(&locks.mutex);
        is_there = waiters() == count;
        pthread_mutex_unlock(&locks.mutex);
    }
}

/* The lock goes to those who wait in the order of their asks, and whoever is not granted sleeps on. */
static void in_order(void)
{
    struct asker askers[3];
    uint64_t token = acquire(1, 0);
    wakes = 0;
    for (int i = 0; i < 3; i++)
        start(&askers[i], 10 + (uint64_t)i, -1, i + 1);
    for (int i = 0; i < 3; i++) {
        expect("release to the next", wozgirt_wait_release(&locks, i ? 9 + (uint64_t)i : 1, 0, token), WOZGIRT_DONE);
        pthread_join(askers[i].thread, NULL);
        expect("the next in line", askers[i].code, WOZGIRT_DONE);
        expect("with the next token", askers[i].token, token + 1);
        expect("the others stand in line", (uint64_t)waiters(), (uint64_t)(2 - i));
        expect("and sleep", wakes, (uint64_t)(i + 1));
        token = askers[i].token;
    }
    expect("the last leaves", wozgirt_wait_leave(&locks, 12), WOZGIRT_DONE);
}

/* A deadline that passes takes the thread out of the line. */
static void too_late(void)
{
    struct asker asker;
    const uint64_t token = acquire(1, 0);
    const struct timespec until = wozgirt_wait_until(50);
    uint64_t other = 7;
    expect("too late", wozgirt_wait_acquire(&locks, 2, 0, 0, 50, &other), WOZGIRT_BUSY);
    const struct timespec now = wozgirt_wait_until(0);
    expect("not too early", now.tv_sec > until.tv_sec || (now.tv_sec == until.tv_sec && now.tv_nsec >= until.tv_nsec), 1);
    expect("nothing waits", locks.first == NULL && locks.last == NULL, 1);
    expect("no token", other, 7);
    expect("a try", wozgirt_wait_try(&locks, 2, 0, 0, &other), WOZGIRT_BUSY);
    start(&asker, 3, 60000, 1);
    expect("release", wozgirt_wait_release(&locks, 1, 0, token), WOZGIRT_DONE);
    pthread_join(asker.thread, NULL);
    expect("who came behind it", asker.code, WOZGIRT_DONE);
    expect("its token is the next", asker.token, token + 1);
    expect("it leaves", wozgirt_wait_leave(&locks, 3), WOZGIRT_DONE);
}

/* The deadline is that of the call, also where the thread gets the mutex late. */
static void held_up(void)
{
    struct asker asker;
    const uint64_t token = acquire(1, 0);
    memset(&asker, 0, sizeof asker);
    asker.client = 2;
    asker.milliseconds = 1000;
    pthread_mutex_lock(&locks.mutex);
    stop_on(pthread_create(&asker.thread, NULL, ask, &asker));
    pause_for(1500);
    pthread_mutex_unlock(&locks.mutex);
    const struct timespec until = wozgirt_wait_until(500);
    pthread_join(asker.thread, NULL);
    const struct timespec now = wozgirt_wait_until(0);
    expect("too late", asker.code, WOZGIRT_BUSY);
    expect("at once", now.tv_sec < until.tv_sec || (now.tv_sec == until.tv_sec && now.tv_nsec < until.tv_nsec), 1);
    expect("release", wozgirt_wait_release(&locks, 1, 0, token), WOZGIRT_DONE);
}

/* To a child the locks are closed, also where another thread had the mutex, and its parent goes on. The child ends by a signal if it
 * was told what it should be: then no tool takes its copy of the memory for a leak. */
static void forked(void)
{
    uint64_t token = acquire(1, 0), none = 7;
    int status = 0;
    pthread_mutex_lock(&locks.mutex);
    const pid_t child = fork();
    if (child == 0) {
        expect("an acquire", wozgirt_wait_acquire(&locks, 2, 1, 0, -1, &none), WOZGIRT_CLOSED);
        expect("a try", wozgirt_wait_try(&locks, 2, 1, 0, &none), WOZGIRT_CLOSED);
        expect("a release", wozgirt_wait_release(&locks, 1, 0, token), WOZGIRT_CLOSED);
        expect("a leave", wozgirt_wait_leave(&locks, 1), WOZGIRT_CLOSED);
        wozgirt_wait_close(&locks);
        fflush(stdout);
        if (!failed)
            raise(SIGKILL);
        _exit(1);
    }
    pthread_mutex_unlock(&locks.mutex);
    expect("a child", child > 0 && waitpid(child, &status, 0) == child, 1);
    expect("what it was told", WIFSIGNALED(status) && WTERMSIG(status) == SIGKILL, 1);
    expect("release", wozgirt_wait_release(&locks, 1, 0, token), WOZGIRT_DONE);
}

/* The grant comes when the deadline has passed, and the thread is not awake yet: it is given on to whoever waits behind. */
static void crossed(void)
{
    struct asker late, behind;
    const uint64_t token = acquire(1, 0);
    start(&late, 2, 200, 1);
    start(&behind, 3, -1, 2);
    pthread_mutex_lock(&locks.mutex);
    pause_for(600); /* the thread that is late cannot come back, since its mutex is held */
    expect("the release", wozgirt_locks_release(&locks.locks, 1, 0, token), WOZGIRT_DONE);
    wozgirt_wait_hand_out(&locks);
    expect("it was granted", locks.first && locks.first->is_granted && locks.first->token == token + 1, 1);
    pthread_mutex_unlock(&locks.mutex);
    pthread_join(late.thread, NULL);
    pthread_join(behind.thread, NULL);
    expect("too late", late.code, WOZGIRT_BUSY);
    expect("the one behind it", behind.code, WOZGIRT_DONE);
    expect("has the token behind", behind.token, token + 2);
    expect("it leaves", wozgirt_wait_leave(&locks, 3), WOZGIRT_DONE);
}

static void refused(void)
{
    struct asker asker;
    uint64_t token = acquire(1, 0), other = acquire(2, 1), none = 7;
    expect("a lock that is not there", wozgirt_wait_acquire(&locks, 1, LOCKS, 0, -1, &none), WOZGIRT_NO_LOCK);
    expect("a lock that it holds", wozgirt_wait_acquire(&locks, 1, 0, 0, -1, &none), WOZGIRT_HOLDS);
    expect("another's token", wozgirt_wait_release(&locks, 2, 0, token), WOZGIRT_NOT_HELD);
    expect("a token of before", wozgirt_wait_release(&locks, 1, 0, token - 1), WOZGIRT_NOT_HELD);
    start(&asker, 2, -1, 1);
    expect("a circle", wozgirt_wait_acquire(&locks, 1, 1, 0, -1, &none), WOZGIRT_CIRCLE);
    expect("the number of a thread that waits", wozgirt_wait_acquire(&locks, 2, 2, 0, -1, &none), WOZGIRT_STANDS);
    expect("no token", none, 7);
    expect("release", wozgirt_wait_release(&locks, 1, 0, token), WOZGIRT_DONE);
    pthread_join(asker.thread, NULL);
    expect("who waited", asker.code, WOZGIRT_DONE);
    expect("leaves both", wozgirt_wait_leave(&locks, 2), WOZGIRT_DONE);
    expect("what it left", wozgirt_wait_try(&locks, 1, 1, 0, &none), WOZGIRT_DONE);
    expect("has the next token", none, other + 1);
}

/* More grants of a lock than a history has events. */
static void endless(void)
{
    uint64_t token = 0;
    expect("open", wozgirt_wait_open(&locks, 1, MACHINES), WOZGIRT_DONE);
    for (uint64_t turn = 1; turn <= 4100000 && !failed; turn++) {
        expect("acquire", wozgirt_wait_acquire(&locks, 1, 0, 0, -1, &token), WOZGIRT_DONE);
        expect("the next token", token, turn);
        expect("release", wozgirt_wait_release(&locks, 1, 0, token), WOZGIRT_DONE);
    }
    wozgirt_wait_close(&locks);
}

int main(int count, char **words)
{
    struct wozgirt_wait none;
    uint64_t closed = 7;
    expect("no locks", wozgirt_wait_open(&none, 0, MACHINES), WOZGIRT_BAD_LOCKS);
    wozgirt_wait_close(&none);
    expect("open", wozgirt_wait_open(&locks, LOCKS, MACHINES), WOZGIRT_DONE);
    exclude();
    in_order();
    too_late();
    held_up();
    crossed();
    forked();
    refused();
    wozgirt_wait_close(&locks);
    wozgirt_wait_close(&locks);
    expect("closed locks", wozgirt_wait_try(&locks, 1, 0, 0, &closed), WOZGIRT_CLOSED);
    if (count == 2 && strcmp(words[1], "endless") == 0)
        endless();
    printf("%s\n", failed ? "some answers differ" : "each thread was told what it should be");
    return failed;
}
