/* interrupted_client PLACE SEED CALLS: acquires and releases the locks a, b and c so often, while a handler leaves one call in ten by
 * siglongjmp(). It prints `held LOCK LABEL TOKEN` for each hold that it was told, with the lock's number and the label of that very
 * call, and at the end how many calls were left, and how often the connection was lost. With -DSESSION it is a session of the servers
 * at PLACE, which holds one lock at a time and is not lost. */
#define _DEFAULT_SOURCE
#ifdef SESSION
#include "wozgirt_session.h"
#else
#include "wozgirt_lock.h"
#endif
#include <setjmp.h>
#include <signal.h>
#include <stdlib.h>
#include <sys/time.h>

#ifdef SESSION
static struct wozgirt_session client;
#define CALL(verb) wozgirt_session_##verb
#define OPEN(place) wozgirt_session_open(&client, place, 30000)
enum { LOCKS = 3, AT_ONCE = 1, LONGEST_ALARM = 3000 };
#else
static struct wozgirt_lock_client client;
#define CALL(verb) wozgirt_lock_##verb
#define OPEN(place) wozgirt_lock_open(&client, place)
enum { LOCKS = 3, AT_ONCE = 3, LONGEST_ALARM = 300 };
#endif

static const char *const names[LOCKS] = {"a", "b", "c"};
static uint64_t tokens[LOCKS]; /* of what is held, or 0 */
static sigjmp_buf outside;
static volatile sig_atomic_t is_in_call;
static volatile long left, lost;

static void leave(int signal)
{
    (void)signal;
    if (is_in_call) {
        is_in_call = 0;
        siglongjmp(outside, 1);
    }
}

static void alarm_in(long microseconds)
{
    struct itimerval time;
    memset(&time, 0, sizeof time);
    time.it_value.tv_usec = microseconds;
    setitimer(ITIMER_REAL, &time, NULL);
}

/* One call: what it returned, or -1 if it was left. */
static int call(int lock, uint64_t label, int64_t wait, uint64_t *token)
{
    int result;
    if (sigsetjmp(outside, 1) != 0) {
        left++;
        return -1;
    }
    is_in_call = 1;
    result = tokens[lock] ? CALL(release)(&client, names[lock], tokens[lock])
                          : CALL(acquire)(&client, names[lock], label, wait, token);
    is_in_call = 0;
    return result;
}

static void turn(uint64_t label)
{
    static uint64_t token;
    int lock = rand() % LOCKS, is_release;
    for (int other = 0; other < LOCKS && AT_ONCE == 1; other++)
        lock = tokens[other] ? other : lock;
    is_release = tokens[lock] != 0;
    token = 0;
    if (rand() % 10 == 0)
        alarm_in(1 + rand() % LONGEST_ALARM);
    int result = call(lock, label, rand() % 2 ? 0 : 2, &token);
    alarm_in(0);
    if (result == WOZGIRT_LOCK_DONE && !is_release)
        printf("held %d %" PRIu64 " %" PRIu64 "\n", lock, label, token);
    tokens[lock] = result == WOZGIRT_LOCK_DONE && !is_release ? token : 0;
    if (result == WOZGIRT_LOCK_LOST) {
        memset(tokens, 0, sizeof tokens);
        lost++;
    }
}

int main(int count, char **words)
{
    struct sigaction action;
    memset(&action, 0, sizeof action);
    action.sa_handler = leave;
    sigaction(SIGALRM, &action, NULL);
    const uint64_t seed = count == 4 ? strtoull(words[2], NULL, 10) : 0, calls = count == 4 ? strtoull(words[3], NULL, 10) : 0;
    long opened = -1;
    srand((unsigned)seed);
    for (uint64_t i = 0; i < calls; i++) {
        if (opened != lost && OPEN(words[1]) != WOZGIRT_LOCK_DONE)
            return 1;
        opened = lost;
        turn((seed << 32) + i);
    }
    CALL(close)(&client);
    printf("left %ld lost %ld\n", left, lost);
    return 0;
}
