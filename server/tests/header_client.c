/* header_client: a client in C that does what the lines of its input say. For each it prints the verb, what the call returned, the
 * token, errno, the milliseconds that it took, and the last line of the server. With -DSESSION it is one of several servers.
 *
 *     open PLACE MILLISECONDS      with this patience, or lease
 *     acquire NAME LABEL WAIT, release NAME TOKEN, check, close
 *     child LINE                   a child behind fork() does that
 *     nurse                        a child behind fork() has the client, too, and does nothing until the input ends
 *     jump MILLISECONDS LINE       a handler leaves that call by siglongjmp() after so long
 *     alarms MILLISECONDS          a handler that returns is called so often from now on; 0: no longer */
#define _DEFAULT_SOURCE
#ifdef SESSION
#include "wozgirt_session.h"
#else
#include "wozgirt_lock.h"
#endif
#include <setjmp.h>
#include <signal.h>
#include <stdlib.h>
#include <sys/time.h>
#include <sys/wait.h>

#ifdef SESSION
static struct wozgirt_session client;
#define CALL(verb) wozgirt_session_##verb
#define OPEN wozgirt_session_open
#define HEARD client.client.line
#else
static struct wozgirt_lock_client client;
#define CALL(verb) wozgirt_lock_##verb
#define OPEN wozgirt_lock_open_within
#define HEARD client.line
#endif

static sigjmp_buf outside;
static volatile sig_atomic_t may_leave;

static void handle(int signal)
{
    (void)signal;
    if (may_leave) {
        may_leave = 0;
        siglongjmp(outside, 1);
    }
}

static void alarms(long milliseconds, int is_again)
{
    struct itimerval time;
    memset(&time, 0, sizeof time);
    time.it_value.tv_sec = milliseconds / 1000;
    time.it_value.tv_usec = milliseconds % 1000 * 1000;
    if (is_again)
        time.it_interval = time.it_value;
    setitimer(ITIMER_REAL, &time, NULL);
}

/* Does what the words say: what the call returned. */
static int call(const char *verb, const char *name, uint64_t number, int64_t wait, uint64_t *token)
{
    if (strcmp(verb, "open") == 0)
        return OPEN(&client, name, (int64_t)number);
    if (strcmp(verb, "acquire") == 0)
        return CALL(acquire)(&client, name, number, wait, token);
    if (strcmp(verb, "release") == 0)
        return CALL(release)(&client, name, number);
    if (strcmp(verb, "check") == 0)
        return CALL(check)(&client);
    CALL(close)(&client);
    return 0;
}

static void one(const char *line)
{
    char verb[16] = "", name[1200] = "";
    uint64_t number = 0, token = 0;
    int64_t wait = 0, begun = wozgirt_lock_now();
    sscanf(line, "%15s %1199s %" SCNu64 " %" SCNd64, verb, name, &number, &wait);
    errno = 0;
    int result = call(verb, name, number, wait, &token), why = errno;
    printf("%s %d %" PRIu64 " %d %" PRId64 " %s\n", verb, result, token, result == WOZGIRT_LOCK_LOST ? why : 0, wozgirt_lock_now() - begun,
           result == WOZGIRT_LOCK_REFUSED ? HEARD : "");
    fflush(stdout);
}

static void in_child(const char *line)
{
    pid_t child = fork();
    if (child == 0) {
        one(line);
        _exit(0);
    }
    waitpid(child, NULL, 0);
}

/* The child ends with its parent, at the end of the pipe that both have. */
static void nurse(void)
{
    int ends[2];
    char byte;
    if (pipe(ends) == 0 && fork() == 0) {
        close(ends[1]);
        ssize_t got = read(ends[0], &byte, 1);
        _exit((int)got);
    }
    puts("nurse");
    fflush(stdout);
}

static void jump(const char *words)
{
    char *line;
    long milliseconds = strtol(words, &line, 10);
    if (sigsetjmp(outside, 1) == 0) {
        may_leave = 1;
        alarms(milliseconds, 0);
        one(line);
    } else {
        puts("left");
        fflush(stdout);
    }
    may_leave = 0;
    alarms(0, 0);
}

int main(void)
{
    static char line[1400];
    struct sigaction action;
    memset(&action, 0, sizeof action);
    action.sa_handler = handle;
    sigaction(SIGALRM, &action, NULL);
    for (;;) {
        clearerr(stdin);
        if (!fgets(line, sizeof line, stdin)) {
            if (ferror(stdin) && errno == EINTR)
                continue;
            return 0;
        }
        if (strncmp(line, "child ", 6) == 0) {
            in_child(line + 6);
        } else if (strncmp(line, "jump ", 5) == 0) {
            jump(line + 5);
        } else if (strncmp(line, "alarms ", 7) == 0) {
            alarms(strtol(line + 7, NULL, 10), 1);
        } else if (strcmp(line, "nurse\n") == 0) {
            nurse();
        } else {
            one(line);
        }
    }
}
