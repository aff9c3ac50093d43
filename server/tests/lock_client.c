/* lock_client PATH: takes locks by clients/c/wozgirt_lock.h, and prints what it is answered. The test holds `b` meanwhile. */
#include "wozgirt_lock.h"

/* The token is looked at behind the call that writes it. */
static void say(const char *what, int result, const uint64_t *token)
{
    printf("%s %d %" PRIu64 "\n", what, result, token ? *token : 0);
    fflush(stdout);
}

int main(int count, char **words)
{
    struct wozgirt_lock_client client, other;
    char unheard_of[129];
    uint64_t token = 0, second = 0;
    (void)count;
    memset(unheard_of, 'x', sizeof unheard_of - 1);
    unheard_of[sizeof unheard_of - 1] = '\0';
    int result = wozgirt_lock_open(&client, "/nonexistent/lock.sock"), why = errno;
    say("nowhere", result, NULL);
    puts(strerror(why));
    say("open", wozgirt_lock_open(&client, words[1]), NULL);
    say("open", wozgirt_lock_open(&other, words[1]), NULL);
    say("acquire", wozgirt_lock_acquire(&client, "a", 77, 5000, &token), &token);
    say("try", wozgirt_lock_acquire(&other, "a", 78, 0, &second), &second);
    say("late", wozgirt_lock_acquire(&other, "a", 78, 50, &second), &second);
    say("release", wozgirt_lock_release(&client, "a", token), NULL);
    say("in time", wozgirt_lock_acquire(&other, "a", 78, 5000, &second), &second);
    say("not its own", wozgirt_lock_release(&client, "a", second), NULL);
    puts(client.line);
    say("no such", wozgirt_lock_acquire(&client, unheard_of, 1, -1, &token), NULL);
    say("no name", wozgirt_lock_acquire(&client, "", 1, -1, &token), NULL);
    say("two words", wozgirt_lock_acquire(&client, "a 1\nstop", 1, -1, &token), NULL);
    say("check", wozgirt_lock_check(&client), NULL);
    say("waited for", wozgirt_lock_acquire(&client, "b", UINT64_MAX, -1, &token), &token);
    wozgirt_lock_close(&other);
    say("closed", wozgirt_lock_acquire(&other, "a", 1, 0, &second), NULL);
    say("after it left", wozgirt_lock_acquire(&client, "a", 79, 60000, &second), &second);
    getchar(); /* the server is stopped meanwhile */
    say("gone", wozgirt_lock_check(&client), NULL);
    wozgirt_lock_close(&client);
    return 0;
}
