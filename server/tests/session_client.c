/* session_client SERVERS LEASE: does what the lines of its input say by clients/c/wozgirt_session.h, and prints what it is answered:
 * `acquire NAME LABEL WAIT`, `release NAME TOKEN`, `check`, `close`. */
#include "wozgirt_session.h"
#include <stdlib.h>

int main(int count, char **words)
{
    struct wozgirt_session session;
    char line[512], verb[16], name[256];
    uint64_t number, token = 0;
    int64_t wait;
    printf("open %d\n", count == 3 ? wozgirt_session_open(&session, words[1], atoll(words[2])) : -1);
    fflush(stdout);
    while (fgets(line, sizeof line, stdin)) {
        int result = WOZGIRT_LOCK_NAME;
        number = 0;
        wait = 0;
        name[0] = '\0';
        sscanf(line, "%15s %255s %" SCNu64 " %" SCNd64, verb, name, &number, &wait);
        if (strcmp(verb, "acquire") == 0)
            result = wozgirt_session_acquire(&session, name, number, wait, &token);
        else if (strcmp(verb, "release") == 0)
            result = wozgirt_session_release(&session, name, number);
        else if (strcmp(verb, "check") == 0)
            result = wozgirt_session_check(&session);
        else
            wozgirt_session_close(&session);
        if (strcmp(verb, "acquire") == 0 && result == WOZGIRT_LOCK_DONE)
            printf("%s %d %" PRIu64 "\n", verb, result, token);
        else if (result == WOZGIRT_LOCK_REFUSED)
            printf("%s %d %s\n", verb, result, session.client.line);
        else
            printf("%s %d\n", verb, result);
        fflush(stdout);
    }
    return 0;
}
