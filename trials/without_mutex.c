/* Two threads that use one ring with no mutex, against the rule of wozgirt.h: trials/sanitizers.sh runs it under helgrind, which has to
 * find that the library reads and writes the same memory in both. */
#include "wozgirt.h"
#include <pthread.h>
#include <stddef.h>

static struct wozgirt_ring ring = {0};

static void *look(void *unused)
{
    struct wozgirt_sight sight;
    (void)unused;
    for (int turn = 0; turn < 10; turn++)
        wozgirt_glance(&ring, &sight);
    return NULL;
}

int main(void)
{
    const uint32_t start[3] = {0, 0, 0};
    struct wozgirt_answer answer;
    pthread_t thread;
    if (wozgirt_open(&ring, 3, 3, start, 3, 1) != WOZGIRT_DONE || pthread_create(&thread, NULL, look, NULL) != 0)
        return 1;
    wozgirt_pass(&ring, 0, 0, 1, &answer);
    pthread_join(thread, NULL);
    wozgirt_close(&ring);
    return 0;
}
