#include <wozgirt_wait.h>
#include <stdio.h>

static struct wozgirt_wait locks;

static void *work(void *name)
{
    const uint64_t client = *(const char *)name;
    uint64_t token;
    if (wozgirt_wait_acquire(&locks, client, 0, 0, 5000, &token) == WOZGIRT_DONE) {
        printf("token %d\n", (int)token); /* only one thread is here */
        wozgirt_wait_release(&locks, client, 0, token);
    }
    return NULL;
}

int main(void)
{
    pthread_t one, other;
    if (wozgirt_wait_open(&locks, 1, 8) != WOZGIRT_DONE)
        return 1;
    if (pthread_create(&one, NULL, work, "a") != 0 || pthread_create(&other, NULL, work, "b") != 0)
        return 1;
    pthread_join(one, NULL);
    pthread_join(other, NULL);
    wozgirt_wait_close(&locks);
    return 0;
}
