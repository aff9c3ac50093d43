/* So many calls from C, to count their instructions (calls.sh): calls loop|idle|till|locks MACHINES COUNT. A pass is granted each
 * time. With `locks`, each is an acquire and a release by one client, and with `loop` there is no call. */
#include "wozgirt.h"
#include <stdio.h>
#include <stdlib.h>
#include <string.h>

static uint32_t start[1024];

static void stop_on(uint32_t code)
{
    if (code != WOZGIRT_DONE) {
        fprintf(stderr, "%s\n", wozgirt_text(code));
        exit(1);
    }
}

/* The same shape as the call, in another unit for the compiler. */
__attribute__((noinline)) static uint32_t nothing(struct wozgirt_ring *ring, uint32_t seat, uint32_t machine, uint64_t order,
                                                  struct wozgirt_answer *out)
{
    __asm__ volatile("" ::"r"(ring), "r"(seat), "r"(machine), "r"(order), "r"(out) : "memory");
    return 0;
}

static void pass_round(uint32_t machines, uint32_t count, int calls)
{
    struct wozgirt_ring ring = {0};
    struct wozgirt_answer answer;
    uint32_t machine = 0;
    stop_on(calls == 2 ? wozgirt_open(&ring, machines, machines, start, machines, 1)
                       : wozgirt_open_idle(&ring, machines, machines, start, machines, 1));
    for (uint32_t turn = 0; turn < count; turn++) {
        stop_on(calls ? wozgirt_pass(&ring, 0, machine, 1, &answer) : nothing(&ring, 0, machine, 1, &answer));
        machine = machine + 1 < machines ? machine + 1 : 0;
    }
    wozgirt_close(&ring);
}

static void lock_and_release(uint32_t machines, uint32_t count)
{
    struct wozgirt_locks locks = {0};
    struct wozgirt_hold hold;
    stop_on(wozgirt_locks_open(&locks, 1, machines));
    for (uint32_t turn = 0; turn < count; turn++) {
        stop_on(wozgirt_locks_acquire(&locks, 7, 0, 1, &hold));
        stop_on(wozgirt_locks_release(&locks, 7, 0, hold.token));
    }
    wozgirt_locks_close(&locks);
}

int main(int argc, char **argv)
{
    if (argc != 4)
        return 2;
    const uint32_t machines = (uint32_t)atoi(argv[2]), count = (uint32_t)atoi(argv[3]);
    if (strcmp(argv[1], "locks") == 0)
        lock_and_release(machines, count);
    else
        pass_round(machines, count, strcmp(argv[1], "till") == 0 ? 2 : strcmp(argv[1], "idle") == 0);
    return 0;
}
