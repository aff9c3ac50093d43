/* Four threads share one ring under a mutex, a fault is injected in the middle, and the history is saved:
 *
 *     four_threads HISTORY
 *
 * `ring_tool check HISTORY` judges it then; so does `wozgirt_check` here. */
#define _POSIX_C_SOURCE 200809L /* nanosleep */
#include "patient_lock.h"
#include "wozgirt.h"
#include <pthread.h>
#include <stdio.h>
#include <stdlib.h>

enum { MACHINES = 5, VALUES = 6, THREADS = 4, CALLS = 50000 };

static struct wozgirt_ring ring = {0};
static pthread_mutex_t lock = PTHREAD_MUTEX_INITIALIZER;
static uint64_t last_token = 0; /* what the guarded resource has seen */

static void stop_on(uint32_t code, const char *what)
{
    if (code > WOZGIRT_WAITS) {
        fprintf(stderr, "%s: %s\n", what, wozgirt_text(code));
        exit(1);
    }
}

/* The guarded resource: it takes a grant's number as its fencing token, and each only once. */
static void work(uint64_t token)
{
    if (token != last_token + 1) {
        fprintf(stderr, "a token came twice, or too early\n");
        exit(1);
    }
    last_token = token;
}

static void *client(void *given)
{
    const uint32_t seat = (uint32_t)(uintptr_t)given;
    struct wozgirt_answer answer;
    uint64_t granted = 0;
    for (uint32_t turn = 0; turn < CALLS; turn++) {
        patient_lock(&lock);
        const uint32_t code = wozgirt_pass(&ring, seat, (seat + turn) % MACHINES, 1, &answer);
        stop_on(code, "pass");
        if (code == WOZGIRT_DONE) {
            work(answer.number);
            granted++;
        }
        if (seat == 0 && turn == CALLS / 2)
            stop_on(wozgirt_corrupt(&ring, seat, 3, 2, &answer), "corrupt");
        pthread_mutex_unlock(&lock);
    }
    return (void *)(uintptr_t)granted;
}

static uint8_t *saved(uint64_t *size)
{
    uint8_t none;
    const uint32_t asked = wozgirt_save(&ring, &none, 0, size);
    if (asked != WOZGIRT_TOO_SMALL)
        stop_on(asked, "save");
    uint8_t *text = malloc(*size);
    if (!text) {
        fprintf(stderr, "out of memory\n");
        exit(1);
    }
    stop_on(wozgirt_save(&ring, text, *size, size), "save");
    return text;
}

int main(int count, char **words)
{
    const uint32_t start[MACHINES] = {0, 2, 4, 1, 3};
    pthread_t threads[THREADS];
    uint64_t granted = 0, size = 0;
    if (count != 2) {
        fprintf(stderr, "usage: four_threads HISTORY\n");
        return 2;
    }
    stop_on(wozgirt_open(&ring, MACHINES, VALUES, start, MACHINES, THREADS), "open");
    for (uintptr_t seat = 0; seat < THREADS; seat++)
        if (pthread_create(&threads[seat], NULL, client, (void *)seat) != 0) {
            fprintf(stderr, "no thread\n");
            return 1;
        }
    for (int seat = 0; seat < THREADS; seat++) {
        void *had;
        pthread_join(threads[seat], &had);
        granted += (uintptr_t)had;
    }
    struct wozgirt_sight sight;
    stop_on(wozgirt_survey(&ring, 0, &sight), "survey");
    uint8_t *text = saved(&size);
    wozgirt_close(&ring);
    FILE *file = fopen(words[1], "wb");
    if (!file || fwrite(text, 1, size, file) != size || fclose(file) != 0) {
        fprintf(stderr, "cannot write %s\n", words[1]);
        return 1;
    }
    struct wozgirt_sums sums;
    const uint32_t verdict = wozgirt_check(text, size, &sums);
    free(text);
    printf("events %llu granted %s corrupted %llu surveys %llu verdict %s\n", (unsigned long long)sums.events,
           sums.granted == granted ? "as told" : "otherwise", (unsigned long long)sums.corrupted,
           (unsigned long long)sums.surveys, verdict == WOZGIRT_DONE ? "legal" : wozgirt_text(verdict));
    return verdict == WOZGIRT_DONE && sums.granted == granted ? 0 : 1;
}
