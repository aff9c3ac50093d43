/* The cost of calls from C: passes on one thread, without and under a mutex, on four threads, the checker on the history of
 * one, and how long a thread waits for its turn. Each round is on a ring of its own, which takes its memory anew, and the
 * rounds are made in turn; the middle one counts. It saves the longest history, so that the same text can be given to
 * `ring_tool check`: speed HISTORY */
#define _POSIX_C_SOURCE 200809L /* clock_gettime, nanosleep */
#include "patient_lock.h"
#include "wozgirt.h"
#include <pthread.h>
#include <stdio.h>
#include <stdlib.h>
#include <time.h>

enum { MACHINES = 16, THREADS = 4, CALLS = 200000, ALL = THREADS * CALLS, CHECKED = 3200000, ROUNDS = 9 };

static const uint32_t start[MACHINES] = {0};

static struct wozgirt_ring ring = {0};
static pthread_mutex_t lock = PTHREAD_MUTEX_INITIALIZER;
static double longest[THREADS];

static double now(void)
{
    struct timespec t;
    clock_gettime(CLOCK_MONOTONIC, &t);
    return (double)t.tv_sec + (double)t.tv_nsec / 1e9;
}

static void stop_on(uint32_t code)
{
    if (code > WOZGIRT_WAITS) {
        fprintf(stderr, "%s\n", wozgirt_text(code));
        exit(1);
    }
}

static void pass(uint32_t seat, uint32_t turn)
{
    struct wozgirt_answer answer;
    stop_on(wozgirt_pass(&ring, seat, turn % MACHINES, 1, &answer));
}

/* Passes by one thread, which needs no lock. */
static void pass_freely(void)
{
    for (uint32_t turn = 0; turn < ALL; turn++)
        pass(0, turn);
}

static void *client(void *given)
{
    const uint32_t seat = (uint32_t)(uintptr_t)given;
    for (uint32_t turn = 0; turn < CALLS; turn++) {
        patient_lock(&lock);
        pass(seat, turn);
        pthread_mutex_unlock(&lock);
    }
    return NULL;
}

/* The same, and notes how long the thread waited at most. */
static void *patient_client(void *given)
{
    const uint32_t seat = (uint32_t)(uintptr_t)given;
    for (uint32_t turn = 0; turn < CALLS; turn++) {
        const double before = now();
        patient_lock(&lock);
        const double waited = now() - before;
        if (waited > longest[seat])
            longest[seat] = waited;
        pass(seat, turn);
        pthread_mutex_unlock(&lock);
    }
    return NULL;
}

/* All passes by one client, of the first seat. */
static void *lone_client(void *given)
{
    for (int part = 0; part < THREADS; part++)
        client(given);
    return NULL;
}

/* Has that many threads work, each for a seat. */
static void on_threads(int count, void *(*work)(void *))
{
    pthread_t threads[THREADS];
    for (intptr_t seat = 0; seat < count; seat++)
        if (pthread_create(&threads[seat], NULL, work, (void *)seat) != 0)
            exit(1);
    for (int seat = 0; seat < count; seat++)
        pthread_join(threads[seat], NULL);
}

static void pass_alone(void)
{
    on_threads(1, lone_client);
}

static void pass_together(void)
{
    on_threads(THREADS, client);
}

static void pass_patiently(void)
{
    on_threads(THREADS, patient_client);
}

/* The nanoseconds of a pass, where all are made so on a ring of their own. */
static double nanoseconds(void (*passes)(void))
{
    stop_on(wozgirt_open(&ring, MACHINES, MACHINES, start, MACHINES, THREADS));
    const double begin = now();
    passes();
    const double end = now();
    wozgirt_close(&ring);
    return (end - begin) * 1e9 / ALL;
}

static int by_size(const void *one, const void *other)
{
    const double a = *(const double *)one, b = *(const double *)other;
    return (a > b) - (a < b);
}

static double middle(double *rounds)
{
    qsort(rounds, ROUNDS, sizeof *rounds, by_size);
    return rounds[ROUNDS / 2];
}

/* Saves a history of many passes to the file, and prints how long the check of it takes. */
static void check_saved(const char *name)
{
    uint64_t size = 0;
    uint8_t none;
    stop_on(wozgirt_open(&ring, MACHINES, MACHINES, start, MACHINES, THREADS));
    for (uint32_t turn = 0; turn < CHECKED; turn++)
        pass(turn % THREADS, turn);
    if (wozgirt_save(&ring, &none, 0, &size) != WOZGIRT_TOO_SMALL)
        exit(1);
    uint8_t *text = malloc(size);
    if (!text)
        exit(1);
    stop_on(wozgirt_save(&ring, text, size, &size));
    wozgirt_close(&ring);
    FILE *file = fopen(name, "wb");
    if (!file || fwrite(text, 1, size, file) != size || fclose(file) != 0)
        exit(1);
    struct wozgirt_sums sums;
    const double begin = now();
    stop_on(wozgirt_check(text, size, &sums));
    const double end = now();
    free(text);
    printf("check of %llu events: %.3f s\n", (unsigned long long)sums.events, end - begin);
}

int main(int count, char **words)
{
    double freely[ROUNDS], alone[ROUNDS], together[ROUNDS], beside[ROUNDS], most = 0;
    if (count != 2) {
        fprintf(stderr, "usage: speed HISTORY\n");
        return 2;
    }
    for (int round = 0; round < ROUNDS; round++) {
        freely[round] = nanoseconds(pass_freely);
        alone[round] = nanoseconds(pass_alone);
        together[round] = nanoseconds(pass_together);
        beside[round] = alone[round] / together[round];
    }
    nanoseconds(pass_patiently);
    for (int seat = 0; seat < THREADS; seat++)
        if (longest[seat] > most)
            most = longest[seat];
    printf("a pass, one thread, no mutex: %.0f ns\n", middle(freely));
    printf("a pass, one thread, under a mutex: %.0f ns\n", middle(alone));
    printf("calls a second, four threads beside one: %.2f\n", middle(beside));
    printf("longest wait of one of four threads: %.1f ms\n", most * 1e3);
    check_saved(words[1]);
    return 0;
}
