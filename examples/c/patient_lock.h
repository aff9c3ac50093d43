/* How threads should wait for a ring. A call takes some tens of nanoseconds, and to take the ring over from another
 * processor costs as much as many calls. So a thread that finds the lock held tries a few times and then sleeps, each time
 * for longer, and so backs off from the one that has the ring. A thread that slept many times waits at the mutex itself:
 * every unlock wakes it until it has the lock. */
#ifndef PATIENT_LOCK_H
#define PATIENT_LOCK_H

#include <pthread.h>
#include <time.h>

enum { PATIENT_TRIES = 20, PATIENT_SLEEPS = 12, PATIENT_LEAST = 50000, PATIENT_MOST = 500000 }; /* the last two in nanoseconds */

static inline void patient_lock(pthread_mutex_t *lock)
{
    struct timespec sleep = {0, PATIENT_LEAST};
    for (int turn = 0; turn < PATIENT_SLEEPS; turn++) {
        for (int attempt = 0; attempt < PATIENT_TRIES; attempt++)
            if (pthread_mutex_trylock(lock) == 0)
                return;
        nanosleep(&sleep, NULL);
        if (sleep.tv_nsec < PATIENT_MOST)
            sleep.tv_nsec *= 2;
    }
    pthread_mutex_lock(lock);
}

#endif
