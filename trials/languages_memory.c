/* Plays one scene twice by the calls from C, and compares the two saved texts. A call that is refused because memory runs out must
 * have changed nothing, and is made once more; so where one request for memory is refused, as trials/languages.sh has it with
 * trials/refuse_memory.c, both scenes end alike; and locks are given all the same. Status 0 if so. */
#include "wozgirt.h"
#include <string.h>

enum { MOST = 16384 };

struct scene {
    uint8_t text[MOST];
    uint64_t size;
};

static int open_one(struct wozgirt_ring *ring, const struct scene *from)
{
    const uint32_t start[3] = {0, 2, 0};
    struct wozgirt_sums sums;
    for (int tries = 0; tries < 2; tries++) {
        const uint32_t code = from ? wozgirt_open_saved(ring, from->text, from->size, 0, 2, &sums) : wozgirt_open(ring, 3, 3, start, 3, 2);
        if (code == WOZGIRT_DONE)
            return 1;
        if (code != WOZGIRT_NO_MEMORY || ring->at)
            return 0;
    }
    return 0;
}

/* The call of this number: its code. */
static uint32_t call(struct wozgirt_ring *ring, int number)
{
    const uint32_t group[2] = {1, 2};
    struct wozgirt_answer answer;
    struct wozgirt_group members;
    struct wozgirt_sight sight;
    switch (number % 5) {
    case 0: return wozgirt_pass(ring, 0, (uint32_t)number % 3, 5, &answer);
    case 1: return wozgirt_survey(ring, 1, &sight);
    case 2: return wozgirt_corrupt(ring, 1, 1, (uint32_t)number % 3, &answer);
    case 3: return wozgirt_pass_group(ring, 0, group, (uint32_t)number % 2 + 1, 4, &members);
    default: return wozgirt_pass(ring, 1, (uint32_t)number % 3, 7, &answer);
    }
}

static int call_all(struct wozgirt_ring *ring)
{
    for (int number = 0; number < 60; number++) {
        uint64_t before = 0, after = 0;
        if (wozgirt_history_length(ring, &before) != WOZGIRT_DONE)
            return 0;
        uint32_t code = call(ring, number);
        if (code == WOZGIRT_NO_MEMORY) {
            if (wozgirt_history_length(ring, &after) != WOZGIRT_DONE || after != before)
                return 0;
            code = call(ring, number);
        }
        if (code > WOZGIRT_WAITS && code != WOZGIRT_NOT_PRIVILEGED)
            return 0;
    }
    return 1;
}

static int save(struct wozgirt_ring *ring, struct scene *scene)
{
    scene->size = 7;
    uint32_t code = wozgirt_save(ring, scene->text, MOST, &scene->size);
    if (code == WOZGIRT_NO_MEMORY) {
        if (scene->size != 7)
            return 0;
        code = wozgirt_save(ring, scene->text, MOST, &scene->size);
    }
    return code == WOZGIRT_DONE;
}

static int is_legal(const struct scene *scene)
{
    struct wozgirt_sums sums;
    uint32_t code = wozgirt_check(scene->text, scene->size, &sums);
    if (code == WOZGIRT_NO_MEMORY)
        code = wozgirt_check(scene->text, scene->size, &sums);
    return code == WOZGIRT_DONE;
}

/* The scene: a ring that is opened, called and saved, and one that resumes from there. */
static int play(struct scene *first, struct scene *second)
{
    struct wozgirt_ring ring = {0}, on = {0};
    if (!open_one(&ring, NULL) || !call_all(&ring) || !save(&ring, first))
        return 0;
    wozgirt_close(&ring);
    if (!open_one(&on, first) || !call_all(&on) || !save(&on, second))
        return 0;
    wozgirt_close(&on);
    return is_legal(first) && is_legal(second);
}

typedef uint32_t texts(struct wozgirt_ring *ring, uint8_t *buffer, size_t length, uint64_t *size);

/* Puts a text of a ring behind others, also where the first call is refused for want of memory. */
static int add(texts *call, struct wozgirt_ring *ring, struct scene *scene)
{
    uint64_t size = 7;
    uint32_t code = call(ring, scene->text + scene->size, MOST - scene->size, &size);
    if (code == WOZGIRT_NO_MEMORY && size == 7)
        code = call(ring, scene->text + scene->size, MOST - scene->size, &size);
    scene->size += size;
    return code == WOZGIRT_DONE;
}

/* The scene with a journal, which is cut once; a ring goes on in the file that was cut. */
static int play_files(struct scene *scene)
{
    struct wozgirt_ring ring = {0}, on = {0};
    uint64_t line = 7;
    scene->size = 0;
    if (!open_one(&ring, NULL) || !add(wozgirt_open_journal, &ring, scene) || !call_all(&ring) || !add(wozgirt_take_journal, &ring, scene))
        return 0;
    const uint64_t at = scene->size;
    if (!add(wozgirt_cut, &ring, scene) || !add(wozgirt_open_journal, &ring, scene))
        return 0;
    wozgirt_close(&ring);
    uint32_t code = wozgirt_open_segment(&on, scene->text, at, 2, &line);
    if (code == WOZGIRT_NO_MEMORY && !on.at)
        code = wozgirt_open_segment(&on, scene->text, at, 2, &line);
    const int is_right = code == WOZGIRT_DONE && line == 0 && add(wozgirt_cut, &on, scene);
    wozgirt_close(&on);
    return is_right;
}

/* A client acquires lock 0: what it is told, also where the first ask is refused for want of memory. */
static uint32_t acquired(struct wozgirt_locks *locks, uint64_t client, struct wozgirt_hold *hold)
{
    const uint32_t code = wozgirt_locks_acquire(locks, client, 0, client, hold);
    return code == WOZGIRT_NO_MEMORY ? wozgirt_locks_acquire(locks, client, 0, client, hold) : code;
}

/* Three clients want a lock. Whoever ends a hold, or waits no more, is not refused for want of memory. */
static int play_locks(void)
{
    struct wozgirt_locks locks = {0};
    struct wozgirt_hold hold = {0, 0};
    struct wozgirt_grant grant = {0, 0, 0};
    uint32_t code = wozgirt_locks_open(&locks, 2, 4);
    if (code == WOZGIRT_NO_MEMORY && !locks.at)
        code = wozgirt_locks_open(&locks, 2, 4);
    int is_right = code == WOZGIRT_DONE && acquired(&locks, 1, &hold) == WOZGIRT_DONE && hold.token == 1;
    is_right = is_right && acquired(&locks, 2, &hold) == WOZGIRT_WAITS && hold.ahead == 0;
    is_right = is_right && acquired(&locks, 3, &hold) == WOZGIRT_WAITS && hold.ahead == 1;
    is_right = is_right && wozgirt_locks_release(&locks, 1, 0, 1) == WOZGIRT_DONE;
    is_right = is_right && wozgirt_locks_next(&locks, &grant) == WOZGIRT_DONE && grant.client == 2 && grant.token == 2;
    is_right = is_right && wozgirt_locks_next(&locks, &grant) == WOZGIRT_NO_MORE;
    is_right = is_right && wozgirt_locks_cancel(&locks, 3, 0) == WOZGIRT_DONE && wozgirt_locks_leave(&locks, 2) == WOZGIRT_DONE;
    is_right = is_right && wozgirt_locks_next(&locks, &grant) == WOZGIRT_NO_MORE;
    is_right = is_right && acquired(&locks, 3, &hold) == WOZGIRT_DONE && hold.token == 3;
    wozgirt_locks_close(&locks);
    return is_right;
}

static struct scene scenes[6];

int main(void)
{
    if (!play(&scenes[0], &scenes[1]) || !play(&scenes[2], &scenes[3]))
        return 1;
    for (int i = 0; i < 2; i++)
        if (scenes[i].size != scenes[i + 2].size || memcmp(scenes[i].text, scenes[i + 2].text, scenes[i].size) != 0)
            return 2;
    if (!play_files(&scenes[4]) || !play_files(&scenes[5]))
        return 4;
    if (scenes[4].size != scenes[5].size || memcmp(scenes[4].text, scenes[5].text, scenes[4].size) != 0)
        return 5;
    return play_locks() ? 0 : 3;
}
