/* Wozgirt for C and C++, and for each language that calls C: Dijkstra's token rings, one ring for each resource, the
 * separate checker of their saved histories, and locks over such rings. The static library is `wozgirt_c`;
 * docs/CLIENTS.md says how it is built, and what is proved of it.
 *
 * The caller has to keep these rules, since nothing checks them:
 *
 *   1. A ring begins as `struct wozgirt_ring ring = {0};`, which is closed. One of the functions `wozgirt_open..` opens it,
 *      `wozgirt_close` closes it, and nobody else writes it or copies it. The same holds for `struct wozgirt_locks`.
 *      Each call of a closed one is refused with WOZGIRT_CLOSED, and opening an open one with WOZGIRT_OPEN.
 *   2. A ring may go from thread to thread, but only one call at a time may use it: threads that share one hold a mutex
 *      around each call, also where the ring is const. Different rings, and `wozgirt_check`, need none.
 *   3. Pointers are not null, are aligned for their type, and point to as many elements as their length says, which
 *      nobody else writes during the call, and the written memory is apart from the memory that is read. For an empty
 *      list any address that is not null serves.
 *   4. malloc, realloc and free are one allocator's, and align a block as C asks.
 *   5. No call is made in a signal's handler, since calls allocate, nor after fork() in the child of a process with
 *      threads. After fork() only one of the two processes uses a ring: if both do, they give the same grant numbers
 *      twice.
 *
 * The numbers of grants begin at 1 with `wozgirt_open` and `wozgirt_open_idle`. A caller that uses them as fencing tokens
 * keeps the journal of the ring on a disk, and resumes by `wozgirt_open_segment`, which continues the numbers ("A journal",
 * below). A till stops at 2^64 - 1: what it would be given beyond that is lost.
 *
 * The library checks each number: it refuses a seat, machine, value or group that a ring does not have, and then nothing
 * has changed. Each function returns a code of `enum wozgirt_code`, if nothing else is said. To poll, use `wozgirt_try`.
 */
#ifndef WOZGIRT_H
#define WOZGIRT_H
#include <stddef.h>
#include <stdint.h>
#ifdef __cplusplus
extern "C" {
#endif

/* The version of this header, as `wozgirt_version` has the library's: compare them before the first call. */
#define WOZGIRT_VERSION 100

enum wozgirt_code {
    WOZGIRT_DONE = 0,           /* granted, written, opened, answered, saved, legal */
    WOZGIRT_WAITS = 1,          /* the machine is not privileged: a pass was recorded, and did no work; a try was not.
                                   Of a lock: the client waits */
    WOZGIRT_BUSY = 2,           /* somebody holds the lock */
    WOZGIRT_NO_MORE = 3,        /* there is no further grant */
    /* a call is refused, and nothing has changed */
    WOZGIRT_NO_SEAT = 16,
    WOZGIRT_NO_MACHINE = 17,
    WOZGIRT_NO_VALUE = 18,      /* the value is not below K */
    WOZGIRT_NOT_RISING = 19,    /* the machines of a group do not rise below n, or there are none */
    WOZGIRT_WHOLE_RING = 20,    /* the group is the whole ring */
    WOZGIRT_NOT_PRIVILEGED = 21, /* a machine of the group is not privileged: the least such one is returned */
    WOZGIRT_HISTORY_FULL = 22,  /* a segment of a history has at most 4,000,000 events: `wozgirt_cut` begins the next */
    WOZGIRT_NO_MEMORY = 23,
    WOZGIRT_CLOSED = 24,        /* the struct holds nothing that is open */
    /* a ring is not opened, and the struct is as it was */
    WOZGIRT_BAD_SEATS = 32,     /* they are not 1 to 10 */
    WOZGIRT_BAD_MACHINES = 33,  /* n is not 2 to 1,024 */
    WOZGIRT_BAD_VALUES = 34,    /* K is not n to 65,536 */
    WOZGIRT_BAD_LENGTH = 35,    /* there are not n start values */
    WOZGIRT_BAD_START = 36,     /* a start value is not below K */
    WOZGIRT_OPEN = 37,          /* the struct holds one that is open: close it first */
    WOZGIRT_BAD_LOCKS = 38,     /* they are not 1 to 1,000,000 */
    /* bytes are not a saved text, or a saved text has no such ring */
    WOZGIRT_SYNTAX = 48,
    WOZGIRT_TRUNCATED = 49,
    WOZGIRT_NO_RING = 50,       /* the text has no ring at this place */
    /* bytes are not a file of a chain that a ring can resume */
    WOZGIRT_NO_CHAIN = 52,      /* what it says of the files before it cannot be */
    WOZGIRT_MANY_RINGS = 53,    /* it is not of one ring */
    /* a saved text is not legal: the fault of its first bad line */
    WOZGIRT_PARAMETER = 64,
    WOZGIRT_RANGE = 65,
    WOZGIRT_REPLY = 66,
    WOZGIRT_COUNT = 67,
    WOZGIRT_SURVEY = 68,
    WOZGIRT_GROUP = 69,
    /* a ring is not saved, or not read */
    WOZGIRT_NO_TILL = 80,       /* a saved text is of tills, and the ring is not over one */
    WOZGIRT_TOO_SMALL = 81,     /* the buffer: the size that is needed is returned */
    WOZGIRT_NO_EVENT = 82,      /* the segment has no event of this number */
    WOZGIRT_NO_JOURNAL = 83,    /* no journal is kept of the segment: call `wozgirt_open_journal` first */
    /* a lock's input is refused, and nothing has changed */
    WOZGIRT_NO_LOCK = 96,
    WOZGIRT_HOLDS = 97,         /* the client holds the lock already */
    WOZGIRT_STANDS = 98,        /* the client waits already */
    WOZGIRT_CIRCLE = 99,        /* the client would wait, step by step, for itself */
    WOZGIRT_NOT_HELD = 100,     /* the client does not hold the lock with this token */
    WOZGIRT_NOT_WAITING = 101,  /* the client does not wait for the lock */
    WOZGIRT_GRANTS_LEFT = 102   /* grants of an earlier input were not taken: call `wozgirt_locks_next` first */
};

/* What the code means, in English. The library has it as a symbol too. */
static inline const char *wozgirt_text(uint32_t code)
{
    switch (code) {
    case WOZGIRT_DONE: return "done";
    case WOZGIRT_WAITS: return "the machine is not privileged";
    case WOZGIRT_BUSY: return "somebody holds the lock";
    case WOZGIRT_NO_MORE: return "there is no further grant";
    case WOZGIRT_NO_SEAT: return "there is no such seat";
    case WOZGIRT_NO_MACHINE: return "there is no such machine";
    case WOZGIRT_NO_VALUE: return "the value is not below K";
    case WOZGIRT_NOT_RISING: return "the machines of the group do not rise, or there are none";
    case WOZGIRT_WHOLE_RING: return "the group is the whole ring";
    case WOZGIRT_NOT_PRIVILEGED: return "a machine of the group is not privileged";
    case WOZGIRT_HISTORY_FULL: return "the history is full";
    case WOZGIRT_NO_MEMORY: return "out of memory";
    case WOZGIRT_CLOSED: return "it is closed";
    case WOZGIRT_BAD_SEATS: return "a ring has 1 to 10 seats";
    case WOZGIRT_BAD_MACHINES: return "a ring has 2 to 1,024 machines";
    case WOZGIRT_BAD_VALUES: return "a ring has at least as many values as machines, and at most 65,536";
    case WOZGIRT_BAD_LENGTH: return "there is not one start value for each machine";
    case WOZGIRT_BAD_START: return "a start value is not below K";
    case WOZGIRT_OPEN: return "it is open already";
    case WOZGIRT_BAD_LOCKS: return "there are 1 to 1,000,000 locks";
    case WOZGIRT_SYNTAX: return "a line cannot be in a saved text";
    case WOZGIRT_TRUNCATED: return "the saved text is cut short";
    case WOZGIRT_NO_RING: return "the saved text has no ring at this place";
    case WOZGIRT_NO_CHAIN: return "no chain of files ends with this one";
    case WOZGIRT_MANY_RINGS: return "the file is not of one ring";
    case WOZGIRT_PARAMETER: return "parameter";
    case WOZGIRT_RANGE: return "range";
    case WOZGIRT_REPLY: return "reply";
    case WOZGIRT_COUNT: return "count";
    case WOZGIRT_SURVEY: return "survey";
    case WOZGIRT_GROUP: return "group";
    case WOZGIRT_NO_TILL: return "the ring is over no till, so it has no saved text";
    case WOZGIRT_TOO_SMALL: return "the buffer is too small";
    case WOZGIRT_NO_EVENT: return "there is no such event";
    case WOZGIRT_NO_JOURNAL: return "no journal is kept";
    case WOZGIRT_NO_LOCK: return "there is no such lock";
    case WOZGIRT_HOLDS: return "the client holds the lock already";
    case WOZGIRT_STANDS: return "the client waits already";
    case WOZGIRT_CIRCLE: return "the client would wait for itself";
    case WOZGIRT_NOT_HELD: return "the client does not hold the lock with this token";
    case WOZGIRT_NOT_WAITING: return "the client does not wait for the lock";
    case WOZGIRT_GRANTS_LEFT: return "grants were not taken";
    default: return "no code of this library";
    }
}

/* A ring. The memory that it points to is the library's; at null it is closed. */
struct wozgirt_ring {
    void *at;
};

/* The answer to a call. */
struct wozgirt_answer {
    uint64_t position; /* how many events are before it, over all segments, as all numbers are counted */
    uint64_t number;   /* of a granted pass: which grant of the ring it is, from 1 and without a gap: a fencing token */
    uint64_t result;   /* of a granted pass: the resource's answer; of a fault: the value that was written over */
};

/* The answer to a group. */
struct wozgirt_group {
    uint64_t first;   /* how many events are before its first member */
    uint64_t number;  /* which grant that member's is; those of the others follow */
    uint64_t result;  /* the resource's answer to that member; over a till each further one gets more by the order */
    uint32_t count;   /* how many members it has */
    uint32_t machine; /* with WOZGIRT_NOT_PRIVILEGED: the least machine that is not privileged */
};

/* A survey of a ring. */
struct wozgirt_sight {
    uint64_t position;   /* how many events there were */
    uint64_t calm;       /* how many passes were granted since the last fault */
    uint64_t rest;       /* at most this many granted passes are left until one machine is privileged */
    uint32_t privileged; /* how many machines are privileged */
    uint32_t first;      /* the least of them */
};

/* The sums of a legal text; of any other its first bad line, and 0 elsewhere. */
struct wozgirt_sums {
    uint64_t events, granted, corrupted, surveys;
    uint64_t line; /* from 1 */
    uint32_t rings;
};

/* What an event of a history is. */
enum wozgirt_kind {
    WOZGIRT_PASSED = 0,  /* a pass that was granted */
    WOZGIRT_WAITED = 1,  /* a pass by a machine that was not privileged */
    WOZGIRT_MEMBER = 2,  /* the pass of one machine of a group */
    WOZGIRT_FAULT = 3    /* a value was written into a machine */
};

/* An event of a history; what does not belong to its kind is 0. */
struct wozgirt_event {
    uint64_t order;   /* of a pass */
    uint64_t number;  /* of a granted pass: which grant it is */
    uint64_t result;  /* of a granted pass: the resource's answer; of a fault: the value that was written over */
    uint32_t kind;    /* of `enum wozgirt_kind` */
    uint32_t seat;
    uint32_t machine;
    uint32_t value;   /* of a fault: the value that was written; of a member: how many of its group are still to come */
};

/* Opens a ring of n machines and K values that starts so, over a till: each granted pass adds its order, and the
 * answer is the new amount. It has `seats` seats, from 0. The first refusal that applies: WOZGIRT_OPEN, BAD_SEATS,
 * BAD_MACHINES, BAD_VALUES, BAD_LENGTH, BAD_START; NO_MEMORY only where there is none of these. */
uint32_t wozgirt_open(struct wozgirt_ring *ring, uint32_t n, uint32_t k, const uint32_t *start, size_t start_length,
                      uint32_t seats);

/* The same over a resource that does no work, and then nothing can be saved. */
uint32_t wozgirt_open_idle(struct wozgirt_ring *ring, uint32_t n, uint32_t k, const uint32_t *start, size_t start_length,
                           uint32_t seats);

/* Opens a ring that resumes the one at this place, from 0, of a saved text, with its surveys. The first refusal that
 * applies: WOZGIRT_OPEN; what `wozgirt_check` refuses the text with; NO_RING; BAD_SEATS; NO_SEAT if the text names a
 * seat that the ring would not have; HISTORY_FULL; NO_MEMORY. `sums` is written as by `wozgirt_check`, whatever comes
 * after the check; with WOZGIRT_OPEN it is not written. */
uint32_t wozgirt_open_saved(struct wozgirt_ring *ring, const uint8_t *text, size_t length, uint32_t place, uint32_t seats,
                            struct wozgirt_sums *sums);

/* A seat asks for a machine's pass: WOZGIRT_DONE if it was granted, WOZGIRT_WAITS if the machine is not privileged. */
uint32_t wozgirt_pass(struct wozgirt_ring *ring, uint32_t seat, uint32_t machine, uint64_t order,
                      struct wozgirt_answer *answer);

/* The same, but if the machine is not privileged, nothing is recorded and the answer is not written. Use it to poll, since
 * each WOZGIRT_WAITS of `wozgirt_pass` is an event of the history, which can be full. */
uint32_t wozgirt_try(struct wozgirt_ring *ring, uint32_t seat, uint32_t machine, uint64_t order,
                     struct wozgirt_answer *answer);

/* A seat asks for the passes of machines whose numbers rise, all at once: all are granted, or none. */
uint32_t wozgirt_pass_group(struct wozgirt_ring *ring, uint32_t seat, const uint32_t *machines, size_t count, uint64_t order,
                            struct wozgirt_group *answer);

/* A fault: a value is written into a machine. */
uint32_t wozgirt_corrupt(struct wozgirt_ring *ring, uint32_t seat, uint32_t machine, uint32_t value,
                         struct wozgirt_answer *answer);

/* The survey of the ring, which the seat's log keeps; a glance is kept nowhere. */
uint32_t wozgirt_survey(struct wozgirt_ring *ring, uint32_t seat, struct wozgirt_sight *sight);
uint32_t wozgirt_glance(const struct wozgirt_ring *ring, struct wozgirt_sight *sight);

/* How many events there were. */
uint32_t wozgirt_history_length(const struct wozgirt_ring *ring, uint64_t *length);

/* How many of them are before the segment, and so gone. */
uint32_t wozgirt_events_before(const struct wozgirt_ring *ring, uint64_t *count);

/* The event of this number, from 0; of one that is gone WOZGIRT_NO_EVENT. */
uint32_t wozgirt_event_at(const struct wozgirt_ring *ring, uint64_t number, struct wozgirt_event *event);

/* Writes the saved text of the ring as it is now into the buffer, and returns its size. WOZGIRT_TOO_SMALL: nothing is
 * written, but the size is returned, so a buffer of length 0 asks for it. The ring stays as it was. It does not allocate.
 * After a `wozgirt_cut` this is the text of the new segment, whose numbers begin anew. */
uint32_t wozgirt_save(const struct wozgirt_ring *ring, uint8_t *buffer, size_t length, uint64_t *size);

/* ---- A journal, and a history without end, of a ring over a till (else WOZGIRT_NO_TILL). The history is cut into segments,
 * each of which is a file of a chain, as `ring_tool serve` keeps one in a directory: 0000000001.ring and so on, which
 * `ring_tool check FOLDER` checks. The caller writes the files:
 *
 *   1. `wozgirt_open_journal`: write the bytes as a new file, fsync it, and rename it to the segment's file. Then make the
 *      calls. After each, or after several, `wozgirt_take_journal`: append the bytes to the file and fsync it, before any
 *      program acts on the answers.
 *   2. When the segment is long enough, `wozgirt_cut`: replace its file with the bytes by a rename, and begin the next file
 *      with 1.
 *   3. To resume, `wozgirt_open_segment` with the bytes of the last file, whatever was cut off of it, and then 1.
 *
 * So numbers never repeat, as long as one process at a time resumes from a file. Each of the three calls writes bytes into a
 * buffer, and is WOZGIRT_TOO_SMALL as `wozgirt_save` is; nothing has changed then. */

/* The beginning of the journal of the ring's segment: its file with all of the segment so far. A journal is kept from then
 * on. */
uint32_t wozgirt_open_journal(struct wozgirt_ring *ring, uint8_t *buffer, size_t length, uint64_t *size);

/* What was recorded since the journal was opened or taken from: a line for each event, and then one for each survey. Each is
 * handed out once. WOZGIRT_NO_JOURNAL if none is kept. */
uint32_t wozgirt_take_journal(struct wozgirt_ring *ring, uint8_t *buffer, size_t length, uint64_t *size);

/* Seals the segment: the whole file of it. The ring continues in the next segment, with its numbers, and no journal of that is
 * kept yet. WOZGIRT_HISTORY_FULL if the numbers of a further segment would not fit into 64 bits. */
uint32_t wozgirt_cut(struct wozgirt_ring *ring, uint8_t *buffer, size_t length, uint64_t *size);

/* Opens a ring that resumes where the last file of a chain ends. The first refusal that applies: WOZGIRT_OPEN; TRUNCATED,
 * SYNTAX or what is wrong with a line, which is written, from 1; NO_CHAIN, HISTORY_FULL; MANY_RINGS; BAD_SEATS; NO_SEAT if
 * the file names a seat that the ring would not have; NO_MEMORY. With another code the line is 0, with WOZGIRT_OPEN it is
 * not written. */
uint32_t wozgirt_open_segment(struct wozgirt_ring *ring, const uint8_t *file, size_t length, uint32_t seats, uint64_t *line);

/* Closes the ring and frees what it has: the struct is empty then. A closed one stays as it is. */
void wozgirt_close(struct wozgirt_ring *ring);

/* The separate checker: whether the bytes are a legal saved text, with its sums, or else the first bad line. */
uint32_t wozgirt_check(const uint8_t *text, size_t length, struct wozgirt_sums *sums);

/* The library's version: 10,000 times its first number, 100 times its second, and its third. */
uint32_t wozgirt_version(void);

/* ---- Locks: the machine that `ring_tool locks` runs, for clients that the caller names by numbers of its own. No call
 * blocks: a client that waits gets a later grant, which `wozgirt_locks_next` hands out. The rules for a ring hold for locks
 * too. */

/* Locks. The memory that they point to is the library's; at null they are closed. */
struct wozgirt_locks {
    void *at;
};

/* The answer to a client that acquires a lock. */
struct wozgirt_hold {
    uint64_t token; /* of a grant: its fencing token. The tokens of a lock rise */
    uint64_t ahead; /* with WOZGIRT_WAITS: how many clients wait before this one */
};

/* A lock that was granted to a client that waited. */
struct wozgirt_grant {
    uint64_t client;
    uint64_t token;
    uint32_t lock;
};

/* Opens `count` locks that nobody holds, from 0, each over a ring of `machines` machines. The first refusal that applies:
 * WOZGIRT_OPEN, BAD_LOCKS, BAD_MACHINES; NO_MEMORY. */
uint32_t wozgirt_locks_open(struct wozgirt_locks *locks, uint32_t count, uint32_t machines);

/* A client acquires a lock: WOZGIRT_DONE if it holds it now, WOZGIRT_WAITS if it waits. The order is a label that the
 * caller chooses and the lock's history keeps. Refused, the first that applies: WOZGIRT_CLOSED, GRANTS_LEFT, NO_LOCK,
 * HOLDS, STANDS, CIRCLE; HISTORY_FULL if the lock was granted some 4,000,000 times, NO_MEMORY. */
uint32_t wozgirt_locks_acquire(struct wozgirt_locks *locks, uint64_t client, uint32_t lock, uint64_t order,
                               struct wozgirt_hold *hold);

/* The same, but the client does not wait: WOZGIRT_BUSY if another client holds the lock. STANDS only of this lock; never
 * CIRCLE. */
uint32_t wozgirt_locks_try(struct wozgirt_locks *locks, uint64_t client, uint32_t lock, uint64_t order,
                           struct wozgirt_hold *hold);

/* A client ends its hold, which has this token. Refused: WOZGIRT_CLOSED, GRANTS_LEFT, NO_LOCK, NOT_HELD, but never
 * because memory runs out. `wozgirt_locks_next` says which client gets the lock. */
uint32_t wozgirt_locks_release(struct wozgirt_locks *locks, uint64_t client, uint32_t lock, uint64_t token);

/* A client stops waiting. Refused: WOZGIRT_CLOSED, GRANTS_LEFT, NO_LOCK, NOT_WAITING. */
uint32_t wozgirt_locks_cancel(struct wozgirt_locks *locks, uint64_t client, uint32_t lock);

/* A client leaves all locks: then it holds none and waits for none. Refused: WOZGIRT_CLOSED, GRANTS_LEFT. */
uint32_t wozgirt_locks_leave(struct wozgirt_locks *locks, uint64_t client);

/* A grant to a client that waited, one of those that the last input brought about: WOZGIRT_DONE, or WOZGIRT_NO_MORE if
 * all were handed out. Until then every other input is refused. */
uint32_t wozgirt_locks_next(struct wozgirt_locks *locks, struct wozgirt_grant *grant);

/* Begins a new segment of each lock's history, as when HISTORY_FULL says that one is full. Holds, waits and tokens
 * continue, and the old histories are freed. Refused: WOZGIRT_CLOSED, GRANTS_LEFT, HISTORY_FULL if numbers would not fit
 * into 64 bits, NO_MEMORY, and the locks are as they were. */
uint32_t wozgirt_locks_cut(struct wozgirt_locks *locks);

/* Closes the locks and frees what they have: the struct is empty then. A closed one stays as it is. */
void wozgirt_locks_close(struct wozgirt_locks *locks);

#ifdef __cplusplus
}
#endif
#endif
