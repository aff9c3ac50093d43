/* Each refusal of the library, by its code: what a caller gets for numbers, buffers and texts that cannot be. */
#include "wozgirt.h"
#include <stdio.h>
#include <stdlib.h>
#include <string.h>

static int failed = 0;

static void expect(const char *what, uint64_t is, uint64_t wanted)
{
    if (is != wanted) {
        printf("%s: %llu, wanted %llu\n", what, (unsigned long long)is, (unsigned long long)wanted);
        failed = 1;
    }
}

/* How many events the history has, or the code of why that is not told. */
static uint64_t events_of(const struct wozgirt_ring *ring)
{
    uint64_t length = 0;
    const uint32_t code = wozgirt_history_length(ring, &length);
    return code == WOZGIRT_DONE ? length : code;
}

/* A ring that is closed: each call says so, and writes nothing. */
static void closed(struct wozgirt_ring *ring)
{
    struct wozgirt_answer answer = {7, 7, 7};
    struct wozgirt_group group = {7, 7, 7, 7, 7};
    struct wozgirt_sight sight = {7, 7, 7, 7, 7};
    struct wozgirt_event event = {7, 7, 7, 7, 7, 7, 7};
    const uint32_t one[1] = {2};
    uint8_t text[1] = {'x'};
    uint64_t size = 7;
    expect("a closed ring's pass", wozgirt_pass(ring, 0, 0, 5, &answer), WOZGIRT_CLOSED);
    expect("its try", wozgirt_try(ring, 0, 0, 5, &answer), WOZGIRT_CLOSED);
    expect("its fault", wozgirt_corrupt(ring, 0, 0, 0, &answer), WOZGIRT_CLOSED);
    expect("its group", wozgirt_pass_group(ring, 0, one, 1, 5, &group), WOZGIRT_CLOSED);
    expect("its survey", wozgirt_survey(ring, 0, &sight), WOZGIRT_CLOSED);
    expect("its glance", wozgirt_glance(ring, &sight), WOZGIRT_CLOSED);
    expect("its length", wozgirt_history_length(ring, &size), WOZGIRT_CLOSED);
    expect("its event", wozgirt_event_at(ring, 0, &event), WOZGIRT_CLOSED);
    expect("its text", wozgirt_save(ring, text, 1, &size), WOZGIRT_CLOSED);
    expect("nothing was written", answer.position == 7 && group.first == 7 && sight.calm == 7 && event.seat == 7 && size == 7 && text[0] == 'x', 1);
    wozgirt_close(ring);
    expect("closed again", ring->at == NULL, 1);
}

static void opened(void)
{
    const uint32_t start[3] = {0, 2, 0}, high[3] = {0, 3, 0};
    struct wozgirt_ring ring = {0};
    expect("no seats", wozgirt_open(&ring, 3, 3, start, 3, 0), WOZGIRT_BAD_SEATS);
    expect("eleven seats", wozgirt_open(&ring, 3, 3, start, 3, 11), WOZGIRT_BAD_SEATS);
    expect("one machine", wozgirt_open(&ring, 1, 3, start, 1, 1), WOZGIRT_BAD_MACHINES);
    expect("1,025 machines", wozgirt_open(&ring, 1025, 2000, start, 3, 1), WOZGIRT_BAD_MACHINES);
    expect("K below n", wozgirt_open(&ring, 3, 2, start, 3, 1), WOZGIRT_BAD_VALUES);
    expect("K past the limit", wozgirt_open(&ring, 3, 65537, start, 3, 1), WOZGIRT_BAD_VALUES);
    expect("a start value less", wozgirt_open(&ring, 3, 3, start, 2, 1), WOZGIRT_BAD_LENGTH);
    expect("a start value of K", wozgirt_open(&ring, 3, 3, high, 3, 1), WOZGIRT_BAD_START);
    expect("the struct is as it was", ring.at == NULL, 1);
    closed(&ring);
    expect("open", wozgirt_open(&ring, 3, 3, start, 3, 1), WOZGIRT_DONE);
    void *const at = ring.at;
    expect("open again", wozgirt_open(&ring, 3, 3, start, 3, 1), WOZGIRT_OPEN);
    expect("over no till", wozgirt_open_idle(&ring, 3, 3, start, 3, 1), WOZGIRT_OPEN);
    expect("the ring is as it was", ring.at == at, 1);
    wozgirt_close(&ring);
    expect("the struct is empty", ring.at == NULL, 1);
    closed(&ring);
}

static void called(struct wozgirt_ring *ring)
{
    struct wozgirt_answer answer = {7, 7, 7};
    struct wozgirt_group group = {7, 7, 7, 7, 7};
    struct wozgirt_sight sight;
    const uint32_t falling[2] = {2, 1}, past[1] = {3}, whole[3] = {0, 1, 2}, zero[2] = {0, 1}, last[1] = {2};
    expect("seat 1", wozgirt_pass(ring, 1, 0, 5, &answer), WOZGIRT_NO_SEAT);
    expect("machine 3", wozgirt_pass(ring, 0, 3, 5, &answer), WOZGIRT_NO_MACHINE);
    expect("a try's seat", wozgirt_try(ring, 1, 0, 5, &answer), WOZGIRT_NO_SEAT);
    expect("a try's machine", wozgirt_try(ring, 0, 3, 5, &answer), WOZGIRT_NO_MACHINE);
    expect("a fault's seat", wozgirt_corrupt(ring, 1, 0, 0, &answer), WOZGIRT_NO_SEAT);
    expect("a fault's machine", wozgirt_corrupt(ring, 0, 3, 0, &answer), WOZGIRT_NO_MACHINE);
    expect("a fault's value", wozgirt_corrupt(ring, 0, 0, 3, &answer), WOZGIRT_NO_VALUE);
    expect("a survey's seat", wozgirt_survey(ring, 1, &sight), WOZGIRT_NO_SEAT);
    expect("a group's seat", wozgirt_pass_group(ring, 1, last, 1, 5, &group), WOZGIRT_NO_SEAT);
    expect("no machines", wozgirt_pass_group(ring, 0, last, 0, 5, &group), WOZGIRT_NOT_RISING);
    expect("falling machines", wozgirt_pass_group(ring, 0, falling, 2, 5, &group), WOZGIRT_NOT_RISING);
    expect("a machine past the last", wozgirt_pass_group(ring, 0, past, 1, 5, &group), WOZGIRT_NOT_RISING);
    expect("all machines", wozgirt_pass_group(ring, 0, whole, 3, 5, &group), WOZGIRT_WHOLE_RING);
    expect("nothing was written", answer.position == 7 && group.first == 7 && group.machine == 7, 1);
    expect("a pass", wozgirt_pass(ring, 0, 0, 5, &answer), WOZGIRT_DONE);
    expect("its number and answer", answer.number * 100 + answer.result, 105);
    expect("its machine again", wozgirt_pass(ring, 0, 0, 5, &answer), WOZGIRT_WAITS);
    expect("its place", answer.position, 1);
    answer.position = 7;
    expect("a try of it", wozgirt_try(ring, 0, 0, 5, &answer), WOZGIRT_WAITS);
    expect("is not written", answer.position, 7);
    expect("and not recorded", events_of(ring), 2);
    expect("a group with it", wozgirt_pass_group(ring, 0, zero, 2, 5, &group), WOZGIRT_NOT_PRIVILEGED);
    expect("the machine is told", group.machine, 0);
    expect("a group", wozgirt_pass_group(ring, 0, last, 1, 4, &group), WOZGIRT_DONE);
    expect("its place, number, answer and members", group.first * 10000 + group.number * 1000 + group.result * 10 + group.count, 22091);
    expect("a survey", wozgirt_survey(ring, 0, &sight), WOZGIRT_DONE);
    expect("what it shows", sight.position * 10000 + sight.privileged * 1000 + sight.first * 100 + sight.calm * 10 + sight.rest, 31120);
    expect("events", events_of(ring), 3);
}

/* The events of that ring, one by one. */
static void read_events(const struct wozgirt_ring *ring)
{
    struct wozgirt_event event = {7, 7, 7, 7, 7, 7, 7};
    expect("an event past the last", wozgirt_event_at(ring, 3, &event), WOZGIRT_NO_EVENT);
    expect("is not written", event.order == 7 && event.kind == 7, 1);
    expect("the first event", wozgirt_event_at(ring, 0, &event), WOZGIRT_DONE);
    expect("was granted", event.kind == WOZGIRT_PASSED && event.seat == 0 && event.machine == 0, 1);
    expect("its numbers", event.order * 10000 + event.number * 1000 + event.result * 100 + event.value, 51500);
    expect("the second", wozgirt_event_at(ring, 1, &event), WOZGIRT_DONE);
    expect("waited", event.kind == WOZGIRT_WAITED && event.number == 0 && event.result == 0 && event.order == 5, 1);
    expect("the third", wozgirt_event_at(ring, 2, &event), WOZGIRT_DONE);
    expect("was a group's last", event.kind == WOZGIRT_MEMBER && event.machine == 2 && event.value == 0, 1);
    expect("its numbers", event.order * 10000 + event.number * 1000 + event.result * 100, 42900);
}

static void saved(struct wozgirt_ring *ring)
{
    static const char wanted[] = "ringfarm 2\n";
    uint8_t text[512], again[512];
    uint64_t size = 0, more = 0;
    struct wozgirt_sums sums;
    struct wozgirt_ring on = {0};
    struct wozgirt_answer answer;
    memset(text, 'x', sizeof text);
    expect("no room", wozgirt_save(ring, text, 10, &size), WOZGIRT_TOO_SMALL);
    expect("nothing was copied", text[0], 'x');
    expect("room", wozgirt_save(ring, text, sizeof text, &size), WOZGIRT_DONE);
    expect("what is behind stays", text[size], 'x');
    expect("the text begins with the version", memcmp(text, wanted, 11), 0);
    expect("legal", wozgirt_check(text, size, &sums), WOZGIRT_DONE);
    expect("its sums", sums.rings * 10000 + sums.events * 1000 + sums.granted * 100 + sums.corrupted * 10 + sums.surveys, 13201);
    expect("cut short", wozgirt_check(text, size - 1, &sums), WOZGIRT_TRUNCATED);
    expect("empty", wozgirt_check(text, 0, &sums), WOZGIRT_TRUNCATED);
    expect("going on with a cut text", wozgirt_open_saved(&on, text, size - 1, 0, 1, &sums), WOZGIRT_TRUNCATED);
    expect("another place", wozgirt_open_saved(&on, text, size, 1, 1, &sums), WOZGIRT_NO_RING);
    expect("the text is legal", sums.events, 3);
    expect("no seats", wozgirt_open_saved(&on, text, size, 0, 0, &sums), WOZGIRT_BAD_SEATS);
    expect("eleven seats", wozgirt_open_saved(&on, text, size, 0, 11, &sums), WOZGIRT_BAD_SEATS);
    expect("the struct is as it was", on.at == NULL, 1);
    expect("going on", wozgirt_open_saved(&on, text, size, 0, 1, &sums), WOZGIRT_DONE);
    sums.events = 7;
    expect("going on in an open one", wozgirt_open_saved(&on, text, size, 0, 1, &sums), WOZGIRT_OPEN);
    expect("no sums", sums.events, 7);
    expect("from its place", events_of(&on), 3);
    expect("a pass there", wozgirt_pass(&on, 0, 1, 1, &answer), WOZGIRT_DONE);
    expect("its number", answer.number, 3);
    expect("saved again", wozgirt_save(&on, again, sizeof again, &more), WOZGIRT_DONE);
    expect("legal again", wozgirt_check(again, more, &sums), WOZGIRT_DONE);
    wozgirt_close(&on);
    again[0] = 'x';
    expect("no text", wozgirt_check(again, more, &sums), WOZGIRT_SYNTAX);
    expect("its line", sums.line, 1);
    text[size - 2] = '7';
    expect("a wrong count", wozgirt_check(text, size, &sums), WOZGIRT_COUNT);
    expect("going on with it", wozgirt_open_saved(&on, text, size, 0, 1, &sums), WOZGIRT_COUNT);
    expect("its line", sums.line, 9);
}

/* A saved ring that needs two seats, and is read with one. */
static void seated(void)
{
    const uint32_t start[3] = {0, 2, 0};
    struct wozgirt_ring ring = {0}, on = {0};
    struct wozgirt_answer answer;
    struct wozgirt_sight sight;
    struct wozgirt_sums sums;
    uint8_t text[512];
    uint64_t size = 0;
    expect("two seats", wozgirt_open(&ring, 3, 3, start, 3, 2), WOZGIRT_DONE);
    expect("a survey of the second", wozgirt_survey(&ring, 1, &sight), WOZGIRT_DONE);
    expect("saved", wozgirt_save(&ring, text, sizeof text, &size), WOZGIRT_DONE);
    expect("one seat too few for a survey", wozgirt_open_saved(&on, text, size, 0, 1, &sums), WOZGIRT_NO_SEAT);
    expect("a pass of the second", wozgirt_pass(&ring, 1, 0, 1, &answer), WOZGIRT_DONE);
    expect("saved again", wozgirt_save(&ring, text, sizeof text, &size), WOZGIRT_DONE);
    expect("one seat too few for a pass", wozgirt_open_saved(&on, text, size, 0, 1, &sums), WOZGIRT_NO_SEAT);
    expect("two seats", wozgirt_open_saved(&on, text, size, 0, 2, &sums), WOZGIRT_DONE);
    wozgirt_close(&on);
    wozgirt_close(&ring);
}

static void idle(void)
{
    const uint32_t start[3] = {0, 2, 0};
    struct wozgirt_ring ring = {0};
    struct wozgirt_answer answer;
    uint8_t text[8];
    uint64_t size = 7;
    expect("over a resource that does no work", wozgirt_open_idle(&ring, 3, 3, start, 3, 1), WOZGIRT_DONE);
    expect("a pass", wozgirt_pass(&ring, 0, 0, 5, &answer), WOZGIRT_DONE);
    expect("its answer", answer.number * 100 + answer.result, 100);
    expect("no text", wozgirt_save(&ring, text, sizeof text, &size), WOZGIRT_NO_TILL);
    expect("no size", size, 7);
    wozgirt_close(&ring);
}

/* A ring whose history has as many events as one may have. */
static void filled(void)
{
    const uint32_t start[3] = {0, 2, 0}, one[1] = {2};
    struct wozgirt_ring ring = {0};
    struct wozgirt_answer answer;
    struct wozgirt_group group;
    struct wozgirt_sight sight;
    uint64_t done = 0;
    expect("a ring to fill", wozgirt_open_idle(&ring, 3, 3, start, 3, 1), WOZGIRT_DONE);
    while (done < 4000000 && wozgirt_corrupt(&ring, 0, 1, 2, &answer) == WOZGIRT_DONE)
        done++;
    expect("as many events as there may be", done, 4000000);
    struct wozgirt_event event;
    expect("the last event", wozgirt_event_at(&ring, 3999999, &event), WOZGIRT_DONE);
    expect("is a fault", event.kind == WOZGIRT_FAULT && event.machine == 1 && event.value == 2 && event.result == 2, 1);
    expect("a pass", wozgirt_pass(&ring, 0, 0, 5, &answer), WOZGIRT_HISTORY_FULL);
    expect("a fault", wozgirt_corrupt(&ring, 0, 0, 0, &answer), WOZGIRT_HISTORY_FULL);
    expect("a group", wozgirt_pass_group(&ring, 0, one, 1, 5, &group), WOZGIRT_HISTORY_FULL);
    expect("a seat is looked at before", wozgirt_pass(&ring, 1, 0, 5, &answer), WOZGIRT_NO_SEAT);
    expect("a survey is no event", wozgirt_survey(&ring, 0, &sight), WOZGIRT_DONE);
    expect("no event more", events_of(&ring), 4000000);
    wozgirt_close(&ring);
}

int main(void)
{
    const uint32_t start[3] = {0, 2, 0};
    struct wozgirt_ring ring = {0};
    opened();
    expect("open", wozgirt_open(&ring, 3, 3, start, 3, 1), WOZGIRT_DONE);
    called(&ring);
    read_events(&ring);
    saved(&ring);
    wozgirt_close(&ring);
    seated();
    idle();
    filled();
    expect("the version", wozgirt_version(), WOZGIRT_VERSION);
    printf("%s\n", failed ? "some answers differ" : "each refusal has its code");
    return failed;
}
