/* The journal of a ring, in a chain of files that the caller writes, with each text compared with what it has to be:
 *
 *     journal FOLDER
 *
 * writes 0000000001.ring and 0000000002.ring into the folder, for `ring_tool check FOLDER`. A program that means it writes each
 * file beside its place, syncs it and renames it, and syncs what it appends; that is left out here. */
#include "wozgirt.h"
#include <stdio.h>
#include <string.h>

static int failed = 0;

static void expect(const char *what, uint64_t is, uint64_t wanted)
{
    if (is != wanted) {
        printf("%s: %llu, wanted %llu\n", what, (unsigned long long)is, (unsigned long long)wanted);
        failed = 1;
    }
}

/* A text of the library. */
struct text {
    uint8_t bytes[1024];
    uint64_t size;
};

typedef uint32_t texts(struct wozgirt_ring *ring, uint8_t *buffer, size_t length, uint64_t *size);

static void expect_text(const char *what, texts *call, struct wozgirt_ring *ring, struct text *text, const char *wanted)
{
    const size_t length = strlen(wanted);
    if (length > 0) {
        text->bytes[0] = 'x';
        expect(what, call(ring, text->bytes, length - 1, &text->size), WOZGIRT_TOO_SMALL);
        expect(what, text->size == length && text->bytes[0] == 'x', 1);
    }
    expect(what, call(ring, text->bytes, sizeof text->bytes, &text->size), WOZGIRT_DONE);
    if (text->size != length || memcmp(text->bytes, wanted, length) != 0) {
        printf("%s:\n%.*swanted:\n%s", what, (int)text->size, (const char *)text->bytes, wanted);
        failed = 1;
    }
}

#define ZEROS "0000000000000000"
#define FIRST "ringsegment 1 1 1\nbehind " ZEROS ZEROS ZEROS ZEROS "\nbase 0 0 0 0\nringjournal 1\nringfarm 2\nring 0 3 3\nstart 0 2 0\n"
#define BEGUN FIRST "end 0\ndone 1\n"
#define LINES "0 p 0 0 5 g 1 5\n0 m 0 2 4 0 2 9\n0 s 0 1 2 1 1 3\n"
#define SEALED FIRST "p 0 0 5 g 1 5\nm 0 2 4 0 2 9\nend 2\ns 0 1 2 1 1 3\ndone 1\n"
#define DIGEST "bd80a0db8f8f88d90a507ffe30069638b6b177d70ba040b413de577c0c6ffe60"
#define SECOND "ringsegment 1 2 1\nbehind " DIGEST "\nbase 2 2 9 2\nringjournal 1\nringfarm 2\nring 0 3 3\nstart 1 2 2\n"

static void put(const char *folder, const char *name, const void *bytes, size_t length)
{
    char path[256];
    snprintf(path, sizeof path, "%s/%s", folder, name);
    FILE *file = fopen(path, "ab");
    if (!file || fwrite(bytes, 1, length, file) != length || fclose(file) != 0)
        expect("a file is written", 0, 1);
}

/* A segment with a journal, which is sealed. */
static void first(struct wozgirt_ring *ring, const char *folder)
{
    const uint32_t start[3] = {0, 2, 0}, one[1] = {2};
    struct wozgirt_answer answer;
    struct wozgirt_group group;
    struct wozgirt_sight sight;
    struct text text;
    expect("open", wozgirt_open(ring, 3, 3, start, 3, 1), WOZGIRT_DONE);
    expect("no journal", wozgirt_take_journal(ring, text.bytes, sizeof text.bytes, &text.size), WOZGIRT_NO_JOURNAL);
    expect_text("the beginning", wozgirt_open_journal, ring, &text, BEGUN);
    expect_text("nothing yet", wozgirt_take_journal, ring, &text, "");
    expect("a pass", wozgirt_pass(ring, 0, 0, 5, &answer), WOZGIRT_DONE);
    expect("its number and answer", answer.number * 100 + answer.result, 105);
    expect("a survey", wozgirt_survey(ring, 0, &sight), WOZGIRT_DONE);
    expect("a group", wozgirt_pass_group(ring, 0, one, 1, 4, &group), WOZGIRT_DONE);
    expect("its place, number and answer", group.first * 1000 + group.number * 100 + group.result, 1209);
    expect_text("what was recorded", wozgirt_take_journal, ring, &text, LINES);
    expect_text("nothing more", wozgirt_take_journal, ring, &text, "");
    expect("a try", wozgirt_try(ring, 0, 2, 1, &answer), WOZGIRT_WAITS);
    expect_text("is not recorded", wozgirt_take_journal, ring, &text, "");
    expect_text("the whole file", wozgirt_cut, ring, &text, SEALED);
    put(folder, "0000000001.ring", text.bytes, text.size);
    expect("no journal of the next", wozgirt_take_journal(ring, text.bytes, sizeof text.bytes, &text.size), WOZGIRT_NO_JOURNAL);
}

/* The next segment, which goes on with the numbers. */
static void second(struct wozgirt_ring *ring, const char *folder)
{
    struct wozgirt_answer answer;
    struct wozgirt_event event;
    struct wozgirt_sight sight;
    struct text text;
    uint64_t count = 0;
    expect("events", wozgirt_history_length(ring, &count), WOZGIRT_DONE);
    expect("two", count, 2);
    expect("before the segment", wozgirt_events_before(ring, &count), WOZGIRT_DONE);
    expect("two", count, 2);
    expect("one of them", wozgirt_event_at(ring, 1, &event), WOZGIRT_NO_EVENT);
    expect("a glance", wozgirt_glance(ring, &sight), WOZGIRT_DONE);
    expect("counts all", sight.position * 10 + sight.calm, 22);
    expect("a pass", wozgirt_pass(ring, 0, 1, 1, &answer), WOZGIRT_DONE);
    expect("its place, number and answer", answer.position * 1000 + answer.number * 100 + answer.result, 2310);
    expect("its event", wozgirt_event_at(ring, 2, &event), WOZGIRT_DONE);
    expect("has the same", event.number * 100 + event.result, 310);
    expect_text("the next file", wozgirt_open_journal, ring, &text, SECOND "p 0 1 1 g 1 1\nend 1\ndone 1\n");
    put(folder, "0000000002.ring", text.bytes, text.size);
    expect("a fault", wozgirt_corrupt(ring, 0, 1, 0, &answer), WOZGIRT_DONE);
    expect_text("its line", wozgirt_take_journal, ring, &text, "0 c 0 1 0 1\n");
    put(folder, "0000000002.ring", text.bytes, text.size);
}

/* A ring that goes on in a file. */
static void resumed(void)
{
    static const char file[] = SECOND "p 0 1 1 g 1 1\nend 1\ndone 1\n0 c 0 1 0 1\n0 p 0 1";
    struct wozgirt_ring ring = {0};
    struct wozgirt_answer answer;
    struct text text;
    const uint8_t *bytes = (const uint8_t *)file;
    const size_t length = sizeof file - 1;
    uint64_t line = 7;
    expect("cut short", wozgirt_open_segment(&ring, bytes, 60, 1, &line), WOZGIRT_TRUNCATED);
    expect("is no line's fault", line, 0);
    expect("no text", wozgirt_open_segment(&ring, bytes + 1, length - 1, 1, &line), WOZGIRT_SYNTAX);
    expect("in line 1", line, 1);
    expect("no seats", wozgirt_open_segment(&ring, bytes, length, 0, &line), WOZGIRT_BAD_SEATS);
    expect("the last file", wozgirt_open_segment(&ring, bytes, length, 1, &line), WOZGIRT_DONE);
    expect("is no line's fault", line, 0);
    line = 7;
    expect("in an open one", wozgirt_open_segment(&ring, bytes, length, 1, &line), WOZGIRT_OPEN);
    expect("is not written", line, 7);
    expect("a pass", wozgirt_pass(&ring, 0, 1, 2, &answer), WOZGIRT_DONE);
    expect("its place, number and answer", answer.position * 1000 + answer.number * 100 + answer.result, 4412);
    expect_text("the file", wozgirt_open_journal, &ring, &text,
                SECOND "p 0 1 1 g 1 1\nc 0 1 0 1\np 0 1 2 g 2 3\nend 3\ndone 1\n");
    wozgirt_close(&ring);
}

/* Files in which no ring goes on, and rings that have none. */
static void refused(void)
{
    static const char other[] = "ringsegment 1 1 1\nbehind 1000" ZEROS ZEROS ZEROS "000000000000\nbase 0 0 0 0\nringjournal 1\n"
                                "ringfarm 2\nring 0 3 3\nstart 0 2 0\nend 0\ndone 1\n";
    static const char two[] = "ringsegment 1 1 2\nbehind " ZEROS ZEROS ZEROS ZEROS "\nbase 0 0 0 0\nbase 0 0 0 0\nringjournal 1\n"
                              "ringfarm 2\nring 0 2 2\nstart 0 0\nend 0\nring 1 2 2\nstart 0 0\nend 0\ndone 2\n";
    static const char wrong[] = BEGUN "0 p 0 0 5 g 2 5\n";
    static const char seat[] = BEGUN "0 p 1 0 5 g 1 5\n";
    const uint32_t start[3] = {0, 2, 0};
    struct wozgirt_ring ring = {0};
    struct text text;
    uint64_t line = 7;
    expect("another digest", wozgirt_open_segment(&ring, (const uint8_t *)other, sizeof other - 1, 1, &line), WOZGIRT_NO_CHAIN);
    expect("two rings", wozgirt_open_segment(&ring, (const uint8_t *)two, sizeof two - 1, 1, &line), WOZGIRT_MANY_RINGS);
    expect("a wrong reply", wozgirt_open_segment(&ring, (const uint8_t *)wrong, sizeof wrong - 1, 1, &line), WOZGIRT_REPLY);
    expect("in its line", line, 10);
    expect("another seat", wozgirt_open_segment(&ring, (const uint8_t *)seat, sizeof seat - 1, 1, &line), WOZGIRT_NO_SEAT);
    expect("the struct is as it was", ring.at == NULL, 1);
    expect("a closed one", wozgirt_cut(&ring, text.bytes, sizeof text.bytes, &text.size), WOZGIRT_CLOSED);
    expect("its journal", wozgirt_open_journal(&ring, text.bytes, sizeof text.bytes, &text.size), WOZGIRT_CLOSED);
    expect("its lines", wozgirt_take_journal(&ring, text.bytes, sizeof text.bytes, &text.size), WOZGIRT_CLOSED);
    expect("its length", wozgirt_events_before(&ring, &line), WOZGIRT_CLOSED);
    expect("over no till", wozgirt_open_idle(&ring, 3, 3, start, 3, 1), WOZGIRT_DONE);
    expect("no cut", wozgirt_cut(&ring, text.bytes, sizeof text.bytes, &text.size), WOZGIRT_NO_TILL);
    expect("no journal", wozgirt_open_journal(&ring, text.bytes, sizeof text.bytes, &text.size), WOZGIRT_NO_TILL);
    expect("no lines", wozgirt_take_journal(&ring, text.bytes, sizeof text.bytes, &text.size), WOZGIRT_NO_TILL);
    wozgirt_close(&ring);
}

int main(int count, char **words)
{
    struct wozgirt_ring ring = {0};
    if (count != 2) {
        fprintf(stderr, "usage: journal FOLDER\n");
        return 2;
    }
    first(&ring, words[1]);
    second(&ring, words[1]);
    wozgirt_close(&ring);
    resumed();
    refused();
    printf("%s\n", failed ? "some texts differ" : "each text is as it has to be");
    return failed;
}
