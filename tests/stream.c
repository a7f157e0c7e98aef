/* The two calls that take a trace in pieces, on the good trace whose file is named: each verdict and its place beside
 * kob_replay's, in pieces of each size; ends and refusals behind each byte; states of another length. */
#include <kobbeskuim.h>
#include <stdio.h>
#include <string.h>

#define GUARD 0xA5

static uint8_t trace[KOB_TRACE_MAX];
static size_t length, cases;
static uint8_t room[KOB_STREAM_SIZE + 2]; /* the state stands at an odd address, a guard on either side */
static uint8_t *const state = room + 1;
static unsigned failed;

static void check(bool holds, const char *what, size_t where) {
    if (holds) return;
    if (failed++ < 10) printf("not so: %s (%zu)\n", what, where);
}

static size_t number_at(size_t at) {
    return trace[at] | (size_t)trace[at + 1] << 8 | (size_t)trace[at + 2] << 16 | (size_t)trace[at + 3] << 24;
}

static size_t end_of(size_t n) { return n + 1 < cases ? number_at(12 + 12 * (n + 1)) : length; }

static void begin(void) {
    memset(room, GUARD, sizeof room);
    memset(state, 0, KOB_STREAM_SIZE);
}

static uint64_t feed(const uint8_t *bytes, size_t count) {
    return kob_stream_feed(state, KOB_STREAM_SIZE, bytes, count);
}

/* Every later call takes nothing, gives this number and no verdict, and leaves the state. */
static void stays(uint32_t number, size_t where) {
    uint8_t before[sizeof room];
    memcpy(before, room, sizeof room);
    check(feed(NULL, 0) == number && feed(trace, 1) == number, "the answer stays", where);
    check(feed(trace, length) == number, "no byte is taken", where);
    check(kob_stream_end(state, KOB_STREAM_SIZE) == number, "the end stays", where);
    check(memcmp(before, room, sizeof room) == 0, "the state stays", where);
    check(room[0] == GUARD && room[sizeof room - 1] == GUARD, "the state alone is written", where);
}

static void ends(uint32_t number, size_t where) {
    check(kob_stream_end(state, KOB_STREAM_SIZE) == number, "the end's number", where);
    stays(number, where);
}

static void refused(uint64_t answer, uint32_t number, size_t taken) {
    check(answer == (number | (uint64_t)taken << 32), "the refusal", taken);
    stays(number, taken);
}

/* The next verdict is kob_replay's, and stands behind the last byte of its body. */
static void judged(uint64_t answer, size_t n, size_t at) {
    check((answer & 0xFFFFFFFF) == kob_replay(trace, length, n), "the verdict", n);
    check(at == end_of(n), "the verdict falls due with the last byte", n);
}

/* Each piece has an empty one before it. */
static void in_pieces(size_t size) {
    size_t n = 0, at = 0;
    begin();
    while (at < length && !failed) {
        const size_t count = length - at < size ? length - at : size;
        check(feed(trace + at, 0) == 0, "no bytes bring nothing", at);
        const uint64_t answer = feed(trace + at, count);
        at += kob_stream_taken(answer);
        check(kob_stream_number(answer) == KOB_DONE, "a good trace is not refused", at);
        if (kob_stream_kind(answer) != KOB_NO_VERDICT) judged(answer, n++, at);
        else check(kob_stream_taken(answer) == count, "all is taken", at);
    }
    check(n == cases, "each case has a verdict", size);
    ends(KOB_DONE, size);
}

/* The line ends behind the first so many bytes, or one byte follows the last. */
static void cut_short(void) {
    static uint8_t live[sizeof room];
    begin();
    for (size_t at = 0; at < length; at++) {
        memcpy(live, room, sizeof room);
        ends(at < 4 + 12 * cases ? KOB_BAD_CONTENTS : KOB_BAD_TOTAL, at);
        memcpy(room, live, sizeof room);
        check(kob_stream_taken(feed(trace + at, 1)) == 1, "the byte is taken", at);
    }
    refused(feed(trace, 2), KOB_BAD_TOTAL, 1);
}

/* Each number of the contents in turn is one that is never allowed. */
static void wrong_numbers(void) {
    for (size_t at = 0; at < 4 + 12 * cases; at += 4) {
        uint8_t right[4];
        memcpy(right, trace + at, sizeof right);
        memset(trace + at, 0xFF, sizeof right);
        begin();
        refused(feed(trace, length), KOB_BAD_CONTENTS, at + 4);
        memcpy(trace + at, right, sizeof right);
    }
}

static void wrong_lengths(void) {
    static uint8_t other[2 * KOB_STREAM_SIZE], zeros[sizeof other];
    const size_t sizes[] = {0, 1, KOB_STREAM_SIZE - 1, KOB_STREAM_SIZE + 1, sizeof other};
    for (size_t i = 0; i < sizeof sizes / sizeof *sizes; i++) {
        check(kob_stream_feed(other, sizes[i], trace, length) == KOB_BAD_FIELDS, "a state of that length", sizes[i]);
        check(kob_stream_end(other, sizes[i]) == KOB_BAD_FIELDS, "an end with a state of that length", sizes[i]);
    }
    check(kob_stream_feed(NULL, 0, NULL, 0) == KOB_BAD_FIELDS, "no state", 0);
    check(kob_stream_end(NULL, 0) == KOB_BAD_FIELDS, "an end with no state", 0);
    check(memcmp(other, zeros, sizeof other) == 0, "a state of another length is left", 0);
}

int main(int count, char **given) {
    FILE *file = count == 2 ? fopen(given[1], "rb") : NULL;
    if (!file) {
        fprintf(stderr, "usage: stream TRACE\n");
        return 2;
    }
    length = fread(trace, 1, sizeof trace, file);
    fclose(file);
    cases = number_at(0);
    for (size_t size = 1; size <= 40; size++) in_pieces(size);
    in_pieces(1000);
    in_pieces(length);
    cut_short();
    wrong_numbers();
    wrong_lengths();
    return failed ? 1 : 0;
}
