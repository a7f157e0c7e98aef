/* The C half of the benchmark (bench/run builds and starts it).
 *
 *   bench time ROUNDS LENGTH...      a line for each row and length: the row, the length, and the
 *                                    nanoseconds an instruction of the archive and of plain C
 *   bench count SIDE ROW LENGTH      runs a program once, for a tool that counts instructions
 *   bench rows                       the names of the rows
 *   bench words ROW                  the program of a row, as little-endian words
 *   bench replay ROUNDS              a line for each length and number of words of a case: both, the cases
 *                                    of the trace, and the nanoseconds a case of the archive and of plain C
 *   bench stream ROUNDS              a line for each size of pieces of a trace: that size, the trace's bytes, the
 *                                    calls, and the nanoseconds of all calls of the archive and of plain C;
 *                                    last the nanoseconds of two copies of a state
 *   bench lines ROUNDS               the nanoseconds of writing a line, of reading one, and of reading a text
 *                                    that is none, a line each
 *   bench text                       the lines of the mixed program
 *
 * A program has 4,096 words of one row, with every rotation and index. The registers of a word are
 * drawn anew and differ from one another: compiled C loops fall back to slow code where they coincide. */

#define _DEFAULT_SOURCE
#include <stdio.h>
#include <stdlib.h>
#include <string.h>
#include <time.h>

#include "kobbeskuim.h"
#include "plain.h"

enum { WORDS = 4096, MOST_FILE = 8192 };

typedef uint64_t run(size_t l, uint8_t *file, size_t file_len, bool qc, const uint32_t *words,
                     size_t words_len);

static run *const sides[] = {kob_run, plain_run};

/* A row's word with all its fields 0, and the bits that the registers are not in and that vary. */
static const struct row {
    const char *name;
    uint32_t base, varies;
} rows[] = {
    {"CADD .B", 0x4500D800, 0x400},
    {"CADD .H", 0x4540D800, 0x400},
    {"CADD .S", 0x4580D800, 0x400},
    {"CADD .D", 0x45C0D800, 0x400},
    {"SQCADD .B", 0x4501D800, 0x400},
    {"SQCADD .H", 0x4541D800, 0x400},
    {"SQCADD .S", 0x4581D800, 0x400},
    {"SQCADD .D", 0x45C1D800, 0x400},
    {"CMLA .B", 0x44002000, 0xC00},
    {"CMLA .H", 0x44402000, 0xC00},
    {"CMLA .S", 0x44802000, 0xC00},
    {"CMLA .D", 0x44C02000, 0xC00},
    {"CMLA-I .H", 0x44A06000, 0x180C00},
    {"CMLA-I .S", 0x44E06000, 0x100C00},
    {"SQRDCMLAH .B", 0x44003000, 0xC00},
    {"SQRDCMLAH .H", 0x44403000, 0xC00},
    {"SQRDCMLAH .S", 0x44803000, 0xC00},
    {"SQRDCMLAH .D", 0x44C03000, 0xC00},
    {"SQRDCMLAH-I .H", 0x44A07000, 0x180C00},
    {"SQRDCMLAH-I .S", 0x44E07000, 0x100C00},
    {"SQRDMLAH .H scalar", 0x7F40D000, 0x300800},
    {"SQRDMLAH .H 64", 0x2F40D000, 0x300800},
    {"SQRDMLAH .H 128", 0x6F40D000, 0x300800},
    {"SQRDMLAH .S scalar", 0x7F80D000, 0x200800},
    {"SQRDMLAH .S 64", 0x2F80D000, 0x200800},
    {"SQRDMLAH .S 128", 0x6F80D000, 0x200800},
    {"SQRDMLSH .H scalar", 0x7F40F000, 0x300800},
    {"SQRDMLSH .H 64", 0x2F40F000, 0x300800},
    {"SQRDMLSH .H 128", 0x6F40F000, 0x300800},
    {"SQRDMLSH .S scalar", 0x7F80F000, 0x200800},
    {"SQRDMLSH .S 64", 0x2F80F000, 0x200800},
    {"SQRDMLSH .S 128", 0x6F80F000, 0x200800},
    {"SQDMULH two .B", 0xC120A400, 0},
    {"SQDMULH two .H", 0xC160A400, 0},
    {"SQDMULH two .S", 0xC1A0A400, 0},
    {"SQDMULH two .D", 0xC1E0A400, 0},
    {"SQDMULH four .B", 0xC120AC00, 0},
    {"SQDMULH four .H", 0xC160AC00, 0},
    {"SQDMULH four .S", 0xC1A0AC00, 0},
    {"SQDMULH four .D", 0xC1E0AC00, 0},
    {"all, mixed", 0, 0},
};

enum { ROWS = sizeof rows / sizeof *rows, MIXED = ROWS - 1 };

static uint64_t seed = 0x9E3779B97F4A7C15;

static uint64_t next(void)
{
    seed ^= seed >> 12;
    seed ^= seed << 25;
    seed ^= seed >> 27;
    return seed * 0x2545F4914F6CDD1D;
}

/* A group that starts behind 7, and of which the second source is none. */
static uint32_t group_word(const struct row *row, uint32_t m)
{
    uint32_t d = 8 + next() % 24;
    return row->base | m << 16 | (d & (row->base >> 11 & 1 ? 0x1C : 0x1E));
}

/* The second source stays within 7, which every row has room for. */
static uint32_t word_of(const struct row *row)
{
    uint32_t m = next() >> 61, n, d;
    if (row->base >> 24 == 0xC1)
        return group_word(row, m);
    do
        n = next() >> 59;
    while (n == m);
    do
        d = next() >> 59;
    while (d == m || d == n);
    uint32_t registers = row->base >> 24 == 0x45 ? m << 5 | d : m << 16 | n << 5 | d;
    return row->base | registers | ((uint32_t)next() & row->varies);
}

static void program(int row, uint32_t *words)
{
    for (int k = 0; k < WORDS; k++)
        words[k] = word_of(&rows[row == MIXED ? next() % MIXED : (uint64_t)row]);
}

static uint8_t fresh[MOST_FILE], file[MOST_FILE];

/* One run on random bytes. */
static double seconds(int side, const uint32_t *words, size_t l)
{
    struct timespec a, b;
    memcpy(file, fresh, 4 * l);
    clock_gettime(CLOCK_MONOTONIC, &a);
    uint64_t answer = sides[side](l, file, 4 * l, false, words, WORDS);
    clock_gettime(CLOCK_MONOTONIC, &b);
    if (answer >> 16 != WORDS) {
        fprintf(stderr, "bench: a program did not reach its end\n");
        exit(1);
    }
    return b.tv_sec - a.tv_sec + 1e-9 * (b.tv_nsec - a.tv_nsec);
}

/* The sides take turns, and all rows come before the next round: a busy spell of the machine meets
 * every row and both sides a little, and the best run of each counts. */
static void times(int rounds, int lengths, char **given)
{
    static uint32_t words[ROWS][WORDS];
    double best[ROWS][16][2];
    for (int row = 0; row < ROWS; row++) {
        program(row, words[row]);
        for (int k = 0; k < 16; k++)
            best[row][k][0] = best[row][k][1] = 1e9;
    }
    for (int round = 0; round < rounds; round++)
        for (int row = 0; row < ROWS; row++)
            for (int k = 0; k < lengths; k++)
                for (int turn = 0; turn < 6; turn++) {
                    double taken = seconds(turn % 2, words[row], atoi(given[k]));
                    if (taken < best[row][k][turn % 2])
                        best[row][k][turn % 2] = taken;
                }
    for (int row = 0; row < ROWS; row++)
        for (int k = 0; k < lengths; k++)
            printf("%s\t%s\t%.3f\t%.3f\n", rows[row].name, given[k], 1e9 * best[row][k][0] / WORDS,
                   1e9 * best[row][k][1] / WORDS);
}

/* ---- traces: as many cases of one length as fit into 64 KiB. A case runs words of all rows on random
 * bytes, and agrees, so that its files are compared to the last byte. */

enum { MOST_TRACE = 65536, TURNS = 8 };

typedef uint64_t replay(const uint8_t *trace, size_t length, size_t n);

static replay *const judges[] = {kob_replay, plain_replay};

static _Alignas(4) uint8_t trace[MOST_TRACE];

static void put(size_t at, uint32_t n)
{
    memcpy(trace + at, &n, 4);
}

/* A body at the place. */
static void put_case(size_t at, size_t l, const uint32_t *words, size_t count)
{
    size_t flag = at + 4 + 4 * l + 4 * count;
    put(at, 0);
    for (size_t k = 0; k < 4 * l; k++)
        trace[at + 4 + k] = trace[flag + 4 + k] = next() >> 56;
    memcpy(trace + at + 4 + 4 * l, words, 4 * count);
    put(flag, plain_run(l, trace + flag + 4, 4 * l, false, words, count) >> 8 & 1);
}

/* How many cases it has. */
static size_t put_trace(size_t l, size_t count)
{
    static uint32_t words[WORDS];
    size_t size = 8 + 8 * l + 4 * count, cases = (MOST_TRACE - 4) / (12 + size);
    put(0, cases);
    for (size_t k = 0; k < cases; k++) {
        size_t at = 4 + 12 * cases + k * size;
        program(MIXED, words);
        put(4 + 12 * k, l);
        put(8 + 12 * k, count);
        put(12 + 12 * k, at);
        put_case(at, l, words, count);
    }
    return cases;
}

/* A case, on average over all of them. */
static double case_seconds(int side, size_t length, size_t cases)
{
    struct timespec a, b;
    uint64_t others = 0;
    clock_gettime(CLOCK_MONOTONIC, &a);
    for (int turn = 0; turn < TURNS; turn++)
        for (size_t n = 0; n < cases; n++)
            others |= judges[side](trace, length, n) ^ KOB_AGREES << 8;
    clock_gettime(CLOCK_MONOTONIC, &b);
    if (others) {
        fprintf(stderr, "bench: a case did not agree\n");
        exit(1);
    }
    return (b.tv_sec - a.tv_sec + 1e-9 * (b.tv_nsec - a.tv_nsec)) / TURNS / cases;
}

static void replays(int rounds)
{
    static const size_t lengths[] = {128, 2048}, counts[] = {0, 16, 256};
    for (int row = 0; row < 6; row++) {
        size_t l = lengths[row / 3], count = counts[row % 3], cases = put_trace(l, count);
        size_t length = 4 + (20 + 8 * l + 4 * count) * cases;
        double best[2] = {1e9, 1e9};
        for (int turn = 0; turn < 6 * rounds; turn++) {
            double taken = case_seconds(turn % 2, length, cases);
            if (taken < best[turn % 2])
                best[turn % 2] = taken;
        }
        printf("%zu\t%zu\t%zu\t%.3f\t%.3f\n", l, count, cases, 1e9 * best[0], 1e9 * best[1]);
    }
}

/* ---- a trace in pieces */

static union {
    uint8_t bytes[KOB_STREAM_SIZE];
    struct plain_stream plain;
} state;

static uint64_t feed_archive(const uint8_t *bytes, size_t length)
{
    return kob_stream_feed(state.bytes, KOB_STREAM_SIZE, bytes, length);
}

static uint64_t feed_plain(const uint8_t *bytes, size_t length)
{
    return plain_stream_feed(&state.plain, bytes, length);
}

typedef uint64_t feed(const uint8_t *bytes, size_t length);

static feed *const feeds[] = {feed_archive, feed_plain};

/* All calls for the trace in pieces of one size, and how many there are. */
static double stream_seconds(int side, size_t length, size_t piece, size_t *calls)
{
    struct timespec a, b;
    memset(&state, 0, sizeof state);
    *calls = 0;
    clock_gettime(CLOCK_MONOTONIC, &a);
    for (size_t at = 0; at < length; ++*calls) {
        uint64_t told = feeds[side](trace + at, piece < length - at ? piece : length - at);
        at += told >> 32;
        if (told >> 32 == 0 || ((uint32_t)told != 0 && (uint32_t)told != KOB_AGREES << 8)) {
            fprintf(stderr, "bench: a trace in pieces did not agree\n");
            exit(1);
        }
    }
    clock_gettime(CLOCK_MONOTONIC, &b);
    return b.tv_sec - a.tv_sec + 1e-9 * (b.tv_nsec - a.tv_nsec);
}

/* Two copies of a state, as a call makes that takes it and gives it back by value. */
static double copy_seconds(void)
{
    enum { COPIES = 2000 };
    static void *(*volatile copy)(void *to, const void *from, size_t size) = memcpy;
    static uint8_t other[KOB_STREAM_SIZE];
    struct timespec a, b;
    clock_gettime(CLOCK_MONOTONIC, &a);
    for (int k = 0; k < COPIES; k++) {
        copy(other, state.bytes, sizeof other);
        copy(state.bytes, other, sizeof other);
    }
    clock_gettime(CLOCK_MONOTONIC, &b);
    return (b.tv_sec - a.tv_sec + 1e-9 * (b.tv_nsec - a.tv_nsec)) / COPIES;
}

/* Cases of few words: the cost is that of taking the bytes. */
static void streams(int rounds)
{
    static const size_t pieces[] = {4096, 16};
    size_t l = 2048, count = 2, cases = put_trace(l, count), length = 4 + (20 + 8 * l + 4 * count) * cases;
    size_t calls = 0;
    double copied = 1e9;
    for (int row = 0; row < 2; row++) {
        double best[2] = {1e9, 1e9};
        for (int turn = 0; turn < 6 * rounds; turn++) {
            double taken = stream_seconds(turn % 2, length, pieces[row], &calls), copying = copy_seconds();
            best[turn % 2] = taken < best[turn % 2] ? taken : best[turn % 2];
            copied = copying < copied ? copying : copied;
        }
        printf("%zu\t%zu\t%zu\t%.0f\t%.0f\n", pieces[row], length, calls, 1e9 * best[0], 1e9 * best[1]);
    }
    printf("%.0f\n", 1e9 * copied);
}

/* ---- lines: those of the mixed program, and each with a byte that no line has, at a place at random */

static uint32_t fields[WORDS][KOB_FIELDS];
static uint8_t lines[2][WORDS][KOB_LINE_MAX];
static size_t lengths_of[WORDS];

static void make_lines(void)
{
    static uint32_t words[WORDS];
    program(MIXED, words);
    for (int k = 0; k < WORDS; k++) {
        uint64_t written = kob_decode(words[k], fields[k], KOB_FIELDS);
        if (written == KOB_DONE)
            written = kob_line_write(fields[k], KOB_FIELDS, lines[0][k], KOB_LINE_MAX);
        if ((uint32_t)written != KOB_DONE) {
            fprintf(stderr, "bench: a word has no line\n");
            exit(1);
        }
        lengths_of[k] = written >> 32;
        memcpy(lines[1][k], lines[0][k], KOB_LINE_MAX);
        lines[1][k][next() % lengths_of[k]] = '*';
    }
}

/* The low halves of the answers of one round, all in one: what is 0 for each is 0. */
static uint32_t line_round(int what)
{
    static uint8_t out[KOB_LINE_MAX];
    static uint32_t read[KOB_FIELDS];
    uint32_t others = 0;
    for (int k = 0; k < WORDS; k++)
        if (what == 0)
            others |= kob_line_write(fields[k], KOB_FIELDS, out, KOB_LINE_MAX);
        else
            others |= (uint32_t)kob_line_read(lines[what - 1][k], lengths_of[k], read, KOB_FIELDS) ^
                      (what == 1 ? KOB_DONE : KOB_NOT_A_LINE);
    return others;
}

static void line_times(int rounds)
{
    static const char *const names[] = {"written", "read", "no line"};
    double best[3] = {1e9, 1e9, 1e9};
    make_lines();
    for (int turn = 0; turn < 30 * rounds; turn++) {
        struct timespec a, b;
        clock_gettime(CLOCK_MONOTONIC, &a);
        uint32_t others = line_round(turn % 3);
        clock_gettime(CLOCK_MONOTONIC, &b);
        double taken = b.tv_sec - a.tv_sec + 1e-9 * (b.tv_nsec - a.tv_nsec);
        best[turn % 3] = taken < best[turn % 3] ? taken : best[turn % 3];
        if (others) {
            fprintf(stderr, "bench: a line was answered otherwise than before\n");
            exit(1);
        }
    }
    for (int k = 0; k < 3; k++)
        printf("%s\t%.3f\n", names[k], 1e9 * best[k] / WORDS);
}

int main(int count, char **given)
{
    for (size_t k = 0; k < sizeof fresh; k++)
        fresh[k] = next() >> 56;
    const char *what = count > 1 ? given[1] : "";
    static uint32_t words[WORDS];
    if (count >= 4 && count <= 19 && !strcmp(what, "time")) {
        times(atoi(given[2]), count - 3, given + 3);
    } else if (count == 5 && !strcmp(what, "count")) {
        program(atoi(given[3]), words);
        seconds(atoi(given[2]), words, atoi(given[4]));
    } else if (count == 2 && !strcmp(what, "rows")) {
        for (int row = 0; row < ROWS; row++)
            puts(rows[row].name);
    } else if (count == 3 && !strcmp(what, "words")) {
        program(atoi(given[2]), words);
        fwrite(words, sizeof words, 1, stdout);
    } else if (count == 3 && !strcmp(what, "replay")) {
        replays(atoi(given[2]));
    } else if (count == 3 && !strcmp(what, "stream")) {
        streams(atoi(given[2]));
    } else if (count == 3 && !strcmp(what, "lines")) {
        line_times(atoi(given[2]));
    } else if (count == 2 && !strcmp(what, "text")) {
        make_lines();
        for (int k = 0; k < WORDS; k++)
            printf("%.*s\n", (int)lengths_of[k], (const char *)lines[0][k]);
    } else {
        fprintf(stderr, "usage: bench time ROUNDS LENGTH... | count SIDE ROW LENGTH | rows | words ROW | replay ROUNDS"
                        " | stream ROUNDS | lines ROUNDS | text\n");
        return 2;
    }
    return 0;
}
