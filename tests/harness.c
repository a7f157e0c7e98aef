/* The C half of the differential harness (harness.py builds and starts it).
 *
 *   harness fuzz SEED SECONDS   the archive against bench/plain.c; demand 3, the states of streams, and lines on
 *                               the archive alone
 *   harness words               all 2^32 words, decoded by both
 *   harness lines               every line, given on standard output, and read back
 *   harness answer              answers the calls on standard input, for the comparison with the
 *                               independent model
 *
 * Differences are told on standard error. All but 'answer' end with 'N cases, M differences'. */

#define _DEFAULT_SOURCE
#include <inttypes.h>
#include <stdio.h>
#include <stdlib.h>
#include <string.h>
#include <sys/mman.h>
#include <time.h>
#include <unistd.h>

#include "kobbeskuim.h"
#include "plain.h"

enum { MOST_WORDS = 4096, MOST_FILE = 4 * 2176, MOST_TRACE = 65536, TOLD = 10 };

static uint64_t cases, differences;

/* ---- seeded numbers */

static uint64_t seed;

static uint64_t next(void)
{
    seed ^= seed >> 12;
    seed ^= seed << 25;
    seed ^= seed >> 27;
    return seed * 0x2545F4914F6CDD1D;
}

static uint32_t below(uint32_t n)
{
    return (uint32_t)((next() >> 32) * n >> 32);
}

static bool one_in(uint32_t n)
{
    return below(n) == 0;
}

/* ---- lent memory, between pages that cannot be touched */

struct area {
    uint8_t *start;
    size_t size;
};

enum { PAGE = 4096, PATTERN = 0xA5 };

static struct area area(size_t least)
{
    size_t size = (least + PAGE - 1) / PAGE * PAGE;
    uint8_t *all = mmap(NULL, size + 2 * PAGE, PROT_READ | PROT_WRITE, MAP_PRIVATE | MAP_ANONYMOUS, -1, 0);
    if (all == MAP_FAILED || mprotect(all, PAGE, PROT_NONE) || mprotect(all + PAGE + size, PAGE, PROT_NONE)) {
        perror("harness: mmap");
        exit(2);
    }
    memset(all + PAGE, PATTERN, size);
    return (struct area){all + PAGE, size};
}

/* So many bytes of the area: its first, its last, or some between, wherever the step lets them start. */
static uint8_t *lend(struct area a, size_t bytes, size_t step)
{
    size_t room = a.size - bytes;
    switch (below(3)) {
    case 0: return a.start;
    case 1: return a.start + room;
    default: return a.start + below(room / step + 1) * step;
    }
}

/* Whether the area holds its pattern outside of the lent part, which gets it back. */
static bool kept(struct area a, uint8_t *part, size_t bytes)
{
    bool same = true;
    for (uint8_t *p = a.start; p < part; p++)
        same &= *p == PATTERN;
    for (uint8_t *p = part + bytes; p < a.start + a.size; p++)
        same &= *p == PATTERN;
    if (!same)
        memset(a.start, PATTERN, a.size);
    memset(part, PATTERN, bytes);
    return same;
}

/* ---- words: document 01's table and A3's, and the bits that belong to fields. Advanced SIMD's rows come last. */

static const struct row {
    uint32_t base, fields;
} rows[] = {
    {0x4500D800, 0x00C007FF}, {0x4501D800, 0x00C007FF}, {0x44002000, 0x00DF0FFF}, {0x44003000, 0x00DF0FFF},
    {0x44A06000, 0x001F0FFF}, {0x44E06000, 0x001F0FFF}, {0x44A07000, 0x001F0FFF}, {0x44E07000, 0x001F0FFF},
    {0xC120A400, 0x00CF001E}, {0xC120AC00, 0x00CF001C},
    {0x2F00D000, 0x40FF0BFF}, {0x7F00D000, 0x00FF0BFF}, {0x2F00F000, 0x40FF0BFF}, {0x7F00F000, 0x00FF0BFF},
};

enum { SVE2_ROWS = 10, ROWS = 14 };

static uint32_t row_word(unsigned row)
{
    return rows[row].base | ((uint32_t)next() & rows[row].fields);
}

static uint32_t reserved_word(void)
{
    uint32_t word = row_word(SVE2_ROWS + below(ROWS - SVE2_ROWS)) & ~(3u << 22);
    return one_in(2) ? word : word | 3u << 22;
}

/* A word of the first rows. Few registers, as often as not, so that they coincide and words follow on
 * one another. */
static uint32_t good_word(unsigned count)
{
    unsigned row = below(count);
    uint32_t word = row_word(row);
    if (row >= SVE2_ROWS)
        word = (word & ~(3u << 22)) | (1 + below(2)) << 22;
    if (one_in(2))
        word &= ~(row < 2 ? 0x000003DEu : 0x000C039Cu); /* the registers' upper bits */
    return word;
}

/* A word that is near a row, reserved, or any. */
static uint32_t bad_word(void)
{
    unsigned row = below(ROWS);
    switch (below(4)) {
    case 0: return reserved_word();
    case 1: return (uint32_t)next();
    default: return row_word(row) ^ 1u << below(32);
    }
}

/* Most programs are short, some end in the middle, a few are at the limit. */
static size_t program(uint32_t *words, unsigned count)
{
    size_t n = one_in(300) ? MOST_WORDS - below(3) : one_in(40) ? below(300) : below(20);
    for (size_t k = 0; k < n; k++)
        words[k] = good_word(count);
    if (n > 0 && one_in(3))
        words[below((uint32_t)n)] = bad_word();
    return n;
}

/* ---- files */

/* A lane of so many bits: random, at an edge, near an edge, near a power of two (where products tie
 * and sums reach a bound), or small. */
static uint64_t lane(unsigned bits, unsigned style)
{
    uint64_t lowest = (uint64_t)1 << (bits - 1), near = below(5) - (uint64_t)2;
    switch (style < 6 ? style : below(6)) {
    case 0: return next();
    case 1: return one_in(2) ? lowest : lowest - 1;
    case 2: return lowest + near;
    case 3: return near;
    case 4: return ((uint64_t)1 << below(bits)) * (one_in(2) ? 1 : -(uint64_t)1);
    default: return ((uint64_t)1 << below(bits)) * (one_in(2) ? 1 : -(uint64_t)1) + near;
    }
}

static void fill(uint8_t *file, size_t size)
{
    unsigned bytes = 1u << below(4), style = below(12);
    if (style == 0) { /* every 8 bytes at once: the quick way to random bytes */
        bytes = 8;
    }
    size_t at = 0;
    for (; at + bytes <= size; at += bytes) {
        uint64_t x = lane(8 * bytes, style);
        memcpy(file + at, &x, bytes);
    }
    memset(file + at, 0, size - at);
}

/* Any legal length, the shorter more often. */
static size_t legal_length(void)
{
    return (size_t)128 << below(1 + below(5));
}

/* ---- telling a difference */

static void differ(const char *what, size_t l, size_t size, bool qc, const uint32_t *words, size_t count,
                   uint64_t found, uint64_t wanted)
{
    if (differences++ >= TOLD)
        return;
    fprintf(stderr, "harness: %s, case %" PRIu64 ": L = %zu, %zu bytes, flag %d, %zu words", what, cases,
            l, size, qc, count);
    for (size_t k = 0; k < count && k < 8; k++)
        fprintf(stderr, " %08X", (unsigned)words[k]);
    fprintf(stderr, ": %" PRIX64 ", not %" PRIX64 "\n", found, wanted);
}

/* ---- the archive against plain.c */

static struct area file_area, word_area;
static uint8_t before[MOST_FILE], wanted_file[MOST_FILE];
static uint32_t words[MOST_WORDS + 1];

static size_t wrong_length(void)
{
    static const size_t some[] = {0, 1, 64, 127, 129, 192, 2047, 2049, 2112, 2176, 4096};
    switch (below(6)) {
    case 0: return next();
    case 1: return next() / 128 * 128;
    case 2: return 128 * (size_t)(1 + below(16)); /* a legal one now and then */
    case 3: return (size_t)1 << below(64);        /* here too */
    default: return some[below(sizeof some / sizeof *some)];
    }
}

static size_t wrong_size(size_t size)
{
    static const int some[] = {-512, -128, -16, -1, 1, 16, 128, 512};
    size_t wrong = one_in(4) ? below(MOST_FILE + 1) : size + some[below(8)];
    return wrong <= MOST_FILE ? wrong : 0;
}

static void run_case(void)
{
    size_t l = legal_length(), size = 4 * l, count = program(words, ROWS);
    bool qc = one_in(2), damaged = one_in(6);
    if (damaged && one_in(2)) {
        l = wrong_length();
        size = l <= MOST_FILE / 4 ? 4 * l : below(MOST_FILE + 1);
    }
    if (damaged && one_in(2))
        size = wrong_size(size);
    if (damaged && one_in(8)) {
        for (; count <= MOST_WORDS; count++)
            words[count] = one_in(100) ? bad_word() : good_word(ROWS);
    }
    fill(before, size);
    memcpy(wanted_file, before, size);
    uint64_t wanted = plain_run(l, wanted_file, size, qc, words, count);

    uint8_t *file = lend(file_area, size, 1);
    uint32_t *lent = (uint32_t *)lend(word_area, 4 * count, 4);
    memcpy(file, before, size);
    memcpy(lent, words, 4 * count);
    uint64_t found = kob_run(l, file, size, qc, lent, count);
    cases++;
    const char *what = found != wanted                         ? "the answer"
                       : memcmp(file, wanted_file, size)       ? "the file"
                       : memcmp(lent, words, 4 * count)        ? "the words were changed"
                                                               : NULL;
    bool clean = kept(file_area, file, size);
    clean &= kept(word_area, (uint8_t *)lent, 4 * count);
    if (what || !clean)
        differ(what ? what : "bytes outside of the file", l, size, qc, words, count, found, wanted);
}

/* What kob_decode must leave: the fields are untouched unless it answers 0. */
static void decode_case(uint32_t word)
{
    uint32_t fields[8], wanted_fields[8];
    for (int k = 0; k < 8; k++)
        fields[k] = wanted_fields[k] = 0xA5A5A5A5;
    uint32_t found = kob_decode(word, fields, 8), wanted = plain_decode(word, wanted_fields);
    cases++;
    if (found != wanted || (wanted == 0 && memcmp(fields, wanted_fields, sizeof fields)))
        differ("decode", 0, 0, 0, &word, 1, found, wanted);
    if (wanted != 0)
        return;
    uint64_t written = kob_encode(wanted_fields, 8);
    cases++;
    if (written != (uint64_t)word << 32)
        differ("encode", 0, 0, 0, &word, 1, written, (uint64_t)word << 32);
}

static void register_case(void)
{
    size_t l = one_in(2) ? legal_length() : wrong_length();
    size_t size = one_in(2) ? 4 * l : wrong_size(4 * l);
    size_t n = one_in(8) ? next() : below(40);
    uint64_t wanted = plain_check(l, size);
    if (wanted == 0 && n > 31)
        wanted = 6;
    if (wanted == 0)
        wanted = (uint64_t)(n * (l / 8)) << 16 | (uint64_t)(l / 8) << 40;
    uint64_t found = kob_register(l, size, n);
    cases++;
    if (found != wanted)
        differ("register", l, size, 0, NULL, 0, found, wanted);
}

/* ---- traces */

enum { LEAST_BODY = 8 + 8 * 128, SPARE = 8, ROOM = MOST_TRACE + 16384 }; /* room for traces that are too long */
enum { MOST_CASES = 1024, LONG_ROOM = 2 << 20 };                         /* and for those that come in pieces */

static struct area trace_area;
static _Alignas(4) uint8_t trace[LONG_ROOM];

static uint32_t number_at(size_t at)
{
    uint32_t n;
    memcpy(&n, trace + at, 4);
    return n;
}

static void put_number(size_t at, uint32_t n)
{
    memcpy(trace + at, &n, 4);
}

/* A body that agrees, from a place on; where it ends. */
static size_t record_body(size_t at, size_t l, const uint32_t *run, size_t count)
{
    bool qc = one_in(2);
    fill(before, 4 * l);
    memcpy(wanted_file, before, 4 * l);
    uint64_t ran = plain_run(l, wanted_file, 4 * l, qc, run, count);
    put_number(at, qc);
    memcpy(trace + at + 4, before, 4 * l);
    memcpy(trace + at + 4 + 4 * l, run, 4 * count);
    put_number(at + 4 + 4 * l + 4 * count, kob_run_flag(ran));
    memcpy(trace + at + 8 + 4 * l + 4 * count, wanted_file, 4 * l);
    return at + 8 + 8 * l + 4 * count;
}

/* Case k of the contents, and its body from a place on; where it ends. */
static size_t record_case(size_t k, size_t at, size_t l, size_t count)
{
    put_number(4 + 12 * k, (uint32_t)l);
    put_number(8 + 12 * k, (uint32_t)count);
    put_number(12 + 12 * k, (uint32_t)at);
    return record_body(at, l, words, count);
}

/* A trace that agrees; its length. Most have a few cases, some as many as there is room for; some are too
 * long, and some fill 64 KiB to the last byte, or have one number more. */
static size_t record_trace(void)
{
    size_t full = one_in(16) ? MOST_TRACE + 4 * below(2) : 0;
    size_t listed = full ? 47 + below(16) : one_in(20) ? 1 + below(62) : 1 + below(4);
    size_t most = full ? full : one_in(8) ? ROOM - SPARE : MOST_TRACE, at = 4 + 12 * listed;
    put_number(0, (uint32_t)listed);
    for (size_t k = 0; k < listed; k++) {
        size_t l = legal_length(), count = program(words, ROWS);
        size_t least = LEAST_BODY * (listed - k - 1); /* what the other bodies take */
        if (at + 8 + 8 * l + 4 * count + least > most || (full && least == 0))
            l = 128, count = 0;
        for (; full && least == 0 && at + LEAST_BODY + 4 * count < full; count++)
            words[count] = good_word(ROWS);
        at = record_case(k, at, l, count);
    }
    return at;
}

/* A number of the contents: one off, or at an edge. */
static void damage_contents(size_t listed)
{
    static const uint32_t some[] = {0, 1, 127, 128, 384, 1024, 1025, 2048, 4096, 4097, 65536, 0xFFFFFFFF};
    size_t at = 4 * (size_t)below(1 + 3 * (uint32_t)listed);
    switch (below(3)) {
    case 0: put_number(at, some[below(sizeof some / sizeof *some)]); break;
    case 1: put_number(at, number_at(at) + 4 * (below(3) - 1)); break;
    default: put_number(at, number_at(at) + 1 - 2 * below(2)); break;
    }
}

/* A flag, a word or a byte of the file after. */
static void damage_body(size_t entry)
{
    size_t l = number_at(entry), count = number_at(entry + 4), at = number_at(entry + 8);
    size_t first = at + 4 + 4 * l, flag = first + 4 * count;
    switch (below(4)) {
    case 0: put_number(one_in(2) ? at : flag, one_in(4) ? (uint32_t)next() : below(3)); break;
    case 1: trace[flag + 4 + (one_in(4) ? 4 * l - 1 : below(4 * (uint32_t)l))] ^= 1u << below(8); break;
    case 2: trace[flag + 4 + below(4)] ^= 1u << below(8); break;
    default:
        if (count > 0)
            put_number(first + 4 * (size_t)below((uint32_t)count), one_in(2) ? bad_word() : good_word(ROWS));
    }
}

/* Damages a body, a number of the contents, any byte or the length. Bodies come first, while the contents
 * still tell where they are. */
static size_t damage(size_t length)
{
    size_t listed = number_at(0);
    while (one_in(2))
        damage_body(4 + 12 * (size_t)below((uint32_t)listed));
    if (one_in(4))
        damage_contents(listed);
    if (one_in(4))
        trace[below((uint32_t)length)] ^= 1u << below(8);
    switch (below(12)) {
    case 0: return below((uint32_t)length + 1);
    case 1: return length - 1 - below(8);
    case 2: return length + 1 + below(SPARE);
    case 3: return below(4 + 12 * (uint32_t)listed + 2);
    default: return length;
    }
}

static void differ_trace(const char *what, size_t length, size_t n, uint64_t found, uint64_t wanted)
{
    if (differences++ < TOLD)
        fprintf(stderr, "harness: %s, case %" PRIu64 ": a trace of %zu bytes, its case %zu: %" PRIX64
                ", not %" PRIX64 "\n", what, cases, length, n, found, wanted);
}

/* A trace, of which some cases are asked for. */
static void trace_case(void)
{
    size_t length = damage(record_trace()), listed = number_at(0);
    size_t first = listed > 4 ? below((uint32_t)listed) : 0;
    uint8_t *lent = lend(trace_area, length, 1);
    memcpy(lent, trace, length);
    for (size_t n = first; n < first + 4; n++) {
        size_t asked = one_in(20) ? next() : n;
        uint64_t found = kob_replay(lent, length, asked), wanted = plain_replay(trace, length, asked);
        cases++;
        if (found != wanted)
            differ_trace("replay", length, asked, found, wanted);
    }
    bool same = !memcmp(lent, trace, length);
    same &= kept(trace_area, lent, length);
    if (!same)
        differ_trace("the trace, or bytes outside of it", length, first, 0, 0);
}

/* ---- traces in pieces */

enum { CALLS_OVER = 3, CALLS_FREE = 4 }; /* behind a refusal or an end; on a state that no calls leave */

static struct area long_area, state_area;
static struct plain_stream beside;

static size_t lesser(size_t a, size_t b)
{
    return a < b ? a : b;
}

/* As many cases as the contents may name, or some of the greatest length and with as many words as there may
 * be; or up to two less. The trace's length. */
static size_t record_long(void)
{
    bool many = one_in(2);
    size_t listed = many ? MOST_CASES - (one_in(2) ? 0 : below(3)) : 1 + below(4), at = 4 + 12 * listed;
    put_number(0, (uint32_t)listed);
    for (size_t k = 0; k < listed; k++) {
        size_t count = many ? below(4) : MOST_WORDS - (one_in(2) ? 0 : below(3));
        for (size_t n = 0; n < count; n++)
            words[n] = good_word(ROWS);
        at = record_case(k, at, many ? 128 : 2048, count);
    }
    return at;
}

/* The bytes of the next piece: none, some, or all that are left. */
static size_t piece(size_t left)
{
    switch (below(8)) {
    case 0: return 0;
    case 1: return lesser(left, 1 + below(4));
    case 2: return lesser(left, below(32));
    case 3: return left;
    case 4: return lesser(left, below(LONG_ROOM));
    default: return lesser(left, below(8192));
    }
}

static void differ_stream(const char *what, size_t length, size_t at, uint64_t found, uint64_t wanted)
{
    if (differences++ < TOLD)
        fprintf(stderr, "harness: %s, case %" PRIu64 ": %zu bytes, of which %zu are taken: %" PRIX64
                ", not %" PRIX64 "\n", what, cases, length, at, found, wanted);
}

/* Hands in the bytes of a trace from one place to another in random pieces, and holds the answers against
 * plain C's if asked to. The place behind the last byte taken. */
static size_t hand_in(uint8_t *state, const uint8_t *bytes, size_t at, size_t to, bool compare)
{
    for (int idle = 0; at < to && idle < CALLS_OVER;) {
        size_t length = piece(to - at);
        uint64_t found = kob_stream_feed(state, KOB_STREAM_SIZE, bytes + at, length);
        uint64_t wanted = compare ? plain_stream_feed(&beside, bytes + at, length) : found;
        size_t taken = found >> 32;
        cases++;
        if (found != wanted || taken > length) {
            differ_stream("stream", to, at, found, wanted);
            return to;
        }
        at += taken;
        idle = length > 0 && taken == 0 ? idle + 1 : 0;
    }
    return at;
}

/* The end, and bytes and ends behind it: one answer, and a state that stays. */
static void end_stream(uint8_t *state, const uint8_t *bytes, size_t length, size_t at)
{
    static uint8_t left[KOB_STREAM_SIZE];
    uint32_t found = kob_stream_end(state, KOB_STREAM_SIZE), wanted = plain_stream_end(&beside);
    memcpy(left, state, sizeof left);
    cases++;
    if (found != wanted)
        differ_stream("the end of a stream", length, at, found, wanted);
    for (int k = 0; k < CALLS_OVER; k++) {
        size_t some = piece(length);
        uint64_t again = kob_stream_feed(state, KOB_STREAM_SIZE, bytes, some);
        if (again != wanted || (again = kob_stream_end(state, KOB_STREAM_SIZE)) != wanted)
            differ_stream("behind the end of a stream", length, at, again, wanted);
        cases += 2;
    }
    if (memcmp(left, state, sizeof left))
        differ_stream("the state behind the end", length, at, 0, 0);
}

/* Some bytes of a state get others, as often as not those of one of the places that 64 bytes can have beside
 * 8,192 and 12,288. */
static void damage_state(uint8_t *state)
{
    static const size_t starts[] = {0, 8192, 12288, 20480};
    size_t start = starts[below(4)];
    if (one_in(8))
        for (size_t k = 0; k < KOB_STREAM_SIZE; k++)
            state[k] = next() >> 56;
    do {
        size_t at = one_in(4) ? below(KOB_STREAM_SIZE) : start + below(64);
        state[at] = one_in(2) ? next() >> 56 : state[at] ^ 1u << below(8);
    } while (!one_in(6));
}

/* On a state that no calls leave the calls return, take no more than there is, and write to nothing else. */
static void free_state_case(const uint8_t *from, const uint8_t *bytes, size_t length)
{
    uint8_t *state = lend(state_area, KOB_STREAM_SIZE, 1);
    memcpy(state, from, KOB_STREAM_SIZE);
    damage_state(state);
    for (int k = 0; k < CALLS_FREE; k++) {
        size_t at = below((uint32_t)length + 1), some = piece(length - at);
        uint64_t found = kob_stream_feed(state, KOB_STREAM_SIZE, bytes + at, some);
        if (found >> 32 > some)
            differ_stream("bytes taken on any state", length, at, found, some);
        if (one_in(8))
            kob_stream_end(state, KOB_STREAM_SIZE);
        cases++;
    }
    if (!kept(state_area, state, KOB_STREAM_SIZE))
        differ_stream("bytes outside of any state", length, 0, 0, 0);
}

/* A state of another length, which stays as it is. */
static void wrong_state_case(const uint8_t *bytes, size_t length)
{
    size_t size = one_in(2) ? KOB_STREAM_SIZE + below(17) - 8 : below((uint32_t)state_area.size + 1);
    size += size == KOB_STREAM_SIZE;
    uint8_t *state = lend(state_area, size, 1);
    uint64_t found = kob_stream_feed(state, size, bytes, piece(length));
    uint32_t end = kob_stream_end(state, size);
    cases += 2;
    if (found != KOB_BAD_FIELDS || end != KOB_BAD_FIELDS)
        differ_stream("a state of another length", length, size, found, end);
    if (!kept(state_area, state_area.start, 0))
        differ_stream("bytes of a state of another length", length, size, 0, 0);
}

/* A trace in pieces against plain C; and cut otherwise, which leaves the same state at a place in the middle, at
 * the last byte and at the end. */
static void stream_case(struct area a, size_t length)
{
    static uint8_t other[KOB_STREAM_SIZE], middle[KOB_STREAM_SIZE];
    uint8_t *lent = lend(a, length, 1), *state = lend(state_area, KOB_STREAM_SIZE, 1);
    memcpy(lent, trace, length);
    memset(state, 0, KOB_STREAM_SIZE);
    memset(other, 0, sizeof other);
    memset(&beside, 0, sizeof beside);
    size_t at = 0, second = 0, places[] = {below((uint32_t)length + 1), length, length};
    for (int k = 0; k < 3; k++) {
        at = hand_in(state, lent, at, places[k], true);
        second = hand_in(other, lent, second, places[k], false);
        if (k == 0)
            memcpy(middle, other, sizeof middle);
        if (k == 2) {
            end_stream(state, lent, length, at);
            kob_stream_end(other, sizeof other);
        }
        if (at != second || memcmp(state, other, sizeof other))
            differ_stream("the state after other cuts", length, at, second, at);
    }
    if (!kept(state_area, state, KOB_STREAM_SIZE))
        differ_stream("bytes outside of a state", length, at, 0, 0);
    free_state_case(middle, lent, length);
    wrong_state_case(lent, length);
    bool same = !memcmp(lent, trace, length);
    same &= kept(a, lent, length);
    if (!same)
        differ_stream("a trace in pieces, or bytes outside of it", length, at, 0, 0);
}

/* ---- demand 3, on the archive alone */

/* The first or a later part of every register, as a file of its own. */
static void part(uint8_t *to, size_t to_bytes, const uint8_t *from, size_t from_bytes, size_t at)
{
    for (size_t r = 0; r < 32; r++)
        memcpy(to + r * to_bytes, from + r * from_bytes + at, to_bytes);
}

static uint8_t whole[MOST_FILE], alone[MOST_FILE], wanted_part[MOST_FILE];

/* A program on two files that agree up to the shorter length: what is told and left agrees too. */
static void length_case(void)
{
    uint32_t shorter = below(4), longer = shorter + 1 + below(4 - shorter);
    size_t one = (size_t)128 << shorter, two = (size_t)128 << longer;
    size_t count = program(words, ROWS);
    bool qc = one_in(2);
    fill(whole, 4 * two);
    part(alone, one / 8, whole, two / 8, 0);
    uint64_t wanted = kob_run(two, whole, 4 * two, qc, words, count);
    uint64_t found = kob_run(one, alone, 4 * one, qc, words, count);
    part(wanted_part, one / 8, whole, two / 8, 0);
    cases++;
    if (found != wanted || memcmp(alone, wanted_part, 4 * one))
        differ("the shorter length", one, 4 * two, qc, words, count, found, wanted);
}

/* A program without Advanced SIMD words: each segment, run alone, does what it does in the whole. */
static void segment_case(void)
{
    size_t l = legal_length(), count = program(words, SVE2_ROWS);
    for (size_t k = 0; k < count; k++) { /* a damaged word can have become one */
        uint32_t fields[8];
        if (plain_decode(words[k], fields) == 0 && (fields[0] == KOB_SQRDMLAH || fields[0] == KOB_SQRDMLSH))
            words[k] = 0;
    }
    bool qc = one_in(2);
    fill(before, 4 * l);
    memcpy(whole, before, 4 * l);
    uint64_t wanted = kob_run(l, whole, 4 * l, qc, words, count);
    for (size_t k = 0; k < l / 128; k++) {
        part(alone, 16, before, l / 8, 16 * k);
        part(wanted_part, 16, whole, l / 8, 16 * k);
        uint64_t found = kob_run(128, alone, 512, qc, words, count);
        cases++;
        if (found != wanted || memcmp(alone, wanted_part, 512))
            differ("a segment alone", l, k, qc, words, count, found, wanted);
    }
}

/* ---- lines, on the archive alone */

enum { FIELDS = 8, MOST_TEXT = 4096 }; /* bytes of a text, and of what is lent for fields */

static struct area line_area, field_area;

static void differ_line(const char *what, const uint32_t *f, const uint8_t *text, size_t length)
{
    if (differences++ >= TOLD)
        return;
    fprintf(stderr, "harness: %s, case %" PRIu64 ": '%.*s', fields", what, cases, (int)length, (const char *)text);
    for (int k = 0; k < FIELDS; k++)
        fprintf(stderr, " %" PRIu32, f[k]);
    fprintf(stderr, "\n");
}

/* The highest value of a field, where those before it are given. */
static uint32_t most(const uint32_t f[FIELDS], int field)
{
    bool add = f[0] < 2, indexed = f[0] == 3 || f[0] == 5, element = f[0] == 6 || f[0] == 7, group = f[0] == 8;
    bool h = f[1] == 1;
    switch (field) {
    case 0: return 8;
    case 1: return 3;
    case 2: return element ? 2 : group ? 4 : 0;
    case 3: return element || group ? 0 : 3;
    case 5: return add || group ? 0 : 31;
    case 6: return indexed ? (h ? 7 : 15) : group || (element && h) ? 15 : 31;
    case 7: return indexed ? (h ? 3 : 1) : element ? (h ? 7 : 3) : 0;
    default: return 31;
    }
}

/* Whether the family has the size, the form or the rotation, and its group the first register. */
static bool has(const uint32_t f[FIELDS], int field)
{
    bool group = f[0] == 8, narrow = f[0] == 3 || (f[0] > 4 && !group);
    switch (field) {
    case 1: return !narrow || f[1] == 1 || f[1] == 2;
    case 2: return !group || f[2] == 2 || f[2] == 4;
    case 3: return f[0] > 1 || f[3] % 2 == 1;
    case 4: return !group || f[4] % f[2] == 0;
    default: return true;
    }
}

/* The last bytes of an area, so that the next one cannot be touched. */
static void *last(struct area a, size_t bytes)
{
    if (bytes > a.size)
        exit(2);
    return a.start + a.size - bytes;
}

/* A line: a room with a byte less is refused, one of its length is enough, and it is read as the same fields. */
static void round_trip(const uint32_t f[FIELDS])
{
    uint8_t text[KOB_LINE_MAX];
    uint32_t found[FIELDS] = {0};
    uint64_t written = kob_line_write(f, FIELDS, text, sizeof text);
    size_t length = lesser(written >> 32, sizeof text);
    uint8_t *lent = last(line_area, length);
    bool refused = length > 0 && kob_line_write(f, FIELDS, lent, length - 1) == KOB_NO_LINE_ROOM && *lent == PATTERN;
    bool same = kob_line_write(f, FIELDS, lent, length) == written && !memcmp(lent, text, length);
    bool read = kob_line_read(lent, length, found, FIELDS) == KOB_DONE && !memcmp(found, f, sizeof found);
    cases++;
    if ((uint32_t)written != KOB_DONE || !refused || !same || !read)
        differ_line("written and read back", f, text, length);
    memset(lent, PATTERN, length);
    fwrite(text, 1, length, stdout);
    putchar('\n');
}

/* Every operation that can be written, in the order of its fields. */
static void every_line(uint32_t f[FIELDS], int field)
{
    if (field == FIELDS) {
        round_trip(f);
        return;
    }
    for (f[field] = 0; f[field] <= most(f, field); f[field]++)
        if (has(f, field))
            every_line(f, field + 1);
}

static void any_operation(uint32_t f[FIELDS])
{
    for (int k = 0; k < FIELDS; k++)
        do
            f[k] = below(most(f, k) + 1);
        while (!has(f, k));
}

/* A text as it is; or bytes changed, put in, left out or added, or its end cut off. Its length. */
static size_t damage_text(uint8_t *text, size_t length)
{
    static const uint8_t some[] = "0123456789,. #-[]{}ABCDHLMQRSUVZ\n";
    while (length > 1 && one_in(2)) {
        size_t at = below((uint32_t)length);
        uint8_t byte = one_in(4) ? next() >> 56 : some[below(sizeof some)];
        switch (below(6)) {
        case 0: length = at + 1; break;
        case 1: memmove(text + at, text + at + 1, --length - at); break;
        case 2: memmove(text + at + 1, text + at, length++ - at); text[at] = byte; break;
        case 3: text[length++] = byte; break;
        default: text[at] = byte;
        }
    }
    return length;
}

/* What is read is written again as it was. What is no line has a beginning of the length that is told, and no
 * longer one. */
static void line_case(void)
{
    uint32_t f[FIELDS] = {0};
    uint8_t text[MOST_TEXT], again[KOB_LINE_MAX];
    any_operation(f);
    size_t length = damage_text(text, kob_line_write(f, FIELDS, text, KOB_LINE_MAX) >> 32);
    uint8_t *lent = lend(line_area, length, 1), *fields = lend(field_area, 4 * FIELDS, 4);
    memcpy(lent, text, length);
    uint64_t found = kob_line_read(lent, length, (uint32_t *)fields, FIELDS);
    size_t shared = found >> 32;
    bool right = false, clean = !memcmp(lent, text, length);
    cases++;
    memcpy(f, fields, sizeof f);
    if (found == KOB_DONE) {
        uint64_t written = kob_line_write(f, FIELDS, again, sizeof again);
        right = written == (uint64_t)length << 32 && !memcmp(again, text, length);
    } else if ((uint32_t)found == KOB_NOT_A_LINE && shared <= length) {
        uint64_t begun = kob_line_read(lent, shared, f, FIELDS);
        right = begun == KOB_DONE || begun == found;
        if (shared < length)
            right &= kob_line_read(lent, shared + 1, f, FIELDS) == found;
        clean &= kept(field_area, fields, 0);
    }
    clean &= kept(line_area, lent, length);
    clean &= kept(field_area, fields, 4 * FIELDS);
    if (!right || !clean)
        differ_line(right ? "bytes outside of a line or its fields" : "read as a line", f, text, length);
}

static double now(void)
{
    struct timespec t;
    clock_gettime(CLOCK_MONOTONIC, &t);
    return t.tv_sec + 1e-9 * t.tv_nsec;
}

static void fuzz(double seconds)
{
    file_area = area(MOST_FILE);
    word_area = area(sizeof words);
    trace_area = area(ROOM);
    long_area = area(LONG_ROOM);
    state_area = area(KOB_STREAM_SIZE);
    line_area = area(MOST_TEXT);
    field_area = area(MOST_TEXT);
    alarm((unsigned)seconds + 60); /* a call that does not return ends this program */
    double end = now() + seconds;
    uint64_t runs = 0, traces = 0, streams = 0, lengths = 0, segments = 0, read = 0, calls = 0;
    for (uint64_t round = 0; now() < end; round++) {
        uint64_t start = cases;
        for (int k = 0; k < 16; k++)
            run_case();
        runs += cases - start, start = cases;
        trace_case();
        traces += cases - start, start = cases;
        if (round % 64 == 0)
            stream_case(long_area, damage(record_long()));
        else
            stream_case(trace_area, damage(record_trace()));
        streams += cases - start, start = cases;
        for (int k = 0; k < 4; k++)
            length_case();
        lengths += cases - start, start = cases;
        segment_case();
        segments += cases - start, start = cases;
        for (int k = 0; k < 16; k++)
            line_case();
        read += cases - start, start = cases;
        for (int k = 0; k < 16; k++) {
            decode_case(good_word(ROWS));
            decode_case(bad_word());
            register_case();
        }
        calls += cases - start;
    }
    fprintf(stderr, "harness: %" PRIu64 " runs, %" PRIu64 " cases of traces and %" PRIu64 " calls of streams"
            " against plain C; %" PRIu64 " pairs of lengths; %" PRIu64 " segments alone; %" PRIu64 " texts read; %"
            PRIu64 " other calls\n", runs, traces, streams, lengths, segments, read, calls);
}

/* ---- answers for the model. Numbers are little-endian, as this machine's must be. */

static void take(void *to, size_t bytes)
{
    if (fread(to, 1, bytes, stdin) != bytes) {
        fprintf(stderr, "harness: a call is cut short\n");
        exit(2);
    }
}

static void give(const void *from, size_t bytes)
{
    fwrite(from, 1, bytes, stdout);
}

static void *room(size_t bytes)
{
    void *p = malloc(bytes ? bytes : 1);
    if (!p)
        exit(2);
    return p;
}

/* A call is its kind and its numbers, then its lent parts; the answer is the number returned, as 8
 * bytes, and the lent part that can have changed. */

static void answer_run(const uint64_t n[4]) /* L, flag, bytes, words */
{
    uint8_t *file = room(n[2]);
    uint32_t *program = room(4 * n[3]);
    take(file, n[2]);
    take(program, 4 * n[3]);
    uint64_t found = kob_run(n[0], file, n[2], n[1], program, n[3]);
    give(&found, 8);
    give(file, n[2]);
    free(file);
    free(program);
}

static void answer_replay(const uint64_t n[4]) /* bytes, case */
{
    uint8_t *bytes = room(n[0]);
    take(bytes, n[0]);
    uint64_t found = kob_replay(bytes, n[0], n[1]);
    give(&found, 8);
    free(bytes);
}

static void answer_stream(const uint64_t n[4]) /* bytes, calls: each a piece's size, or all ones for the end */
{
    static uint8_t state[KOB_STREAM_SIZE];
    uint8_t *bytes = room(n[0]);
    uint32_t *sizes = room(4 * n[1]);
    take(bytes, n[0]);
    take(sizes, 4 * n[1]);
    memset(state, 0, sizeof state);
    for (size_t k = 0, at = 0; k < n[1]; k++) {
        bool end = sizes[k] == UINT32_MAX;
        size_t size = end ? 0 : lesser(sizes[k], n[0] - at);
        uint64_t found = end ? kob_stream_end(state, sizeof state)
                             : kob_stream_feed(state, sizeof state, bytes + at, size);
        at += lesser(found >> 32, size);
        give(&found, 8);
    }
    free(bytes);
    free(sizes);
}

static void answer_decode(const uint64_t n[4]) /* the word, the fields' count */
{
    uint32_t *fields = room(4 * n[1]);
    memset(fields, PATTERN, 4 * n[1]);
    uint64_t found = kob_decode(n[0], fields, n[1]);
    give(&found, 8);
    give(fields, 4 * n[1]);
    free(fields);
}

static void answer_encode(const uint64_t n[4]) /* the fields' count */
{
    uint32_t *fields = room(4 * n[0]);
    take(fields, 4 * n[0]);
    uint64_t found = kob_encode(fields, n[0]);
    give(&found, 8);
    free(fields);
}

static void answer_register(const uint64_t n[4]) /* L, bytes, register */
{
    uint64_t found = kob_register(n[0], n[1], n[2]);
    give(&found, 8);
}

static void answer_list(const uint64_t n[4]) /* bytes, room for text */
{
    uint8_t *bytes = room(n[0]), *out = room(n[1]);
    take(bytes, n[0]);
    memset(out, PATTERN, n[1]);
    uint64_t found = kob_list(bytes, n[0], out, n[1]);
    give(&found, 8);
    give(out, n[1]);
    free(bytes);
    free(out);
}

/* Of the two calls on lines the last byte says whether nothing outside of the lent parts was written. */

static void answer_line_write(const uint64_t n[4]) /* the fields' count, the room */
{
    uint32_t *fields = last(field_area, 4 * n[0]);
    uint8_t *out = last(line_area, n[1]);
    take(fields, 4 * n[0]);
    uint64_t found = kob_line_write(fields, n[0], out, n[1]);
    give(&found, 8);
    give(out, n[1]);
    give(fields, 4 * n[0]);
    bool clean = kept(field_area, (uint8_t *)fields, 4 * n[0]);
    clean &= kept(line_area, out, n[1]);
    give(&clean, 1);
}

static void answer_line_read(const uint64_t n[4]) /* bytes, the fields' count */
{
    uint8_t *text = last(line_area, n[0]);
    uint32_t *fields = last(field_area, 4 * n[1]);
    take(text, n[0]);
    uint64_t found = kob_line_read(text, n[0], fields, n[1]);
    give(&found, 8);
    give(fields, 4 * n[1]);
    give(text, n[0]);
    bool clean = kept(field_area, (uint8_t *)fields, 4 * n[1]);
    clean &= kept(line_area, text, n[0]);
    give(&clean, 1);
}

static void answer(void)
{
    line_area = area(MOST_TEXT);
    field_area = area(MOST_TEXT);
    for (int kind; (kind = getchar()) != EOF;) {
        uint64_t n[4];
        take(n, sizeof n);
        switch (kind) {
        case 'x': answer_run(n); break;
        case 't': answer_replay(n); break;
        case 's': answer_stream(n); break;
        case 'd': answer_decode(n); break;
        case 'e': answer_encode(n); break;
        case 'r': answer_register(n); break;
        case 'l': answer_list(n); break;
        case 'w': answer_line_write(n); break;
        case 'i': answer_line_read(n); break;
        default:
            fprintf(stderr, "harness: no call of kind %d\n", kind);
            exit(2);
        }
    }
}

int main(int count, char **given)
{
    if (count == 2 && !strcmp(given[1], "answer")) {
        answer();
        return 0;
    }
    if (count == 4 && !strcmp(given[1], "fuzz")) {
        seed = strtoull(given[2], NULL, 10) * 0x9E3779B97F4A7C15 | 1;
        fuzz(strtod(given[3], NULL));
    } else if (count == 2 && !strcmp(given[1], "words")) {
        uint32_t word = 0;
        do
            decode_case(word);
        while (++word);
    } else if (count == 2 && !strcmp(given[1], "lines")) {
        uint32_t fields[FIELDS] = {0};
        line_area = area(MOST_TEXT);
        every_line(fields, 0);
    } else {
        fprintf(stderr, "usage: harness fuzz SEED SECONDS | harness words | harness lines | harness answer\n");
        return 2;
    }
    printf("%" PRIu64 " cases, %" PRIu64 " differences\n", cases, differences);
    return differences > 0;
}
