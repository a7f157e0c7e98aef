/* A plain C implementation of document 01's run, of request A3's SQDMULH, A9's replay and A10's stream: the
 * yardstick for the library's speed, and one of the two programs that the harness compares it with.
 *
 * Written for speed as portable C goes: a switch over the words, and a loop for each family, width
 * and rotation that the compiler can turn into vector code; no intrinsics. Elements are read and
 * written by memcpy, since a lent file need not be aligned. */

#include "plain.h"

#include <string.h>

enum { CADD, SQCADD, CMLA, CMLA_I, SQRDCMLAH, SQRDCMLAH_I, SQRDMLAH, SQRDMLSH, SQDMULH };
enum { B, H, S, D };
enum { SCALAR, VECTOR_64, VECTOR_128 };
enum { DONE, BAD_LENGTH, BAD_SIZE, TOO_LONG, OUTSIDE, RESERVED, NOT_POWER_OF_TWO = 11 };
enum { BAD_CONTENTS = 15, BAD_TOTAL, BAD_FLAG, NO_CASE = 22 };
enum { AGREES = 1, FILE_DIFFERS, FLAG_DIFFERS }; /* verdicts; OUTSIDE, RESERVED and BAD_FLAG are too */
enum { MOST_WORDS = 4096, MOST_FILE = PLAIN_FILE, MOST_CASES = PLAIN_CASES, MOST_TRACE = 65536 };

struct op {
    unsigned family, size, form, turns, d, n, m, index;
};

/* ---- words */

static inline unsigned bits(uint32_t word, unsigned low, unsigned width)
{
    return word >> low & ((1u << width) - 1);
}

static inline int decode_add(uint32_t word, struct op *op)
{
    switch (word & 0xFF3FF800) {
    case 0x4500D800: op->family = CADD; break;
    case 0x4501D800: op->family = SQCADD; break;
    default: return OUTSIDE;
    }
    op->size = bits(word, 22, 2);
    op->turns = bits(word, 10, 1) ? 3 : 1;
    op->m = bits(word, 5, 5);
    op->d = bits(word, 0, 5);
    return DONE;
}

static inline int decode_multiply(uint32_t word, struct op *op)
{
    op->turns = bits(word, 10, 2);
    op->n = bits(word, 5, 5);
    op->d = bits(word, 0, 5);
    switch (word & 0x0020F000) {
    case 0x00002000: op->family = CMLA; break;
    case 0x00003000: op->family = SQRDCMLAH; break;
    case 0x00206000: op->family = CMLA_I; break;
    case 0x00207000: op->family = SQRDCMLAH_I; break;
    default: return OUTSIDE;
    }
    op->size = bits(word, 22, 2);
    if (op->family == CMLA || op->family == SQRDCMLAH) {
        op->m = bits(word, 16, 5);
        return DONE;
    }
    switch (op->size) {
    case 2:
        op->size = H;
        op->m = bits(word, 16, 3);
        op->index = bits(word, 19, 2);
        return DONE;
    case 3:
        op->size = S;
        op->m = bits(word, 16, 4);
        op->index = bits(word, 20, 1);
        return DONE;
    default: return OUTSIDE;
    }
}

static inline int decode_element(uint32_t word, unsigned form, struct op *op)
{
    switch (word & 0x0000F400) {
    case 0x0000D000: op->family = SQRDMLAH; break;
    case 0x0000F000: op->family = SQRDMLSH; break;
    default: return OUTSIDE;
    }
    op->form = form;
    op->size = bits(word, 22, 2);
    op->n = bits(word, 5, 5);
    op->d = bits(word, 0, 5);
    unsigned h = bits(word, 11, 1), l = bits(word, 21, 1), m = bits(word, 20, 1);
    switch (op->size) {
    case H:
        op->m = bits(word, 16, 4);
        op->index = 4 * h + 2 * l + m;
        return DONE;
    case S:
        op->m = bits(word, 16, 5);
        op->index = 2 * h + l;
        return DONE;
    default: return RESERVED;
    }
}

static inline int decode_group(uint32_t word, struct op *op)
{
    switch (word & 0xFF30FFE1) {
    case 0xC120A400: op->form = 2; break;
    case 0xC120AC00: op->form = 4; break;
    default: return OUTSIDE;
    }
    op->family = SQDMULH;
    op->size = bits(word, 22, 2);
    op->m = bits(word, 16, 4);
    op->d = bits(word, 0, 5);
    return op->d % op->form == 0 ? DONE : OUTSIDE;
}

/* 0, 4 or 5. The fields that the family does not use are left as they are. */
static inline int decode(uint32_t word, struct op *op)
{
    switch (word >> 24) {
    case 0x45: return decode_add(word, op);
    case 0x44: return decode_multiply(word, op);
    case 0x2F: return decode_element(word, VECTOR_64, op);
    case 0x6F: return decode_element(word, VECTOR_128, op);
    case 0x7F: return decode_element(word, SCALAR, op);
    case 0xC1: return decode_group(word, op);
    default: return OUTSIDE;
    }
}

uint32_t plain_decode(uint32_t word, uint32_t fields[8])
{
    struct op op = {0};
    int number = decode(word, &op);
    if (number == DONE) {
        uint32_t all[8] = {op.family, op.size, op.form, op.turns, op.d, op.n, op.m, op.index};
        memcpy(fields, all, sizeof all);
    }
    return number;
}

/* ---- lanes: everything for elements of type T (unsigned U), exact in type W of twice the width */

#define LANES(X, T, U, W)                                                                          \
    static inline T get_##X(const uint8_t *z, size_t e)                                            \
    {                                                                                              \
        T x;                                                                                       \
        memcpy(&x, z + e * sizeof x, sizeof x);                                                    \
        return x;                                                                                  \
    }                                                                                              \
                                                                                                   \
    static inline void put_##X(uint8_t *z, size_t e, T x)                                          \
    {                                                                                              \
        memcpy(z + e * sizeof x, &x, sizeof x);                                                    \
    }                                                                                              \
                                                                                                   \
    static inline T clamp_##X(W x)                                                                 \
    {                                                                                              \
        const W most = (W)(((U)-1) >> 1), least = -most - 1;                                       \
        return (T)(x > most ? most : x < least ? least : x);                                       \
    }                                                                                              \
                                                                                                   \
    static inline T wrapped_##X(T c, T n, T m, bool minus)                                         \
    {                                                                                              \
        U p = (U)((W)n * m);                                                                       \
        return (T)(minus ? (U)c - p : (U)c + p);                                                   \
    }                                                                                              \
                                                                                                   \
    /* (c 2^N + 2 p + 2^(N-1)) >> N, with the addend taken out so that twice the width is enough */\
    static inline W rounded_##X(T c, T n, T m, bool minus)                                         \
    {                                                                                              \
        const int N = 8 * sizeof(T);                                                               \
        W p = (W)((W)n * m);                                                                       \
        W half = (W)((W)1 << (N - 2));                                                             \
        return (W)(c + ((minus ? half - p : half + p) >> (N - 1)));                                \
    }                                                                                              \
                                                                                                   \
    static inline void add_##X(uint8_t *d, const uint8_t *m, size_t bytes, bool q, bool back)      \
    {                                                                                              \
        for (size_t e = 0; e < bytes / sizeof(T); e += 2) {                                        \
            W ar = get_##X(d, e), ai = get_##X(d, e + 1);                                          \
            W br = get_##X(m, e), bi = get_##X(m, e + 1);                                          \
            W r = back ? ar + bi : ar - bi;                                                        \
            W i = back ? ai - br : ai + br;                                                        \
            put_##X(d, e, q ? clamp_##X(r) : (T)(U)r);                                             \
            put_##X(d, e + 1, q ? clamp_##X(i) : (T)(U)i);                                         \
        }                                                                                          \
    }                                                                                              \
                                                                                                   \
    static void cadd_##X(uint8_t *d, const uint8_t *m, size_t bytes, unsigned turns)               \
    {                                                                                              \
        if (turns == 1)                                                                            \
            add_##X(d, m, bytes, false, false);                                                    \
        else                                                                                       \
            add_##X(d, m, bytes, false, true);                                                     \
    }                                                                                              \
                                                                                                   \
    static void sqcadd_##X(uint8_t *d, const uint8_t *m, size_t bytes, unsigned turns)             \
    {                                                                                              \
        if (turns == 1)                                                                            \
            add_##X(d, m, bytes, true, false);                                                     \
        else                                                                                       \
            add_##X(d, m, bytes, true, true);                                                      \
    }                                                                                              \
                                                                                                   \
    static inline T multiplied_##X(T c, T n, T m, bool q, bool minus)                              \
    {                                                                                              \
        return q ? clamp_##X(rounded_##X(c, n, m, minus)) : wrapped_##X(c, n, m, minus);           \
    }                                                                                              \
                                                                                                   \
    static inline void multiply_##X(uint8_t *d, const uint8_t *n, const uint8_t *m, size_t bytes,  \
                                    bool q, unsigned part, bool minus_r, bool minus_i)             \
    {                                                                                              \
        for (size_t e = 0; e < bytes / sizeof(T); e += 2) {                                        \
            T x = get_##X(n, e + part);                                                            \
            T r = multiplied_##X(get_##X(d, e), x, get_##X(m, e + part), q, minus_r);              \
            T i = multiplied_##X(get_##X(d, e + 1), x, get_##X(m, e + 1 - part), q, minus_i);      \
            put_##X(d, e, r);                                                                      \
            put_##X(d, e + 1, i);                                                                  \
        }                                                                                          \
    }                                                                                              \
                                                                                                   \
    static inline void turned_##X(uint8_t *d, const uint8_t *n, const uint8_t *m, size_t bytes,    \
                                  bool q, unsigned turns)                                          \
    {                                                                                              \
        switch (turns) {                                                                           \
        case 0: multiply_##X(d, n, m, bytes, q, 0, false, false); break;                           \
        case 1: multiply_##X(d, n, m, bytes, q, 1, true, false); break;                            \
        case 2: multiply_##X(d, n, m, bytes, q, 0, true, true); break;                             \
        case 3: multiply_##X(d, n, m, bytes, q, 1, false, true); break;                            \
        }                                                                                          \
    }                                                                                              \
                                                                                                   \
    static void cmla_##X(uint8_t *d, const uint8_t *n, const uint8_t *m, size_t bytes,             \
                         unsigned turns)                                                           \
    {                                                                                              \
        turned_##X(d, n, m, bytes, false, turns);                                                  \
    }                                                                                              \
                                                                                                   \
    static void sqrdcmlah_##X(uint8_t *d, const uint8_t *n, const uint8_t *m, size_t bytes,        \
                              unsigned turns)                                                      \
    {                                                                                              \
        turned_##X(d, n, m, bytes, true, turns);                                                   \
    }                                                                                              \
                                                                                                   \
    /* Twice the product over 2^N, rounding down; the lowest number by itself alone leaves the     \
     * range, at the top */                                                                        \
    static inline T doubled_##X(T n, T m)                                                          \
    {                                                                                              \
        const W most = (W)(((U)-1) >> 1);                                                          \
        W high = (W)((W)n * m) >> (8 * sizeof(T) - 1);                                             \
        return (T)(high > most ? most : high);                                                     \
    }                                                                                              \
                                                                                                   \
    /* By a copy of the second source, for it may be one of the group */                           \
    static void sqdmulh_##X(uint8_t *d, const uint8_t *m, size_t bytes, unsigned form)             \
    {                                                                                              \
        uint8_t factor[MOST_FILE / 32];                                                            \
        size_t lanes = bytes / sizeof(T);                                                          \
        memcpy(factor, m, bytes);                                                                  \
        for (size_t at = 0; at < form * lanes; at += lanes)                                        \
            for (size_t e = 0; e < lanes; e++)                                                     \
                put_##X(d, at + e, doubled_##X(get_##X(d, at + e), get_##X(factor, e)));           \
    }

LANES(b, int8_t, uint8_t, int16_t)
LANES(h, int16_t, uint16_t, int32_t)
LANES(s, int32_t, uint32_t, int64_t)
LANES(d, int64_t, uint64_t, __int128)

/* ---- the forms that only H and S have */

#define ELEMENTS(X, T, W)                                                                          \
    static inline void indexed_##X(uint8_t *d, const uint8_t *n, const uint8_t *m, size_t bytes,   \
                                   unsigned index, bool q, unsigned part, bool minus_r,            \
                                   bool minus_i)                                                   \
    {                                                                                              \
        for (size_t at = 0; at < bytes; at += 16) {                                                \
            T a = get_##X(m + at, 2 * index + part), b = get_##X(m + at, 2 * index + 1 - part);    \
            for (size_t e = 0; e < 16 / sizeof(T); e += 2) {                                       \
                T x = get_##X(n + at, e + part);                                                   \
                T r = multiplied_##X(get_##X(d + at, e), x, a, q, minus_r);                        \
                T i = multiplied_##X(get_##X(d + at, e + 1), x, b, q, minus_i);                    \
                put_##X(d + at, e, r);                                                             \
                put_##X(d + at, e + 1, i);                                                         \
            }                                                                                      \
        }                                                                                          \
    }                                                                                              \
                                                                                                   \
    static inline void indexed_turned_##X(uint8_t *d, const uint8_t *n, const uint8_t *m,          \
                                          size_t bytes, unsigned index, bool q, unsigned turns)    \
    {                                                                                              \
        switch (turns) {                                                                           \
        case 0: indexed_##X(d, n, m, bytes, index, q, 0, false, false); break;                     \
        case 1: indexed_##X(d, n, m, bytes, index, q, 1, true, false); break;                      \
        case 2: indexed_##X(d, n, m, bytes, index, q, 0, true, true); break;                       \
        case 3: indexed_##X(d, n, m, bytes, index, q, 1, false, true); break;                      \
        }                                                                                          \
    }                                                                                              \
                                                                                                   \
    static void cmla_indexed_##X(uint8_t *d, const uint8_t *n, const uint8_t *m, size_t bytes,     \
                                 unsigned index, unsigned turns)                                   \
    {                                                                                              \
        indexed_turned_##X(d, n, m, bytes, index, false, turns);                                   \
    }                                                                                              \
                                                                                                   \
    static void sqrdcmlah_indexed_##X(uint8_t *d, const uint8_t *n, const uint8_t *m,              \
                                      size_t bytes, unsigned index, unsigned turns)                \
    {                                                                                              \
        indexed_turned_##X(d, n, m, bytes, index, true, turns);                                    \
    }                                                                                              \
                                                                                                   \
    /* The new 16 bytes are made beside the old, for the lanes not written become zero, as does    \
     * the register above them. */                                                                 \
    static inline bool by_element_##X(uint8_t *d, const uint8_t *n, const uint8_t *m,              \
                                      size_t bytes, size_t lanes, unsigned index, bool minus)      \
    {                                                                                              \
        T made[16 / sizeof(T)] = {0}, x = get_##X(m, index);                                       \
        bool clamped = false;                                                                      \
        for (size_t e = 0; e < lanes; e++) {                                                       \
            W exact = rounded_##X(get_##X(d, e), get_##X(n, e), x, minus);                         \
            made[e] = clamp_##X(exact);                                                            \
            clamped |= made[e] != exact;                                                           \
        }                                                                                          \
        memcpy(d, made, 16);                                                                       \
        memset(d + 16, 0, bytes - 16);                                                             \
        return clamped;                                                                            \
    }                                                                                              \
                                                                                                   \
    static bool sqrdml_##X(uint8_t *d, const uint8_t *n, const uint8_t *m, size_t bytes,           \
                           unsigned form, unsigned index, bool minus)                              \
    {                                                                                              \
        switch (form) {                                                                            \
        case SCALAR: return by_element_##X(d, n, m, bytes, 1, index, minus);                       \
        case VECTOR_64: return by_element_##X(d, n, m, bytes, 8 / sizeof(T), index, minus);        \
        default: return by_element_##X(d, n, m, bytes, 16 / sizeof(T), index, minus);              \
        }                                                                                          \
    }

ELEMENTS(h, int16_t, int32_t)
ELEMENTS(s, int32_t, int64_t)

/* ---- the run */

/* The flag that the operation leaves. */
static bool step(const struct op *op, uint8_t *file, size_t bytes, bool qc)
{
    uint8_t *d = file + op->d * bytes;
    const uint8_t *m = file + op->m * bytes;
    const uint8_t *n = file + op->n * bytes;
    switch (4 * op->family + op->size) {
    case 4 * CADD + B: cadd_b(d, m, bytes, op->turns); break;
    case 4 * CADD + H: cadd_h(d, m, bytes, op->turns); break;
    case 4 * CADD + S: cadd_s(d, m, bytes, op->turns); break;
    case 4 * CADD + D: cadd_d(d, m, bytes, op->turns); break;
    case 4 * SQCADD + B: sqcadd_b(d, m, bytes, op->turns); break;
    case 4 * SQCADD + H: sqcadd_h(d, m, bytes, op->turns); break;
    case 4 * SQCADD + S: sqcadd_s(d, m, bytes, op->turns); break;
    case 4 * SQCADD + D: sqcadd_d(d, m, bytes, op->turns); break;
    case 4 * CMLA + B: cmla_b(d, n, m, bytes, op->turns); break;
    case 4 * CMLA + H: cmla_h(d, n, m, bytes, op->turns); break;
    case 4 * CMLA + S: cmla_s(d, n, m, bytes, op->turns); break;
    case 4 * CMLA + D: cmla_d(d, n, m, bytes, op->turns); break;
    case 4 * SQRDCMLAH + B: sqrdcmlah_b(d, n, m, bytes, op->turns); break;
    case 4 * SQRDCMLAH + H: sqrdcmlah_h(d, n, m, bytes, op->turns); break;
    case 4 * SQRDCMLAH + S: sqrdcmlah_s(d, n, m, bytes, op->turns); break;
    case 4 * SQRDCMLAH + D: sqrdcmlah_d(d, n, m, bytes, op->turns); break;
    case 4 * CMLA_I + H: cmla_indexed_h(d, n, m, bytes, op->index, op->turns); break;
    case 4 * CMLA_I + S: cmla_indexed_s(d, n, m, bytes, op->index, op->turns); break;
    case 4 * SQRDCMLAH_I + H: sqrdcmlah_indexed_h(d, n, m, bytes, op->index, op->turns); break;
    case 4 * SQRDCMLAH_I + S: sqrdcmlah_indexed_s(d, n, m, bytes, op->index, op->turns); break;
    case 4 * SQRDMLAH + H: qc |= sqrdml_h(d, n, m, bytes, op->form, op->index, false); break;
    case 4 * SQRDMLAH + S: qc |= sqrdml_s(d, n, m, bytes, op->form, op->index, false); break;
    case 4 * SQRDMLSH + H: qc |= sqrdml_h(d, n, m, bytes, op->form, op->index, true); break;
    case 4 * SQRDMLSH + S: qc |= sqrdml_s(d, n, m, bytes, op->form, op->index, true); break;
    case 4 * SQDMULH + B: sqdmulh_b(d, m, bytes, op->form); break;
    case 4 * SQDMULH + H: sqdmulh_h(d, m, bytes, op->form); break;
    case 4 * SQDMULH + S: sqdmulh_s(d, m, bytes, op->form); break;
    case 4 * SQDMULH + D: sqdmulh_d(d, m, bytes, op->form); break;
    }
    return qc;
}

static inline uint64_t answer(unsigned number, bool qc, size_t done)
{
    return number | (uint64_t)qc << 8 | (uint64_t)done << 16;
}

unsigned plain_check(size_t l, size_t file_len)
{
    if (l % 128 != 0 || l < 128 || l > 2048)
        return BAD_LENGTH;
    if ((l & (l - 1)) != 0)
        return NOT_POWER_OF_TWO;
    return file_len == 4 * l ? DONE : BAD_SIZE;
}

uint64_t plain_run(size_t l, uint8_t *file, size_t file_len, bool qc, const uint32_t *words,
                   size_t words_len)
{
    unsigned refused = plain_check(l, file_len);
    if (refused != DONE)
        return answer(refused, qc, 0);
    if (words_len > MOST_WORDS)
        return answer(TOO_LONG, qc, 0);
    struct op op = {0};
    for (size_t done = 0; done < words_len; done++) {
        int number = decode(words[done], &op);
        if (number != DONE)
            return answer(number, qc, done);
        qc = step(&op, file, l / 8, qc);
    }
    return answer(DONE, qc, words_len);
}

/* ---- the replay of a recorded trace */

static inline uint32_t number_at(const uint8_t *bytes)
{
    uint32_t x;
    memcpy(&x, bytes, sizeof x);
    return x;
}

static size_t first_difference(const uint8_t *a, const uint8_t *b, size_t size)
{
    if (!memcmp(a, b, size))
        return size;
    size_t place = 0;
    while (a[place] == b[place])
        place++;
    return place;
}

static uint64_t verdict(unsigned kind, size_t place)
{
    return (uint64_t)kind << 8 | (uint64_t)place << 16;
}

/* A body is QC before, file before, words, QC after, file after. */
static uint64_t plain_case(const uint8_t *body, size_t l, size_t words_len)
{
    const uint8_t *words = body + 4 + 4 * l, *flag = words + 4 * words_len;
    uint32_t before = number_at(body), after = number_at(flag);
    if (before > 1 || after > 1)
        return verdict(BAD_FLAG, 0);
    uint8_t file[MOST_FILE];
    memcpy(file, body + 4, 4 * l);
    uint64_t ran = plain_run(l, file, 4 * l, before, (const uint32_t *)words, words_len);
    if ((ran & 0xFF) != DONE)
        return verdict(ran & 0xFF, ran >> 16);
    size_t place = first_difference(file, flag + 4, 4 * l);
    if (place < 4 * l)
        return verdict(FILE_DIFFERS, place);
    return verdict((ran >> 8 & 1) == after ? AGREES : FLAG_DIFFERS, 0);
}

uint64_t plain_replay(const uint8_t *trace, size_t length, size_t n)
{
    size_t cases = length < 4 ? 0 : number_at(trace), due = 4 + 12 * cases;
    if (cases == 0 || cases > MOST_CASES || length < due)
        return BAD_CONTENTS;
    for (size_t k = 0; k < cases; k++) {
        const uint8_t *entry = trace + 4 + 12 * k;
        size_t l = number_at(entry), words_len = number_at(entry + 4);
        if (plain_check(l, 4 * l) != DONE || words_len > MOST_WORDS || number_at(entry + 8) != due)
            return BAD_CONTENTS;
        due += 8 + 8 * l + 4 * words_len;
    }
    if (length > MOST_TRACE || length != due)
        return BAD_TOTAL;
    if (n >= cases)
        return NO_CASE;
    const uint8_t *entry = trace + 4 + 12 * n;
    return plain_case(trace + number_at(entry + 8), number_at(entry), number_at(entry + 4));
}

/* ---- a trace in pieces. Words run as they come, and the file after is compared as it comes. */

static inline size_t lesser(size_t a, size_t b)
{
    return a < b ? a : b;
}

static uint64_t over(struct plain_stream *s, unsigned number)
{
    s->over = true;
    s->number = number;
    return number;
}

/* The bytes taken for a number; it is whole, in s->value, where none of its bytes is missing then. */
static inline size_t take_number(struct plain_stream *s, const uint8_t *bytes, size_t length)
{
    size_t some = lesser(4 - s->value_bytes, length);
    memcpy((uint8_t *)&s->value + s->value_bytes, bytes, some);
    s->value_bytes = (s->value_bytes + some) % 4;
    return some;
}

/* Whether the number is allowed as the next of the contents. */
static bool take_listed(struct plain_stream *s, uint32_t x)
{
    uint32_t k = s->listed++;
    if (k == 0) {
        s->cases = x;
        s->due = 4 + 12 * x;
        return x >= 1 && x <= MOST_CASES;
    }
    struct plain_entry *entry = &s->entries[(k - 1) / 3];
    switch (k % 3) {
    case 1: entry->l = x; return plain_check(x, 4 * (size_t)x) == DONE;
    case 2: entry->words = x; return x <= MOST_WORDS;
    }
    bool right = x == s->due;
    s->due += 8 + 8 * entry->l + 4 * entry->words;
    return right;
}

/* All bytes of the contents that are there; 15 with the first number that is not allowed. */
static uint64_t take_contents(struct plain_stream *s, const uint8_t *bytes, size_t length, size_t *taken)
{
    while (*taken < length && s->listed < 1 + 3 * s->cases) {
        *taken += take_number(s, bytes + *taken, length - *taken);
        if (s->value_bytes == 0 && !take_listed(s, s->value))
            return over(s, BAD_CONTENTS);
    }
    return DONE;
}

static void run_word(struct plain_stream *s, size_t l, uint32_t word, size_t place)
{
    struct op op = {0};
    int number = decode(word, &op);
    if (number == DONE) {
        s->qc = step(&op, s->file, l / 8, s->qc);
        return;
    }
    s->stopped = number;
    s->place = place;
}

/* The bytes taken for the words and the flags of a body. */
static size_t take_body_number(struct plain_stream *s, const uint8_t *bytes, size_t length, size_t l, size_t flag)
{
    size_t some = take_number(s, bytes, length), start = s->at + some - 4;
    s->at += some;
    if (s->value_bytes != 0)
        return some;
    if (start == 0 || start == flag)
        s->bad_flag |= s->value > 1;
    if (start == 0)
        s->qc = s->value;
    else if (start == flag)
        s->after = s->value;
    else if (!s->bad_flag && !s->stopped)
        run_word(s, l, s->value, (start - 4 - 4 * l) / 4);
    return some;
}

/* The bytes taken for the file after. */
static size_t take_after(struct plain_stream *s, const uint8_t *bytes, size_t length, size_t start, size_t size)
{
    size_t at = s->at - start, some = lesser(size - at, length);
    if (!s->bad_flag && !s->stopped && !s->differs) {
        size_t place = first_difference(s->file + at, bytes, some);
        s->differs = place < some;
        s->place = s->differs ? at + place : 0;
    }
    s->at += some;
    return some;
}

static uint64_t body_verdict(const struct plain_stream *s)
{
    if (s->bad_flag)
        return verdict(BAD_FLAG, 0);
    if (s->stopped)
        return verdict(s->stopped, s->place);
    if (s->differs)
        return verdict(FILE_DIFFERS, s->place);
    return verdict(s->qc == s->after ? AGREES : FLAG_DIFFERS, 0);
}

/* The bytes of the body in hand that are there; its verdict with the last of them. */
static uint64_t take_body(struct plain_stream *s, const uint8_t *bytes, size_t length, size_t *taken)
{
    size_t l = s->entries[s->n].l, words = 4 + 4 * l, flag = words + 4 * s->entries[s->n].words;
    size_t end = flag + 4 + 4 * l;
    while (*taken < length && s->at < end) {
        const uint8_t *next = bytes + *taken;
        size_t left = length - *taken;
        if (s->at >= 4 && s->at < words) {
            size_t some = lesser(words - s->at, left);
            memcpy(s->file + s->at - 4, next, some);
            s->at += some;
            *taken += some;
        } else if (s->at >= flag + 4) {
            *taken += take_after(s, next, left, flag + 4, 4 * l);
        } else {
            *taken += take_body_number(s, next, left, l, flag);
        }
    }
    if (s->at < end)
        return DONE;
    uint64_t told = body_verdict(s);
    s->n++;
    s->at = s->place = 0;
    s->stopped = 0;
    s->bad_flag = s->differs = false;
    return told;
}

uint64_t plain_stream_feed(struct plain_stream *s, const uint8_t *bytes, size_t length)
{
    size_t taken = 0;
    if (s->over || length == 0)
        return s->number;
    uint64_t told = take_contents(s, bytes, length, &taken);
    if (told == DONE && taken < length) {
        if (s->n < s->cases)
            told = take_body(s, bytes, length, &taken);
        else
            taken++, told = over(s, BAD_TOTAL);
    }
    return told | (uint64_t)taken << 32;
}

uint32_t plain_stream_end(struct plain_stream *s)
{
    if (!s->over) {
        bool listed = s->listed == 1 + 3 * s->cases;
        over(s, !listed ? BAD_CONTENTS : s->n < s->cases ? BAD_TOTAL : DONE);
    }
    return s->number;
}
