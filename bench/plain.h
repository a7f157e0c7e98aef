/* The library's C interface once more, as a C programmer would write it: see plain.c. */
#ifndef PLAIN_H
#define PLAIN_H

#include <stdbool.h>
#include <stddef.h>
#include <stdint.h>

/* 1, 11 or 2 for a vector length and the bytes of a file, or 0. */
unsigned plain_check(size_t l, size_t file_len);

/* The number in bits 0 to 7, the flag in bit 8, the words done in bits 16 to 31. */
uint64_t plain_run(size_t l, uint8_t *file, size_t file_len, bool qc, const uint32_t *words,
                   size_t words_len);

/* 0 with the eight fields, 4 or 5 with none. */
uint32_t plain_decode(uint32_t word, uint32_t fields[8]);

/* The number in bits 0 to 7, the kind of verdict in bits 8 to 15, the place in bits 16 to 31. The words are
 * run where they stand, so the trace has to be aligned for them. */
uint64_t plain_replay(const uint8_t *trace, size_t length, size_t n);

enum { PLAIN_FILE = 8192, PLAIN_CASES = 1024 };

/* A trace that comes in pieces. All bytes are 0 at the start. */
struct plain_stream {
    bool over, bad_flag, differs, qc;
    uint8_t number, stopped;         /* what it is over with; what the case in hand stopped with */
    uint32_t value, value_bytes;     /* a number that is not whole, and how many of its bytes are there */
    uint32_t cases, listed, due;     /* how many numbers of the contents are there; where their last body ends */
    uint32_t n, at, place, after;    /* the case in hand, the bytes of its body so far, a place, QC after */
    struct plain_entry {
        uint32_t l, words;
    } entries[PLAIN_CASES];
    uint8_t file[PLAIN_FILE];
};

/* As plain_replay's answer, with the bytes taken in bits 32 to 63. */
uint64_t plain_stream_feed(struct plain_stream *s, const uint8_t *bytes, size_t length);
uint32_t plain_stream_end(struct plain_stream *s);

#endif
