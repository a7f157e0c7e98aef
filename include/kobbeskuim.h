/*
 * Kobbeskuim: AArch64's saturating complex vector instructions, and SME2's SQDMULH.
 *
 * Every call is proved to meet its contract for every input, to stay inside the
 * memory that it is lent, and to end. None has a precondition but C's own: a
 * pointer is aligned for its type and good for the length beside it.
 *
 * A part of memory is a pointer and then a length, which counts elements. Memory
 * is only used during the call. Where the length is 0 the pointer may be null, in
 * every part of every call: nothing is read or written through it. A part that a
 * call writes to (a pointer with no const) overlaps no other part of the same call.
 * No call keeps state of its own (a stream's is lent by the caller), so threads may
 * call at the same time.
 *
 * Link with libkobbeskuim.a or libkobbeskuim.so, which './kob staticlib' builds
 * (x86-64 Linux). Of the C library its code needs memcpy and memset alone.
 */
#ifndef KOBBESKUIM_H
#define KOBBESKUIM_H

#include <stdbool.h>
#include <stddef.h>
#include <stdint.h>

/* A cast that -Wold-style-cast passes in C++. */
#ifdef __cplusplus
#define KOB_CAST(type, value) static_cast<type>(value)
extern "C" {
#else
#define KOB_CAST(type, value) ((type)(value))
#endif

#define KOB_VERSION "0.6.0"
#define KOB_VERSION_MAJOR 0
#define KOB_VERSION_MINOR 6
#define KOB_VERSION_PATCH 0

/* ---- limits */

/* The vector length L, in bits: 128, 256, 512, 1,024 or 2,048, so KOB_LENGTH_MIN
 * doubled up to KOB_LENGTH_MAX. The eleven other multiples of 128 between these,
 * the first of them 384, give KOB_NOT_POWER_OF_TWO, and every other number
 * KOB_BAD_LENGTH: 0, 127, 192, 2,049, 2,176, 4,096. */
#define KOB_LENGTH_MIN 128
#define KOB_LENGTH_MAX 2048

/* The register file: registers 0 to 31 in order, L/8 bytes each, little-endian,
 * element 0 first; 4 x L bytes together. Register Vn is the first 16 bytes of Zn;
 * SQRDMLAH and SQRDMLSH write Vn, and that makes the rest of Zn zero. */
#define KOB_REGISTERS 32
#define KOB_FILE_SIZE(l) (KOB_CAST(size_t, 4) * (l))
#define KOB_FILE_SIZE_MAX 8192

/* The most words of a program. */
#define KOB_WORDS_MAX 4096

/* The most words that a listing lists; one more gives its LIMIT line. */
#define KOB_LIST_WORDS_MAX 1048576

/* The most bytes of a trace that kob_replay takes, 64 KiB (a stream has no such limit),
 * and the most cases that its contents may name. */
#define KOB_TRACE_MAX 65536
#define KOB_CASES_MAX 1024

/* The bytes of the longest line. */
#define KOB_LINE_MAX 47

/* The bytes of a stream's state. */
#define KOB_STREAM_SIZE 20544

/* ---- numbers answered */

#define KOB_DONE 0
#define KOB_BAD_LENGTH 1
#define KOB_BAD_SIZE 2
#define KOB_TOO_LONG 3
#define KOB_OUTSIDE 4  /* a word of no family here */
#define KOB_RESERVED 5 /* SQRDMLAH or SQRDMLSH with size 00 or 11 */
#define KOB_NO_REGISTER 6
#define KOB_NO_SIZE 7
#define KOB_NO_ROTATION 8
#define KOB_REGISTER_LIMIT 9
#define KOB_INDEX_LIMIT 10
#define KOB_NOT_POWER_OF_TWO 11 /* but a multiple of 128 from 128 to 2,048 */
#define KOB_NOT_A_LINE 12
#define KOB_NO_LINE_ROOM 13
#define KOB_GROUP_START 14
#define KOB_BAD_CONTENTS 15
#define KOB_BAD_TOTAL 16
#define KOB_BAD_FLAG 17 /* a verdict, not a refusal */
#define KOB_NO_CASE 22

/* Numbers of these calls alone, above every number of the library. */
#define KOB_BAD_FIELDS 32
#define KOB_NO_OPERATION 33

/* The text of a number. */
static inline const char *kob_text(unsigned number) {
    switch (number) {
    case KOB_DONE: return "done";
    case KOB_BAD_LENGTH: return "length not a multiple of 128 from 128 to 2,048";
    case KOB_BAD_SIZE: return "file not 4 x L bytes";
    case KOB_TOO_LONG: return "more than 4,096 words";
    case KOB_OUTSIDE: return "word outside the set";
    case KOB_RESERVED: return "reserved word";
    case KOB_NO_REGISTER: return "register above 31";
    case KOB_NO_SIZE: return "size that the family lacks";
    case KOB_NO_ROTATION: return "rotation that the family lacks";
    case KOB_REGISTER_LIMIT: return "register field above its limit";
    case KOB_INDEX_LIMIT: return "index above its limit";
    case KOB_NOT_POWER_OF_TWO: return "length not a power of two";
    case KOB_NOT_A_LINE: return "not a line";
    case KOB_NO_LINE_ROOM: return "room shorter than the line";
    case KOB_GROUP_START: return "first register not a multiple of its group's two or four";
    case KOB_BAD_CONTENTS: return "contents cut short or not allowed";
    case KOB_BAD_TOTAL: return "trace above 64 KiB or not as long as its contents say";
    case KOB_BAD_FLAG: return "flag neither 0 nor 1";
    case KOB_NO_CASE: return "case not below the number of cases";
    case KOB_BAD_FIELDS: return "fields not 8 numbers, or state not 20,544 bytes";
    case KOB_NO_OPERATION: return "fields that name no operation";
    default: return "no number of these calls";
    }
}

/* ---- running a program */

/*
 * Runs the words in order on the lent file, with the saturation flag QC.
 *
 * KOB_DONE: all words are done. KOB_BAD_LENGTH, KOB_NOT_POWER_OF_TWO, KOB_BAD_SIZE,
 * KOB_TOO_LONG, the first that applies: nothing is changed, 0 words. KOB_OUTSIDE,
 * KOB_RESERVED: the file and the flag are as after the words before that word, and
 * their count is the words done.
 */
uint64_t kob_run(size_t l, uint8_t *file, size_t file_length, bool qc,
                 const uint32_t *words, size_t word_count);

/* The answer's parts: the number in bits 0 to 7, the flag in bit 8, the words
 * done (0 to 4,096) in bits 16 to 31; the other bits are 0. */
static inline unsigned kob_run_number(uint64_t answer) { return KOB_CAST(unsigned, answer & 0xFF); }
static inline bool kob_run_flag(uint64_t answer) { return (answer >> 8 & 1) != 0; }
static inline unsigned kob_run_done(uint64_t answer) { return KOB_CAST(unsigned, answer >> 16 & 0xFFFF); }

/* ---- where a register stands */

/*
 * The place of register n in a file of `size` bytes. KOB_DONE, or the first of
 * KOB_BAD_LENGTH, KOB_NOT_POWER_OF_TWO, KOB_BAD_SIZE and KOB_NO_REGISTER that applies.
 */
uint64_t kob_register(size_t l, size_t size, size_t n);

/* The answer's parts: the number in bits 0 to 7, the start in bits 16 to 39 (at
 * most 7,936), the length in bits 40 to 63 (at most 256), both in bytes and both 0
 * on a refusal; bits 8 to 15 are 0. */
static inline unsigned kob_register_number(uint64_t answer) { return KOB_CAST(unsigned, answer & 0xFF); }
static inline size_t kob_register_start(uint64_t answer) { return answer >> 16 & 0xFFFFFF; }
static inline size_t kob_register_length(uint64_t answer) { return answer >> 40; }

/* ---- words and their fields */

/* An operation is eight numbers. What its family does not use is 0. */
#define KOB_FIELDS 8
#define KOB_FAMILY 0      /* KOB_CADD to KOB_SQDMULH */
#define KOB_SIZE 1        /* KOB_SIZE_B to KOB_SIZE_D */
#define KOB_FORM 2        /* SQRDMLAH and SQRDMLSH: KOB_SCALAR to KOB_VECTOR_128;
                           * SQDMULH: 2 or 4, the registers of its group */
#define KOB_TURNS 3       /* the rotation in quarter turns, 0 to 3; all but SQRDMLAH, SQRDMLSH and SQDMULH */
#define KOB_DESTINATION 4 /* Zdn, Zda or Rd; SQDMULH: the first register of its group */
#define KOB_FIRST 5       /* Zn or Rn; CADD, SQCADD and SQDMULH have none, for Zdn is their first source */
#define KOB_SECOND 6      /* Zm or Rm */
#define KOB_INDEX 7       /* CMLA-I, SQRDCMLAH-I, SQRDMLAH and SQRDMLSH only */

#define KOB_CADD 0
#define KOB_SQCADD 1
#define KOB_CMLA 2
#define KOB_CMLA_I 3
#define KOB_SQRDCMLAH 4
#define KOB_SQRDCMLAH_I 5
#define KOB_SQRDMLAH 6
#define KOB_SQRDMLSH 7
#define KOB_SQDMULH 8

#define KOB_SIZE_B 0 /* elements of 8 bits */
#define KOB_SIZE_H 1 /* 16 */
#define KOB_SIZE_S 2 /* 32 */
#define KOB_SIZE_D 3 /* 64 */

#define KOB_SCALAR 0     /* one lane */
#define KOB_VECTOR_64 1  /* 64 bits of lanes */
#define KOB_VECTOR_128 2 /* 128 bits of lanes */

/*
 * Decodes a word into `fields`, whose length is to be KOB_FIELDS.
 *
 * KOB_DONE: the eight fields are written. Else nothing is: KOB_BAD_FIELDS,
 * KOB_OUTSIDE, KOB_RESERVED.
 */
uint32_t kob_decode(uint32_t word, uint32_t *fields, size_t length);

/*
 * The word of the operation that the fields name.
 *
 * KOB_BAD_FIELDS: the length is not KOB_FIELDS. KOB_NO_OPERATION: a family above 8,
 * a size above 3, a form that the family has not, turns above 3, or a field that the
 * family does not use and that is not 0. Then the first of
 *   KOB_NO_SIZE: only H and S for the indexed families, SQRDMLAH and SQRDMLSH;
 *   KOB_NO_ROTATION: only 90 and 270 degrees, turns 1 and 3, for CADD and SQCADD;
 *   KOB_REGISTER_LIMIT: registers are at most 31, and the second source at most
 *     7 (indexed H), 15 (indexed S, SQDMULH, and SQRDMLAH and SQRDMLSH at H);
 *   KOB_GROUP_START: SQDMULH's first register is a multiple of 2 or 4, as its form;
 *   KOB_INDEX_LIMIT: the index is at most 3 and 1 (indexed H and S), 7 and 3
 *     (SQRDMLAH and SQRDMLSH at H and S).
 * Or KOB_DONE.
 *
 * The fields that kob_decode writes for a word give that word.
 */
uint64_t kob_encode(const uint32_t *fields, size_t length);

/* The answer's parts: the number in the low half, the word in the high half, which
 * is 0 on a refusal. */
static inline uint32_t kob_encode_number(uint64_t answer) { return KOB_CAST(uint32_t, answer & 0xFFFFFFFF); }
static inline uint32_t kob_encode_word(uint64_t answer) { return KOB_CAST(uint32_t, answer >> 32); }

/* ---- lines */

/* The line of an operation is its assembler text: upper case, one space behind the
 * mnemonic, one comma and one space between operands, decimal numbers with no leading
 * zero, and no line end. Each operation that has a word has one line, of at most
 * KOB_LINE_MAX bytes, and no two have the same. Such as
 *   SQCADD Z0.B, Z0.B, Z1.B, #90
 *   SQRDCMLAH Z0.H, Z1.H, Z2.H[3], #90
 *   SQRDMLSH V0.4H, V1.4H, V2.H[7]
 *   SQRDMLSH H0, H1, V2.H[7]
 *   SQDMULH { Z0.H-Z1.H }, { Z0.H-Z1.H }, Z2.H */

/*
 * Writes the line of the operation that the fields name to the start of `out`; what
 * stands behind it is left. No line end and no zero byte is written.
 *
 * The number is the first of
 *   KOB_BAD_FIELDS: the length is not KOB_FIELDS;
 *   KOB_NO_OPERATION, KOB_NO_SIZE, KOB_NO_ROTATION, KOB_REGISTER_LIMIT,
 *     KOB_GROUP_START, KOB_INDEX_LIMIT: as kob_encode gives it;
 *   KOB_NO_LINE_ROOM: `room` is less than the line's length. KOB_LINE_MAX is enough
 *     for every line.
 * With these nothing is written. Or KOB_DONE.
 *
 * What is written, kob_line_read reads as the same fields.
 */
uint64_t kob_line_write(const uint32_t *fields, size_t length, uint8_t *out, size_t room);

/* The answer's parts: the number in the low half, the line's length in the high half,
 * which is 0 on a refusal. */
static inline uint32_t kob_line_write_number(uint64_t answer) { return KOB_CAST(uint32_t, answer & 0xFFFFFFFF); }
static inline size_t kob_line_write_length(uint64_t answer) { return answer >> 32; }

/*
 * Reads a text that is to be one whole line, into `fields`, whose length is to be
 * KOB_FIELDS.
 *
 * KOB_DONE: the text is the line of the operation whose eight fields are now written.
 * Else nothing is written:
 *   KOB_BAD_FIELDS: fields_length is not KOB_FIELDS;
 *   KOB_NOT_A_LINE: no line is equal to the text. The reach is the greatest k for
 *     which the first k bytes of the text are the first k bytes of some line. Where
 *     it is `length`, a line was cut off; else the byte at that place, counted from
 *     0, is the first that no line has there. Bytes above 127, zero bytes and line
 *     ends belong to no line. The empty text has the reach 0.
 *
 * The fields that it gives, kob_line_write writes as the same line.
 */
uint64_t kob_line_read(const uint8_t *line, size_t length, uint32_t *fields, size_t fields_length);

/* The answer's parts: the number in the low half, the reach (at most KOB_LINE_MAX) in
 * the high half, which is 0 but with KOB_NOT_A_LINE. */
static inline uint32_t kob_line_read_number(uint64_t answer) { return KOB_CAST(uint32_t, answer & 0xFFFFFFFF); }
static inline size_t kob_line_read_reach(uint64_t answer) { return answer >> 32; }

/* ---- the listing */

/* The room that a listing of so many bytes asks for: 21 for each whole word, 32 more. */
#define KOB_LIST_ROOM(length) (KOB_CAST(size_t, 21) * ((length) / 4) + 32)

/* kob_list's answer where `out` is shorter than that. */
#define KOB_NO_ROOM UINT64_MAX

/*
 * Lists all little-endian 4-byte words of `bytes`, with the closing lines, from the
 * start of `out`. The length of the text; what stands behind it in `out` is left.
 * KOB_NO_ROOM, and nothing is written, where `out` has not room for
 * KOB_LIST_ROOM(length) bytes.
 */
uint64_t kob_list(const uint8_t *bytes, size_t length, uint8_t *out, size_t room);

/* ---- replaying a recorder's trace */

/* A trace is a table of contents and then the bodies, in little-endian 4-byte numbers.
 *
 * The contents are the number of cases, 1 to KOB_CASES_MAX, and then for each case its
 * length L in bits, its word count, 0 to KOB_WORDS_MAX, and its body's start in bytes
 * from the first byte of the trace. The bodies follow in order with no gap: the first
 * starts at 4 + 12 x cases, each other where the one before it ends.
 *
 * A body is QC before, the file before, the words, QC after and the file after:
 * 8 + 8 x L + 4 x words bytes. A file is 4 x L bytes, as kob_run takes it. */

/* The kinds of verdict. KOB_OUTSIDE, KOB_RESERVED and KOB_BAD_FLAG are kinds too, and
 * of these kob_text has the text. */
#define KOB_NO_VERDICT 0 /* on a refusal, and where a stream has none to give */
#define KOB_AGREES 1
#define KOB_FILE_DIFFERS 2
#define KOB_FLAG_DIFFERS 3

/*
 * Replays case n, counted from 0, of the trace: runs its words on its file and flag
 * before, and compares what the run leaves with its file and flag after. The trace is
 * not written to, and it may stand at any address.
 *
 * The number is the first of
 *   KOB_BAD_CONTENTS: there are fewer than 4 bytes, or fewer than 4 + 12 x cases; or
 *     the number of cases, a length, a word count or a start is not one of those above;
 *   KOB_BAD_TOTAL: the trace is longer than KOB_TRACE_MAX, or the last body does not
 *     end where the trace ends;
 *   KOB_NO_CASE: n is not below the number of cases.
 * With these there is no verdict, and the kind and the place are 0. Or the number is
 * KOB_DONE, and the kind is the first of
 *   KOB_BAD_FLAG: QC before or QC after is neither 0 nor 1;
 *   KOB_OUTSIDE, KOB_RESERVED: the run stops at that word, and nothing is compared.
 *     The place is the word's, counted from 0;
 *   KOB_FILE_DIFFERS: the file that the run leaves is not the file after. The place is
 *     the first byte that differs, counted from 0 in the file: byte place % (L/8) of
 *     register place / (L/8);
 *   KOB_FLAG_DIFFERS: the files agree, and the flag that the run leaves is not QC after;
 *   KOB_AGREES.
 * Where no place is named it is 0. What the body of another case holds does not count.
 */
uint64_t kob_replay(const uint8_t *trace, size_t length, size_t n);

/* The answer's parts: the number in bits 0 to 7, the kind in bits 8 to 15, the place
 * (at most 8,191) in bits 16 to 31; the other bits are 0. */
static inline unsigned kob_replay_number(uint64_t answer) { return KOB_CAST(unsigned, answer & 0xFF); }
static inline unsigned kob_replay_kind(uint64_t answer) { return KOB_CAST(unsigned, answer >> 8 & 0xFF); }
static inline unsigned kob_replay_place(uint64_t answer) { return KOB_CAST(unsigned, answer >> 16 & 0xFFFF); }

/* ---- a trace in pieces */

/* A stream is a trace that comes in pieces, of any size. Its state is KOB_STREAM_SIZE
 * bytes, which the caller sets to 0 at the start and lends to every call; what they mean
 * is the library's affair. They may stand at any address, and may be copied. */

/*
 * Hands in the next bytes of the stream. However they are cut, a piece with no bytes
 * too, the verdicts and the end are those of one whole piece.
 *
 * Where no byte of the piece brings a verdict or a refusal, all are taken: KOB_DONE and
 * KOB_NO_VERDICT. Else they are taken up to and with the first that does, and the rest
 * is to be handed in again:
 *   the last byte of a case's body: KOB_DONE, and the case's kind and place, as
 *     kob_replay gives them. Cases come in order, and KOB_TRACE_MAX is no limit here.
 *     What comes later does not change a verdict;
 *   the last byte of the first number of the contents that is not allowed:
 *     KOB_BAD_CONTENTS;
 *   the first byte past the last body: KOB_BAD_TOTAL.
 * After a refusal or the end: the number of that refusal or end, KOB_NO_VERDICT, no byte
 * is taken, and the state is as it was. After an end with KOB_DONE that is the answer of a
 * piece with no bytes: a loop that hands in the rest must not go on then.
 *
 * KOB_BAD_FIELDS: state_length is not KOB_STREAM_SIZE. KOB_NO_VERDICT, no byte is taken,
 * and nothing is changed.
 */
uint64_t kob_stream_feed(uint8_t *state, size_t state_length, const uint8_t *bytes, size_t length);

/* The answer's parts: the number in bits 0 to 7, the kind in bits 8 to 15 and the place
 * (at most 8,191) in bits 16 to 31, the bytes taken (at most 45,068, which is all of the
 * longest contents and body) in bits 32 to 63. Where no place is named it is 0. */
static inline unsigned kob_stream_number(uint64_t answer) { return KOB_CAST(unsigned, answer & 0xFF); }
static inline unsigned kob_stream_kind(uint64_t answer) { return KOB_CAST(unsigned, answer >> 8 & 0xFF); }
static inline unsigned kob_stream_place(uint64_t answer) { return KOB_CAST(unsigned, answer >> 16 & 0xFFFF); }
static inline size_t kob_stream_taken(uint64_t answer) { return answer >> 32; }

/*
 * Says that no byte follows. The number is
 *   KOB_BAD_CONTENTS: the contents are not whole, or there was no byte at all;
 *   KOB_BAD_TOTAL: a body is missing or not whole;
 *   KOB_DONE: the last body is whole.
 * The stream has then ended with that number. After a refusal or the end: that number
 * again. KOB_BAD_FIELDS: state_length is not KOB_STREAM_SIZE, and nothing is changed.
 *
 * On a state that no calls from one of zeros leave, the answers of both calls are free;
 * they return, write to nothing but the state and take at most `length` bytes.
 */
uint32_t kob_stream_end(uint8_t *state, size_t state_length);

#ifdef __cplusplus
}
#endif

#endif
