/* Replays a recorder's trace, whose file is named on the command line, and prints a line for each case. */
#include <kobbeskuim.h>
#include <stdio.h>
#include <string.h>

static uint8_t trace[KOB_TRACE_MAX + 1]; /* a byte more, so that a longer file is refused */

/* The little-endian number at a place of the trace. */
static uint32_t number_at(size_t at) {
    return trace[at] | (uint32_t)trace[at + 1] << 8 | (uint32_t)trace[at + 2] << 16 | (uint32_t)trace[at + 3] << 24;
}

/* Byte `place` of case n's file: its register, what the run leaves there, and what was recorded. */
static void tell_byte(size_t n, unsigned place) {
    static uint8_t file[KOB_FILE_SIZE_MAX];
    static uint32_t words[KOB_WORDS_MAX];
    const uint32_t l = number_at(4 + 12 * n), count = number_at(8 + 12 * n), start = number_at(12 + 12 * n);
    const size_t program = start + 4 + 4 * l, after = program + 4 * count + 4;
    memcpy(file, trace + start + 4, 4 * l);
    for (size_t i = 0; i < count; i++) words[i] = number_at(program + 4 * i);
    kob_run(l, file, 4 * l, number_at(start) == 1, words, count);
    printf("file differs at Z%u, byte %u: expected %02X, found %02X\n", place / (l / 8), place % (l / 8), file[place],
           trace[after + place]);
}

static void tell(size_t n, uint64_t answer) {
    const unsigned kind = kob_replay_kind(answer), place = kob_replay_place(answer);
    printf("case %zu: ", n);
    switch (kind) {
    case KOB_AGREES: puts("agrees"); break;
    case KOB_FILE_DIFFERS: tell_byte(n, place); break;
    case KOB_FLAG_DIFFERS: puts("flag differs"); break;
    case KOB_BAD_FLAG: puts(kob_text(kind)); break;
    default: printf("stopped at word %u: %s\n", place, kob_text(kind)); /* KOB_OUTSIDE, KOB_RESERVED */
    }
}

static bool read_trace(const char *name, size_t *length) {
    FILE *file = fopen(name, "rb");
    if (!file) return false;
    *length = fread(trace, 1, sizeof trace, file);
    const bool good = !ferror(file);
    fclose(file);
    return good;
}

int main(int count, char **given) {
    size_t length = 0, n = 0;
    if (count != 2 || !read_trace(given[1], &length)) {
        fprintf(stderr, count == 2 ? "replay: cannot read the file\n" : "usage: replay FILE\n");
        return 2;
    }
    uint64_t answer = kob_replay(trace, length, n);
    while (kob_replay_number(answer) == KOB_DONE) {
        tell(n, answer);
        answer = kob_replay(trace, length, ++n);
    }
    const unsigned number = kob_replay_number(answer);
    if (number == KOB_NO_CASE) return 0; /* past the last case */
    fprintf(stderr, "replay: %u %s\n", number, kob_text(number));
    return 1;
}
