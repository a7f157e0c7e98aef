/* Judges a recorder's trace while it comes in on standard input, in whatever pieces read() gives: prints a line for
 * each case when its verdict falls due, and one for the end. */
#include <kobbeskuim.h>
#include <stdio.h>
#include <unistd.h>

static uint8_t state[KOB_STREAM_SIZE]; /* all 0, as every stream starts */
static unsigned cases;

static void tell(uint64_t answer) {
    const unsigned kind = kob_stream_kind(answer), place = kob_stream_place(answer);
    printf("case %u: ", cases++);
    switch (kind) {
    case KOB_AGREES: puts("agrees"); break;
    case KOB_FILE_DIFFERS: printf("file differs at byte %u\n", place); break;
    case KOB_FLAG_DIFFERS: puts("flag differs"); break;
    case KOB_BAD_FLAG: puts(kob_text(kind)); break;
    default: printf("stopped at word %u: %s\n", place, kob_text(kind)); /* KOB_OUTSIDE, KOB_RESERVED */
    }
}

/* A call takes the piece up to a verdict, so what is left is handed in again. False where the stream is refused. */
static bool hand_in(const uint8_t *piece, size_t length) {
    while (length > 0) {
        const uint64_t answer = kob_stream_feed(state, sizeof state, piece, length);
        if (kob_stream_number(answer) != KOB_DONE) return false;
        if (kob_stream_kind(answer) != KOB_NO_VERDICT) tell(answer);
        piece += kob_stream_taken(answer);
        length -= kob_stream_taken(answer);
    }
    return true;
}

int main(void) {
    uint8_t piece[4096];
    ssize_t length;
    setvbuf(stdout, NULL, _IOLBF, 0); /* each line at once, into a pipe too */
    do length = read(STDIN_FILENO, piece, sizeof piece);
    while (length > 0 && hand_in(piece, (size_t)length));
    if (length < 0) {
        perror("stream");
        return 2;
    }
    const unsigned number = kob_stream_end(state, sizeof state); /* after a refusal, that one again */
    printf("end: %u %s\n", number, kob_text(number));
    return number == KOB_DONE ? 0 : 1;
}
