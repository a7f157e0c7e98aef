/* Reads a line of text from standard input after the other: prints each line's word, then the line as it is written
 * from the fields; of a text that is no line, how far it goes. */
#include <kobbeskuim.h>
#include <stdio.h>
#include <string.h>

static void tell(const uint32_t *fields) {
    uint8_t line[KOB_LINE_MAX];
    const uint64_t written = kob_line_write(fields, KOB_FIELDS, line, sizeof line);
    const uint32_t word = kob_encode_word(kob_encode(fields, KOB_FIELDS));
    printf("%08X %.*s\n", (unsigned)word, (int)kob_line_write_length(written), (const char *)line);
}

/* What is no line is shown up to the first byte that no line has there. */
static void refuse(const char *text, size_t length, uint64_t answer) {
    const size_t reach = kob_line_read_reach(answer);
    const char *what = reach == length ? "cut off after" : "no line goes on so after";
    printf("%s: %s '%.*s'\n", kob_text(kob_line_read_number(answer)), what, (int)reach, text);
}

int main(void) {
    char text[256];
    while (fgets(text, sizeof text, stdin)) {
        uint32_t fields[KOB_FIELDS];
        const size_t length = strcspn(text, "\n"); /* a line's end is not part of it */
        const uint64_t answer = kob_line_read((const uint8_t *)text, length, fields, KOB_FIELDS);
        if (kob_line_read_number(answer) == KOB_DONE) tell(fields);
        else refuse(text, length, answer);
    }
}
