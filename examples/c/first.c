/* Runs one SQCADD at 128 bits: Z0 = (100, 0), Z1 = (0, -100), 90 degrees. */
#include <kobbeskuim.h>
#include <stdio.h>

int main(void) {
    uint8_t file[KOB_FILE_SIZE(128)] = {0};
    uint32_t words[] = {0x4501D820}; /* SQCADD Z0.B, Z0.B, Z1.B, 90 */
    file[0] = 100;
    file[16 + 1] = (uint8_t)-100;
    uint64_t ran = kob_run(128, file, sizeof file, false, words, 1);
    printf("number %u, done %u, lane 0 is %d\n", kob_run_number(ran), kob_run_done(ran), (int8_t)file[0]);
}
