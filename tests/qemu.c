/* Answers calls of kob_run for the comparison with QEMU: qemu.py builds it twice and starts both. Linked with
 * the archive it asks the library. Built for AArch64 it has a kob_run of its own, in which the processor
 * executes the words.
 *
 * A call is as tests/harness.c takes it: 'x', then L, the flag, the file's bytes and the number of words, 8
 * bytes each, then the file and the words. The answer is what kob_run returns, 8 bytes, and the file. */

#define _GNU_SOURCE
#include <stdio.h>
#include <stdlib.h>

#include "kobbeskuim.h"

static void fail(const char *why)
{
    fprintf(stderr, "qemu: %s\n", why);
    exit(2);
}

#ifdef __aarch64__
#include <signal.h>
#include <string.h>
#include <sys/mman.h>
#include <sys/prctl.h>

enum { QC = 27 }; /* its bit of FPSR */
static const uint32_t RET = 0xD65F03C0;

static uint32_t *code;              /* the words, and RET */
static volatile size_t count, done; /* of the words; fewer are done where one is UNDEFINED */

/* Goes back from the UNDEFINED word. The signal's frame brings the Z registers and FPSR back. */
static void undefined(int number, siginfo_t *info, void *context)
{
    (void)number, (void)info;
    mcontext_t *at = &((ucontext_t *)context)->uc_mcontext;
    done = (at->pc - (uintptr_t)code) / 4;
    if (done >= count)
        fail("an UNDEFINED instruction outside of the words");
    at->pc = at->regs[30];
}

__attribute__((constructor)) static void prepare(void)
{
    struct sigaction action = {.sa_sigaction = undefined, .sa_flags = SA_SIGINFO};
    int any = PROT_READ | PROT_WRITE | PROT_EXEC;
    code = mmap(NULL, 4 * (KOB_WORDS_MAX + 1), any, MAP_PRIVATE | MAP_ANONYMOUS, -1, 0);
    if (code == MAP_FAILED || sigaction(SIGILL, &action, NULL))
        fail("words cannot be executed here");
}

#define ALL(does)                                                                                                 \
    ".irp n,0,1,2,3,4,5,6,7,8,9,10,11,12,13,14,15,16,17,18,19,20,21,22,23,24,25,26,27,28,29,30,31\n" does         \
    " z\\n, [%[file], #\\n, mul vl]\n.endr\n"

/* The FPSR that the words leave. One statement, for between two the compiler may use any register. */
static uint64_t execute(uint8_t *file, uint64_t fpsr)
{
    __asm__ volatile(".arch_extension sve\n"
                     "msr fpsr, %[fpsr]\n" ALL("ldr") "blr %[code]\n" ALL("str") "mrs %[fpsr], fpsr\n"
                     : [fpsr] "+r"(fpsr)
                     : [file] "r"(file), [code] "r"(code)
                     : "memory", "x30", "v0", "v1", "v2", "v3", "v4", "v5", "v6", "v7", "v8", "v9", "v10", "v11",
                       "v12", "v13", "v14", "v15", "v16", "v17", "v18", "v19", "v20", "v21", "v22", "v23", "v24",
                       "v25", "v26", "v27", "v28", "v29", "v30", "v31");
    return fpsr;
}

uint64_t kob_run(size_t l, uint8_t *file, size_t file_length, bool qc, const uint32_t *words, size_t word_count)
{
    if (file_length != KOB_FILE_SIZE(l) || prctl(PR_SVE_SET_VL, l / 8) != (int)(l / 8))
        fail("a vector length that this processor does not have");
    memcpy(code, words, 4 * word_count);
    code[word_count] = RET;
    __builtin___clear_cache((char *)code, (char *)(code + word_count + 1));
    count = done = word_count;
    uint64_t flag = execute(file, (uint64_t)qc << QC) >> QC & 1;
    return (done < count ? KOB_RESERVED : KOB_DONE) | flag << 8 | (uint64_t)done << 16;
}
#endif

static void take(void *to, size_t bytes)
{
    if (fread(to, 1, bytes, stdin) != bytes)
        fail("a call is cut short");
}

int main(void)
{
    static uint8_t file[KOB_FILE_SIZE_MAX];
    static uint32_t words[KOB_WORDS_MAX];
    for (int kind; (kind = getchar()) != EOF;) {
        uint64_t n[4];
        take(n, sizeof n);
        if (kind != 'x' || n[2] > sizeof file || n[3] > KOB_WORDS_MAX)
            fail("not a call of kob_run");
        take(file, n[2]);
        take(words, 4 * n[3]);
        uint64_t answer = kob_run(n[0], file, n[2], n[1], words, n[3]);
        fwrite(&answer, 1, sizeof answer, stdout);
        fwrite(file, 1, n[2], stdout);
    }
    return fflush(stdout) ? 2 : 0;
}
