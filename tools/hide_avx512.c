/* To be preloaded: hides AVX-512 from CPUID, so that a program uses its code for AVX2. Each CPUID instruction faults,
   and a signal handler gives the result. Without support for such faults the program exits with status 99. */
#define _GNU_SOURCE
#include <asm/prctl.h>
#include <cpuid.h>
#include <signal.h>
#include <stdint.h>
#include <sys/syscall.h>
#include <ucontext.h>
#include <unistd.h>

enum { NO_FAULTS = 99, EXTENDED_FEATURES = 7 };

static const uint8_t CPUID[] = {0x0f, 0xa2};

/* Of EBX of the extended features: F, DQ, IFMA, PF, ER, CD, BW and VL. No program uses the others without F. */
static const uint32_t AVX512 = 1u << 16 | 1u << 17 | 1u << 21 | 1u << 26 | 1u << 27 | 1u << 28 | 1u << 30 | 1u << 31;

static long allow_cpuid(unsigned long is_allowed) { return syscall(SYS_arch_prctl, ARCH_SET_CPUID, is_allowed); }

static void answer(int number, siginfo_t *info, void *context) {
    greg_t *registers = ((ucontext_t *)context)->uc_mcontext.gregs;
    const uint8_t *next = (const uint8_t *)registers[REG_RIP];
    uint32_t leaf = (uint32_t)registers[REG_RAX], part = (uint32_t)registers[REG_RCX], a, b, c, d;
    (void)info;
    if (next[0] != CPUID[0] || next[1] != CPUID[1]) {
        /* Another fault: it occurs again, and ends the program. */
        signal(number, SIG_DFL);
        return;
    }
    allow_cpuid(1);
    __cpuid_count(leaf, part, a, b, c, d);
    allow_cpuid(0);
    if (leaf == EXTENDED_FEATURES && part == 0) b &= ~AVX512;
    registers[REG_RAX] = a;
    registers[REG_RBX] = b;
    registers[REG_RCX] = c;
    registers[REG_RDX] = d;
    registers[REG_RIP] += sizeof CPUID;
}

__attribute__((constructor)) static void begin(void) {
    struct sigaction action = {.sa_sigaction = answer, .sa_flags = SA_SIGINFO | SA_NODEFER};
    sigaction(SIGSEGV, &action, NULL);
    if (allow_cpuid(0) != 0) _exit(NO_FAULTS);
}
