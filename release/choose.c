/* The `main` of a released program, which holds a build for each level of x86-64: runs that for this processor. The builds are
   proved; this choice is not. It cannot make a wrong digest: a build for more than x86-64 asks again, and ends with 127
   where the processor lacks it. */
#include <alloca.h>
#include <stddef.h>
#include <sys/platform/x86.h>

int b3sum_x86_64(int count, char **words);
int b3sum_x86_64_v2(int count, char **words);
int b3sum_x86_64_v3(int count, char **words);

int main(int count, char **words) {
    /* These turn the stack: a build keeps vectors of 32 bytes there, which are slower across a line of the cache. One begins at an
       aligned place. The other, of which the compiler makes 16 bytes, moves on by what the code above those vectors asks for. */
    _Alignas(64) volatile int status;
    volatile size_t room = 8;
    *(volatile char *)alloca(room) = 0;
    /* What a level has above the one before, but for SSE3 and SSSE3, which each processor with SSE 4.1 has. */
    int is_v2 = CPU_FEATURE_ACTIVE(CMPXCHG16B) && CPU_FEATURE_ACTIVE(LAHF64_SAHF64) && CPU_FEATURE_ACTIVE(POPCNT)
             && CPU_FEATURE_ACTIVE(SSE4_1) && CPU_FEATURE_ACTIVE(SSE4_2);
    int is_v3 = CPU_FEATURE_ACTIVE(AVX) && CPU_FEATURE_ACTIVE(AVX2) && CPU_FEATURE_ACTIVE(BMI1)
             && CPU_FEATURE_ACTIVE(BMI2) && CPU_FEATURE_ACTIVE(F16C) && CPU_FEATURE_ACTIVE(FMA)
             && CPU_FEATURE_ACTIVE(LZCNT) && CPU_FEATURE_ACTIVE(MOVBE);
    status = is_v3 ? b3sum_x86_64_v3(count, words) : is_v2 ? b3sum_x86_64_v2(count, words) : b3sum_x86_64(count, words);
    return status;
}
