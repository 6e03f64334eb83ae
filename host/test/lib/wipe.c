/* wipe stack: kes_wipe clears KES_STACK bytes right below its caller, nothing of its caller's, and nothing past a guard page.
 * wipe registers: it leaves zeros in every register that the ABI lets a call leave as it likes (x86-64, 64-bit Arm). */
#define _GNU_SOURCE
#include <signal.h>
#include <stdio.h>
#include <sys/mman.h>
#include <sys/wait.h>
#include <unistd.h>

#include "painted.h"

enum { NEAR = 256, PAGE = 4096, SMALL = KES_STACK / 2, DEPTHS = 9 };

static int failures;

static void expect(int holds, const char *what)
{
    if (holds)
        return;
    printf("wipe: FAILED: %s\n", what);
    failures++;
}

/* The frame keeps what is cleared below it from what swapcontext writes on its way back. */
static void wipe(void)
{
    volatile uint8_t frame[NEAR / 2];
    HERE();
    frame[0] = 1;
    kes_wipe();
    failures += frame[0] != 1;
}

static void clears(void)
{
    uint8_t *low = lowest(wipe), *high = low;
    while (high < room + sizeof room && *high == 0)
        high++;
    expect(high - low >= KES_STACK, "all of KES_STACK is zero");
    expect(caller - high <= NEAR, "it begins right below the caller");
}

/* Each caller on the way up finds its own frame as it was. */
static void keeps(int depth)
{
    volatile uint8_t mine[100];
    size_t i, same = 0;
    for (i = 0; i < sizeof mine; i++)
        mine[i] = (uint8_t)depth;
    if (depth > 0)
        keeps(depth - 1);
    kes_wipe();
    for (i = 0; i < sizeof mine; i++)
        same += mine[i] == (uint8_t)depth;
    expect(same == sizeof mine, "the caller's frame is kept");
}

/* On a stack that is too small the process ends at the guard page, and what lies below it is not written. */
static void ends_at_the_guard(void)
{
    size_t below = 2 * KES_STACK, i = 0;
    int status = 0;
    uint8_t *all = mmap(NULL, below + PAGE + SMALL, PROT_READ | PROT_WRITE, MAP_SHARED | MAP_ANONYMOUS, -1, 0);
    pid_t child;
    if (all == MAP_FAILED || mprotect(all + below, PAGE, PROT_NONE) != 0)
        exit(2);
    memset(all, PAINT, below);
    child = fork();
    if (child == 0) {
        run_on(all + below + PAGE, SMALL, wipe);
        _exit(0);
    }
    expect(waitpid(child, &status, 0) == child && WIFSIGNALED(status) && WTERMSIG(status) == SIGSEGV, "a small stack ends at its guard page");
    while (i < below && all[i] == PAINT)
        i++;
    expect(i == below, "nothing is written past the guard page");
}

#if defined(__x86_64__) || defined(__aarch64__)

static int zero(const uint8_t *bytes, size_t len)
{
    size_t i = 0;
    while (i < len && bytes[i] == 0)
        i++;
    return i == len;
}

#endif

#if defined(__x86_64__)

/* As XSAVE lays them out: xmm in the old part, and from 576 on the parts of AVX and AVX-512, which the mask names. */
enum { MXCSR = 24, XMM = 160, XMM_END = 416, PARTS = 512, WIDER = 576, STATE = 4096, VECTORS = 0xe6 };

static uint8_t full[STATE] __attribute__((aligned(64))), left[STATE] __attribute__((aligned(64)));

static uint8_t parts_of_this_machine(void)
{
    uint32_t low, high;
    __asm__ volatile("xgetbv" : "=a"(low), "=d"(high) : "c"(0));
    return low & VECTORS;
}

static void fill(void)
{
    static const uint8_t rounding[4] = {0x80, 0x1f, 0, 0};
    memset(full + XMM, PAINT, XMM_END - XMM);
    memset(full + WIDER, PAINT, STATE - WIDER);
    memcpy(full + MXCSR, rounding, sizeof rounding);
    full[PARTS] = parts_of_this_machine();
}

/* Loads every vector register, calls, and stores them; answers what is left in the others, one upon the other. */
static uint64_t call_with_full_registers(void)
{
    uint64_t others;
    __asm__ volatile(
        "mov %%rsp, %%r13\n"
        "sub $256, %%rsp\n" /* below the red zone */
        "and $-64, %%rsp\n"
        "mov %[parts], %%eax\n"
        "xor %%edx, %%edx\n"
        "xrstor (%[full])\n"
        ".irp r, rcx,rdx,rsi,rdi,r8,r9,r10,r11\n"
        "mov %%rsp, %%\\r\n"
        ".endr\n"
        "call kes_wipe\n"
        ".irp r, rcx,rdx,rsi,rdi,r8,r9,r10,r11\n"
        "or %%\\r, %%rax\n"
        ".endr\n"
        "mov %%rax, %%r12\n"
        "mov %[parts], %%eax\n"
        "xor %%edx, %%edx\n"
        "xsave (%[left])\n"
        "mov %%r13, %%rsp\n"
        "mov %%r12, %%rax\n"
        : [others] "=&a"(others)
        : [full] "b"(full), [left] "r"(left), [parts] "i"(VECTORS)
        : "rcx", "rdx", "rsi", "rdi", "r8", "r9", "r10", "r11", "r12", "r13", "memory", "cc", "xmm0", "xmm1", "xmm2", "xmm3", "xmm4", "xmm5",
          "xmm6", "xmm7", "xmm8", "xmm9", "xmm10", "xmm11", "xmm12", "xmm13", "xmm14", "xmm15");
    return others;
}

static void registers(void)
{
    fill();
    expect(call_with_full_registers() == 0, "the plain registers are zero");
    expect(zero(left + XMM, XMM_END - XMM), "xmm0 to xmm15 are zero");
    expect(zero(left + WIDER, STATE - WIDER), "the wider registers are zero");
    printf("wipe: the vector registers of this machine are those of mask %02x\n", (unsigned)full[PARTS]);
}

#elif defined(__aarch64__)

/* x0 to x17, then v0 to v31. */
enum { PLAIN = 18, VECTORS = 32, LOWER = 8 };

static uint64_t left[PLAIN + 2 * VECTORS];

/* Fills every register, calls, and stores them. The lower halves of v8 to v15, which a call must leave, keep what they are filled with. */
static void call_with_full_registers(void)
{
    __asm__ volatile(
        "mov x19, sp\n"
        "sub x20, x19, #256\n"
        "and sp, x20, #-16\n"
        ".irp i, 0,1,2,3,4,5,6,7,8,9,10,11,12,13,14,15,16,17,18,19,20,21,22,23,24,25,26,27,28,29,30,31\n"
        "dup v\\i\\().2d, x19\n"
        ".endr\n"
        ".irp r, 0,1,2,3,4,5,6,7,8,9,10,11,12,13,14,15,16,17\n"
        "mov x\\r, x19\n"
        ".endr\n"
        "bl kes_wipe\n"
        "mov x20, %[left]\n"
        ".irp r, 0,1,2,3,4,5,6,7,8,9,10,11,12,13,14,15,16,17\n"
        "str x\\r, [x20], #8\n"
        ".endr\n"
        ".irp i, 0,1,2,3,4,5,6,7,8,9,10,11,12,13,14,15,16,17,18,19,20,21,22,23,24,25,26,27,28,29,30,31\n"
        "str q\\i, [x20], #16\n"
        ".endr\n"
        "mov sp, x19\n"
        :
        : [left] "r"(left)
        : "x0", "x1", "x2", "x3", "x4", "x5", "x6", "x7", "x8", "x9", "x10", "x11", "x12", "x13", "x14", "x15", "x16", "x17", "x19", "x20", "x30",
          "memory", "cc", "v0", "v1", "v2", "v3", "v4", "v5", "v6", "v7", "v8", "v9", "v10", "v11", "v12", "v13", "v14", "v15", "v16", "v17",
          "v18", "v19", "v20", "v21", "v22", "v23", "v24", "v25", "v26", "v27", "v28", "v29", "v30", "v31");
}

static void registers(void)
{
    size_t i, kept = 0;
    call_with_full_registers();
    for (i = LOWER; i < 2 * LOWER; i++) {
        kept += left[PLAIN + 2 * i] != 0;
        left[PLAIN + 2 * i] = 0;
    }
    expect(kept == LOWER, "the lower halves of v8 to v15 are as they were");
    expect(zero((const uint8_t *)left, PLAIN * 8), "x0 to x17 are zero");
    expect(zero((const uint8_t *)(left + PLAIN), sizeof left - PLAIN * 8), "the vector registers are zero but for those halves");
}

#else

static void registers(void)
{
    expect(0, "registers are cleared on x86-64 and 64-bit Arm alone");
}

#endif

int main(int argc, char **argv)
{
    if (argc != 2)
        return 2;
    if (strcmp(argv[1], "registers") == 0) {
        registers();
    } else {
        clears();
        keeps(DEPTHS);
        ends_at_the_guard();
    }
    return failures != 0;
}
