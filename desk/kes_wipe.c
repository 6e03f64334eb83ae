/* kes_wipe: NOT PROVED. It stands in C beside the proofs, which speak of the table and not of what calls leave in dead stack frames. */
#include "kes.h"

/* KES_STACK as the assembler reads it, for which kes.h gives it without a suffix. */
#define TEXT_OF(x) #x
#define TEXT(x) TEXT_OF(x)

#if defined(__x86_64__) && defined(__linux__)

/* Naked: no frame of its own, so every byte from the return address down is cleared, by any compiler at any level.
   Registers come first, since a signal would write them to the stack: xmm, then ymm and zmm where the system keeps these.
   Pushes go down page by page, so on a stack that is too small they meet its guard page and never write past it. */
__attribute__((naked)) void kes_wipe(void)
{
    __asm__(
        "   .irp i, 0,1,2,3,4,5,6,7,8,9,10,11,12,13,14,15\n"
        "   pxor %xmm\\i, %xmm\\i\n"
        "   .endr\n"
        "   mov %rbx, %rsi\n"
        "   mov $1, %eax\n"
        "   cpuid\n"
        "   mov %rsi, %rbx\n"
        "   bt $27, %ecx\n" /* may xgetbv be asked? */
        "   jnc 1f\n"
        "   xor %ecx, %ecx\n"
        "   xgetbv\n"
        "   test $0x04, %al\n" /* ymm */
        "   jz 1f\n"
        "   vzeroall\n"
        "   test $0x80, %al\n" /* zmm16 to zmm31 */
        "   jz 1f\n"
        "   .irp i, 16,17,18,19,20,21,22,23,24,25,26,27,28,29,30,31\n"
        "   vpxord %zmm\\i, %zmm\\i, %zmm\\i\n"
        "   .endr\n"
        "   .irp i, 0,1,2,3,4,5,6,7\n"
        "   kxorw %k\\i, %k\\i, %k\\i\n"
        "   .endr\n"
        "1: xor %eax, %eax\n"
        "   mov $" TEXT(KES_STACK) "/8, %ecx\n"
        "2: push %rax\n"
        "   dec %ecx\n"
        "   jnz 2b\n"
        "   add $" TEXT(KES_STACK) ", %rsp\n"
        "   .irp r, edx,esi,edi,r8d,r9d,r10d,r11d\n"
        "   xor %\\r, %\\r\n"
        "   .endr\n"
        "   ret\n");
}

#elif defined(__aarch64__) && defined(__linux__)

/* The same in the same order, outside any function, since not every compiler has naked ones here. v8 to v15 are the caller's in their lower halves. */
__asm__(
    "   .text\n"
    "   .align 2\n"
    "   .globl kes_wipe\n"
    "   .type kes_wipe, %function\n"
    "kes_wipe:\n"
    "   .irp i, 0,1,2,3,4,5,6,7,16,17,18,19,20,21,22,23,24,25,26,27,28,29,30,31\n"
    "   movi v\\i\\().2d, #0\n"
    "   .endr\n"
    "   .irp i, 8,9,10,11,12,13,14,15\n"
    "   mov v\\i\\().d[1], xzr\n"
    "   .endr\n"
    "   mov x0, #" TEXT(KES_STACK) "/16\n"
    "1: stp xzr, xzr, [sp, #-16]!\n"
    "   subs x0, x0, #1\n"
    "   b.ne 1b\n"
    "   add sp, sp, #" TEXT(KES_STACK) "\n"
    "   .irp r, 1,2,3,4,5,6,7,8,9,10,11,12,13,14,15,16,17\n"
    "   mov x\\r, xzr\n"
    "   .endr\n"
    "   ret\n"
    "   .size kes_wipe, . - kes_wipe\n");

#else

/* Elsewhere the stack alone, but for the few bytes between the return address and the array. The index lies above the array,
   so that here too nothing is written before what lies over it. */
void kes_wipe(void)
{
    struct {
        volatile uint8_t bytes[KES_STACK];
        size_t i;
    } room;
    for (room.i = KES_STACK; room.i > 0; room.i--)
        room.bytes[room.i - 1] = 0;
}

#endif
