/* The yields of `guest/build --yield-every N`. guest/yields.awk puts a countdown at the head of each loop of the
   program, at the begin of each function and before indirect jumps; at 0 it comes here. Each of the machine's calls
   sets it to N, so a step begins with N, whatever came before. */
#include "../library.h"

_Thread_local int it_countdown = IT_YIELD_EVERY;

__attribute__((used)) static void yield_at_zero(void)
{
    it_call(IT_CALL_YIELD, 0, 0);
}

/* Called with the return address in t5; keeps all other registers but t6. */
__asm__(".section .text.it_countdown_over,\"ax\",@progbits\n"
        ".globl it_countdown_over\n"
        "it_countdown_over:\n\t"
        "addi sp, sp, -64\n\t"
        "sw ra, 0(sp)\n\tsw t0, 4(sp)\n\tsw t1, 8(sp)\n\tsw t2, 12(sp)\n\tsw t3, 16(sp)\n\tsw t4, 20(sp)\n\t"
        "sw a0, 24(sp)\n\tsw a1, 28(sp)\n\tsw a2, 32(sp)\n\tsw a3, 36(sp)\n\tsw a4, 40(sp)\n\tsw a5, 44(sp)\n\t"
        "sw a6, 48(sp)\n\tsw a7, 52(sp)\n\tsw t5, 56(sp)\n\t"
        "call yield_at_zero\n\t"
        "lw ra, 0(sp)\n\tlw t0, 4(sp)\n\tlw t1, 8(sp)\n\tlw t2, 12(sp)\n\tlw t3, 16(sp)\n\tlw t4, 20(sp)\n\t"
        "lw a0, 24(sp)\n\tlw a1, 28(sp)\n\tlw a2, 32(sp)\n\tlw a3, 36(sp)\n\tlw a4, 40(sp)\n\tlw a5, 44(sp)\n\t"
        "lw a6, 48(sp)\n\tlw a7, 52(sp)\n\tlw t5, 56(sp)\n\t"
        "addi sp, sp, 64\n\t"
        "jr t5\n\t"
        ".text\n");
