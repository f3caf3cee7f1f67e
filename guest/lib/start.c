/* The start of a guest with a C library, and of each of its threads: sets gp, tp, and the block of thread-local
   data. */
#include <stdlib.h>
#include <string.h>
#include "library.h"

_Thread_local struct it_self it_self;
struct it_shared it_shared;

/* from the linker's script */
extern const char it_own_image[], it_own_image_size[];
extern void (*const it_constructors[])(void), (*const it_constructors_end[])(void);

/* from guest/build: the environment, which is an empty list; then the program's name and the words of --args; and the
   number of these words */
extern char *it_words[];
extern const char it_word_count[];

int main(int count, char **words, char **environment);

/* The machine sets tp to the thread's number. Thread n's block is at it_own + n * it_own_size. A number isn't used
   again, so a block is zero when its thread starts. Both entries lead to the same place; for main's thread a0 has no
   meaning. */
__asm__(".section .text.startup,\"ax\",@progbits\n"
        ".globl _start\n"
        ".globl it_thread_entry\n"
        "_start:\n\t"
        "li a0, 0\n"
        "it_thread_entry:\n\t"
        ".option push\n\t"
        ".option norelax\n\t"
        "la gp, __global_pointer$\n\t"
        ".option pop\n\t"
        "mv a1, tp\n\t"
        "mv a2, tp\n\t"
        "lui a3, %hi(it_own_size)\n\t"
        "addi a3, a3, %lo(it_own_size)\n\t"
        "lui tp, %hi(it_own)\n\t"
        "addi tp, tp, %lo(it_own)\n\t"
        "j 2f\n"
        "1:\tadd tp, tp, a3\n\t"
        "addi a2, a2, -1\n"
        "2:\tbnez a2, 1b\n\t"
        "tail it_start\n\t"
        ".text\n");

static __attribute__((noreturn)) void start_main(void)
{
    for (void (*const *each)(void) = it_constructors; each != it_constructors_end; each++)
        (*each)();
    char **words = it_words;
    __asm__("" : "+r"(words)); /* so that its address is computed once */
    exit(main((int)it_word_count, words + 1, words));
}

/* The first step of a thread ends here, with a call: so the step that does the work doesn't read the page of the
   creator's stack that has the beginning. */
static __attribute__((noreturn)) void start_thread(const struct it_start_args *start_args)
{
    void *(*function)(void *) = start_args->function;
    void *argument = start_args->argument;
#ifdef IT_SCHEDULED
    it_set_scheduling(it_self.number, start_args->scheduling);
#endif
#ifdef IT_SIGNALS
    it_block_signals(start_args->blocked);
#endif
    it_call(IT_CALL_YIELD, 0, 0);
    it_end_thread(function(argument));
}

__attribute__((noreturn, used)) void it_start(const struct it_start_args *start_args, unsigned number)
{
    char *block;
    __asm__("mv %0, tp" : "=r"(block));
    memcpy(block, it_own_image, (size_t)it_own_image_size);
    it_self.number = number;
    if (number == 0)
        start_main();
    start_thread(start_args);
}
