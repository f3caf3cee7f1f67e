"""Checks how `tools/races` sorts the races of a program with a C library; examples/races/check says what of guests that
have none.

  - If three threads lock a mutex around each access to a sum, no race is printed, but how many the library's are. So it
    is with a reader-writer lock, whose code is in another folder of the library.
  - If they don't the first time, three pairs of threads race for the sum, and are listed before the library's: also if
    the program's file has the name of one of the library's.
  - With --all each race that `ithreads races` prints has its line.
"""
import re
import shutil

from checking import EXAMPLES, ROOT, program, ran_whole, tool

SOURCE = """#include <pthread.h>
#include <stdio.h>
#ifdef SHARED
#define LOCK pthread_rwlock_wrlock
#define UNLOCK pthread_rwlock_unlock
static pthread_rwlock_t lock = PTHREAD_RWLOCK_INITIALIZER;
#else
#define LOCK pthread_mutex_lock
#define UNLOCK pthread_mutex_unlock
static pthread_mutex_t lock = PTHREAD_MUTEX_INITIALIZER;
#endif
static int sum;
static void *work(void *nothing)
{
    for (int k = FIRST; k < 3; k++) {
        if (k >= 0)
            LOCK(&lock);
        sum++;
        if (k >= 0)
            UNLOCK(&lock);
    }
    return nothing;
}
int main(void)
{
    pthread_t threads[3];
    for (int k = 0; k < 3; k++)
        pthread_create(&threads[k], NULL, work, NULL);
    for (int k = 0; k < 3; k++)
        pthread_join(threads[k], NULL);
    printf("%d\\n", sum);
    return 0;
}
"""
PAIRS = ["1 2", "1 3", "2 3"]  # of threads, whose first accesses nothing orders
STEPS = re.compile("    step [0-9]+ of thread ([0-9]+),.*\n    step [0-9]+ of thread ([0-9]+),.*\n    both store to sum\n")


def check_sorted(checks, first, pairs, name="raced.c", more=()):
    source, elf, memo = checks.file(name, SOURCE.encode()), checks.folder / "raced.elf", checks.folder / "raced.memo"
    ran_whole(str(ROOT / "guest/build"), "--libc", "--symbols", f"-DFIRST={first}", *more, str(source), str(elf))
    program("run", elf, EXAMPLES / "empty", "--workers", "1", "--memo", memo)
    listed = program("races", memo)[1].decode().splitlines()
    status, printed, errors = tool("races", memo)
    text = printed.decode()
    checks.expect(f"races, from {first}: {status} {errors}\n{text}", status == 0 and text.startswith(listed[0] + "\n"))
    found = sorted(" ".join(sorted(one.groups())) for one in STEPS.finditer(text))
    all_of_it = len(listed) - 1
    last = f"{all_of_it - len(pairs)} of {all_of_it} are the C library's, which --all prints\n"
    checks.expect(f"races, from {first}: {found}", found == pairs and text.count("\nrace ") == len(pairs))
    checks.expect(f"races, from {first}: the last line of\n{text}", text.endswith(last) and all_of_it > len(pairs))
    text = tool("races", memo, "--symbols", elf, "--all")[1].decode()
    lines = [line for line in text.splitlines() if line.startswith("race ")]
    checks.expect(f"races --all, from {first}: {lines}", sorted(lines) == sorted(listed[1:]) and
                  text.count("both store to sum\n", 0, 1000) >= len(pairs))


def check(checks):
    if not (shutil.which("riscv64-unknown-elf-gcc") and shutil.which("llvm-symbolizer")):
        print("skipped: races of a guest with a C library: no riscv64-unknown-elf-gcc with llvm-symbolizer")
        return
    check_sorted(checks, 0, [])
    check_sorted(checks, -1, PAIRS)
    check_sorted(checks, 0, [], more=("-DSHARED",))
    for name in ("threads.c", "rwlock.c"):
        check_sorted(checks, -1, PAIRS, name, ("-DSHARED",))
