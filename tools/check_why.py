"""Checks `tools/why`, with recorded lines of `ithreads why` for the memo of pair.elf, and a symbol table that is put
behind that guest here.

  - Without --symbols it prints those lines, and where the program refuses, it ends as the program does.
  - With --symbols it names functions, calls, variables, registers, bytes of the input and of stacks.
  - Of more than a hundred steps, and with --summary, it prints a summary, whose rows have all steps; of 22,000 it does
    so in time.
  - An executable that is cut, has no symbols, or other code, is refused with a line.
  - Where there is clang with lld and llvm-symbolizer, lines of a C file are named.
  - With a C library, the guest's own lines are named, and the one that allocated a block.
  - What docs/GUESTS.md shows of three edits is what the program prints for the committed executable. The names in it
    are compared by tools/check_documents.py.
"""
import os
import re
import shutil
import struct

import symbols
from checking import EXAMPLES, ROOT, program, ran_whole, tool

WALK = EXAMPLES / "guest/orders"
WHY = """\
why 7
step 3 thread 2 number 0 page c0002000 at 0 now 8 was 7 by start
step 5 thread 2 number 1 register 8 now 8 was 7
step 7 thread 1 number 2 page d001fff0 at 12 now 8 was 7 by 4
step 8 thread 2 number 2 register 0 now 65540 was 65656
step 9 thread 0 number 3 page 00011000 at 2 now 13 was 12 by 5
step 10 thread 0 number 4 page 00011000 at 16 now 1 was 0 by 8
step 12 thread 0 number 6 none
"""
EXPLAINED = """\
why 7
step 3 thread 2 number 0 page c0002000 at 0 now 8 was 7 by start
    from worker to lock in worker
    c0002000 is byte 4096 of the input
step 5 thread 2 number 1 register 8 now 8 was 7
    from worker to unlock in worker
    register 8 is s0
step 7 thread 1 number 2 page d001fff0 at 12 now 8 was 7 by 4
    from worker to thread_exit in worker
    d001fffc is on the stack of thread 1, 4 bytes below its top
step 8 thread 2 number 2 register 0 now 65540 was 65656
    from worker to thread_exit in worker
    register 0 is the pc: now main, and was worker
step 9 thread 0 number 3 page 00011000 at 2 now 13 was 12 by 5
    from main to join in main
    00011002 is total + 2
    beside it: most, turns
    stored by step 5, of thread 2, from worker on
step 10 thread 0 number 4 page 00011000 at 16 now 1 was 0 by 8
    from main to put in main
    00011010 is of nothing that has a name
    beside it: total, most, turns
    stored by step 8, of thread 2, from main on
step 12 thread 0 number 6 none
"""
# Two threads read a third one's stack, each in a function of its own: one row, and one change.
SHARED = """\
why 3
step 5 thread 2 number 1 page d001f000 at 4092 now 8 was 7 by start
step 7 thread 2 number 2 page d001f000 at 4092 now 8 was 7 by 5
step 9 thread 0 number 3 page d001f000 at 4092 now 13 was 12 by 5
"""
SHARED_TEXT = "1. 3 steps, 13 instructions: threads share data on the stack of thread 1: worker stores there, and "
MANY, SECONDS = 22_000, 8  # steps, and how much of a processor's time they may take; two seconds is what they take
ROW = re.compile(r" *([0-9,]+) +([0-9,]+)  (?:[0-9a-f]{8}(?: [+][0-9]+)?|-|) .*")
LIBRARY_FILE = b"""#include <pthread.h>
#include <stdio.h>
#include <stdlib.h>
static char *copy;
static int sum;
static pthread_mutex_t lock = PTHREAD_MUTEX_INITIALIZER;
static void add(int more)
{
    pthread_mutex_lock(&lock);
    sum += more;
    pthread_mutex_unlock(&lock);
}
static void *work(void *nothing)
{
    for (int k = 0; k < 4; k++)
        add(copy[k]);
    return nothing;
}
int main(void)
{
    pthread_t thread;
    copy = malloc(100);
    copy[0] = getchar();
    pthread_create(&thread, NULL, work, NULL);
    pthread_join(thread, NULL);
    printf("%d\\n", sum);
    return 0;
}
"""
# What stands in the place of the program: it prints the file `lines`, and ends with the status in `status`.
FAKE = """#!/bin/sh
echo "$*" >"$(dirname "$0")/words"
cat "$(dirname "$0")/lines"
[ -s "$(dirname "$0")/errors" ] && cat "$(dirname "$0")/errors" >&2
exit "$(cat "$(dirname "$0")/status")"
"""
C_FILE = b"""#include "ithreads.h"
static unsigned total;
__attribute__((noinline)) static void add(unsigned more) {
    it_mutex_lock(0);
    total += more;
    it_mutex_unlock(0);
}
int main(void) {
    add(5);
    it_put(&total, 4);
    return 0;
}
"""


ALONE_FILE = b"""#include "ithreads.h"
static struct IT_PAGE_ALIGNED { unsigned char data[IT_PAGE]; } buffer, out;
int main(void) {
    memcpy(buffer.data, it_input(), IT_PAGE);
    for (unsigned k = 0; k < 8; k++) {
        it_yield();
        out.data[k] = buffer.data[k];
    }
    it_put(out.data, 8);
    return 0;
}
"""


def with_symbols(elf, named):
    """An executable with a symbol table behind it: names with their addresses, sizes and kinds."""
    names, table = b"\0", bytes(16)
    for name, address, size, kind in named:
        table += struct.pack("<IIIBBH", len(names), address, size, kind, 0, 1)
        names += name.encode() + b"\0"
    start = len(elf)
    sections = [(0,) * 10, (0, 1, 6, 0x10000, 84, 148, 0, 0, 4, 0),
                (0, symbols.TABLE, 0, 0, start, len(table), 3, 1, 4, 16),
                (0, 3, 0, 0, start + len(table), len(names), 0, 0, 1, 0)]
    behind = elf + table + names
    made = bytearray(behind + b"".join(struct.pack("<10I", *one) for one in sections))
    struct.pack_into("<I", made, 32, len(behind))
    struct.pack_into("<HHH", made, 46, 40, len(sections), 0)
    return bytes(made)


def guest_with_symbols():
    named = [("main", 0x10000, 0x5C, symbols.FUNCTION), ("worker", 0x1005C, 0x38, symbols.FUNCTION),
             ("total", 0x11000, 4, symbols.OBJECT), ("most", 0x11004, 4, symbols.OBJECT),
             ("turns", 0x11800, 4096, symbols.OBJECT), ("next", 0x13000, 4, symbols.OBJECT),
             ("$x", 0x10000, 0, symbols.PLAIN)]
    return with_symbols((EXAMPLES / "pair.elf").read_bytes(), named)


class Place:
    """A folder with a copy of the tools, and the fake program beside it."""

    def __init__(self, folder):
        self.folder = folder / "with-recorded-lines"
        shutil.copytree(ROOT / "tools", self.folder / "tools")
        (self.folder / "ithreads").write_text(FAKE)
        (self.folder / "ithreads").chmod(0o755)

    def ran(self, lines, status, errors, *words):
        """What the tool does if the program prints these lines, ends with this status, and prints these errors."""
        for name, text in (("lines", lines), ("status", str(status)), ("errors", errors)):
            (self.folder / name).write_text(text)
        return ran_whole(str(self.folder / "tools/why"), *map(str, words))

    def words(self):
        return (self.folder / "words").read_text()


def check_lines(checks, place, memo, guest):
    """What is printed, with symbols and without."""
    for lines in (WHY, "why 0\n"):
        got = place.ran(lines, 0, "", memo, "e")
        checks.expect(f"why without symbols: {got}", got == (0, lines.encode(), ""))
        checks.expect(f"the words of the program: {place.words()}", place.words() == f"why -- {memo} e\n")
    got = place.ran(WHY, 0, "", memo, "e", "--symbols", guest)
    checks.expect(f"why with symbols: {got[0]}, {got[2]}, {got[1].decode()}", got == (0, EXPLAINED.encode(), ""))
    got = place.ran("why 0\n", 0, "", memo, "e", "--symbols", guest)
    checks.expect(f"why with symbols and no step: {got}", got == (0, b"why 0\n", ""))
    for status, errors in ((4, "memo: Digest\n"), (5, "edits e line 1: BadLine\n"), (6, "read e\n"), (125, "no rt\n")):
        for more in ([], ["--symbols", guest]):
            got = place.ran("", status, errors, memo, "e", *more)
            checks.expect(f"why where the program refuses: {got}", got == (status, b"", errors))


def rows_of(printed):
    """The steps and the instructions of the rows of a summary."""
    return [tuple(int(number.replace(",", "")) for number in found.groups())
            for line in printed.decode().split("\n") if (found := ROW.fullmatch(line))]


def processor_seconds():
    spent = os.times()
    return spent.children_user + spent.children_system


def check_summary(checks, place, memo, guest):
    """The summary: of a few lines, and of so many steps that it is printed without --summary."""
    status, printed, errors = place.ran(WHY, 0, "", memo, "e", "--symbols", guest, "--summary")
    rows, head = rows_of(printed), printed.decode().split("\n")[:2]
    checks.expect(f"a summary: {status} {errors} {printed.decode()}", status == 0 and sum(row[0] for row in rows) == 7
                  and head[0] == "why 7" and f" of {sum(row[1] for row in rows)} instructions " in head[1]
                  and b"own (`alignas(4096)`, or" in printed)
    lines = WHY.split("\n")[1:-1] * (MANY // 7 + 1)
    many = "".join(f"{line}\n" for line in [f"why {len(lines)}", *lines])
    for words, is_summed in ((("--all",), False), (("--symbols", guest), True)):
        before = processor_seconds()
        status, printed, errors = place.ran(many, 0, "", memo, "e", *words)
        spent = processor_seconds() - before
        counted = (sum(row[0] for row in rows_of(printed)) if is_summed
                   else len(re.findall(b"^step", printed, flags=re.M)))
        checks.expect(f"{len(lines)} steps, {words}: {status} {errors} {counted} in {spent:.1f} s of a processor",
                      status == 0 and counted == len(lines) and spent < SECONDS)
    status, printed, errors = place.ran("why 0\n", 0, "", memo, "e", "--summary")
    checks.expect(f"a summary of nothing: {printed}", (status, printed) == (0, b"why 0\n"))
    status, printed, errors = place.ran(SHARED, 0, "", memo, "e", "--symbols", guest, "--summary")
    text = " ".join(printed.decode().split())
    checks.expect(f"a summary of a stack that threads share: {status} {errors} {text}",
                  status == 0 and SHARED_TEXT in text)


def check_library(checks):
    """A guest with a C library: the guest's own lines, and the line that allocated a block."""
    if not (shutil.which("riscv64-unknown-elf-gcc") and shutil.which("llvm-symbolizer")):
        print("skipped: lines of a guest with a C library: no riscv64-unknown-elf-gcc with llvm-symbolizer")
        return
    source = checks.file("library.c", LIBRARY_FILE)
    elf, memo = checks.folder / "library.elf", checks.folder / "library.memo"
    ran_whole(str(ROOT / "guest/build"), "--libc", "--symbols", str(source), str(elf))
    program("run", elf, checks.file("in", b"ab"), "--workers", "1", "--memo", memo)
    edits = checks.file("edits", b"set 0 7a\n")
    status, printed, errors = tool("why", memo, edits, "--symbols", elf)
    text = printed.decode()
    for wanted in ("    from main, library.c:23 to create in main, library.c:24\n", " to lock in add, library.c:9\n",
                   "is in the block that main, library.c:22 allocates\n"):
        checks.expect(f"lines of a guest with a C library have `{wanted}`: {status} {errors}\n{text}", wanted in text)
    status, printed, errors = tool("why", memo, edits, "--summary")
    checks.expect(f"the summary by the memo's own symbols: {status} {errors}\n{printed.decode()}",
                  b"the block that main, library.c:22 allocates, in " in printed)


def check_refused(checks, place, memo, guest):
    pair, whole = EXAMPLES / "pair.elf", guest.read_bytes()
    changed = bytearray(whole)
    changed[84 + 0x60] ^= 1
    for what, file, why in (
            ("no symbols", pair, "has no symbol table"), ("no file", checks.folder / "none", "can't be read"),
            ("no executable", EXAMPLES / "empty", "can't be read"),
            ("a cut file", checks.file("cut", whole[:-41]), "can't be read"),
            ("other code", checks.file("other", bytes(changed)), "isn't the memo's guest"),
            ("another guest", checks.file("length", with_symbols((EXAMPLES / "length.elf").read_bytes(), [])),
             "isn't the memo's guest")):
        got = place.ran(WHY, 0, "", memo, "e", "--symbols", file)
        right = got[:2] == (2, b"") and got[2].startswith("tools/why: ") and got[2].count("\n") == 1
        checks.expect(f"why with {what}: {got}", right and why in got[2])
    for lines in ("why 1\nstep 3\n", "why 2\n" + WHY.split("\n")[1] + "\n", "", "why 0"):
        got = place.ran(lines, 0, "", memo, "e", "--symbols", guest)
        checks.expect(f"lines that aren't understood: {got}", got[:2] == (2, b"") and "isn't understood" in got[2])
    taken = []
    for at in range(len(whole)):
        try:
            symbols.Symbols("cut", whole[:at])
            taken.append(at)
        except symbols.NoSymbols:
            pass
    checks.expect(f"an executable that is cut has no symbols, but at {taken}", not taken)


def check_source(checks):
    """The functions, lines and variables of a C file."""
    if not (shutil.which("clang") and shutil.which("ld.lld") and shutil.which("llvm-symbolizer")):
        print("skipped: naming the lines of a C file, since there is no clang with lld and llvm-symbolizer")
        return
    source, elf = checks.file("source.c", C_FILE), checks.folder / "source.elf"
    ran_whole(str(ROOT / "guest/build"), "--symbols", str(source), str(elf))
    if not checks.expect("a guest is built with symbols", elf.exists()):
        return
    found = symbols.Symbols(str(elf), elf.read_bytes())
    places = {symbol.name: symbol for symbol in found.found}
    add = places["add"]
    calls = [at for at in range(add.address, add.address + add.size, 4)]
    found.read_lines(calls)
    lines = {found.code(at) for at in calls}
    wanted = {"add, source.c:4", "add, source.c:5", "add, source.c:6"}
    checks.expect(f"the lines of a function: {sorted(lines)}", wanted <= lines and
                  all(line.startswith("add, source.c:") for line in lines))
    if shutil.which("riscv64-unknown-elf-addr2line"):
        by_one, by_other = ({address: symbols.line_of(frames) for address, frames in taken(
            ran_whole(tool_name, *words, str(elf), *map(hex, calls))[1])} for tool_name, words, taken in symbols.READERS)
        checks.expect(f"both readers of lines say the same: {by_one} {by_other}", by_one == by_other)
    total = places["total"]
    names = [found.data(total.address + place) for place in (0, 3)]
    checks.expect(f"a variable's bytes: {names}", names == ["total", "total + 3"])


def check_alone(checks):
    """A page that one thread alone stores to, and eight of its short steps read."""
    if not (shutil.which("clang") and shutil.which("ld.lld")):
        print("skipped: what is advised for a page of one thread, since there is no clang with lld")
        return
    source, elf, memo = checks.file("alone.c", ALONE_FILE), checks.folder / "alone.elf", checks.folder / "alone.memo"
    ran_whole(str(ROOT / "guest/build"), "--symbols", str(source), str(elf))
    program("run", elf, checks.file("page", b"a" * 4096), "--workers", "1", "--memo", memo)
    status, printed, errors = tool("why", memo, checks.file("edits", b"set 100 7a\n"), "--symbols", elf, "--summary")
    text = " ".join(printed.decode().split())
    wanted = "8 steps, ", "one thread alone stores `buffer`, which ", "on a page that nothing shares, and 8 steps read that"
    checks.expect(f"what is advised for a page of one thread: {status} {errors} {text}",
                  status == 0 and all(one in text for one in wanted) and "Give each thread" not in text)


def is_shown(printed, block):
    """Whether a block of the guide has these lines, up to a line of two dots where there is one."""
    lines, wanted = printed.decode().split("\n"), block.split("\n")
    if ".." in wanted:
        wanted = wanted[:wanted.index("..")]
        lines = lines[:len(wanted)]
    return lines == wanted


def check_guide(checks):
    """The edits of the guide's walk, with the committed executable."""
    memo = checks.folder / "orders.memo"
    blocks = re.findall(r"^tools/why orders\.memo (\S+) --symbols orders\.elf\n```\n.*?^```\n(why [0-9]+\n.*?)^```$",
                      (ROOT / "docs/GUESTS.md").read_text(), flags=re.S | re.M)
    checks.expect(f"docs/GUESTS.md has the reasons of three edits, {len(blocks)}", len(blocks) == 3)
    program("run", WALK / "first.elf", WALK / "orders.in", "--workers", "1", "--memo", memo)
    for edits, block in blocks:
        _, printed, errors = program("why", memo, ROOT / edits)
        plain = "".join(line for line in block.splitlines(True) if not line.startswith("    "))
        checks.expect(f"docs/GUESTS.md has the reasons of {edits}: {errors}", is_shown(printed, plain))


def check(checks):
    memo, guest = checks.folder / "pair.memo", checks.file("guest.elf", guest_with_symbols())
    program("run", EXAMPLES / "pair.elf", EXAMPLES / "pair.in", "--workers", "1", "--memo", memo)
    if checks.expect("pair.elf: a memo is written", memo.exists()):
        place = Place(checks.folder)
        check_lines(checks, place, memo, guest)
        check_summary(checks, place, memo, guest)
        check_refused(checks, place, memo, guest)
    check_source(checks)
    check_alone(checks)
    check_library(checks)
    check_guide(checks)
