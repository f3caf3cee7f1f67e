"""Checks `tools/explain`.

  - Each refusal of an executable, a memo, an edit list, a schedule, and each line of a status that docs/FORMATS.md has,
    has a sentence; so has each end. A line that is none of these is refused.
  - Lines of the program, of words and files that are made wrong here, and their sentences.
  - With --guest, of runs of small guests: who waits for whom, the address of a trap and what is there, which limit was
    reached, and whose stack was too small. A report of another guest is found out.
  - A guest that prints and then traps loses what it printed, but for `guest/build --unbuffered`.
"""
import ast
import re
import shutil
import subprocess

import sentences
import tool_lines
from checking import EXAMPLES, ROOT, SECONDS, program, ran_whole, tool

NUMBERS = {"i": "3", "j": "4", "n": "1200", "V": "7", "O": "99", "I": "2", "N": "300000000", "T": "1"}
LINES = ["words: ELF INPUT SCHEDULE are wanted", "write output", "write FILE", "no memory", "too large FILE",
         "read FILE", "schedule: entry 3, thread 1: the thread waits", "end exit 0", "end exit 134", "end deadlock",
         "end spent",
         "trace: building failed after 12 s"]
C_FILES = {
    "trap": "static unsigned work(unsigned place) { *(volatile unsigned *)place = 1; return 0; }\n"
            "int main(void) { it_thread_create(work, 6); it_thread_join(1, 0); return 0; }\n",
    "null": "struct pair { int first, second; };\n"
            "static IT_NOINLINE int second(volatile struct pair *pair) { return pair->second; }\n"
            "int main(void) { return second(0); }\n",
    "constant": "static const int most = 5;\nint main(void) { *(volatile int *)&most = 6; return most; }\n",
    "jump": "int main(void) { void (*volatile nowhere)(void) = 0; nowhere(); return 0; }\n",
    "spins": "static volatile int flag;\nint main(void) { while (!flag) ; return 0; }\n",
    "yields": "int main(void) { for (;;) it_yield(); }\n",
    "deep": "static IT_NOINLINE unsigned deep(unsigned n) { volatile char room[2000]; room[n] = n;\n"
            "    return n ? deep(n - 1) + room[n] : 0; }\n"
            "static unsigned work(unsigned n) { return deep(n); }\n"
            "int main(void) { it_thread_create(work, 3); it_thread_create(work, 40); it_thread_join(1, 0);\n"
            "    return it_thread_join(2, 0); }\n",
}
WANTED = {
    "trap": ["thread 1 stores to an address that isn't a multiple", "thread 1 was in work, trap.c:2",
             "the address was 0x00000006: a null pointer"],
    "null": ["thread 0 was in second, null.c:3", "the address was 0x00000004: a null pointer, or a member"],
    "constant": ["thread 0 was in main, constant.c:3", "which is a constant"],
    "jump": ["the jump was to 0x00000000: a null pointer"],
    "spins": ["a step of thread 0 had 1,000,000 instructions without a call", "give --fuel 16777216",
              "step 0, of thread 0, used up its fuel; after 1,000,000 instructions it was in main, spins.c:3"],
    "yields": ["the run had 4,096 steps, as many as --steps allows: give --steps 65536",
               "step 4095, of thread 0, was the last that --steps allows; it was in main, yields.c:2"],
    "deep": ["thread 2 used more than the 65,536 bytes of its stack", "into the stack of thread 1"],
}
MESSAGE_CALLS = {  # calls with a message, and what stands before its text
    "refuse": "", "say": "", "error": "error: ", "NotBuilt": "", "Ended": "", "NoGuest": "FILE: ",
    "NoSymbols": "FILE: ", "NotReports": "FILE: ",
}
OTHER_LINES = [
    "build: there is nothing to start: a guest has a function main, and without --libc it includes ithreads.h.",
    "build: not there: time (a.c:3), clock (a.c:4),", "build: malloc is there twice. malloc, free and their like, exit, and",
    "build: a.c:3: the function main has 70,000 bytes of variables, more than 49,152 bytes.",
    "build: a guest has at most 1,024 pages.", "build: a thread's stack has 65,536 bytes, and stacks lie one upon",
    "build: of POSIX threads, a guest has what guest/include/pthread.h declares.",
    "build: there is no clang (package clang)", "build: --wrong is not understood",
    "tools/explore: 100 tries take some 12 s",
    "build: there is no picolibc (package picolibc-riscv64-unknown-elf)", "ithreads: built in 3 s",
    "build: there is no llvm-objdump for --notes (package llvm)", "build: a.cpp: a guest is built of files of C",
    "build: a.in is there and is no executable: remove it first, or give another OUT", "build: a FILE.c is wanted",
    "build: --march takes rv32i or rv32im", "build: b.c stands behind a.elf, and OUT is the last word",
    "build: a and b are two names of OUT", "build: --args takes one word, in which each quote is closed",
    "build: --args, --time, --yield-every and --unbuffered are of the C library: give --libc too",
    "tools/memo: Digest (at 8140: its last 32 bytes aren't the digest of the others)",
    "ithreads-memo: Image NotElf (at 12: executable: it isn't taken)",
    "tools/memo: step 3, of thread 1, number 0, is false:", "tools/install: /usr/local/bin: Not a directory",
    "tools/install: /usr/local/bin: Permission denied", "tools/verify: No usable temporary directory found in ['/tmp']",
    "tools/run: ithreads ended with status 125: the program isn't built, and can't be",
    "tools/run: ithreads ended with status 6: a file can't be read",
    "tools/verify: round 0 can't be replayed: status 125: the program isn't built, and can't be",
    "ithreads: the program is not built, and ITHREADS_NO_BUILD is set",
    "ithreads: crates/a/src/lib.rt is newer than the program: remove crates/b/out/b to have it built anew",
    "ithreads: proves the program's 40 crates and builds it, which takes 20 to 60 minutes on two to four processors",
    "ithreads: tools/try runs it before that, without a proof", "trace: proved rv_step (3 of 40, 17 s)",
    "ithreads: 3 of 40 crates proved, 47 s", "ithreads: the sources can't be copied to /tmp/x",
    "ithreads: /usr/lib/ithreads/bin/ithreads_cli isn't there: install ithreads again",
    "tools/report: reports: it stops being a report at byte 3: expected `round`, found 'x'",
    "tools/check-edits: a.edits line 3: BadLine: column 1: expected `set D H`, found `x`",
    "tools/edits: a.edits line 3: OutOfRange: it writes up to byte 9, and the input has 3 bytes here",
    "tools/timeline: why: line 2: expected a reason, found `x`",
    "ithreads-why: error: the following arguments are required: MEMO, EDITS",
]
LOST = b"""#include <stdio.h>
int main(void) { printf("printed\\n"); *(volatile int *)1 = 2; return 0; }
"""


def written(cell):
    """A refusal's line as the program has it, from how the table has it."""
    name, _, numbers = cell.strip("`").partition("(")
    return " ".join([name, *(NUMBERS[number] for number in re.findall("[a-z]", numbers))])


def lines_of_formats():
    """Each line that docs/FORMATS.md has on standard error."""
    text = (ROOT / "docs/FORMATS.md").read_text()
    for cell in kinds_of(text):
        yield f"image: {cell}"
        yield f"memo: Image {cell}"
    for words in ("Short", "Magic", "Version 7", "Digest", "Limit elf", "Field 99", "Old 2", "Incoherent 2"):
        yield f"memo: {words}"
    for words in re.findall(r"^\| \d+ \| (.*) \|$", text[text.index("| status | line |"):], flags=re.M)[:9]:
        for line in re.findall("`([^`]*[^` ])`", words):
            if line != "image: KIND":  # they are above
                yield re.sub(r"\bNAME\b", "none", re.sub(r"\bN\b", "3", line))
    yield from (line.replace(" I", " 3") for line in re.findall(r"^\| `(schedule: [^`]*)` \|", text, flags=re.M))


def kinds_of(text):
    """The refusals of executables."""
    table = text[text.index("| refusal | exactly if |"):].split("\n\n")[0]
    return [written(row.split("|")[1].strip()) for row in table.split("\n")[2:]]


def check_words(checks):
    """The sentences of words that aren't understood."""
    for words, wanted in ((["--version"], "file VERSION"), (["gen", "1", "--workers", "17"], "--workers is from 1 to 16,"),
                          (["run"], "--help` shows")):
        sentence = sentences.explained(program(*words)[2])
        checks.expect(f"the sentence of the words {words}: {sentence}", wanted in sentence)


def check_table(checks):
    lines = [*lines_of_formats(), *LINES, *(f"end trap 1 00010000 {cause}" for cause in range(9))]
    without = [line for line in lines if not sentences.explained(line)]
    checks.expect(f"{len(lines)} lines have sentences, but for {without}", not without and len(lines) > 60)
    unknown = [line for line in ("image", "end", "end exit", "memo: digest", "", "step 3") if sentences.explained(line)]
    checks.expect(f"other lines have no sentence, but for {unknown}", not unknown)
    status, printed, errors = tool("explain", "end spent")
    wanted = f"{sentences.explained('end spent')}\n"
    checks.expect(f"explain: {status} {errors}", (status, printed.decode()) == (0, wanted))
    for line in ("memo: digest", ""):
        status, printed, errors = tool("explain", line)
        checks.expect(f"explain `{line}`: {status} {errors}", status == 1 and not printed and "no line" in errors)


def lines_of_tools():
    """Each line that a tool of this folder prints on standard error, with another text for what it inserts, by its
    source: what it refuses, and what it raises to be refused."""
    for file in sorted((ROOT / "tools").iterdir()):
        if file.name.startswith("check_") or file.name == "blocks.py" or not is_python(file):  # which prints nothing
            continue
        for node in ast.walk(ast.parse(file.read_text())):
            name = getattr(node.func, "attr", getattr(node.func, "id", "")) if isinstance(node, ast.Call) else ""
            if name in MESSAGE_CALLS and node.args and (text := text_of(node.args[-1])):
                yield f"tools/{file.name.removesuffix('.py')}: {MESSAGE_CALLS[name]}{text}"


def is_python(file):
    return file.is_file() and (file.suffix == ".py" or file.read_bytes().startswith(b"#!/usr/bin/env python3"))


def text_of(node):
    """A text as it is put together, with a number for what is put in; nothing if it has no word of its own."""
    parts = node.values if isinstance(node, ast.JoinedStr) else [node]
    texts = [part.value if isinstance(part, ast.Constant) and isinstance(part.value, str) else "3" for part in parts]
    return "".join(texts) if re.search("[a-z]", "".join(texts)) else None


def check_tools(checks):
    """Each line of a tool has a sentence, and so has each line of the launcher and of guest/build."""
    lines = [*lines_of_tools(), *OTHER_LINES]
    without = [line for line in lines if not tool_lines.explained(line)]
    checks.expect(f"{len(lines)} lines of the tools have sentences, but for {without}", not without and len(lines) > 60)
    others = ("tools/why", "tools/why: ", "why 3", "build", "ithreads: other")
    unknown = [line for line in others if tool_lines.explained(line)]
    checks.expect(f"other lines have no sentence, but for {unknown}", not unknown)
    for line, wanted in (("tools/verify: none can't be read: No such file or directory", "there is no file none"),
                         ("ithreads-timeline: ithreads ended with status 4: memo: Digest", "the memo is damaged"),
                         ("tools/run: round 0 ended by spent: it had 4096 steps", "--steps 65536")):
        status, printed, errors = tool("explain", line)
        checks.expect(f"explain `{line}`: {printed} {errors}", status == 0 and wanted in printed.decode())


def check_files(checks):
    """The program's lines on files that are wrong, and their sentences."""
    hi, empty, data = EXAMPLES / "hi.elf", EXAMPLES / "empty", EXAMPLES / "pair.in"
    large, text = checks.file("large", bytes(1_048_577)), checks.file("text", b"some text\n")
    far = checks.file("far", b"set 9999999 00\n")
    for words, wanted in ((("run", text, empty), "no ELF executable"),
                          (("run", hi, checks.folder / "none"), "there is no file"),
                          (("run", hi, checks.folder), "is a folder"), (("run", hi, large), "has 1,048,577 bytes"),
                          (("run", hi, empty, data), "seems to be no edit list"),
                          (("run", hi, empty, far), "behind the input's end"),
                          (("show", text), "fewer than 40 bytes"), (("show", hi), "no memo"),
                          (("replay", hi, empty, text), "no thread number"),
                          (("replay", hi, empty, empty), "ends before the run"),
                          (("runs",), "isn't understood")):
        status, _, line = program(*words)
        sentence = sentences.explained(line) or ""
        checks.expect(f"explain {line}, of {words}: {status} {sentence}", wanted in sentence)


def explained(words, report):
    """The status of the tool on reports from a pipe, and what it prints."""
    tool_words = [ROOT / "tools/explain", *map(str, words)]
    done = subprocess.run(tool_words, input=report, capture_output=True, timeout=SECONDS, check=False)
    return done.returncode, done.stdout.decode()


def check_guests(checks):
    pair = [EXAMPLES / "pair.elf", EXAMPLES / "pair.in"]
    cross = [EXAMPLES / "cross.elf", EXAMPLES / "empty"]
    _, report, _ = program("run", *cross, "--workers", "1")
    status, printed = explained(("--guest", *cross), report)
    shown = ("round 0: thread 0 waits for mutex 1, held by thread 1, in 00010028\n"
             "round 0: thread 1 waits for mutex 0, held by thread 0, in 00010070\n")
    checks.expect(f"who waits in cross.elf: {status} {printed}", status == 0 and printed.endswith(shown))
    guide = (ROOT / "tools/README.md").read_text()
    checks.expect("tools/README.md shows who waits in cross.elf", f"```\n{shown}```" in guide)
    status, printed = explained(("--guest", *pair), report)
    checks.expect(f"the report of another guest: {status} {printed}", "the schedule is of another guest" in printed)
    _, report, _ = program("run", *pair, EXAMPLES / "pair.edits", "--workers", "1")
    status, printed = explained(("--guest", *pair, EXAMPLES / "pair.edits"), report)
    right = status == 0 and printed.count("\n") == 1 and "exit code 0" in printed
    checks.expect(f"two rounds that exit: {status} {printed}", right)
    for words in (("--guest", *pair), ("end spent", "--guest", *pair)):  # one input alone, and a line
        status, printed = explained(words, report)
        checks.expect(f"two rounds, {words}: {status} {printed}", status == 2)


def check_built(checks):
    """Guests in C that end in other ways."""
    if not (shutil.which("clang") and shutil.which("ld.lld") and shutil.which("llvm-symbolizer")):
        print("skipped: the sentences of traps and stacks, since there is no clang with lld and llvm-symbolizer")
        return
    for name, text in C_FILES.items():
        source, elf = checks.file(f"{name}.c", f'#include "ithreads.h"\n{text}'.encode()), checks.folder / f"{name}.elf"
        ran_whole(str(ROOT / "guest/build"), "--symbols", str(source), str(elf))
        _, report, _ = program("run", elf, EXAMPLES / "empty", "--workers", "1")
        status, printed = explained(("--guest", elf, EXAMPLES / "empty"), report)
        without = [line for line in WANTED[name] if line not in printed]
        checks.expect(f"the sentences of {name}.c, but for {without}: {status} {printed}", status == 0 and not without)
    elf = checks.folder / "spins.elf"
    _, report, _ = program("run", elf, EXAMPLES / "empty", "--workers", "1", "--fuel", "16777216")
    for words in ((), ("--fuel", "16777216"), ("--guest", elf, EXAMPLES / "empty")):
        _, printed = explained(words, report)
        right = "16,777,216 instructions without a call" in printed and "--yield-every 100000" in printed
        checks.expect(f"the largest fuel, {words}: {printed}", right and "give --fuel" not in printed)


def check_fuel(checks):
    """Reports of two executed steps, which don't say what the fuel was: as many instructions as both have, or fewer."""
    for instructions, wanted, unwanted in (
            (16_777_217, "give --fuel 16777216; if that was given, a step has no more", "1,000,000 instr"),
            (1_000_005, "(1,000,000 unless it is given) without a call: give --fuel 16777216. A", "if that was given")):
        report = (f"round 0\nend spent\nsteps 2\nreused 0\nexecuted 2\ninstructions {instructions}\nby 2\n"
                  f"schedule 0+ 1+\nmemory {'0' * 64}\noutput 0\n\n")
        status, printed = explained((), report.encode())
        right = status == 0 and wanted in printed and unwanted not in printed
        checks.expect(f"a spent fuel that isn't known: {status} {printed}", right)


def check_parts(checks):
    """Lines that have several parts, and some of guest/build."""
    counts = "tools/again: 0 steps reused, 1 executed, 0.27 s from scratch; there was no memo"
    for line, wanted in (
            (f"{counts}; a limit was reached, so it ran again with --fuel 16777216 --steps 65536; round 0 ended by "
             "spent: thread 3 executed as many instructions without a call as --fuel allows",
             "a step of thread 3 had as many instructions as --fuel allows without a call. If no --fuel was given"),
            (f"{counts}; round 0 ended by deadlock", "each thread waits for another"),
            (counts, "nothing was kept of a call before"),
            ("tools/again: 8 steps reused, 4 executed, 0.27 s; from scratch 1.00 s", "so many steps were taken"),
            ("build: not there: time (two.c:3).", "a guest has no time (two.c:3); the lines behind"),
            ("build: main is there twice. malloc, free and their like, exit,", "two of the C files have a main")):
        status, printed, errors = tool("explain", line)
        checks.expect(f"explain `{line}`: {printed} {errors}", status == 0 and printed.decode().startswith(wanted))


def check_unbuffered(checks):
    if not shutil.which("riscv64-unknown-elf-gcc"):
        print("skipped: what a trap loses, since there is no riscv64-unknown-elf-gcc")
        return
    source, elf = checks.file("lost.c", LOST), checks.folder / "lost.elf"
    for words, output in (((), b"output 0\n\n"), (("--unbuffered",), b"output 8\nprinted\n\n")):
        ran_whole(str(ROOT / "guest/build"), "--libc", *words, str(source), str(elf))
        _, report, _ = program("run", elf, EXAMPLES / "empty", "--workers", "1")
        right = report.endswith(output) and b"end trap" in report
        checks.expect(f"printed before a trap, {words}: {report[-30:]}", right)


def check(checks):
    check_table(checks)
    check_words(checks)
    check_tools(checks)
    check_files(checks)
    check_fuel(checks)
    check_parts(checks)
    check_guests(checks)
    check_built(checks)
    check_unbuffered(checks)
