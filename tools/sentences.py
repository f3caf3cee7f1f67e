"""What the program's lines mean, and what to do: a table of patterns, each with a sentence. `explained(line)` gives the
sentence of the first pattern that the whole line fits; None if it is no line of the program's.

A sentence has the groups of its pattern in braces. A function in its place gets the groups, and looks at the file that
the line names.
"""
import os
import re

MIB = 1 << 20
LIMITS = {"an executable": 16 * MIB, "an input, an edit list or a schedule": MIB, "a memo": 256 * MIB}
BUILD = "guest/build FILE.c, or guest/build --libc FILE.c, builds one that ithreads runs"
AGAIN = "make the memo again by `ithreads run .. --memo FILE`"
CAUSES = {
    0: "jumps to an address that isn't a multiple of 4: a function pointer or a return address is wrong",
    1: "jumps to where no code is: a function pointer or a return address is wrong",
    2: "comes to a word that is no instruction of RV32IM",
    3: "comes to EBREAK, which __builtin_trap makes",
    4: "loads from an address that isn't a multiple of the access' size",
    5: "loads from where nothing may be loaded, as by a null pointer",
    6: "stores to an address that isn't a multiple of the access' size",
    7: "stores to where nothing may be stored: a null pointer, code, a constant, or below main's stack",
    8: "makes a call with a number in a7 that there isn't",
}
KINDS = {  # of refused executables
    r"NotElf": f"the file is no ELF executable. {BUILD}",
    r"NotElf32": "the file is an ELF file of 64 bits or of another version, as compilers make them for this computer. "
                 f"{BUILD}",
    r"NotExec": "the file is an ELF file, but no executable: an object (.o) or a library that still has to be linked. "
                f"{BUILD}",
    r"NotRiscv": f"the executable is for another processor than RISC-V. {BUILD}",
    r"Compressed": "the executable has compressed instructions. Build it for rv32i or rv32im, without the extension C: "
                   f"{BUILD}",
    r"EntrySize": "the table of program headers has entries of another size than 32 bytes: the file is damaged",
    r"ShortTable (\d+)": "the file ends inside of program header {1}: it is cut off",
    r"Dynamic (\d+)": f"program header {{1}} asks for a dynamic linker. Link statically, with -static: {BUILD}",
    r"ShortSegment (\d+)": "the file ends before the bytes of program header {1}, or that has fewer bytes in memory "
                           "than in the file: it is cut off or damaged",
    r"Outside (\d+)": "program header {1} is to be loaded below 0x1000 or above 0xC0000000. Link it to addresses "
                      f"between: {BUILD}",
    r"Overlap (\d+) (\d+)": "program headers {1} and {2} are to be loaded to the same addresses",
    r"TooManyPages (\d+)": "the guest takes {1} pages of memory, and the limit is 1,024 (4 MiB). Make its static "
                           "arrays smaller",
    r"Entry": "the executable begins at an address that isn't a multiple of 4 or has no code",
}
LOOPS = ("A thread may also loop without a call, waiting for a variable: it sees what others store only after its own "
         "next call")
FUEL = f"give --fuel 16777216. {LOOPS}"
MOST_FUEL = 16_777_216
CALL = ("a step has no more than 16,777,216. Make a call in it, such as sched_yield, or build with `guest/build --libc "
        "--yield-every 100000`, which adds such calls; --march rv32im makes a step with products and quotients shorter")
STEPS = "give --steps 65536"
SPENT = ("a limit was reached. If `steps` of the report is as large as --steps (4,096 unless it is given), the run has "
         f"too many steps: {STEPS}. Else a step has more instructions than --fuel (1,000,000 unless it is given): "
         f"{FUEL}")
DEADLOCK = ("each thread waits for another. With --guest ELF INPUT and the report on standard input, tools/explain "
            "says who waits for what, and where; tools/explore finds orders that end otherwise")


def spent(steps, thread, fuel, limit, instructions=MOST_FUEL):
    """What it means that a limit was reached, of a run with so many steps and these limits. If the fuel isn't known, it
    was the largest only if so many instructions were executed."""
    if steps == limit:
        return (f"the run had {steps:,} steps, as many as --steps allows: "
                f"{STEPS if limit < 65_536 else 'make fewer calls'}")
    allowed = f"{fuel:,} instructions" if fuel else "as many instructions as --fuel allows (1,000,000 unless it is given)"
    text = f"a step of thread {thread} had {allowed} without a call{', as many as --fuel allows' if fuel else ''}: "
    if (fuel or instructions) < MOST_FUEL:
        return text + FUEL
    return text + (CALL if fuel else f"give --fuel 16777216; if that was given, {CALL}") + f". {LOOPS}"


def file_named(name):
    """What can be seen of a file that couldn't be read."""
    if not os.path.lexists(name):
        return f"there is no file {name or 'without a name'}"
    if os.path.isdir(name):
        return f"{name} is a folder, and a file is wanted"
    if not os.path.exists(name):
        return f"{name} is a link to a file that isn't there"
    if not os.access(name, os.R_OK):
        return f"you may not read {name}"
    return f"reading {name} failed. Now it can be read: try again"


def too_large(name):
    """Which limit a file passes."""
    try:
        with open(name, "rb") as file:
            begin, size = file.read(4), os.fstat(file.fileno()).st_size
    except (OSError, ValueError):  # a name from a pipe may have any bytes
        begin, size = b"", None
    kind = {b"\x7fELF": "an executable", b"ITHM": "a memo"}.get(begin, "an input, an edit list or a schedule")
    has = f"{name} has {size:,} bytes" if size is not None else f"{name} is too long"
    advice = {"an executable": "; build it without --symbols", "a memo": ""}.get(kind, "; shorten it, or give it in "
                                                                                       "parts")
    return f"{has}, and the limit for {kind} is {LIMITS[kind]:,} bytes ({LIMITS[kind] // MIB} MiB){advice}"


def bad_line(name, line):
    """What the line of an edit list has."""
    try:
        with open(name, "rb") as file:
            lines = file.read(MIB + 1).split(b"\n")
    except (OSError, ValueError):
        lines = []
    there = lines[int(line) - 1] if len(lines) >= int(line) else b""
    text = f"line {line} of {name} is neither `set OFFSET HEX` nor `size LENGTH`"
    if there.startswith((b"set", b"size")):
        return f"{text}; tools/check-edits {name} LENGTH says what is wrong in it"
    return f"{text}: {name} seems to be no edit list. `tools/edits OLD NEW` makes one of two versions of the input"


def out_of_range(name, line):
    return (f"line {line} of {name} writes behind the input's end, or makes the input longer than 1,048,576 bytes. Put "
            f"a line `size LENGTH` before it, if the input is to grow; of a rerun, the memo's input is meant. "
            f"tools/check-edits {name} LENGTH says more; `wc -c <INPUT` prints the input's length")


def trap(thread, pc, cause):
    return (f"thread {thread} {CAUSES[int(cause)]}; the instruction is at 0x{pc}. What the thread has printed since "
            f"its last call is lost, unless the guest was built by guest/build --libc --unbuffered")


def exited(code):
    if code == "0":
        return "the run ended as it should, with exit code 0"
    more = ": abort() was called or an assertion failed, and its message is in the output" if code == "134" else ""
    return f"the guest ended with exit code {code}{more}"


LINES = [
    *((rf"image: {kind}", sentence) for kind, sentence in KINDS.items()),
    *((rf"memo: Image {kind}", f"the memo's executable is refused: {sentence}") for kind, sentence in KINDS.items()),
    (r"memo: Short", f"the file has fewer than 40 bytes, so it is no memo, or only the beginning of one; {AGAIN}"),
    (r"memo: Magic", f"the file is no memo; {AGAIN}"),
    (r"memo: Version (\d+)", f"the memo has version {{1}}, and this program reads versions 1 and 2; {AGAIN}"),
    (r"memo: Digest", f"the memo is damaged or cut off: its digest isn't that of its bytes; {AGAIN}"),
    (r"memo: Limit (\w+)", f"a number in the memo ({{1}}) is out of its range, so that another program wrote it; "
                           f"{AGAIN}"),
    (r"memo: Field (\d+)",
     f"the memo is wrong at byte {{1}}, though its digest is right, so that another program wrote it; {AGAIN}"),
    (r"memo: Old (\d+)",
     "the memo was written before this machine had products and quotients, or reader-writer locks, and its guest came to "
     f"one; {AGAIN}"),
    (r"memo: Incoherent (\d+)",
     f"record {{1}} of the memo doesn't follow from those before it: another program wrote it; {AGAIN}"),
    (r"edits (.*) line (\d{1,20}): BadLine", bad_line),
    (r"edits (.*) line (\d+): OutOfRange", out_of_range),
    (r"read (.*)", file_named),
    (r"write output", "what is printed can't be written: the disk is full, or the reader has closed the pipe"),
    (r"write (.*)",
     "the memo can't be written to {1}: the folder isn't there, may not be written to, or the disk is full. All "
     "reports hold; a memo that had this name before may be damaged"),
    (r"no memory",
     "the computer's memory ran out; use a machine with more memory, or fewer --workers, or keep no memo"),
    (r"too large memo (\d+)",
     "the memo would have {1} bytes, and the limit is 268,435,456 (256 MiB). All reports hold, and no memo was "
     "written. Make fewer steps, and let each read fewer pages; or give all edit lists to one `ithreads run`, which "
     "needs no memo"),
    (r"too large (.*)", too_large),
    (r"schedule: token (\d+)",
     "word {1} of the schedule, counted from 0, is no thread number from 0 to 31. Of a report's line `schedule`, leave "
     "out the first word: tools/schedule REPORTS N does it"),
    (r"schedule: entry (\d+), thread (\d+): (.*)",
     "at entry {1}, counted from 0, the schedule lets thread {2} make a step, and {3}. The schedule is of another "
     "guest, another input or other limits"),
    (r"schedule: entry (\d+)",
     "at entry {1}, counted from 0, the schedule lets a thread make a step that waits, has ended or isn't there yet; "
     "or the run has ended. The schedule is of another guest, another input, or other --fuel and --steps: give those "
     "of the run"),
    (r"schedule: incomplete",
     "the schedule ends before the run does: it is cut off, or of another guest or input, or --fuel is larger than "
     "that of the run"),
    (r"false (\d+)",
     f"record {{1}} of the memo, counted from 0, isn't what its step does: another program wrote or changed it; {AGAIN}"),
    (r"words: error: unexpected argument '--version' .*",
     "the version isn't printed: the manual page has it, `man ithreads`, and in the repository the file VERSION"),
    (r"words: error: invalid value .* for '--.*",
     "--workers is from 1 to 16, --fuel, the most instructions of a step, from 1 to 16777216, and --steps, the most steps "
     "of a run, from 1 to 65536"),
    (r"words: .*", "the command line isn't understood; `./ithreads --help` shows the commands and their options"),
    (r"end exit (\d+)", exited),
    (r"end trap (\d+) ([0-9a-f]{8}) ([0-8])", trap),
    (r"end deadlock", DEADLOCK),
    (r"end spent", SPENT),
    (r"(?:ithreads|trace): the program is not built, and there is no 'rt' to build it",
     "the program is built from its source by the toolchain's `rt`, which isn't in the PATH; see README"),
    (r"(?:ithreads|trace): building failed after \d+ s",
     "the program couldn't be built; the lines before this one say why"),
]


def found_in(table, line):
    """The sentence of the first pattern that the whole line fits."""
    for pattern, sentence in table:
        found = re.fullmatch(pattern, line, flags=re.S)
        if found:
            return sentence(*found.groups()) if callable(sentence) else sentence.format("", *found.groups())
    return None


def explained(line):
    """The sentence of a line."""
    return found_in(LINES, line)
