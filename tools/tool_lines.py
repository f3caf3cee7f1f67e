"""What the lines of the tools on standard error mean, and what to do, as sentences.py has it for those of the program:
`explained(line)` gives the sentence; None if it is no line of a tool's."""
import re

import endings
import sentences
from sentences import BUILD

NAME = r"(?:tools/|ithreads-)([a-z-]+)"
RUN = "`ithreads run` or `ithreads rerun`"
AS_RUN = "Give ELF, INPUT and the edit lists as the run had them; of a rerun, INPUT is the memo's input"
HOW_FAR = "the proved program is being built, and this says how far it is: wait, or use tools/try meanwhile"


def of_program(line):
    """What a line of the program means that stands in one of a tool's."""
    line = line.strip()
    return sentences.explained(line) or f"the program's line is `{line}`; `ithreads --help` has its words"


def ended(status, why):
    """A tool that runs the program ends since that did."""
    if why and why not in endings.FAILURES.values():
        return of_program(why)
    return f"ithreads ended with status {status} before a report was whole; its own line stands above: explain that one"


def how_it_ended(end):
    if end == "trap":
        return ("the guest did what the line says. With --guest ELF INPUT and the report on standard input, "
                "tools/explain says in which line, and what is at the address")
    return sentences.explained(f"end {end}")


def call_of_again(_, notes):
    """What tools/again says of a call: the reasons behind the counts are what matters."""
    found = [sentence for note in notes.split("; ")[::-1] if (sentence := sentences.found_in(OF_AGAIN, note))]
    return ". ".join([found[0], *(one[:1].upper() + one[1:] for one in found[1:])] if found else [COUNTS])


def spent_again(thread):
    return (f"a step of thread {thread} had as many instructions as --fuel allows without a call. If no --fuel was "
            f"given, tools/again has tried the largest; {sentences.CALL}. tools/again takes these words in --build "
            f"\"..\". {sentences.LOOPS}")


COUNTS = ("so many steps were taken from the run that was kept, and so many executed. Many executed ones after a small "
          "edit: tools/why says what they read")
OF_AGAIN = [
    (r"round \d+ ended by spent: thread (\d+) executed as many instructions .*", spent_again),
    (r"round \d+ ended by spent: it had ([\d,]+) steps, .*",
     "the run had {1} steps, as many as --steps allows. If no --steps was given, tools/again has tried the largest, "
     "65,536: make fewer calls"),
    (r"round \d+ ended by (exit \d+|deadlock|trap)\b.*", how_it_ended),
    (r"(.*) is refused: (.*)",
     lambda file, why: f"{file} was no use, so the program ran from scratch: {of_program('memo: ' + why)}"),
    (r"(.*) can't be read: .*", "{1} can't be read, so the program ran from scratch: see who may read it"),
    (r"there was no memo", "nothing was kept of a call before, so the program ran from scratch"),
    (r"the program has changed", "a memo is of one program, so the changed one ran from scratch"),
    (r"more of the input has changed than an edit list holds",
     "the program ran from scratch: an edit list writes 524,284 bytes at most"),
    (r"no memo is kept: (.*)", lambda why: f"the next call runs from scratch, too: {of_program(why)}"),
    (r"that is longer than from scratch: .*",
     "reading and writing the memo took longer than executing everything. If steps are many and short, make fewer calls"),
]


LINES = [
    (r"(.*) can't be read: .*", sentences.file_named),
    (r"(.*) can't be written: .*",
     "{1} can't be written: the folder isn't there or may not be written to, or the disk is full"),
    (r"printing failed: .*", sentences.explained("write output")),
    (r"(.*): it stops being a report at byte (\d+): .*",
     f"{{1}} isn't what {RUN} printed, from byte {{2}} on. Give standard output alone, in a file of its own; a run that "
     "was interrupted prints no whole report"),
    (r"(.*) has no round (\d+), but (\d+) to (\d+)",
     "the reports have rounds {3} to {4}: `run` counts from 0, and `rerun` from 1"),
    (r"(.*): the reports have no round (\d+)",
     "{1} is given for round {2}, which isn't among the reports: write another number before the colon of N:FILE"),
    (r"(.*) line (\d{1,20}): BadLine: .*", sentences.bad_line),
    (r"(.*) line (\d+): OutOfRange: .*", sentences.out_of_range),
    (r"(.*) has (?:more than )?[\d,]+ bytes, (?:the most of|and an input has at most) .*", sentences.too_large),
    (r"the shortest list has .*", "so much differs that one list can't hold it: give --into NAME, and give all lists to "
                                  "one `ithreads run` or `rerun`; or run the guest on the new input from scratch"),
    (r"(.*) is there, and is none of the \d+ that are to be written: .*",
     "more files would have NAME than are written now: remove {1}, or give another NAME"),
    (r"rounds of the reports: \d+; inputs by .*",
     f"each edit list makes a round, and so does INPUT, unless the reports are of a rerun. {AS_RUN}"),
    (r"no line of the program is among these",
     "give a line that `ithreads`, ./trace or a tool printed on standard error, or the line `end` of a report, to the "
     "letter"),
    (r"(.*): it is no executable.*", f"{{1}} is no guest. {BUILD}"),
    (r"(.*): it has no symbol table; .*", "build the guest from the same files by guest/build --symbols: code and data "
                                          "stay where they are, so the memo is of both"),
    (r"(.*): its symbol table can't be read", f"{{1}} is damaged, or another linker wrote it. {BUILD}"),
    (r"(.*) isn't the memo's guest: .*", "build {1} from the same files and by the same words as the memo's guest, and "
                                         "--symbols; or make the memo anew by this guest"),
    (r"a line isn't understood: .*", "the tool and the program are of different versions: install both again"),
    (r"\w+ ended with status 10: (.*) \(of a run with .*", of_program),
    (r".*\bstatus 125: .*",
     "the proved program isn't built, and building it failed; lines above this one say why. tools/try runs it "
     "without a proof"),
    (r"\w+ ended with status (\d+): (.*)", ended),
    (r"round (\d+) can't be replayed: status \d+: (.*)", lambda _, line: of_program(line)),
    (r"what is printed by the replay of round \d+ isn't understood: .*",
     "the tool and the program are of different versions: install both again"),
    (r"the trace of round (\d+): .*", f"the trace has other steps than round {{1}} of the reports. {AS_RUN}"),
    (r"(.*): line (\d+): .*", "{1} isn't of this round from line {2} on: give what `ithreads show`, `ithreads why` or "
                              "./trace printed for it, whole, or put the round's number before its name, as N:FILE"),
    (r"round \d+ ended by (exit \d+|deadlock|spent|trap)\b.*", how_it_ended),
    (r"([\d,]+ steps? reused, [\d,]+ executed, [^;]*)((?:; .*)?)", call_of_again),
    (r"guest/build refuses (.*)",
     "the lines before this one say what is wrong with {1}, and what to write in its place"),
    (r"(?:the following arguments are required|unrecognized arguments|argument|expected|ambiguous option|--build is) ?.*",
     "the words aren't understood; --help behind the tool's name shows them"),
    (r"(\d+) tries take some (\d+) s",
     "that is how long it takes; fewer --tries take less, and so does a smaller input"),
    (r"nothing of this build is proved; .*", "the program is compiled without a proof, for trying it out; ./ithreads "
                                             "proves it"),
    (r"there is no 'rt' to compile it", sentences.explained("ithreads: the program is not built, and there is no "
                                                                "'rt' to build it")),
    (r"the program was not compiled", "the lines before this one say why; after a change of the code, mend that"),
    (r"the program of \./(\w+) isn't built, and can't be", "./{1} says why: call it, then install again"),
    (r"there is no installation in (.*): .* isn't there",
     "give the --prefix and the --destdir with which it was installed; of a Debian package, `apt-get remove ithreads`"),
    (r"(.*) has .*, which is no file of an installation",
     "{1} was changed, and nothing was removed: remove by hand what it lists below its own folder"),
    (r"(.*): (?:Permission denied|Read-only file system|No space left on device)",
     "{1} can't be written: be root, give a --prefix of your own, such as ~/.local, or make room"),
    (r"(.*): (?:Is a directory|Not a directory|File exists|Directory not empty)",
     "{1} is in the way, or what is above it is no folder: move it, or give another --prefix"),
    (r"No usable temporary directory found in .*",
     "the folder for temporary files is full or may not be written to: set TMPDIR to one of your own"),
    (r"((?:Short|Magic|Version|Digest|Limit|Field|Old|Image)\b.*) \(at \d+: .*\)",
     lambda line: of_program(f"memo: {line}")),
    (r"step (\d+), of thread \d+, number \d+, is false:.*",
     f"record {{1}} of the memo isn't what its step does, and the lines behind this one say what differs; "
     f"{sentences.AGAIN}"),
]
OF_LAUNCH = [
    (r"proves the program's \d+ crates .*|tools/try runs it .*|proved \w+ \(.*|\d+ of \d+ crates proved, .*|.*: another run "
     r"on this machine .*", HOW_FAR),
    (r"built in \d+ s", "the program is proved and built; later calls start at once"),
    (r".* is newer than the program: remove (.*) to have it built anew",
     "the source has changed since the program was built, and the old program runs: remove {1}, and the next call "
     "proves and builds it anew"),
    (r"the program is not built, and ITHREADS_NO_BUILD is set",
     "unset ITHREADS_NO_BUILD to have the program proved and built"),
    (r"the sources can't be copied to (.*)", "{1}, for temporary files, is full or may not be written to: set TMPDIR"),
    (r"(.*) isn't there: install ithreads again", "a file of the installation was removed: install it again"),
]
OF_BUILD = [
    (r"there is no .* \((?:package|packages) (.*)\)", "install it: `apt-get install` with {1}, as root"),
    (r".* is not understood|--[a-z-]+(?: takes |,).*|.* stands behind .*, and OUT .*|.* are two names of OUT"
     r"|a FILE\.c is wanted",
     "the words of guest/build aren't understood; guest/build --help shows them"),
    (r"(.*) is there and is no executable: .*",
     "guest/build would write over {1}, which it hasn't made: give another OUT, as the last word, or remove it"),
    (r"(.*): a guest is built of files of C",
     "{1} isn't C: guest/build takes files of C alone, no C++, objects or libraries"),
    (r"not there: (.*?)[.,]?", "a guest has no {1}; the lines behind this one say what to take instead"),
    (r"main is there twice\..*", "two of the C files have a main, and a program has one: give the files of one program"),
    (r"(\S+) is there twice\..*", "{1} is in two of the C files, or the C library of guests has its own, which a program "
                                   "can't replace: rename one"),
    (r"there is nothing to start: .*", "write a function main; include ithreads.h, or build with --libc"),
    (r"a guest has at most 1,024 pages.*", "code, constants and data have 4 MiB in all: make static arrays smaller"),
    (r".* has [\d,]+ bytes of variables, .*|a thread's stack has 65,536 bytes.*",
     "a thread's stack is too small for these variables: make large arrays static, or take them from malloc"),
    (r"without --libc there are .*", "include ithreads.h alone, or build with --libc"),
    (r"a guest has the instructions .*|a number has 64 bits .*|of POSIX threads, a guest has .*",
     "the lines before this one have the place in the C file: change it there"),
    (r"the guest for --notes was not built", "with --notes the guest is built once more, with symbols; the lines before "
                                             "this one say why that failed"),
]
TABLES = [(NAME + ": ", LINES), ("(ithreads|trace): ", OF_LAUNCH), ("(build): ", OF_BUILD)]
WORDS = re.compile(r"(?:tools/|ithreads-)?([a-z-]+): error: .*", flags=re.S)


def explained(line):
    """The sentence of a tool's line."""
    if found := WORDS.fullmatch(line):
        return f"the words aren't understood; `{found.group(1)} --help` shows them"
    for prefix, table in TABLES:
        if (begun := re.match(prefix, line)) and (found := sentences.found_in(table, line[begun.end():])):
            return found
    return None
