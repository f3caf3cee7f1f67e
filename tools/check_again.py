"""Checks `tools/again`.

  - An input is edited again and again: each call puts out what a run from scratch does, with its status, and says how
    many steps were executed. Its memo has the input of that call, and nothing else is in the folder afterwards.
  - It runs from scratch, and says why, if there is no memo, the program is another, the memo is cut, damaged, of
    another version or a folder, too much differs, or the step limit is another.
  - A limit that was reached is found out, and isn't reached again. Where the largest fuel is, it says what may help.
  - On a terminal a line says what is going on, and standard output is as ever.
  - Its status is the guest's, or that of its --help.
  - A C file is built if it, a file that it includes or the words are others, and not else; --libc is found out. If
    building fails, what was there stays. Each of several words has a guest and a memo of its own.
  - Calls that are killed at any moment leave nothing that the next one stumbles over; several at once don't either.
  - With --watch each save makes a call.
"""
import json
import os
import re
import shutil
import signal
import subprocess
import time

import building
import memos
from checking import EXAMPLES, MOST_INPUT, ROOT, SECONDS, on_terminal, program, ran_whole

TOOL = ROOT / "tools/again"
LINE = re.compile(r"tools/again: ([0-9,]+) steps? reused, ([0-9,]+) executed, [0-9.]+ s"
                  r"(?: from scratch|; from scratch (?:[0-9.]+ s|isn't known))((?:; .*)?)\n")
ALONE = "--", "--workers", "1"
EDITS = 6
KILLED = 8
HEADERS = [  # C files with what they include, and whether that takes the C library
    ({"a.c": '#include "ithreads.h"\n#include <stdint.h>\n'}, False),
    ({"a.c": "#include <ithreads.h>\n# include <stdio.h>\n"}, True),
    ({"a.c": '#include "ithreads.h"\n#include "b.h"\n', "b.h": "#include <stddef.h>\n"}, False),
    ({"a.c": '#include "ithreads.h"\n#include "b.h"\n', "b.h": '#include "a.c"\n#include <pthread.h>\n'}, True),
    ({"a.c": '#include "ithreads.h"\n#include "sub/b.h"\n', "sub/b.h": '#include "../a.c"\n'}, False),
    ({"a.c": '#include "ithreads.h"\n/* as in\n#include <stdio.h>\n*/ // /*\nchar *text = "/*";\n'}, False),
    ({"a.c": '#include "ithreads.h"\nchar *text = "/*";\n#include <stdio.h> /* */\n'}, True),
    ({"a.c": "int main(void) { return 0; }\n"}, False)]
SOURCE = """#include "ithreads.h"
#include "code.h"
int main(void) { it_put((void *)it_input(), it_input_length()); return CODE; }
"""


def again(*words):
    """The status, what was printed, counts and notes of the line on standard error, and all of standard error."""
    status, printed, errors = ran_whole(str(TOOL), *map(str, words))
    found = LINE.fullmatch(errors)
    return status, printed, found and (int(found.group(1)), int(found.group(2)), found.group(3)), errors


class Place:
    """A folder with a guest and an input."""

    def __init__(self, checks, name, guest, data):
        self.checks, self.folder = checks, checks.folder / f"again {name}"
        self.folder.mkdir()
        self.guest, self.data = self.folder / guest.name, self.folder / "data.in"
        shutil.copy(guest, self.guest)
        self.data.write_bytes(data)
        self.cache = self.folder / f".{guest.name}.again"
        self.memo = self.cache / "data.in.memo"

    def expect(self, what, executed=None, note="", *words):
        """One call, which puts out what a run from scratch does, executes so many steps, and has a note."""
        status, printed, counts, errors = again(self.guest, self.data, *words)
        limits = words[1:] if words[:1] == ("--",) else []
        _, report, _ = program("run", self.guest, self.data, *limits)
        end = re.search(rb"^end exit ([0-9]+)$", report, flags=re.M)
        right = counts and end and status == int(end.group(1)) % 256 and report.endswith(b"\n%b\n" % printed)
        right = right and (executed is None or counts[1] == executed) and (note in counts[2] if note else not counts[2])
        self.checks.expect(f"again, {what}: {status} {errors}", right)
        with open(self.memo, "rb") as memo:
            head = memos.head(memo)
        same = (head.input, head.elf) == (self.data.read_bytes(), self.guest.read_bytes())
        self.checks.expect(f"again, {what}: the memo is of this input", same)
        files = sorted(file.name for file in self.cache.iterdir())
        self.checks.expect(f"again, {what}: {files} are in the cache", files == ["data.in.memo", "data.in.scratch"])


def check_edits(checks):
    place, draw = Place(checks, "edits", EXAMPLES / "pair.elf", (EXAMPLES / "pair.in").read_bytes()), checks.random
    place.expect("for the first time", 12, "there was no memo", *ALONE)
    place.expect("without an edit", 0)
    place.data.write_bytes(place.data.read_bytes()[:4096] + b"\x08\0\0\0")
    place.expect("after the edit of README", 4, "", *ALONE)
    for number in range(EDITS):
        data = bytearray(place.data.read_bytes())
        data[draw.choice([0, 1, 4096, 4099])] = draw.randrange(256)
        place.data.write_bytes(data + bytes(draw.randrange(3)))
        place.expect(f"after edit {number}")
    place.data.write_bytes(b"")
    place.expect("on an empty input")
    given = str(checks.file("piped", b"\3".ljust(4096, b"\0") + b"\2\0\0\0"))
    piped = ran_whole("bash", "-c", 'cat "$1" | "$2" "$3" /dev/stdin', "bash", given, str(TOOL), str(place.guest))
    checks.expect(f"again, on what a pipe gives: {piped}", piped[:2] == (0, bytes([5, 0, 0, 0])))
    (place.cache / "stdin.memo").unlink()
    (place.cache / "stdin.scratch").unlink()
    place.expect("with a step limit", 0, "", "--", "--steps=12")
    with open(place.memo, "rb") as memo:
        checks.expect("again, with a step limit: it is the memo's", memos.head(memo).steps == 12)
    place.expect("without one", 0)
    shutil.copy(EXAMPLES / "bytes.elf", place.guest)
    place.expect("with another program", 8, "the program has changed")
    place.data.write_bytes(b"\1" * MOST_INPUT)
    place.expect("after too many edits", 8, "more of the input has changed than an edit list holds")


def check_damage(checks):
    place = Place(checks, "damage", EXAMPLES / "pair.elf", (EXAMPLES / "pair.in").read_bytes())
    place.expect("before any damage", 12, "there was no memo")
    whole = place.memo.read_bytes()
    at = len(whole) // 2
    for what, data, word in (("that is empty", b"", "Short"), ("that is cut at its head", whole[:9], "Short"),
                             ("that is cut", whole[:-1], "Digest"), ("that is cut in its version", whole[:5], "Short"),
                             ("that is cut in its executable", whole[:99], "Digest"),
                             ("of a later version", whole[:4] + b"\x09" + whole[5:], "Version 9"),
                             ("with another byte of the executable", whole[:100] + bytes([whole[100] ^ 1]) + whole[101:],
                              "Digest"),
                             ("with another byte", whole[:at] + bytes([whole[at] ^ 1]) + whole[at + 1:], "Digest")):
        place.memo.write_bytes(data)
        place.expect(f"with a memo {what}", 12, f"{place.memo} is refused: {word}")
        place.expect(f"after a memo {what}", 0)
    (place.cache / "data.in.scratch").write_bytes(b"{}")
    status, _, counts, errors = again(place.guest, place.data)
    checks.expect(f"again, without the seconds of the run from scratch: {errors}",
                  status == 0 and counts == (12, 0, "") and "from scratch isn't known" in errors)
    place.memo.unlink()
    place.memo.mkdir()
    status, _, counts, errors = again(place.guest, place.data)
    checks.expect(f"again, with a folder in the memo's place: {status} {errors}",
                  status == 0 and errors.count(str(place.memo)) == 2 and counts and counts[1] == 12)


def check_limits(checks):
    place = Place(checks, "limits", EXAMPLES / "guest/words.elf", b"a" * 131_072)
    status, printed, counts, errors = again(place.guest, place.data)
    largest = "a limit was reached, so it ran again with --fuel 16777216 --steps 65536"
    right = status == 0 and printed and counts and counts[2].endswith(largest)
    checks.expect(f"again, where a step is long: {status} {errors}", right)
    place.data.write_bytes(b"a" * 131_071 + b" ")
    status, printed, counts, errors = again(place.guest, place.data)
    right = status == 0 and printed and counts and not counts[2]
    checks.expect(f"again, where a step was long: {status} {errors}", right)
    status, printed, counts, errors = again(place.guest, place.data, "--", "--fuel", "1000")
    checks.expect(f"again, where the fuel is given: {status} {errors}", status == 213 and "as --fuel allows" in errors)
    place = Place(checks, "steps", EXAMPLES / "pair.elf", (EXAMPLES / "pair.in").read_bytes())
    place.expect("before a step limit", 12, "there was no memo")
    status, printed, counts, errors = again(place.guest, place.data, "--", "--steps", "5")
    right = status == 213 and counts and counts[:2] == (5, 0) and "as --steps allows" in errors
    checks.expect(f"again, with a step limit that is reached: {status} {errors}", right)
    place.expect("after it", 7, "a limit was reached, so it ran again with")


def check_price(checks):
    """A rerun that is said to take longer than from scratch, and one whose input has another length than was timed."""
    place = Place(checks, "price", EXAMPLES / "pair.elf", (EXAMPLES / "pair.in").read_bytes())
    place.expect("before its price is looked at", 12, "there was no memo")
    scratch = place.cache / "data.in.scratch"
    known = {**json.loads(scratch.read_bytes()), "seconds": -1}
    length, size = place.data.stat().st_size, place.memo.stat().st_size
    for timed, edited, wanted in ((length, False, f"a memo of {size:,} bytes was read"),
                                  (length, True, f"a memo of {size:,} bytes was read, and one of "),
                                  (2 * length + 1, False, None)):
        scratch.write_text(json.dumps({**known, "input": timed}))
        if edited:
            place.data.write_bytes(b"\7" + place.data.read_bytes()[1:])
        status, _, _, errors = again(place.guest, place.data)
        right = (errors.endswith("; from scratch isn't known\n") if wanted is None else
                 f"that is longer than from scratch: {wanted}" in errors)
        checks.expect(f"again, timed with {timed} bytes: {errors}", status == 0 and right)


def check_largest(checks):
    """What may help where a step spends the largest fuel."""
    if not (shutil.which("clang") and shutil.which("ld.lld")):
        print("skipped: a step without an end, since there is no clang with lld")
        return
    folder = checks.folder / "again largest"
    folder.mkdir()
    (folder / "spins.c").write_text('#include "ithreads.h"\nstatic volatile int flag;\n'
                                        "int main(void) { while (!flag) {} return 0; }\n")
    for words, wanted in (((), 'no fuel is larger: try --build "--march rv32im", or a call in that step'),
                          (("--build", "--march rv32im"), "no fuel is larger: try a call in that step"),
                          (("--", "--fuel", "1000"), None)):
        status, _, _, errors = again(folder / "spins.c", EXAMPLES / "empty", *words)
        right = wanted in errors if wanted else "no fuel is larger" not in errors
        checks.expect(f"again, with a step without an end, {words}: {status} {errors}", status == 213 and right)


def check_terminal(checks):
    """What is shown of a program that takes two seconds: what stands in the place of ithreads waits so long."""
    folder = checks.folder / "again terminal"
    shutil.copytree(ROOT / "tools", folder / "tools")
    (folder / "ithreads").write_text(f'#!/bin/sh\nsleep 2\nexec {ROOT / "ithreads"} "$@"\n')
    (folder / "ithreads").chmod(0o755)
    shutil.copy(EXAMPLES / "hi.elf", folder)
    for shown in ("runs from scratch, 1 s", "executes what the change reaches; from scratch took 2."):
        status, printed, errors = on_terminal(folder / "tools/again", folder / "hi.elf", EXAMPLES / "empty")
        line = errors.rpartition("\r\x1b[K")[2].rstrip("\r\n") + "\n"
        right = (status, printed) == (0, b"hi\n") and f"\rtools/again: {shown}" in errors and LINE.fullmatch(line)
        checks.expect(f"again on a terminal: {status} {printed} {errors!r}", right)
        status, printed, errors = ran_whole(folder / "tools/again", folder / "hi.elf", EXAMPLES / "empty")
        checks.expect(f"again on none: {errors!r}", (status, printed) == (0, b"hi\n") and "\r" not in errors)


def check_statuses(checks):
    folder = checks.folder / "again statuses"
    folder.mkdir()
    for name in ("trap.elf", "cross.elf", "hi.elf", "perm.elf", "empty"):
        shutil.copy(EXAMPLES / name, folder)
    (folder / ".perm.elf.again").write_bytes(b"")
    empty = folder / "empty"
    for words, wanted, begun in (
            (("trap.elf", empty), 211, "ended by trap 0 0001000c 4: thread 0, at 0x1000c: a load"),
            (("cross.elf", empty, *ALONE), 212, "ended by deadlock"),
            (("hi.elf", empty, "--", "--fuel", "4"), 213, "as --fuel allows"),
            (("hi.elf", empty, "--", "--steps", "x"), 202, "status 2"), (("hi.elf",), 202, "usage"),
            (("hi.elf", empty, "--fuel", "5"), 202, "; write the options of `ithreads run` at the end, after `--`"),
            (("hi.elf", empty, "--memo", "x"), 202, "usage"), (("hi.elf", empty, "--", "--memo", "x"), 202, "usage"),
            (("hi.elf", checks.file("large", bytes(MOST_INPUT + 1))), 209, "large has more than 1,048,576 bytes"),
            (("hi.elf", empty, "--build", "-DX"), 202, "usage"),
            (("hi.elf", folder / "none"), 206, "none can't be read"), (("none.c", empty), 206, "none.c can't be read"),
            (("empty", empty), 203, "status 3: the executable is refused"), (("hi.elf", folder), 206, "can't be read"),
            (("perm.elf", empty), 207, ".perm.elf.again can't be written")):
        status, _, _, errors = again(folder / words[0], *words[1:])
        checks.expect(f"again {words}: {status} {errors}", status == wanted and begun in errors)
    checks.expect("again keeps nothing of what isn't run", not (folder / ".empty.again").exists())
    with open("/dev/full", "wb") as full:
        done = subprocess.run([TOOL, folder / "hi.elf", empty], stdin=subprocess.DEVNULL, stdout=full,
                              stderr=subprocess.PIPE, check=False)
    checks.expect(f"again, where nothing can be printed: {done.stderr}", done.returncode == 207)


def check_headers(checks):
    """Which files a C file includes, and whether that takes the C library."""
    for number, (files, with_library) in enumerate(HEADERS):
        folder = checks.folder / f"again headers {number}"
        for name, text in files.items():
            (folder / name).parent.mkdir(parents=True, exist_ok=True)
            (folder / name).write_text(text)
        for words, wanted in (([], with_library), (["--no-libc", "-DX"], False), (["--libc"], False)):
            found = building.Building(folder / "a.c", words)
            checks.expect(f"of {files}, {words}: --libc is added, {wanted}, and all files are found",
                          bool(found.options) == wanted and len(found.files) == len(files)
                          and "--no-libc" not in found.words)


class Source:
    """A folder with a C file, which returns the number that a header or a word has."""

    def __init__(self, checks):
        self.checks, self.folder = checks, checks.folder / "again building"
        shutil.rmtree(self.folder, ignore_errors=True)
        self.folder.mkdir()
        self.file, self.header, self.data = (self.folder / name for name in ("code.c", "code.h", "data.in"))
        self.cache = self.folder / ".code.c.again"
        self.file.write_text(SOURCE)
        self.header.write_text("#ifndef CODE\n#define CODE 1\n#endif\n")
        self.data.write_bytes(b"text")

    def executables(self):
        return {file.stat().st_ino for file in self.cache.glob("guest*.elf")}

    def expect(self, what, wanted, is_built, *words):
        """One call, with a status, which builds the guest or doesn't."""
        before = self.executables()
        status, printed, _, errors = again(self.file, self.data, *words)
        right = status == wanted and printed == (b"text" if wanted < 200 else b"")
        right = right and bool(self.executables() - before) == is_built
        self.checks.expect(f"again, {what}: {status} {errors}", right)


def check_building(checks):
    if not (shutil.which("clang") and shutil.which("ld.lld")):
        print("skipped: building by tools/again, since there is no clang with lld")
        return
    source = Source(checks)
    source.expect("where nothing is built", 1, True)
    os.utime(source.file)
    source.expect("where nothing has changed", 1, False)
    source.header.write_text(source.header.read_text().replace("1", "2"))
    source.expect("where a header has changed", 2, True)
    source.expect("where the words are others", 3, True, "--build", "-DCODE=3 --march rv32im")
    source.expect("with one word that begins with a dash", 4, True, "--build", "-DCODE=4")
    source.expect("with the words that were before", 3, False, "--build", "-DCODE=3 --march rv32im")
    source.expect("without words again", 2, False)
    checks.expect("again keeps a guest and a memo for each of the words",
                  [len(list(source.cache.glob(name))) for name in ("guest*", "built*", "*.memo")] == [3, 3, 3])
    check_mended(source)


def check_mended(source):
    """What is damaged is built anew; what the compiler refuses leaves what was there."""
    executable = source.cache / "guest.elf"
    executable.write_bytes(executable.read_bytes()[:-1])
    source.expect("where the executable is damaged", 2, True)
    source.file.write_text("no C\n" + SOURCE)
    source.expect("where the compiler refuses it", 214, False)
    source.file.write_text(SOURCE)
    source.expect("where it is as before", 2, False)
    (source.cache / "built").write_bytes(b"\xff")
    source.expect("where the notes are damaged", 2, True)


def check_other_words(checks):
    """Calls by other words, side by side, each of which runs its own program."""
    if not (shutil.which("clang") and shutil.which("ld.lld")):
        return
    source = Source(checks)
    for turn in range(3):
        started = [subprocess.Popen([TOOL, source.file, source.data, "--build", f"-DCODE={code} -DTURN={turn}"],
                                    stdin=subprocess.DEVNULL, stdout=subprocess.DEVNULL, stderr=subprocess.DEVNULL)
                   for code in (5, 6, 7)]
        ends = [one.wait(SECONDS) for one in started]
        checks.expect(f"again, by three words at once, {turn}: {ends}", ends == [5, 6, 7])


def check_killed(checks):
    place, draw = Place(checks, "killed", EXAMPLES / "pair.elf", (EXAMPLES / "pair.in").read_bytes()), checks.random
    for _ in range(KILLED):
        place.data.write_bytes(bytes([draw.randrange(256)]) + place.data.read_bytes()[1:])
        how = draw.choice([signal.SIGINT, signal.SIGTERM, signal.SIGKILL])
        started = subprocess.Popen([TOOL, place.guest, place.data], stdin=subprocess.DEVNULL, stdout=subprocess.DEVNULL,
                                   stderr=subprocess.DEVNULL)
        time.sleep(draw.random() * 0.3)
        started.send_signal(how)
        status = started.wait(SECONDS)
        ends = 0, -how, {signal.SIGINT: 130, signal.SIGTERM: 143}.get(how), 1  # that of Python, where it only starts
        checks.expect(f"again, ended by {how.name}: {status}", status in ends)
        status, printed, counts, errors = again(place.guest, place.data)
        wanted = (place.data.read_bytes()[0] + place.data.read_bytes()[4096]).to_bytes(4, "little")
        right = (status, printed) == (0, wanted) and counts
        checks.expect(f"again, after {how.name}: {status} {printed} {errors}", right)
        checks.expect(f"again, after {how.name}: nothing is left", not list(place.cache.glob("part.*")))


def check_at_once(checks):
    """Inputs of one name in several folders, which share a memo."""
    place = Place(checks, "at once", EXAMPLES / "pair.elf", (EXAMPLES / "pair.in").read_bytes())
    inputs = []
    for number in range(4):
        (place.folder / str(number)).mkdir()
        inputs.append(place.folder / str(number) / "data.in")
        inputs[-1].write_bytes(bytes([number + 1]) + bytes(4099))
    for turn in range(3):
        started = [subprocess.Popen([TOOL, place.guest, data], stdin=subprocess.DEVNULL, stdout=subprocess.PIPE,
                                    stderr=subprocess.PIPE) for data in inputs]
        for number, one in enumerate(started):
            printed, errors = one.communicate(timeout=SECONDS)
            checks.expect(f"again, {number} of four at once, {turn}: {one.returncode} {errors}",
                          one.returncode == 0 and printed == bytes([number + 1, 0, 0, 0]))


def lines_until(file, count):
    """So many lines of a file that is written; fewer where that takes too long."""
    end = time.monotonic() + SECONDS
    while (lines := file.read_bytes().split(b"\n")[:-1])[count - 1:] == [] and time.monotonic() < end:
        time.sleep(0.02)
    return lines


def check_watch(checks):
    place = Place(checks, "watch", EXAMPLES / "pair.elf", (EXAMPLES / "pair.in").read_bytes())
    printed, errors = checks.folder / "watched", checks.folder / "again errors"
    with open(printed, "wb") as stdout, open(errors, "wb") as stderr:
        words = [TOOL, "--watch", place.guest, place.data, *ALONE]
        started = subprocess.Popen(words, stdin=subprocess.DEVNULL, stdout=stdout, stderr=stderr)
        first = lines_until(errors, 1)
        place.data.write_bytes((EXAMPLES / "pair.in").read_bytes()[:4096] + b"\x08\0\0\0")
        second = lines_until(errors, 2)
        place.data.rename(place.folder / "away")
        third = lines_until(errors, 3)
        (place.folder / "away").rename(place.data)
        fourth = lines_until(errors, 4)
        started.terminate()
        status = started.wait(SECONDS)
    counts = [b"there was no memo", b" 8 steps reused, 4 executed", b"can't be read", b" 12 steps reused, 0 executed"]
    right = len(fourth) == 4 and all(count in line for count, line in zip(counts, fourth))
    checks.expect(f"again --watch: {status} {fourth}", right and status == 143 and [first, second, third] == [
        fourth[:1], fourth[:2], fourth[:3]])
    totals = [int.from_bytes(printed.read_bytes()[at:at + 4], "little") for at in (0, 4, 8)]
    checks.expect(f"again --watch puts out what each run does: {totals}", totals == [12, 13, 13])


def check(checks):
    check_edits(checks)
    check_damage(checks)
    check_limits(checks)
    check_price(checks)
    check_largest(checks)
    check_terminal(checks)
    check_statuses(checks)
    check_headers(checks)
    check_building(checks)
    check_other_words(checks)
    check_killed(checks)
    check_at_once(checks)
    check_watch(checks)
