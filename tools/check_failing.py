"""Checks what the tools do where the system fails them, or a signal ends them.

  - If standard output is full or closed, or takes a part alone, each says so and ends with its status for that, also
    where Python writes to it without a buffer. So it does if standard input is closed, or the program isn't built.
  - SIGINT and SIGTERM end each with 130 and 143, without a traceback; its folder and the program go, too.
  - A word may name standard input, or what a shell gives by `<(..)`; names may have bytes that are no UTF-8.
"""
import os
import shutil
import signal
import subprocess
import time

from checking import EXAMPLES, ROOT, SECONDS, has_ended, program, ran_whole

PAIR = [EXAMPLES / f"pair.{word}" for word in ("elf", "in", "edits")]
SPINS = "#!/bin/sh\necho $$ >{}\nexec sleep 60\n"  # in place of the program
NOT_BUILT = "#!/bin/sh\nexit 125\n"


class Place:
    """A folder with reports and a memo of pair.elf, and with copies of the tools beside another program."""

    def __init__(self, checks):
        self.checks, self.folder = checks, checks.folder / "failing"
        self.folder.mkdir()
        self.reports, self.memo, self.pid = (self.folder / name for name in ("reports", "memo", "pid"))
        self.temporary = self.folder / "temporary"
        self.temporary.mkdir()
        self.reports.write_bytes(program("run", *PAIR, "--workers", "1", "--memo", self.memo)[1])
        program("run", *PAIR[:2], "--workers", "1", "--memo", self.memo)
        shutil.copy(EXAMPLES / "hi.elf", self.folder)
        (self.folder / "other").mkdir()
        shutil.copytree(ROOT / "tools", self.folder / "other/tools")

    def put(self, text):
        """Makes another program."""
        (self.folder / "other/ithreads").write_text(text)
        (self.folder / "other/ithreads").chmod(0o755)

    def run(self, line, *words, **more):
        """What a line of bash does with words."""
        return ran_whole("bash", "-c", line, "bash", *map(str, words), env={**os.environ, **more})

    def expect(self, what, got, status, *parts):
        """A status, and parts of standard error, which has no traceback."""
        right = got[0] == status and all(part in got[2] for part in parts) and "Traceback" not in got[2]
        self.checks.expect(f"{what}: {got[0]} {got[1][-60:]} {got[2]}", right)

    def calls(self):
        """Tools with words, by which each prints something, and the status where that fails."""
        empty = EXAMPLES / "empty"
        yield from ((2, *words) for words in (
            ("report", self.reports), ("schedule", self.reports, 0), ("edits", *PAIR[:2]),
            ("check-edits", PAIR[2], 5000), ("verify", *PAIR, self.reports), ("memo", self.memo),
            ("why", self.memo, PAIR[2]), ("races", self.memo), ("explore", PAIR[0], PAIR[1], "--tries", 3),
            ("explain", "end spent"), ("timeline", self.reports)))
        yield 207, "run", self.folder / "hi.elf", empty
        yield 207, "again", self.folder / "hi.elf", empty


def check_printing(place):
    for status, name, *words in place.calls():
        for line in ('exec "$@" >/dev/full', 'exec "$@" >&-', 'PYTHONUNBUFFERED=1 exec "$@" >/dev/full'):
            place.expect(f"{name}, {line}", place.run(line, ROOT / "tools" / name, *words), status, f"tools/{name}: ")
        got = place.run('exec "$@" --help >/dev/full', ROOT / "tools" / name)
        place.expect(f"{name} --help, without room", got, status, f"tools/{name}: printing failed: ")
    old, long = place.checks.file("none", b""), place.checks.file("long", b"\1" * 100_000)
    cut = place.checks.folder / "cut"
    for more in ({}, {"PYTHONUNBUFFERED": "1"}):
        got = place.run('ulimit -f 1; exec "$1/tools/edits" "$2" "$3" >"$4"', ROOT, old, long, cut, **more)
        place.expect(f"edits, of which a part is printed, {more}", got, 2, "printing failed: File too large")
    got = place.run('ulimit -f 1; exec "$1/tools/again" "$2" "$3"', ROOT, place.folder / "hi.elf", long)
    place.expect("again, where the input can't be written", got, 207, "/input can't be written: File too large")


def check_reading(place):
    for words in (("report", "-"), ("explain",), ("check-edits", "-", "5")):
        got = place.run('exec "$@" <&-', ROOT / "tools" / words[0], *words[1:])
        place.expect(f"{words} without standard input", got, 2, "- can't be read: standard input is closed")
    for line in ('exec "$1/tools/run" "$2" /dev/stdin <"$3"', 'cat "$3" | "$1/tools/run" "$2" /dev/stdin',
                 'exec "$1/tools/run" "$2" <(cat "$3")', 'exec "$1/tools/again" "$4/hi.elf" <(cat "$3")'):
        got = place.run(line, ROOT, PAIR[0], PAIR[1], place.folder)
        wanted = b"hi\n" if "again" in line else bytes([12, 0, 0, 0])
        place.checks.expect(f"{line}: {got}", got[:2] == (0, wanted))
    got = place.run('exec "$1/tools/why" "$2" <(cat "$3")', ROOT, place.memo, PAIR[2])
    place.checks.expect(f"why, with edits from a pipe: {got}", got[0] == 0 and got[1].startswith(b"why 4\n"))
    got = place.run('exec "$1/tools/explore" <(cat "$2") <(cat "$3") --tries 2 --check', ROOT, *PAIR[:2])
    place.checks.expect(f"explore, with files from pipes: {got}", got[0] == 0 and b"replayed: the same" in got[1])


def check_names(place):
    name = os.fsencode(place.folder) + b"/\xff"
    done = ran_whole(ROOT / "tools/edits", *PAIR[:2], "--into", name)
    place.checks.expect(f"edits --into a name that is no UTF-8: {done}", done == (0, name + b".1.edits\n", ""))
    for given, words in ((b"", (b"read " + name,)), (b"read " + name + b"\n", ())):
        done = subprocess.run([ROOT / "tools/explain", *words], input=given, capture_output=True, check=False)
        right = done.returncode == 0 and b"there is no file " + name in done.stdout
        place.checks.expect(f"explain a line with such a name: {done}", right)


def check_numbers(place):
    """Numbers of more digits than Python takes."""
    large = b"9" * 5000
    for name, data in (("--why", b"why 4\nstep %b thread 0 number 0 none\n"),
                       ("--races", b"races 1\nrace 0 %b page 00010000 rw\n"),
                       ("--trace", b"step %b thread 0 number 0 count 3 exit(0) ends the run\nend exit 0\n")):
        file = place.checks.file("large", data % large)
        got = place.run('exec "$@"', ROOT / "tools/timeline", place.reports, name, file)
        place.expect(f"timeline {name}, with a large number", got, 1, "expected ")
    for line in (b"edits a line %b: BadLine" % large, b"edits a\0b line 1: BadLine", b"too large a\0b"):
        done = subprocess.run([ROOT / "tools/explain"], input=line, capture_output=True, check=False)
        checked = done.returncode == (1 if large in line else 0) and b"Traceback" not in done.stderr
        place.checks.expect(f"explain {line[:60]}: {done.returncode} {done.stderr[-60:]}", checked)


def check_unbuilt(place):
    """What the tools do if the program isn't built, and can't be."""
    place.put(NOT_BUILT)
    for status, *words in ((210, "run", *PAIR[:2]), (210, "again", place.folder / "hi.elf", EXAMPLES / "empty"),
                           (2, "verify", *PAIR, place.reports), (2, "memo", place.memo, "--audit"),
                           (2, "timeline", place.reports, "--memo", place.memo),
                           (2, "explore", *PAIR[:2], "--tries", 2, "--check")):
        got = place.run('exec "$@"', place.folder / "other/tools" / words[0], *words[1:])
        place.expect(f"{words} without the program", got, status, "125: the program isn't built, and can't be")
    file = place.checks.file("report", b"before")
    place.run('exec "$@"', place.folder / "other/tools/run", *PAIR[:2], "--report", file)
    place.checks.expect("run --report FILE without a report leaves the file", file.read_bytes() == b"before")
    got = place.run('exec "$@" </dev/null', place.folder / "other/tools/memo", "-", "--audit")
    place.expect("memo --audit of standard input", got, 2, "usage")


def ended(place, how, name, words):
    """The status, standard error, and whether the program has ended, of a tool that a signal ends while that runs."""
    place.pid.unlink(missing_ok=True)
    line = [place.folder / "other/tools" / name, *map(str, words)]
    started = subprocess.Popen(line, stdin=subprocess.DEVNULL, stdout=subprocess.DEVNULL, stderr=subprocess.PIPE,
                               env={**os.environ, "TMPDIR": str(place.temporary)})
    begun = time.monotonic()
    while not (place.pid.exists() and place.pid.read_text()) and time.monotonic() - begun < SECONDS:
        time.sleep(0.02)
    started.send_signal(how)
    errors = started.communicate(timeout=SECONDS)[1].decode()
    return started.returncode, errors, has_ended(place.pid.read_text().strip())


def check_signals(place):
    place.put(SPINS.format(place.pid))
    for name, *words in (("run", *PAIR[:2]), ("again", place.folder / "hi.elf", EXAMPLES / "empty"),
                         ("verify", *PAIR, place.reports), ("why", place.memo, PAIR[2]), ("races", place.memo),
                         ("memo", place.memo, "--audit"), ("explore", *PAIR[:2], "--tries", 9, "--check")):
        for how, status in ((signal.SIGINT, 130), (signal.SIGTERM, 143)):
            got = ended(place, how, name, words)
            place.checks.expect(f"{name}, ended by {how.name}: {got}", got == (status, "", True))
            remaining = list(place.temporary.iterdir()) + list(place.folder.glob(".*.again/part.*"))
            place.checks.expect(f"{name}, ended by {how.name}: {remaining} remain", not remaining)


def check_processes(place):
    """Ctrl-C reaches each process of tools/explore."""
    words = [ROOT / "tools/explore", EXAMPLES / "guest/kmeans.elf", EXAMPLES / "guest/kmeans.in", "--jobs", "2"]
    for how, status in ((signal.SIGINT, 130), (signal.SIGTERM, 143)):
        started = subprocess.Popen(words, stdin=subprocess.DEVNULL, stdout=subprocess.DEVNULL, stderr=subprocess.PIPE,
                                   start_new_session=True)
        time.sleep(2)
        os.killpg(started.pid, how)
        errors = started.communicate(timeout=SECONDS)[1].decode()
        place.checks.expect(f"explore and its processes, ended by {how.name}: {started.returncode} {errors}",
                            started.returncode == status and "Traceback" not in errors)


def check(checks):
    place = Place(checks)
    check_printing(place)
    check_reading(place)
    check_names(place)
    check_numbers(place)
    check_unbuilt(place)
    check_signals(place)
    check_processes(place)
