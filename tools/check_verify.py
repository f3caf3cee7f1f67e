"""Checks `tools/schedule` and `tools/verify`.

  - Rounds of guests of examples/ and reruns of their memos, by one worker and by four, are the same as their replays.
  - Of two rounds one is falsified in each thing that a replay can detect: that one differs, in what was falsified, and
    the other one is the same. So does a round on another input, or with another fuel.
  - `tools/schedule` gives each round's schedule, which `replay` and no other round takes for the same.
  - Wrong words, files and numbers of lists have status 2, a line that says so, and no verdict.
  - Lines of a program that is being built go on to standard error, and its own lines don't.
"""
import contextlib
import io

import running
from checking import EXAMPLES, program, ran_whole, ROOT, tool

# A guest, its input, lists of edits, and options.
RUNS = [
    ("hi.elf", "empty", [], []),
    ("hi.elf", "empty", [], ["--fuel", "4"]),
    ("hi.elf", "empty", [], ["--steps", "1"]),
    ("pair.elf", "pair.in", ["pair.edits", "pair.edits"], []),
    ("bytes.elf", "empty", [], []),
    ("late.elf", "empty", [], []),
    ("cross.elf", "empty", [], []),
    ("trap.elf", "empty", [], []),
    ("perm.elf", "empty", [], []),
    ("self.elf", "empty", [], []),
    ("try.elf", "pair.in", ["pair.edits"], []),
    ("length.elf", "pair.in", ["pair.edits"], []),
    ("guest/steps/first.elf", "pair.in", ["pair.edits"], []),
]

EDITED = b"\5".ljust(4096, b"\0") + b"\x08\0\0\0"  # what pair.edits makes of pair.in

# A round of the two of pair.elf, the line of it that is falsified, its new text, and what the verdict begins with.
FALSE = [
    (0, b"end exit 0", b"end exit 1", "end is exit 1, and replayed exit 0"),
    (1, b"end exit 0", b"end deadlock", "end is deadlock, and replayed exit 0"),
    (0, b"end exit 0", b"end trap 1 00010000 2", "end is trap 1 00010000 2, and replayed exit 0"),
    (0, b"instructions 51", b"instructions 52", "instructions is 52, and replayed 51"),
    (0, b"instructions 51", b"instructions 50", "instructions is 50, and replayed 51"),
    (1, b"instructions 18", b"instructions 44", "instructions is 44, and by the replay it has to be 4 to 43"),
    (1, b"instructions 18", b"instructions 3", "instructions is 3, and by the replay it has to be 4 to 43"),
    (0, b"output 4\n\x0c\0\0\0", b"output 4\n\x0c\0\1\0", "output is 4 bytes 0c000100, and replayed 4 bytes 0c000000: "
        "it differs from byte 2 on"),
    (1, b"output 4\n\x0d\0\0\0", b"output 3\n\x0d\0\0", "output is 3 bytes 0d0000, and replayed 4 bytes 0d000000: it "
        "differs from byte 3 on"),
    (1, b"output 4\n\x0d\0\0\0", b"output 5\n\x0d\0\0\0\0", "output is 5 bytes 0d00000000, and replayed 4 bytes "),
    (0, b"2+ 1+ 2+ 0+ 1+ 2+ 0+", b"2+ 2+ 1+ 0+ 1+ 2+ 0+", "schedule: entry 4"),
    (1, b"schedule 0= 1= 0=", b"schedule 1= 0= 0=", "schedule: entry 0"),
    (1, b"0+ 0=\nmemory", b"0+ 1=\nmemory", "schedule: entry 11"),
]


def files(*names):
    return [EXAMPLES / name for name in names]


def verdict(status, printed):
    """The status, and the lines."""
    return status, printed.decode().splitlines()


def all_the_same(first, count):
    return 0, [*(f"round {number}: the same" for number in range(first, first + count)), f"0 of {count} rounds differ"]


def check_made(checks, what, words, report, wanted):
    """The reports are as their replays."""
    status, printed, errors = tool("verify", *words, checks.file("reports", report))
    checks.expect(f"{what}: {status} {printed} {errors}", verdict(status, printed) == wanted)


def check_run(checks, run, workers):
    elf, data, lists, options = run
    guest, lists, memo = files(elf, data), files(*lists), checks.folder / "memo"
    what = f"{elf} {' '.join(options)} with {workers} workers"
    _, printed, _ = program("run", *guest, *lists, *options, "--workers", workers, "--memo", memo)
    check_made(checks, what, [*guest, *lists, *options], printed, all_the_same(0, len(lists) + 1))
    guest[1] = checks.file("edited", EDITED) if lists else guest[1]
    for more in [[], lists] if lists else [[]]:
        _, printed, _ = program("rerun", memo, *more, "--workers", workers)
        check_made(checks, f"{what}, rerun by {len(more)} lists", [*guest, *more, *options], printed,
                   all_the_same(1, max(1, len(more))))


def falsified(report, number, old, new):
    """The reports with one thing in a round that isn't true."""
    at = report.find(b"\nround 1\n") * number
    place = report.find(old, at)
    return report[:place] + new + report[place + len(old):]


def another_digest(report, number):
    """The reports with another digit in the digest of a round."""
    place = report.find(b"\nmemory ", report.find(b"\nround 1\n") * number) + 8
    digit = b"1" if report[place:place + 1] == b"0" else b"0"
    return report[:place] + digit + report[place + 1:]


def check_false(checks):
    words = files("pair.elf", "pair.in", "pair.edits")
    _, report, _ = program("run", *words, "--workers", "1")
    cases = [(number, new, falsified(report, number, old, new), wanted) for number, old, new, wanted in FALSE]
    cases += [(number, b"a digit of the digest", another_digest(report, number), "memory is ") for number in (0, 1)]
    for number, what, data, wanted in cases:
        status, printed, errors = tool("verify", *words, checks.file("reports", data))
        lines = verdict(status, printed)[1]
        right = (status == 1 and len(lines) == 3 and lines[number].startswith(f"round {number}: {wanted}")
                 and lines[1 - number] == f"round {1 - number}: the same" and lines[2] == "1 of 2 rounds differ")
        checks.expect(f"round {number} with {what}: {status} {lines} {errors}", right)
    checks.expect("each false report is another", all(data != report for _, _, data, _ in cases))


def check_other_words(checks):
    """Another input, another list, or other limits than those of the reports."""
    pair, other = files("pair.elf", "pair.in", "pair.edits"), checks.file("other", b"\6".ljust(4100, b"\0"))
    _, report, _ = program("run", *pair, "--workers", "1")
    report = checks.file("reports", report)
    for what, words, wanted in (
            ("another input", [pair[0], other, pair[2]], ["memory is ", "memory is "]),
            ("another list", [*pair[:2], checks.file("list", b"set 4096 09\n")], ["the same", "memory is "]),
            ("less fuel", [*pair, "--fuel", "6"], ["schedule: entry 5", "schedule: entry 5"]),
            ("fewer steps", [*pair, "--steps", "12"], ["the same", "the same"]),
            ("too few steps", [*pair, "--steps", "11"], ["schedule: entry 11", "schedule: entry 11"])):
        status, printed, errors = tool("verify", *words, report)
        lines = verdict(status, printed)[1]
        begin = [line.startswith(f"round {k}: {begun}") for k, (line, begun) in enumerate(zip(lines, wanted))]
        right = status == int(wanted[1] != "the same") and len(lines) == 3 and all(begin)
        checks.expect(f"{what}: {status} {lines} {errors}", right)


def check_refused(checks):
    pair = files("pair.elf", "pair.in", "pair.edits")
    _, printed, _ = program("run", *pair, "--workers", "1")
    report, cut = checks.file("reports", printed), checks.file("cut", printed[:99])
    bad, far = checks.file("bad", b"set 0\n"), checks.file("far", b"\nset 5000 00\n")
    for what, words, begun in (
            ("no file of reports", [*pair[:2]], "usage"),
            ("too few lists", [*pair[:2], report], "rounds of the reports: 2; inputs by INPUT and the edit lists: 1"),
            ("too many lists", [*pair, pair[2], report], "rounds of the reports: 2; inputs by INPUT and the edit lists: 3"),
            ("a cut file", [*pair, cut], "at byte 99: "),
            ("no such file", [*pair, checks.folder / "none"], "can't be read"),
            ("no such list", [*pair[:2], checks.folder / "none", report], "can't be read"),
            ("a bad list", [*pair[:2], bad, report], "bad line 1: BadLine"),
            ("a list out of range", [*pair[:2], far, report], "far line 2: OutOfRange"),
            ("no executable", [pair[1], *pair[1:], report], "round 0 can't be replayed: status 3: image: "),
            ("a fuel that is none", [*pair, report, "--fuel", "x"], "usage"),
            ("a fuel that is too large", [*pair, report, "--fuel", "16777217"], "round 0 can't be replayed: status 2")):
        status, printed, errors = tool("verify", *words)
        checks.expect(f"verify with {what}: {status} {printed} {errors}",
                      status == 2 and not printed and begun in errors)


def check_schedule(checks):
    """Each round's schedule; from a pipe too, as the guide has it."""
    pair = files("pair.elf", "pair.in", "pair.edits")
    for workers in ("1", "4"):
        _, printed, _ = program("run", *pair, "--workers", workers)
        report = checks.file("reports", printed)
        lines = [line[9:] + b"\n" for line in printed.split(b"\n") if line.startswith(b"schedule ")]
        for number, line in enumerate(lines):
            got = tool("schedule", report, number)
            checks.expect(f"the schedule of round {number} with {workers} workers: {got}", got == (0, line, ""))
            status, _, errors = program("replay", *pair[:2], checks.file("sched", line))
            checks.expect(f"it is replayed: {status} {errors}", status == 0)
    piped = ran_whole("bash", "-c", f"{ROOT}/tools/schedule - 1 <{report}")
    checks.expect(f"the schedule of standard input: {piped}", piped == (0, lines[1], ""))
    for words, wanted in (((report,), 2), ((report, "2"), 1), ((report, "x"), 2), ((checks.folder / "none", "0"), 2),
                          ((ROOT / "README.md", "0"), 1)):
        status, printed, errors = tool("schedule", *words)
        checks.expect(f"schedule {words}: {status} {errors}", status == wanted and not printed and errors)


def check_building(checks):
    script = "echo 'trace: proved one (1 of 2)' >&2; echo 'trace of one' >&2; echo printed; exit 3"
    with contextlib.redirect_stderr(io.StringIO()) as passed_on:
        done = running.ran("sh", "-c", script)
    right = done == running.Ran(3, b"printed\n", ["trace of one"])
    checks.expect(f"the lines of a build are passed on: {done} {passed_on.getvalue()}",
                  right and passed_on.getvalue() == "trace: proved one (1 of 2)\n")


def check(checks):
    check_building(checks)
    for run in RUNS:
        for workers in ("1", "4"):
            check_run(checks, run, workers)
    check_false(checks)
    check_other_words(checks)
    check_refused(checks)
    check_schedule(checks)
