"""Checks `tools/report` and `tools/run`.

  - Reports are written here, with numbers and outputs that are drawn; some outputs look like reports, some are no text.
    `tools/report` says of each what it was made of, and with `--output` gives the very bytes.
  - Such a report is cut at each of its bytes: it is refused, and the byte that is named is where it was cut. In copies
    another byte stands somewhere: refused, at no earlier line; or what it is read as is the copy's text.
  - Of guests of examples/ the ends, counts and outputs are those of examples/README.md, README.md and of arithmetic.
  - `tools/run` gives each guest's output alone, and its exit code or the status of its --help. The reports go where it
    says, byte for byte those of `ithreads run`, and nothing that a guest puts out goes to standard error.
"""
import json
import subprocess

import reports
from checking import EXAMPLES, ROOT, on_terminal, program, ran_whole, tool

DRAWN = 30  # files of reports
CHANGED = 3000  # copies of one with another byte
TRICKY = [b"", b"\n", b"hi\n", b"\0\xff\xfe", b"output 3\nhi\n\n", b"\nround 1\nend exit 0\nsteps 1\n", b"\xed\xa0\x80",
          "Gr\u00fc\u00dfe \U0001f600\n".encode(), b"tools/run: round 0 ended by trap 0 00010000 2\n"]
REPORT = f"""
round 0
end exit 0
steps 2
reused 0
executed 2
instructions 8
by 2
schedule 0+ 0+
memory {'0' * 64}
output 3
hi

"""[1:]

# A line of it, another, and the first byte of that which can't stand there: where a number is wrong, its first.
REFUSED = [
    ("round 0", "round 2", 6), ("round 0", "round", 5), ("round 0", "Round 0", 0), ("end exit 0", "end", 3),
    ("end exit 0", "end exit 00", 10), ("end exit 0", "end exit -1", 9), ("end exit 0", "end exit 4294967296", 9),
    ("end exit 0", "end halt", 4), ("end exit 0", "end exist", 7), ("end exit 0", "end spent 0", 9),
    ("end exit 0", "end trap 32 00010000 2", 9), ("end exit 0", "end trap 0 0001000 2", 18),
    ("end exit 0", "end trap 0 0001000C 2", 18), ("end exit 0", "end trap 0 00010000 9", 20),
    ("end exit 0", "end trap 0 000100000 2", 19), ("end exit 0", "end deadlock ", 12),
    ("steps 2", "steps 0", 6), ("steps 2", "steps 65537", 6), ("steps 2", "steps 02", 7), ("reused 0", "reused 3", 7),
    ("reused 0", "reused 0 ", 8), ("executed 2", "executed 1", 9), ("executed 2", "executed", 8),
    ("executed 2", "executed 2\nreached 65537", 19), ("executed 2", "executed 2\nreached", 18),
    ("executed 2", "executed 2\nreaches 2", 17), ("executed 2", "executed 2\nreached 2\nreached 2", 21),
    ("instructions 8", "instructions x", 13), ("instructions 8", f"instructions {'1' * 5000}", 33), ("by 2", "by 1", 2), ("by 2", "by", 2), ("by 2", "by 2 ", 5),
    ("by 2", "by 2" + " 0" * 16, 2), ("by 2", "by 2\nprogress", 13), ("by 2", "by 2\nprogress 1", 13),
    ("by 2", "by 2\nprogress 2 2", 13), ("by 2", "by 2\nprogress 1 2 3", 13), ("by 2", "by 2\nprogress 02", 15),
    ("by 2", "by 2\nprogress 2\nprogress 2", 16), ("schedule 0+ 0+", "schedule 0+ 0=", 8), ("schedule 0+ 0+", "schedule 0+", 11),
    ("schedule 0+ 0+", "schedule 0+ 0+ 0+", 14), ("schedule 0+ 0+", "schedule 0+ 32+", 13),
    ("schedule 0+ 0+", "schedule 0+  0+", 12), ("schedule 0+ 0+", "schedule 0+ 0", 13),
    ("memory " + "0" * 64, "memory " + "0" * 63, 70), ("memory " + "0" * 64, "memory " + "0" * 65, 71),
    ("memory " + "0" * 64, "memory " + "0" * 63 + "A", 70), ("output 3", "output x", 7)]

# What guests of examples/ end with, of an empty input, and the options for that.
ENDS = [("perm.elf", [], {"kind": "exit", "code": 4294967295}),
        ("trap.elf", [], {"kind": "trap", "thread": 0, "pc": "0001000c", "cause": 4}),
        ("cross.elf", ["--workers", "1"], {"kind": "deadlock"}),
        ("hi.elf", ["--fuel", "4"], {"kind": "spent"})]


# Reports that are made here.


def some_end(draw):
    """An end as the report has it, and as tools/report has to print it."""
    code, thread, cause = draw.choice([0, 1, 255, 2**32 - 1]), draw.randrange(32), draw.randrange(9)
    pc = draw.randrange(2**32)
    return draw.choice([
        (f"exit {code}", {"kind": "exit", "code": code}),
        (f"trap {thread} {pc:08x} {cause}", {"kind": "trap", "thread": thread, "pc": f"{pc:08x}", "cause": cause}),
        ("deadlock", {"kind": "deadlock"}),
        ("spent", {"kind": "spent"})])


def some_round(draw, number):
    """A report, what tools/report has to print of it, and the guest's output."""
    steps, workers = draw.choice([1, 2, 12, 300]), draw.randrange(1, 17)
    schedule = [[draw.randrange(32), draw.choice("=+") if number else "+"] for _ in range(steps)]
    reused = sum(mark == "=" for _, mark in schedule)
    shares = [0] * workers
    for _ in range(steps):
        shares[draw.randrange(workers)] += 1
    line, end = some_end(draw)
    output = draw.choice([*TRICKY, draw.randbytes(5000)])
    fields = {"round": number, "end": end, "steps": steps, "reused": reused, "executed": steps - reused, "by": shares,
              "instructions": draw.randrange(10**12), "schedule": schedule, "memory": draw.randbytes(32).hex()}
    if draw.randrange(2):
        fields["reached"] = draw.choice([0, steps, 65_536])
    if draw.randrange(2):
        fields["progress"] = [*sorted(draw.sample(range(steps), min(steps, draw.choice([0, 1, 5])))), steps]
    return report_of(fields, line, output), fields, output


def report_of(fields, end, output):
    """The bytes of a report: the lines of docs/FORMATS.md, the output, and a newline."""
    entries = " ".join(f"{thread}{mark}" for thread, mark in fields["schedule"])
    words = ("steps", "reused", "executed", "reached", "instructions")
    counts = "".join(f"{word} {fields[word]}\n" for word in words if fields.get(word) is not None)
    progress = f"progress {' '.join(map(str, fields['progress']))}\n" if fields.get("progress") else ""
    lines = (f"round {fields['round']}\nend {end}\n{counts}by {' '.join(map(str, fields['by']))}\n"
             f"{progress}schedule {entries}\nmemory {fields['memory']}\noutput {len(output)}\n")
    return lines.encode() + output + b"\n"


def report_again(fields, output):
    """A report made of what the tool printed."""
    return report_of(fields, " ".join(map(str, fields["end"].values())), output)


def output_is(printed, output):
    """Whether the tool prints the bytes: as text where Python's own reading takes them, else in hexadecimal."""
    try:
        wanted = {"length": len(output), "text": output.decode()}
    except UnicodeDecodeError:
        wanted = {"length": len(output), "hex": "".join(f"{byte:02x}" for byte in output)}
    return printed == wanted


def check_drawn(checks, number):
    draw = checks.random
    first = draw.randrange(2)
    made = [some_round(draw, first + k) for k in range(draw.choice([1, 1, 2, 5]))]
    file = checks.file("reports", b"".join(report for report, _, _ in made))
    status, printed, errors = tool("report", file)
    if not checks.expect(f"reports {number} are taken: {errors}", status == 0 and not errors):
        return
    objects = json.loads(printed)
    right = len(objects) == len(made)
    for one, (_, fields, output) in zip(objects, made):
        right = right and output_is(one.pop("output"), output) and one == fields
    checks.expect(f"reports {number}: the objects say what they were made of", right)
    at = draw.randrange(len(made))
    status, printed, errors = tool("report", file, "--output", str(first + at))
    checks.expect(f"reports {number}: the output of round {first + at}: {errors}",
                  status == 0 and printed == made[at][2])


# Reports with damage, which the tools' module reads here, since there are many.


def stop_of(data):
    """The byte at which it is refused; nothing where it is taken."""
    try:
        list(reports.rounds(data))
    except reports.NotReports as why:
        return why.at
    return None


def check_cut(checks):
    made = [some_round(checks.random, number)[0] for number in (0, 1)]
    data, whole = b"".join(made), [len(made[0]), len(made[0]) + len(made[1])]
    wrong = [at for at in range(len(data) + 1) if stop_of(data[:at]) != (None if at in whole else at)]
    checks.expect(f"a file that is cut is refused where it was cut, but at {wrong}", not wrong)
    checks.expect("what stands behind the last report is refused there", stop_of(data + b"\n") == len(data))
    status, printed, errors = tool("report", checks.file("cut", data[:99]))
    checks.expect(f"the tool names the byte: {errors}", status == 1 and not printed and " at byte 99: " in errors)


def is_sound(one):
    """Whether the numbers of a round fit each other, and stand in their ranges."""
    reused = sum(mark == "=" for _, mark in one.schedule)
    end = one.end.get("code", 0) < 2**32 and one.end.get("thread", 0) < 32 and one.end.get("cause", 0) < 9
    counts = (one.steps, one.reused, one.executed) == (len(one.schedule), reused, len(one.schedule) - reused)
    return one.number < 2 and end and counts and sum(one.by) == one.steps and len(one.by) <= 16


def check_changed(checks):
    """Copies with another byte: those that are taken are read as they are, others aren't refused before that line."""
    draw, taken, wrong = checks.random, 0, []
    for _ in range(CHANGED):
        report, _, output = some_round(draw, 1)
        at = draw.randrange(len(report) - len(output) - 1)
        data = report[:at] + bytes([draw.choice(b" \n0123456789abcdefgxRr=+-\0\xff")]) + report[at + 1:]
        stop = stop_of(data)
        if stop is None:
            one = next(reports.rounds(data))
            taken += 1
            right = is_sound(one) and report_again({**vars(one), "round": one.number}, one.output) == data
        else:
            right = report.rfind(b"\n", 0, at) + 1 <= stop <= len(data)
        if not right:
            wrong.append(data)
    what = f"of {CHANGED} copies {taken} are taken, and these wrongly taken or refused: {wrong}"
    checks.expect(what, taken and not wrong)


def check_refused(checks):
    """A report of hi.elf with one line in place of another, and where in the new line it stops being a report."""
    for old, new, column in REFUSED:
        data = REPORT.replace(f"{old}\n", f"{new}\n").encode()
        stop, start = stop_of(data), data.find(f"\n{new}\n".encode()) + 1
        checks.expect(f"`{new}` is refused at {column}, and not at {stop}", stop is not None and stop - start == column)
    checks.expect("the report itself is taken", stop_of(REPORT.encode()) is None)
    for number in (0, 2):
        other = REPORT.replace("round 0", f"round {number}")
        checks.expect(f"round {number} isn't the next one", stop_of((REPORT + other).encode()) == len(REPORT) + 6)


def check_words(checks):
    file = checks.file("reports", some_round(checks.random, 0)[0])
    for words, wanted in (((), 2), ((checks.folder / "none",), 2), ((file, "--output", "x"), 2),
                          ((file, "--output", "1"), 1), ((file, "--output", "-1"), 1), ((ROOT / "README.md",), 1)):
        status, printed, errors = tool("report", *words)
        checks.expect(f"report {words}: {status} {errors}", status == wanted and not printed and errors)


# Guests.


def guest(checks, name, text, code):
    """A guest that puts out a text and exits with a code: examples/hi.elf with others."""
    elf = bytearray((EXAMPLES / "hi.elf").read_bytes()[:-3] + text)
    size = len(elf) - 84  # the segment begins at 84
    length, exits = (len(text) << 20) | 0x593, (code % 4096 << 20) | 0x513  # two of the instructions
    for at, word in ((68, size), (72, size), (84 + 8, length), (84 + 20, exits)):
        elf[at:at + 4] = word.to_bytes(4, "little")
    return checks.file(name, bytes(elf))


def rounds_of_run(checks, *words):
    """The status of a run, what it printed, and what tools/report says of that."""
    status, printed, _ = program("run", *words)
    file = checks.file("reports", printed)
    return status, file, json.loads(tool("report", file)[1] or b"[]")


def check_guests(checks):
    pair = [EXAMPLES / f"pair.{word}" for word in ("elf", "in", "edits")]
    _, file, made = rounds_of_run(checks, *pair, "--workers", "1")
    counts = [[one[word] for word in ("round", "steps", "reused", "executed", "instructions", "by")] for one in made]
    checks.expect("pair.elf: its counts", counts == [[0, 12, 0, 12, 51, [12]], [1, 12, 8, 4, 18, [12]]])
    for number, total in enumerate((12, 13)):
        output = tool("report", file, "--output", number)[1]
        checks.expect(f"pair.elf: its output {number}", output == bytes([total, 0, 0, 0]))
    for name, options, end in ENDS:
        status, _, made = rounds_of_run(checks, EXAMPLES / name, EXAMPLES / "empty", *options)
        kind = [status, *(one["end"] for one in made)]
        checks.expect(f"{name}: its end, {kind}", kind == [0 if end["kind"] == "exit" else 1, end])


# tools/run.


def run(*words):
    return ran_whole(str(ROOT / "tools/run"), *map(str, words))


def lines_of(printed):
    """The lines of some reports without what the guest put out."""
    return b"".join(one.lines for one in reports.rounds(printed)).decode()


def check_run(checks, what, words, status, output, why=""):
    """The tool has that status and output, and on standard error the reports' lines, and behind them why. One worker
    makes the rounds, so that both runs have the same reports."""
    words = (*words, "--workers", "1")
    _, printed, _ = program("run", *words)
    got = run(*words)
    right = got[:2] == (status, output) and got[2].startswith(lines_of(printed))
    rest = got[2][len(lines_of(printed)):]
    right = right and rest.startswith(f"tools/run: {why}" if why else "") and bool(rest) == bool(why)
    checks.expect(f"run {what}: {got[0]}, {rest}", right)
    file = checks.folder / "whole"
    whole = run(*words, "--report", file)
    checks.expect(f"run {what} --report: {whole[0]}, {whole[2]}",
                  whole == (status, output, rest) and file.read_bytes() == printed)


def check_ends(checks):
    empty, pair = EXAMPLES / "empty", [EXAMPLES / f"pair.{word}" for word in ("elf", "in", "edits")]
    for code, status in ((0, 0), (3, 3), (211, 211), (255, 255), (256, 0), (300, 44), (-1, 255)):
        words = (guest(checks, "code.elf", b"code\n", code), empty)
        check_run(checks, f"a guest that exits with {code}", words, status, b"code\n")
    for text in TRICKY:
        check_run(checks, f"a guest that puts out {text}", (guest(checks, "text.elf", text, 7), empty), 7, text)
    check_run(checks, "two rounds", pair, 0, bytes([13, 0, 0, 0]))
    cross, trap, hi = (EXAMPLES / f"{name}.elf" for name in ("cross", "trap", "hi"))
    check_run(checks, "a trap", (trap, empty), 211, b"",
              "round 0 ended by trap 0 0001000c 4: thread 0, at 0x1000c: a load")
    unknown = bytearray(hi.read_bytes())
    unknown[84 + 12:84 + 16] = (0x06300893).to_bytes(4, "little")  # addi a7, x0, 99
    check_run(checks, "an unknown call", (checks.file("unknown.elf", unknown), empty), 211, b"",
              "round 0 ended by trap 0 00010010 8")
    check_run(checks, "a deadlock", (cross, empty), 212, b"", "round 0 ended by deadlock")
    check_run(checks, "fuel", (hi, "--fuel", "4", empty), 213, b"", "round 0 ended by spent: thread 0 executed as many")
    check_run(checks, "steps", (hi, empty, "--steps=1"), 213, b"hi\n", "round 0 ended by spent: it had 1 steps")
    five = checks.file("five", b"set 0 00\n")
    check_run(checks, "a length as code", (EXAMPLES / "length.elf", EXAMPLES / "pair.in", five), 4100 % 256, b"")


def check_workers(checks):
    """Several workers: as many numbers behind `by`, and the output of one worker, where it is the guest's alone."""
    pair = [EXAMPLES / f"pair.{word}" for word in ("elf", "in", "edits")]
    file = checks.folder / "whole"
    for words, count in (([], 4), (["--workers", "2"], 2), (["--workers=16"], 16)):
        got = run(*pair, *words, "--report", file)
        shares = [one.by for one in reports.rounds(file.read_bytes())]
        checks.expect(f"run pair.elf with {count} workers: {got[0]}, {shares}",
                      got == (0, bytes([13, 0, 0, 0]), "") and [len(one) for one in shares] == [count, count])
        made = json.loads(tool("report", file)[1] or b"[]")
        checks.expect(f"report of pair.elf with {count} workers", [one["by"] for one in made] == shares)


def check_terminal(checks):
    """On a terminal the line of a long schedule is cut: pair.elf has 12 steps, and creates.elf 66."""
    for name, more in (("pair", b""), ("creates", b" .. 46 more")):
        words = [EXAMPLES / f"{name}.elf", EXAMPLES / "empty", "--workers", "1"]
        whole = ran_whole(ROOT / "tools/run", *words)[2]
        line = next(line for line in whole.split("\n") if line.startswith("schedule "))
        cut = (" ".join(line.split()[:21]) + more.decode()) if more else line
        got = on_terminal(ROOT / "tools/run", *words)[2].replace("\r\n", "\n")
        checks.expect(f"run {name}.elf on a terminal: {got}", got == whole.replace(line, cut))


def check_failures(checks):
    hi, empty, none = EXAMPLES / "hi.elf", EXAMPLES / "empty", checks.folder / "no folder" / "file"
    bad, long = checks.file("bad", b"size x\n"), checks.file("long", b"\0" * 1_048_577)
    for what, words, status in (
            ("no input", [hi], 202), ("an unknown option", [hi, empty, "--no"], 202),
            ("no number", [hi, empty, "--fuel", "x"], 202), ("a short option", [hi, empty, "--work", "1"], 202),
            ("an option twice", [hi, empty, "--fuel", "5", "--fuel", "5"], 202), ("no executable", [empty, empty], 203),
            ("a bad list", [hi, empty, bad], 205), ("no such file", [hi, none], 206), ("a long input", [hi, long], 209),
            ("a memo that can't be written", [hi, empty, "--memo", none], 207),
            ("reports that can't be written", [hi, empty, "--report", none], 207)):
        got = run(*words)
        last = got[2].rstrip("\n").rpartition("\n")[2]
        checks.expect(f"run with {what}: {got[0]}, {last}", got[:2] == (status, b"") and last.startswith("tools/run: "))
    with open("/dev/full", "wb") as full:
        words = [ROOT / "tools/run", hi, empty]
        done = subprocess.run(words, stdin=subprocess.DEVNULL, stdout=full, stderr=subprocess.PIPE, check=False)
        checks.expect(f"run on a full disk: {done.returncode}, {done.stderr}",
                      done.returncode == 207 and b"\ntools/run: standard output" in done.stderr)


def check(checks):
    for number in range(DRAWN):
        check_drawn(checks, number)
    check_cut(checks)
    check_changed(checks)
    check_refused(checks)
    check_words(checks)
    check_guests(checks)
    check_ends(checks)
    check_workers(checks)
    check_terminal(checks)
    check_failures(checks)
