"""Checks `tools/explore`, and the machine in Python that makes its tries.

  - The machine runs guests of examples/ by the rule of one worker: end, steps, instructions, memory, output and
    schedule are those that `ithreads run` reports. Some have other limits.
  - Each schedule that is printed is one that `ithreads replay` takes, with the same end and output; in a random order
    of guests that are made to order, with the same memory too.
  - The groups hold all tries; where two part, they have the same entries before that, and others there.
  - With --into no older file stays beside those that are written.
  - One seed gives one answer, whatever the number of processes, and another seed another.
  - tools/README.md shows what is found of examples/schedules: a deadlock and a race.
"""
import hashlib
import re
import shutil

import machine
import reports
from checking import EXAMPLES, ROOT, program, ran_whole, tool

# Executable, input, fuel and steps.
RUNS = [("hi", "empty", 1_000_000, 4096), ("hi", "empty", 4, 4096), ("pair", "pair.in", 1_000_000, 4096),
        ("pair", "pair.in", 1_000_000, 5), ("trap", "empty", 1_000_000, 4096), ("cross", "empty", 1_000_000, 4096),
        ("late", "empty", 1_000_000, 4096), ("bytes", "pair.in", 1_000_000, 4096),
        ("length", "pair.in", 1_000_000, 4096),
        ("self", "empty", 1_000_000, 4096), ("perm", "empty", 1_000_000, 4096), ("try", "empty", 1_000_000, 4096),
        ("count", "pair.in", 1_000_000, 4096), ("guest/steps/first", "guest/words.in", 1_000_000, 4096),
        ("guest/pipeline", "guest/pipeline.in", 1_000_000, 4096),
        ("guest/orders/first", "guest/orders/orders.in", 70_000, 4096),
        ("guest/kmeans", "guest/kmeans.in", 1_000_000, 4096)]
DRAWN = [("pair", 4), ("cross", 4), ("late", 4), ("guest/pipeline", 1)]  # and how many orders
LINE = re.compile(r"group (\d+): (\d+) tr(?:y|ies): end (.*), (?:no output|output of .*)")
SHOWN = ["audit", "deposit"]


def digest(made):
    return hashlib.sha256(b"".join(made.shared[page] for page in sorted(made.shared))).hexdigest()


def result_of(made):
    """The result of a run, as a report or a replay has it."""
    return made.ended, len(made.steps), made.instructions, digest(made), bytes(made.output)


def result_in(report):
    return reports.end_text(report.end), report.steps, report.instructions, report.memory, report.output


def image_and_input(name, data):
    return machine.Image((EXAMPLES / f"{name}.elf").read_bytes()), (EXAMPLES / data).read_bytes()


def check_runs(checks):
    for name, data, fuel, steps in RUNS:
        if not (EXAMPLES / f"{name}.elf").exists():
            continue
        words = [EXAMPLES / f"{name}.elf", EXAMPLES / data, "--workers", "1", "--fuel", fuel, "--steps", steps]
        report = next(reports.rounds(program("run", *words)[1]))
        made = machine.Machine(*image_and_input(name, data), fuel, steps).run(machine.by_rule)
        checks.expect(f"{name}.elf, fuel {fuel}, {steps} steps: {result_of(made)}, and the program {result_in(report)}",
                      result_of(made) == result_in(report)
                      and [step.thread for step in made.steps] == [thread for thread, _ in report.schedule])


def check_orders(checks):
    """Drawn orders, replayed."""
    inputs = {name: data for name, data, *_ in RUNS}
    for name, orders in DRAWN:
        image, data = image_and_input(name, inputs[name])
        for _ in range(orders):
            made = machine.Machine(image, data).run(lambda _, ready: checks.random.choice(ready))
            order = checks.file("order", " ".join(str(step.thread) for step in made.steps).encode())
            _, printed, errors = program("replay", EXAMPLES / f"{name}.elf", EXAMPLES / inputs[name], order)
            replayed = result_in(reports.replay(printed)) if printed else errors
            what = f"{name}.elf in a drawn order: {result_of(made)}, and replayed {replayed}"
            checks.expect(what, result_of(made) == replayed)


def groups_of(printed):
    """Of each group how many tries, and its end."""
    found = [LINE.fullmatch(line) for line in printed.decode().split("\n")]
    return [(int(one.group(2)), one.group(3)) for one in found if one]


def check_groups(checks):
    cross, empty = EXAMPLES / "cross.elf", EXAMPLES / "empty"
    answers = {}
    for words in (("--jobs", "1"), ("--jobs", "3"), ("--seed", "2")):
        into = checks.folder / "order"
        status, printed, errors = tool("explore", cross, empty, "--tries", 40, "--check", "--into", into, *words)
        groups, answers[words] = groups_of(printed), printed
        right = status == 1 and sorted(end for _, end in groups) == ["deadlock", "exit 0"] and sum(
            count for count, _ in groups) == 40
        right = right and printed.count(b"the same") == 2
        checks.expect(f"explore cross.elf {words}: {status} {errors} {printed}", right)
        parted = re.search(rb"schedule in \S+order[.](\d)\n    other ", printed).group(1).decode()
        entry = int(re.search(rb"parts from group . at entry (\d+)", printed).group(1))
        one, other = ((checks.folder / f"order.{parted}{more}").read_text().split() for more in ("", ".other"))
        checks.expect(f"explore: where they part, {entry}", one[:entry] == other[:entry] and one[entry] != other[entry])
    same, other, third = answers.values()
    checks.expect("explore: one seed, one answer", same == other != third)
    status, printed, errors = tool("explore", EXAMPLES / "hi.elf", empty, "--tries", 3)
    checks.expect(f"explore with one group: {status} {printed}", status == 0 and groups_of(printed) == [(3, "exit 0")])


def check_into(checks):
    """Files of an earlier call that would stay beside those of this one."""
    words, into = (EXAMPLES / "hi.elf", EXAMPLES / "empty", "--tries", 3, "--into"), checks.folder / "into"
    for name, wanted in (("into.1", 0), ("into.two", 0), ("into.1.other", 2), ("into.2", 2)):
        file = checks.file(name, b"before")
        status, _, errors = tool("explore", *words, into)
        written = (checks.folder / "into.1").read_bytes() != b"before"
        right = status == wanted and (written or name != "into.1")
        checks.expect(f"explore --into, where {name} is there: {status} {errors}",
                      right and (f"{file} is there" in errors) == (wanted == 2))
        file.unlink()
    (checks.folder / "into.1").unlink(missing_ok=True)


def check_refused(checks):
    empty = EXAMPLES / "empty"
    for words, begun in (((), "usage"), ((EXAMPLES / "none", empty), "can't be read"),
                         ((empty, empty), "no executable"),
                         ((EXAMPLES / "hi.elf", empty, "--tries", "0"), "usage"),
                         ((EXAMPLES / "hi.elf", empty, "--into", checks.folder / "none/none"), "can't be written")):
        status, _, errors = tool("explore", *words)
        checks.expect(f"explore {words}: {status} {errors}", status == 2 and begun in errors)


def check_guide(checks):
    """What the guide shows of the two examples."""
    if not shutil.which("riscv64-unknown-elf-gcc"):
        print("skipped: the schedules that tools/README.md shows, since there is no riscv64-unknown-elf-gcc")
        return
    guide = (ROOT / "tools/README.md").read_text()
    for name in SHOWN:
        elf = checks.folder / f"{name}.elf"
        ran_whole(str(ROOT / "guest/build"), "--libc", "--symbols", str(EXAMPLES / f"schedules/{name}.c"), str(elf))
        status, printed, errors = tool("explore", elf, EXAMPLES / "empty", "--check")
        shown = printed.decode().replace("    replayed: the same\n", "")
        checks.expect(f"tools/README.md shows what is found of {name}.c: {status} {errors}\n{shown}",
                      status == 1 and f"```\n{shown}```\n" in guide)


def check(checks):
    check_runs(checks)
    check_orders(checks)
    check_groups(checks)
    check_into(checks)
    check_refused(checks)
    check_guide(checks)
