"""Reports of several workers that are drawn: true ones, which the judge must take, and falsified ones, which it must
refuse."""
import dataclasses

import executables

from .history import NOTHING, History, changed_pages, lone_pick
from .machine import Machine
from .rounds import report_of


def drawn_round(machine, past, workers, draw):
    """The schedule with marks and the shares of a round that drawn workers make on a machine at its start."""
    running, shares, schedule = {}, [0] * workers, []

    def made(thread, mark, worker):
        machine.make(thread)
        schedule.append([thread, mark])
        shares[worker] += 1

    while machine.ended is None:
        idle = [worker for worker in range(workers) if worker not in running.values()]
        thread = lone_pick(machine, past, running) if idle else None
        if thread is None or running and draw.random() < 0.4:
            thread = draw.choice(sorted(running))
            made(thread, "+", running.pop(thread))
        elif machine.fits(thread, past.next_record(machine, thread)):
            made(thread, "=", draw.choice(idle))
        else:
            running[thread] = draw.choice(idle)
    return schedule, shares


def drawn_progress(steps, workers, draw):
    """Numbers of steps that a watcher might read."""
    return [*sorted(draw.sample(range(steps), draw.randrange(min(steps, 9)) if workers > 1 else 0)), steps]


def drawn_rounds(elf, inputs, workers, draw, has_lines=False):
    """The reports of rounds on some inputs, one behind the other, as drawn workers make them, with the lines `reached`
    and `progress` if `has_lines` says so."""
    past, made, before, image = NOTHING, [], None, executables.read(elf)
    for number, data in enumerate(inputs):
        machine, again = Machine(image, data=data), Machine(image, data=data)
        changed, before = changed_pages(again, before) if before else set(), again
        schedule, shares = drawn_round(machine, past, workers, draw)
        more = {"reached": sum(past.reached(changed)),
                "progress": drawn_progress(len(schedule), workers, draw)} if has_lines else {}
        made.append(report_of(machine, schedule, shares, number, **more))
        past = History(machine.steps)
    return made


def remade(printed, **changed):
    """A report with other fields, whose counts are those of its schedule; shares that aren't given sum to its steps."""
    schedule = changed.get("schedule", printed.schedule)
    executed = sum(mark == "+" for _, mark in schedule)
    more = len(schedule) - printed.steps
    most = max(printed.by)
    shares = [share + more * (share == most and printed.by.count(most) == 1) for share in printed.by]
    if sum(shares) != len(schedule):
        shares = [len(schedule)] + [0] * (len(printed.by) - 1)
    counts = {"steps": len(schedule), "executed": executed, "reused": len(schedule) - executed, "by": shares}
    return dataclasses.replace(printed, **{**counts, **changed})


def swapped(printed):
    """The same where the first entry of another thread than the first is swapped with the first of all, so that it
    stands before its create."""
    schedule = printed.schedule[:]
    place = next(place for place, (thread, _) in enumerate(schedule) if thread != schedule[0][0])
    schedule[0], schedule[place] = schedule[place], schedule[0]
    return remade(printed, schedule=schedule)


def turned(printed, mark):
    """The same with the first of such marks turned."""
    place = next(place for place, (_, other) in enumerate(printed.schedule) if other == mark)
    schedule = printed.schedule[:]
    schedule[place] = [schedule[place][0], "+" if mark == "=" else "="]
    return remade(printed, schedule=schedule)


def one_less(shares):
    """Shares of which the largest is one less."""
    largest = shares.index(max(shares))
    return [share - (place == largest) for place, share in enumerate(shares)]


def falsified(first, later, again):
    """Reports of which each has one thing that isn't true, by what it is, and which of the three it stands in for: one
    from scratch, one that reuses some of its steps and executes others, and one without an edit behind it. All have
    several workers, and begin by a create."""
    digit = "1" if first.memory[0] == "0" else "0"
    yield "two entries swapped", 0, swapped(first)
    yield "two entries swapped, of a later round", 1, swapped(later)
    yield "a mark turned to =", 1, turned(later, "+")
    yield "a mark turned to +", 1, turned(later, "=")
    yield "a mark from scratch turned to =", 0, turned(first, "+")
    yield "a mark without an edit turned to +", 2, turned(again, "=")
    yield "shares that are one too many", 0, remade(first, by=[first.by[0] + 1, *first.by[1:]])
    yield "shares that are one too few", 1, remade(later, by=one_less(later.by))
    yield "the share of a worker left out", 0, remade(first, by=[sum(first.by[:2]), *first.by[2:]])
    yield "the share of a worker more", 0, remade(first, by=[*first.by, 0])
    yield "the last entry left out", 0, remade(first, schedule=first.schedule[:-1])
    yield "an entry behind the last", 0, remade(first, schedule=first.schedule + [[0, "+"]])
    yield "another end", 0, remade(first, end={"kind": "deadlock"})
    yield "another code", 1, remade(later, end={"kind": "exit", "code": 77})
    yield "another digest", 0, remade(first, memory=digit + first.memory[1:])
    yield "another byte put out", 1, remade(later, output=bytes([later.output[0] ^ 1]) + later.output[1:])
    yield "a byte put out more", 0, remade(first, output=first.output + b"\0")
    yield "one instruction more", 1, remade(later, instructions=later.instructions + 1)
    yield "instructions without an edit", 2, remade(again, instructions=1)
    yield "another round's number", 1, remade(later, number=later.number + 1)
    yield "one step reached more", 1, remade(later, reached=later.reached + 1)
    yield "all old steps reached", 1, remade(later, reached=later.steps)
    yield "steps reached from scratch", 0, remade(first, reached=first.steps)
    yield "steps reached without an edit", 2, remade(again, reached=later.reached)
    yield "the line `reached` left out", 1, remade(later, reached=None)
    yield "the line `progress` left out", 1, remade(later, progress=None)
    yield "the last number left out of the progress", 0, remade(first, progress=[0])
    yield "a number twice", 0, remade(first, progress=[first.steps, first.steps])
    yield "numbers that aren't in order", 1, remade(later, progress=[2, 1, later.steps])
    yield "a number above the steps", 2, remade(again, progress=[again.steps + 1, again.steps])
