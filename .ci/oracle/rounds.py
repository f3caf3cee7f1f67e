"""Reports of rounds: what is printed of one that the machine made; and `Judge`, which says what is wrong with reports
that were printed, whoever of several workers made their steps."""
import edit_lists
import executables
import reports
from reports import end_text

from .history import NOTHING, History, alone, changed_pages, execute
from .machine import Impossible, Machine


def edited(data, edits):
    """An input after an edit list."""
    return edit_lists.done(edit_lists.read(edits.encode()), data)


class Judge:
    """The rounds of a line, one after the other: `refuse` has what is wrong with one. `step` says whether a step whose
    record fits is executed all the same, as it may be of honest records, or is that record."""

    def __init__(self, elf, workers, limits=(1_000_000, 4096), reach=False, progress=False, step=execute):
        self.image, self.workers, self.reach, self.progress = executables.read(elf), workers, reach, progress
        self.fuel, self.limit = limits
        self.past, self.machine, self.data, self.step = NOTHING, None, None, step

    def begin_behind(self, machine, data):
        """Goes on behind a round that this machine made on an input."""
        self.past, self.machine, self.data = History(machine.steps), machine, data

    def start(self, data):
        return Machine(self.image, self.fuel, self.limit, data)

    def refuse(self, printed, data, number=None):
        """What is wrong with a report, as a round on this input behind those before it."""
        faults = [] if number in (None, printed.number) else [f"it has the number {printed.number}"]
        if len(printed.by) != self.workers or sum(printed.by) != printed.steps:
            faults.append(f"its shares are {printed.by}, of {self.workers} workers and {printed.steps} steps")
        machine = self.start(data)
        reached = self.past.reached(changed_pages(machine, self.start(self.data)) if self.machine else set())
        wanted = sum(reached) if self.reach else None
        if printed.reached != wanted:
            faults.append(f"reached is {printed.reached}, and should be {wanted}")
        faults += self.watched(printed) + self.made(machine, printed) + self.compared(machine, printed)
        if self.machine is not None and self.machine.fuel == self.fuel:
            faults += self.bounded(machine, printed, reached) if self.step is execute else []
            if self.data == data and self.machine.limit == self.limit:
                faults += self.repeated(printed)
        if self.workers == 1:
            faults += self.alone(printed, data)
        self.begin_behind(machine, data)
        return faults

    def watched(self, printed):
        """What is wrong with the numbers that were read of the round's progress."""
        numbers = printed.progress
        if (numbers is not None) != self.progress:
            return ["it has a line `progress`, which isn't wanted" if numbers else "it has no line `progress`"]
        if not self.progress:
            return []
        rises = len(numbers) <= 1025 and all(one < other for one, other in zip(numbers, numbers[1:]))
        faults = [] if rises else ["its progress doesn't rise"]
        if numbers[-1:] != [printed.steps] or self.workers == 1 and len(numbers) > 1:
            faults.append(f"its progress ends in {numbers[-3:]}, of {printed.steps} steps")
        return faults

    def made(self, machine, printed):
        """Makes the schedule entry by entry, and says what isn't permitted, or marked wrongly."""
        faults = []
        for place, (thread, mark) in enumerate(printed.schedule):
            try:
                machine.permit(thread)
            except Impossible as why:
                return faults + [f"entry {place}: {why}"]
            wanted = self.step(machine, self.past, thread)
            if mark != wanted:
                fits = "fits" if wanted == "=" else "does not fit"
                faults.append(f"entry {place} of thread {thread} has the mark {mark}, and its record {fits}")
        return faults if machine.ended is not None else faults + ["its schedule isn't complete"]

    @staticmethod
    def compared(machine, printed):
        """What differs from the machine that made all of it."""
        executed = [step.record.count for step, (_, mark) in zip(machine.steps, printed.schedule) if mark == "+"]
        rows = (("end", end_text(printed.end), machine.ended), ("steps", printed.steps, len(machine.steps)),
                ("memory", printed.memory, machine.digest()), ("output", printed.output, machine.output),
                ("instructions", printed.instructions, sum(executed)), ("executed", printed.executed, len(executed)))
        return [f"{name} is {found}, and should be {right}" for name, found, right in rows if found != right]

    def bounded(self, machine, printed, reached):
        """Whether a step was executed that isn't reached, where each that was does the same work as the old one of its
        thread and number."""
        olds = []
        for step, (_, mark) in zip(machine.steps, printed.schedule):
            place = self.past.place.get((step.record.thread, step.record.number))
            if mark == "+":
                if place is None or not step.works_as(self.past.steps[place]):
                    return []
                olds.append(place)
        return [f"step {place} of the round before is executed again, and isn't reached"
                for place in olds if not reached[place]]

    def repeated(self, printed):
        """What isn't as it has to be of a round without an edit."""
        faults = [] if all(mark == "=" for _, mark in printed.schedule) else ["a round without an edit executes"]
        if [thread for thread, _ in printed.schedule] != [step.record.thread for step in self.past.steps]:
            faults.append("a round without an edit has another schedule than the round before")
        return faults

    def alone(self, printed, data):
        """Whether one worker made the schedule that it picks."""
        picked = alone(self.start(data), self.past, self.step)
        same = [thread for thread, _ in picked] == [thread for thread, _ in printed.schedule]
        return [] if same else ["it isn't the schedule of one worker"]


# Reports.


def end_of(text):
    """How a run ended, as the reader of reports has it."""
    kind, *values = text.split(" ")
    names = {"exit": ("code",), "trap": ("thread", "pc", "cause")}.get(kind, ())
    return {"kind": kind, **{name: value if name == "pc" else int(value) for name, value in zip(names, values)}}


def report_of(machine, schedule, shares=None, number=0, **more):
    """The report of a round that a machine made, by one worker if no shares are given."""
    counts = [step.record.count for step, (_, mark) in zip(machine.steps, schedule) if mark == "+"]
    steps, executed = len(schedule), len(counts)
    return reports.Round(number, end_of(machine.ended), steps, steps - executed, executed, sum(counts),
                         shares or [steps], schedule, machine.digest(), machine.output, b"", **more)


def replay_text(machine):
    """What a replay prints of what it came to."""
    steps = [step.record.count for step in machine.steps]
    lines = ("replay", f"end {machine.ended}", f"steps {len(steps)}", f"instructions {sum(steps)}",
             f"memory {machine.digest()}", f"output {len(machine.output)}", "")
    return "\n".join(lines).encode() + machine.output + b"\n"


def text_of(printed):
    """A report as it is printed."""
    entries = " ".join(f"{thread}{mark}" for thread, mark in printed.schedule)
    lines = (f"round {printed.number}", f"end {end_text(printed.end)}", f"steps {printed.steps}",
             f"reused {printed.reused}", f"executed {printed.executed}",
             *([] if printed.reached is None else [f"reached {printed.reached}"]),
             f"instructions {printed.instructions}", f"by {' '.join(map(str, printed.by))}",
             *([] if printed.progress is None else [f"progress {' '.join(map(str, printed.progress))}"]),
             f"schedule {entries}", f"memory {printed.memory}", f"output {len(printed.output)}", "")
    return "\n".join(lines).encode() + printed.output + b"\n"
