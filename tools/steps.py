"""What is known of the steps of some rounds: by their reports, and by what `show`, `./trace` and `why` say of them.

`Rounds` begins with reports. Each text of another kind is of one round, and adds to its steps; a line of it that isn't
one, or isn't of that round, is `Refused`. A memo's record is also that of each step that was reused from it, in the
rounds behind, and from which it was reused, in those before.
"""
import re
from dataclasses import dataclass, field

from calls import CALLS, CREATE, PUT


def pattern(text):
    """The pattern of a line, where # stands for a number, which has 20 digits at most, as one of 64 bits."""
    return re.compile(text.replace("#", "[0-9]{1,20}"))


ENTRY = pattern(r"entry (#) thread (#) number (#) end (call #|trap [0-7]|fuel) count (#)"
                r" reads (-|%s(?:,%s)*) writes (-|%s(?:,%s)*)" % (("[0-9a-f]{8}",) * 4))
HEAD = pattern(r"(elf|input|fuel|limit|entries) #")
STEP = pattern(r"step (#) thread (#) number (#) count (#) (.*)")
WAITS = pattern(r" (waits for [^,]*(?:, with mutex #)?(?:, held by thread #(?: and thread #)*)?)")
WAKES = pattern(r", wakes thread (#) with ")
BEGINS = pattern(r"create\(.*\) = (#), begins at ")
REASON = pattern(r"step (#) thread (#) number (#) (none|register (#) now # was #|"
                 r"page ([0-9a-f]{8}) at (#) now # was # by (start|#))")
RACES, RACE = pattern("races #"), pattern("race (#) (#) page ([0-9a-f]{8} [rw]{2})")
REASON_OR_NOTE = re.compile(REASON.pattern + "|    (?P<note>.*)")


class Refused(Exception):
    """A text isn't of the kind that it should be, or not of this round: in which line, and why."""

    def __init__(self, line, why):
        super().__init__(f"line {line}: {why}")


@dataclass
class Step:
    """A step: its place in the schedule, its thread, how many steps that had made before, and what is known of it. What
    isn't known is None. `text` has the call with its arguments and what came of it."""

    place: int
    thread: int
    number: int
    is_reused: bool
    count: int | None = None
    call: str | None = None
    text: str | None = None
    waits: str | None = None
    wakes: list = field(default_factory=list)
    begins: int | None = None
    reads: list | None = None
    writes: list | None = None
    function: str | None = None
    reason: str | None = None
    notes: list = field(default_factory=list)  # what stands behind the reason
    stored_by: int | None = None  # the step that stored what it was executed for
    falsehoods: list = field(default_factory=list)  # what is false in the memo's record of it
    races: list = field(default_factory=list)  # the later steps that it races with, each with the page and who writes


def call_text(call):
    """A call of a step that was made again, with its arguments; or how else it ended."""
    kind, _, which = call.end.partition(" ")
    if kind != "call":
        return "no call within the fuel" if kind == "fuel" else f"trap at {call.pc:08x}"
    number = int(which)
    first = f"{call.first:08x}" if number in (PUT, CREATE) else str(call.first)
    arguments = (first, str(call.second))[:CALLS[number].arguments if number < len(CALLS) else 1]
    return f"{call_name(number)}({', '.join(arguments)})"


def call_name(number):
    return CALLS[number].name if number < len(CALLS) else f"call {number}"


def steps_of(report):
    """The steps of a round, by its schedule."""
    made, steps = {}, []
    for place, (thread, mark) in enumerate(report.schedule):
        number = made.get(thread, 0)
        made[thread] = number + 1
        steps.append(Step(place, thread, number, mark == "="))
    return steps


def lines_of(text):
    """The lines of a text, of which each has its newline."""
    lines = text.split("\n")
    if lines[-1] or not lines[:-1]:
        raise Refused(len(lines), f"it ends within a line, `{lines[-1][:40]}`" if lines[-1] else "there is nothing")
    return lines[:-1]


def found_in(lines, first, pattern, what):
    """Lines, from that of a number on, with their numbers, taken apart."""
    for number, line in enumerate(lines, first):
        found = pattern.fullmatch(line)
        if not found:
            raise Refused(number, f"expected {what}, found `{line[:40]}`")
        yield number, found


def pages(text):
    return [] if text == "-" else text.split(",")


def end_name(end):
    """How a record ended: the call by its name, a trap or spent fuel."""
    kind, _, number = end.partition(" ")
    return call_name(int(number)) if kind == "call" else end


class Rounds:
    """Rounds by their numbers: their reports, and their steps."""

    def __init__(self, made):
        self.reports = {one.number: one for one in made}
        self.steps = {one.number: steps_of(one) for one in made}
        self.last = made[-1].number

    def step(self, number, line, found):
        """The step of a round that a line says, by its place, thread and number."""
        place, thread, count = map(int, found.group(1, 2, 3))
        steps = self.steps[number]
        if place >= len(steps) or (steps[place].thread, steps[place].number) != (thread, count):
            raise Refused(line, f"round {number} has no step {place} of thread {thread}, number {count}")
        return steps[place]

    def add_listing(self, number, text):
        """What `show` says of the memo of a round; also of the round before the first."""
        lines, known = lines_of(text), {}
        for _ in found_in(lines[:5], 1, HEAD, "the head of a listing"):
            pass
        for line, found in found_in(lines[5:], 6, ENTRY, "an entry of a memo"):
            if number in self.steps:
                self.step(number, line, found)
            known[int(found.group(2)), int(found.group(3))] = found.group(4, 5, 6, 7)
        entries = int(lines[4].partition(" ")[2]) if lines[4:] else 1
        if len(lines) != entries + 5 or len(self.steps.get(number, lines[5:])) != entries:
            raise Refused(len(lines) + 1, f"{entries} entries are wanted, and as many are steps of round {number}")
        self.spread(number, known, self.add_record)

    def add_functions(self, number, functions):
        """In which function of the guest each step of a round is, by thread and number."""
        self.spread(number, functions, lambda step, function: setattr(step, "function", function))

    def spread(self, number, known, add):
        """Adds what is known of the records of a round, by thread and number, to its steps, and to those that have the
        same records: in the rounds behind what was reused from there, and in those before what these were reused
        from."""
        for direction in (1, -1):
            at, records = number, known
            while records and (at == number or at in self.steps):
                for step in self.steps.get(at, []):
                    if (step.thread, step.number) in records:
                        add(step, records[step.thread, step.number])
                later = self.steps.get(max(at, at + direction), [])
                reused = {(step.thread, step.number) for step in later if step.is_reused}
                records = {key: record for key, record in records.items() if key in reused}
                at += direction

    @staticmethod
    def add_record(step, record):
        """What a record says of a step; a call with its arguments stays."""
        end, count, reads, writes = record
        step.call, step.text = end_name(end), step.text or end_name(end)
        step.count, step.reads, step.writes = int(count), pages(reads), pages(writes)

    def add_falsehoods(self, number, place, lines):
        """What is false in the record of the step at a place, in the memo of a round."""
        if place < len(self.steps.get(number, [])):
            self.steps[number][place].falsehoods = lines

    def add_trace(self, number, text):
        """What `./trace` says of the schedule of a round."""
        lines, count = lines_of(text), len(self.steps[number])
        for line, found in found_in(lines[:count], 1, STEP, "a step"):
            step, rest = self.step(number, line, found), found.group(5)
            step.count, step.text = int(found.group(4)), rest
            step.call = "fuel" if rest.startswith("no call ") else re.match(r"[a-z_]*", rest).group()
            waits, begins = WAITS.search(rest), BEGINS.match(rest)
            step.waits = waits and waits.group(1)
            step.wakes = [int(thread) for thread in WAKES.findall(rest)]
            step.begins = begins and int(begins.group(1))
        if not lines[count:] or not lines[count].startswith("end "):
            raise Refused(min(count, len(lines)) + 1, f"round {number} has {count} steps, and then an end is wanted")

    def add_reasons(self, number, text):
        """The reasons of the executed steps of a round."""
        lines, executed = lines_of(text), [step for step in self.steps[number] if not step.is_reused]
        if lines[0] != f"why {len(executed)}":
            count = len(executed)
            raise Refused(1, f"round {number} has {count} executed steps, so that `why {count}` is wanted")
        reasons = []
        for line, found in found_in(lines[1:], 2, REASON_OR_NOTE, "a reason"):
            if found.group("note") is None:
                reasons.append(self.reason(number, line, found))
            elif reasons:
                reasons[-1].notes.append(found.group("note"))
        if reasons != executed:
            raise Refused(len(lines) + 1, f"a reason for each executed step of round {number} is wanted, in order")

    def add_races(self, number, text):
        """The races of the steps of a round."""
        lines, steps = lines_of(text), self.steps[number]
        if not RACES.fullmatch(lines[0]):
            raise Refused(1, f"expected the number of races, found `{lines[0][:40]}`")
        for line, found in found_in(lines[1:], 2, RACE, "a race"):
            first, second = map(int, found.group(1, 2))
            if not first < second < len(steps):
                raise Refused(line, f"round {number} has no steps {first} and {second}, one before the other")
            steps[first].races.append((second, found.group(3)))

    def reason(self, number, line, found):
        """The step that a reason is of, with the reason."""
        step, by = self.step(number, line, found), found.group(8)
        step.reason, step.stored_by = found.group(4), None if by in (None, "start") else int(by)
        if step.stored_by is not None and step.stored_by >= step.place:
            raise Refused(line, f"step {by} isn't before step {step.place}")
        return step
