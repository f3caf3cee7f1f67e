"""Reads what `ithreads run` and `ithreads rerun` print: reports of rounds, one behind the other, by docs/FORMATS.md.

It relies on the lengths that the lines have, since a guest's output may have any bytes, also those of a report.
`rounds(bytes)` gives round after round, and raises `NotReports` with the first byte that can't be one of a report.
`replay(bytes)` does so of what `ithreads replay` prints.
"""
import re
from dataclasses import dataclass

ENTRY = rb" (?:[12][0-9]|3[01]|[0-9])[=+]"
MOST_STEPS = 65_536
MOST_WORKERS = 16
MOST_LOOKS = 1_024
END_WORDS = {b"exit": ["code"], b"trap": ["thread", "pc", "cause"], b"deadlock": [], b"spent": []}
MOST = {"code": 2**32 - 1, "thread": 31, "cause": 8}


class NotReports(Exception):
    """The bytes stop being reports at the byte `at`, where something else is `wanted`."""

    def __init__(self, data, at, wanted):
        there = repr(data[at:at + 20])[1:] if at < len(data) else "the end"
        super().__init__(f"it stops being a report at byte {at}: expected {wanted}, found {there}")
        self.at = at


@dataclass
class Round:
    """What one report says. `end` has its kind, and what comes with it; `lines` are the report without the output;
    `reached` and `progress` are None where the report has no such line."""

    number: int
    end: dict
    steps: int
    reused: int
    executed: int
    instructions: int
    by: list
    schedule: list
    memory: str
    output: bytes
    lines: bytes
    reached: int | None = None
    progress: list | None = None

    def tokens(self):
        """The schedule as a line by itself, without its word."""
        return " ".join(f"{thread}{mark}" for thread, mark in self.schedule) + "\n"


@dataclass
class Replay:
    """What `ithreads replay` says; `instructions` are those of all steps."""

    end: dict
    steps: int
    instructions: int
    memory: str
    output: bytes


def end_text(end):
    """How a run ended, as its line has it behind the word."""
    return " ".join(map(str, end.values()))


class Reader:
    """Reads field by field; `place` is how far it has come."""

    def __init__(self, data):
        self.data, self.place = data, 0

    def rule(self, holds, wanted, at=None):
        if not holds:
            raise NotReports(self.data, self.place if at is None else at, wanted)

    def text(self, text):
        for byte in text:
            self.rule(self.data[self.place:self.place + 1] == bytes([byte]), repr(text)[1:])
            self.place += 1

    def some(self, pattern, wanted):
        found = re.compile(pattern).match(self.data, self.place)
        self.rule(found, wanted)
        self.place = found.end()
        return found.group()

    def number(self):
        return int(self.some(rb"0|[1-9][0-9]{0,19}", "a decimal number"))

    def digits(self, count):
        digits = self.some(rb"[0-9a-f]{0,%d}" % count, "")
        self.rule(len(digits) == count, "a lower-case hexadecimal digit")
        return digits.decode()

    def line(self, word, low=0, high=None, wanted="a number in range"):
        """A line of a word and a number, and whether that may stand there."""
        self.text(word + b" ")
        at, number = self.place, self.number()
        self.text(b"\n")
        self.rule(low <= number and (high is None or number <= high), wanted, at)
        return number

    def end(self):
        self.text(b"end ")
        kind = next((word for word in END_WORDS if self.data[self.place:self.place + 1] == word[:1]), None)
        self.rule(kind, "exit, trap, deadlock or spent")
        self.text(kind)
        end = {"kind": kind.decode()}
        for name in END_WORDS[kind]:
            self.text(b" ")
            at = self.place
            end[name] = self.digits(8) if name == "pc" else self.number()
            following = b"\n" if name == END_WORDS[kind][-1] else b" "
            self.rule(self.data.startswith(following, self.place), f"the end of the {name}")
            self.rule(name == "pc" or end[name] <= MOST[name], f"a {name} of at most {MOST.get(name)}", at)
        self.text(b"\n")
        return end

    def shares(self, steps):
        self.text(b"by")
        at, shares = self.place, []
        while not shares or self.data.startswith(b" ", self.place):
            self.text(b" ")
            shares.append(self.number())
        self.text(b"\n")
        self.rule(len(shares) <= MOST_WORKERS and sum(shares) == steps, f"numbers that make {steps} together", at)
        return shares

    def progress(self, steps):
        """The numbers of steps that were read while the round was made, if that line is there."""
        if not self.data.startswith(b"p", self.place):
            return None
        self.text(b"progress")
        at, numbers = self.place, []
        while not numbers or self.data.startswith(b" ", self.place):
            self.text(b" ")
            numbers.append(self.number())
        self.text(b"\n")
        rising = all(one < other for one, other in zip(numbers, numbers[1:]))
        self.rule(rising and len(numbers) <= MOST_LOOKS + 1 and numbers[-1] == steps, f"numbers that rise to {steps}", at)
        return numbers

    def schedule(self, steps, reused):
        self.text(b"schedule")
        at = self.place
        entries = self.some(rb"(?:%s){0,%d}" % (ENTRY, steps), "").split()
        if len(entries) < steps:  # the next one can't be read, and this finds where
            self.rule(self.data.startswith(b" ", self.place), f"the schedule's entry {len(entries) + 1} of {steps}")
            self.place += 1
            self.some(rb"[12][0-9]|3[01]|[0-9]", "a thread, 0 to 31")
            self.rule(False, "= or +")
        self.text(b"\n")
        marks = sum(entry.endswith(b"=") for entry in entries)
        self.rule(marks == reused, f"a schedule with {reused} steps reused, and not {marks}", at)
        return [[int(entry[:-1]), entry[-1:].decode()] for entry in entries]

    def round(self, before):
        start, least = self.place, 0 if before is None else before + 1
        number = self.line(b"round", least, 1 if before is None else least, "the next round's number")
        end = self.end()
        steps = self.line(b"steps", 1, MOST_STEPS)
        reused = self.line(b"reused", 0, steps, f"at most {steps}")
        executed = self.line(b"executed", steps - reused, steps - reused, f"{steps - reused}, which weren't reused")
        reached = self.line(b"reached", 0, MOST_STEPS) if self.data.startswith(b"r", self.place) else None
        instructions, shares = self.line(b"instructions"), self.shares(steps)
        progress = self.progress(steps)
        schedule, memory, length = self.schedule(steps, reused), self.digest(), self.line(b"output")
        lines = self.data[start:self.place]
        return Round(number, end, steps, reused, executed, instructions, shares, schedule, memory, self.output(length),
                     lines, reached, progress)

    def digest(self):
        self.text(b"memory ")
        digits = self.digits(64)
        self.text(b"\n")
        return digits

    def output(self, length):
        output = self.data[self.place:self.place + length]
        self.place += len(output)
        self.rule(len(output) == length, f"an output of {length} bytes, of which {len(output)} are there,")
        self.text(b"\n")
        return output

    def replay(self):
        self.text(b"replay\n")
        end, steps = self.end(), self.line(b"steps", 1, MOST_STEPS)
        instructions, memory = self.line(b"instructions"), self.digest()
        output = self.output(self.line(b"output"))
        self.rule(self.place == len(self.data), "the end")
        return Replay(end, steps, instructions, memory, output)


def rounds(data):
    """The rounds of some reports, each as soon as it was read; there is one at least."""
    reader, before = Reader(data), None
    while before is None or reader.place < len(data):
        made = reader.round(before)
        before = made.number
        yield made


def replay(data):
    """What a replay printed."""
    return Reader(data).replay()
