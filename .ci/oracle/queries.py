"""Queries of memos: each guest has a memo by one worker, and one by four, whose schedule is that of the printed
report."""
import multiprocessing
import os
import random
import sys
from dataclasses import dataclass, field

import executables
import reports

from . import program
from .guests import thread_guest
from .machine import Impossible, Machine
from .program import FUEL, STEPS, TINY, content, ran, written

GUESTS, INPUT = 150, 8192  # random guests, and the bytes of their inputs


@dataclass
class Case:
    """A guest, its input, the limits of its runs, and some edit lists; what differed of it, and how much was right."""

    name: str
    elf: bytes
    data: bytes
    fuel: int = FUEL
    limit: int = STEPS
    lists: list = ()
    faults: list = field(default_factory=list)
    right: int = 0

    def count(self, what, fault):
        if fault:
            self.faults.append(f"{what}: {fault}")
        else:
            self.right += 1

    def start(self, data):
        """The machine at the start of a run on an input."""
        return Machine(executables.read(self.elf), self.fuel, self.limit, data)

    def memos(self, folder):
        """Writes both memos, one after the other: the number of workers, the name, and the steps of the machine."""
        elf, data = written(folder, "guest.elf", self.elf), written(folder, "input", self.data)
        limits, memo = ("--fuel", self.fuel, "--steps", self.limit), os.path.join(folder, "memo")
        for workers in (1, 4):
            _, printed, _ = ran("run", elf, data, "--workers", workers, *limits, "--memo", memo)
            machine = self.start(self.data)
            try:
                for thread, _ in next(reports.rounds(printed)).schedule:
                    machine.make(thread)
                yield workers, memo, machine.steps
            except (reports.NotReports, Impossible) as why:
                self.count(f"the run by {workers}", f"its report can't be replayed: {why}")

    def query(self, what, wanted, *words):
        """Makes a query, which the program should answer with status 0 and this text."""
        status, printed, _ = ran(*words)
        lines = zip(printed.decode(errors="replace").split("\n"), wanted.split("\n"))
        pair = next((pair for pair in lines if pair[0] != pair[1]), None)
        same = (status, printed) == (0, wanted.encode())
        self.count(what, "" if same else f"status {status}, first lines that differ: {pair}")


def cases(count, seed, lists, draw_lists):
    """Ten guests of examples/ with some edit lists, and so many random ones with lists that are drawn."""
    for name in TINY:
        yield Case(name, content("examples", f"{name}.elf"), b"\5".ljust(4100, b"\7"), lists=lists)
    for number in range(seed, seed + count):
        draw = random.Random(number)
        data, drawn = draw.randbytes(INPUT), draw_lists(draw)
        fuel = draw.choice((FUEL, FUEL, draw.randrange(1, 120)))
        limit = draw.choice((STEPS, STEPS, draw.randrange(1, 40)))
        yield Case(f"random threads {number}", thread_guest(number), data, fuel, limit, drawn)


def main(compare, cases_of):
    """The status of a script: `compare` makes all queries of a case, and `cases_of` has the cases by the script's
    words: how many random guests there are, and the first one's seed."""
    count = int(sys.argv[1]) if len(sys.argv) > 1 else GUESTS
    seed = int(sys.argv[2]) if len(sys.argv) > 2 else 0
    if program.is_missing():
        return 1
    with multiprocessing.Pool() as pool:
        return program.count((case.name, case.faults, case.right) for case in pool.imap(compare, cases_of(count, seed)))
