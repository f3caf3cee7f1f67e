"""Memos of guests with several threads that aren't honest, or aren't coherent: with records left out, twice or in
another order, and with a false record behind which the guest goes on as the machine makes it, so that each record
fits."""
import dataclasses
import random

import executables
from calls import CALLS
from executables import HEADER, PAGE, STACKS
from memos import CALL, FUEL, WHOLE_PAGE

from .falsified import drawn_round
from .guests import thread_guest
from .history import NOTHING, alone
from .machine import Machine
from .made_memos import memo_of
from .program import content

FUEL_HERE, STEPS_HERE = 4000, 80
SYNCHRONIZED = ("bytes", "late", "try", "cross")  # guests of examples/
SEEDS = (0, 3, 8, 10, 25, 27, 41, 48)  # of random guests, which make each kind of call


def guests():
    """Names, executables and inputs."""
    pair = content("examples", "pair.in")
    yield "pair", content("examples", "pair.elf"), pair
    yield from ((name, content("examples", f"{name}.elf"), pair) for name in SYNCHRONIZED)
    text = content("examples", "guest", "words.in")
    yield "pipeline", content("examples", "guest", "pipeline.elf"), text[:64]  # with semaphores and conditions
    for seed in SEEDS:
        yield f"random threads {seed}", thread_guest(seed), random.Random(seed).randbytes(8192)


class Forger:
    """A guest, and the steps of an honest run of it, by one worker or by drawn ones."""

    def __init__(self, elf, data, draw=None):
        self.elf, self.data = elf, data
        machine = self.start()
        alone(machine) if draw is None else drawn_round(machine, NOTHING, 4, draw)
        self.records = [step.record for step in machine.steps]

    def start(self):
        return Machine(executables.read(self.elf), FUEL_HERE, STEPS_HERE, self.data)

    def memo(self, records=None):
        return memo_of(self.elf, self.data, FUEL_HERE, STEPS_HERE, records or self.records)

    def behind(self, place, record):
        """The records of a run that has this one at a place, and goes on as one worker makes it."""
        machine = self.start()
        for other in [*self.records[:place], record]:
            machine.apply(other)
        alone(machine)
        return [step.record for step in machine.steps]


def rearranged(records, draw):
    """Records that are left out, twice, exchanged, or of another thread, by what was done to them."""
    count = len(records)
    yield "the first left out", records[1:]
    yield "the last left out", records[:-1]
    yield "the last twice", [*records, records[-1]]
    yield "in reverse", records[::-1]
    for place in sorted(draw.sample(range(count), min(count, 6))):
        before, record, behind = records[:place], records[place], records[place + 1:]
        yield f"{place} left out", [*before, *behind]
        yield f"{place} twice", [*before, record, record, *behind]
        yield f"none behind {place}", [*before, record]
        yield f"{place} and the next exchanged", [*before, *behind[:1], record, *behind[1:]]
        for thread in {0, 1, record.thread + 1, 31} - {record.thread}:
            yield f"{place} of thread {thread}", [*before, dataclasses.replace(record, thread=thread), *behind]


def with_registers(record, **named):
    """A record that ends with other registers; x0 is the pc."""
    finish = list(record.finish)
    for name, value in named.items():
        finish[int(name[1:])] = value % 2**32
    return dataclasses.replace(record, finish=tuple(finish))


def falsified(record, view, draw):
    """A record with one thing that isn't true, by what that is. `view` is its thread's."""
    replaced, x = dataclasses.replace, record.finish
    page = draw.choice([HEADER, HEADER + 1, STACKS, *record.stores, *record.reads])
    place, register = draw.randrange(PAGE), draw.choice([1, 3, *range(5, 10), *range(12, 17), *range(18, 32)])
    yield "a turn more", replaced(record, count=min(record.count + 1, FUEL_HERE))
    yield f"x{register}", with_registers(record, **{f"x{register}": x[register] ^ 1 << draw.randrange(32)})
    yield "its pc", with_registers(record, x0=x[0] + draw.choice((-4, 4, 8, 2**31)))
    for number in draw.sample(range(len(CALLS) + 1), 4):
        first, second = draw.choice((0, 1, 2, 64)), draw.choice((0, 1, 2, 4097))
        named = {"x17": number, "x10": first, "x11": second}
        yield f"call {number}({first}, {second})", with_registers(replaced(record, end=CALL), **named)
    yield "the first argument", with_registers(record, x10=x[10] ^ draw.choice((1, 2, 4)))
    yield "the second argument", with_registers(record, x11=x[11] ^ draw.choice((1, 2, 4)))
    yield "a byte stored alone", replaced(record, stores={page: (1 << place, draw.randbytes(1))})
    yield "a page stored", replaced(record, stores={page: (WHOLE_PAGE, draw.randbytes(PAGE))})
    yield "nothing stored", replaced(record, stores={})
    yield "what is stored", replaced(record, stores={
        page: (mask, bytes(byte ^ 1 for byte in data)) for page, (mask, data) in record.stores.items()})
    yield "no page read", replaced(record, reads={})
    yield "one page read", replaced(record, reads={page: view[page]})
    yield "a trap", replaced(record, end=draw.randrange(CALL))
    yield "its fuel spent", replaced(record, end=FUEL, count=FUEL_HERE)


def forged(forger, draw):
    """Memos with a false record at drawn places, in each of which each record fits."""
    count = len(forger.records)
    for place in sorted(draw.sample(range(count), min(count, 3))):
        machine = forger.start()
        for record in forger.records[:place]:
            machine.apply(record)
        record = forger.records[place]
        for what, false in falsified(record, machine.threads[record.thread].view, draw):
            yield f"{what} at {place}", forger.memo(forger.behind(place, false))
