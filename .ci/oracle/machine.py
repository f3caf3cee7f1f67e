"""The machine, by docs/MACHINE.md. A step is a record that is applied: the one of the thunk that is executed there, or
one of a memo, true or not. The caller decides which thread makes the next step, so that it takes any schedule;
history.py beside it has the choice of one worker. What a call does to threads and objects is in tools/calls.py."""
import hashlib
from dataclasses import dataclass, field

from calls import (BARRIER_INIT, CALLS, COND_WAIT, CREATE, EFAULT, EINVAL, EXIT, JOIN, MOST_PUT, MOST_VALUE, OBJECTS,
                   PUT, SEM_INIT, THREAD_EXIT, THREADS, Calls)
from executables import BESIDE_THE_IMAGE, HEADER, PAGE, READ, STACKS, WRITE, ZEROS
from memos import CALL, FIRST, FUEL, NUMBER, SECOND, WHOLE_PAGE, Record, store

from .turns import Thunk, put_pages

digests = {}  # by the numbers of all pages, and the pages that aren't zero, so that no memory is digested twice


class Impossible(Exception):
    """A step that the machine can't make."""


@dataclass
class Thread:
    """A thread: the pc and x1 to x31, its view, how many steps it has made, and how it stands."""

    registers: list
    view: dict
    made: int = 0
    status: str = "ready"
    value: int = 0
    joiner: int | None = None


@dataclass
class Step:
    """A step that was made: its record; and by what other steps can depend on it: the objects on which its call acted,
    the threads to which it gave a view, and whether it ended the run. `call` has the call with its arguments."""

    record: Record
    objects: set = field(default_factory=set)
    given: set = field(default_factory=set)
    is_last: bool = False
    call: tuple = ()

    def works_as(self, old):
        """Whether it does the same work as an old step: it reads and stores to the same pages, and ends so."""
        pairs = ((step.record.reads.keys(), step.record.stores.keys(), step.record.end, step.call)
                 for step in (self, old))
        return next(pairs) == next(pairs)


def over(page, mask, data):
    """A page with bytes stored over it, at the places of a mask."""
    if mask == WHOLE_PAGE:
        return data
    made = bytearray(page)
    store(made, mask, data)
    return bytes(made)


class Machine(Calls):
    """The machine of an executable on an input. `steps` has those that were made."""

    def __init__(self, image, fuel=1_000_000, limit=4096, data=b""):
        super().__init__()
        self.fuel, self.limit, self.output, self.ended, self.steps, self.threads = fuel, limit, b"", None, [], []
        self.rights = image.rights() | dict.fromkeys(BESIDE_THE_IMAGE, READ | WRITE)
        self.shared = image.pages() | dict.fromkeys(BESIDE_THE_IMAGE, ZEROS)
        self.shared[HEADER] = len(data).to_bytes(4, "little").ljust(PAGE, b"\0")
        for start in range(0, len(data), PAGE):
            self.shared[HEADER + 1 + start // PAGE] = data[start:start + PAGE].ljust(PAGE, b"\0")
        self.begin(image.entry, HEADER * PAGE)

    def digest(self):
        """The digest of shared memory."""
        nonzero = tuple((page, data) for page, data in self.shared.items() if data is not ZEROS)
        key = len(self.shared), nonzero
        if key not in digests:
            digests[key] = hashlib.sha256(b"".join(self.shared[page] for page in sorted(self.shared))).hexdigest()
        return digests[key]

    # Steps.

    def is_ready(self, number):
        return number < len(self.threads) and self.threads[number].status == "ready"

    def execute(self, number):
        """The record of a thread's next step. It changes nothing."""
        thread = self.threads[number]
        return Thunk(self.rights, thread.view, thread.registers).record(number, thread.made, self.fuel)

    def fits(self, number, record):
        """Whether a record, if there is one, fits the next step of a thread that is ready."""
        thread = self.threads[number]
        return (record is not None and list(record.start) == thread.registers
                and (record.count == self.fuel if record.end == FUEL else record.count <= self.fuel)
                and all(thread.view[page] == data for page, data in record.reads.items()))

    def permit(self, number):
        """Refuses a step that may not be made."""
        if self.ended is not None:
            raise Impossible(f"the run has ended by {self.ended}")
        if not self.is_ready(number):
            raise Impossible(f"thread {number} isn't ready")

    def make(self, number):
        """One step of a thread, which is executed."""
        self.permit(number)
        self.apply(self.execute(number))

    def apply(self, record):
        """Makes a step by a record: stores its bytes, and does its call."""
        thread, put = self.threads[record.thread], self.put_bytes(record)
        for page, stored in record.stores.items():
            self.shared[page] = over(self.shared[page], *stored)
        thread.registers, thread.made = list(record.finish), thread.made + 1
        self.steps.append(Step(record))
        self.ended = self.done(record, put)
        if self.ended is None and all(other.status == "ended" for other in self.threads):
            self.ended = "exit 0"
        elif self.ended is None and not any(other.status == "ready" for other in self.threads):
            self.ended = "deadlock"
        elif self.ended is None and len(self.steps) == self.limit:
            self.ended = "spent"
        self.steps[-1].is_last = self.ended is not None

    def put_bytes(self, record):
        """The bytes that a step puts out: as its thread's own loads would read them."""
        start, count = record.finish[FIRST], record.finish[SECOND]
        if record.end != CALL or record.finish[NUMBER] != PUT:
            return b""
        view, nothing = self.threads[record.thread].view, (0, b"")
        pages = [over(view[page], *record.stores.get(page, nothing)) for page in put_pages(self.rights, start, count)]
        return b"".join(pages)[start % PAGE:start % PAGE + count]

    def done(self, record, put):
        """Does what the end of a step asks for: how the run ended, if the step ended it."""
        pc, number, step = record.finish[0], record.thread, self.steps[-1]
        which, first, second = (record.finish[register] for register in (NUMBER, FIRST, SECOND))
        if record.end == FUEL:
            return "spent"
        if record.end != CALL or which >= len(CALLS):
            return f"trap {number} {pc:08x} {record.end}"  # a call that there isn't has the number of its end as cause
        step.objects, step.call = self.acts_on(which, first, second, put), (which, first, second)
        if which == EXIT:
            return f"exit {first}"
        self.output += put
        answer = put_answer(second, put) if which == PUT else CALLS[which].does(self, number, first, second)
        if answer is not None:
            self.answer(number, answer)
        return None

    # Calls.

    def acts_on(self, which, first, second, put):
        """The objects on which a call acts, each a kind and a number."""
        if which == PUT:
            return {("output", 0)} if put else set()
        if which in (THREAD_EXIT, JOIN) or which == CREATE and first % 4 == 0:
            return {("threads", 0)}
        kind = CALLS[which].kind
        if (kind is None or first >= OBJECTS or which == SEM_INIT and second > MOST_VALUE
                or which == BARRIER_INIT and not 0 < second <= THREADS):
            return set()
        if which == COND_WAIT:
            return {(kind, first), ("mutex", second)} if second < OBJECTS else set()
        waiting = self.queue(kind, first) if kind == "condition" else ()
        return {(kind, first)} | {("mutex", self.mutex_of[other]) for other in waiting}

    def begin(self, pc, argument):
        """A thread begins."""
        number, registers = len(self.threads), [pc] + [0] * 31
        registers[2], registers[4], registers[10] = STACKS * PAGE + 16 * PAGE * (number + 1), number, argument
        self.threads.append(Thread(registers, dict(self.shared)))
        if self.steps:
            self.steps[-1].given.add(number)

    def answer(self, number, first, second=None):
        """A call of a thread returns."""
        thread = self.threads[number]
        thread.registers[FIRST] = first & 0xFFFFFFFF
        if second is not None:
            thread.registers[SECOND] = second
        thread.registers[0] = thread.registers[0] + 4 & 0xFFFFFFFF
        thread.view, thread.status = dict(self.shared), "ready"
        self.steps[-1].given.add(number)


def put_answer(count, put):
    """What a put answers."""
    return EINVAL if count > MOST_PUT else len(put) if put or count == 0 else EFAULT
