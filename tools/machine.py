"""A machine of guests that shares no code with the program, by docs/MACHINE.md: the caller decides, step by step,
which thread makes the next one. It executes some million instructions a second, keeps no records and reuses nothing.

`Image` is an executable, with its translated code; `Machine` a run of it on an input.
"""
import struct
from dataclasses import dataclass, field

import executables
from blocks import Trap, translated
from calls import CALLS, EFAULT, EINVAL, EXIT, MOST_PUT, PUT, Calls
from executables import BESIDE_THE_IMAGE, EXECUTE, HEADER, PAGE, READ, STACKS, WRITE, ZEROS


class NoGuest(Exception):
    """The bytes are no executable that can be run."""


class Image:
    """The pages of an executable, with their rights, and its code."""

    def __init__(self, elf):
        try:
            read = executables.read(elf)
        except executables.Refused as why:
            raise NoGuest(f"it is no executable that is accepted: {why}") from why
        self.entry, self.blocks = read.entry, {}
        self.rights = read.rights() | dict.fromkeys(BESIDE_THE_IMAGE, READ | WRITE)
        self.pages = read.pages() | dict.fromkeys(BESIDE_THE_IMAGE, ZEROS)

    def block(self, pc, view, last):
        """The block at a pc; one instruction of it, if `last` says so, or its page can be stored to."""
        right, word_at = self.rights.get(pc // PAGE, 0), lambda at: word_of(view, at)
        if pc % 4 or not right & EXECUTE:
            return None
        key = pc if right & WRITE == 0 and last is None else (pc, word_at(pc))
        if key not in self.blocks:
            self.blocks[key] = translated(pc, word_at) if key == pc else translated(pc, word_at, 1)
        return self.blocks[key]


def word_of(view, address):
    return int.from_bytes(view[address // PAGE][address % PAGE:address % PAGE + 4], "little")


@dataclass
class Thread:
    """A thread: its registers, its view, how many steps it has made, and how it stands."""

    pc: int
    x: list
    view: dict
    made: int = 0
    status: str = "ready"
    value: int = 0
    joiner: int | None = None
    waits: tuple = ()  # for what: a kind, and a number


@dataclass
class Step:
    """A step that was made: its thread, its turns, and its call with the arguments; or how else it ended."""

    thread: int
    count: int
    end: str
    pc: int
    first: int = 0
    second: int = 0
    waits: str = ""
    answer: int | None = None
    begins: int | None = None
    wakes: list = field(default_factory=list)


class Machine(Calls):
    """A run. `ended` is how it ended, as a report has it."""

    def __init__(self, image, given, fuel=1_000_000, limit=4096):
        super().__init__()
        self.image, self.fuel, self.limit = image, fuel, limit
        self.output, self.ended, self.steps = bytearray(), None, []
        self.shared = dict(image.pages)
        self.shared[HEADER] = struct.pack("<I", len(given)).ljust(PAGE, b"\0")
        for start in range(0, len(given), PAGE):
            self.shared[HEADER + 1 + start // PAGE] = given[start:start + PAGE].ljust(PAGE, b"\0")
        self.threads, self.instructions = [], 0
        self.is_single, self.on_store = False, None  # each turn by itself; called with a thread and a page, once a step
        self.begin(image.entry, HEADER * PAGE)

    def begin(self, pc, argument):
        number, x = len(self.threads), [0] * 32
        x[2], x[4], x[10] = STACKS * PAGE + 16 * PAGE * (number + 1), number, argument
        self.threads.append(Thread(pc, x, dict(self.shared)))
        if self.steps:
            self.steps[-1].begins = number

    def ready(self):
        return [number for number, thread in enumerate(self.threads) if thread.status == "ready"]

    def run(self, choose):
        """Makes all steps; `choose` says of the ready threads who makes the next."""
        while self.ended is None:
            self.step(choose(self, self.ready()))
        return self

    def follow(self, threads):
        """Makes the steps of a schedule, as far as it is permitted."""
        for thread in threads:
            if self.ended is not None or thread not in self.ready():
                break
            self.step(thread)
        return self

    def step(self, number):
        """A step of a thread that is ready."""
        thread = self.threads[number]
        own, end, cause = {}, "fuel", None
        try:
            pc, count = self.turns(number, own)
            end = "call" if pc < 0 else "fuel"
            thread.pc = ~pc if pc < 0 else pc
        except Trap as trap:
            thread.pc, count, end, cause = trap.pc, trap.turns, "trap", trap.cause
        made = Step(number, count, end, thread.pc)
        self.steps.append(made)
        self.instructions += count
        x, put = thread.x, None
        if end == "call":
            made.end, made.first, made.second = f"call {x[17]}", x[10], x[11]
            put = self.put(thread, own) if x[17] == PUT else None
        self.commit(thread.view, own)
        thread.made += 1
        if end == "trap":
            self.ended = f"trap {number} {thread.pc:08x} {cause}"
        elif end == "fuel":
            self.ended = "spent"
        else:
            self.call(number, thread, x[17], put)
        self.look_for_end()

    def look_for_end(self):
        if self.ended is None and all(thread.status == "ended" for thread in self.threads):
            self.ended = "exit 0"
        elif self.ended is None and not any(thread.status == "ready" for thread in self.threads):
            self.ended = "deadlock"
        elif self.ended is None and len(self.steps) == self.limit:
            self.ended = "spent"

    def turns(self, number, own):
        """Executes up to a call, or until the fuel is used up: the pc, and how many turns."""
        thread = self.threads[number]
        words, pages, view, rights, fuel = {}, {}, thread.view, self.image.rights, self.fuel

        def load(page, pc, turns):
            if not rights.get(page, 0) & READ:
                raise Trap(5, pc, turns)
            words[page], pages[page] = self.from_page(page, memoryview(view[page]).cast("I"), view[page], None)
            return words[page], pages[page]

        def store(page, pc, turns):
            if not rights.get(page, 0) & WRITE:
                raise Trap(7, pc, turns)
            data, mask = bytearray(view[page]), bytearray(PAGE)
            own[page] = made = memoryview(data).cast("I"), memoryview(mask).cast("I"), data, mask
            if rights[page] & READ:
                words[page], pages[page] = self.from_page(page, made[0], data, mask)
            if self.on_store:
                self.on_store(number, page)
            return made

        blocks, pc, count, x = self.image.blocks, thread.pc, 0, thread.x
        seen = Seen(view, own)
        while pc >= 0 and count < fuel:
            found = blocks.get(pc) or self.image.block(pc, seen, None)
            if found is None:
                raise Trap(0 if pc % 4 else 1, pc, count + 1)
            function, size = found
            if count + size > fuel or self.is_single:
                function, size = self.image.block(pc, seen, 1)
            pc, count = function(x, words, pages, own, load, store, count, fuel - size)
        return pc, count

    def from_page(self, page, words, data, mask):
        """What loads from a page take words and bytes from; a mask, if there is one, has the step's own stores."""
        return words, data

    def put(self, thread, own):
        """The bytes of a put; a number where it is refused."""
        address, count = thread.x[10:12]
        pages = range(address // PAGE, (address + count - 1) // PAGE + 1) if count else range(0)
        if count > MOST_PUT:
            return EINVAL
        if address + count > 1 << 32 or not all(self.image.rights.get(page, 0) & READ for page in pages):
            return EFAULT
        seen = Seen(thread.view, own)
        return b"".join(bytes(seen[page]) for page in pages)[address % PAGE:address % PAGE + count] if count else b""

    def commit(self, view, own):
        """Writes a step's stores into shared memory: exactly the bytes that were stored."""
        for page, (_, _, data, mask) in own.items():
            there = self.shared[page]
            if there is view[page]:
                self.shared[page] = bytes(data)
            else:
                old, new, marks = (int.from_bytes(one, "little") for one in (there, data, mask))
                self.shared[page] = (old ^ ((old ^ new) & marks)).to_bytes(PAGE, "little")

    # Calls.

    def answer(self, number, first, second=None):
        """A call of a thread returns."""
        thread = self.threads[number]
        thread.x[10] = first & 0xFFFFFFFF
        if second is not None:
            thread.x[11] = second
        thread.pc, thread.view, thread.status, thread.waits = thread.pc + 4, dict(self.shared), "ready", ()
        if self.steps[-1].thread == number:
            self.steps[-1].answer = first
        else:
            self.steps[-1].wakes.append(number)

    def wait(self, number, kind, place):
        super().wait(number, kind, place)
        self.threads[number].waits = (kind, place)

    def call(self, number, thread, which, put):
        """Does a call."""
        if which == EXIT:
            self.ended = f"exit {thread.x[10]}"
        elif which >= len(CALLS):
            self.ended = f"trap {number} {thread.pc:08x} 8"
        else:
            answer = self.written(put) if which == PUT else CALLS[which].does(self, number, *thread.x[10:12])
            if answer is not None:
                self.answer(number, answer)
        self.steps[-1].waits = self.waiting(number)

    def waiting(self, number):
        """For what a thread waits, in words; nothing where it doesn't wait."""
        if not self.threads[number].waits:
            return ""
        kind, place = self.threads[number].waits
        if kind == "end":
            return f"waits for the end of thread {place}"
        text = f"waits for {kind} {place}"
        if kind == "condition":
            text += f", with mutex {self.mutex_of[number]}"
        if kind == "mutex":
            text += f", held by thread {self.owner[place]}"
        if kind == "rwlock":
            text += f" to {'write' if number in self.to_write else 'read'}"
            text += "".join(f"{', held by' if at == 0 else ' and'} thread {holder}"
                            for at, holder in enumerate(sorted(self.holders(place))))
        return text

    def written(self, put):
        """Puts bytes out, if they aren't refused."""
        if isinstance(put, int):
            return put
        self.output += put
        return len(put)


class Seen:
    """What a thread sees of memory: its view, with its own stores, by the numbers of pages."""

    def __init__(self, view, own):
        self.view, self.own = view, own

    def __getitem__(self, page):
        return self.own[page][2] if page in self.own else self.view[page]


def by_rule(machine, ready):
    """The choice of one worker without an earlier run: who has made the fewest steps, of these the lowest number."""
    return min(ready, key=lambda number: (machine.threads[number].made, number))
