"""Finds in the records of a memo, which the program has taken, who called: of a call that the library made, where the
guest's own function stands that called the library.

A record's registers are those of the end of its step, so a frame is read from what the thread's stack had then: what
its steps have stored there so far. A function of the library saves its return address where its first instructions say.
"""
import pathlib
from dataclasses import dataclass

import memos
import symbols
from calls import THREADS
from executables import PAGE

LENGTH, INPUT, MOST_INPUT, STACKS, STACK = 0xC0000000, 0xC0001000, 0x100000, 0xD0000000, 0x10000
SP = 2
MOST_FRAMES = 16
SAVE_RA, RAISE_SP = 0x00112023, 0x00010113  # sw ra, 0(sp), and addi sp, sp, 0


@dataclass(slots=True)
class Record:
    """A step: its thread, how many that had made, its turns, the pc at its start and at its end, how it ended, and
    where the calls stand that the guest's own code made: the one before it, and the one that ended it."""

    thread: int
    number: int
    count: int
    start: int
    finish: int
    end: str
    begun: int = 0
    caller: int = 0


class Records:
    """The records of a memo. `stacks` has of each thread what its stack had at the end of the record that was
    read last, and `storers` of each page the threads that stored to it."""

    def __init__(self, memo):
        self.memo, self.stacks, self.storers = memo, {}, {}

    def read(self, code):
        """The records, one after the other. `code` finds who called."""
        callers = {}
        for step in self.memo.records:
            self.stored(step)
            record = Record(step.thread, step.number, step.count, step.start[0], step.finish[0], step.ended())
            record.begun = callers.get(step.thread, record.start)
            record.caller = callers[step.thread] = code.caller(record.finish, step.finish[SP], self.word)
            yield record

    def stored(self, step):
        """Keeps what a step stored on its thread's stack."""
        low = (STACKS + step.thread * STACK) // PAGE
        for page, (mask, data) in step.stores.items():
            self.storers.setdefault(page, set()).add(step.thread)
            if low <= page < low + STACK // PAGE:
                memos.store(self.stacks.setdefault(page, bytearray(PAGE)), mask, data)

    def word(self, address):
        """A word of a stack; 0 where nothing was stored."""
        page = self.stacks.get(address // PAGE)
        return int.from_bytes(page[address % PAGE:address % PAGE + 4], "little") if page else 0


def beside(address):
    """What an address is of that the executable doesn't have: the length, the input or a stack, and which byte of the
    input, or whose stack."""
    if LENGTH <= address < LENGTH + 4:
        return "length", 0
    if INPUT <= address < INPUT + MOST_INPUT:
        return "input", address - INPUT
    if STACKS <= address < STACKS + THREADS * STACK:
        return "stack", (address - STACKS) // STACK
    return None, 0


def on_stack(address):
    """Where on which stack an address is."""
    thread, offset = divmod(address - STACKS, STACK)
    return f"on the stack of thread {thread}, {STACK - offset} bytes below its top"


def symbols_for(tool, name, elf):
    """The symbols of an executable, which has to load what another one does; the tool ends if it doesn't."""
    try:
        found = symbols.Symbols(name, tool.content(name))
        if not found.are_of(elf):
            tool.refuse(2, f"{name} isn't the memo's guest: it has other code or data")
    except symbols.NoSymbols as why:
        tool.refuse(2, f"{name}: {why}")
    found.read_library()
    return found


def symbols_of(tool, name, elf, folder):
    """The symbols of a memo's guest, in the executable of this name; or without a name in the memo's own, which is
    written to a folder for that."""
    if name is not None:
        return symbols_for(tool, name, elf)
    file = pathlib.Path(folder) / "guest.elf"
    file.write_bytes(elf)
    found = symbols.found_in(str(file), elf)
    found.read_library()
    return found


class Code:
    """The code of an executable: its functions by `found`, its symbols, and which of them are the library's."""

    def __init__(self, found):
        self.found, self.frames = found, {}

    def word(self, address):
        for segment in self.found.segments:
            at = address - segment.address
            if 0 <= at and at + 4 <= len(segment.data):
                return int.from_bytes(segment.data[at:at + 4], "little")
        return 0

    def frame(self, pc):
        """How large the frame is at this pc, and where in it the return address is saved: by the first instructions of
        the function that make a frame. None where none does."""
        if pc not in self.frames:
            symbol = self.found.at(pc)
            size, saved = 0, None
            for at in range(symbol.address if symbol else pc, pc, 4):
                word = self.word(at)
                if word & 0xFFFFF == RAISE_SP and word >> 31 and not size:
                    size = 4096 - (word >> 20)
                elif size and word & 0x1FFF07F == SAVE_RA & 0x1FFF07F and word >> 20 & 31 == 1:
                    saved = (word >> 25) << 5 | word >> 7 & 31
                    break
            self.frames[pc] = (size, saved) if saved is not None else None
        return self.frames[pc]

    def own(self, record):
        """The address of the guest's own code that a step is of: where it began; and where it ended, if it was its
        thread's first, or began in the library for no line of the guest's."""
        return record.caller if record.number == 0 or self.found.is_library(record.begun) else record.begun

    def caller(self, pc, sp, word, ra=0):
        """Where the guest's own code called what came to this pc; the pc itself where that isn't found. ra is wanted if
        the pc isn't at a call, which clears it."""
        at = pc
        if ra and self.found.is_library(at) and self.frame(at) is None:
            at = ra - 4
        for _ in range(MOST_FRAMES):
            if not self.found.is_library(at):
                return at
            frame = self.frame(at)
            if frame is None:
                return pc
            at, sp = word(sp + frame[1]) - 4, sp + frame[0]
            if at <= 0:
                return pc
        return pc
