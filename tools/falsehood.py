"""The first false step of a memo, by `ithreads audit`; and what differs there, by the machine of machine.py, which
shares no code with the program. The steps before it are true, so it follows them from scratch and then makes the step
itself."""
import pathlib

import memos
from machine import Image, Machine
from running import ran

PROGRAM = pathlib.Path(__file__).resolve().parent.parent / "ithreads"
DISHONEST = 11  # the status of an audit that finds a false record


def first(tool, name):
    """The place of the first false step of a memo; none if it is honest."""
    done = ran(PROGRAM, "audit", "--", name)
    if done.status not in (0, DISHONEST):
        tool.refuse(2, f"ithreads ended with status {done.status}: {done.last_error()}")
    return int(done.printed.split()[-1]) if done.status else None


class Watched(Machine):
    """A machine that keeps what its last step stored."""

    def commit(self, view, own):
        self.stored = {page: {place: data[place] for place in range(len(data)) if mask[place]}
                       for page, (_, _, data, mask) in own.items()}
        super().commit(view, own)


def bytes_of(mask, data):
    """The stored bytes of a page, by their places."""
    marked = (place for first, behind in memos.runs(mask) for place in range(first, behind))
    return dict(zip(marked, data))


def differences(memo, place):
    """What differs at the step of a place, in words: each thing that the memo says, and that the machine finds. None is
    there where only the read pages differ."""
    record = memo.records[place]
    machine = Watched(Image(memo.elf), memo.input, memo.fuel, memo.steps)
    machine.follow([earlier.thread for earlier in memo.records[:place]]).step(record.thread)
    step, x = machine.steps[-1], list(machine.threads[record.thread].x)
    if step.end.startswith("call"):
        x[10], x[11] = step.first, step.second
    made = f"trap {machine.ended.split()[-1]}" if step.end == "trap" else step.end
    if record.ended() != made:
        yield f"end: {record.ended()}, and the machine's is {made}"
    if record.count != step.count:
        yield f"count: {record.count}, and the machine makes {step.count} turns"
    for register, (recorded, found) in enumerate(zip(record.finish, [step.pc, *x[1:]])):
        if recorded != found:
            yield f"{f'register x{register}' if register else 'pc'}: {recorded:08x}, and the machine has {found:08x}"
    yield from differing_stores({page: bytes_of(*stored) for page, stored in record.stores.items()}, machine.stored)


def differing_stores(recorded, found):
    """The first stored byte of each page that differs, in words."""
    for page in sorted(recorded.keys() | found.keys()):
        one, other = recorded.get(page, {}), found.get(page, {})
        at = next((at for at in sorted(one.keys() | other.keys()) if one.get(at) != other.get(at)), None)
        if at is not None:
            old, new = (f"{byte:02x}" if byte is not None else "nothing" for byte in (one.get(at), other.get(at)))
            yield f"stored byte at {page * 4096 + at:08x}: {old}, and the machine stores {new}"


def sentences(memo, place):
    """The lines that say what is false."""
    record, found = memo.records[place], list(differences(memo, place))
    yield f"step {place}, of thread {record.thread}, number {record.number}, is false:"
    pages = "its read pages, which aren't those that the machine takes bytes from"
    yield from (f"    {line}" for line in found or [pages])
