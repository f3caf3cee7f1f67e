"""What the program has to answer to a memo, true or not: the status, the printed bytes, and the text on standard error.
The machine applies the records, one behind the other; a false one that fits is repeated."""
import memos

from . import audits, reasons
from .history import History, alone, changed_pages, reuse
from .machine import Machine
from .made_memos import memo_of
from .rounds import edited, report_of, text_of


class Refused(Exception):
    """The memo is refused for this."""


def start(memo, data):
    """The machine at the start of a round on an input, with the limits of a memo."""
    return Machine(memo.image, memo.fuel, memo.steps, data)


def followed(memo):
    """The machine behind all records of a memo."""
    machine = start(memo, memo.input)
    for place, record in enumerate(memo.records):
        if machine.ended is not None or not machine.is_ready(record.thread) or not machine.fits(record.thread, record):
            raise Refused(f"Incoherent {place}")
        machine.apply(record)
    if machine.ended is None:
        raise Refused(f"Incoherent {len(memo.records)}")
    return machine


def taken(data):
    """The memo in some bytes, and the machine behind its records."""
    try:
        memo = memos.read(data)
    except memos.NotMemo as why:
        raise Refused(why.word) from why
    return memo, followed(memo)


def rerun(data, *lists):
    """The answer to `rerun` with edit lists and `--reach`, by one worker; and the memo that it writes."""
    memo, machine = taken(data)
    given, text, ended = memo.input, b"", []
    for number, edits in enumerate(lists or [""], 1):
        past, before, given = History(machine.steps), start(memo, given), edited(given, edits)
        machine = start(memo, given)
        reached = sum(past.reached(changed_pages(machine, before)))
        schedule = alone(machine, past, reuse)
        text += text_of(report_of(machine, schedule, number=number, reached=reached))
        ended.append(machine.ended)
    written = memo_of(memo.elf, given, memo.fuel, memo.steps, [step.record for step in machine.steps])
    return (0 if all(end.startswith("exit ") for end in ended) else 1, text, ""), written


def why(data, edits):
    """The answer to `why`."""
    memo, machine = taken(data)
    again = start(memo, edited(memo.input, edits))
    return 0, reasons.reasons(again, History(machine.steps), reuse).encode(), ""


def show(data):
    """The answer to `show`."""
    memo, _ = taken(data)
    return 0, "".join(f"{line}\n" for line in memo.listing()).encode(), ""


def audit(data):
    """The answer to `audit`."""
    memo, _ = taken(data)
    return audits.audit(memo)


def answer(question, *words):
    """The answer of one of the above; or that to a memo that is refused."""
    try:
        return question(*words)
    except Refused as refusal:
        return 4, b"", f"memo: {refusal}\n"
