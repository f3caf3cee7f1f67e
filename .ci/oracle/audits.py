"""What `ithreads audit` finds of a memo: the machine executes each step behind the records before it."""
from .machine import Machine


def verdict(memo):
    """The turns of all thunks of a memo that holds together, and the place of the first false record, if any is."""
    machine, turns, first = Machine(memo.image, memo.fuel, memo.steps, memo.input), 0, None
    for place, record in enumerate(memo.records):
        made = machine.execute(record.thread)
        turns += made.count
        if made != record and first is None:
            first = place
        machine.apply(record)
    return turns, first


def audit(memo):
    """The status, the printed bytes, and the line on standard error."""
    turns, first = verdict(memo)
    found = "honest" if first is None else f"false {first}"
    printed = f"audit {len(memo.records)}\ninstructions {turns}\n{found}\n".encode()
    return (0, printed, "") if first is None else (11, printed, f"{found}\n")
