"""For what each step of a round of one worker is executed: the text that `ithreads why` has to print."""
from .history import execute, lone_pick


def storer(machine, number, page, place):
    """The last step that stored a byte, of those up to the one that gave a thread its view; or `start`."""
    giver = next((step for step in reversed(range(len(machine.steps))) if number in machine.steps[step].given), -1)
    storers = (step for step in range(giver, -1, -1)
               if machine.steps[step].record.stores.get(page, (0,))[0] >> place & 1)
    return next(storers, "start")


def reason(machine, number, record):
    """Why a record doesn't fit the next step of a thread: the first that differs."""
    if record is None:
        return "none"
    thread = machine.threads[number]
    for register, (now, was) in enumerate(zip(thread.registers, record.start)):
        if now != was:
            return f"register {register} now {now} was {was}"
    for page in sorted(record.reads):
        for place, (now, was) in enumerate(zip(thread.view[page], record.reads[page])):
            if now != was:
                by = storer(machine, number, page, place)
                return f"page {page << 12:08x} at {place} now {now} was {was} by {by}"
    return "nothing that is known"


def reasons(machine, past, step=execute):
    """The text for a round behind an earlier one, which is made on a machine at its start; `step` says how."""
    lines = []
    while machine.ended is None:
        number = lone_pick(machine, past)
        place, record = len(machine.steps), past.next_record(machine, number)
        if not machine.fits(number, record):
            made = machine.threads[number].made
            lines.append(f"step {place} thread {number} number {made} {reason(machine, number, record)}\n")
        step(machine, past, number)
    return f"why {len(lines)}\n{''.join(lines)}"
