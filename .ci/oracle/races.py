"""Which steps of a run race, pair by pair, by the steps of the machine: the text that `ithreads races` has to print."""
from .history import History

MOST = 10_000


def ancestors(steps):
    """Of each step the steps that come before it by threads and objects alone, as the bits of a number."""
    history, before = History(steps), []
    for place, step in enumerate(steps):
        direct = {history.giver(place)}
        direct.update(earlier for earlier in range(place) if steps[earlier].record.thread == step.record.thread
                      or steps[earlier].objects & step.objects)
        found = 0
        for earlier in direct - {None}:
            found |= before[earlier] | 1 << earlier
        before.append(found)
    return before


def pairs(steps):
    """The races: both places, the page, and for each whether it stores to the page."""
    history, before = History(steps), ancestors(steps)
    givers = [history.giver(place) for place in range(len(steps))]
    seen = [0 if giver is None else before[giver] | 1 << giver for giver in givers]
    stored = [set(step.record.stores) for step in steps]
    touched = [stores.union(step.record.reads) for stores, step in zip(stored, steps)]
    for i, earlier in enumerate(steps):
        for j in range(i + 1, len(steps)):
            if steps[j].record.thread != earlier.record.thread and not seen[j] >> i & 1:
                for page in sorted(touched[i] & touched[j] & (stored[i] | stored[j])):
                    yield i, j, page, page in stored[i], page in stored[j]


def races(steps):
    """The text for a memo of these steps."""
    found = list(pairs(steps))
    lines = (f"race {i} {j} page {page << 12:08x} {'rw'[first]}{'rw'[second]}\n"
             for i, j, page, first, second in found[:MOST])
    return f"races {len(found)}\n{''.join(lines)}"
