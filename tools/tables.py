"""Draws the steps of rounds as tables for a terminal: a row for each step, a column for each thread. `thread_exit` is
written short, as `exit`.
"""
import reports

STEP = 8  # the columns of a step's number
BETWEEN = 3  # spaces between threads
GAP = 7  # more spaces between rounds


def name_of(step):
    """The call's name, where it is known."""
    return (step.call or "").removeprefix("thread_")


class Table:
    """The columns of a round."""

    def __init__(self, report, steps):
        self.report, self.steps = report, steps
        self.threads = sorted({step.thread for step in steps})
        self.name = max(len(name_of(step)) for step in steps)
        self.width = max(len(f"thread {self.threads[-1]}"), self.name + 2) + BETWEEN
        self.has_reasons = any(step.reason or step.falsehoods for step in steps)

    def columns(self):
        return self.width * len(self.threads)

    def heads(self):
        """The round's line, and the threads'."""
        one = self.report
        head = f"round {one.number}: {reports.end_text(one.end)}, {one.reused} of {one.steps} reused"
        return head, "".join(f"thread {thread}".ljust(self.width) for thread in self.threads)

    def row(self, place):
        """A step in its thread's column, or nothing behind the last."""
        if place >= len(self.steps):
            return ""
        step = self.steps[place]
        name = f"{name_of(step):{self.name}} " if self.name else ""
        return " " * (self.width * self.threads.index(step.thread)) + name + ("=" if step.is_reused else "+")

    def reason(self, place):
        if place >= len(self.steps):
            return ""
        step = self.steps[place]
        head, rest = step.falsehoods[:1], "; ".join(line.strip() for line in step.falsehoods[1:])
        return "; ".join([step.reason] * bool(step.reason) + [f"{line} {rest}" for line in head])


def blocks(made, columns):
    """The rounds that stand beside each other: reasons stand behind the last one alone."""
    block = []
    for table in made:
        used = STEP + sum(other.columns() + GAP for other in block)
        if block and (used + table.columns() > columns or block[-1].has_reasons):
            yield block
            block = []
        block.append(table)
    yield block


def lines_of(block):
    """The lines of a block. Where a round's head takes more room than its threads, all its columns do."""
    widths = [max(table.columns() + GAP, len(table.heads()[0]) + BETWEEN) for table in block]

    def line(first, cells):
        return (first.ljust(STEP) + "".join(cell.ljust(width) for cell, width in zip(cells, widths))).rstrip()

    yield line("", [table.heads()[0] for table in block])
    yield line("step", [table.heads()[1] for table in block])
    for place in range(max(len(table.steps) for table in block)):
        made, reason = line(f"{place:3}", [table.row(place) for table in block]), block[-1].reason(place)
        yield f"{made.ljust(STEP + sum(widths[:-1]) + block[-1].columns())}<-- {reason}" if reason else made


def tables(known, columns):
    """The tables of all rounds, each line with its newline."""
    made = [Table(known.reports[number], known.steps[number]) for number in sorted(known.steps)]
    for count, block in enumerate(blocks(made, columns)):
        yield "\n" * bool(count) + "\n".join(lines_of(block)) + "\n"
