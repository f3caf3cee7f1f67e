"""Draws the steps of rounds as an SVG that needs nothing else: rounds beneath each other, a lane for each thread, and
in it a box for each step, in the order of the schedule from left to right.

A box is the wider the more instructions its step has, where that is known, by one scale for all rounds. Executed steps
are orange and hatched, reused ones light blue and plain, which the colour-blind can distinguish too. A round of
more than FOLDED steps is folded: by function, if functions are known, so that the steps of a lane that follow each
other in one function, all executed or all reused, are one box; and then by time, so that the boxes of a lane in one
column are one. The hatched part of a box is as high as its share of executed steps, and never too low to be seen. Boxes
that touch each other and have steps of one kind and one function alone are one, too.
"""
from collections import Counter
from dataclasses import dataclass
from xml.sax.saxutils import escape

import reports

FOLDED = 200  # steps of a round that are drawn one by one
MOST_BOXES = 8000  # of a picture, about
COLUMN = 4  # the least width of a column of a round that is folded
LEAST_HIGH = 5  # of what was executed
LISTED = 3  # of the calls and the places that the title of a box of several steps has
MARGIN, LABELS = 16, 78  # beside the picture, and for the names of lanes
LANE, BOX, HEAD, GAP = 36, 22, 30, 26  # heights: of a lane, a box, a round's heading, and between rounds
INSIDE, MOST_INSIDE, FOLDED_INSIDE = 1000, 3000, 1250  # the widths that all steps of a round may take
STEP = 7  # the least width of a box, if there is room
SHARE = 0.45  # of the width is by instructions
STYLE = """
text { font: 12px system-ui, 'DejaVu Sans', sans-serif; fill: #222; }
.head { font-weight: bold; }
.call { font-size: 10.5px; text-anchor: middle; paint-order: stroke; stroke: #fff; stroke-width: 3px; }
.lane { stroke: #bbb; }
.reused { fill: #cfe6f7; stroke: #0072b2; }
.executed { fill: url(#hatch); stroke: #6b4500; }
.waits, .forever { stroke: #555; stroke-width: 2; stroke-dasharray: 2 4; }
.forever { marker-end: url(#never); }
.wakes { stroke: #333; stroke-width: 1.3; fill: none; marker-end: url(#woken); }
.why { stroke: #b3123a; stroke-width: 2; stroke-linejoin: round; fill: none; marker-end: url(#cause); }
.false { stroke: #d00000; stroke-width: 3; fill: none; }
.race { stroke: #7a3db8; stroke-width: 1.5; stroke-dasharray: 4 3; fill: none; }
.edit { fill: #b3123a; }
g:hover > rect { stroke-width: 3; }
"""
DEFINITIONS = """<defs>
<pattern id="hatch" patternUnits="userSpaceOnUse" width="6" height="6" patternTransform="rotate(45)">
<rect width="6" height="6" fill="#f5b942"/><path d="M1 0V6" stroke="#a86a00" stroke-width="2"/></pattern>
<marker id="woken" viewBox="0 0 8 8" refX="7" refY="4" markerWidth="7" markerHeight="7" orient="auto">
<path d="M0 0L8 4L0 8z" fill="#333"/></marker>
<marker id="never" viewBox="0 0 8 8" refX="4" refY="4" markerWidth="5" markerHeight="5">
<path d="M1 1L7 7M7 1L1 7" stroke="#333" stroke-width="2"/></marker>
<marker id="cause" viewBox="0 0 8 8" refX="7" refY="4" markerWidth="5" markerHeight="5" orient="auto">
<path d="M0 0L8 4L0 8z" fill="#b3123a"/></marker>
</defs>
"""


@dataclass
class Box:
    """Steps of one lane that are drawn as one: where, how many of them were executed, and the function that all are in;
    None if they are in several, or that isn't known."""

    steps: list
    left: float
    right: float
    executed: int
    function: str | None = None

    def add(self, other):
        """Takes the steps of another box."""
        self.steps += other.steps
        self.executed += other.executed
        self.function = self.function if self.function == other.function else None

    def is_as(self, other):
        """Whether its steps and those of another box are all of one kind and in one function."""
        return self.kinds() == other.kinds() != (True, True) and self.function == other.function

    def kinds(self):
        """Whether there are reused steps, and executed ones."""
        return self.executed < len(self.steps), self.executed > 0

    def name(self):
        """What is written in it: its step's call, or the function of its steps."""
        return self.steps[0].call if len(self.steps) == 1 else self.function


# Texts.


def clean(text):
    """A text as XML may have it."""
    return escape("".join(one if one.isprintable() or one == "\n" else "?" for one in text), {'"': "&quot;"})


def listed(pages):
    return ", ".join(pages) if pages else "nothing"


def step_text(step):
    """All that is known of a step, in lines."""
    lines = [f"step {step.place}: thread {step.thread}, number {step.number}, "
             f"{'reused' if step.is_reused else 'executed'}", step.text]
    lines += [None if step.function is None else f"in {step.function}"]
    lines += [None if step.count is None else f"{step.count:,} instructions"]
    lines += [None if step.reads is None else f"reads {listed(step.reads)}; writes {listed(step.writes)}"]
    lines += [None if step.reason is None else f"executed, since: {step.reason}", *step.notes, *step.falsehoods]
    return "\n".join(line for line in lines if line)


def steps_text(box):
    """What is known of several steps together, in lines."""
    first, last, executed = box.steps[0], box.steps[-1], box.executed
    counts = [step.count for step in box.steps]
    lines = [f"steps {first.place} to {last.place} of thread {first.thread}, its numbers {first.number} to "
             f"{last.number}: {len(box.steps) - executed} reused, {executed} executed"]
    lines += [] if None in counts else [f"{sum(counts):,} instructions"]
    lines += most_of("in", (step.function for step in box.steps if step.function))
    lines += most_of("calls", (step.call for step in box.steps if step.call))
    notes = (step.notes[0] for step in box.steps if step.notes)
    lines += most_of("executed", (note for note in notes if note.startswith("from ")))
    return "\n".join(lines)


def most_of(what, names):
    """The most frequent of some names, in a line; none where there are none."""
    counts = Counter(names)
    text = ", ".join(f"{count} {name}" for name, count in counts.most_common(LISTED))
    return [f"{what}: {text}{', ..' if len(counts) > LISTED else ''}"] if text else []


def heading(report):
    end, counts = reports.end_text(report.end), f"{report.reused:,} reused and {report.executed:,} executed"
    counts += "" if report.reached is None else f", {report.reached:,} reached"
    return (f"round {report.number}: {end}, {report.steps:,} steps, {counts}, {report.instructions:,} instructions, "
            f"output of {len(report.output):,} bytes")


# Where things stand.


class Scale:
    """How wide steps are, by the most steps and the most instructions of a round."""

    def __init__(self, rounds):
        count = max(map(len, rounds))
        known = max(sum(step.count or 0 for step in steps) for steps in rounds)
        inside = FOLDED_INSIDE if count > FOLDED else min(MOST_INSIDE, max(INSIDE, STEP * count / (1 - SHARE)))
        self.least = inside * (1 - SHARE if known else 1) / count
        self.scale = inside * SHARE / known if known else 0
        self.average = known / count

    def edges(self, steps):
        """The left edges of the steps of a round, and the right one of the last."""
        made = [float(MARGIN + LABELS)]
        for step in steps:
            count = self.average if step.count is None else step.count
            made.append(made[-1] + self.least + self.scale * count)
        return made


def boxes_of(steps, places, column):
    """The boxes of a round, by lanes: one for each step, where there aren't too many."""
    lanes = {}
    for step in steps:
        box = Box([step], places[step.place], places[step.place + 1], int(not step.is_reused), step.function)
        lanes.setdefault(step.thread, []).append(box)
    if len(steps) > FOLDED:
        lanes = {thread: joined(in_columns(by_function(boxes), column)) for thread, boxes in lanes.items()}
    return lanes


def by_function(boxes):
    """The boxes of a lane, of which those that follow each other in one function and are of one kind are one."""
    return joined(boxes, lambda before, box: box.function is not None)


def in_columns(boxes, column):
    """The boxes of a lane, of which those that are narrow and in one column are one, as wide as that."""
    made, last = [], None
    for box in boxes:
        at = int(box.left / column) if box.right - box.left < column else None
        if at is not None and at == last:
            made[-1].add(box)
        elif at is not None:
            made.append(Box(box.steps, at * float(column), (at + 1) * float(column), box.executed, box.function))
        else:
            made.append(box)
        last = at
    for box, other in zip(made, made[1:]):
        box.right = max(box.left, min(box.right, other.left))
    return made


def touch(before, box):
    return box.left - before.right < 1


def joined(boxes, may=touch):
    """The boxes of a lane, of which those that follow each other and have steps of one kind and in one function are one,
    if they may."""
    made = boxes[:1]
    for box in boxes[1:]:
        before = made[-1]
        if before.is_as(box) and may(before, box):
            before.add(box)
            before.right = box.right
        else:
            made.append(box)
    return made


# What is drawn.


def element(name, title, **attributes):
    """An element, with a title that is shown where the mouse points at it."""
    written = "".join(f' {key}="{round(value, 1) if isinstance(value, float) else value}"' for key, value in
                      attributes.items())
    return f"<{name}{written}><title>{clean(title)}</title></{name}>\n" if title else f"<{name}{written}/>\n"


def label(x, y, text, kind):
    return f'<text class="{kind}" x="{x:.1f}" y="{y:.1f}">{clean(text)}</text>\n'


class Drawing:
    """A round: its steps, where they stand, and its lanes from a height on."""

    def __init__(self, report, steps, places, top):
        self.report, self.steps, self.places, self.top = report, steps, places, top
        threads = sorted({step.thread for step in steps} | {step.begins for step in steps if step.begins is not None})
        self.lanes = {thread: top + HEAD + LANE * row + LANE / 2 for row, thread in enumerate(threads)}
        self.bottom = top + HEAD + LANE * len(threads)

    def lane_lines(self):
        """A line for each thread, from where it begins to its last step."""
        begun = {step.begins: self.places[step.place + 1] for step in self.steps if step.begins is not None}
        first = {step.thread: step.place for step in reversed(self.steps)}
        last = {step.thread: step.place for step in self.steps}
        for thread, y in self.lanes.items():
            left = begun.get(thread, self.places[first.get(thread, 0)])
            right = self.places[last.get(thread, len(self.steps) - 1) + 1]
            yield label(MARGIN, y + 4, f"thread {thread}", "name")
            yield element("path", "", **{"class": "lane"}, d=f"M{left:.1f} {y}H{right:.1f}")

    def box(self, box):
        """A box, and in it the name of its call, if there is room."""
        y, width, executed = self.lanes[box.steps[0].thread] - BOX / 2, box.right - box.left, box.executed
        title = step_text(box.steps[0]) if len(box.steps) == 1 else steps_text(box)
        high = max(BOX * executed / len(box.steps), LEAST_HIGH if executed else 0)
        made = (f'<g class="steps" data-count="{len(box.steps)}" data-executed="{executed}">'
                f"<title>{clean(title)}</title>\n")
        for kind, at, height in (("reused", y, BOX), ("executed", y + BOX - high, high)):
            if height and (kind == "executed" or executed < len(box.steps)):
                made += element("rect", "", **{"class": kind}, x=box.left, y=at, width=width, height=height)
        if any(step.falsehoods for step in box.steps):
            made += element("rect", "", **{"class": "false"}, x=box.left, y=y, width=width, height=BOX)
        name = box.name()
        if name and width > 5.9 * len(name) + 4:
            made += label(box.left + width / 2, y + BOX / 2 + 4, name, "call")
        return made + "</g>\n"

    def boxes(self, column):
        for boxes in boxes_of(self.steps, self.places, column).values():
            yield from map(self.box, boxes)

    def waits(self):
        """For each step that waits, a line up to where its thread is woken; to a cross, where it never is."""
        woken = {}
        for step in reversed(self.steps):
            if step.waits:
                y, left, place = self.lanes[step.thread], self.places[step.place + 1], woken.pop(step.thread, None)
                right, kind = (self.places[-1] + 7, "forever") if place is None else (self.places[place + 1], "waits")
                yield element("path", f"thread {step.thread} {step.waits}", **{"class": kind},
                              d=f"M{left:.1f} {y}H{right:.1f}")
            woken.update({thread: step.place for thread in step.wakes})

    def wakes(self):
        """For each step that wakes or begins threads, an arrow to each."""
        for step in self.steps:
            x = self.places[step.place + 1]
            for thread in [*step.wakes, *([] if step.begins is None else [step.begins])]:
                start, end = self.lanes[step.thread], self.lanes.get(thread, self.lanes[step.thread])
                start += BOX / 2 if end > start else -BOX / 2
                what = "begins" if thread == step.begins else "wakes"
                yield element("path", f"step {step.place}, of thread {step.thread}, {what} thread {thread}",
                              **{"class": "wakes"}, d=f"M{x:.1f} {start}V{end}")

    def reasons(self):
        """For each executed step whose reason is known, an arrow from the step that changed something for it."""
        before = {}
        for step in self.steps:
            cause = before.get(step.thread) if (step.reason or "").startswith("register") else step.stored_by
            before[step.thread] = step.place
            if cause is not None:
                yield self.cause(self.steps[cause], step)
            elif (step.reason or "").startswith("page c0"):
                x, y = self.middle(step), self.lanes[step.thread] - BOX / 2 - 1
                yield element("path", f"step {step.place}: {step.reason}", **{"class": "edit"},
                              d=f"M{x:.1f} {y}l-5 -8h10z")

    def races(self):
        """For each pair of steps that touch a page without an order, a line between their boxes."""
        for step in self.steps:
            for place, page in step.races:
                later = self.steps[place]
                yield element("path", f"step {step.place} races with step {place} for page {page}", **{"class": "race"},
                              d=f"M{self.middle(step):.1f} {self.lanes[step.thread]}"
                                f"L{self.middle(later):.1f} {self.lanes[later.thread]}")

    def middle(self, step):
        return (self.places[step.place] + self.places[step.place + 1]) / 2

    def cause(self, step, later):
        """An arrow from a step to a later one that was executed for it: in its lane, or beside that, and then in the
        column of the later one, where no other box is."""
        x, end, y, there = self.middle(step), self.middle(later), self.lanes[step.thread], self.lanes[later.thread]
        if (step.thread, step.number + 1) == (later.thread, later.number):
            path = f"M{self.places[step.place + 1]:.1f} {y + 5}H{self.places[later.place]:.1f}"
        else:
            side = 1 if there > y else -1
            there += side * BOX / 2 if there == y else -side * BOX / 2
            path = f"M{x:.1f} {y + side * BOX / 2}V{y + side * LANE / 2}H{end:.1f}V{there}"
        return element("path", f"step {later.place} is executed for what step {step.place} did: {later.reason}",
                       **{"class": "why"}, d=path)

    def round(self, column):
        """All of the round."""
        return f'<g class="round" data-number="{self.report.number}">\n{"".join(self.parts(column))}</g>\n'

    def parts(self, column):
        """The parts of the round, the lowest first."""
        yield label(MARGIN, self.top + 14, heading(self.report), "head")
        yield from self.lane_lines()
        lines = len(self.steps) <= FOLDED
        yield from self.waits() if lines else ()
        yield from self.boxes(column)
        yield from self.wakes() if lines else ()
        yield from self.reasons() if lines else ()
        yield from self.races() if lines else ()


SIGNS = [("reused", '<rect class="reused" x="0" y="-10" width="22" height="14"/>', "reused"),
         ("executed", '<rect class="executed" x="0" y="-10" width="22" height="14"/>', "executed"),
         ("waits", '<path class="waits" d="M0 -4H22"/>', "waits"),
         ("forever", '<path class="forever" d="M0 -4H18"/>', "waits for ever"),
         ("wakes", '<path class="wakes" d="M0 -4H22"/>', "wakes, or begins"),
         ("edit", '<path class="edit" d="M11 2l-5 -8h10z"/>', "reads what was edited"),
         ("why", '<path class="why" d="M0 -4H22"/>', "changed what the other reads"),
         ("race", '<path class="race" d="M0 -4H22"/>', "touch a page without an order"),
         ("false", '<rect class="false" x="0" y="-10" width="22" height="14"/>', "is false in the memo")]


def legend(drawn, x, y):
    """What the signs mean that were drawn."""
    for kind, sign, text in SIGNS:
        if f'class="{kind}"' in drawn:
            yield f'<g transform="translate({x} {y})">{sign}<text x="28" y="1">{text}</text></g>\n'
            x += 52 + 7 * len(text)


def picture(known):
    """The SVG of some rounds."""
    numbers = sorted(known.reports)
    scale = Scale([known.steps[number] for number in numbers])
    drawings, top, right = [], MARGIN + 30, 0.0
    for number in numbers:
        places = scale.edges(known.steps[number])
        drawings.append(Drawing(known.reports[number], known.steps[number], places, top))
        top, right = drawings[-1].bottom + GAP, max(right, places[-1])
    column = max(COLUMN, -(-FOLDED_INSIDE * sum(len(drawing.lanes) for drawing in drawings) // MOST_BOXES))
    drawn = "".join(drawing.round(column) for drawing in drawings)
    width, height = round(right + MARGIN), round(top - GAP + MARGIN)
    size = f'width="{width}" height="{height}"'
    yield (f'<svg xmlns="http://www.w3.org/2000/svg" {size} viewBox="0 0 {width} {height}">\n'
           f"<title>Steps of {f'{len(numbers)} rounds' if numbers[1:] else 'a round'}</title>\n<style>{STYLE}</style>\n{DEFINITIONS}"
           f'<rect {size} fill="#fff"/>\n')
    yield from legend(drawn, MARGIN, MARGIN + 12)
    yield f"{drawn}</svg>\n"
