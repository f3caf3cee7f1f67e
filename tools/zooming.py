"""Makes of the steps of rounds a page of HTML that needs nothing else, and in which each step can be zoomed to: its
drawing is in timeline.html beside this file, and the steps are in it as JSON."""
import json
import pathlib

import pictures

PAGE = pathlib.Path(__file__).resolve().parent / "timeline.html"


class Table:
    """Texts by numbers, each once."""

    def __init__(self):
        self.numbers = {"": 0}

    def number(self, text):
        return self.numbers.setdefault(text or "", len(self.numbers))

    def texts(self):
        return list(self.numbers)


def more_of(step):
    """What is known of a step, without its line and its instructions."""
    return "\n".join(line for line in pictures.step_text(step).split("\n")[1:] if not line.endswith(" instructions"))


def lines_of(steps):
    """Who waits, who wakes or begins whom, and which step was executed for what another one did: a kind, the two steps,
    and the threads."""
    woken, before = {}, {}
    for step in reversed(steps):
        if step.waits:
            yield ["waits", step.place, woken.pop(step.thread, len(steps) - 1), step.thread, step.thread]
        for thread in step.wakes:
            woken[thread] = step.place
            yield ["wakes", step.place, step.place, step.thread, thread]
        if step.begins is not None:
            yield ["wakes", step.place, step.place, step.thread, step.begins]
    for step in steps:
        cause = before.get(step.thread) if (step.reason or "").startswith("register") else step.stored_by
        before[step.thread] = step.place
        if cause is not None:
            yield ["why", cause, step.place, steps[cause].thread, step.thread]


def round_of(report, steps, names, texts):
    """What the page has of a round."""
    lanes = {step.thread for step in steps} | {step.begins for step in steps if step.begins is not None}
    made = {"head": pictures.heading(report), "lanes": sorted(lanes), "threads": [step.thread for step in steps],
            "marks": "".join("=" if step.is_reused else "+" for step in steps),
            "lines": [line for line in lines_of(steps) if line[4] in lanes]}
    if any(step.count is not None for step in steps):
        made["counts"] = [step.count for step in steps]
    if any(step.call for step in steps):
        made["calls"] = [names.number(step.call) for step in steps]
    if any(more_of(step) for step in steps):
        made["texts"] = [texts.number(more_of(step)) for step in steps]
    return made


def page(known):
    """The HTML of some rounds."""
    numbers, names, texts = sorted(known.reports), Table(), Table()
    scale = pictures.Scale([known.steps[number] for number in numbers])
    rounds = [round_of(known.reports[number], known.steps[number], names, texts) for number in numbers]
    width = max(scale.edges(known.steps[number])[-1] for number in numbers) - scale.edges([])[0]
    data = {"width": width, "least": scale.least, "scale": scale.scale, "average": scale.average, "rounds": rounds,
            "names": names.texts(), "texts": texts.texts()}
    title = f"Steps of {f'{len(numbers)} rounds' if numbers[1:] else 'a round'}"
    text = json.dumps(data, separators=(",", ":")).replace("<", "\\u003c")
    yield PAGE.read_text().replace("TITLE", title, 1).replace("DATA", text, 1)
