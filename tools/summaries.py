"""Sums up the lines of `ithreads why`: by what differed, how many steps were executed again and how many instructions
these have, and which changes of the guest would save most.

A step counts for the first thing that differs, which its line has. Its instructions are those of its record, so of the
run before; of a step without a record none are known.
"""
import re
import textwrap
from collections import Counter
from dataclasses import dataclass, field

from symbols import OF_FILES

PAGE = 4096
CHANGES = 3  # that are shown
LEAST_SHARE = 50  # a change that saves less than one of so many instructions isn't shown
ROWS = 20
WIDTH = 100
MOST_BESIDE = 5  # other variables that are shown of a page
OWN_PAGE = "a page of its own (`alignas(4096)`, or IT_PAGE_ALIGNED)"


@dataclass(frozen=True)
class Kind:
    """A kind of rows: what is advised for them, with names in braces, and whether each function has rows of its own."""

    advice: str = ""
    is_by_function: bool = False


KINDS = {
    "input": Kind(),
    "unnamed": Kind(),
    "own": Kind(),
    "variable": Kind("move `{name}`{by} to {own_page}. The page also has {beside}: {where} may need only one of these."),
    "heap": Kind("give {name}{by} pages of its own: one malloc of more than 2,032 bytes, or aligned_alloc(4096, ..), "
                 "for what one thread or one block of the input needs. {where} reads it."),
    "stack": Kind("move what {function} computes from its stack to a structure on {own_page}, one for each thread or "
                  "block of the input.", True),
    "shared stack": Kind("threads share data on {name}: {storing}{where} reads its page. Make the data static, or take "
                         "it from malloc, each thread's part on {own_page}."),
    "register": Kind("{where} keeps a value in {name} from call to call: a count, a total, a pointer or a result. Store "
                     "it before the call, on {own_page}, and load it when it is needed.", True),
    "length": Kind("{where} asks for the input's length. Ask in one thread only, and store what the others need to know "
                   "on pages of their own."),
    "path": Kind("{where} continues after another call than before: which call it makes depends on the edited data. Let "
                 "it make the same calls for any input.", True),
    "more": Kind("{where} makes more calls than before, and these steps have no record. Let the number of calls not "
                 "depend on the edited data.", True),
    "library": Kind(),
}
ALONE = ("`{name}`{by} shares its page with nothing, and {where} reads it. Give each thread, or each block of the input, "
         "a page of its own to store to, and let one thread add up.")
BY_ONE = ("one thread alone stores `{name}`{by} on a page that nothing shares, and {steps} steps read that: {where}. Let "
          "fewer, longer steps read it, with fewer calls between; or store what changes in another place than what these "
          "steps need.")
NUMBERED = "{where} uses objects that get numbers in another order. Initialise them before the threads are created."
OF_LIBRARY = {  # what is advised for the variables of a file of the C library
    "output.c": "{where} prints. Format by snprintf into memory on {own_page}, and print that in one thread, at the end.",
    "input.c": "{where} reads stdin in pieces. Read everything by one fread, before the threads are created.",
    "malloc.c": "{where} takes or frees memory. Take it before the threads are created, as many blocks each time.",
    "objects.c": NUMBERED,
    "rwlock.c": NUMBERED,
}
UNADVISED = {kind for kind, about in KINDS.items() if not about.advice} - {"library"}


@dataclass
class Row:
    """What differed for some steps: of which kind, its name, its pages, the steps, their instructions, where these
    are, and where the steps begin that stored it. `carried` are the steps behind those, and their instructions, that
    were executed since these left a register otherwise. `threads` are those that stored to the pages."""

    kind: str
    name: str
    pages: set = field(default_factory=set)
    steps: int = 0
    instructions: int = 0
    places: Counter = field(default_factory=Counter)
    stored: Counter = field(default_factory=Counter)
    beside: list = field(default_factory=list)
    threads: set = field(default_factory=set)
    carried: list = field(default_factory=lambda: [0, 0])

    def all_instructions(self):
        return self.instructions + self.carried[1]

    def where(self):
        """Where most of the instructions are."""
        return most_of(self.places)

    def page(self):
        """The pages, the first and how many more."""
        if not self.pages:
            return "-"
        more = len(self.pages) - 1
        return f"{min(self.pages):08x}" + (f" +{more}" if more else "")


def most_of(places):
    return places.most_common(1)[0][0] if places else None


def in_sentence(text):
    """A place, or a name that has one, as it stands in a sentence: with the line in parentheses."""
    return re.sub(r", ([^ ,]+:[0-9]+)", r" (\1)", text)


def function_of(place):
    """The function of a place, without its line."""
    return (place or "?").partition(",")[0]


class Summary:
    """The rows of an explained text, the one with most instructions first."""

    def __init__(self, explained):
        self.explained, self.rows, self.origins = explained, {}, {}
        for one in explained.reasons:
            self.add(one)
        self.sorted = sorted(self.rows.values(), key=lambda row: (-row.instructions, -row.steps, row.name))

    def add(self, one):
        record, page = self.explained.record(one), one.group(6)
        count = record.count if record else 0
        address = int(page, 16) + int(one.group(7)) if page else None
        place = self.explained.works_at(one)
        kind, name = self.target(one, address)
        function = function_of(place) if KINDS[kind].is_by_function else None
        row = self.rows.setdefault((kind, name, function), Row(kind, name))
        row.steps += 1
        row.instructions += count
        row.places[place] += max(count, 1)
        if address is not None:
            row.pages.add(address - address % PAGE)
            row.threads |= self.explained.storers.get(address // PAGE, set())
            row.beside = row.beside or self.explained.names_beside(address)
        if storer := self.explained.storer(one.group(8)):
            row.stored[storer] += 1
        self.carry(one, row, count)

    def carry(self, one, row, count):
        """Adds a step with another register to the row of the step by which that came."""
        thread, number = map(int, one.group(2, 3))
        origin = self.origins.get((thread, number - 1), row) if row.kind in ("register", "path") else row
        self.origins[thread, number] = origin
        if origin is not row and origin.kind not in UNADVISED:
            origin.carried[0] += 1
            origin.carried[1] += count
            row.carried[1] -= count

    def target(self, one, address):
        """What a step's line is of: its kind, and a name for it."""
        if address is None:
            if one.group(5) in (None, "0"):
                return ("path", "the pc") if one.group(5) else ("more", "no record")
            return "register", f"register {self.explained.register(one)}"
        return self.explained.target(address, int(one.group(2)))

    def text(self):
        """The table, and the changes."""
        rows, instructions = self.sorted, sum(row.instructions for row in self.sorted)
        steps = sum(row.steps for row in rows)
        yield f"why {steps}\n"
        if not rows:
            return
        yield f"{steps:,} steps of {instructions:,} instructions are executed again. By what differs first:\n\n"
        yield f"{'steps':>7}  {'instructions':>12}  {'page':11}  what\n"
        for row in rows[:ROWS]:
            yield f"{row.steps:7,}  {row.instructions:12,}  {row.page():11}  {row.name}{self.places(row)}\n"
        if more := rows[ROWS:]:
            yield f"{sum(row.steps for row in more):7,}  {sum(row.instructions for row in more):12,}  {'':11}  others\n"
        changes = [row for row in rows if advice(row) and row.all_instructions() * LEAST_SHARE >= max(instructions, 1)]
        changes = sorted(changes, key=lambda row: -row.all_instructions())[:CHANGES]
        if changes:
            yield "\nChanges that would save most:\n"
        for number, row in enumerate(changes, 1):
            words = f"{self.counts(row)}: {advice(row)}"
            yield textwrap.fill(words, WIDTH, initial_indent=f"{number}. ", subsequent_indent="   ") + "\n"

    @staticmethod
    def counts(row):
        """The steps that a change would save, and their instructions."""
        text = f"{row.steps:,} step{'s' * (row.steps > 1)}, {row.instructions:,} instructions"
        if row.carried[0]:
            text += f", and {row.carried[0]:,} behind them for what these leave in registers, {row.carried[1]:,}"
        return text

    @staticmethod
    def places(row):
        where, stored = row.where(), most_of(row.stored)
        text = f", in {where}" if where else ""
        return text + (f"; stored by {stored}" if stored and row.pages else "")


def advice_for(row):
    """What is advised for a row, with names in braces; nothing if there is no change to advise, as for what was
    edited."""
    if row.kind == "library":
        return next((text for file, text in OF_LIBRARY.items() if row.name.startswith(OF_FILES[file])), "")
    if row.kind == "variable" and not row.beside:
        return BY_ONE if len(row.threads) == 1 and row.steps > 1 else ALONE
    return KINDS[row.kind].advice


def advice(row):
    """The change that saves a row's steps, if they don't need what differs."""
    where, stored = in_sentence(row.where() or "a step"), in_sentence(most_of(row.stored) or "")
    by, storing = (f", which {stored} stores,", f"{stored} stores there, and ") if stored else ("", "")
    beside = ", ".join(row.beside[:MOST_BESIDE]) + (", .." if row.beside[MOST_BESIDE:] else "")
    return advice_for(row).format(name=in_sentence(row.name), by=by, storing=storing, where=where, beside=beside,
                                  steps=row.steps, own_page=OWN_PAGE, function=function_of(row.where() or "a step"))
