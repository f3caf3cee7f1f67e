"""Reads edit lists and does them to inputs, by docs/FORMATS.md; it shares no code with the program."""
import re
from dataclasses import dataclass

MOST_BYTES = 1_048_576  # of an input, and of a list
SHOWN = 24  # bytes of what stands there


class Refused(Exception):
    """A line of a list is refused: which, with the word of the program, and why."""


class BadLine(Exception):
    """A line is no edit: at `place` something else is `wanted`."""

    def __init__(self, line, place, wanted):
        there = f"`{shown(line[place:])}`" if place < len(line) else "the line's end"
        super().__init__(f"column {place + 1}: expected {wanted}, found {there}")


@dataclass
class Edit:
    """A line of a list: where it writes these bytes, or the length that it gives the input, and no bytes."""

    line: int
    place: int
    data: bytes | None


def shown(text):
    """Bytes as they can be shown on one line."""
    cut = text[:SHOWN].decode("ascii", "backslashreplace")
    return "".join(one if " " <= one <= "~" else repr(one)[1:-1] for one in cut) + ".." * (len(text) > SHOWN)


class Line:
    """Reads a line; `place` is how far it has come."""

    def __init__(self, text):
        self.text, self.place = text, 0

    def rule(self, holds, wanted):
        if not holds:
            raise BadLine(self.text, self.place, wanted)

    def number(self):
        digits = re.compile(rb"[0-9]*").match(self.text, self.place).group()
        self.rule(digits, "a decimal number")
        self.rule(digits == b"0" or digits[:1] != b"0", "a number without a zero before it")
        self.rule(len(digits) <= 7, "a number of at most 7 digits")
        behind = self.text[self.place + len(digits):self.place + len(digits) + 1]
        self.rule(not behind or behind not in b"xXabcdefABCDEF", "a decimal number (only the bytes are hexadecimal)")
        self.place += len(digits)
        return int(digits)

    def bytes(self):
        digits = re.compile(rb"[0-9A-Fa-f]*").match(self.text, self.place).group()
        self.place += len(digits)
        self.rule(digits and self.place == len(self.text), "hexadecimal digits up to the line's end")
        self.rule(len(digits) % 2 == 0, "one hexadecimal digit more, since two make a byte")
        return bytes.fromhex(digits.decode())

    def edit(self):
        """Where the edit is, and the bytes that it writes, if it writes."""
        word = next((word for word in (b"set", b"size") if self.text.startswith(word + b" ")), None)
        self.rule(word, "`set D H` or `size D` with single spaces")
        self.place = len(word) + 1
        number, data = self.number(), None
        if word == b"set":
            self.rule(self.text.startswith(b" ", self.place), "one space, and then hexadecimal digits")
            self.place += 1
            data = self.bytes()
        self.rule(self.place == len(self.text), "the line's end")
        return number, data


def read(text):
    """The edits of a list; refuses it at the first line that is none."""
    edits = []
    for number, line in enumerate(text.split(b"\n"), 1):
        try:
            if line:
                edits.append(Edit(number, *Line(line).edit()))
        except BadLine as why:
            also = "; a line ends by a newline byte alone" if line.endswith(b"\r") else ""
            raise Refused(f"line {number}: BadLine: {why}{also}") from why
    return edits


def out_of_range(edit, why):
    return Refused(f"line {edit.line}: OutOfRange: {why}")


def length_after(edits, length):
    """The length of an input of this length after the edits; refuses the first that is out of range."""
    for edit in edits:
        if edit.data is None:
            if edit.place > MOST_BYTES:
                raise out_of_range(edit, f"an input has at most {MOST_BYTES:,} bytes, and not {edit.place:,}")
            length = edit.place
        elif (end := edit.place + len(edit.data)) > length:
            also = "" if end > MOST_BYTES else f"; a line `size {end}` before this one lengthens it"
            raise out_of_range(edit, f"it writes up to byte {end:,}, and the input has {length:,} bytes here{also}")
    return length


def done(edits, data):
    """An input after the edits; refuses the first that is out of range."""
    length_after(edits, len(data))
    made = bytearray(data)
    for edit in edits:
        if edit.data is None:
            made = made[:edit.place].ljust(edit.place, b"\0")
        else:
            made[edit.place:edit.place + len(edit.data)] = edit.data
    return bytes(made)


def inputs(data, names, content):
    """An input, and what each of the lists of these names makes of the one before; `content` reads a file."""
    made = [data]
    for name in names:
        try:
            made.append(done(read(content(name)), made[-1]))
        except Refused as why:
            raise Refused(f"{name} {why}") from why
    return made
