"""Translates a guest's instructions to functions of Python, block by block: a block ends with a jump, a branch or a
call, or at the end of its page. It follows docs/MACHINE.md and shares no code with the program.

A block's function takes the registers, the pages, how many turns there were, and how many may begin a block; it gives
the next pc and the turns. The pc is the complement of the address of an ECALL, where it came to one.
"""
from executables import PAGE

WORD = 0xFFFFFFFF
ECALL, EBREAK = 0x73, 0x100073
MOST = 200  # instructions of a block
HEAD = "def block(x, words, pages, own, load, store, n, last):\n"


class Trap(Exception):
    """A turn that ends the run: its cause, where, and the turns with it."""

    def __init__(self, cause, pc, turns):
        super().__init__(cause)
        self.cause, self.pc, self.turns = cause, pc, turns


def signed(number, bits):
    """A number of so many bits, read in two's complement."""
    number &= (1 << bits) - 1
    return number - (1 << bits) if number >> (bits - 1) else number


def quotient(kind, first, second):
    """A quotient or a remainder: DIV 4, DIVU 5, REM 6, REMU 7."""
    if second == 0:
        return WORD if kind < 6 else first
    if kind & 1:
        return first // second if kind == 5 else first % second
    a, b = signed(first, 32), signed(second, 32)
    whole = abs(a) // abs(b) * (1 if (a < 0) == (b < 0) else -1)
    return (whole if kind == 4 else a - whole * b) & WORD


COMPUTED = {  # by funct3 and funct7
    (0, 0): "({a} + {b}) & 0xFFFFFFFF", (0, 32): "({a} - {b}) & 0xFFFFFFFF",
    (1, 0): "({a} << ({b} & 31)) & 0xFFFFFFFF", (2, 0): "1 if ({a} ^ 0x80000000) < ({b} ^ 0x80000000) else 0",
    (3, 0): "1 if {a} < {b} else 0", (4, 0): "{a} ^ {b}", (5, 0): "{a} >> ({b} & 31)",
    (5, 32): "(({a} ^ 0x80000000) - 0x80000000 >> ({b} & 31)) & 0xFFFFFFFF", (6, 0): "{a} | {b}", (7, 0): "{a} & {b}",
    (0, 1): "{a} * {b} & 0xFFFFFFFF",
    (1, 1): "(({a} ^ 0x80000000) - 0x80000000) * (({b} ^ 0x80000000) - 0x80000000) >> 32 & 0xFFFFFFFF",
    (2, 1): "(({a} ^ 0x80000000) - 0x80000000) * {b} >> 32 & 0xFFFFFFFF", (3, 1): "{a} * {b} >> 32",
    **{(kind, 1): f"quotient({kind}, {{a}}, {{b}})" for kind in (4, 5, 6, 7)},
}
BRANCHES = {0: "{a} == {b}", 1: "{a} != {b}", 4: "({a} ^ 0x80000000) < ({b} ^ 0x80000000)",
            5: "({a} ^ 0x80000000) >= ({b} ^ 0x80000000)", 6: "{a} < {b}", 7: "{a} >= {b}"}
LOADED = {0: "(v ^ 0x80) - 0x80 & 0xFFFFFFFF", 1: "(v ^ 0x8000) - 0x8000 & 0xFFFFFFFF", 2: "v", 4: "v", 5: "v"}


class Block:
    """A block that is being translated: its lines, and which registers it has read and written."""

    def __init__(self, pc):
        self.start, self.pc, self.count, self.lines = pc, pc, 0, []
        self.wanted, self.written, self.is_done = set(), set(), False

    def register(self, number):
        if number and number not in self.written:
            self.wanted.add(number)
        return f"x{number}" if number else "0"

    def put(self, number, text):
        if number:
            self.written.add(number)
            self.lines.append(f"x{number} = {text}")

    def trap(self, cause):
        return f"raise Trap({cause}, {self.pc}, n + {self.count})"

    def leave(self, target):
        """Goes to an address, which is an expression or a number; a trap where a number isn't a multiple of 4."""
        if isinstance(target, int) and target % 4:
            return self.trap(0)
        return f"return {target}, n + {self.count}"

    def address(self, base, offset, size, cause):
        self.lines.append(f"a = ({self.register(base)} + {offset}) & 0xFFFFFFFF")
        if size > 1:
            self.lines.append(f"if a & {size - 1}: {self.trap(cause)}")

    def load(self, word):
        kind, rd, base, offset = word >> 12 & 7, word >> 7 & 31, word >> 15 & 31, signed(word >> 20, 12)
        size = 1 << (kind & 3)
        self.address(base, offset, size, 4)
        pages = "words" if size == 4 else "pages"
        self.lines.append(f"p = {pages}.get(a >> 12)")
        self.lines.append(f"if p is None: p = load(a >> 12, {self.pc}, n + {self.count})[{int(size < 4)}]")
        at = {1: "p[a & 4095]", 2: "p[a & 4095] | p[(a & 4095) + 1] << 8", 4: "p[(a & 4095) >> 2]"}[size]
        if rd and size < 4 and kind < 4:
            self.lines.append(f"v = {at}")
            at = LOADED[kind]
        self.put(rd, at)

    def store(self, word):
        size, value = 1 << (word >> 12 & 7), word >> 20 & 31
        self.address(word >> 15 & 31, signed(word >> 25 << 5 | word >> 7 & 31, 12), size, 6)
        self.lines.append(f"p = own.get(a >> 12) or store(a >> 12, {self.pc}, n + {self.count})")
        value = self.register(value)
        if size == 4:
            self.lines += ["a = (a & 4095) >> 2", f"p[0][a] = {value}", "p[1][a] = 0xFFFFFFFF"]
        else:
            self.lines += ["a &= 4095", f"p[2][a] = {value} & 255", "p[3][a] = 255"]
            if size == 2:
                self.lines += [f"p[2][a + 1] = {value} >> 8 & 255", "p[3][a + 1] = 255"]

    def compute(self, word, has_immediate):
        """A computation; whether there is such an instruction."""
        kind, how, rd = word >> 12 & 7, word >> 25, word >> 7 & 31
        first, second = self.register(word >> 15 & 31), None
        if has_immediate:
            if kind in (1, 5):
                second = str(word >> 20 & 31)
                if how not in ((0,) if kind == 1 else (0, 32)):
                    return False
            else:
                second, how = str(signed(word >> 20, 12) & WORD), 0
        elif (kind, how) not in COMPUTED:
            return False
        second = second or self.register(word >> 20 & 31)
        if has_immediate and kind == 0 and (second == "0" or first == "0"):
            self.put(rd, first if second == "0" else second)
        else:
            self.put(rd, COMPUTED[kind, how].format(a=first, b=second))
        return True

    def jump(self, word):
        """JAL, JALR or a branch; whether it is one."""
        opcode, rd, kind = word & 0x7F, word >> 7 & 31, word >> 12 & 7
        if opcode == 0x6F:
            offset = signed((word >> 31) << 20 | (word >> 12 & 0xFF) << 12 | (word >> 20 & 1) << 11
                            | (word >> 21 & 0x3FF) << 1, 21)
            target = self.pc + offset & WORD
            if not target % 4:
                self.put(rd, str(self.pc + 4 & WORD))
            self.end(self.leave(target))
        elif opcode == 0x67 and kind == 0:
            self.lines.append(f"t = ({self.register(word >> 15 & 31)} + {signed(word >> 20, 12)}) & 0xFFFFFFFE")
            self.lines.append(f"if t & 2: {self.trap(0)}")
            self.put(rd, str(self.pc + 4 & WORD))
            self.end(self.leave("t"))
        elif opcode == 0x63 and kind in BRANCHES:
            offset = signed((word >> 31) << 12 | (word >> 7 & 1) << 11 | (word >> 25 & 0x3F) << 5
                            | (word >> 8 & 0xF) << 1, 13)
            how = BRANCHES[kind].format(a=self.register(word >> 15 & 31), b=self.register(word >> 20 & 31))
            self.branch(how, self.pc + offset & WORD, self.pc + 4 & WORD)
        else:
            return False
        return True

    def branch(self, how, target, behind):
        """A branch; to the block's own begin it is a loop of Python."""
        if target == self.start:
            self.end(f"n += {self.count}", f"if not ({how}): break", loops_to=behind)
        elif target % 4:
            self.end(f"if {how}: {self.trap(0)}", self.leave(behind))
        else:
            self.end(f"return {target} if {how} else {behind}, n + {self.count}")

    def end(self, *lines, loops_to=None):
        self.is_done, self.last, self.loops_to = True, lines, loops_to

    def add(self, word):
        """An instruction."""
        self.count += 1
        opcode = word & 0x7F
        if opcode in (0x37, 0x17):
            self.put(word >> 7 & 31, str((word & 0xFFFFF000) + (self.pc if opcode == 0x17 else 0) & WORD))
        elif opcode == 0x03 and word >> 12 & 7 in LOADED:
            self.load(word)
        elif opcode == 0x23 and word >> 12 & 7 < 3:
            self.store(word)
        elif word == ECALL:
            self.end(f"return {~self.pc}, n + {self.count}")
        elif not (opcode == 0x13 and self.compute(word, True) or opcode == 0x33 and self.compute(word, False)
                  or opcode == 0x0F and word >> 12 & 7 == 0 or self.jump(word)):
            self.end(self.trap(3 if word == EBREAK else 2))
        self.pc += 4

    def function(self):
        """The function, and the instructions of it."""
        loaded = [f"x{number} = x[{number}]" for number in sorted(self.wanted)]
        saved = [f"x[{number}] = x{number}" for number in sorted(self.written)]
        if not self.is_done:
            self.end(f"return {self.pc & WORD}, n + {self.count}")
        if self.loops_to is None:
            lines = loaded + self.lines + saved + list(self.last)
        else:
            changed = [f"x{number} = x[{number}]" for number in sorted(self.written - self.wanted)]
            inside = [f"    {line}" for line in (*self.lines, *self.last)]
            lines = (loaded + changed + ["while n <= last:", *inside, "else:"]
                     + [f"    {line}" for line in (*saved, f"return {self.start}, n")] + saved
                     + [f"return {self.loops_to}, n"])
        names = {"Trap": Trap, "quotient": quotient}
        exec(HEAD + "".join(f"    {line}\n" for line in lines), names)  # the text is made here, of numbers
        return names["block"], self.count


def translated(pc, word_at, most=MOST):
    """The function of the block at a pc, and how many instructions it has: up to the end of the page, or of so many."""
    block = Block(pc)
    while not block.is_done and block.count < most and (block.pc == pc or block.pc % PAGE):
        block.add(word_at(block.pc))
    return block.function()
