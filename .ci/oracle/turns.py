"""The turns of a thunk, by docs/MACHINE.md: each instruction of RV32IM is executed on whole pages. Notes the pages that
are read, and the bytes that are stored."""
from calls import MOST_PUT, PUT
from executables import EXECUTE, PAGE, READ, WRITE
from memos import CALL, FIRST, FUEL, NUMBER, SECOND, Record

from .words import EBREAK, ECALL, signed

WORD = 0xFFFFFFFF


class Trap(Exception):
    """A turn that ends the run, with its cause."""


def put_pages(rights, start, count):
    """The pages from which a put takes bytes; none if it takes none."""
    pages = range(start // PAGE, (start + count - 1) // PAGE + 1)
    is_taken = 0 < count <= MOST_PUT and start + count <= 1 << 32
    return pages if is_taken and all(rights.get(page, 0) & READ for page in pages) else ()


class Thunk:
    """A thunk on a view, from some registers on."""

    def __init__(self, rights, view, registers):
        self.rights, self.view = rights, view
        self.start, self.pc, self.x = tuple(registers), registers[0], [0, *registers[1:]]
        self.own, self.read, self.stored = {}, set(), {}  # pages that it stored to, and of these the places

    def run(self, fuel):
        """Its turns: how it ended, and how many there were."""
        for count in range(1, fuel + 1):
            try:
                if self.turn():
                    break
            except Trap as trap:
                return trap.args[0], count
        else:
            return FUEL, fuel
        if self.x[NUMBER] == PUT:
            self.read.update(put_pages(self.rights, self.x[FIRST], self.x[SECOND]))
        return CALL, count

    def record(self, thread, number, fuel):
        """Makes its turns, and gives what is kept of it, as of a step of a thread."""
        end, count = self.run(fuel)
        reads = {page: self.view[page] for page in sorted(self.read)}
        stores = {page: (sum(1 << place for place in places), bytes(self.own[page][place] for place in sorted(places)))
                  for page, places in sorted(self.stored.items())}
        return Record(thread, number, end, count, self.start, (self.pc, *self.x[1:]), reads, stores)

    # Memory.

    def page(self, address, right, cause):
        number = address // PAGE
        if not self.rights.get(number, 0) & right:
            raise Trap(cause)
        return number

    def take(self, address, count, right, cause):
        """The number at an address, of a page that has this right; its page is read."""
        page = self.page(address, right, cause)
        self.read.add(page)
        data = self.own.get(page) or self.view[page]
        return int.from_bytes(data[address % PAGE:address % PAGE + count], "little")

    def store(self, address, count, value):
        page, place = self.page(address, WRITE, 7), address % PAGE
        data = self.own.setdefault(page, bytearray(self.view[page]))
        data[place:place + count] = (value & (1 << 8 * count) - 1).to_bytes(count, "little")
        self.stored.setdefault(page, set()).update(range(place, place + count))

    # Instructions. Each gives the next pc.

    def turn(self):
        """One turn; whether it was a call."""
        if self.pc % 4:
            raise Trap(0)
        word = self.take(self.pc, 4, EXECUTE, 1)
        if word == ECALL:
            return True
        self.pc = FORMS.get(word & 0x7F, Thunk.illegal)(self, word, word >> 12 & 7)
        return False

    def illegal(self, word, _):
        raise Trap(3 if word == EBREAK else 2)

    def keep(self, word, result):
        """A result is kept in rd, and the next instruction follows."""
        if rd := word >> 7 & 31:
            self.x[rd] = result & WORD
        return self.pc + 4 & WORD

    def jump(self, word, target):
        """A jump, which keeps where it came from."""
        if target % 4:
            raise Trap(0)
        self.keep(word, self.pc + 4)
        return target & WORD

    def lui(self, word, _):
        return self.keep(word, word & 0xFFFFF000)

    def auipc(self, word, _):
        return self.keep(word, (word & 0xFFFFF000) + self.pc)

    def jal(self, word, _):
        low = (word >> 20 & 1) << 11 | (word >> 21 & 0x3FF) << 1
        return self.jump(word, self.pc + signed((word >> 31) << 20 | (word >> 12 & 0xFF) << 12 | low, 21))

    def jalr(self, word, funct3):
        if funct3:
            return self.illegal(word, funct3)
        return self.jump(word, self.x[word >> 15 & 31] + signed(word >> 20, 12) & ~1)

    def branch(self, word, funct3):
        if funct3 in (2, 3):
            return self.illegal(word, funct3)
        a, b = self.x[word >> 15 & 31], self.x[word >> 20 & 31]
        if funct3 < 6:
            a, b = signed(a), signed(b)
        if (a == b if funct3 < 2 else a < b) == bool(funct3 & 1):
            return self.pc + 4 & WORD
        low = (word >> 25 & 0x3F) << 5 | (word >> 8 & 0xF) << 1
        target = self.pc + signed((word >> 31) << 12 | (word >> 7 & 1) << 11 | low, 13) & WORD
        if target % 4:
            raise Trap(0)
        return target

    def load(self, word, funct3):
        if funct3 not in (0, 1, 2, 4, 5):
            return self.illegal(word, funct3)
        address, count = self.x[word >> 15 & 31] + signed(word >> 20, 12) & WORD, 1 << (funct3 & 3)
        if address % count:
            raise Trap(4)
        result = self.take(address, count, READ, 5)
        return self.keep(word, result if funct3 >= 4 else signed(result, 8 * count))

    def stores(self, word, funct3):
        if funct3 > 2:
            return self.illegal(word, funct3)
        imm, count = signed(word >> 25 << 5 | word >> 7 & 31, 12), 1 << funct3
        address = self.x[word >> 15 & 31] + imm & WORD
        if address % count:
            raise Trap(6)
        self.store(address, count, self.x[word >> 20 & 31])
        return self.pc + 4 & WORD

    def by_immediate(self, word, funct3):
        funct7 = word >> 25
        if funct3 in (1, 5) and funct7 and (funct3, funct7) != (5, 32):
            return self.illegal(word, funct3)
        return self.keep(word, computed(funct3, funct7 if funct3 == 5 else 0, self.x[word >> 15 & 31],
                                        signed(word >> 20, 12) & WORD))

    def by_register(self, word, funct3):
        funct7 = word >> 25
        if funct7 not in (0, 1) and (funct7, funct3) not in ((32, 0), (32, 5)):
            return self.illegal(word, funct3)
        return self.keep(word, computed(funct3, funct7, self.x[word >> 15 & 31], self.x[word >> 20 & 31]))

    def fence(self, word, funct3):
        return self.illegal(word, funct3) if funct3 else self.pc + 4 & WORD


FORMS = {0x37: Thunk.lui, 0x17: Thunk.auipc, 0x6F: Thunk.jal, 0x67: Thunk.jalr, 0x63: Thunk.branch, 0x03: Thunk.load,
         0x23: Thunk.stores, 0x13: Thunk.by_immediate, 0x33: Thunk.by_register, 0x0F: Thunk.fence}


def computed(funct3, funct7, a, b):
    """An operation on two words, by its fields."""
    if funct7 == 1:
        return product(funct3, a, b) if funct3 < 4 else quotient(funct3, a, b)
    if funct7 == 32:
        return a - b if funct3 == 0 else signed(a) >> (b & 31)
    return COMPUTED[funct3](a, b)


COMPUTED = (lambda a, b: a + b, lambda a, b: a << (b & 31), lambda a, b: signed(a) < signed(b), lambda a, b: a < b,
            lambda a, b: a ^ b, lambda a, b: a >> (b & 31), lambda a, b: a | b, lambda a, b: a & b)


def product(funct3, a, b):
    """The low or the high word of a product."""
    first, second = a if funct3 == 3 else signed(a), signed(b) if funct3 < 2 else b
    return first * second if funct3 == 0 else first * second >> 32


def quotient(funct3, a, b):
    """A quotient or a remainder of two words."""
    if b == 0:
        return WORD if funct3 < 6 else a
    first, second = (a, b) if funct3 & 1 else (signed(a), signed(b))
    whole = abs(first) // abs(second) * (1 if (first < 0) == (second < 0) else -1)
    return whole if funct3 < 6 else first - whole * second
