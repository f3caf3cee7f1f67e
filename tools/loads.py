"""Which bytes of its pages a step loads: found by executing it again on what its record says that it read, on the
machine of machine.py. What a step loads of its own stores isn't counted."""
from blocks import Trap
from calls import PUT
from executables import EXECUTE, PAGE, WRITE
from machine import Machine
from memos import WHOLE_PAGE


class Noted:
    """A page, as words or as bytes, of which each load is marked; `mask`, if there is one, has the step's stores."""

    def __init__(self, data, size, mask, marks):
        self.data, self.size, self.mask, self.marks = data, size, mask, marks

    def __getitem__(self, place):
        for at in range(place * self.size, (place + 1) * self.size):
            if not (self.mask and self.mask[at]):
                self.marks[at] = 1
        return self.data[place]


class Loading(Machine):
    """A machine that marks the bytes that are loaded, by pages."""

    def __init__(self, image, fuel):
        super().__init__(image, b"", fuel)
        self.marks = {}

    def from_page(self, page, words, data, mask):
        marks = self.marks.setdefault(page, bytearray(PAGE))
        return Noted(words, 4, mask, marks), Noted(data, 1, mask, marks)

    def mark_put(self, x, own):
        """Marks what a put takes, if the step ended by one that isn't refused."""
        address, count = x[10:12]
        if x[17] != PUT or not isinstance(self.put(self.threads[0], own), bytes):
            return
        for at in range(address, address + count):
            mask = own[at // PAGE][3] if at // PAGE in own else None
            if not (mask and mask[at % PAGE]):
                self.marks.setdefault(at // PAGE, bytearray(PAGE))[at % PAGE] = 1


def loaded(image, fuel, registers, pages):
    """The bytes that a step loads, by pages, as the bits of a number. A page from which it may fetch what others store
    counts whole. `registers` are those of its start, with the pc, and `pages` those that it read."""
    machine = Loading(image, fuel)
    thread, own = machine.threads[0], {}
    thread.pc, thread.x = registers[0], [0, *registers[1:]]
    thread.view.update(pages)
    try:
        pc, _ = machine.turns(0, own)
        if pc < 0:
            machine.mark_put(thread.x, own)
    except Trap:
        pass
    found = {page: int("".join(map(str, reversed(marks))), 2) for page, marks in machine.marks.items()}
    both = EXECUTE | WRITE
    return found | {page: WHOLE_PAGE for page in pages if image.rights.get(page, 0) & both == both}
