"""Finds which line of a guest allocated a block of the heap: it runs the guest again, in the order of its memo, and
notes the sizes that malloc and its like are called with, and the addresses that they return."""
import machine
from blocks import translated

MOST_INSTRUCTIONS = 4_000_000  # of a run that is made again for this: about a second
SIZES = {"malloc": lambda x: x[10], "calloc": lambda x: x[10] * x[11], "realloc": lambda x: x[11],
         "aligned_alloc": lambda x: x[11], "memalign": lambda x: x[11], "posix_memalign": lambda x: x[12]}


class Allocations:
    """The blocks of a run, by their pages, each with its first address, the one behind its last, and where the guest
    allocated it, the latest at the end."""

    def __init__(self, memo, threads, code):
        self.code, self.made, self.pending, self.blocks = code, {}, {}, {}
        image = machine.Image(memo.elf)
        self.image, self.run = image, machine.Machine(image, memo.input, memo.fuel, memo.steps)
        for symbol in code.found.found:
            if symbol.name in SIZES and code.found.is_library(symbol.address):
                self.hook(symbol.address, self.on_call(SIZES[symbol.name], symbol.name == "posix_memalign"))
        for thread in threads:
            if self.run.ended or thread not in self.run.ready():
                break
            self.thread = thread
            self.run.step(thread)

    def hook(self, pc, noting):
        """Has something noted each time that a block is begun."""
        if pc in self.blocks:
            return
        function, size = self.blocks[pc] = translated(pc, lambda at: machine.word_of(self.image.pages, at))

        def noted(x, words, pages, *rest):
            noting(x, words)
            return function(x, words, pages, *rest)
        self.image.blocks[pc] = noted, size

    def on_call(self, size_of, is_by_pointer):
        """Notes a call that allocates a block: its result is there where the call returns to, with this sp."""
        def noting(x, _):
            if self.thread not in self.pending:
                at = self.code.caller(x[1] - 4, x[2], self.word)
                self.pending[self.thread] = x[1], x[2], size_of(x), at, x[10] if is_by_pointer else None
                self.hook(x[1], self.on_return)
        return noting

    def on_return(self, x, words):
        """Notes the block where a call returns."""
        ra, sp, size, at, place = self.pending.get(self.thread, (None,) * 5)
        if sp == x[2] and ra in self.blocks:
            del self.pending[self.thread]
            page = words.get(place >> 12) if place else None
            address = x[10] if place is None else page[(place & 4095) >> 2] if page else 0
            for number in range(address >> 12, (address + size >> 12) + 1 if address else 0):
                self.made.setdefault(number, []).append((address, address + max(size, 1), at))

    def word(self, address):
        """A word of a stack, as it was before this step: what the step stored isn't seen."""
        pages = self.run.threads[self.thread].view
        return machine.word_of(pages, address) if address >> 12 in pages else 0

    def at(self, address):
        """Where the block was allocated that an address is in, the last such block; None if there is none."""
        found = reversed(self.made.get(address >> 12, []))
        return next((at for low, behind, at in found if low <= address < behind), None)
