"""Reads memos, by docs/FORMATS.md; it shares no code with the program. `read(bytes)` gives all that one has, and raises
`NotMemo` if it is none. It doesn't look whether a record fits what those before it leave, which takes a machine.
`head(file)` reads what comes before the records, and leaves the digest to `has_digest`, or to who reads on."""
import hashlib
import io
import struct
from dataclasses import dataclass

import executables
from executables import BESIDE_THE_IMAGE, PAGE

CALL, FUEL = 8, 9  # how a record ended, but for traps, whose causes are 0 to 7
FIRST, SECOND, NUMBER = 10, 11, 17  # the registers of a call's arguments, and of its number
WHOLE_PAGE = 2**PAGE - 1  # a mask of all of its bytes
LEAST, DIGEST = 40, 32  # bytes of a memo, and of its digest
MOST_FUEL, MOST_STEPS, MOST_ELF, MOST_INPUT = 2**24, 65_536, 2**24, 2**20
PROFILE = 3
ILLEGAL, OPCODE, MULTIPLIES = 2, 0b0110011, 0b0000001  # a cause; and what the words of the standard extension M have
RWLOCKS = range(18, 22)  # the calls of reader-writer locks


class NotMemo(Exception):
    """The bytes are no memo: by the word of the program, at which byte, and why."""

    def __init__(self, word, at, why):
        super().__init__(f"{word} (at {at}: {why})")
        self.word = word


@dataclass
class Head:
    """What a memo begins with: its executable, its input, and the limits of its run."""

    elf: bytes
    input: bytes
    fuel: int
    steps: int


@dataclass(slots=True)
class Record:
    """A step: its thread, how many that had made, how it ended, and its turns; the registers at its start and at its
    end, the pc and then x1 to x31; the bytes of each page that it read; and a mask and the bytes of each page that it
    stored to."""

    thread: int
    number: int
    end: int
    count: int
    start: tuple
    finish: tuple
    reads: dict
    stores: dict

    def ended(self):
        """How it ended, as `show` has it."""
        return {CALL: f"call {self.finish[NUMBER]}", FUEL: "fuel"}.get(self.end, f"trap {self.end}")

    def line(self):
        """Its line of the listing, behind the place."""
        reads, writes = (",".join(f"{page * PAGE:08x}" for page in pages) or "-" for pages in (self.reads, self.stores))
        return (f"thread {self.thread} number {self.number} end {self.ended()} count {self.count} "
                f"reads {reads} writes {writes}")

    def byte(self, address):
        """A byte at its end, as it was stored or else read; None if it was neither."""
        page, place = divmod(address, PAGE)
        mask, data = self.stores.get(page, (0, b""))
        if mask >> place & 1:
            return data[(mask & 2**place - 1).bit_count()]
        return self.reads[page][place] if page in self.reads else None

    def is_old(self):
        """Whether it ended as illegal at a word that is an instruction of the standard extension M, or by a call of a
        reader-writer lock."""
        word = [self.byte(self.finish[0] + place) for place in range(4)]
        is_of_m = None not in word and word[0] & 127 == OPCODE and word[3] >> 1 == MULTIPLIES
        return self.end == ILLEGAL and is_of_m or self.end == CALL and self.finish[NUMBER] in RWLOCKS


@dataclass
class Memo(Head):
    """All that a memo has. `image` is what the machine takes of the executable."""

    version: int
    image: executables.Executable
    pool: list
    records: list

    def listing(self):
        """The lines that `show` prints of it."""
        head = [f"elf {len(self.elf)}", f"input {len(self.input)}", f"fuel {self.fuel}", f"limit {self.steps}",
                f"entries {len(self.records)}"]
        return [*head, *(f"entry {place} {record.line()}" for place, record in enumerate(self.records))]


def runs(mask):
    """The places of the bytes that a mask marks: each run's first, and the one behind its last."""
    bits = f"{mask:b}"[::-1] + "0"
    first = bits.find("1")
    while first >= 0:
        behind = bits.find("0", first)
        yield first, behind
        first = bits.find("1", behind)


def store(page, mask, data):
    """Stores bytes at the places of a page that a mask marks."""
    at = 0
    for first, behind in runs(mask):
        page[first:behind] = data[at:at + behind - first]
        at += behind - first


class Reader:
    """Reads field by field from an open file, of which so many bytes are fields: `start` is where the last field began,
    and `place` is how far it has come. `short` is the word for what is cut off, if it isn't that of the field."""

    def __init__(self, file, size=2**40, short=None):
        self.file, self.size, self.short, self.start, self.place = file, size, short, 0, 0
        self.fuel, self.mapped, self.pool, self.used, self.made = 0, set(), [], 0, [0] * 32

    def reject(self, why, word=None, at=None):
        at = self.start if at is None else at
        raise NotMemo(word or f"Field {at}", at, why)

    def some(self, size):
        data = self.file.read(min(size, self.size - self.place))
        self.start, self.place = self.place, self.place + len(data)
        return data

    def take(self, size, what):
        data = self.some(size)
        if len(data) < size:
            self.reject(f"{what}: {size} bytes, and {len(data)} are left", self.short)
        return data

    def number(self, size, what, low=0, high=2**32 - 1, word=None):
        number = int.from_bytes(self.take(size, what), "little")
        if not low <= number <= high:
            self.reject(f"{what}: {number}, and not {low} to {high}", word)
        return number

    # What comes before the records.

    def version(self):
        if self.some(4) != b"ITHM":
            self.reject("magic number: it isn't ITHM", "Magic")
        version = self.number(4, "version")
        if version not in (1, 2):
            self.reject(f"version: {version}, and not 1 or 2", f"Version {version}")
        return version

    def executable(self, version):
        if version > 1:
            self.number(4, "profile", PROFILE, PROFILE)
        return self.take(self.number(4, "length of the executable", 0, MOST_ELF, "Limit elf"), "executable")

    def run(self):
        """The input, the fuel and the step limit."""
        data = self.take(self.number(4, "length of the input", 0, MOST_INPUT, "Limit input"), "input")
        self.fuel = self.number(4, "fuel", 1, MOST_FUEL, "Limit fuel")
        return data, self.fuel, self.number(4, "steps", 1, MOST_STEPS, "Limit steps")

    def pages(self):
        """The pool."""
        seen = set()
        for _ in range(self.number(4, "count of pool pages")):
            page = self.take(PAGE, "pool page")
            if page in seen:
                self.reject("pool page: one like it came before")
            seen.add(page)
            self.pool.append(page)

    # Records.

    def registers(self):
        """The pc, and x1 to x31."""
        data = self.some(128)
        if len(data) < 128:
            self.start += len(data) // 4 * 4
            self.reject(f"register: 4 bytes, and {len(data) % 4} are left")
        return struct.unpack("<32I", data)

    def page(self, before):
        """The number of a page that is mapped, above the one before it."""
        page = self.number(4, "page number")
        if page not in self.mapped:
            self.reject(f"page number: {page}, and it isn't mapped")
        if page <= before:
            self.reject(f"page number: {page}, and not above the one before it")
        return page

    def reads(self):
        reads, page = {}, -1
        for _ in range(self.number(2, "count of read pages")):
            page, index = self.page(page), self.number(4, "pool index", 0, self.used)
            if index >= len(self.pool):
                self.reject(f"pool index: {index}, and the pool has {len(self.pool)} pages")
            self.used = max(self.used, index + 1)
            reads[page] = self.pool[index]
        return reads

    def stores(self):
        stores, page = {}, -1
        for _ in range(self.number(2, "count of stored pages")):
            page, mask = self.page(page), int.from_bytes(self.take(512, "mask"), "little")
            if mask == 0:
                self.reject("mask: it marks no byte")
            stores[page] = mask, self.take(mask.bit_count(), "stored bytes")
        return stores

    def record(self):
        thread, end = self.number(1, "thread", 0, 31), self.number(1, "end", 0, FUEL)
        count = self.number(4, "count of turns", 1, self.fuel)
        self.made[thread] += 1
        return Record(thread, self.made[thread] - 1, end, count, self.registers(), self.registers(), self.reads(),
                      self.stores())

    def memo(self, version):
        """All that comes behind the version."""
        elf = self.executable(version)
        try:
            image = executables.read(elf)
        except executables.Refused as why:
            self.reject("executable: it isn't taken", f"Image {why}")
        self.mapped = {*image.rights(), *BESIDE_THE_IMAGE}
        run = self.run()
        count, pool_place = self.number(4, "count of entries", 1, run[2], "Limit entries"), self.place
        self.pages()
        records = [self.record() for _ in range(count)]
        if self.used < len(self.pool):
            self.reject(f"count of pool pages: only {self.used} are used", at=pool_place)
        if self.place < self.size:
            self.reject("bytes come after the last record", at=self.place)
        return Memo(elf, *run, version, image, self.pool, records)


def head(file):
    """The head of the memo in an open file."""
    reader = Reader(file, short="Short")
    return Head(reader.executable(reader.version()), *reader.run())


def has_digest(data):
    """Whether a memo ends with the digest of its bytes."""
    return data[-DIGEST:] == hashlib.sha256(memoryview(data)[:-DIGEST]).digest()


def read(data, reader=Reader):
    """The memo in some bytes, read by a reader of this kind."""
    if len(data) < LEAST:
        raise NotMemo("Short", 0, f"{len(data)} bytes, and not {LEAST} or more")
    fields = reader(io.BytesIO(data), len(data) - DIGEST)
    version = fields.version()
    if not has_digest(data):
        raise NotMemo("Digest", fields.size, "its last 32 bytes aren't the digest of the others")
    memo = fields.memo(version)
    if version == 1 and memo.records[-1].is_old():
        place = len(memo.records) - 1
        fields.reject("the last record ended at a word that is an instruction today, or at a call that is one",
                      f"Old {place}")
    return memo
