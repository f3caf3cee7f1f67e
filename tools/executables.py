"""Reads executables, by docs/FORMATS.md; it shares no code with the program. `read(bytes)` gives what the machine takes
of one, and raises `Refused` with the words of the program."""
import struct
from dataclasses import dataclass, field

PAGE = 4096
EXECUTE, WRITE, READ = 1, 2, 4
HEADER, INPUT_PAGES, STACKS, STACK_PAGES = 0xC0000, 256, 0xD0000, 512  # numbers of pages, and how many there are
BESIDE_THE_IMAGE = (*range(HEADER, HEADER + 1 + INPUT_PAGES), *range(STACKS, STACKS + STACK_PAGES))
LEAST_ADDRESS, MOST_ADDRESS, MOST_PAGES = 0x1000, 0xC0000000, 1024
LOAD, DYNAMIC, INTERPRETER = 1, 2, 3  # types of program headers
EXECUTABLE, RISC_V, COMPRESSED = 2, 243, 1
SIZE_OF_HEADER, SIZE_OF_ENTRY = 52, 32
ZEROS = bytes(PAGE)


class Refused(Exception):
    """The bytes are no executable that is accepted."""


@dataclass(frozen=True)
class Segment:
    """What is loaded: where, how large, with which rights, and from which bytes of the file; behind them are zeros."""

    address: int
    size: int
    rights: int
    data: bytes
    offset: int = field(default=0, compare=False)

    def pages(self):
        return range(self.address // PAGE, (self.address + self.size - 1) // PAGE + 1)

    def body(self):
        """Its bytes without the file's header, which has also what isn't loaded."""
        return self.data[max(SIZE_OF_HEADER - self.offset, 0):]


@dataclass
class Executable:
    """What the machine takes of an executable."""

    entry: int
    segments: list

    def rights(self):
        """Of each page of the image its rights, by its number, in ascending order."""
        rights = {}
        for segment in self.segments:
            for page in segment.pages():
                rights[page] = rights.get(page, 0) | segment.rights
        return dict(sorted(rights.items()))

    def pages(self):
        """Of each page of the image its bytes."""
        pages = {}
        for segment in self.segments:
            for page in segment.pages():
                behind = page * PAGE - segment.address  # how many bytes of the segment come before the page
                old, new = pages.get(page, ZEROS), segment.data[max(behind, 0):behind + PAGE]
                low = max(-behind, 0)
                pages[page] = old[:low] + new + old[low + len(new):]
        return pages


def header_refusal(elf):
    """What the header and the place of the table are refused for, if they are."""
    if len(elf) < SIZE_OF_HEADER or elf[:4] != b"\x7fELF":
        return "NotElf"
    kind, machine, _, _, table, _, flags, _, size, count = struct.unpack_from("<HHIIIIIHHH", elf, 16)
    rows = (("NotElf32", elf[4:7] != b"\1\1\1"), ("NotExec", kind != EXECUTABLE), ("NotRiscv", machine != RISC_V),
            ("Compressed", flags & COMPRESSED), ("EntrySize", count and size != SIZE_OF_ENTRY))
    whole = max(len(elf) - table, 0) // SIZE_OF_ENTRY  # how many program headers are there
    return next((name for name, holds in rows if holds), None if count <= whole else f"ShortTable {whole}")


def program_headers(elf):
    """The program headers, each with its eight words."""
    table, count = *struct.unpack_from("<I", elf, 28), *struct.unpack_from("<H", elf, 44)
    return list(struct.iter_unpack("<8I", elf[table:table + SIZE_OF_ENTRY * count]))


def segment_refusal(elf, headers):
    """What the program headers are refused for, one or two of them, if they are."""
    for place, (kind, *_) in enumerate(headers):
        if kind in (DYNAMIC, INTERPRETER):
            return f"Dynamic {place}"
    loads = [(place, header) for place, header in enumerate(headers) if header[0] == LOAD]
    for place, (_, offset, _, _, here, size, _, _) in loads:
        if offset + here > len(elf) or here > size:
            return f"ShortSegment {place}"
    spans = [(place, header[2], header[2] + header[5]) for place, header in loads if header[5]]
    for place, low, behind in spans:
        if low < LEAST_ADDRESS or behind > MOST_ADDRESS:
            return f"Outside {place}"
    for first, (place, low, behind) in enumerate(spans):
        for other, other_low, other_behind in spans[first + 1:]:
            if low < other_behind and other_low < behind:
                return f"Overlap {place} {other}"
    return None


def read(elf):
    """What the machine takes of an executable, or its refusal."""
    if refusal := header_refusal(elf):
        raise Refused(refusal)
    headers = program_headers(elf)
    if refusal := segment_refusal(elf, headers):
        raise Refused(refusal)
    segments = [Segment(address, size, rights & 7, elf[offset:offset + here], offset)
                for kind, offset, address, _, here, size, rights, _ in headers if kind == LOAD and size]
    made = Executable(int.from_bytes(elf[24:28], "little"), segments)
    rights = made.rights()
    if len(rights) > MOST_PAGES:
        raise Refused(f"TooManyPages {len(rights)}")
    if made.entry % 4 or not rights.get(made.entry // PAGE, 0) & EXECUTE:
        raise Refused("Entry")
    return made
