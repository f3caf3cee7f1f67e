"""What an executable with symbols says of addresses: functions and variables by its symbol table, which is read here,
and lines by llvm-symbolizer or addr2line, if one is installed and the executable has them."""
import bisect
import functools
import json
import pathlib
import re
import shutil
import struct
import subprocess
from dataclasses import dataclass

import executables
from executables import PAGE

TABLE, FILE, FUNCTION, OBJECT, PLAIN = 2, 4, 2, 1, 0  # types of a section, and of symbols
IN_HEADER = "ithreads.h"  # whose functions are inlined, so that a line of it says little
AT_ONCE = 500  # addresses
THREADS = 32
LIBRARY = pathlib.Path(__file__).resolve().parent.parent / "guest/lib"  # what `guest/build --libc` links
OF_FILES = {  # what the variables of guest/lib are for, by their files
    "output.c": "what threads print",
    "input.c": "how far stdin was read",
    "malloc.c": "what malloc keeps of its blocks",
    "objects.c": "the numbers of mutexes, semaphores, barriers and conditions",
    "rwlock.c": "the numbers of reader-writer locks",
}
OF_LIBRARY = re.compile("/newlib/|/libgcc/|picolibc|guest/(lib|include)/([a-z]+/)?[a-z0-9_]+[.][ch]$")  # names of files
NM = "riscv64-unknown-elf-nm"


class NoSymbols(Exception):
    """The executable has no symbols that can be read."""


@dataclass
class Symbol:
    """A name of `size` bytes from an address on; `file` is known of what one file alone has."""

    address: int
    size: int
    name: str
    kind: int
    file: str = ""


def segments(elf):
    """What an executable loads."""
    try:
        return executables.read(elf).segments
    except executables.Refused as why:
        raise NoSymbols(f"it is no executable that is accepted: {why}") from why


def text_at(data, place):
    return data[place:data.find(b"\0", place)].decode("utf-8", "replace")


def symbols_of(elf):
    """The functions, variables and labels of the symbol table."""
    try:
        place, size, count = struct.unpack_from("<I", elf, 32)[0], *struct.unpack_from("<HH", elf, 46)
        sections = [struct.unpack_from("<10I", elf, place + size * number) for number in range(count)]
        table = next((one for one in sections if one[1] == TABLE), None)
        if place == 0 or table is None:
            raise NoSymbols("it has no symbol table; guest/build --symbols keeps one")
        names, found, file = sections[table[6]][4], [], ""
        for at in range(table[4], table[4] + table[5], 16):
            name, address, length, kind, _, section = struct.unpack_from("<IIIBBH", elf, at)
            file = text_at(elf, names + name) if kind & 15 == FILE else "" if kind >> 4 else file
            symbol = Symbol(address, length, text_at(elf, names + name), kind & 15, file)
            if section and symbol.kind in (PLAIN, OBJECT, FUNCTION) and symbol.name and symbol.name[0] not in "$.":
                found.append(symbol)
    except (struct.error, IndexError) as why:
        raise NoSymbols("its symbol table can't be read") from why
    return sorted(found, key=lambda symbol: (symbol.address, symbol.kind))


class Symbols:
    """The symbols of an executable, by their addresses."""

    def __init__(self, name, elf, has_names=True):
        self.name, self.found, self.segments = name, symbols_of(elf) if has_names else [], segments(elf)
        self.starts, self.lines, self.pages = [symbol.address for symbol in self.found], {}, {}
        self.known = {}  # the symbols of addresses that were looked up
        self.library = set()  # where its functions begin
        self.labels = {symbol.name: symbol.address for symbol in self.found if symbol.name.startswith("it_")}
        self.library_files = {file.name for file in LIBRARY.rglob("*.c")} if "it_shared" in self.labels else set()

    def are_of(self, elf):
        """Whether an executable loads the same, but for the file's header, which has also what isn't loaded."""
        one, other = ([(it.address, it.size, it.rights, it.body()) for it in parts]
                      for parts in (self.segments, segments(elf)))
        return one == other

    def at(self, address):
        """The symbol that an address is of: one whose bytes it is among, or else a label before it."""
        if address not in self.known:
            self.known[address] = self.looked_up(address)
        return self.known[address]

    def looked_up(self, address):
        place = bisect.bisect_right(self.starts, address)
        before = self.found[max(0, place - 20):place][::-1]
        inside = (symbol for symbol in before if address < symbol.address + symbol.size)
        label = (symbol for symbol in before[:1] if symbol.kind == PLAIN and not symbol.size)
        return next(inside, next(label, None))

    def on_page(self, address):
        """The variables that have a byte on the page of an address."""
        page = address - address % PAGE
        if page not in self.pages:
            self.pages[page] = [symbol for symbol in self.found if symbol.kind == OBJECT
                                and symbol.address < page + PAGE and symbol.address + symbol.size > page]
        return self.pages[page]

    def frames(self, addresses):
        """Asks for the functions of these addresses of code, those that were inlined first, with their lines."""
        wanted = sorted(set(addresses))
        for start in range(0, len(wanted), AT_ONCE):
            for tool, words, taken in READERS:
                if shutil.which(tool):
                    line = [tool, *words, self.name, *map(hex, wanted[start:start + AT_ONCE])]
                    ran = subprocess.run(line, stdin=subprocess.DEVNULL, capture_output=True, check=False)
                    yield from taken(ran.stdout)
                    break

    def read_lines(self, addresses):
        """Asks for the lines of these addresses of code."""
        wanted = set(addresses) - self.lines.keys()
        self.lines.update({address: line_of(frames) for address, frames in self.frames(wanted)})

    def read_library(self):
        """Asks which functions are the C library's, by the names of their files, where the guest has one."""
        starts = [symbol.address for symbol in self.found if symbol.kind == FUNCTION and self.library_files]
        self.library = {address for address, frames in self.frames(starts)
                        if frames and OF_LIBRARY.search(frames[-1].get("FileName", ""))}

    def is_library(self, address):
        """Whether an address of code is in a function of the C library, once read_library has found these."""
        symbol = self.at(address) if self.library else None
        return symbol is not None and symbol.address in self.library

    def code(self, address):
        """The function that an address is in, with its line where it is known."""
        line, symbol = self.lines.get(address), self.at(address)
        if line:
            return f"{line[0]}, {line[1]}"
        return symbol.name if symbol else f"{address:08x}"

    def kind(self, address):
        """What an address of data is of: its kind, and a name."""
        for kind, low, behind, name in self.ranges():
            if low <= address < behind:
                return kind, name
        symbol = self.at(address)
        if symbol is None or self.data(address) is None:
            return "unnamed", "what has no name"
        if self.is_of_library(symbol):
            return "library", OF_FILES.get(symbol.file, f"`{symbol.name}` of the C library")
        return "variable", symbol.name

    def is_of_library(self, symbol):
        """Whether a variable is the C library's. A symbol has the name of its file without the folder, and a guest's file
        may have that of one of the library: so nm, if it is installed, says which of them it is."""
        if symbol.file not in self.library_files:
            return symbol.name.startswith("it_") and bool(self.library)
        return bool(OF_LIBRARY.search(self.paths.get(symbol.address, f"guest/lib/{symbol.file}")))

    @functools.cached_property
    def paths(self):
        """By the addresses of symbols, the files that have them, with their folders, as far as nm knows them."""
        if not shutil.which(NM):
            return {}
        ran = subprocess.run([NM, "-l", self.name], stdin=subprocess.DEVNULL, capture_output=True, check=False)
        lines = re.finditer(r"^([0-9a-f]{8}) . [^\t\n]*\t(.*):[0-9]+$", ran.stdout.decode("utf-8", "replace"), re.M)
        return {int(line.group(1), 16): line.group(2) for line in lines}

    def ranges(self):
        """Where the C library's heap is, and what each thread has for itself: a kind, the first address, the one behind
        the last, and a name."""
        if {"it_heap", "it_heap_end"} <= self.labels.keys():
            yield "heap", self.labels["it_heap"], self.labels["it_heap_end"], "the heap"
        if {"it_own", "it_own_size"} <= self.labels.keys():
            low, size = self.labels["it_own"], self.labels["it_own_size"]
            yield "own", low, low + THREADS * size, "what each thread has for itself (errno, _Thread_local)"

    def data(self, address):
        """The variable that an address is in; None where it is in none."""
        symbol = self.at(address)
        if symbol is None or symbol.kind != OBJECT and symbol.size == 0:
            return None
        return symbol.name + (f" + {address - symbol.address}" if address > symbol.address else "")


def of_symbolizer(printed):
    """The functions and lines of what llvm-symbolizer prints."""
    try:
        found = json.loads(printed or b"[]")
    except json.JSONDecodeError:
        found = []
    yield from ((int(one["Address"], 16), one.get("Symbol", [])) for one in found)


def of_addr2line(printed):
    """Those of what addr2line prints: an address, and for each function two lines."""
    for part in printed.decode("utf-8", "replace").split("\n0x"):
        address, *lines = part.split("\n")
        pairs = ((name, *re.fullmatch("(.*):([0-9?]+).*", line).groups()) for name, line in zip(lines[::2], lines[1::2]))
        if address:
            yield int(address, 16), [{"FunctionName": name, "FileName": file, "Line": int(line) if line.isdigit() else 0}
                                     for name, file, line in pairs]


READERS = [("llvm-symbolizer", ["--output-style=JSON", "--obj"], of_symbolizer),
           ("riscv64-unknown-elf-addr2line", ["-a", "-f", "-i", "-e"], of_addr2line)]


def line_of(frames):
    """The function and the line, in the innermost of the files of the guest itself; None where none is known."""
    known = [(one["FunctionName"], one["FileName"], one["Line"]) for one in frames
             if one.get("Line") and one.get("FunctionName")]
    behind = [one for one in known if not one[1].endswith(IN_HEADER)]
    own = [one for one in behind if not OF_LIBRARY.search(one[1])]
    return next(((name, f"{file.rpartition('/')[2]}:{line}") for name, file, line in own or behind or known), None)


def found_in(name, elf):
    """The symbols of an executable, as far as it has some."""
    try:
        return Symbols(name, elf)
    except NoSymbols:
        return Symbols(name, elf, has_names=False)
