"""Checks the commands that README.md, docs/GUESTS.md and tools/README.md show.

  - Each block of commands is run as it is written, in the order of these documents, in one folder that has the
    repository's files by links; `./ithreads` stands in for `tools/try`. It ends with status 0, or with the one that is
    written here. A C file that the text names is the one that it shows.
  - A block behind it that shows what is printed is part of what was printed, but for seconds; up to a line of two dots.
  - The makefile's rule builds, reuses, and leaves alone what hasn't changed.

What isn't run here: installing, which tools/check_install.py tries, and tools/explore, which tools/check_explore.py
does. Addresses and counts depend on the compiler, so all of it takes the versions that guest/build notes.
"""
import re
import shutil
import subprocess

from checking import ROOT, ran_whole

DOCUMENTS = ["README.md", "docs/GUESTS.md", "tools/README.md"]
SECONDS = 600  # that a block may take, of which some build several guests
LINKS = ["docs", "examples", "guest", "ithreads", "tools", "trace"]
NEEDED = ["clang", "ld.lld", "llvm-symbolizer", "riscv64-unknown-elf-gcc", "cc", "make"]
BLOCK = re.compile(r"^```([a-z]*)\n(.*?)^```$", flags=re.S | re.M)
COMMAND = re.compile(r"(?:\./[a-z]+|examples/posix/[a-z-]+|tools/[a-z-]+|guest/build|cp|cc|diff|head|python3) ")
NOT_RUN = ("tools/install", "tools/explore", "audit.elf")
STATUSES = {"diff <(": 1, "one-word.in": 1}  # of blocks with these words
SAVED = re.compile(r"[Ss]aved? (?:it )?as `(\w+\.c)`")
QUOTED = {"step 19 ": "docs/GUESTS.md"}  # how a block begins whose lines are those of another document
TOTAL = 5000, b"\x21", b"2 executed"  # a byte of mine.in, another one, and what the call after that prints


class Place:
    """The folder in which commands are run, and what the last ones printed; nothing if they weren't run."""

    def __init__(self, checks):
        self.checks, self.folder, self.printed = checks, checks.folder / "documents", None
        self.folder.mkdir()
        for name in LINKS:
            (self.folder / name).symlink_to(ROOT / name)
        text = (ROOT / "examples/guest/words.in").read_bytes() * 12
        (self.folder / "old.in").write_bytes(text)
        (self.folder / "new.in").write_bytes(b"?" + text)

    def run(self, what, commands):
        """A block of commands."""
        self.printed = None
        if any(word in commands for word in NOT_RUN):
            return
        words = ["bash", "-c", commands.replace("tools/try", "./ithreads")]
        done = subprocess.run(words, stdin=subprocess.DEVNULL, stdout=subprocess.PIPE, stderr=subprocess.STDOUT,
                              cwd=self.folder, timeout=SECONDS, check=False)
        self.printed = done.stdout.decode("utf-8", "replace")
        wanted = next((status for word, status in STATUSES.items() if word in commands), 0)
        self.checks.expect(f"{what}: status {done.returncode}: {self.printed[-300:]}", done.returncode == wanted)

    def compare(self, what, shown):
        """A block of what is printed."""
        elsewhere = next((name for begun, name in QUOTED.items() if shown.startswith(begun)), None)
        if elsewhere:
            lines = (ROOT / elsewhere).read_text().split("\n")
            self.checks.expect(f"{what}: {elsewhere} has its lines", set(shown.split("\n")[:-1]) <= set(lines))
        elif self.printed is not None and not shown.startswith(" "):
            wanted = without_seconds(shown.partition("\n..\n")[0])
            self.checks.expect(f"{what}: what is printed is {self.printed}", wanted in without_seconds(self.printed))


def without_seconds(text):
    return re.sub(r"[0-9]+\.[0-9]+ s\b", "some s", text)


def check_document(place, document):
    text, end = (ROOT / document).read_text(), 0
    for found in BLOCK.finditer(text):
        kind, block = found.groups()
        what = f"{document}, line {text.count(chr(10), 0, found.start()) + 2}"
        saved = SAVED.findall(text[end:found.start()])
        end = found.end()
        if kind == "c" and saved:
            (place.folder / saved[-1]).write_text(block)
        elif ".DELETE_ON_ERROR" in block:
            check_makefile(place, what, block)
        elif not kind and COMMAND.match(block):
            place.run(what, block)
        elif not kind:
            place.compare(what, block)


def check_makefile(place, what, rule):
    """Sums of bytes, which python3 adds up too."""
    (place.folder / "Makefile").write_text(rule)
    data, (at, byte, wanted_after) = place.folder / "mine.in", TOTAL
    before = data.read_bytes()
    after = before[:at] + byte + before[at + 1:]
    for text, wanted in ((before, b"from scratch"), (after, wanted_after), (None, b"up to date")):
        if text is not None:
            data.write_bytes(text)
        status, printed, errors = ran_whole("make", cwd=place.folder)
        total = (place.folder / "count.txt").read_bytes()
        right = status == 0 and total == str(sum(data.read_bytes())).encode() and wanted in printed + errors.encode()
        place.checks.expect(f"{what}: {status} {printed} {errors} {total}", right)
    data.write_bytes(before)


def is_noted():
    """Whether clang and lld are of the versions that guest/build notes."""
    clang, lld = (ran_whole(name, "--version")[1].decode().partition("\n")[0] for name in ("clang", "ld.lld"))
    return f"{clang}, {re.sub(r' [(].*', '', lld)}" in (ROOT / "guest/build").read_text()


def check(checks):
    missing = [name for name in NEEDED if not shutil.which(name)]
    if missing or not is_noted():
        print(f"skipped: the commands that documents show: {' '.join(missing) or 'other versions of clang and lld'}")
        return
    place = Place(checks)
    for document in DOCUMENTS:
        check_document(place, document)
