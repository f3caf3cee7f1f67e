"""Checks `tools/install`, the manual page, the completion, and `tools/package`.

  - What is installed is what the list has, names no file of the repository, and names the tools as they are called
    then. Each command does from another folder what it does here, where the repository can't be seen, if this user may
    hide it. What is installed anew replaces what was there, and what is removed isn't there
    afterwards; another list is refused.
  - The manual page has no fault that `mandoc` or `man` finds; it has the version, each command and option that the
    program has, and each command that is installed.
  - In bash and, if there is one, in zsh, what is begun is completed: commands, options that `--help` has, and files.
  - The package has the files of an installation, its version and what it needs, and the same bytes each time.
"""
import os
import pathlib
import re
import shutil

from checking import EXAMPLES, ROOT, program, ran_whole, tool

VERSION = (ROOT / "VERSION").read_text().strip()
TRIED = ("install", "package", "check-package")  # which the guide to the tools needn't have, since nobody installs them
PAIR = [str(EXAMPLES / f"pair.{word}") for word in ("elf", "in", "edits")]
ONE = ("--workers", "1")
C_FILE = b'#include <stdio.h>\nint main(void) { printf("%d\\n", getchar()); return 7; }\n'
COMPLETE = """
source "$1"; shift
COMP_WORDS=("$@"); COMP_CWORD=$(($# - 1)); _ithreads; printf '%s\\n' "${COMPREPLY[@]}"
"""
COMPLETED = [  # words that are begun, and what bash proposes in a folder with memo, pair.elf, pair.edits and more
    ("ithreads sh", ["show"]), ("ithreads --workers ", []), ("ithreads run --memo mem", ["memo"]),
    ("ithreads run --memo = mem", ["memo"]), ("ithreads run --fuel = ", []),
    ("ithreads --workers 1 re", ["rerun", "replay"]), ("ithreads run pair.e", ["pair.elf", "pair.edits"]),
    ("ithreads-why --s", ["--symbols", "--summary"]), ("ithreads-why me", ["memo"]),
    ("ithreads-build --march ", ["rv32i", "rv32im"]), ("ithreads-build --l", ["--libc"]),
    ("ithreads-again --", ["--build", "--help", "--watch"]),
    ("ithreads-timeline --h", ["--html", "--help"]), ("ithreads help ", []),
]
IN_ZSH = [("ithreads rep", ["replay"]), ("ithreads run --rea", ["--reach"]), ("ithreads show mem", ["memo"]),
          ("ithreads-why --sum", ["--summary"]), ("ithreads-build --march rv32i", ["rv32im"]),
          ("ithreads run pair.e", ["pair.elf", "pair.edits"])]
# What zsh has completed is what it puts into its line, or the list that it shows, in a terminal of its own.
ZSH = """
zmodload zsh/zpty; zpty shell zsh -f -i
{ zpty -w shell "$1"; zpty -w shell "print READY"; zpty -n -w shell "$2"$'\\t\\t\\n'; zpty -w shell exit
  while zpty -r shell part; do print -rn -- "$part"; done } 2>/dev/null
"""


class Place:
    """An installation in a folder, and how its commands are called, in a folder of their own."""

    def __init__(self, checks, prefix):
        self.checks, self.prefix, self.folder = checks, prefix, checks.folder / "elsewhere"
        self.folder.mkdir(exist_ok=True)
        self.path = {**os.environ, "PATH": f"{prefix}/bin:{os.environ['PATH']}"}

    def ran(self, *words, hide=()):
        return ran_whole(*hide, *map(str, words), cwd=self.folder, env=self.path)

    def listed(self):
        return (self.prefix / "lib/ithreads/files").read_text().split("\n")[:-1]

    def files(self):
        return sorted(str(file.relative_to(self.prefix)) for file in self.prefix.rglob("*")
                      if file.is_symlink() or file.is_file())


def hiding():
    """What stands before the words of a call that isn't to see the repository; nothing if it can't be hidden."""
    words = ["unshare", "--mount", *([] if os.getuid() == 0 else ["--map-root-user"]), "sh", "-c",
             'mount -t tmpfs none "$0" && exec "$@"', str(ROOT)]
    if ran_whole(*words, "true")[0] == 0:
        return words
    print("skipped: hiding the repository from what is installed, since no file system can be mounted here")
    return []


def named_examples(text):
    """The files of examples/ that a document names, but for the scripts that check others."""
    for name in re.findall(r"\bexamples/[\w./-]*\w(?:\.\{[\w,]+\}[\w.]*\w|\.\{[\w,]+\})?", text):
        before, _, rest = name.partition("{")
        many, _, behind = rest.partition("}")
        yield from (f"{before}{one}{behind}" for one in many.split(",") if not name.endswith("/check"))


def check_examples(checks, place):
    """What the documents name is there, and as it is here."""
    documents = place.prefix / "share/doc/ithreads"
    for name in ("README.md", "docs/GUESTS.md", "tools/README.md", "guest/README.md"):
        named = set(named_examples((documents / name).read_text()))
        missing = sorted(one for one in named if not (documents / one).exists())
        checks.expect(f"the examples that {name} names, {len(named)}, but for {missing}", named and not missing)
    for name in ("pair.elf", "guest/words.in", "posix/make-keys"):
        same = (documents / "examples" / name).read_bytes() == (EXAMPLES / name).read_bytes()
        checks.expect(f"examples/{name} is as it is here", same)


def check_links(checks, place):
    """Each link of a document leads to what is installed; what isn't is named without a link."""
    for file in sorted((place.prefix / "share/doc/ithreads").rglob("*.md")):
        text = file.read_text()
        found = re.findall(r"\]\(([^()\s]+)\)|^\[[^][]+\]: (\S+)$", text, re.M)
        targets = {(one or other).partition("#")[0] for one, other in found}
        dead = sorted(one for one in targets if one and "://" not in one and not (file.parent / one).exists())
        undefined = set(re.findall(r"\[(`[^][`]+`)\](?![(\[:])", text)) - set(re.findall(r"^\[(.*)\]:", text, re.M))
        checks.expect(f"links of {file.name} that lead nowhere: {dead} {undefined}", not dead and not undefined)


def check_files(checks, place):
    """The list, links that lead somewhere, and texts that name nothing of the repository."""
    checks.expect(f"the list has the files: {len(place.files())}", place.listed() == place.files())
    dangling = [name for name in place.files() if not (place.prefix / name).exists()]
    checks.expect(f"links that lead nowhere: {dangling}", not dangling)
    commands = {name.removeprefix("bin/") for name in place.files() if name.startswith("bin/")}
    texts = {name: (place.prefix / name).read_bytes() for name in place.files() if "/bin/" not in f"/{name}"}
    wrong = [name for name, text in texts.items() if str(ROOT).encode() in text]
    checks.expect(f"texts that name the repository: {wrong}", not wrong)
    names = "|".join(name.removeprefix("ithreads-") for name in commands - {"ithreads"})
    old = re.compile(rf"tools/(?:{names})(?![\w/-]|\.\w)|\./(?:ithreads|trace)\b|guest/build\b".encode())
    wrong = {name: old.search(text).group() for name, text in texts.items()
             if old.search(text) and not name.startswith(("share/doc", "lib/ithreads/files"))}
    checks.expect(f"texts with the names of the repository: {wrong}", not wrong)
    return commands


def check_commands(checks, place, commands):
    """Each command says with --help what it is; those that are tools name themselves as they are called."""
    for name in sorted(commands):
        status, printed, errors = place.ran(name, "--help")
        right = status == 2 and "Usage" in errors if name == "ithreads" else status == 0 or name == "ithreads-trace"
        checks.expect(f"{name} --help: {status} {errors[:60]}", right and "tools/" not in printed.decode())
    for words in ("why none none", "verify none none none", "again none none", "edits none none", "build --wrong"):
        status, _, errors = place.ran(*f"ithreads-{words}".split(" "))
        checks.expect(f"{words}: {status} {errors}", status != 0 and "tools/" not in errors and "guest/" not in errors)


def check_work(checks, place):
    """A walk through the commands, each of which needs others, with the repository out of sight."""
    hide, memo = hiding(), place.folder / "memo"
    files = [place.folder / file.name for file in map(pathlib.Path, PAIR)]
    for file in PAIR:
        shutil.copy(file, place.folder)
    here = program("run", *PAIR, *ONE)[:2]
    status, printed, errors = place.ran("ithreads", "run", *files, *ONE, "--memo", memo, hide=hide)
    checks.expect(f"ithreads run: {status} {errors}", (status, printed) == here)
    (place.folder / "reports").write_bytes(printed)
    program("run", *PAIR[:2], *ONE, "--memo", checks.folder / "before")
    place.ran("ithreads", "run", *files[:2], *ONE, "--memo", memo, hide=hide)
    for name, words, known in (("why", (memo, files[2]), (checks.folder / "before", PAIR[2])),
                               ("verify", (*files, "reports"), (*PAIR, place.folder / "reports")),
                               ("report", ("reports",), (place.folder / "reports",)),
                               ("timeline", ("reports", "--guest", *files), (place.folder / "reports", "--guest", *PAIR)),
                               ("memo", (memo,), (checks.folder / "before",)),
                               ("explain", ("memo: Digest",), ("memo: Digest",)),
                               ("explore", (*files[:2], "--check"), (*PAIR[:2], "--check"))):
        status, printed, errors = place.ran(f"ithreads-{name}", *words, hide=hide)
        checks.expect(f"ithreads-{name}: {status} {errors}", (status, printed) == tool(name, *known)[:2])
    check_again(checks, place, hide)


def check_again(checks, place, hide):
    """A C file is built and run, and reused."""
    if not shutil.which("riscv64-unknown-elf-gcc"):
        print("skipped: ithreads-again, since there is no riscv64-unknown-elf-gcc")
        return
    (place.folder / "first.c").write_bytes(C_FILE)
    (place.folder / "data").write_bytes(b"A")
    for wanted in ("from scratch", "0 executed"):
        status, printed, errors = place.ran("ithreads-again", "first.c", "data", "--", *ONE, hide=hide)
        right = (status, printed) == (7, b"65\n") and errors.startswith("ithreads-again: ")
        checks.expect(f"ithreads-again: {status} {printed} {errors}", right and wanted in errors)


def check_manual(checks, place, commands):
    page = place.prefix / "share/man/man1/ithreads.1"
    text = page.read_text()
    tried = {"mandoc": ["mandoc", "-Tlint", "-Wwarning"], "groff": ["groff", "-mdoc", "-ww", "-Tutf8", "-z"]}
    for name, words in tried.items():
        if shutil.which(name):
            status, printed, errors = ran_whole(*words, str(page))
            checks.expect(f"{name}: {status} {printed.decode()}{errors}", status == 0 and not printed and not errors)
    if not any(map(shutil.which, tried)):
        print("skipped: the manual page's form, since there is neither mandoc nor groff")
    checks.expect("the manual page has the version", f"\n.Os ithreads {VERSION}\n" in text and "@" not in text)
    parts = re.split(r"^\.Nm\n\.Cm ", text[text.index(".Sh SYNOPSIS"):text.index(".Sh DESCRIPTION")], flags=re.M)[1:]
    synopsis = {part.split("\n")[0]: set(re.findall(r"\.Op Fl -([a-z-]+)", part)) for part in parts}
    described = set(re.findall(r"^\.It Cm ([a-z]+)", text, flags=re.M))
    for name in commands_of_program():
        options = options_in(program_help(name)) - {"--help"}
        missing = {option[2:] for option in options} - synopsis.get(name, set())
        checks.expect(f"the manual page has the command {name} and its options, but for {missing}",
                      name in described and not missing)
    missing = commands - {"ithreads"} - set(re.findall(r"^\.It Nm ([a-z-]+)", text, flags=re.M))
    checks.expect(f"the manual page has the tools, but for {missing}", not missing)
    for name in commands:
        checks.expect(f"there is a manual page of {name}", (page.parent / f"{name}.1").exists())


def program_help(*words):
    return ran_whole(str(ROOT / "ithreads"), *words, "--help")[2]


def commands_of_program():
    """Its commands, by its help, but for the one that shows it."""
    text = program_help().partition("Commands:")[2].split("\n\n")[0]
    return sorted(set(re.findall(r"^  ([a-z]+)\s", text, flags=re.M)) - {"help"})


def options_in(text):
    return set(re.findall(r"^ +(?:-[a-zA-Z], )?(--[a-z-]*[a-z])", text, flags=re.M))


def check_bash(checks, place):
    """What is proposed for words that are begun."""
    def completed(*words):
        script = place.prefix / "share/bash-completion/completions/ithreads"
        status, printed, errors = place.ran("bash", "-c", COMPLETE, "-", script, *words)
        checks.expect(f"completion of {words}: {errors}", status == 0 and not errors)
        return set(printed.decode().split("\n")) - {""}

    here = {file.name for file in place.folder.iterdir()}
    names = commands_of_program()
    checks.expect("commands are completed", completed("ithreads", "") == {*names, "help"})
    for name in names:
        found = completed("ithreads", name, "-")
        checks.expect(f"options of {name} are completed: {found}", found == options_in(program_help(name)))
        wanted = set() if name == "gen" else here
        checks.expect(f"files of {name} are completed", completed("ithreads", name, "") == wanted)
    for words, wanted in COMPLETED:
        found = completed(*words.split(" "))
        checks.expect(f"completion of `{words}`: {found}", found == set(wanted))


def check_zsh(checks, place):
    if not shutil.which("zsh"):
        print("skipped: completion in zsh, since there is none")
        return
    folder = place.prefix / "share/zsh/site-functions"
    setup = f"fpath=({folder} $fpath); autoload -U compinit; compinit -u -D; PS1="
    for begun, wanted in IN_ZSH:
        status, printed, errors = place.ran("zsh", "-fc", ZSH, "-", setup, begun)
        shown = printed.decode("utf-8", "replace").partition("READY")[2]
        checks.expect(f"zsh completes `{begun}`: {status} {errors} {shown!r}", all(word in shown for word in wanted))


def check_stopped(checks):
    """What an installation that was stopped has put in place can be removed."""
    stopped = Place(checks, checks.folder / "stopped")
    (stopped.prefix / "share").mkdir(parents=True)
    (stopped.prefix / "share/man").write_text("no folder")
    for words in ((), ("--uninstall",)):
        status, _, errors = tool("install", "--prefix", stopped.prefix, *words)
        wanted, part = (1, "share/man") if not words else (0, "")
        checks.expect(f"install {words}, where a file stands in the way: {status} {errors}",
                      status == wanted and part in errors and "Traceback" not in errors)
        (stopped.prefix / "share/man").unlink(missing_ok=True)
    checks.expect(f"nothing of it remains: {stopped.files()}", not stopped.files())


def check_removal(checks, place):
    """Installing anew removes what is no longer part of it; another list is refused; what is removed isn't there."""
    home = place.prefix / "lib/ithreads"
    before, old = place.files(), home / "old"
    old.write_text("old")
    (place.prefix / "bin/own").write_text("own")
    (home / "files").write_text("".join(f"{name}\n" for name in [*before, "lib/ithreads/old"]))
    status, _, errors = tool("install", "--prefix", place.prefix)
    checks.expect(f"it is installed anew: {status} {errors}",
                  status == 0 and place.files() == sorted([*before, "bin/own"]))
    saved = (home / "files").read_text()
    for name in ("../outside", "/etc/passwd", "", "a\0b"):
        (home / "files").write_text(f"{name}\n")
        status, _, errors = tool("install", "--uninstall", "--prefix", place.prefix)
        checks.expect(f"a list with {name!r}: {status} {errors}", status == 1 and repr(name) in errors)
    (home / "files").write_bytes(b"lib/ithreads/\xff\nbin\n")
    status, _, errors = tool("install", "--uninstall", "--prefix", place.prefix)
    checks.expect(f"a list with bytes and a folder: {status} {errors}",
                  status == 1 and "/bin: Is a directory" in errors)
    (home / "files").write_text(saved)
    status, _, errors = tool("install", "--uninstall", "--prefix", place.prefix)
    checks.expect(f"it is removed, {place.files()}: {status} {errors}", status == 0 and place.files() == ["bin/own"])
    checks.expect("its folder is removed", not home.exists())
    status, _, errors = tool("install", "--uninstall", "--prefix", place.prefix)
    checks.expect(f"nothing is there to be removed: {status} {errors}", status == 1 and "no installation" in errors)
    for words in (("--prefix", "relative"), ("more",)):
        checks.expect(f"install {words}", tool("install", *words)[0] == 2)
    for name in TRIED:
        status, printed, errors = tool(name, "--help")
        checks.expect(f"{name} --help: {status} {errors}", status == 0 and b"status" in printed and not errors)


def check_package(checks, files):
    """The package's files, beside those that are for tools/install alone, and what it says of itself."""
    if not shutil.which("dpkg-deb"):
        print("skipped: the package, since there is no dpkg-deb")
        return
    made = []
    for number in range(2):
        folder = checks.folder / f"package{number}"
        folder.mkdir()
        status, printed, errors = ran_whole(str(ROOT / "tools/package"), str(folder))
        if not checks.expect(f"a package is built: {status} {errors}", status == 0 and not errors):
            return
        made.append(pathlib.Path(printed.decode().strip()))
    checks.expect("the package has the same bytes each time", made[0].read_bytes() == made[1].read_bytes())
    listing = ran_whole("dpkg-deb", "--contents", str(made[0]))[1].decode().split("\n")[:-1]
    names = {line.split(" ./usr/", 1)[1].split(" -> ")[0] for line in listing if not line.startswith("d")}
    wanted = {f"{name}.gz" if name.startswith("share/man/") else name.replace("site-functions", "vendor-completions")
              for name in files if name != "lib/ithreads/files"}
    checks.expect(f"the package has the files: {names ^ wanted}", names == wanted)
    owned = all(" root/root " in line for line in listing)
    about = ran_whole("dpkg-deb", "--field", str(made[0]), "Package", "Version", "Depends")[1].decode()
    needs = r"libc6 \(>= 2\.\d+\), python3 \(>= 3\.10\)"
    right = re.fullmatch(rf"Package: ithreads\nVersion: {re.escape(VERSION)}\nDepends: {needs}\n", about)
    checks.expect(f"the package is root's, and says {about}", owned and right)


def check(checks):
    place = Place(checks, checks.folder / "prefix")
    status, _, errors = tool("install", "--prefix", place.prefix)
    if not checks.expect(f"it is installed: {status} {errors}", status == 0 and not errors):
        return
    commands, files = check_files(checks, place), place.files()
    check_links(checks, place)
    check_examples(checks, place)
    check_stopped(checks)
    check_commands(checks, place, commands)
    check_work(checks, place)
    check_manual(checks, place, commands)
    check_bash(checks, place)
    check_zsh(checks, place)
    check_removal(checks, place)
    status, _, errors = tool("install", "--prefix", "/made/up", "--destdir", checks.folder / "root")
    below = Place(checks, checks.folder / "root/made/up")
    checks.expect(f"below a --destdir: {status} {errors}", status == 0 and below.files() == files)
    page = (below.prefix / "share/man/man1/ithreads.1").read_text()
    checks.expect("the manual page names the prefix", "/made/up/lib/ithreads" in page)
    check_package(checks, files)
