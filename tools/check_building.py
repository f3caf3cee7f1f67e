"""Checks what `./ithreads` says while the program is built, with an `rt` that proves nothing and prints recorded lines.

Copies of the script, of tools/launch and of tools/crates.bash stand in a folder of their own beside crates.txt. It says
of each crate that it is proved, and how many are of how many: that number is found here in another way. If building
fails it says so, the last lines of `rt ci` are shown, and the status is 125; so it is if there is no `rt`, or
ITHREADS_NO_BUILD is set. SIGTERM and SIGINT end `rt` too, and leave nothing. If a source and a commit are newer than
the program, a line says so, and the program runs.
"""
import os
import pathlib
import re
import shutil
import signal
import subprocess
import time

from checking import ROOT, SECONDS, has_ended

# What `rt` is here: it writes down its words and crates.txt, prints the lines of a file, waits if it is to, and makes the
# program if it is to.
FAKE = """#!/bin/sh
echo "$*" >>"$FAKE/words"
cat crates.txt >"$FAKE/proved"
cat "$FAKE/lines"
[ ! -f "$FAKE/waits" ] || { echo $$ >"$FAKE/pid"; sleep 60; }
[ -f "$FAKE/program" ] || exit 1
mkdir -p crates/ithreads_cli/out && cp "$FAKE/program" crates/ithreads_cli/out/ithreads_cli
"""
PROGRAM = '#!/bin/sh\necho "program $*"\necho "$GLIBC_TUNABLES"\nexit 7\n'
TUNABLE = "glibc.malloc.top_pad=65536"  # that the caller sets
PROVED = """== {0}
so far: 0 of 42 functions checked; the verdict comes last
fn {0}::fields::logic: proved
library isa_spec: modules loaded=148 checked=0
logic=proved functions=42 sum=dac8208d650f15bf native=nat,char,string
rt: {0} proved
"""
CACHED = "rt: {0} is kept: an earlier run on this machine proved the same files over the same libraries\n"
TESTS = "rt: {0}: its tests are proved\n"
REFUSED = "== {0}\nfn {0}::first: not proved\nerror: {0} is refused\nrt: {0} NOT PROVED\n"


def crates_below():
    """The crates that the program stands on, and itself: lines of crates.txt are taken in until none is new."""
    lines = [line.split("#")[0].partition(":") for line in (ROOT / "crates.txt").read_text().split("\n")]
    below = {name.split()[0]: deps.split() for name, colon, deps in lines if colon}
    found, size = {"ithreads_cli"}, 0
    while size < len(found):
        size = len(found)
        found |= {dep for name in found for dep in below[name] if dep in below}
    return sorted(found)


def place_of(checks, what, lines, made):
    """A folder with the script and an `rt`, which prints lines and may make the program."""
    place = checks.folder / what.replace(" ", "-")
    (place / "crates/ithreads_cli").mkdir(parents=True)
    (place / "tools").mkdir()
    for name in ("ithreads", "tools/launch", "tools/crates.bash", "crates.txt", "HANDLES"):
        shutil.copy(ROOT / name, place / name)
    for name, text in [("rt", FAKE), ("lines", lines), ("words", ""), *([("program", PROGRAM)] if made else [])]:
        (place / name).write_text(text)
        (place / name).chmod(0o755)
    return place


def around(place, **more):
    """The environment of a call there."""
    return {**os.environ, "PATH": f"{place}:{os.environ['PATH']}", "FAKE": str(place), "GLIBC_TUNABLES": TUNABLE, **more}


def called(place, **more):
    """The script in its folder: its status, what was printed, and the lines on standard error."""
    how = {"stdin": subprocess.DEVNULL, "capture_output": True, "text": True, "timeout": SECONDS, "check": False}
    done = subprocess.run([place / "ithreads", "show", "two words"], env=around(place, **more), **how)
    errors = [re.sub(r", [0-9]+ s\)$", ")", line) for line in done.stderr.split("\n")]
    return done.returncode, done.stdout, errors


def check_built(checks, what, lines, wanted):
    """Between the first two lines and the last are the wanted ones; then the program has the words, and the C library
    gets the tunables for one heap of large pages, and the caller's own."""
    place = place_of(checks, what, lines, True)
    status, printed, errors = called(place)
    wanted_of_it = f"program show two words\nglibc.malloc.hugetlb=1:glibc.malloc.arena_max=1:{TUNABLE}\n"
    checks.expect(f"{what}: the program runs: {status} {printed}", (status, printed) == (7, wanted_of_it))
    checks.expect(f"{what}: the first line has the number of crates: {errors[0]}",
                  errors[0].startswith("ithreads: ") and f" {len(crates_below())} crates " in errors[0])
    checks.expect(f"{what}: the second line names the way without a proof: {errors[1]}", "tools/try" in errors[1])
    checks.expect(f"{what}: the lines between: {errors[2:-2]}", errors[2:-2] == wanted)
    checks.expect(f"{what}: the last line: {errors[-2:]}",
                  errors[-2].startswith("ithreads: built in ") and not errors[-1])
    checks.expect(f"{what}: the words of rt", (place / "words").read_text() == "ci\n")
    proved = sorted(re.findall(r"^(\w+)[ :]", (place / "proved").read_text(), re.M))
    checks.expect(f"{what}: the crates that rt proves: {proved}", proved == crates_below())


def check_refused(checks, lines, wanted):
    """The lines of the crates before it, the last that `rt ci` printed, and that building failed."""
    status, printed, errors = called(place_of(checks, "one is refused", lines, False))
    checks.expect(f"one is refused: {status} {printed}", (status, printed) == (125, ""))
    shown = lines.splitlines()[-20:]
    checks.expect(f"one is refused: {errors[2:-2]}", errors[2:-2] == wanted + shown)
    failed = errors[-2].startswith("ithreads: building failed after ") and not errors[-1]
    checks.expect(f"one is refused: the last line: {errors[-2:]}", failed)


def check(checks):
    names = crates_below()
    many = len(names)
    end = f"rt: ok; handles allowed: Threads, Wait\n{many} passed, 0 failed\n"
    each = [PROVED.format(name) for name in names]
    wanted = [f"ithreads: proved {name} ({number} of {many})" for number, name in enumerate(names, 1)]
    check_built(checks, "all is proved", "".join(each) + end, wanted)
    cached = "".join(CACHED.format(name) for name in names[:-1])
    check_built(checks, "all but one were proved", cached + TESTS.format(names[0]) + each[-1] + end, wanted)
    wait = f"rt: {names[0]}: another run on this machine is proving the same; waiting for it\n"
    check_built(checks, "another rt is there", wait + "".join(each) + end, [wait.strip().replace("rt", "ithreads", 1), *wanted])
    failed = f"{many - 1} passed, 1 failed\n"
    check_refused(checks, "".join(each[:5]) + REFUSED.format(names[5]) + failed, wanted[:5])
    check_without(checks)
    check_age(checks)
    check_stopped(checks, "".join(each[:3]))


def check_without(checks):
    """No `rt` on the path, but the few programs that the script takes."""
    tools = checks.folder / "path"
    tools.mkdir()
    for name in ("bash", "env", "readlink", "dirname"):
        (tools / name).symlink_to(pathlib.Path(shutil.which(name)).resolve())
    for more, end in (({"PATH": str(tools)}, "no 'rt' to build it"),
                      ({"ITHREADS_NO_BUILD": "1"}, "ITHREADS_NO_BUILD is set")):
        what = f"not to be built by {next(iter(more))}"
        place = place_of(checks, what, "", True)
        status, printed, errors = called(place, **more)
        checks.expect(f"{what}: {status} {printed} {errors}",
                      (status, printed) == (125, "") and errors[0].endswith(end) and errors[1:] == [""])
        checks.expect(f"{what}: rt isn't called", not (place / "words").read_text())


def check_age(checks):
    """A program that is there, and sources that are older or newer; and ones that are newer without a commit."""
    place = place_of(checks, "there", "", True)
    program, source = place / "crates/ithreads_cli/out/ithreads_cli", place / "crates/ithreads_cli/src/main.rt"
    commits = place / ".git/logs/HEAD"
    for file, text in ((program, PROGRAM), (source, ""), (place / "crates/ithreads_cli/specs/Main.antt", ""),
                       (commits, "")):
        file.parent.mkdir(parents=True)
        file.write_text(text)
    program.chmod(0o755)
    older = ["ithreads: crates/ithreads_cli/src/main.rt is newer than the program: remove "
             "crates/ithreads_cli/out/ithreads_cli to have it built anew"]
    for of_source, of_commit, wanted in ((-9, -9, []), (-9, 9, []), (9, -9, []), (9, 9, older)):
        for file, seconds in ((source, of_source), (commits, of_commit)):
            at = program.stat().st_mtime + seconds
            os.utime(file, (at, at))
        status, printed, errors = called(place)
        right = status == 7 and printed.startswith("program show") and errors == [*wanted, ""]
        what = f"a source of {of_source} s after the program, a commit of {of_commit} s"
        checks.expect(f"{what}: {status} {printed} {errors}", right)


def check_stopped(checks, lines):
    """What remains where a signal ends the script while `rt` runs."""
    place = place_of(checks, "stopped", lines, True)
    temporary, pid = place / "temporary", place / "pid"
    temporary.mkdir()
    (place / "waits").touch()
    for how, status in ((signal.SIGTERM, 143), (signal.SIGINT, 130), (signal.SIGHUP, 143)):
        started = subprocess.Popen([place / "ithreads", "show"], stdin=subprocess.DEVNULL, stderr=subprocess.PIPE,
                                   env=around(place, TMPDIR=str(temporary)))
        end = time.monotonic() + SECONDS
        while not (pid.exists() and pid.read_text()) and time.monotonic() < end:
            time.sleep(0.02)
        started.send_signal(how)
        errors = started.communicate(timeout=SECONDS)[1].decode()
        is_ended = has_ended(pid.read_text().strip())
        remaining = [*temporary.iterdir(), *(place / "crates").glob("*/out/*")]
        checks.expect(f"stopped by {how.name}: {started.returncode} {is_ended} {remaining} {errors}",
                      started.returncode == status and is_ended and not remaining and "Terminated" not in errors)
        pid.unlink()
