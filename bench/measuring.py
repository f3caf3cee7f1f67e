"""For the benches beside this file: runs of the program, their processor time and their peak memory; and the pages of a
guest."""
import os
import re
import shutil
import struct
import subprocess
import sys

ROOT = os.path.dirname(os.path.dirname(os.path.realpath(__file__)))
PROGRAM = os.path.join(ROOT, "crates/ithreads_cli/out/ithreads_cli")
HI = os.path.join(ROOT, "examples/hi.elf")  # a guest of two steps, which reads no input
PAGE = 4096
MACHINE_PAGES = 769  # of each guest: the input's header, the input and the stacks


def environment():
    """The environment of `./ithreads`, in which tools/launch sets how the C library takes memory."""
    with open(os.path.join(ROOT, "tools/launch")) as file:
        return {**os.environ, "GLIBC_TUNABLES": re.search(r'GLIBC_TUNABLES="([^"$]+)', file.read())[1]}


ENVIRONMENT = environment()


def once(folder, words):
    """The processor seconds and the peak KiB of one run, whose report goes to the file `report` of a folder.

    `time` measures the peak: the system's figure for a process is never less than that of the process which started it,
    and Python takes more than the program does in a short run."""
    peak = os.path.join(folder, "peak")
    with open(os.path.join(folder, "report"), "wb") as report:
        timer = ["time", "-q", "-f", "%M", "-o", peak]
        child = subprocess.Popen([*timer, PROGRAM, *words], stdin=subprocess.DEVNULL, stdout=report, env=ENVIRONMENT)
        _, status, usage = os.wait4(child.pid, 0)
    if status:
        sys.exit(f"{' '.join(words)}: status {os.waitstatus_to_exitcode(status)}")
    with open(peak) as file:
        return usage.ru_utime + usage.ru_stime, int(file.read())


def best(times, folder, words):
    """The least processor seconds of some runs, and the least peak KiB."""
    runs = [once(folder, words) for _ in range(times)]
    return min(seconds for seconds, _ in runs), min(peak for _, peak in runs)


def counted(folder, words):
    """The processor's instructions of one run, by valgrind, whose report goes to the file `report` of a folder."""
    counter = ["valgrind", "--tool=cachegrind", "--cache-sim=no", "--cachegrind-out-file=/dev/null"]
    with open(os.path.join(folder, "report"), "wb") as report:
        done = subprocess.run([*counter, PROGRAM, *words], stdin=subprocess.DEVNULL, stdout=report,
                              stderr=subprocess.PIPE, env=ENVIRONMENT, check=False)
    found = re.search(rb"I +refs: +([0-9,]+)", done.stderr)
    if done.returncode or found is None:
        sys.exit(f"{' '.join(words)}: status {done.returncode}: {done.stderr.decode(errors='replace')[-300:]}")
    return int(found[1].replace(b",", b""))


def ready(tool):
    """Ends this with status 1 where the program isn't built, or a tool that measures it isn't there."""
    name = os.path.basename(sys.argv[0])
    if not os.access(PROGRAM, os.X_OK):
        sys.exit(f"bench/{name}: the program isn't built; ./ithreads builds it")
    if shutil.which(tool) is None:
        sys.exit(f"bench/{name}: there is no {tool}")


def segments(executable):
    """Where the flags of each loaded segment stand in an executable, and the numbers of its pages."""
    headers, = struct.unpack_from("<I", executable, 28)
    size, count = struct.unpack_from("<HH", executable, 42)
    for place in range(headers, headers + size * count, size):
        kind, _, address, _, _, length = struct.unpack_from("<6I", executable, place)
        if kind == 1 and length:
            yield place + 24, range(address // PAGE, (address + length - 1) // PAGE + 1)


def pages_of(guest):
    """How many pages the memory of a guest has."""
    with open(guest, "rb") as file:
        return MACHINE_PAGES + len({number for _, numbers in segments(file.read()) for number in numbers})
