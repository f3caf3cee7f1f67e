"""What the checks of the tools share: counting, files, random numbers, and running the program or a tool."""
import os
import pathlib
import pty
import random
import subprocess
import time

ROOT = pathlib.Path(__file__).resolve().parent.parent
EXAMPLES = ROOT / "examples"
SECONDS = 120  # that a run may take
MOST_INPUT = 1_048_576
MOST_LIST = 1_048_576
GUEST = EXAMPLES / "length.elf"  # one thread, so that nothing but the input can make its memory another


class Checks:
    """What was found so far, a folder for files, and where the random numbers come from."""

    def __init__(self, folder):
        self.folder, self.passed, self.failed, self.random = folder, 0, 0, random.Random(1)

    def expect(self, what, right):
        if right:
            self.passed += 1
        else:
            self.failed += 1
            print(f"failed: {what}", flush=True)
        return right

    def file(self, name, data):
        (self.folder / name).write_bytes(data)
        return self.folder / name


def ran_whole(*words, **how):
    """The status, what was printed, and all of standard error."""
    done = subprocess.run(words, stdin=subprocess.DEVNULL, capture_output=True, timeout=SECONDS, check=False, **how)
    return done.returncode, done.stdout, done.stderr.decode("utf-8", "replace")


def on_terminal(*words):
    """The status, what was printed, and standard error, which is a terminal; little may be printed."""
    own, other = pty.openpty()
    with subprocess.Popen(words, stdin=subprocess.DEVNULL, stdout=subprocess.PIPE, stderr=other) as started:
        os.close(other)
        errors = b""
        try:
            while part := os.read(own, 65_536):
                errors += part
        except OSError:  # it has ended
            pass
        os.close(own)
        printed = started.stdout.read()
    return started.returncode, printed, errors.decode("utf-8", "replace")


def ran(*words):
    """The status, what was printed, and the first line on standard error."""
    status, printed, errors = ran_whole(*words)
    return status, printed, errors.partition("\n")[0]


def is_built(name):
    """Whether a proved program is there or can be built: if it isn't there, it is proved and built first."""
    quiet = {"stdin": subprocess.DEVNULL, "stdout": subprocess.DEVNULL, "stderr": subprocess.DEVNULL}
    return subprocess.run([str(ROOT / name), "--help"], check=False, **quiet).returncode != 125


def has_ended(process):
    """Whether a process has ended, or does so within some seconds."""
    end = time.monotonic() + 5
    while True:
        try:
            state = pathlib.Path(f"/proc/{process}/stat").read_text().rpartition(")")[2].split()[0]
        except OSError:
            return True
        if state == "Z" or time.monotonic() > end:
            return state == "Z"
        time.sleep(0.02)


def program(*words):
    return ran(str(ROOT / "ithreads"), *map(str, words))


def tool(name, *words):
    return ran(str(ROOT / "tools" / name), *map(str, words))
