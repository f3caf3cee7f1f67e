"""How the scripts find files, run the program, and report what they found."""
import os
import subprocess

from . import ROOT

PROGRAM = os.path.join(ROOT, "ithreads")
SECONDS = 60  # that a run may take
TINY = ("hi", "pair", "bytes", "late", "length", "try", "cross", "perm", "trap", "self")  # guests of examples/
LARGE = ("histogram", "words", "matrix", "kmeans", "stencil", "pipeline")  # guests of examples/guest/
FUEL, STEPS = 1_000_000, 4096  # the limits of a run by itself


def content(*names):
    """The bytes of a file of the repository."""
    with open(os.path.join(ROOT, *names), "rb") as file:
        return file.read()


def written(folder, name, data):
    """The name of a file that has this content now."""
    path = os.path.join(folder, name)
    with open(path, "wb") as file:
        file.write(data)
    return path


def ran(*words, folder=None, seconds=SECONDS):
    """The status of the program, what it prints, and its standard error; no status if it takes too long."""
    try:
        done = subprocess.run([PROGRAM, *map(str, words)], cwd=folder, stdin=subprocess.DEVNULL, capture_output=True,
                              timeout=seconds, check=False)
        return done.returncode, done.stdout, done.stderr.decode(errors="replace")
    except subprocess.TimeoutExpired:
        return None, b"", f"it was stopped after {seconds} s"


def is_missing():
    """Whether the program isn't built, and can't be. If it isn't yet, it is built here: --help itself runs nothing."""
    missing = ran("--help", seconds=None)[0] == 125
    if missing:
        print("the program isn't built, and can't be\n0 passed, 1 failed")
    return missing


def count(cases):
    """The status of a script: of each case its name, what is wrong with it, and how much is right. Says what fails, and
    at the end how much passed and failed."""
    passed = failed = 0
    for name, wrong, right in cases:
        if wrong:
            print(f"{name}: {'; '.join(wrong)}", flush=True)
        passed, failed = passed + right, failed + bool(wrong)
    print(f"{passed} passed, {failed} failed")
    return 1 if failed or not passed else 0
