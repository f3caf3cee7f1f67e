"""Runs a program of this repository. While it is built, its lines on standard error are passed on at once."""
import contextlib
import signal
import subprocess
import sys
import threading
from dataclasses import dataclass

from endings import FAILURES

OF_BUILDING = ("ithreads: ", "trace: ")  # how lines of tools/launch begin, and no line of the programs


@dataclass
class Ran:
    """The result of a run: the status, what was printed, and the program's own lines on standard error."""

    status: int
    printed: bytes
    errors: list

    def last_error(self):
        """The last line on standard error, or what the status means."""
        return self.errors[-1] if self.errors else FAILURES.get(self.status, "")


@contextlib.contextmanager
def held():
    """Signals that have a handler wait until something is done."""
    came, handlers = [], {one: signal.getsignal(one) for one in (signal.SIGINT, signal.SIGTERM)}
    handlers = {one: handler for one, handler in handlers.items() if callable(handler)}
    for one in handlers:
        signal.signal(one, lambda *which: came.append(which))
    try:
        yield
    finally:
        for one, handler in handlers.items():
            signal.signal(one, handler)
        for number, frame in came:
            handlers[number](number, frame)


@contextlib.contextmanager
def started(*words, **how):
    """A program, which is stopped if this tool is. Words may name standard input, and files that this tool was given
    open, as by `<(..)` of a shell."""
    child = None
    try:
        with held():
            child = subprocess.Popen(words, close_fds=False, **how)
        yield child
    except BaseException:
        if child is not None:
            child.terminate()
            child.wait()
        raise


def printed_by(*words):
    """The status of a program, and what it prints; its standard error is that of this tool."""
    with started(*words, stdout=subprocess.PIPE) as child:
        printed = child.stdout.read()
        return child.wait(), printed


def listen(stream, errors, live):
    """Passes lines of the build on to standard error, and adds the others to `errors`."""
    for line in stream:
        line = line.decode("utf-8", "replace").rstrip("\n")
        if line.startswith(OF_BUILDING):
            if live:
                live.erase()
            print(line, file=sys.stderr, flush=True)
        else:
            errors.append(line)


def ran(*words, live=None):
    """Runs a program to its end. The line of `live` is erased before a line of the build is printed."""
    errors = []
    with started(*words, stdout=subprocess.PIPE, stderr=subprocess.PIPE) as child:
        listener = threading.Thread(target=listen, args=(child.stderr, errors, live), daemon=True)
        listener.start()
        printed = child.stdout.read()
        status = child.wait()
        listener.join()
    return Ran(status, printed, errors)
