"""What the tools share: how they end, reading files, reports among them, and printing."""
import argparse
import contextlib
import errno
import glob
import os
import re
import signal
import sys

import edit_lists
import reports
from edit_lists import MOST_BYTES

INTERRUPTED, TERMINATED = 130, 143  # the statuses that a shell has for SIGINT and SIGTERM


def put(data):
    """Prints bytes, all of them: standard output by itself may take fewer, or none."""
    if sys.stdout is None:
        raise OSError(errno.EBADF, "standard output is closed")
    with os.fdopen(os.dup(sys.stdout.fileno()), "wb") as file:
        file.write(data)


class Parser(argparse.ArgumentParser):
    """A command line. Its help is printed, or the tool fails: argparse by itself ignores an error of printing."""

    def print_help(self, file=None):
        try:
            put(self.format_help().encode())
        except OSError as error:
            raise OSError(error.errno, f"printing failed: {error.strerror}") from error


class Command:
    """A tool of this folder, by its name: each line that it says on standard error begins with it, or with the name by
    which it was installed. `failed` is its status if the system fails it."""

    def __init__(self, name, failed=2):
        called = os.path.basename(sys.argv[0])
        self.called = called if called.startswith("ithreads-") else f"tools/{name}"
        self.failed = failed

    def run(self, main):
        """Ends with the status that `main` gives, or with that of a signal or of a failure."""
        signal.signal(signal.SIGTERM, lambda *_: sys.exit(TERMINATED))
        try:
            sys.exit(main())
        except KeyboardInterrupt:
            sys.exit(INTERRUPTED)
        except OSError as error:
            where = "" if error.filename is None else f"{error.filename}: "
            self.refuse(self.failed, f"{where}{error.strerror or error}")

    def report(self, why):
        """A line on standard error, unless that is closed or full."""
        with contextlib.suppress(OSError):
            if sys.stderr is not None:
                print(f"{self.called}: {why}", file=sys.stderr, flush=True)

    def refuse(self, status, why):
        self.report(why)
        sys.exit(status)

    def content(self, name, most=-1):
        """The bytes of a file, or of standard input, which `-` names; at most so many, if a number is given."""
        try:
            if name != "-":
                with open(name, "rb") as file:
                    return file.read(most)
            if sys.stdin is None:
                raise OSError(errno.EBADF, "standard input is closed")
            return sys.stdin.buffer.read(most)
        except OSError as error:
            self.refuse(2, f"{name} can't be read: {error.strerror}")

    def limited(self, name, what, status=1):
        """The bytes of a file that is an input or a list, as `what` says."""
        data = self.content(name, MOST_BYTES + 1)
        if len(data) > MOST_BYTES:
            self.refuse(status, f"{name} has more than {MOST_BYTES:,} bytes, the most of {what}")
        return data

    def rounds(self, name, status=1):
        """The rounds of a file of reports; ends with this status if it is none."""
        try:
            return list(reports.rounds(self.content(name)))
        except reports.NotReports as why:
            self.refuse(status, f"{name}: {why}")

    def round(self, name, number):
        """The round of this number, in a file of reports."""
        made = self.rounds(name)
        wanted = next((one for one in made if one.number == number), None)
        if wanted is None:
            self.refuse(1, f"{name} has no round {number}, but {made[0].number} to {made[-1].number}")
        return wanted

    def inputs(self, name, lists, first, count, may_lack=False):
        """The inputs of so many rounds, the first of this number: what edit lists make of a file, and for round 0 the
        file itself; for a rerun without a list, too. With `may_lack` rounds may be lacking at the end."""
        try:
            made = edit_lists.inputs(self.content(name), lists, self.content)
        except edit_lists.Refused as why:
            self.refuse(2, why)
        made = made if first == 0 or not lists else made[1:]
        if len(made) < count or len(made) > count and not may_lack:
            self.refuse(2, f"rounds of the reports: {count}; inputs by INPUT and the edit lists: {len(made)}")
        return made

    def refuse_others(self, status, name, pattern, written):
        """Ends if a file is there whose name is NAME and what the pattern fits, and that isn't to be written."""
        for other in glob.glob(f"{glob.escape(name)}.*"):
            if re.fullmatch(pattern, other[len(name):]) and other not in written:
                self.refuse(status, f"{other} is there, and is none of the {len(written)} that are to be written: "
                                    f"remove it first")

    def write(self, name, text):
        """Writes a file anew, whole or not at all: the first lines of a list would be another list."""
        part = f"{name}.{os.getpid()}"
        try:
            with open(part, "x", encoding="ascii") as file:
                file.write(text)
            os.replace(part, name)
        except OSError as error:
            self.refuse(2, f"{name} can't be written: {error.strerror}")
        finally:
            with contextlib.suppress(OSError):
                os.remove(part)

    def put(self, data):
        """Prints bytes, all of them."""
        try:
            put(data)
        except OSError as error:
            self.refuse(2, f"printing failed: {error.strerror}")

    def print_text(self, text):
        """Prints a text, in which names may have any bytes."""
        self.put(text.encode("utf-8", "surrogateescape"))
