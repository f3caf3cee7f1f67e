"""A line on a terminal that says how far a tool is: from its second second on, at most twice a second, written over and
erased at the end. Standard output stays as it is. If standard error is no terminal, or ITHREADS_QUIET is set, there is
no line."""
import os
import sys
import threading
import time

FIRST, AGAIN = 1.0, 0.5  # seconds
ERASED = "\r\x1b[K"  # ECMA-48, 8.3.41


class Live:
    """A context manager: shows `text` and the seconds so far. The caller may change `text` meanwhile."""

    def __init__(self, text):
        self.text, self.over, self.drawn = text, threading.Event(), False
        self.shown = sys.stderr is not None and sys.stderr.isatty() and "ITHREADS_QUIET" not in os.environ

    def __enter__(self):
        if self.shown:
            self.thread = threading.Thread(target=self.draw, args=[time.monotonic()], daemon=True)
            self.thread.start()
        return self

    def draw(self, began):
        wait = FIRST
        while not self.over.wait(wait):
            wait = AGAIN
            self.drawn = True
            self.write(f"\r{self.text}, {time.monotonic() - began:.0f} s\x1b[K")

    @staticmethod
    def write(text):
        try:
            sys.stderr.write(text)
            sys.stderr.flush()
        except OSError:
            pass

    def erase(self):
        """Erases the line, before something is printed."""
        if self.drawn:
            self.write(ERASED)

    def __exit__(self, *_):
        if self.shown:
            self.over.set()
            self.thread.join()
            self.erase()
