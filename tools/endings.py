"""The statuses of a tool that ends as a guest did, or says why it didn't, and the words for that."""
import argparse
import sys

import command
import reports

OF_ITHREADS = 200  # and its status
WORDS, READING, WRITING = 2, 6, 7  # three of ithreads' statuses
NO_PROGRAM = 210
TRAPS = [  # by cause
    "a jump to an address that isn't a multiple of 4", "nothing that may be executed",
    "no instruction", "EBREAK",
    "a load from an address that isn't a multiple of its size", "a load where nothing may be loaded",
    "a store to an address that isn't a multiple of its size", "a store where nothing may be stored",
    "a call of a number that there isn't",
]
FUEL, STEPS = 1_000_000, 4096  # the limits of a run by default
ENDS = {"trap": 211, "deadlock": 212, "spent": 213}
FORBIDDEN = 10  # the status of a replay or a trace whose schedule no run takes
NOT_BUILT = 125  # a status of tools/launch
FAILURES = {  # ithreads' statuses; its own line says which file it is
    2: "the words aren't understood",
    3: "the executable is refused",
    5: "an edit list is refused; tools/check-edits says why",
    6: "a file can't be read",
    7: "a file can't be written",
    8: "memory ran out",
    9: "a file is too long: an input or an edit list has at most 1,048,576 bytes, an executable 16,777,216, a memo "
       "268,435,456",
    NOT_BUILT: "the program isn't built, and can't be",
}


class Parser(command.Parser):
    """The command line of a tool that ends as a guest did: a wrong one has a status that isn't taken for a guest's."""

    def __init__(self, tool, **how):
        super().__init__(allow_abbrev=False, formatter_class=argparse.RawDescriptionHelpFormatter, **how)
        self.tool = tool

    def error(self, message):
        self.print_usage(sys.stderr)
        self.tool.refuse(OF_ITHREADS + WORDS, message)


def rounds_of(printed):
    """The reports that are whole."""
    made = []
    try:
        for one in reports.rounds(printed):
            made.append(one)
    except reports.NotReports:
        pass
    return made


def how(last, limit):
    """How a round ended that didn't exit. Where it had all steps, the last one's fuel may have been spent as well."""
    text = " ".join(map(str, last.end.values()))
    if last.end["kind"] == "spent":
        thread = last.schedule[-1][0]
        text += (f": it had {last.steps} steps, as many as --steps allows" if last.steps == limit else
                 f": thread {thread} executed as many instructions without a call as --fuel allows")
    if last.end["kind"] == "trap":
        text += f": thread {last.end['thread']}, at 0x{int(last.end['pc'], 16):x}: {TRAPS[last.end['cause']]}"
    return f"round {last.number} ended by {text}"


def status_of(last):
    """The status of who ends as the round did."""
    return last.end["code"] % 256 if last.end["kind"] == "exit" else ENDS[last.end["kind"]]


def failure(status):
    """The status of who ends since ithreads ended with this one, before a round was whole, and why."""
    meaning = f": {FAILURES[status]}" if status in FAILURES else ""
    return OF_ITHREADS + status if 2 <= status <= 9 else NO_PROGRAM, f"ithreads ended with status {status}{meaning}"
