"""Tables of documents that a script writes. Below such a table stands a comment with the script's name and a digest of the
table, so that docs/check finds one in which a number was typed."""
import hashlib
import re

WRITTEN = re.compile(r"((?:^\|.*\n)+)^<!-- Written by (\S+)(?: --write)?: ([0-9a-f]{16}) -->$", flags=re.M)


def digest(table):
    return hashlib.sha256(table.encode()).hexdigest()[:16]


def mark(table, words):
    """The comment for a table, whose lines end with newlines, that the words of a command write."""
    return f"<!-- Written by {words}: {digest(table)} -->\n"


def tables(text):
    """Of each table with a comment: its lines, the script, and whether it is as the script wrote it."""
    return [(table, script, digest(table) == wanted) for table, script, wanted in WRITTEN.findall(text)]
