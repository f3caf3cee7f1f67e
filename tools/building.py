"""Builds a guest from C into a folder, by guest/build; or takes the one that is there, if all files that it was built
from, the words for guest/build and the library are as they were."""
import hashlib
import json
import os
import pathlib
import re
import shutil
import subprocess

from running import started

GUEST = pathlib.Path(__file__).resolve().parent.parent / "guest"
OF_COMPILER = {f"{name}.h" for name in "float iso646 limits stdalign stdarg stdbool stddef stdint stdnoreturn".split()}
INCLUDE = re.compile(rb'^[ \t]*#[ \t]*include[ \t]*(?:<([^>\n]*)>|"([^"\n]*)")', re.M)
TEXT_OR_COMMENT = re.compile(rb"""("(?:\\.|[^"\\\n])*"|'(?:\\.|[^'\\\n])*')|//[^\n]*|/\*.*?\*/""", re.S)


class NotBuilt(Exception):
    """guest/build refused the program, and printed why."""


def digest(data):
    return hashlib.sha256(data).hexdigest()


def linked(file, name):
    """Gives a file another name, in whose place no other call puts another file; whether it is there."""
    try:
        os.link(file, name)
    except FileNotFoundError:
        return False
    except OSError:
        shutil.copyfile(file, name)
    return True


def without_comments(data):
    return TEXT_OR_COMMENT.sub(lambda found: found.group(1) or b" ", data)


def included(files, folders):
    """The contents of these files and of all that they include; and the names of the headers that aren't found."""
    found, seen, missing, coming = {}, set(), set(), list(files)
    while coming:
        file = coming.pop()
        if file.resolve() in seen:
            continue
        seen.add(file.resolve())
        found[file] = file.read_bytes()
        for names in INCLUDE.findall(without_comments(found[file])):
            name = (names[0] or names[1]).decode("utf-8", "replace")
            header = next((it / name for it in (file.parent, *folders) if (it / name).is_file()), None)
            if header is None:
                missing.add(name)
            else:
                coming.append(header)
    return found, missing


class Building:
    """What a guest is built from: a C file, with others that the words for guest/build may name. If `--no-libc` is
    among the words, the C library isn't added."""

    def __init__(self, program, words):
        self.program, self.words = program, [word for word in words if word != "--no-libc"]
        others = [pathlib.Path(word) for word in words if word.endswith(".c")]
        folders = [pathlib.Path(word[2:]) for word in words if word.startswith("-I")]
        self.files, missing = included([program, *others], folders)
        is_chosen = "--libc" in words or "--no-libc" in words
        self.options = ["--libc"] if missing - OF_COMPILER - {"ithreads.h"} and not is_chosen else []

    def record(self, executable):
        """What distinguishes this executable from those that other files or words make."""
        folders = (GUEST / "include", GUEST / "lib")
        library = [GUEST / "build", *(it for folder in folders for it in sorted(folder.rglob("*")) if it.is_file())]
        contents = {**self.files, **{file: file.read_bytes() for file in library}}
        files = {str(file.resolve()): digest(data) for file, data in contents.items()}
        return {"words": self.options + self.words, "files": files, "executable": digest(executable)}

    def is_built(self, executable, record):
        try:
            return json.loads(record.read_bytes()) == self.record(executable.read_bytes())
        except (OSError, ValueError):
            return False

    def executable(self, cached, record, part):
        """The guest in a folder of this call alone: the cached one, or else a new one, which is cached then."""
        own = part / "guest.elf"
        linked(cached, own)
        if not self.is_built(own, record):
            own.unlink(missing_ok=True)
            self.build(own, cached, record, part)
        return own

    def build(self, own, cached, record, part):
        made, written = part / "made", part / "built"
        words = [GUEST / "build", *self.options, *self.words, self.program, own]
        with started(*words, stdin=subprocess.DEVNULL, stdout=subprocess.DEVNULL) as child:
            status = child.wait()
        if status:
            raise NotBuilt(f"guest/build refuses {self.program}")
        written.write_text(json.dumps(self.record(own.read_bytes()), indent=1) + "\n")
        linked(own, made)
        made.replace(cached)
        written.replace(record)
