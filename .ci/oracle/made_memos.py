"""Memos made field by field, of docs/FORMATS.md, whether or not they keep its rules; and the memo of a run."""
import hashlib

import memos
from executables import BESIDE_THE_IMAGE, PAGE

IMAGE_PAGE = 0x10
MOST_BYTES = 268435456


def word(number):
    return number.to_bytes(4, "little")


def half(number):
    return number.to_bytes(2, "little")


def registers(pc, **named):
    """pc, then x1 to x31, as thread 0 begins with them but for those that are named"""
    values = [0] * 32
    values[0], values[2] = pc, 0xD0010000
    for name, value in named.items():
        values[int(name[1:])] = value
    return b"".join(word(value) for value in values)


def stored(number, places, data):
    """a stored page"""
    return word(number) + sum(1 << place for place in places).to_bytes(512, "little") + data


def record(start, finish, reads=((IMAGE_PAGE, 0),), stores=(), thread=0, end=8, count=5):
    return (bytes([thread, end]) + word(count) + start + finish
            + half(len(reads)) + b"".join(word(number) + word(index) for number, index in reads)
            + half(len(stores)) + b"".join(stores))


def head(version=2, profile=3):
    """magic number and version, and from version 2 on the profile"""
    return b"ITHM" + word(version) + (word(profile) if version > 1 else b"")


def body(elf, pool, records, given=b"", fuel=1000000, steps=4096, entries=None, pool_count=None, version=2, profile=3):
    """all but the digest"""
    return (head(version, profile) + word(len(elf)) + elf + word(len(given)) + given + word(fuel) + word(steps)
            + word(len(records) if entries is None else entries)
            + word(len(pool) if pool_count is None else pool_count) + b"".join(pool) + b"".join(records))


def sealed(data):
    """with the digest"""
    return data + hashlib.sha256(data).digest()


# the registers of the two steps of examples/hi.elf, which puts out three bytes and exits
FIRST = registers(0x10000, x10=0xC0000000)
AT_PUT = registers(0x10010, x10=0x10020, x11=3, x17=1)
AFTER_PUT = registers(0x10014, x10=3, x11=3, x17=1)
AT_EXIT = registers(0x1001C, x11=3)


def worked(elf):
    """the page and the records of the memo of hi.elf"""
    return elf[84:].ljust(PAGE, b"\0"), [record(FIRST, AT_PUT), record(AFTER_PUT, AT_EXIT, count=3)]


def rich(elf):
    """pool and records of a memo with several read and stored pages, which no run made, but which holds together"""
    page, _ = worked(elf)
    changed = page[:100] + b"\x55" + page[101:]
    put = record(FIRST, AT_PUT, reads=((IMAGE_PAGE, 0), (0xC0000, 1), (0xC0001, 1)),
                 stores=(stored(IMAGE_PAGE, [100], b"\x55"), stored(0xD01FF, [0, 8, 4095], b"abc")))
    leave = record(AFTER_PUT, AT_EXIT, count=3, reads=((IMAGE_PAGE, 2), (0xC0100, 1)),
                   stores=(stored(0xC0000, range(PAGE), bytes(PAGE)),))
    return [page, bytes(PAGE), changed], [put, leave]


def with_code(elf, at, code):
    """hi.elf with other bytes at a place of its code"""
    return elf[:84 + at] + code + elf[84 + at + len(code):]


def illegal(pc, start=FIRST, **fields_of_it):
    """a record that ends as illegal at a pc"""
    return record(start, registers(pc, x10=0xC0000000), **{"end": 2, **fields_of_it})


def yields(elf):
    """hi.elf with other instructions: it yields for ever"""
    return with_code(elf, 0, bytes.fromhex("93085000 73000000 6ff09fff"))


def full_pages(elf, pages, spare):
    """a memo that stores to so many whole pages, by steps of a guest that yields, on an input of so many bytes"""
    guest = yields(elf)
    page = guest[84:].ljust(PAGE, b"\0")
    whole = [stored(number, range(PAGE), bytes(PAGE)) for number in BESIDE_THE_IMAGE]
    records = []
    while pages >= 0:
        if records:
            start, finish = registers(0x10008, x17=5), registers(0x10004, x17=5)
        else:
            start, finish = FIRST, registers(0x10004, x10=0xC0000000, x17=5)
        records.append(record(start, finish, stores=whole[:pages], count=3))
        pages -= len(whole)
    return sealed(body(guest, [page], records, given=b"\1" * spare, steps=len(records)))


def memo_of(elf, data, fuel, limit, records, version=2):
    """The memo of a run that has these records."""
    pool, encoded = {}, []
    for one in records:
        reads = [(page, pool.setdefault(content, len(pool))) for page, content in one.reads.items()]
        stores = [word(page) + mask.to_bytes(512, "little") + stored for page, (mask, stored) in one.stores.items()]
        start, finish = (b"".join(map(word, registers)) for registers in (one.start, one.finish))
        encoded.append(record(start, finish, reads, stores, one.thread, one.end, one.count))
    return sealed(body(elf, pool, encoded, data, fuel, limit, version=version))


def numbers(data):
    """Place, size and kind of each number of a memo behind its version, but for those in the executable."""
    found = []

    class Noting(memos.Reader):
        def number(self, size, what, *rule):
            found.append((self.place, size, what))
            return super().number(size, what, *rule)

        def registers(self):
            found.extend((self.place + 4 * register, 4, "register") for register in range(32))
            return super().registers()

    memos.read(data, Noting)
    return found[1:]
