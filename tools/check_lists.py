"""Checks `tools/edits` and `tools/check-edits`.

  - `tools/edits` gives a list for each of a hundred pairs of files: a run on the new file, and the round after the list
    on the old one, have the same end, output and memory. The input with its length is part of the memory.
  - Of a thousand pairs more, of which all bytes or none differ too, the list that its module finds makes the new file
    of the old, done by a few lines here and by those of `--apply`, which share nothing.
  - Of short files its list is as short as the shortest that a search through all lists finds. At larger offsets two
    bytes with some unchanged ones between are written by one line or by two, whichever is shorter.
  - Of files of a mebibyte that are equal, or differ in a byte, the list is found in a tenth of a second of processor
    time, and after a byte was inserted at the front in a second.
  - With `--into` it gives as many lists as it takes: done one after the other by a few lines here, and by the program,
    they make the new file of the old. Pairs of long files of which much or all differs want two lists, or three.
  - `tools/check-edits` refuses just what the program refuses, at the same line and with the same word, and says the
    length that the program's guest sees: of some hundred lists, most of them with damage.
"""
import heapq
import itertools
import re
import time

import differences
import edit_lists
from checking import EXAMPLES, GUEST, MOST_INPUT, MOST_LIST, ROOT, program, ran_whole, tool

PAIRS = 100
MORE_PAIRS = 1000
DAMAGED = 300

# tools/edits, one list.


def some_bytes(draw, size):
    """Bytes of few kinds or of many, so that runs of equal ones are there."""
    return bytes(draw.choices(range(draw.choice([2, 4, 256])), k=size))


def edited(draw, old):
    """Other bytes: a few places changed, a part left out, put in, cleared or moved, or all of it other."""
    new = bytearray(old)
    for _ in range(draw.randrange(1, 6)):
        at, size = draw.randrange(len(new) + 1), draw.choice([1, 2, 3, 5, 40, 3000])
        kind = draw.randrange(5)
        if kind == 0:
            new[at:at + size] = some_bytes(draw, len(new[at:at + size]))
        elif kind == 1:
            del new[at:at + size]
        elif kind == 2:
            new[at:at] = some_bytes(draw, size)
        elif kind == 3:
            new[at:at + size] = bytes(len(new[at:at + size]))
        else:
            new = new[:at] if draw.randrange(2) else new + bytes(size)
    return bytes(new)


def last_round(printed):
    """The lines `end`, `memory` and `output` of the last report, with the bytes that were put out."""
    report = printed[printed.rfind(b"\nround "):]
    lines = report.split(b"\n")
    return [line for line in lines if line.startswith((b"end ", b"memory "))], report[report.find(b"\noutput "):]


def check_pair(checks, number):
    draw = checks.random
    old = some_bytes(draw, draw.choice([0, 1, 10, 99, 1000, 4096, 20000, 100000]))
    files = [checks.file("old", old), checks.file("new", edited(draw, old)), checks.folder / "edits"]
    status, text, errors = tool("edits", *files[:2])
    if not checks.expect(f"pair {number}: the tool gives a list {errors}", status == 0):
        return
    files[2].write_bytes(text)
    fresh, later = program("run", GUEST, files[1]), program("run", GUEST, files[0], files[2])
    checks.expect(f"pair {number}: both runs are made", fresh[0] == later[0] == 0)
    same = last_round(b"\n" + fresh[1]) == last_round(later[1])
    checks.expect(f"pair {number}: the list makes the new file of the old", same)


def other_bytes(draw, old):
    """Bytes that have all, some or nothing of the old ones; of these many zeros, now and then."""
    new = edited(draw, old) if draw.randrange(3) else some_bytes(draw, draw.choice([0, 1, 9, 100, len(old)]))
    return new if draw.randrange(3) else bytes(byte if draw.randrange(4) == 0 else 0 for byte in new)


def found(old, new):
    """The list that the tool's module finds."""
    return "".join(differences.edits(bytes(old), bytes(new))).encode()


def check_found(checks):
    """Many pairs, by the module."""
    draw, wrong = checks.random, []
    for _ in range(MORE_PAIRS):
        old = some_bytes(draw, draw.choice([0, 1, 9, 10, 11, 99, 100, 101, 1000, 3000]))
        new = other_bytes(draw, old)
        text = found(old, new)
        if not applied(old, text) == edit_lists.done(edit_lists.read(text), old) == new:
            wrong.append((old, new))
    checks.expect(f"the list that is found makes the new file of the old, but of {wrong[:1]}", not wrong)


def seconds_for(old, new):
    """The least processor time of three searches."""
    took = []
    for _ in range(3):
        start = time.process_time()
        differences.split(differences.edits(old, new))
        took.append(time.process_time() - start)
    return min(took)


def check_times(checks):
    text = (EXAMPLES / "guest/words.in").read_bytes() * 16
    text = text[:MOST_INPUT]
    half = len(text) // 2
    for what, new, most in (("equal files", bytearray(text), 0.1),
                            ("a byte", text[:half] + b"?" + text[half + 1:], 0.1),
                            ("a byte that is zero now", text[:half] + b"\0" + text[half + 1:], 0.1),
                            ("a byte put in before all", b"?" + text[:-1], 1)):
        took = seconds_for(text, bytes(new))
        checks.expect(f"{what} of {len(text)}: a list is found in {took:.3f} s, at most {most}", took <= most)


def check_limits(checks):
    """Files and lists at their greatest lengths, and one byte past them."""
    ones = b"\1" * MOST_INPUT
    empty, most = checks.file("empty", b""), checks.file("most", ones)
    more, half = checks.file("more", ones + b"\1"), checks.file("half", ones[:524278])
    over, zeros = checks.file("over", ones[:524280]), checks.file("zeros", bytes(MOST_INPUT))
    checks.expect("equal files want no edit", tool("edits", most, most) == (0, b"", ""))
    checks.expect("zeros are had by cutting", tool("edits", most, zeros)[1] == b"size 0\nsize 1048576\n")
    checks.expect("a list of the greatest length is given", len(tool("edits", empty, half)[1]) == 1_048_575)
    for name, words in (("a list", (empty, over)), ("an old file", (more, most)), ("a new file", (most, more))):
        status, printed, errors = tool("edits", *words)
        checks.expect(f"{name} that is too long is refused: {errors}", status == 1 and not printed and errors)


def shortest(old, most, letters):
    """For each text of at most so many of these letters, the length of a shortest list that makes it of the old one."""
    best, coming = {}, [(0, old)]
    texts = [bytes(text) for size in range(most + 1) for text in itertools.product(letters, repeat=size)]
    while coming:
        cost, text = heapq.heappop(coming)
        if text in best:
            continue
        best[text] = cost
        for other in texts:
            sized = text[:len(other)].ljust(len(other), b"\0")
            heapq.heappush(coming, (cost + len(f"size {len(other)}\n"), sized))
            for at in range(len(text) - len(other) + 1 if other else 0):
                written = text[:at] + other + text[at + len(other):]
                heapq.heappush(coming, (cost + len(f"set {at} {other.hex()}\n"), written))
    return best


def check_shortest(checks):
    for old, most, letters in ((b"\1\0\2", 3, b"\0\1\2"), (b"\1\1\0\1\0\1", 6, b"\0\1")):
        for new, length in shortest(old, most, letters).items():
            text = found(old, new)
            what = f"of {old.hex()} {new.hex()}: {length} bytes are enough, and {len(text)} are found"
            checks.expect(what, len(text) == length)


def check_gaps(checks):
    for first, gap in itertools.product((5, 15, 105, 1005, 10005), range(2, 7)):
        last = first + gap + 1
        old, new = bytearray(b"\1" * (last + 9)), bytearray(b"\1" * (last + 9))
        new[first] = new[last] = 2
        two = f"set {first} 02\nset {last} 02\n".encode()
        one = f"set {first} {new[first:last + 1].hex()}\n".encode()
        text = found(old, new)
        shorter = len(text) == min(len(one), len(two)) and text in (one, two)
        checks.expect(f"{gap} unchanged bytes behind {first}: the shorter of one line and two", shorter)


# tools/edits, several lists.


def applied(data, text):
    """What an edit list makes of an input; nothing where it has a bad line."""
    data = bytearray(data)
    for line in filter(None, text.split(b"\n")):
        word, number, *digits = line.split(b" ")
        end = int(number) + sum(map(len, digits)) // 2
        if word == b"size" and not digits:
            data = data[:end].ljust(end, b"\0")
        elif word == b"set" and len(digits) == 1 and end <= len(data):
            data[int(number):end] = bytes.fromhex(digits[0].decode())
        else:
            return None
    return bytes(data)


def long_pairs(draw):
    """Pairs of files, and how many lists they want: digits of two for each byte that is written, and some for lines."""
    whole, other = draw.randbytes(MOST_INPUT), draw.randbytes(MOST_INPUT)
    yield "equal files", whole, whole, 1
    yield "a byte", whole, whole[:7] + b"?" + whole[8:], 1
    yield "all bytes", b"\0" * MOST_INPUT, b"\1" * MOST_INPUT, 3
    yield "all bytes but some", whole, other, 3
    yield "all bytes of nothing", b"", other, 3
    yield "one half", whole, other[:600_000] + whole[600_000:], 2
    yield "a byte put in before all", whole[:-1], b"?" + whole[:-1], 3
    yield "every eighth byte, 131,072 lines", b"\1" * MOST_INPUT, b"\1\1\1\1\1\1\1\2" * (MOST_INPUT // 8), 2
    yield "a longer file that was cut and grew", whole[:1000], b"\0" * 300_000 + other[:600_000], 2
    yield "one byte more than one list has", b"", b"\1" * 524_280, 2


def check_long_pair(checks, what, pair, count):
    old, new = pair
    files = [checks.file("old", old), checks.file("new", new)]
    one = tool("edits", *files)
    status, names, errors = tool("edits", *files, "--into", checks.folder / "several")
    lists = sorted(checks.folder.glob("several.*.edits"))
    wanted = [str(name) for name in lists]
    checks.expect(f"{what}: {count} lists are written, and their names printed: {status} {errors}",
                  status == 0 and len(lists) == count and names.decode().split("\n") == [*wanted, ""])
    texts = [name.read_bytes() for name in lists]
    checks.expect(f"{what}: no list is too long", all(len(text) <= MOST_LIST for text in texts))
    done = old
    for text in texts:
        done = None if done is None else applied(done, text)
    checks.expect(f"{what}: the lists make the new file of the old", done == new)
    status, made, errors = tool("edits", "--apply", files[0], *lists)
    checks.expect(f"{what}: so they do with --apply: {status} {errors}", status == 0 and made == new)
    if count == 1:
        checks.expect(f"{what}: the list is that which is printed", one[0] == 0 and texts == [one[1]])
    else:
        shortest_length = int(re.search(r"has ([0-9,]+) bytes", one[2]).group(1).replace(",", "")) if one[0] == 1 else 0
        most = shortest_length + 20 * (count - 1)  # a line is begun once more for each list
        checks.expect(f"{what}: no list is printed, and several take few bytes more",
                      not one[1] and shortest_length - count <= sum(map(len, texts)) <= most)
    fresh, later = program("run", GUEST, files[1]), program("run", GUEST, files[0], *lists)
    checks.expect(f"{what}: the last round is as the run on the new file",
                  fresh[0] == later[0] == 0 and last_round(b"\n" + fresh[1]) == last_round(later[1]))
    for name in lists:
        name.unlink()


def check_into(checks):
    for what, *pair, count in long_pairs(checks.random):
        check_long_pair(checks, what, pair, count)
    old, new, other = checks.file("old", b"1"), checks.file("new", b"2"), checks.file("several.2.edits", b"")
    status, printed, errors = tool("edits", old, new, "--into", checks.folder / "several")
    checks.expect(f"a list of another call in the way is reported: {errors}",
                  status == 1 and not printed and errors and not (checks.folder / "several.1.edits").exists())
    other.unlink()
    status, printed, errors = tool("edits", old, new, "--into", checks.folder / "no folder" / "several")
    checks.expect(f"a name that can't be written is reported: {errors}", status == 2 and not printed and errors)
    large = checks.file("large", bytes(range(256)) * 4000)
    words = [str(ROOT / "tools/edits"), EXAMPLES / "empty", large, "--into", "part"]
    status, printed, errors = ran_whole("bash", "-c", 'ulimit -f 16; "$@"', "bash", *map(str, words), cwd=checks.folder)
    left = [file.name for file in checks.folder.glob("part.*")]
    checks.expect(f"of a list that finds no room nothing is left: {status} {printed} {errors} {left}",
                  status != 0 and not printed and not left)


def check_apply(checks):
    old, over = checks.file("old", b"12"), checks.file("over", b"\1" * (MOST_INPUT + 1))
    lists = [checks.file(name, text) for name, text in
             (("more", b"size 4\nset 3 aB"), ("bad", b"\nset 1 0"), ("far", b"set 1 0000\n"))]
    checks.expect("lists are applied in order", tool("edits", "--apply", old, lists[0], lists[2])[1] == b"1\0\0\xab")
    for words, wanted, begun in (
            ((old, lists[1]), 1, "bad line 2: BadLine"), ((old, lists[0], lists[1]), 1, "bad line 2: BadLine"),
            ((old, lists[2]), 1, "far line 1: OutOfRange"), ((over, lists[0]), 1, "the most of an input"),
            ((old, over), 1, "the most of a list"), ((old, checks.folder / "none"), 2, "can't be read"),
            ((old,), 2, "usage"), ((old, lists[0], "--into", checks.folder / "several"), 2, "usage")):
        status, made, errors = tool("edits", "--apply", *words)
        checks.expect(f"edits --apply {words}: {status} {errors}", status == wanted and not made and begun in errors)
    status, made, errors = tool("edits", old, old, old)
    checks.expect(f"edits of three files: {status} {errors}", status == 2 and not made and "usage" in errors)


# tools/check-edits.


def good_lines(draw, length):
    """Some edits for an input of that length, mostly in range."""
    lines = []
    for _ in range(draw.randrange(1, 7)):
        if draw.randrange(3) == 0:
            length = draw.choice([0, 1, 9, 10, 100, 4096, length + 1, length])
            lines.append(b"size %d" % length)
        elif length:
            at = draw.randrange(length)
            written = draw.randbytes(draw.randrange(1, min(length - at, 6) + 1)).hex()
            lines.append(b"set %d %s" % (at, draw.choice([written, written.upper()]).encode()))
    return lines


def damaged(draw, text):
    """The text with a byte taken away, put in, made another or doubled, or with a word in place of another."""
    at, kind = draw.randrange(len(text) + 1), draw.randrange(6)
    if kind == 0:
        return text[:at] + text[at + 1:]
    if kind in (1, 2):
        put = draw.choice(b" \n\r\t0129aFgx+-#setiz\0\xff")
        return text[:at] + bytes([put]) + text[at + kind - 1:]
    if kind == 3:
        return text[:at] + text[at - 1:at] + text[at:]
    old, new = draw.choice([(b"set", b"Set"), (b"size", b"set"), (b" ", b"  "), (b"\n", b"\r\n"), (b"set", b"size"),
                            (b" ", b" 0"), (b" ", b" 999999"), (b"\n", b" \n"), (b" ", b" +"), (b"\n", b"\n\n")])
    return text.replace(old, new, draw.choice([1, -1]))


def odd_lists():
    """Lists at the edges of the grammar and of the ranges."""
    numbers = [b"0", b"1", b"10", b"11", b"00", b"01", b"9999999", b"10000000", b"1048576", b"1048577", b"-1", b"+1",
               b"", b" ", b"1 ", b"1.0", b"0x1", b"1e1", b"\xb2", b"999999999999999999999999"]
    digits = [b"00", b"0", b"000", b"", b"0g", b"aF", b"00 00", b"00 ", b"0x00", b"\xff\xff", b"00" * 11, b"0\0"]
    yield from (b"size " + number for number in numbers)
    yield from (b"set " + number + b" 00" for number in numbers)
    yield from (b"set 0 " + some for some in digits)
    yield from (b"", b"\n\n", b"size", b"set", b"set 1", b"set ", b"size\t1", b"set\t0 00", b"size 1 1", b"size 1\0",
                b"\xef\xbb\xbfsize 1", b"siz 1", b"sizes 1", b"SIZE 1", b"#", b" ", b"\nsize 5\n\nset 5 00",
                b"set 20 00\nsize x", b"size 0\nsize 1048576\nset 1048575 ff", b"\n" * MOST_LIST,
                b"set 0 00\n" * (MOST_LIST // 9), b"\n" * (MOST_LIST + 1), b"set 0 " + b"00" * 524_285)


def compare(checks, what, text, length):
    """Program and tool refuse a list at the same line with the same word, or see the same length after it."""
    old, name = checks.file("old", b"\1" * length), checks.file("list", text)
    status, printed, errors = program("run", GUEST, old, name)
    tool_status, tool_printed, tool_errors = tool("check-edits", name, length)
    if status == 5:
        begin = f"tools/check-edits: {errors.removeprefix('edits ')}: "
        same = tool_status == 1 and not tool_printed and tool_errors.startswith(begin)
    elif status == 9:
        same = tool_status == 1 and not tool_printed and "more than" in tool_errors
    else:
        ends = re.findall(rb"^end exit ([0-9]+)$", printed, flags=re.M)
        same = status == 0 and tool_status == 0 and tool_printed == ends[-1] + b"\n" and not tool_errors
    checks.expect(f"{what}, {text[:60]}: the program, {status} {errors}, and check-edits, {tool_status} {tool_printed} "
                  f"{tool_errors}", same)


def check_check_edits(checks):
    draw = checks.random
    for text in odd_lists():
        compare(checks, "an odd list", text, 10)
    for number in range(DAMAGED):
        length = draw.choice([0, 1, 10, 5000])
        text = b"\n".join(good_lines(draw, length)) + draw.choice([b"", b"\n"])
        for _ in range(draw.choice([0, 1, 1, 1, 2])):
            text = damaged(draw, text)
        compare(checks, f"list {number}", text, length)
    for text, wanted in ((b"set 0x10 00\n", "expected a decimal number (only the bytes are hexadecimal), found `0x10"),
                         (b"set 12.5 00\n", "expected one space"), (b"size 0x10\n", "expected a decimal number (")):
        status, _, errors = tool("check-edits", checks.file("list", text), "100")
        checks.expect(f"check-edits says of {text}: {errors}", status == 1 and wanted in errors)
    name = checks.file("list", b"")
    wrong = [(), (name,), (name, "1048577"), (name, "-1"), (name, "x"), (name, ""), (checks.folder / "none", "0")]
    for words in wrong:
        status, printed, errors = tool("check-edits", *words)
        checks.expect(f"check-edits doesn't take {words}: {errors}", status == 2 and not printed and errors)


def check(checks):
    for number in range(PAIRS):
        check_pair(checks, number)
    check_found(checks)
    check_times(checks)
    check_limits(checks)
    check_shortest(checks)
    check_gaps(checks)
    check_into(checks)
    check_apply(checks)
    check_check_edits(checks)
