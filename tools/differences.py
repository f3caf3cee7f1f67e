"""Finds the shortest edit list that makes one file of another, by docs/FORMATS.md: `edits` gives its lines, and `split`
makes lists of them that aren't too long. Where little differs, nearly all of the time goes into comparing."""
import bisect
import re

MOST_BYTES = 1_048_576  # of an input, and of a list
NOT_ZERO = re.compile(rb"[^\0]+")
OF_ZEROS = bytes([255]) + bytes(255)  # a table: 255 for a byte that is zero, and zero for any other


def begun(offset):
    """The bytes of a line that writes from an offset on, beside its digits."""
    return len(str(offset)) + 6


def size_lines(old, new, cut):
    """The lines that leave zeros behind the cut, and the new length."""
    return "".join(f"size {size}\n" for before, size in ((len(old), cut), (cut, len(new))) if size != before)


def not_zero(data, start=0):
    """Where the runs of bytes that aren't zero begin and end, from a place on."""
    return [found.span() for found in NOT_ZERO.finditer(data, start)]


def differing(old, new):
    """Where runs of bytes of the common length differ; and where runs of these begin that are zero in the new file."""
    least = min(len(old), len(new))
    one, other = (int.from_bytes(data[:least], "little") for data in (old, new))
    of_zeros = int.from_bytes(new[:least].translate(OF_ZEROS), "little")
    both = one ^ other
    runs = not_zero(both.to_bytes(least, "little"))
    return runs, [begin for begin, _ in not_zero((both & of_zeros).to_bytes(least, "little"))] if runs else []


def passing(end, begin):
    """The least that it costs to come from the end of a run to the next: another line, or the bytes between."""
    return begun(begin) if end is None else min(2 * (begin - end), begun(begin))


class Costs:
    """What it costs to write the first of some runs, in order, and with `last` the end of the last one."""

    def __init__(self, runs):
        self.runs, self.begins, self.first, last = runs, [begin for begin, _ in runs], [0], None
        for begin, end in runs:
            self.first.append(self.first[-1] + passing(last, begin) + 2 * (end - begin))
            last = end

    def before(self, place):
        """The cost up to a place, and where the last run ends, there at the latest."""
        count = bisect.bisect_left(self.begins, place)
        if count == 0:
            return 0, None
        end = self.runs[count - 1][1]
        return self.first[count] - 2 * max(end - place, 0), min(end, place)

    def behind(self, place, last):
        """The cost from a place on, where the last run that was written before it ended at `last`."""
        count = bisect.bisect_right(self.begins, place)
        if count and self.runs[count - 1][1] > place:
            begin, end = place, self.runs[count - 1][1]
        elif count < len(self.runs):
            begin, end = self.runs[count]
            count += 1
        else:
            return 0
        return passing(last, begin) + 2 * (end - begin) + self.first[-1] - self.first[count]


def hopeful(new, runs, zeros, least):
    """Where a cut might make the list shorter.

    Behind a cut each byte that isn't zero is written, which costs two digits at least; without it what differs, which
    costs a line for each run at most. A cut gains only by bytes that differ and are zero now. It's best before a run of
    them, unless another digit makes the line `size` longer."""
    places = {*zeros, *(10**digits - 1 for digits in range(1, 8) if zeros and 10**digits <= least)}
    written, spared, behind, left = 0, begun(MOST_BYTES), least, len(runs)
    for place in sorted(places, reverse=True):
        written += 2 * (behind - place - new.count(0, place, behind))
        behind = place
        while left and runs[left - 1][1] > place:
            left -= 1
            spared += begun(MOST_BYTES) + 2 * (runs[left][1] - runs[left][0])
        if written <= spared:
            yield place


def best_cut(old, new, runs, zeros):
    """How many of the first bytes are left as they are, so that the list is shortest."""
    least = min(len(old), len(new))
    cuts = [least, *hopeful(new, runs, zeros, least)]
    if len(cuts) == 1:
        return least
    old_costs, new_costs = Costs(runs), Costs(not_zero(new, min(cuts)))

    def cost(cut):
        before, last = old_costs.before(cut)
        return before + new_costs.behind(cut, last) + len(size_lines(old, new, cut))
    return min(cuts, key=cost)


def joined(runs):
    """Where lines begin and end: over runs of unchanged bytes that are shorter written than passed."""
    lines = []
    for begin, end in runs:
        if lines and 2 * (begin - lines[-1][1]) < begun(begin):
            lines[-1][1] = end
        else:
            lines.append([begin, end])
    return lines


def edits(old, new):
    """The lines of the shortest list, as texts."""
    if old == new:
        return []
    runs, zeros = differing(old, new)
    cut = best_cut(old, new, runs, zeros)
    runs = [(begin, min(end, cut)) for begin, end in runs if begin < cut] + not_zero(new, cut)
    return [size_lines(old, new, cut), *(f"set {begin} {new[begin:end].hex()}\n" for begin, end in joined(runs))]


def cut_line(line, room):
    """A line that writes as two, of which the first has at most so many bytes; or nothing and the line."""
    if len(line) <= room:
        return line, ""
    _, offset, digits = line.split()
    count = (room - begun(int(offset))) // 2  # of the bytes that the first writes
    if count < 1:
        return "", line
    return f"set {offset} {digits[:2 * count]}\n", f"set {int(offset) + count} {digits[2 * count:]}\n"


def split(lines):
    """The lines as few lists, filled one after the other. The last newline of each may be left out."""
    lists, room = [[]], MOST_BYTES + 1
    for line in lines:
        while line:
            first, line = cut_line(line, room)
            lists[-1].append(first)
            room -= len(first)
            if line:
                lists.append([])
                room = MOST_BYTES + 1
    return ["".join(parts)[:MOST_BYTES] for parts in lists]
