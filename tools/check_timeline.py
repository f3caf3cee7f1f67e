"""Checks `tools/timeline`.

  - Its picture is well-formed XML, and has a box for each step that says which it is: of drawn reports, and of guests
    of examples/ with all that is known of them. Boxes stand in the order of the schedule, and are the wider the more
    instructions there are; there is a line for each step that waits, that wakes, or whose reason is known.
  - Rounds of 65,536 steps have few boxes, whose steps are all steps, in time. Of 300 steps, too, and a column in which
    a step was executed shows it. The page of HTML has all steps, and where there is Chromium, it draws them in time.
  - Steps of one function are one box, with its name, of a guest with symbols.
  - What it says of pair.elf is what ./trace, `show` and `why` say. Its table is that of README.
  - A file of reports, a listing, a trace or the lines of `why` that is cut at any byte is refused, and a line says
    where.
  - A memo with a false record: with --audit its step is marked, with what differs.
  - Where there is Chromium, it draws the picture as large as that says it is.
"""
import contextlib
import hashlib
import io
import json
import re
import shutil
import time
import xml.etree.ElementTree as xml

import check_reports
import command
import memos
import pictures
import reports
import steps
from checking import EXAMPLES, ROOT, program, ran, ran_whole, tool

DRAWN = 12  # files of reports
LONG_SECONDS = 60  # for two rounds of 65,536 steps
DRAWN_SECONDS = 30  # for a browser to draw them, which takes less than one on a machine that does nothing else
MOST_WIDE = 1400  # of a picture of rounds that are folded
PAIR = [EXAMPLES / f"pair.{word}" for word in ("elf", "in", "edits")]
NAMESPACE = "{http://www.w3.org/2000/svg}"
WHY = """\
why 4
step 3 thread 2 number 0 page c0002000 at 0 now 8 was 7 by start
step 5 thread 2 number 1 register 8 now 8 was 7
step 8 thread 2 number 2 register 6 now 13 was 12
step 10 thread 0 number 4 page 00011000 at 0 now 13 was 12 by 5
"""
WAKES = {(0, 1), (2, 2), (4, 2), (7, 0)}  # of pair.elf: which step wakes or begins which thread


C_FILE = b"""\
#include "ithreads.h"
static IT_NOINLINE unsigned early(unsigned n) { for (unsigned k = 0; k < n; k++) it_yield(); return n; }
static IT_NOINLINE unsigned later(unsigned n) { for (unsigned k = 0; k < n; k++) it_yield(); return n + 1; }
int main(void) { return (early(120) + later(120)) & 1; }
"""
STEPS = {"early": 121, "later": 120}  # the first step, and those behind a call in the function


# The picture, taken apart.


def rounds_of(printed):
    """The groups of the rounds of a picture."""
    return [one for one in xml.fromstring(printed).findall(f"{NAMESPACE}g") if one.get("class") == "round"]


def boxes_of(one):
    """The boxes of a round, by place: how many steps, how many of them executed, the title, and left and right."""
    boxes = []
    for group in one.findall(f"{NAMESPACE}g"):
        title, rect = group.find(f"{NAMESPACE}title").text, group.find(f"{NAMESPACE}rect")
        place = int(re.match(r"steps? ([0-9]+)", title).group(1))
        left = float(rect.get("x"))
        kinds = [it.get("class") for it in group.findall(f"{NAMESPACE}rect")]
        counts = int(group.get("data-count")), int(group.get("data-executed"))
        boxes.append((place, counts, title, left, left + float(rect.get("width")), kinds))
    return sorted(boxes)


def titles(one, kind):
    """The titles of the lines of a kind."""
    return [it.find(f"{NAMESPACE}title").text for it in one.findall(f"{NAMESPACE}path") if it.get("class") == kind]


def has_steps(one, report):
    """Whether a round has a box for each step, that says so, in the schedule's order."""
    boxes, made = boxes_of(one), {}
    for (place, counts, title, left, right, kinds), (at, (thread, mark)) in zip(boxes, enumerate(report.schedule)):
        number, word = made.get(thread, 0), "reused" if mark == "=" else "executed"
        made[thread] = number + 1
        wanted = f"step {at}: thread {thread}, number {number}, {word}"
        right_box = (place, counts, kinds) == (at, (1, mark == "+"), [word]) and left < right
        if not right_box or title.split("\n")[0] != wanted:
            return False
    ordered = all(box[4] <= other[3] + 0.11 for box, other in zip(boxes, boxes[1:]))  # they are rounded to tenths
    return len(boxes) == report.steps and ordered


def has_all(one, report):
    """Whether all steps of a round are in its boxes, of which each shows by its kinds whether steps were executed."""
    boxes = boxes_of(one)
    counts = [counts for _, counts, *_ in boxes]
    shown = all((("executed" in kinds) == (executed > 0), ("reused" in kinds) == (executed < count)) == (True, True)
                for _, (count, executed), _, _, _, kinds in boxes)
    return shown and [sum(some) for some in zip(*counts)] == [report.steps, report.executed]


def has_round(one, report):
    """Whether a round is drawn, step by step or folded."""
    return has_steps(one, report) if report.steps <= pictures.FOLDED else has_all(one, report)


def width_of(printed):
    return int(re.search(rb'width="([0-9]+)"', printed).group(1))


# Reports that are drawn here.


def check_drawn(checks, number):
    made = [check_reports.some_round(checks.random, k)[0] for k in range(checks.random.choice([1, 2, 5]))]
    data = b"".join(made)
    status, printed, errors = tool("timeline", checks.file("reports", data))
    if checks.expect(f"timeline of reports {number}: {status} {errors}", status == 0 and not errors):
        pairs = list(zip(rounds_of(printed), reports.rounds(data)))
        checks.expect(f"timeline of reports {number}: a box for each step, or all steps in boxes",
                      len(pairs) == len(made) and all(has_round(*pair) for pair in pairs))


def long_round(draw, number, kind):
    """A round of the most steps: threads in turn, or each for a long time, or drawn."""
    threads = [{"turns": at % 32, "runs": at // 999 % 32, "drawn": draw.randrange(32)}[kind] for at in range(65_536)]
    marks = [{"turns": "=+"[at // 32 % 2], "runs": "=+"[at // 5000 % 2], "drawn": draw.choice("=+")}[kind]
             for at in range(65_536)]
    schedule = [[thread, mark if number else "+"] for thread, mark in zip(threads, marks)]
    executed = sum(mark == "+" for _, mark in schedule)
    fields = {"round": number, "steps": 65_536, "reused": 65_536 - executed, "executed": executed, "by": [65_536],
              "instructions": 10**9, "schedule": schedule, "memory": "0" * 64}
    return check_reports.report_of(fields, "exit 0", b"")


def check_long(checks, kind):
    data = b"".join(long_round(checks.random, number, kind) for number in (0, 1))
    began = time.monotonic()
    status, printed, errors = tool("timeline", checks.file("reports", data))
    seconds = time.monotonic() - began
    if not checks.expect(f"timeline of 65,536 steps, {kind}: {status} {errors}", status == 0):
        return
    pairs = list(zip(rounds_of(printed), reports.rounds(data)))
    count = sum(len(boxes_of(one)) for one, _ in pairs)
    checks.expect(f"timeline of 65,536 steps, {kind}: all steps are in {count} boxes of {len(printed)} bytes",
                  all(has_all(*pair) for pair in pairs) and count <= 8000 and len(printed) < 4_000_000
                  and width_of(printed) <= MOST_WIDE)
    checks.expect(f"timeline of 65,536 steps, {kind}: it takes {seconds:.0f} s", seconds < LONG_SECONDS)


def check_page(checks):
    """The page of HTML has each step's thread and mark, and a browser draws it."""
    data = b"".join(long_round(checks.random, number, "drawn") for number in (0, 1))
    status, printed, errors = tool("timeline", checks.file("reports", data), "--html")
    if not checks.expect(f"timeline --html: {status} {errors}", status == 0 and len(printed) < 4_000_000):
        return
    shown = json.loads(re.search(r'type="application/json">(.*?)</script>', printed.decode(), flags=re.S).group(1))
    right = [([list(pair) for pair in zip(one["threads"], one["marks"])], one["lines"]) for one in shown["rounds"]]
    checks.expect("timeline --html: all steps are in it", right == [(one.schedule, []) for one in reports.rounds(data)])
    browser = browser_here("the page of HTML")
    if browser:
        page = checks.file("page.html", printed)
        options = ["--headless", "--no-sandbox", "--disable-gpu", f"--user-data-dir={checks.folder}/browser",
                   "--dump-dom"]
        drawn = re.search(rb'data-drawn="([0-9]+)"', ran_whole(browser, *options, f"file://{page}")[1])
        checks.expect(f"timeline --html: Chromium draws it, in ms: {drawn and drawn.group(1)}",
                      drawn and int(drawn.group(1)) < 1000 * DRAWN_SECONDS)


# Guests.


def with_all(checks, words, workers, *more):
    """The reports of a guest, and its timeline with all that is known but reasons."""
    memo = checks.folder / "memo"
    _, printed, _ = program("run", *words, "--workers", workers, "--memo", memo)
    file = checks.file("reports", printed)
    return list(reports.rounds(printed)), tool("timeline", file, "--memo", memo, *more, "--guest", *words)


def check_guest(checks, words, workers):
    made, (status, printed, errors) = with_all(checks, words, workers)
    what = f"timeline of {words[0].name} with {workers} workers"
    if checks.expect(f"{what}: {status} {errors}", status == 0):
        drawn = rounds_of(printed)
        checks.expect(f"{what}: a box for each step", all(map(has_round, drawn, made)) and len(drawn) == len(made))
        waits = [len(titles(one, "waits")) + len(titles(one, "forever")) for one in drawn]
        traced = [trace_of(checks, words, one).count(b" waits for ") for one in made[:1]]
        if made[0].end["kind"] == "deadlock":
            traced[0] //= 2  # those that wait at the end are listed once more
        checks.expect(f"{what}: {waits} lines of who waits, and {traced} such steps of round 0", waits[:1] == traced)


def trace_of(checks, words, report):
    """What ./trace prints of round 0."""
    return ran(str(ROOT / "trace"), *map(str, words[:2]), str(checks.file("schedule", report.tokens().encode())))[1]


def check_pair(checks):
    """All that is drawn of the two rounds of pair.elf, by one worker, with the reasons."""
    _, (status, printed, errors) = with_all(checks, PAIR, "1", "--why", checks.file("why", WHY.encode()))
    if not checks.expect(f"timeline of pair.elf with reasons: {status} {errors}", status == 0):
        return
    for number, one in enumerate(rounds_of(printed)):
        wakes = {tuple(map(int, re.match(r"step ([0-9]+), .* (?:wakes|begins) thread ([0-9]+)$", it).groups()))
                 for it in titles(one, "wakes")}
        checks.expect(f"round {number}: who wakes whom, {wakes}", wakes == WAKES)
        checks.expect(f"round {number}: who waits", sorted(titles(one, "waits")) ==
                      ["thread 0 waits for the end of thread 1", "thread 2 waits for mutex 0, held by thread 1"])
        widths = [right - left for _, _, _, left, right, _ in boxes_of(one)]
        counts = [5, 4, 5, 4, 7, 7, 3, 3, 3, 3, 4, 3]
        order = all(widths[i] < widths[j] for i in range(12) for j in range(12) if counts[i] < counts[j])
        checks.expect(f"round {number}: the more instructions, the wider", order)
    later = rounds_of(printed)[1]
    shown = [title for _, _, title, *_ in boxes_of(later)]
    checks.expect(f"step 3 of round 1: {shown[3]}", shown[3].split("\n") == [
        "step 3: thread 2, number 0, executed", "lock(0) waits for mutex 0, held by thread 1", "4 instructions",
        "reads 00010000, c0002000; writes nothing", "executed, since: page c0002000 at 0 now 8 was 7 by start"])
    causes = [re.search(r"step ([0-9]+) is executed for what step ([0-9]+) did", it).groups()
              for it in titles(later, "why")]
    checks.expect(f"what changed for which step: {causes}", causes == [("5", "3"), ("8", "5"), ("10", "5")])
    edited = titles(later, "edit")
    checks.expect("what reads edited input", edited == ["step 3: page c0002000 at 0 now 8 was 7 by start"])
    check_browser(checks, printed)


def check_rerun(checks):
    """A rerun, with the memo that it continues: what is reused has that memo's pages, and what is executed none."""
    memo = checks.folder / "before"
    program("run", *PAIR[:2], "--workers", "1", "--memo", memo)
    _, printed, _ = program("rerun", memo, PAIR[2], "--workers", "1")
    file = checks.file("reports", printed)
    status, printed, errors = tool("timeline", file, "--memo", f"0:{memo}", "--guest", *PAIR)
    if checks.expect(f"timeline of a rerun: {status} {errors}", status == 0):
        made, drawn = next(reports.rounds(file.read_bytes())), rounds_of(printed)
        checks.expect("timeline of a rerun: a box for each step", len(drawn) == 1 and has_steps(drawn[0], made))
        have = [("reads 00010000" in title, kinds == ["reused"]) for _, _, title, _, _, kinds in boxes_of(drawn[0])]
        checks.expect("timeline of a rerun: pages of what is reused", all(has == reused for has, reused in have))


def begins(data):
    """Where each record of a memo begins."""
    found = []

    class Noting(memos.Reader):
        def record(self):
            found.append(self.place)
            return super().record()

    memos.read(data, Noting)
    return found


def check_false(checks):
    """A memo with a false record: its step is marked, with what differs; an honest one has no mark."""
    memo, false = checks.folder / "honest", checks.folder / "false"
    _, printed, _ = program("run", *PAIR[:2], "--workers", "1", "--memo", memo)
    file, data = checks.file("reports", printed), bytearray(memo.read_bytes()[:-32])
    data[begins(memo.read_bytes())[3] + 2] ^= 1  # the count's lowest byte
    false.write_bytes(data + hashlib.sha256(data).digest())
    _, drawn, _ = tool("timeline", file, "--memo", memo, "--audit")
    checks.expect("timeline of an honest memo marks a step", b'class="false"' not in drawn)
    status, drawn, errors = tool("timeline", file, "--memo", false, "--audit")
    right = (status, errors) == (0, "") and drawn.count(b'class="false"') == 2 and b"is false" in drawn
    checks.expect(f"timeline of a false memo: {status} {errors}", right)
    _, table, _ = tool("timeline", file, "--memo", false, "--audit", "--text")
    rows = [line for line in table.decode().split("\n") if "is false" in line]
    checks.expect(f"table of a false memo: {rows}", len(rows) == 1 and rows[0].startswith("  3"))


def check_functions(checks):
    """A run of more steps than are drawn one by one, of which two functions have half each: who they are is known of a
    guest with symbols, and drawn, and so is that a rerun without an edit reuses them."""
    source, elf, memo = checks.file("turns.c", C_FILE), checks.folder / "turns.elf", checks.folder / "memo"
    status, _, errors = ran(str(ROOT / "guest/build"), "--symbols", str(source), str(elf))
    if not checks.expect(f"turns.c is built: {status} {errors}", status == 0):
        return
    words = [elf, EXAMPLES / "empty", checks.file("none.edits", b"")]
    _, printed, _ = program("run", *words, "--workers", "1", "--memo", memo)
    status, drawn, errors = tool("timeline", checks.file("reports", printed), "--memo", memo, "--symbols", elf)
    if checks.expect(f"timeline by functions: {status} {errors}", status == 0):
        for one, kind in zip(rounds_of(drawn), ("0 reused, {} executed", "{} reused, 0 executed")):
            box_titles = [title for _, _, title, *_ in boxes_of(one)]
            names = [text.text for text in one.iter(f"{NAMESPACE}text") if text.get("class") == "call"]
            right = all(f": {kind.format(count)}\n" in title and f"\nin: {count} {name}\n" in title
                        for title, (name, count) in zip(box_titles, STEPS.items()))
            checks.expect(f"timeline by functions: the boxes are {box_titles}, and have the names {names}",
                          right and names == list(STEPS) and len(box_titles) == len(STEPS))
    for more, wanted in ((("--symbols", elf), "usage"), (("--memo", memo, "--symbols", PAIR[0]), "no symbol table")):
        status, _, errors = ran_whole(str(ROOT / "tools/timeline"), str(checks.folder / "reports"), *map(str, more))
        checks.expect(f"timeline {more}: {status} {errors}", status == 2 and wanted in errors)


def check_limits(checks):
    """A run with other limits than there are by itself."""
    status, printed, errors = with_all(checks, PAIR, "1", "--text", "--steps", "12", "--fuel", "7")[1]
    checks.expect(f"timeline of a run with its limits: {status} {errors}", status == 0 and printed)


def check_table(checks):
    """The table is README's, but for its first line, and for the words behind arrows."""
    _, (status, printed, errors) = with_all(checks, PAIR, "1", "--text")
    table = re.search(r"^step +thread 0 .*?^```$", (ROOT / "README.md").read_text(), flags=re.S | re.M)
    wanted = [re.sub(r" *<-.*", "", line).rstrip() for line in table.group().split("\n")[:-1]] if table else []
    lines = printed.decode().split("\n")[1:-1]
    checks.expect(f"README has the table: {status} {errors} {lines}", status == 0 and lines == wanted)
    _, (_, printed, _) = with_all(checks, PAIR, "1", "--text", "--columns", "60")
    heads = [line for line in printed.decode().split("\n") if line.startswith("        round ")]
    checks.expect(f"rounds beneath each other in 60 columns: {heads}", len(heads) == 2)


def browser_here(what):
    """A browser that draws; where there is none, it says what isn't drawn."""
    browser = shutil.which("chromium") or shutil.which("chromium-browser") or shutil.which("google-chrome")
    if not browser:
        print(f"skipped: drawing {what} in a browser, since there is no Chromium")
    return browser


def check_browser(checks, printed):
    """The picture as the browser draws it: a PNG of that width and height, that isn't empty."""
    browser = browser_here("the picture")
    if not browser:
        return
    size = re.search(rb'width="([0-9]+)" height="([0-9]+)"', printed).groups()
    png, file = checks.folder / "picture.png", checks.file("picture.svg", printed)
    options = ["--headless", "--no-sandbox", "--disable-gpu", "--hide-scrollbars", f"--screenshot={png}",
               f"--user-data-dir={checks.folder}/browser", f"--window-size={size[0].decode()},{size[1].decode()}"]
    ran_whole(browser, *options, f"file://{file}")
    data = png.read_bytes() if png.exists() else b""
    drawn = int.from_bytes(data[16:20], "big"), int.from_bytes(data[20:24], "big")
    checks.expect(f"Chromium draws {drawn}, {len(data)} bytes", drawn == tuple(map(int, size)) and len(data) > 10_000)


# What isn't as it should be.


def taken(adding, text):
    """The places at which a text is cut and not refused."""
    wrong = []
    for at in range(len(text)):
        try:
            adding(text[:at])
            wrong.append(at)
        except steps.Refused:
            pass
    return wrong


def ends_where(file, at):
    """Whether the reading of a file of reports, as the tool does it, ends with 1 and one line, which says this byte."""
    errors = io.StringIO()
    try:
        with contextlib.redirect_stderr(errors):
            command.Command("timeline").rounds(str(file))
    except SystemExit as ended:
        line = errors.getvalue()
        return ended.code == 1 and line.count("\n") == 1 and line.endswith("\n") and f" at byte {at}: " in line
    return False


def check_cut(checks):
    memo = checks.folder / "memo"
    _, printed, _ = program("run", *PAIR, "--workers", "1", "--memo", memo)
    made = list(reports.rounds(printed))
    listing, trace = program("show", memo)[1].decode(), trace_of(checks, PAIR, made[0]).decode()
    for what, text, adding in (("listing", listing, "add_listing"), ("trace", trace, "add_trace"),
                               ("file of reasons", WHY, "add_reasons")):
        wrong = taken(lambda part, name=adding: getattr(steps.Rounds(made), name)(1, part), text)
        checks.expect(f"a {what} that is cut is refused, but at {wrong}", not wrong)
        getattr(steps.Rounds(made), adding)(1, text)
    taken_at = [at for at in range(len(printed)) if not ends_where(checks.file("cut", printed[:at]), at)]
    whole = len(made[0].lines) + len(made[0].output) + 1  # the first report, which is one by itself
    checks.expect(f"reports that are cut are refused in a line that says where, but at {taken_at}", taken_at == [whole])
    for at in (0, 1, 50, 99, len(printed) // 2, len(printed) - 1):
        status, drawn, errors = tool("timeline", checks.file("cut", printed[:at]))
        checks.expect(f"timeline of reports cut at {at}: {status} {errors}",
                      status == 1 and not drawn and f" at byte {at}: " in errors)


def check_words(checks):
    memo, none = checks.folder / "memo", checks.folder / "none"
    _, printed, _ = program("run", *PAIR, "--workers", "1", "--memo", memo)
    file, why = checks.file("reports", printed), checks.file("why", WHY.encode())
    other = checks.file("other", WHY.replace("step 3 thread 2", "step 4 thread 2").encode())
    for words, wanted, begun in (
            ((), 2, "usage"), ((none,), 2, "can't be read"), ((file, "--why", none), 2, "can't be read"),
            ((file, "--why", other), 1, "other: line 2: round 1 has no step 4 of thread 2, number 0"),
            ((file, "--why", f"0:{why}"), 1, "line 1: round 0 has 12 executed steps"),
            ((file, "--why", f"7:{why}"), 1, "have no round 7"), ((file, "--trace", why), 1, "line 1: "),
            ((file, "--memo", file), 2, "ithreads ended with status 4"), ((file, "--guest", PAIR[0]), 2, "usage"),
            ((file, "--guest", *PAIR[:2]), 2, "rounds of the reports: 2; inputs by INPUT and the edit lists: 1"),
            ((file, "--columns", "x"), 2, "usage"),
            ((file, "--guest", *PAIR, none), 2, "can't be read"), ((file, "--fuel", "5"), 2, "usage"),
            ((file, "--guest", *PAIR, "--steps", "11"), 2, "the run has ended before it (of a run with --fuel or --steps, give"),
            ((file, "--guest", *PAIR, "--fuel", "0"), 2, "trace ended with status 2: words: "),
            ((file, "--guest", PAIR[1], *PAIR[1:]), 2, "trace ended with status 3")):
        status, drawn, errors = tool("timeline", *words)
        checks.expect(f"timeline {words}: {status} {errors}", status == wanted and not drawn and begun in errors)
    noted = checks.file("noted", WHY.replace("was 7 by start\n", "was 7 by start\n    it is <odd> & \"so\"\n").encode())
    status, drawn, errors = tool("timeline", file, "--why", noted)
    box_titles = [title for _, _, title, *_ in boxes_of(rounds_of(drawn)[1])] if status == 0 else ["", "", "", ""]
    checks.expect(f"timeline with notes: {errors} {box_titles[3]}",
                  box_titles[3].endswith('by start\nit is <odd> & "so"'))
    status, drawn, errors = tool("timeline", file, "--memo", memo, "--why", why)
    right = status == 0 and b"5 instructions\nreads 00010000" in drawn
    checks.expect(f"timeline without a trace: {status} {errors}", right)


def check(checks):
    for number in range(DRAWN):
        check_drawn(checks, number)
    for kind in ("turns", "runs", "drawn"):
        check_long(checks, kind)
    check_page(checks)
    for name in ("hi", "cross", "trap", "late", "bytes"):
        check_guest(checks, [EXAMPLES / f"{name}.elf", EXAMPLES / "empty"], "1")
    for workers in ("1", "4"):
        check_guest(checks, PAIR, workers)
    check_pair(checks)
    check_rerun(checks)
    check_false(checks)
    check_functions(checks)
    check_limits(checks)
    check_table(checks)
    check_cut(checks)
    check_words(checks)
