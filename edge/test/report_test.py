#!/usr/bin/env python3
"""Compares the pages that `otap report` draws with what the program itself says of the same captures.

    edge/test/report_test.py OTAP PROGRAM [FRAMES]

What `list`, `schema`, `replay` and `decode` of PROGRAM print is read and added up here once more; each number in each table
of the page is compared, and chromium draws the page: its console must be silent, and each chart have as many marks as the
numbers say. The longest capture has 20,000 frames, or FRAMES. Where there is no chromium, the drawing is left out, and that is said.
"""

import collections
import concurrent.futures
import math
import os
import re
import subprocess
import sys
import tempfile

import browser
import telemetry

sys.path.insert(0, os.path.join(os.path.dirname(os.path.abspath(__file__)), "..", "..", "tools"))
from arrow_batch import UTF8, Column, batch, integer, record  # noqa: E402

MOST_BINS = 400
MOST_POINTS = 1000
failures = []


def check(what, got, wanted):
    if got != wanted:
        failures.append(what)
        print("wrong: %s\n  on the page: %.600r\n  wanted:      %.600r" % (what, got, wanted))


def whole(n):
    return f"{n:,}"


def ratio(a, b):
    return "%.3f" % (a / b) if b else "-"


def short(v):
    if v == int(v) or v >= 100:
        return "%.0f" % v
    return "%.1f" % v if v >= 10 else "%.2f" % v


def frames(data):
    at = 0
    while at + 5 <= len(data):
        length = int.from_bytes(data[at + 1 : at + 5], "big")
        yield data[at], data[at + 5 : at + 5 + length]
        at += 5 + length


class Facts:
    """What the program says of a capture of batches, by frame."""

    def __init__(self, program, signal, capture):
        self.program, self.capture = program, capture
        self.frames = list(frames(capture))
        self.reset = [flag == 2 for flag, _ in self.frames]
        self.size = [len(message) for _, message in self.frames]
        self.listed = self.by_frame("list")
        self.schemas = self.by_frame("schema", signal)
        self.replayed = self.by_frame("replay", signal)
        back = frames(subprocess.run([program, "decode", signal], input=capture, capture_output=True).stdout)
        self.request = [next(back)[1] if self.accepted(i) or self.reset[i] else b"" for i in range(len(self.frames))]
        self.width = max(1, -(-len(self.frames) // MOST_BINS))
        self.bins = [range(first, min(first + self.width, len(self.frames))) for first in range(0, len(self.frames), self.width)]

    def by_frame(self, *words):
        """The lines of each frame, refusals among them."""
        done = subprocess.run([self.program, *words], input=self.capture, capture_output=True)
        of = collections.defaultdict(list)
        for text in (done.stdout, done.stderr):
            for line in text.decode().splitlines():
                if match := re.match(r"frame (\d+): (.*)", line):
                    frame = int(match[1])
                    of[frame].append(match[2])
                elif not line.startswith("damage"):
                    of[frame].append(line)
        return of

    def batches(self, some):
        return [i for i in some if not self.reset[i]]

    def accepted(self, i):
        return " accepted " in self.replayed[i][0]

    def refusal(self, i):
        match = re.match(r"batch \S+ refused: stage (\d+) (\S+) payload (\S+)$", self.replayed[i][0])
        return match.groups() if match else None

    def items(self, i):
        return int(re.search(r"items (\d+)", self.replayed[i][0])[1])

    def payloads(self, i):
        words = self.listed[i][0].split()
        if self.reset[i] or words[2:3] == ["refused:"]:
            return {}
        return {int(kind): int(length) for kind, length in (word.split(":") for word in words[2:])}

    def opened(self, i):
        """Of an accepted batch each payload's type with its columns, or None where it goes on."""
        found, kind = [], None
        for line in self.schemas[i][1:]:
            if match := re.match(r'payload (\d+) schema ".*"( goes on)?$', line):
                found.append((int(match[1]), None if match[2] else {}))
            else:
                types = r"(?:bool|[ui]\d+|f64|utf8|binary|fixed \d+|timestamp|duration|struct|list)"
                match = re.match(r"field (.*) (%s dict u\d+)$" % types, line) or re.match(r"field (.*) (%s)$" % types, line)
                name, kind = match.groups()
                columns = found[-1][1]
                if kind != "struct" and not (name.endswith(".item") and name[:-5] in columns):
                    columns[name] = kind
                elif kind != "struct":
                    columns[name[:-5]] += " of " + kind
        return found


def table_of(figure):
    """The rows of a figure's table, as texts."""
    body = figure.one("tbody")
    return [[cell.text() for cell in row.all("td")] for row in body.all("tr")]


def kind_class(kind):
    return "dict8" if kind.endswith("dict u8") else "dict16" if kind.endswith("dict u16") else "plain"


class Columns:
    """The form of each column in each bin, and where it changes."""

    def __init__(self, facts):
        self.changes = collections.Counter()
        self.changed_bins = set()
        self.cells = collections.defaultdict(dict)
        self.openings = collections.Counter()
        known = {}
        last = [dict() for _ in facts.bins]
        for number, one in enumerate(facts.bins):
            for i in one:
                if facts.reset[i]:
                    known = {}
                elif facts.accepted(i):
                    self.batch(facts.opened(i), known, number, last[number])
        self.tables = last

    def batch(self, payloads, known, number, last):
        for kind, columns in payloads:
            if columns is not None:
                self.openings[number] += 1
                for name in columns:
                    self.cells[kind, name]
                if kind in known:
                    for name in known[kind].keys() | columns.keys():
                        if known[kind].get(name) != columns.get(name):
                            self.changes[kind, name] += 1
                            self.changed_bins.add((kind, name, number))
                known[kind] = columns
            if kind in known:
                last[kind] = known[kind]

    def runs(self):
        """How many runs of one form the strips have, by the class that each is drawn in."""
        count = collections.Counter()
        for kind, name in self.cells:
            before = None
            for table in self.tables:
                now = None if kind not in table else table[kind].get(name, "absent")
                if now is not None and now != before:
                    count["absent" if now == "absent" else kind_class(now)] += 1
                before = now
        return count


def compare_totals(page, facts, columns, packed):
    shown = {d.one("dt").text(): [v.text() for v in d.all("dd")] for d in page.one("dl", cls="totals").all("div")}
    every = range(len(facts.frames))
    accepted = [i for i in facts.batches(every) if facts.accepted(i)]
    otap, otlp = sum(facts.size[i] for i in accepted), sum(len(facts.request[i]) for i in accepted)
    items = sum(facts.items(i) for i in accepted)
    batches = len(facts.batches(every))
    check("batches", shown["batches"], [whole(batches), f"{whole(len(accepted))} accepted, {whole(batches - len(accepted))} refused"])
    check("resets", shown["resets"][0], whole(sum(facts.reset)))
    check("items", shown["items"][0], whole(items))
    check("bytes", shown["bytes"][0], whole(otap))
    check("bytes an item", shown["bytes an item"][0], short(otap / items) if items else "-")
    check("openings", shown["sub-streams opened"][0], whole(sum(columns.openings.values())))
    check("ratio", shown["OTAP / OTLP"], [ratio(otap, otlp), whole(otlp) + " bytes as OTLP"])
    if packed:
        compare_packed(shown["both by zstd"], facts, accepted)


def compare_packed(shown, facts, accepted):
    """zstd's own command packs as well as the library that the page is made with, give or take an eighth."""
    numbers = [int(word.replace(",", "")) for word in re.findall(r"[\d,]+", shown[1])]
    check("ratio by zstd", shown[0], ratio(*numbers))
    for number, messages in zip(numbers, ([facts.frames[i][1] for i in accepted], [facts.request[i] for i in accepted])):
        own = sum(len(subprocess.run(["zstd", "-q", "-3", "-c"], input=m, capture_output=True).stdout) for m in messages)
        if not own * 7 / 8 < number < own * 9 / 8:
            check("bytes by zstd", number, own)


def compare_bytes(figure, facts, columns):
    kinds = sorted({kind for i in range(len(facts.frames)) for kind in facts.payloads(i)})
    head = [cell.text() for cell in figure.one("thead").all("th")]
    check("types", [int(text.split()[0]) for text in head[5:-3]], kinds)
    wanted = []
    for number, one in enumerate(facts.bins):
        batches = facts.batches(one)
        accepted = [i for i in batches if facts.accepted(i)]
        records = [sum(facts.payloads(i).get(kind, 0) for i in batches) for kind in kinds]
        span = str(one[0]) if len(one) == 1 else "%d–%d" % (one[0], one[-1])
        wanted.append([span] + [whole(n) for n in (
            len(batches), len(batches) - len(accepted), sum(facts.reset[i] for i in one), columns.openings[number], *records,
            sum(facts.size[i] for i in batches) - sum(records), sum(facts.size[i] for i in accepted), sum(len(facts.request[i]) for i in accepted))])
    check("bytes by payload type", table_of(figure), wanted)
    return wanted


def steps(facts):
    """The rows of the third table: which batch of a segment, in how many segments, and what was sent so far."""
    reached, n, most = {}, 0, 0
    so_far = [0, 0]
    for i in range(len(facts.frames)):
        if facts.reset[i]:
            n, so_far = 0, [0, 0]
        elif facts.accepted(i):
            n += 1
            so_far = [so_far[0] + facts.size[i], so_far[1] + len(facts.request[i])]
            if n > most and (n <= 100 or n >= math.ceil(max(reached) * 1.05)):
                reached[n] = [0] * 5
            most = max(most, n)
            if n in reached:
                reached[n] = [a + b for a, b in zip(reached[n], (1, *so_far, facts.size[i], len(facts.request[i])))]
    return [[whole(n), whole(r[0]), whole(r[1]), whole(r[2]), ratio(r[1], r[2]), ratio(r[3], r[4])] for n, r in sorted(reached.items())]


def compare_sofar(figure, facts):
    wanted = steps(facts)
    check("OTAP to OTLP so far", [row[:5] + [row[8]] for row in table_of(figure)], wanted)
    for row in table_of(figure):
        a, b = (int(text.replace(",", "")) for text in row[5:7])
        check("so far by zstd", row[7], ratio(a, b))
    return wanted


def compare_items(figure, facts, columns):
    groups = collections.defaultdict(lambda: [0, 0, 0, 0])
    points = 0
    for i in facts.batches(range(len(facts.frames))):
        if facts.accepted(i) and facts.items(i):
            opens = any(columns is not None for _, columns in facts.opened(i))
            group = groups[facts.items(i).bit_length() - 1]
            for at, n in enumerate((1, opens, facts.items(i), facts.size[i])):
                group[at] += n
            points += 1
    wanted = []
    for power, (batches, opening, items, size) in sorted(groups.items()):
        name = whole(1) if power == 0 else "%s–%s" % (whole(1 << power), whole((2 << power) - 1))
        wanted.append([name, whole(batches), whole(opening), whole(items), whole(size), short(size / items)])
    check("bytes by items", table_of(figure), wanted)
    return points


def compare_refused(page, facts):
    found = collections.defaultdict(list)
    for i in facts.batches(range(len(facts.frames))):
        if refusal := facts.refusal(i):
            found[refusal].append(i)
    section = page.one("section", id="refused")
    if not found:
        check("no refusal", "No batch was refused." in section.text(), True)
        return
    wanted = [[stage, cause, payload, whole(len(which)), ", ".join(map(str, which[:12])) + (", …" if len(which) > 12 else "")]
              for (stage, cause, payload), which in sorted(found.items(), key=lambda it: it[1][0])]
    shown = [row[:2] + [row[2].split()[0]] + row[3:] for row in table_of(section)]
    check("refusals", shown, wanted)


def compare(page, facts, packed=False):
    """Compares the tables of a page; returns how many marks each chart has by the numbers."""
    columns = Columns(facts)
    compare_totals(page, facts, columns, packed)
    strips = {(int(row[0].split()[0]), row[1]): row[2] for row in table_of(page.one("figure", id="columns"))}
    check("columns", strips, {key: whole(columns.changes[key]) for key in columns.cells})
    bars = compare_bytes(page.one("figure", id="bytes"), facts, columns)
    wanted = {("columns", "rect", kind): n for kind, n in columns.runs().items()}
    wanted["columns", "rect", "change"] = len(columns.changed_bins)
    wanted["bytes", "rect", "bar"] = sum(text != "0" for row in bars for text in row[5:-2])
    wanted["bytes", "rect", "refused"] = sum(row[2] != "0" for row in bars)
    wanted["bytes", "rect", "otlp"] = sum(row[1] != row[2] for row in bars)
    wanted["bytes", "line", "reset"] = wanted["columns", "line", "reset"] = sum(row[3] != "0" for row in bars)
    wanted["bytes", "text", "open"] = sum(row[4] != "0" for row in bars)
    wanted["sofar", "circle", "plainly"] = wanted["sofar", "circle", "packed"] = len(compare_sofar(page.one("figure", id="sofar"), facts))
    points = compare_items(page.one("figure", id="items"), facts, columns)
    if points <= MOST_POINTS:
        wanted["items", "circle", ""] = points
    compare_refused(page, facts)
    return wanted


def marks(page, chart, tag, kind):
    figure = page.one("figure", id=chart).one("svg")
    if tag in ("line", "text"):
        return sum(1 for _ in figure.all(tag, cls=kind))
    if kind == "":
        return sum(1 for _ in figure.all(tag))
    return sum(1 for group in figure.all("g", cls=kind) for _ in group.all(tag))


class Case:
    """A page that was made, what it must show, and how many marks each chart has."""

    def __init__(self, name, path, wanted):
        self.name, self.path, self.wanted = name, path, wanted

    def look(self):
        page, console = browser.drawn(self.path)
        check(self.name + ": the console", console, [])
        for (chart, tag, kind), wanted in self.wanted.items():
            check("%s: marks %s %s in %s" % (self.name, tag, kind, chart), marks(page, chart, tag, kind), wanted)
        check(self.name + ": no script", list(page.all("script")), [])
        return page


class Room:
    """A folder with the captures and their pages."""

    def __init__(self, folder, otap, program):
        self.folder, self.otap, self.program = folder, otap, program

    def path(self, name):
        return os.path.join(self.folder, name)

    def put(self, name, data):
        with open(self.path(name), "wb") as file:
            file.write(data)
        return self.path(name)

    def job(self, data, *words):
        return subprocess.run([self.program, *words], input=data, capture_output=True).stdout

    def page(self, name, signal, file):
        """The page of a file, as its text."""
        target = self.path(name + ".html")
        done = subprocess.run([self.otap, "--otap-cli", self.program, "report", signal, file, "-o", target], capture_output=True)
        if done.returncode != 0:
            raise SystemExit("otap report ended with %d: %s" % (done.returncode, done.stderr.decode()))
        with open(target, encoding="utf-8") as text:
            return text.read()


def signal_case(room, signal):
    """Twenty-two batches with resets and changes, one of them refused, and so those after it until the reset."""
    requests = b"".join(telemetry.capture(signal, 22, 9, 40))
    made = list(frames(room.job(requests, "encode", signal)))
    made[13] = (1, made[13][1])
    batches = b"".join(bytes([flag]) + len(m).to_bytes(4, "big") + m for flag, m in made)
    text = room.page(signal, signal, room.put(signal + ".batches", batches))
    return Case(signal, room.path(signal + ".html"), compare(browser.tree(text), Facts(room.program, signal, batches), packed=signal == "logs"))


def requests_case(room):
    """Requests are encoded first: the same page but for its first lines, and those that encode refused are named."""
    requests = b"".join(telemetry.capture("logs", 6, 0, 20)) + telemetry.frame(b"\x08\x01")
    batches = room.job(requests, "encode", "logs")
    text = room.page("requests", "logs", room.put("requests", requests))
    page = browser.tree(text)
    wanted = compare(page, Facts(room.program, "logs", batches))
    check("requests: the note", "file of 7 requests" in page.one("ul", cls="notes").text(), True)
    refused = [[cell.text() for cell in row.all("td")] for row in page.one("section", id="refused").all("tr")]
    check("requests: refused", refused[1:], [["6", "BadMessage"]])
    return Case("requests", room.path("requests.html"), wanted)


EVIL = "</svg><script>alert(1)</script><img src=x onerror=alert(1)>\"'"


def evil_case(room):
    """A column whose name would be a script, drawn as text; and so the name of the file."""
    number = [b"", bytes(2)]
    columns = [Column(b"id", integer(16), number), Column(EVIL.encode(), UTF8, [b"", bytes(8), b""])]
    batches = telemetry.frame(batch((30, record(1, columns))))
    name = "<script>alert(2)<"
    text = room.page("evil", "logs", room.put(name, batches))
    wanted = compare_evil(browser.tree(text))
    check("evil: nothing of it is markup", "<script" in text, False)
    return Case("evil", room.path("evil.html"), wanted)


def compare_evil(page):
    printed = EVIL.replace('"', "\\x22")
    rows = table_of(page.one("figure", id="columns"))
    check("evil: the column", [row[1] for row in rows], ["id", printed])
    check("evil: the title", "<script>alert(2)<" in page.one("h1").text(), True)
    return {("columns", "rect", "plain"): 2}


def empty_cases(room):
    """Captures that leave charts empty still make pages; a damaged one ends with 5 and says so."""
    page = browser.tree(room.page("empty", "logs", room.put("empty.capture", b"")))
    check("empty: charts", [bool(list(f.all("svg"))) for f in page.all("figure")], [False] * 4)
    refused = telemetry.frame(b"\x08")
    page = browser.tree(room.page("refused", "logs", room.put("refused.capture", refused)))
    compare_refused(page, Facts(room.program, "logs", refused))
    whole_one = b"".join(telemetry.capture("logs", 2, 0, 3))
    batches = room.job(whole_one, "encode", "logs")
    done = subprocess.run([room.otap, "--otap-cli", room.program, "report", "logs", "--from", "capture",
                           room.put("damaged.capture", batches + b"\0\0"), "-o", room.path("damaged.html")], capture_output=True)
    check("damaged: status", done.returncode, 5)
    with open(room.path("damaged.html"), encoding="utf-8") as file:
        page = browser.tree(file.read())
    compare(page, Facts(room.program, "logs", batches))
    check("damaged: the note", "damage at %d: Truncated" % len(batches) in page.one("ul", cls="notes").text(), True)
    return [Case("empty", room.path("empty.html"), {}), Case("damaged", room.path("damaged.html"), {})]


def many_case(room, count):
    """Many frames of one item: bars stand for several frames, and the page stays small."""
    ones = [frame for frame in telemetry.capture("logs", 40, 0, 1)]
    requests = b"".join((telemetry.RESET if r % 997 == 996 else b"") + ones[r % 40] for r in range(count))
    batches = room.job(requests, "encode", "logs")
    text = room.page("many", "logs", room.put("many.batches", batches))
    check("many: the page is below 1 MB", len(text.encode()) < 1_000_000, True)
    facts = Facts(room.program, "logs", batches)
    check("many: bars", len(facts.bins) <= MOST_BINS, True)
    return Case("many", room.path("many.html"), compare(browser.tree(text), facts))


def control(room):
    """A page that its own policy forbids something is heard, so a silent console means something."""
    page = '<!doctype html><meta http-equiv="Content-Security-Policy" content="default-src \'none\'"><img src="x.png">'
    _, console = browser.drawn(room.put("control.html", page.encode()))
    check("the console is heard", len(console) > 0, True)


def main(otap, program, count=20000):
    with tempfile.TemporaryDirectory(prefix="otap-report-") as folder:
        room = Room(folder, os.path.abspath(otap), os.path.abspath(program))
        with concurrent.futures.ThreadPoolExecutor(4) as pool, concurrent.futures.ThreadPoolExecutor(2) as two:
            makers = [pool.submit(many_case, room, int(count))] + [pool.submit(signal_case, room, s) for s in telemetry.ITEMS]
            makers += [pool.submit(requests_case, room), pool.submit(evil_case, room)]
            empty = pool.submit(empty_cases, room)
            cases = [maker.result() for maker in makers] + empty.result()
            if browser.there():
                # A browser has several processes of its own.
                looks = [two.submit(case.look) for case in cases] + [two.submit(control, room)]
                for look in looks:
                    look.result()
            else:
                print("left out, as there is no chromium: how a browser draws the pages")
    print("report_test: %d pages, %s" % (len(cases), "%d wrong" % len(failures) if failures else "as the program says"))
    return 1 if failures else 0


if __name__ == "__main__":
    sys.exit(main(*sys.argv[1:]))
