#!/usr/bin/env python3
"""Tables and a picture of what the programs of bench/ said.

  table.py COUNTS [TIMES..] [--picture FILE]   the tables, of counted instructions and of timed runs
  table.py --join SAID LOG                     a program's tags and the emulator's counts as lines of COUNTS
  table.py --compare STORED COUNTS             which counts differ; the exit status is 1 if any does

A line of COUNTS: subject, workload, contender, instructions of one call. TIMES has a file for each order in which the
programs were linked. A ratio of times is taken inside a round; an order's ratio is the median of its rounds, and what
is shown is the median of the orders and, where it says so, the range.
"""
import statistics
import sys

WORKLOADS = "tree list graph garbage blocks strings closures roots small empty nulls".split()
MOSTLY_LIVE = "tree list graph blocks strings closures roots small nulls".split()
ALL_BUT_SMALL = [w for w in WORKLOADS if w != "small"]

# Name, of, to, bar of instructions, bar of time, workloads that the bars are for, other bars of time.
RATIOS = [
    ("collect / (b)", "collect", "full", 1.15, 1.15, WORKLOADS, {}),
    ("engine / (a)", "engine", "bare", 1.10, 1.10, WORKLOADS, {"tree": 1.25, "small": 1.25}),
    ("engine / (a), used words", "engine", "bare-used", None, None, WORKLOADS, {}),
    ("collect / (a)", "collect", "bare", 2.50, 2.50, MOSTLY_LIVE, {}),
    ("check / C's check", "check", "full-check", 1.15, None, WORKLOADS, {}),
    ("(b) / (a)", "full", "bare", None, None, WORKLOADS, {}),
]
# The same beside the archive before, if it was measured.
BEFORE = [
    ("check / check before", "check", "before-check", None, 1.00, ALL_BUT_SMALL, {}),
    ("collect / collect before", "collect", "before-collect", None, None, WORKLOADS, {}),
    ("C's check / check before", "full-check", "before-check", None, None, WORKLOADS, {}),
]
# The geometric mean over all workloads is shown of these, with its bars of instructions and of time.
MEANS = {
    "collect / (b)": (None, None),
    "check / C's check": (None, 1.15),
    "check / check before": (None, 0.70),
    "collect / collect before": (None, None),
    "C's check / check before": (None, None),
}
ALLOCATE = (1.30, 1.25)  # beside (c)
TWIN = (1.10, 1.15)
TEXT = (1.25, None)  # a text and its twin, instructions and time
TREE_NODES = (2**15 - 1) / 40 + 2**13 - 1  # of one tree that is dropped, with its share of the live one
TREE_LIVE = 3 * (2**15 - 1)  # words


def read_counts(path):
    counts = {}
    with open(path) as lines:
        for line in lines:
            if not line.startswith("#"):
                subject, workload, contender, count = line.split()
                counts[subject, workload, contender] = float(count)
    return counts


def read_times(path):
    """Nanoseconds of one call, a list of rounds for each measurement."""
    times = {}
    with open(path) as lines:
        for line in lines:
            if line.startswith("time "):
                _, subject, workload, contender, calls, taken = line.split()
                times.setdefault((subject, workload, contender), []).append(float(taken) / int(calls))
    return times


def workloads_of(measured, subject):
    return list(dict.fromkeys(w for s, w, _ in measured if s == subject))


class Measured:
    """Counts, and the times of some runs, one for each link order."""

    def __init__(self, counts, runs):
        self.counts, self.runs = counts, runs

    def timed(self, subject):
        return any(s == subject for run in self.runs[:1] for s, _, _ in run)

    def count_ratio(self, subject, workload, of, to):
        return self.counts[subject, workload, of] / self.counts[subject, workload, to]

    def own_count(self, subject, workload, of):
        """Without what a call that does nothing costs."""
        return self.counts[subject, workload, of] - self.counts[subject, workload, "nothing"]

    def time_ratios(self, subject, workload, of, to):
        """The ratio of each order, rising."""
        return sorted(
            statistics.median(x / y for x, y in zip(run[subject, workload, of], run[subject, workload, to]))
            for run in self.runs
        )

    def time_ratio(self, subject, workload, of, to):
        return statistics.median(self.time_ratios(subject, workload, of, to))

    def time(self, subject, workload, contender):
        return statistics.median(statistics.median(run[subject, workload, contender]) for run in self.runs)


# ---- tables ----


def cell(value, bar):
    return "%7.2f%s" % (value, "!" if bar is not None and round(value, 2) > bar else " ")


def row(name, cells, bar):
    print("%-27s%s   %s" % (name, "".join(cells), "" if bar is None else "bar %.2f" % bar))


def ratios_in(measured):
    """The lines of the tables: with the archive before, if that was measured."""
    return RATIOS + (BEFORE if ("collecting", WORKLOADS[0], "before-check") in measured else [])


def collecting(ratio, which, ratios):
    """The table of instructions (which = 0) or of time (1)."""
    print("%-27s%s    mean" % ("", "".join("%8s " % w for w in WORKLOADS)))
    for name, of, to, *bars, workloads, others in ratios:
        each = [ratio("collecting", w, of, to) for w in WORKLOADS]
        cells = []
        for w, value in zip(WORKLOADS, each):
            bar = others.get(w, bars[which]) if which == 1 else bars[which]
            cells.append(" " + cell(value, bar if w in workloads else None))
        if name in MEANS:
            cells.append(" " + cell(statistics.geometric_mean(each), MEANS[name][which]))
        row(name, cells, bars[which])
    print()


def ranged(m, subject, workload, of, to, bar):
    each = m.time_ratios(subject, workload, of, to)
    return "%s %.2f-%.2f" % (cell(statistics.median(each), bar), each[0], each[-1])


def calling(m):
    """Each exported call and its twin. The instructions are the call's own: one that does nothing is taken off."""
    timed = "time: ratio, range, ns" if m.timed("calling") else ""
    print("%-20s%8s%9s%8s   %s" % ("call / twin", "twin", "archive", "ratio", timed))
    for w in workloads_of(m.counts, "calling"):
        twin, archive = (m.own_count("calling", w, c) for c in ("twin", "archive"))
        ratio = cell(archive / twin, TWIN[0]) if twin > 2 else "      - "
        line = "%-20s%8.0f%9.0f%s" % (w, twin, archive, ratio)
        if m.timed("calling"):
            ratios = ranged(m, "calling", w, "archive", "twin", TWIN[1])
            line += "   %s %6.2f" % (ratios, m.time("calling", w, "archive"))
        print(line)
    print()


def allocating(m):
    fields = workloads_of(m.counts, "allocating")
    print("allocate, by fields        " + "".join("%7s " % n for n in fields))
    for name, other, bars in ("twin", "twin", TWIN), ("(c)", "baseline", ALLOCATE):
        shown = [("instructions", m.count_ratio, bars[0])]
        shown += [("time", m.time_ratio, bars[1])] if m.timed("allocating") else []
        for what, ratio, bar in shown:
            row("  %s / %s" % (what, name), [cell(ratio("allocating", n, "archive", other), bar) for n in fields], bar)
    objects = {n: 65536 // (int(n) + 1) for n in fields}
    for contender in "baseline", "twin", "archive":
        each = [m.counts["allocating", n, contender] / objects[n] for n in fields]
        row("  instructions, " + contender, ["%7.1f " % x for x in each], None)
        if m.timed("allocating"):
            each = [m.time("allocating", n, contender) / objects[n] for n in fields]
            row("  ns, " + contender, ["%7.1f " % x for x in each], None)
    print()


def growing(m):
    """By the half, and by the live words of the largest half, as pairs of a size and the instructions."""
    points = [tuple(map(int, w.split("/"))) for w in workloads_of(m.counts, "growth")]
    by_half = sorted(s for s, live in points if 2 * live == s)
    by_live = sorted(live for s, live in points if s == 1048576)
    return by_half, by_live


def growth(m):
    by_half, by_live = growing(m)
    print("growth: instructions a word of S, half of it live, S from %d to %d" % (by_half[0], by_half[-1]))
    for c in "bare", "full", "engine", "collect":
        each = [m.counts["growth", "%d/%d" % (s, s // 2), c] / s for s in by_half]
        spread = (max(each) / min(each) - 1) * 100
        missed = "!" if c == "collect" and round(spread, 1) > 2 else " "
        print("  %-8s %s   spread %.1f %%%s" % (c, " ".join("%7.3f" % x for x in each), spread, missed))
    print("growth: millions of instructions by live words of S = 1048576, and what they are off a straight line")
    for c in "bare", "full", "engine", "collect":
        each = [m.counts["growth", "1048576/%d" % n, c] for n in by_live]
        slope = (each[-1] - each[0]) / by_live[-1]
        off = max(abs(y - each[0] - slope * n) for n, y in zip(by_live, each)) / each[-1]
        millions = " ".join("%7.2f" % (y / 1e6) for y in each)
        print("  %-8s %s   %.2f a live word, off by %.4f %%" % (c, millions, slope, 100 * off))
    print()


def texts(m):
    """Of each text, named with its bytes: instructions a byte, which stay the same if time is linear in the text."""
    for subject in ["writing", "reading"]:
        timed = "time: ratio, range, ns a byte" if m.timed(subject) else ""
        print("%-20s%8s%9s%9s%8s   %s" % (subject, "bytes", "twin", "archive", "ratio", timed))
        for w in workloads_of(m.counts, subject):
            name, size = w.split("/")
            twin, archive = (m.counts[subject, w, c] / int(size) for c in ("twin", "archive"))
            line = "%-20s%8s%9.2f%9.2f%s" % (name, size, twin, archive, cell(archive / twin, TEXT[0]))
            if m.timed(subject):
                ratios = ranged(m, subject, w, "archive", "twin", TEXT[1])
                line += "   %s %6.2f" % (ratios, m.time(subject, w, "archive") / int(size))
            print(line)
        print()


def contenders_of(m, subject, workload):
    return [c for s, w, c in m.runs[0] if (s, w) == (subject, workload)]


def peers(m):
    print("One full collection of a live tree of depth 16, ms:")
    each = contenders_of(m, "full-collection", "tree")
    print("  " + ", ".join("%s %.2f" % (c, m.time("full-collection", "tree", c) / 1e6) for c in each))
    print("Binary trees, ns a node; the archive's ratio to each other, with its range; bar 1.00 beside malloc and")
    print("libgc from S = %d, four times the live words:" % (4 * TREE_LIVE))
    for half in workloads_of(m.runs[0], "trees"):
        bar = 1.00 if int(half) >= 4 * TREE_LIVE else None
        said = ["archive %.1f" % (m.time("trees", half, "archive") / TREE_NODES)]
        for c in contenders_of(m, "trees", half):
            if c != "archive":
                own = bar if c in ("malloc", "libgc") else None
                ratio = ranged(m, "trees", half, "archive", c, own)
                said.append("%s %.1f:%s" % (c, m.time("trees", half, c) / TREE_NODES, ratio))
        print("  S = %-8s %s" % (half, ", ".join(said)))


def lisp(m):
    print("The Lisp, milliseconds of a program; the ratio to the archive before, with its range:")
    for w in workloads_of(m.runs[0], "lisp"):
        ms = m.time("lisp", w, "archive") / 1e6
        print("  %-14s %8.2f %s" % (w, ms, ranged(m, "lisp", w, "archive", "before", None)))


def tables(m):
    print("Instructions, as ratios; '!' is above the bar.")
    collecting(m.count_ratio, 0, ratios_in(m.counts))
    words = m.counts["collecting", "empty", "check"] / 2097153
    print("check of an empty heap: %.2f instructions a word read, bar 1.40%s\n" % (words, "!" if words > 1.4 else ""))
    if m.timed("collecting"):
        rounds = len(next(iter(m.runs[0].values())))
        print("Time, as ratios: the median of %d link orders, %d rounds each." % (len(m.runs), rounds))
        collecting(m.time_ratio, 1, ratios_in(m.runs[0]))
        print("Between the lowest and the highest order:")
        for name, of, to, *_ in ratios_in(m.runs[0]):
            each = [m.time_ratios("collecting", w, of, to) for w in WORKLOADS]
            print("%-27s%s" % (name, " ".join("%.2f-%.2f" % (r[0], r[-1]) for r in each)))
        print("Microseconds of one call:")
        for c in dict.fromkeys(c for s, _, c in m.runs[0] if s == "collecting"):
            each = [(3 if w == "small" else 0, m.time("collecting", w, c) / 1e3) for w in WORKLOADS]
            print("%-27s%s" % (c, "".join("%8.*f " % pair for pair in each)))
        print()
    calling(m)
    allocating(m)
    growth(m)
    texts(m)
    if m.timed("trees"):
        peers(m)
    if m.timed("lisp"):
        lisp(m)


# ---- the picture ----

INSTRUCTIONS, TIME, INK, GRID = "#2b6cb0", "#dd8a2e", "#222222", "#d0d0d0"


def text(x, y, words, size=11, anchor="middle", fill=INK):
    where = 'x="%.1f" y="%.1f" font-size="%d" text-anchor="%s" fill="%s"' % (x, y, size, anchor, fill)
    return "<text %s>%s</text>" % (where, words)


def column(x, top, base, width, colour):
    return '<rect x="%.1f" y="%.1f" width="%.1f" height="%.1f" fill="%s"/>' % (x, top, width, base - top, colour)


def line(x1, y1, x2, y2, colour, more=""):
    return '<line x1="%.1f" y1="%.1f" x2="%.1f" y2="%.1f" stroke="%s" %s/>' % (x1, y1, x2, y2, colour, more)


def panel(top, title, names, counted, timed, bars, highest=1.75):
    """One group of two columns for each name, and the bars as dashed lines."""
    left, width, height = 60, 880, 130
    base = top + 30 + height
    up = lambda v: base - min(v, highest) / highest * height
    said = [text(left, top + 14, title, 14, "start")]
    for tick in 0, 0.5, 1, 1.5:
        said.append(line(left, up(tick), left + width, up(tick), GRID))
        said.append(text(left - 8, up(tick) + 4, "%g" % tick, 11, "end"))
    step = width / len(names)
    wide = min(26, step * 0.44)
    for i, name in enumerate(names):
        middle = left + step * (i + 0.5)
        for value, colour, x in (counted[i], INSTRUCTIONS, middle - wide), (timed[i], TIME, middle):
            said.append(column(x, up(value), base, wide - 1, colour))
            inside = value > 0.3
            ink = "white" if inside else INK
            small = 9 if len(names) < 18 else 7
            said.append(text(x + wide / 2, base - (6 if inside else 3), "%.2f" % value, small, "middle", ink))
        size, row = (11, 0) if len(names) < 18 else (9, i % 2)  # many names stand in two rows
        said.append(text(middle, base + 15 + 11 * row, name, size))
    for bar, colour in zip(bars, (INSTRUCTIONS, TIME)):
        dashed = 'stroke-dasharray="5 4" stroke-width="1.5"'
        said.append(line(left, up(bar), left + width, up(bar), colour, dashed))
    said.append(line(left, up(1), left + width, up(1), INK))
    return said


def growth_panel(top, m):
    left, width, height = 60, 880, 150
    base = top + 30 + height
    _, by_live = growing(m)
    highest = max(m.counts["growth", "1048576/%d" % n, "full"] for n in by_live)
    title = "Millions of instructions of one collection, by live words; S = 1,048,576"
    across = lambda n: left + (width - 70) * n / 1048576
    said = [text(left, top + 14, title, 14, "start")]
    for tick in 0, 10, 20, 30, 40:
        y = base - tick * 1e6 / highest * height
        said += [line(left, y, left + width, y, GRID), text(left - 8, y + 4, tick, 11, "end")]
    for c, name, colour, shift in (
        ("bare", "(a)", "#888888", 11),
        ("engine", "engine", "#2f855a", -2),
        ("full", "(b)", TIME, -2),
        ("collect", "collect", INSTRUCTIONS, 11),
    ):
        share = [m.counts["growth", "1048576/%d" % n, c] / highest for n in by_live]
        points = [(across(n), base - y * height) for n, y in zip(by_live, share)]
        joined = " ".join("%.1f,%.1f" % p for p in points)
        said.append('<polyline fill="none" stroke="%s" stroke-width="2" points="%s"/>' % (colour, joined))
        said.append(text(points[-1][0] + 8, points[-1][1] + shift, name, 11, "start", colour))
    said += [text(across(n), base + 15, "{:,}".format(n)) for n in by_live]
    return said


def picture(m):
    said, top = [], 50
    for title, of, to, bars in (
        ("collect / (b): C with all duties of collect", "collect", "full", (1.15, 1.15)),
        ("engine / (a): bare Cheney in C", "engine", "bare", (1.10, 1.10)),
        ("check / C's check", "check", "full-check", (1.15, 1.15)),
    ):
        counted = [m.count_ratio("collecting", w, of, to) for w in WORKLOADS]
        timed = [m.time_ratio("collecting", w, of, to) for w in WORKLOADS]
        said += panel(top, title, WORKLOADS, counted, timed, bars)
        top += 205
    calls = [w for w in workloads_of(m.counts, "calling") if w != "version"]
    counted = [m.own_count("calling", w, "archive") / m.own_count("calling", w, "twin") for w in calls]
    timed = [m.time_ratio("calling", w, "archive", "twin") for w in calls]
    names = [w.replace("_", " ") for w in calls]
    said += panel(top, "each exported call / its twin in C", names, counted, timed, TWIN)
    top += 205
    fields = workloads_of(m.counts, "allocating")
    counted = [m.count_ratio("allocating", n, "archive", "twin") for n in fields]
    timed = [m.time_ratio("allocating", n, "archive", "twin") for n in fields]
    said += panel(top, "allocate / its twin in C, by fields", fields, counted, timed, TWIN)
    top += 205
    said += growth_panel(top, m)
    head = [text(60, 28, "The archive beside C: ratios, less is better; dashed lines are the bars", 16, "start")]
    for x, colour, name in (700, INSTRUCTIONS, "instructions"), (810, TIME, "time"):
        head += [column(x, 18, 30, 12, colour), text(x + 18, 28, name, 12, "start")]
    size = 'width="960" height="%d" viewBox="0 0 960 %d"' % (top + 215, top + 215)
    lines = ['<svg xmlns="http://www.w3.org/2000/svg" %s font-family="sans-serif">' % size]
    lines += ['<rect width="100%" height="100%" fill="white"/>', *head, *said, "</svg>", ""]
    return "\n".join(lines)


# ---- counts ----


def join(said, log):
    with open(log) as lines:
        counted = {tag: int(count) for _, tag, count in (line.split() for line in lines if line.startswith("count "))}
    with open(said) as lines:
        for line in lines:
            if line.startswith("tag "):
                _, tag, subject, workload, contender, calls = line.split()
                each = (counted[tag] - counted["0"]) / int(calls)
                print(subject, workload, contender, "%.0f" % each if each == int(each) else "%.3f" % each)


def compare(stored, counts):
    before, now = read_counts(stored), read_counts(counts)
    differ = [k for k in {**before, **now} if before.get(k) != now.get(k)]
    for key in differ:
        was, is_ = before.get(key), now.get(key)
        change = " (%+.2f %%)" % (100 * (is_ / was - 1)) if was and is_ else ""
        print("differs: %s: stored %s, now %s%s" % (" ".join(key), was, is_, change))
    print("bench: %d counts, %d differ from bench/counts.txt" % (len(now), len(differ)))
    return 1 if differ else 0


def main(words):
    if words[0] == "--join":
        return join(*words[1:])
    if words[0] == "--compare":
        return compare(*words[1:])
    target = None
    if "--picture" in words:
        at = words.index("--picture")
        target = words[at + 1]
        words = words[:at]
    m = Measured(read_counts(words[0]), [read_times(path) for path in words[1:]])
    tables(m)
    if target:
        with open(target, "w") as out:
            out.write(picture(m))
    return 0


sys.exit(main(sys.argv[1:]))
