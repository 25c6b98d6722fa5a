"""Prints what reading an A-ASSOCIATE-RQ takes for each of its contexts as their number grows; with a folder as fourth word, stores that there in BENCH.md, at its place for this kind of machine, and a plot beside it.

    contexts.py TIMES BEFORE INSTRUCTIONS [DOCS]

TIMES is what bench printed, BEFORE what it printed of a version before in the same run of bench/run, or nothing; INSTRUCTIONS may have nothing too.
"""
import math
import re
import sys

from page import picture, store

SIZES = 1, 8, 32, 128
SYNTAXES = {1: "one syntax", 3: "three syntaxes"}
LIMIT = 1.25
NAMES = {"before": "feohanna before", "now": "feohanna", "dcmtk": "DCMTK"}
STYLES = {"before": ("#f58518", "6 4"), "now": ("#333", ""), "dcmtk": ("#e45756", "2 3")}


def size(what):
    contexts, syntaxes = map(int, re.fullmatch(r"(\d+) contexts? x (\d+)", what).groups())
    return syntaxes, contexts


def reading(path):
    """The nanoseconds of feohanna and of DCMTK, by syntaxes and contexts."""
    ours, dcmtk = {}, {}
    for line in open(path):
        group, what, who, us, them, _ = line.rstrip("\n").split("\t")
        if group == "read":
            ours[size(what)] = float(us)
            if who == "dcmtk":
                dcmtk[size(what)] = float(them)
    return ours, dcmtk


def counted(path):
    """The instructions of feohanna, by the same."""
    lines = (line.rstrip("\n").split("\t") for line in open(path))
    return {size(what.removeprefix("read ")): int(n) for what, who, n in lines if what.startswith("read ") and who == "feohanna"}


def growth(times, syntaxes):
    """The time for each context at 128 over that at 8, and the same of the contexts that come on top of 32 and of 8, in which nothing fixed is left."""
    _, few, some, many = SIZES
    t = {n: times[syntaxes, n] for n in SIZES}
    return t[many] / many / (t[few] / few), (t[many] - t[some]) / (many - some) / ((t[some] - t[few]) / (some - few))


def table(measured):
    lines = [f"| Nanoseconds for each context | {' | '.join(map(str, SIZES))} | {SIZES[3]} to {SIZES[1]} | added ones |", "|---|" + "---|" * 6]
    for s in SYNTAXES:
        for who, times in measured.items():
            each = (f"{times[s, n] / n:.0f}" for n in SIZES)
            lines.append(f"| {NAMES[who]}, {SYNTAXES[s]} | {' | '.join(each)} | {' | '.join(f'{r:.2f}' for r in growth(times, s))} |")
    return "\n".join(lines) + "\n"


def said(times, instructions):
    def ratios(of):
        return {s: growth(of, s)[0] for s in SYNTAXES}

    took = " and ".join(f"{r:.2f} with {SYNTAXES[s]}" for s, r in ratios(times).items())
    ran = f" ({' and '.join(f'{r:.2f}' for r in ratios(instructions).values())} of instructions)" if instructions else ""
    passed = ", which is exceeded" if max(ratios(times).values()) > LIMIT else ""
    return f"At {SIZES[3]} contexts each takes, over what each takes at {SIZES[1]}: {took}{ran}; {LIMIT} is the limit{passed}.\n"


def nice(high):
    """A step that gives four to eight ticks."""
    step = 10.0 ** math.floor(math.log10(high / 4))
    return next(step * k for k in (1, 2, 5, 10) if high / (step * k) <= 8)


def panel(measured, syntaxes, left, top, width, height, high):
    """The lines of one number of syntaxes: contexts on a logarithmic scale, nanoseconds on a straight one from 0."""

    def x(contexts):
        return left + width * math.log2(contexts) / math.log2(SIZES[-1])

    def y(ns):
        return top + height * (1 - ns / high)

    step, body = nice(high), []
    for k in range(int(high / step) + 1):
        at = y(k * step)
        body.append(f'<line x1="{left}" x2="{left + width}" y1="{at:.1f}" y2="{at:.1f}" stroke="{"#ddd" if k else "#333"}"/>')
        body.append(f'<text x="{left - 6}" y="{at + 4:.1f}" text-anchor="end">{k * step:,.0f}</text>')
    for n in SIZES:
        body.append(f'<line x1="{x(n):.1f}" x2="{x(n):.1f}" y1="{top}" y2="{top + height + 4}" stroke="#ddd"/>')
        body.append(f'<text x="{x(n):.1f}" y="{top + height + 17}" text-anchor="middle">{n}</text>')
    ends = []
    for who, times in measured.items():
        colour, dashes = STYLES[who]
        points = [(x(n), y(times[syntaxes, n] / n)) for n in SIZES]
        body.append(f'<polyline points="{" ".join(f"{a:.1f},{b:.1f}" for a, b in points)}" fill="none" stroke="{colour}" stroke-width="2" stroke-dasharray="{dashes}"/>')
        body += [f'<circle cx="{a:.1f}" cy="{b:.1f}" r="3.5" fill="{colour}"/>' for a, b in points]
        ends.append((points[-1][1], colour, times[syntaxes, SIZES[-1]] / SIZES[-1]))
    low = -math.inf
    for at, colour, ns in sorted(ends):
        low = max(at + 4, low + 13)
        body.append(f'<text x="{left + width + 7}" y="{low:.1f}" fill="{colour}">{ns:.0f}</text>')
    body.append(f'<text x="{left + width / 2}" y="{top - 8}" text-anchor="middle" font-weight="bold">{SYNTAXES[syntaxes]} each</text>')
    body.append(f'<text x="{left + width / 2}" y="{top + height + 36}" text-anchor="middle">contexts of the RQ</text>')
    return "".join(body)


def plot(measured):
    top, width, height, gap = 58, 290, 300, 92
    panels, left = "", 64
    for s in SYNTAXES:
        high = 1.05 * max(times[s, n] / n for times in measured.values() for n in SIZES)
        panels += panel(measured, s, left, top, width, height, high)
        left += width + gap
    legend, at = "", 64
    for who in measured:
        colour, dashes = STYLES[who]
        legend += f'<line x1="{at}" x2="{at + 30}" y1="15" y2="15" stroke="{colour}" stroke-width="2" stroke-dasharray="{dashes}"/><text x="{at + 36}" y="19">{NAMES[who]}</text>'
        at += 60 + 7 * len(NAMES[who])
    middle = top + height / 2
    return (
        f'<svg xmlns="http://www.w3.org/2000/svg" viewBox="0 0 {left - gap + 50} {top + height + 50}" font-family="sans-serif" font-size="12">'
        f'<rect width="100%" height="100%" fill="white"/>{legend}'
        f'<text x="16" y="{middle}" text-anchor="middle" transform="rotate(-90 16 {middle})">nanoseconds for each context</text>{panels}</svg>\n'
    )


def main():
    now, dcmtk = reading(sys.argv[1])
    before, _ = reading(sys.argv[2])
    measured = {who: times for who, times in (("before", before), ("now", now), ("dcmtk", dcmtk)) if times}
    text = f"{table(measured)}\n{said(now, counted(sys.argv[3]))}"
    print("\n" + text, end="")
    if len(sys.argv) > 4:
        shown = f"![Nanoseconds for each context of an RQ that is read, by their number]({picture('bench-contexts')})\n"
        store(sys.argv[4], "contexts", f"{text}\n{shown}", "bench-contexts", plot(measured))


main()
