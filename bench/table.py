"""Prints the ratios that bench/run measured as a table; with a folder as third word, stores the table there in BENCH.md, at its place for this kind of machine, and a plot beside it.

    table.py TIMES INSTRUCTIONS [DOCS]
"""
import math
import sys

from page import MACHINE, store

SAID = f"On {MACHINE}: " + (
    "libfeohanna.a itself." if MACHINE == "x86-64" else "no archive of `rt lib`, which is for x86-64, but the LLVM module that it is compiled from, compiled for this machine, for measuring alone."
)

GROUPS = {
    "receive": "Receiving 64 P-DATA-TF PDUs of PDU-length 16,384",
    "go over": "All PDVs of a P-DATA-TF",
    "read": "Judging and reading an A-ASSOCIATE-RQ",
    "write": "Writing it",
    "roles": "Judging and reading one that selects roles",
    "choose": "Choosing the answers to 128 contexts x 3",
    "find": "Finding the called title among 8, against reading an RQ of 1 context x 1 too",
}
COLOURS = {"memcpy": "#4c78a8", "plain": "#9ecae9", "receiving": "#b279a2", "reading": "#f2cf5b", "second": "#72b7b2", "dcmtk": "#e45756"}
NAMES = {"memcpy": "memcpy", "plain": f"a plain {MACHINE} copy", "receiving": "its receiving", "reading": "its reading", "second": "the second program", "dcmtk": "DCMTK"}


def rows(times, instructions):
    counts = {}
    for line in open(instructions):
        what, who, n = line.rstrip("\n").split("\t")
        counts[what, who] = int(n)
    for line in open(times):
        group, what, who, ours, theirs, ratio = line.rstrip("\n").split("\t")
        key = f"{group} {what}"
        both = counts.get((key, "feohanna")), counts.get((key, who))
        yield group, what, who, float(ratio), both[0] / both[1] if both[0] and both[1] else None


def table(measured):
    lines = [SAID, "", "| Call | Input | Against | Time, ratio | Instructions, ratio |", "|---|---|---|---|---|"]
    for group, what, who, ratio, counted in measured:
        lines.append(f"| {group} | {what} | {NAMES[who]} | {ratio:.2f} | {f'{counted:.2f}' if counted else ''} |")
    return "\n".join(lines) + "\n"


def plot(measured):
    """A bar for each ratio, on a logarithmic scale: to the left of 1 feohanna is the faster one."""
    low = min(min(r for *_, r, _ in measured), 0.1)
    high = max(max(r for *_, r, _ in measured), 10)
    left, width, step = 190, 520, 17

    def x(ratio):
        return left + width * (math.log10(ratio) - math.log10(low)) / (math.log10(high) - math.log10(low))

    body, y, last = [], 34, None
    for group, what, who, ratio, _ in measured:
        if group != last:
            y += 14
            body.append(f'<text x="10" y="{y + 4}" font-weight="bold">{GROUPS[group]}</text>')
            y += 12
            last = group
        a, b = sorted((x(1), x(ratio)))
        body.append(f'<text x="{left - 8}" y="{y + 11}" text-anchor="end">{what}</text>')
        body.append(f'<rect x="{a:.1f}" y="{y}" width="{max(b - a, 1):.1f}" height="{step - 4}" fill="{COLOURS[who]}"/>')
        body.append(f'<text x="{b + 5:.1f}" y="{y + 11}">{ratio:.2f}</text>')
        y += step
    ticks = [10.0**k for k in range(math.ceil(math.log10(low)), math.floor(math.log10(high)) + 1)]
    grid = "".join(f'<line x1="{x(t):.1f}" x2="{x(t):.1f}" y1="30" y2="{y}" stroke="{"#333" if t == 1 else "#ddd"}"/>' for t in ticks)
    grid += "".join(f'<text x="{x(t):.1f}" y="{y + 14}" text-anchor="middle">{t:g}</text>' for t in ticks)
    legend, at = "", 10
    for who, colour in COLOURS.items():
        legend += f'<rect x="{at}" y="8" width="11" height="11" fill="{colour}"/><text x="{at + 16}" y="18">against {NAMES[who]}</text>'
        at += 84 + 6 * len(NAMES[who])
    return (
        f'<svg xmlns="http://www.w3.org/2000/svg" viewBox="0 0 790 {y + 44}" font-family="sans-serif" font-size="12">'
        f'<rect width="100%" height="100%" fill="white"/>{legend}{grid}{"".join(body)}'
        f'<text x="{left + width / 2}" y="{y + 34}" text-anchor="middle">time of feohanna / time of the other (below 1: feohanna is faster)</text></svg>\n'
    )


def main():
    measured = list(rows(sys.argv[1], sys.argv[2]))
    print(table(measured), end="")
    if len(sys.argv) > 3:
        store(sys.argv[3], "measured", table(measured), "bench", plot(measured))


main()
