"""Draws docs/architecture.svg, the crates by layer and what each is built on, from crates.txt.

    draw.py           holds the picture to crates.txt
    draw.py --write   draws it anew

A crate stands one layer above the highest that it is built on. An arrow leads down to each crate that it is built on, but for those that others of its
arrows lead to already, and for the kit's own libraries. Which crates have code, and which are programs, their sources say.
"""
import glob
import html
import os
import re
import sys

PICTURE = "docs/architecture.svg"
# in pixels: a box's height, from layer to layer, between boxes, beside a passing arrow, around the picture, a letter's width
BOX, LAYER, GAP, LANE, MARGIN, LETTER = 30, 88, 30, 20, 24, 8.5
KIT = {"std"}
KINDS = {
    "code": ("#dbe9f6", "#2f5f8f", "", 4, "code, with its contracts"),
    "no code": ("#fff8e1", "#a07800", ' stroke-dasharray="5 3"', 4, "no code: definitions and theorems"),
    "program": ("#dff0d8", "#3c763d", "", 15, "a program"),
}


def fail(text):
    sys.exit(f"crates.txt: {text}")


def read_crates():
    """name -> (what it is for, what it is built on), lowest first; the comment above a line is what the crate is for"""
    crates, comment = {}, []
    with open("crates.txt", encoding="utf-8") as f:
        for number, line in enumerate(f, 1):
            line = line.strip()
            if line.startswith("#"):
                comment.append(line.lstrip("# "))
                continue
            if line:
                name, colon, below = (part.strip() for part in line.partition(":"))
                name = name.removesuffix(" staticlib")
                if not colon or not re.fullmatch(r"\w+", name):
                    fail(f"line {number}: not a line NAME: what it is built on")
                if name in crates:
                    fail(f"line {number}: {name} is listed twice")
                if not os.path.isdir(f"crates/{name}/src"):
                    fail(f"line {number}: there is no crates/{name}/src")
                if not comment:
                    fail(f"line {number}: no comment above {name} says what it is for")
                for other in below.split():
                    if other not in crates and other not in KIT:
                        fail(f"line {number}: {name} is built on {other}, which does not stand above it")
                crates[name] = " ".join(comment), [other for other in below.split() if other in crates]
            comment = []
    if not crates:
        fail("no crate")
    return crates


def kind_of(name, what):
    if os.path.isfile(f"crates/{name}/src/main.rt"):
        return "program"
    code = False
    for source in glob.glob(f"crates/{name}/src/**/*.rt", recursive=True):
        with open(source, encoding="utf-8") as f:
            code = code or re.search(r"^\s*(?:pub[^\n]* )?(?:fn|const|struct|enum) ", f.read(), re.M) is not None
    if code == what.startswith("no code:"):
        fail(f"{name} is said to have {'no code' if code else 'code'}, and its src/ has {'some' if code else 'none'}")
    return "code" if code else "no code"


def reduced(crates):
    """name -> what it is built on, without what is built on in turn by another of them"""
    under = {}
    for name, (_, below) in crates.items():
        under[name] = set(below).union(*(under[other] for other in below))
    return {name: [b for b in below if not any(b in under[other] for other in below)] for name, (_, below) in crates.items()}


class Node:
    """a crate, or a place where an arrow passes a layer"""

    def __init__(self, name, layer, width):
        self.name, self.layer, self.width = name, layer, width
        self.up, self.down, self.x, self.at = [], [], 0.0, 0


def layers_of(crates, arrows):
    """the nodes by layer, lowest first, joined with those of the layers beside them; and the chain of nodes of each arrow, from above"""
    node, layers, chains = {}, [], []
    for name in crates:
        layer = 1 + max((node[b].layer for b in crates[name][1]), default=-1)
        node[name] = Node(name, layer, int(LETTER * len(name)) + 26)
        while len(layers) <= layer:
            layers.append([])
        layers[layer].append(node[name])
    for name, below in arrows.items():
        for b in below:
            chain = [node[name]]
            for layer in range(node[name].layer - 1, node[b].layer, -1):
                chain.append(Node("", layer, 0))
                layers[layer].append(chain[-1])
            chain.append(node[b])
            for upper, lower in zip(chain, chain[1:]):
                upper.down.append(lower)
                lower.up.append(upper)
            chains.append(chain)
    return layers, chains


def number(layer):
    for at, node in enumerate(layer):
        node.at = at


def crossings(layers):
    count = 0
    for layer in layers:
        pairs = [(node.at, other.at) for node in layer for other in node.up]
        count += sum((a - c) * (b - d) < 0 for i, (a, b) in enumerate(pairs) for c, d in pairs[:i])
    return count


def bends(layers):
    """how far arrows lead aside, in places: decides between orders with as few crossings"""
    return sum(abs((node.at + 0.5) / len(layer) - (other.at + 0.5) / len(layers[k + 1])) for k, layer in enumerate(layers) for node in layer for other in node.up)


def order(layers):
    """puts each layer into an order with few crossings: by the middle of its neighbours, up and down in turn, then by exchanges of two"""
    best, kept = None, None
    for start in range(8):
        for layer in layers:
            layer.sort(key=lambda node: (node.name == "", node.name))
            turn = start * len(layer) // 8
            layer[:] = (layer[turn:] + layer[:turn])[:: 1 if start % 2 else -1]
            number(layer)
        for sweep in range(24):
            for layer in layers if sweep % 2 == 0 else reversed(layers):
                beside = {node: node.down if sweep % 2 == 0 else node.up for node in layer}
                layer.sort(key=lambda node: sum(o.at for o in beside[node]) / len(beside[node]) if beside[node] else node.at)
                number(layer)
            moved = True
            while moved:
                moved = False
                for layer in layers:
                    for i in range(len(layer) - 1):
                        a, b = layer[i], layer[i + 1]
                        now = sum((x.at > y.at) for side in ("up", "down") for x in getattr(a, side) for y in getattr(b, side))
                        then = sum((x.at < y.at) for side in ("up", "down") for x in getattr(a, side) for y in getattr(b, side))
                        if then < now:
                            layer[i], layer[i + 1] = b, a
                            number(layer)
                            moved = True
            found = crossings(layers), bends(layers)
            if best is None or found < best:
                best, kept = found, [list(layer) for layer in layers]
    for layer, order_kept in zip(layers, kept):
        layer[:] = order_kept
        number(layer)


def apart(left, right):
    return (left.width + right.width) / 2 + (GAP if left.name and right.name else LANE)


def place(layers, least):
    """gives every node an x, and the picture's width, at least so much: each as near to the middle of its neighbours as the others of its layer let it, arrows over several layers straight first"""
    for layer in layers:
        for a, b in zip(layer, layer[1:]):
            b.x = a.x + apart(a, b)
    for sweep in range(60):
        for layer in layers if sweep % 2 == 0 else list(reversed(layers)):
            # least squares under 'not nearer than apart': blocks that touch move together
            offset, blocks = 0.0, []
            for k, node in enumerate(layer):
                offset += apart(layer[k - 1], node) if k else 0
                pulls = [(other.x, 8 if not node.name and not other.name else 2 if not node.name or not other.name else 1) for other in node.up + node.down] or [(node.x, 1)]
                weight = sum(w for _, w in pulls)
                blocks.append([sum(x * w for x, w in pulls) - offset * weight, weight, [(node, offset)]])
                while len(blocks) > 1 and blocks[-2][0] / blocks[-2][1] >= blocks[-1][0] / blocks[-1][1]:
                    s, w, nodes = blocks.pop()
                    blocks[-1][0] += s
                    blocks[-1][1] += w
                    blocks[-1][2] += nodes
            for s, w, nodes in blocks:
                for node, beside in nodes:
                    node.x = round(s / w + beside)
    nodes = [node for layer in layers for node in layer]
    left, right = min(node.x - node.width / 2 for node in nodes), max(node.x + node.width / 2 for node in nodes)
    width = max(least, round(right - left) + 2 * MARGIN)
    for node in nodes:
        node.x = round(node.x + (width - left - right) / 2)
    return width


def ports(node, others):
    """where on a node's edge the arrows to others end: side by side in their order"""
    if not node.name:
        return {other: node.x for other in others}
    room = min(node.width - 24, 16 * (len(others) - 1))
    ranked = sorted(others, key=lambda other: other.x)
    return {other: round(node.x + (room * (k / (len(ranked) - 1) - 0.5) if len(ranked) > 1 else 0)) for k, other in enumerate(ranked)}


def arrow(path):
    return f'<path d="{path}" fill="none" stroke="#555" stroke-width="1.2" marker-end="url(#to)"/>'


def box(kind, x, y, width, height):
    fill, stroke, dash, radius, _ = KINDS[kind]
    return f'<rect x="{x}" y="{y}" width="{width}" height="{height}" rx="{min(radius, height // 2)}" fill="{fill}" stroke="{stroke}"{dash}/>'


def draw(crates):
    arrows = reduced(crates)
    kinds = {name: kind_of(name, what) for name, (what, _) in crates.items()}
    layers, chains = layers_of(crates, arrows)
    order(layers)
    legend, x = [], MARGIN
    for kind, (*_, text) in KINDS.items():
        legend.append(f'{box(kind, x, MARGIN - 8, 26, 16)}<text x="{x + 34}" y="{MARGIN + 4}">{text}</text>')
        x += 58 + round(len(text) * LETTER * 12 / 14)
    legend.append(f'{arrow(f"M{x} {MARGIN}H{x + 24}")}<text x="{x + 36}" y="{MARGIN + 4}">is built on</text>')
    width = place(layers, x + 120 + MARGIN)
    top = MARGIN + 40
    height = top + LAYER * (len(layers) - 1) + BOX + MARGIN

    def y(layer):  # of the upper edge of its boxes
        return top + LAYER * (len(layers) - 1 - layer)

    lines, boxes = [], []
    for chain in chains:
        path = []
        for upper, lower in zip(chain, chain[1:]):
            x, end = ports(upper, upper.down)[lower], ports(lower, lower.up)[upper]
            y0, y1 = y(upper.layer) + BOX, y(lower.layer) - (5 if lower.name else 0)
            bend = (y1 - y0) * 45 // 100
            path.append(f"{'L' if path else 'M'}{x} {y0}C{x} {y0 + bend} {end} {y1 - bend} {end} {y1}")
        lines.append(arrow("".join(path)))
    for layer in layers:
        for node in layer:
            if node.name:
                what = html.escape(crates[node.name][0], quote=False)
                boxes.append(
                    f"<g><title>{node.name}: {what}</title>{box(kinds[node.name], round(node.x - node.width / 2), y(node.layer), node.width, BOX)}"
                    f'<text x="{node.x}" y="{y(node.layer) + 20}" text-anchor="middle">{node.name}</text></g>'
                )
    return (
        f'<svg xmlns="http://www.w3.org/2000/svg" viewBox="0 0 {width} {height}" width="{width}" height="{height}" font-family="DejaVu Sans Mono, Menlo, Consolas, monospace" font-size="14">\n'
        "<!-- drawn from crates.txt by tests/architecture/draw.py -->\n"
        '<defs><marker id="to" viewBox="0 0 8 8" refX="3" refY="4" markerWidth="8" markerHeight="8" markerUnits="userSpaceOnUse" orient="auto"><path d="M0 0L8 4L0 8z" fill="#555" stroke="none"/></marker></defs>\n'
        '<rect width="100%" height="100%" fill="white"/>\n'
        + "\n".join([*lines, *boxes, '<g font-size="12">', *legend, "</g>", "</svg>", ""])
    )


def main():
    words = sys.argv[1:]
    if words not in ([], ["--write"]):
        print(__doc__.strip())
        sys.exit(0 if words in (["-h"], ["--help"]) else 2)
    os.chdir(os.path.join(os.path.dirname(os.path.abspath(__file__)), "..", ".."))
    crates = read_crates()
    drawn = draw(crates)
    if words:
        with open(PICTURE, "w", encoding="utf-8") as f:
            f.write(drawn)
    else:
        try:
            with open(PICTURE, encoding="utf-8") as f:
                stands = f.read()
        except FileNotFoundError:
            stands = ""
        if stands != drawn:
            sys.exit(f"{PICTURE} is not what crates.txt gives: python3 tests/architecture/draw.py --write")
    print(f"{PICTURE} has the {len(crates)} crates of crates.txt, with {sum(len(b) for b in reduced(crates).values())} arrows")


main()
