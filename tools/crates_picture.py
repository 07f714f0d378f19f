#!/usr/bin/env python3
"""Draws the crates and what each stands on, from crates.txt, as docs/crates.svg.

    tools/crates_picture.py            writes docs/crates.svg
    tools/crates_picture.py --check    compares docs/crates.svg, and the table of docs/CRATES.md, with crates.txt

An arrow that follows from others is left out. Crates on which nothing stands are in the top layer, the others as low as they can be."""

import math
import re
import sys
from pathlib import Path

ROOT = Path(__file__).resolve().parent.parent
PICTURE, TABLE = ROOT / "docs" / "crates.svg", ROOT / "docs" / "CRATES.md"

BOX, TALL, GAP, LINE_GAP, LAYER, MARGIN, LEGEND = 104, 34, 22, 26, 96, 24, 84  # pixels
SWEEPS, STRAIGHT = 40, 8
KINDS = {  # fill and outline
    "library": ("#dfe9f5", "#5b7ea6"),
    "no code: definitions and proofs": ("#e6efdc", "#7b9459"),
    "program": ("#f7e8d3", "#b08a4e"),
}
MARKER = (
    '<marker id="end{}" viewBox="0 0 8 8" refX="7" refY="4" markerWidth="7" markerHeight="7" orient="auto"><path d="M0,1 L8,4 L0,7 z" fill="{}"/></marker>'
)


def read_crates():
    """What each crate stands on, and what of the kit is named there."""
    stands = {}
    for line in (ROOT / "crates.txt").read_text(encoding="utf-8").splitlines():
        if line.strip() and not line.startswith("#"):
            name, _, on = line.partition(":")
            stands[name.split()[0]] = on.split()
    kit = sorted({on for all_on in stands.values() for on in all_on} - set(stands))
    return {name: [on for on in all_on if on in stands] for name, all_on in stands.items()}, kit


def kind(crate):
    """Its place among KINDS."""
    source = ROOT / "crates" / crate / "src"
    if (source / "main.rt").exists():
        return "program"
    has_code = any(re.search(r"^\s*(pub )?(extern \"C\" )?fn ", f.read_text(encoding="utf-8"), re.M) for f in source.glob("*.rt"))
    return "library" if has_code else "no code: definitions and proofs"


def reduced(stands):
    """The arrows that do not follow from others."""

    def below(crate):
        return {d for on in stands[crate] for d in {on} | below(on)}

    return {c: [on for on in all_on if not any(on in below(other) for other in all_on)] for c, all_on in stands.items()}


def layers_of(stands):
    """The longest way down from each crate; the top layer for those on which nothing stands."""

    def height(crate):
        return max((height(on) + 1 for on in stands[crate]), default=0)

    used = {on for all_on in stands.values() for on in all_on}
    top = max(map(height, stands))
    return {c: height(c) if c in used else top for c in stands}


class Drawing:
    """Nodes in layers: a crate, or a point (crate, on, layer) where a long arrow passes a layer. Arrows lead one layer down each."""

    def __init__(self, arrows, layer):
        self.layers = [[] for _ in range(max(layer.values()) + 1)]
        self.down, self.up, self.ways = {}, {}, []
        for crate in arrows:
            self.layers[layer[crate]].append(crate)
        for crate, all_on in arrows.items():
            for on in all_on:
                way = [crate] + [(crate, on, at) for at in range(layer[crate] - 1, layer[on], -1)] + [on]
                self.ways.append(way)
                for point in way[1:-1]:
                    self.layers[point[2]].append(point)
                for upper, lower in zip(way, way[1:]):
                    self.down.setdefault(upper, []).append(lower)
                    self.up.setdefault(lower, []).append(upper)
        self.order()
        self.place()

    def crossings_between(self, lower, upper):
        at = {node: i for i, node in enumerate(lower)}
        ends = [(i, at[d]) for i, node in enumerate(upper) for d in self.down.get(node, [])]
        return sum((a - c) * (b - d) < 0 for k, (a, b) in enumerate(ends) for c, d in ends[k + 1:])

    def crossings(self):
        return sum(map(self.crossings_between, self.layers, self.layers[1:]))

    def order(self):
        """Few crossings: each layer by the mean place of its neighbours, up and down; then neighbours are exchanged while that helps. The best that was seen stays."""
        best = (self.crossings(), [list(row) for row in self.layers])
        for sweep in range(SWEEPS):
            rows = range(1, len(self.layers)) if sweep % 2 == 0 else range(len(self.layers) - 2, -1, -1)
            for i in rows:
                beside, ends = (self.layers[i - 1], self.down) if sweep % 2 == 0 else (self.layers[i + 1], self.up)
                at = {node: k for k, node in enumerate(beside)}
                own = {node: k for k, node in enumerate(self.layers[i])}

                def mean(node):
                    places = [at[n] for n in ends.get(node, [])]
                    return sum(places) / len(places) if places else own[node]

                # ties one way and the other in turn
                self.layers[i].sort(key=lambda node: (mean(node), own[node] if sweep % 4 < 2 else -own[node]))
            self.exchange()
            if self.crossings() < best[0]:
                best = (self.crossings(), [list(row) for row in self.layers])
        self.layers = best[1]

    def exchange(self):
        better = True
        while better:
            better = False
            for i, row in enumerate(self.layers):
                for k in range(len(row) - 1):
                    near = self.layers[max(i - 1, 0):i + 2]
                    before = sum(map(self.crossings_between, near, near[1:]))
                    row[k], row[k + 1] = row[k + 1], row[k]
                    if sum(map(self.crossings_between, near, near[1:])) < before:
                        better = True
                    else:
                        row[k], row[k + 1] = row[k + 1], row[k]

    def place(self):
        """Each node near the mean of its neighbours, in its layer's order and apart."""

        def width(node):
            return BOX + GAP if isinstance(node, str) else LINE_GAP

        self.x = {}
        for row in self.layers:
            at = 0
            for node in row:
                self.x[node] = at + width(node) / 2
                at += width(node)
        for sweep in range(10 * SWEEPS):
            rows = self.layers if sweep % 2 == 0 else self.layers[::-1]
            for row in rows:
                wished, weight = [], []
                for node in row:
                    # long arrows are kept straight: a pull is the stronger, the more of its two ends are points of a long arrow
                    pulls = [(n, STRAIGHT ** (isinstance(node, tuple) + isinstance(n, tuple))) for n in self.up.get(node, []) + self.down.get(node, [])]
                    weight.append(sum(pull for _, pull in pulls) or 1)
                    wished.append(sum(self.x[n] * pull for n, pull in pulls) / weight[-1] if pulls else self.x[node])
                self.apart(row, wished, weight, width)
        left = min(self.x[n] - width(n) / 2 for n in self.x)
        self.x = {n: math.floor(x - left + 0.500001) + MARGIN for n, x in self.x.items()}  # a half is rounded up, whatever the last bit

    def apart(self, row, wished, weight, width):
        """The places nearest to those wished at which no two of the row overlap (least squares, by pooling)."""
        start, at = [0], 0
        for a, b in zip(row, row[1:]):
            at += (width(a) + width(b)) / 2
            start.append(at)
        pools = []  # [sum of weight * place, weight, nodes]
        for w, k, s in zip(wished, weight, start):
            pools.append([(w - s) * k, k, 1])
            while len(pools) > 1 and pools[-2][0] / pools[-2][1] > pools[-1][0] / pools[-1][1]:
                last = pools.pop()
                pools[-1] = [a + b for a, b in zip(pools[-1], last)]
        offsets = [total / k for total, k, n in pools for _ in range(n)]
        for node, s, offset in zip(row, start, offsets):
            self.x[node] = s + offset


def svg(stands, kit):
    drawing = Drawing(reduced(stands), layers_of(stands))
    x, top = drawing.x, len(drawing.layers) - 1
    width = max(x[c] for c in stands) + BOX // 2 + MARGIN
    height = MARGIN + top * LAYER + TALL + LEGEND
    level = {node: MARGIN + (top - i) * LAYER for i, row in enumerate(drawing.layers) for node in row}

    def ports(node, ends):
        """Where arrows meet a box: side by side in the order of their other ends."""
        ends = sorted(ends, key=lambda n: x[n])
        step = min(16, (BOX - 24) / max(len(ends) - 1, 1))
        return {n: x[node] + (i - (len(ends) - 1) / 2) * step for i, n in enumerate(ends)}

    leaves = {c: ports(c, drawing.down.get(c, [])) for c in stands}
    enters = {c: ports(c, drawing.up.get(c, [])) for c in stands}
    out = [
        f'<svg xmlns="http://www.w3.org/2000/svg" width="{width}" height="{height}" viewBox="0 0 {width} {height}"'
        ' font-family="DejaVu Sans, Verdana, Arial, sans-serif" font-size="13">',
        "<title>The crates and what each stands on</title>",
        "<!-- made by tools/crates_picture.py from crates.txt -->",
        "<defs>" + "".join(MARKER.format(i, line) for i, (_, line) in enumerate(KINDS.values())) + "</defs>",
        f'<rect width="{width}" height="{height}" fill="#fff"/>',
        '<g fill="none" stroke-width="1.3">',
    ]
    for way in drawing.ways:
        points = [(leaves[way[0]][way[1]], level[way[0]] + TALL)]
        for point in way[1:-1]:
            points += [(x[point], level[point]), (x[point], level[point] + TALL)]
        points.append((enters[way[-1]][way[-2]], level[way[-1]] - 1))
        path = f"M{points[0][0]:g},{points[0][1]:g}"
        for i, ((a, b), (c, d)) in enumerate(zip(points, points[1:])):
            path += f" L{c:g},{d:g}" if i % 2 else f" C{a:g},{(b + d) / 2:g} {c:g},{(b + d) / 2:g} {c:g},{d:g}"
        end = list(KINDS).index(kind(way[0]))  # an arrow has the colour of the crate it leaves
        out.append(f'<path d="{path}" stroke="{KINDS[kind(way[0])][1]}" marker-end="url(#end{end})"><title>{way[0]} stands on {way[-1]}</title></path>')
    out.append("</g>")
    out.append('<g text-anchor="middle" fill="#223">')
    for crate in stands:
        fill, line = KINDS[kind(crate)]
        out.append(f'<rect x="{x[crate] - BOX // 2}" y="{level[crate]}" width="{BOX}" height="{TALL}" rx="5" fill="{fill}" stroke="{line}"/>')
        out.append(f'<text x="{x[crate]}" y="{level[crate] + 22}">{crate}</text>')
    out.append("</g>")
    base = height - 40
    out.append('<g font-size="12" fill="#445">')
    at = MARGIN
    for name, (fill, line) in KINDS.items():
        out.append(f'<rect x="{at}" y="{base - 11}" width="20" height="14" rx="3" fill="{fill}" stroke="{line}"/><text x="{at + 27}" y="{base}">{name}</text>')
        at += 27 + 13 * len(name) // 2 + 26
    out.append(f'<path d="M{at},{base - 4} h30" stroke="#5b7ea6" stroke-width="1.3" marker-end="url(#end0)"/><text x="{at + 38}" y="{base}">stands on</text>')
    named = f", and libraries of the kit ({', '.join(kit)})" if kit else ""
    out.append(f'<text x="{MARGIN}" y="{base + 22}">Not shown: arrows that follow from others{named}.</text>')
    out += ["</g>", "</svg>", ""]
    return "\n".join(out)


def table_wrong(stands):
    """What the table of docs/CRATES.md has wrong."""
    rows = {}
    for line in TABLE.read_text(encoding="utf-8").splitlines():
        row = re.fullmatch(r"\| `(\w+)` \|.*\|([^|]*)\|", line)
        if row:
            if row.group(1) in rows:
                yield f"{row.group(1)} has two rows"
            rows[row.group(1)] = [on.strip() for on in row.group(2).split(",") if on.strip()]
    for crate in sorted(rows.keys() | stands.keys()):
        if crate not in rows:
            yield f"{crate} has no row"
        elif crate not in stands:
            yield f"{crate} is not in crates.txt"
        elif sorted(rows[crate]) != sorted(stands[crate]):
            yield f"{crate} stands on {', '.join(stands[crate]) or 'nothing'}"


def main():
    stands, kit = read_crates()
    picture = svg(stands, kit)
    if sys.argv[1:] == ["--check"]:
        wrong = [f"docs/CRATES.md: {words}" for words in table_wrong(stands)]
        if not PICTURE.exists() or PICTURE.read_text(encoding="utf-8") != picture:
            wrong.append("docs/crates.svg: not what crates.txt gives; run tools/crates_picture.py")
        for words in wrong:
            print(words)
        if wrong:
            sys.exit(1)
        print(f"crates: {len(stands)}, picture and table as crates.txt says")
    elif sys.argv[1:]:
        sys.exit("usage: tools/crates_picture.py [--check]")
    else:
        PICTURE.write_text(picture, encoding="utf-8")


main()
