#!/usr/bin/env python3
"""layers: prints the picture of the crates, docs/layers.svg.

usage: .ci/layers.py >docs/layers.svg

Names and dependencies are those of crates.txt. The bands are the headings of docs/ARCHITECTURE.md under "The layers", with the
crates of their rows, the lowest first. It fails if a crate has no row, or depends on a crate of a later row. `.ci/documents`
compares the picture with the file.
"""
import os
import re
import sys

TOP = os.path.dirname(os.path.dirname(os.path.realpath(__file__)))
WIDTH, MARGIN, ROW, BOX, HEAD = 1000, 12, 38, 22, 24


def crates():
    """Returns the crates of crates.txt, each with the crates of this repository that it depends on."""
    found = {}
    with open(f"{TOP}/crates.txt", encoding="utf-8") as it:
        for line in it:
            if not line.startswith("#") and ":" in line:
                name, _, others = line.partition(":")
                found[name] = others.split()
    return {name: [it for it in others if it in found] for name, others in found.items()}


def bands(page):
    """Returns the bands of the page: each a heading, and the crates of its rows."""
    section = page.split("\n## The layers\n", 1)[1].split("\n## ")[0]
    parts = re.split(r"\n### (.*)\n", section)[1:]
    return [(head, re.findall(r"^\| `(\w+)` \|", rows, re.M)) for head, rows in zip(parts[::2], parts[1::2])]


def faults_of(found, groups):
    """Returns the faults of the rows of the page."""
    faults, seen = [], []
    for name in [name for _, names in groups for name in names]:
        faults += [f"{name} has two rows"] if name in seen else []
        faults += [f"{name} isn't in crates.txt"] if name not in found else []
        faults += [f"{name} depends on {it}, which comes later" for it in found.get(name, []) if it not in seen]
        seen.append(name)
    return faults + [f"{name} has no row" for name in found if name not in seen]


def needed(found):
    """Returns the dependencies that no other dependency brings."""
    below = {}

    def reach(name):
        if name not in below:
            below[name] = set(found[name]).union(*[reach(it) for it in found[name]])
        return below[name]

    return {name: [it for it in found[name] if not any(it in reach(other) for other in found[name])] for name in found}


def rows_of(names, found):
    """Returns the crates of a band in rows, the lowest first: a crate is above those of its band that it depends on."""
    depth = {}
    for name in names:
        depth[name] = max([depth[it] + 1 for it in found[name] if it in depth], default=0)
    return [[it for it in names if depth[it] == at] for at in range(max(depth.values()) + 1)]


def width_of(name):
    return 7.3 * len(name) + 14


def placed(groups, found, edges):
    """Returns the middle of each box, and the top and height of each band; the first band is the lowest."""
    places, frames, y, count = {}, [], 0, 0
    for head, names in groups:
        rows = rows_of(names, found)
        for at, row in enumerate(rows):
            def weight(name):
                below = [places[it][0] for it in edges[name] if it in places]
                return sum(below) / len(below) if below else WIDTH / 2
            row = sorted(row, key=weight)
            gap = (WIDTH - 2 * MARGIN - sum(width_of(it) for it in row)) / (len(row) + 1)
            # Rows are shifted, so that a line that passes a box isn't mistaken for one that ends there.
            x = MARGIN + gap + (0, 60, -60, 30, -30, 90, -90)[count % 7] * min(1, gap / 100)
            count += 1
            for name in row:
                places[name] = (x + width_of(name) / 2, y - at * ROW - ROW / 2)
                x += width_of(name) + gap
        height = len(rows) * ROW + HEAD
        frames.append((head, y - height, height))
        y -= height + 10
    return places, frames, -y


def picture(page):
    """Returns the SVG and the faults of the page's rows; there is no SVG if there are faults."""
    found, groups = crates(), bands(page)
    faults = faults_of(found, groups)
    if faults:
        return None, faults
    edges = needed(found)
    places, frames, height = placed(groups, found, edges)
    up = height + MARGIN / 2
    out = [f'<svg xmlns="http://www.w3.org/2000/svg" width="{WIDTH}" height="{height + MARGIN:.0f}" '
           'font-family="DejaVu Sans Mono, Menlo, Consolas, monospace" font-size="12">',
           "<title>The crates, the lowest first</title>",
           "<style>.b{fill:#f3f5f8;stroke:#ccd3dc}.h{font-weight:bold;fill:#456}.c{fill:#fff;stroke:#345}"
           ".l{fill:none;stroke:#7a93b5;stroke-opacity:.55}text{fill:#222}</style>",
           f'<rect width="{WIDTH}" height="{height + MARGIN:.0f}" fill="#fff"/>']
    for head, top, tall in frames:
        left, wide = MARGIN / 2, WIDTH - MARGIN
        out.append(f'<rect class="b" x="{left:.0f}" y="{top + up:.0f}" width="{wide}" height="{tall}" rx="6"/>')
        out.append(f'<text class="h" x="{MARGIN + 4}" y="{top + up + 16:.0f}">{head}</text>')
    for name, others in edges.items():
        x, y = places[name]
        for other in others:
            x2, y2 = places[other]
            start, end = y + up + BOX / 2, y2 + up - BOX / 2
            bend = min(60, (end - start) / 2)
            out.append(f'<path class="l" d="M{x:.0f} {start:.0f}C{x:.0f} {start + bend:.0f} '
                       f'{x2:.0f} {end - bend:.0f} {x2:.0f} {end:.0f}"/>')
    for name, (x, y) in places.items():
        wide = width_of(name)
        below = ", ".join(found[name]) or "no other crate here"
        out.append(f'<g><title>{name} depends on {below}</title><rect class="c" x="{x - wide / 2:.0f}" '
                   f'y="{y + up - BOX / 2:.0f}" width="{wide:.0f}" height="{BOX}" rx="3"/>'
                   f'<text x="{x:.0f}" y="{y + up + 4:.0f}" text-anchor="middle">{name}</text></g>')
    return "\n".join(out) + "\n</svg>\n", []


def main():
    with open(f"{TOP}/docs/ARCHITECTURE.md", encoding="utf-8") as it:
        text, faults = picture(it.read())
    for fault in faults:
        print(f"layers: {fault}", file=sys.stderr)
    sys.stdout.write(text or "")
    sys.exit(1 if faults else 0)


if __name__ == "__main__":
    main()
