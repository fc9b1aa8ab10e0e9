#!/usr/bin/env python3
"""Draws docs/small-scheme.svg: the small scheme's grid, two of its cells enlarged, its letter tree, and the two entries that line 8's
tie turns on.

    python3 docs/small_scheme.py > docs/small-scheme.svg
"""

import math

STANDS = [("kibo", 5, 5, 100), ("kibo", 75, 75, 900), ("kibori", 12, 5, 400), ("kito", 9, 9, 400), ("mto", 10, 9, 0)]
CELL, SIDE = 10, 8
DIAGONAL = math.isqrt(128 * CELL * CELL)
PLACE = (5, 5)

PX = 44                      # a cell of the drawing
GRID_X, GRID_Y = 40, 64      # its upper left corner
LENS_Y = 450                 # the upper edge of cells 0 and 1, enlarged
TREE_X, TREE_Y = 470, 84
STEP_X, STEP_Y = 88, 62      # a letter to the right, a branch down


def region(stand):
    return stand[2] // CELL * SIDE + stand[1] // CELL


def beginnings():
    texts = {name[:n] for name, *_ in STANDS for n in range(len(name) + 1)}
    return sorted(texts)


def regions_under(text):
    return sorted({region(s) for s in STANDS if s[0].startswith(text)})


def keeps_bits(text):
    return text == "" or regions_under(text) != regions_under(text[:-1])


def entries_under(text):
    found = []
    for r in regions_under(text):
        here = [(i, s) for i, s in enumerate(STANDS) if region(s) == r and s[0].startswith(text)]
        found.append((r, max(s[3] for _, s in here), [i for i, _ in here]))
    return sorted(found, key=lambda e: (-e[1], e[0]))


def value(stand, weight):
    distance = math.isqrt((stand[1] - PLACE[0]) ** 2 + (stand[2] - PLACE[1]) ** 2)
    return weight * stand[3] * DIAGONAL + (16 - weight) * (DIAGONAL - distance) * 1000


def text(x, y, words, kind="", anchor="start"):
    style = f' class="{kind}"' if kind else ""
    return f'<text x="{x}" y="{y}" text-anchor="{anchor}"{style}>{words}</text>'


def held_cell(number):
    return "held" if number in {region(s) for s in STANDS} else "cell"


def cell_box(number, x, y, side):
    box = f'<rect x="{x}" y="{y}" width="{side}" height="{side}" class="{held_cell(number)}"/>'
    return [box, text(x + 3, y + side - 4, number, "small")]


def dot(x, y, radius):
    return f'<circle cx="{x:.1f}" cy="{y:.1f}" r="{radius}" class="stand"/>'


def draw_grid():
    out = [text(GRID_X, 34, "Five stands on the grid: cells of 10 metres", "head")]
    for row in range(SIDE):
        for column in range(SIDE):
            out += cell_box(row * SIDE + column, GRID_X + column * PX, GRID_Y + (SIDE - 1 - row) * PX, PX)
    for i, (name, east, north, _) in enumerate(STANDS):
        x, y = GRID_X + (east + 0.5) * PX / CELL, GRID_Y + SIDE * PX - (north + 0.5) * PX / CELL
        out.append(dot(x, y, 1.8))
        if region(STANDS[i]) > 1:
            out.append(text(f"{x:.1f}", f"{y - 7:.1f}", f"{i} {name}", "tiny", "middle"))
    below = GRID_Y + SIDE * PX
    out.append(f'<rect x="{GRID_X}" y="{below - PX}" width="{2 * PX}" height="{PX}" class="lens"/>')
    out.append(text(GRID_X + SIDE * PX, below + 14, "79 m east", "small", "end"))
    return out


def draw_lens():
    """Cells 0 and 1 once more, as wide as the whole grid: a metre is a metre there too, and each stand's label is in its cell."""
    side = SIDE * PX // 2
    below = GRID_Y + SIDE * PX
    out = [f'<path d="M{GRID_X} {below} V{LENS_Y} M{GRID_X + 2 * PX} {below} L{GRID_X + 2 * side} {LENS_Y}" class="beam"/>']
    out += cell_box(0, GRID_X, LENS_Y, side) + cell_box(1, GRID_X + side, LENS_Y, side)
    for i, stand in enumerate(STANDS):
        name, east, north, _ = stand
        if region(stand) < 2:
            x, y = GRID_X + (east + 0.5) * side / CELL, LENS_Y + side - (north + 0.5) * side / CELL
            out.append(dot(x, y, 4))
            left = region(stand) == 0
            out.append(text(f"{x + (-9 if left else 9):.1f}", f"{y + 4:.1f}", f"{i} {name}", "name", "end" if left else "start"))
            out.append(text(f"{x + (-9 if left else 9):.1f}", f"{y + 17:.1f}", f"({east}, {north})", "small", "end" if left else "start"))
    for metre in (0, 9, 10, 19):
        x = GRID_X + (metre + 0.5) * side / CELL
        out.append(text(f"{x:.1f}", LENS_Y + side + 14, metre, "small", "middle"))
    out.append(text(GRID_X, LENS_Y + side + 30, "Metres east. kito at 9 is in cell 0, mto at 10 in cell 1.", "name"))
    return out


def draw_tree():
    out = [text(TREE_X - 22, 34, "The letter tree: a node for each beginning of a name; its regions, bold where it keeps bits", "head")]
    texts = beginnings()
    rows, spots = 0, {}
    for number, t in enumerate(texts):
        first_child = t == "" or texts[number - 1] == t[:-1]
        rows += 0 if first_child else 1
        spots[t] = (TREE_X + len(t) * STEP_X, TREE_Y + rows * STEP_Y)
    for t, (x, y) in spots.items():
        if t:
            px, py = spots[t[:-1]]
            out.append(f'<path d="M{px} {py} H{px + STEP_X // 3} V{y} H{x}" class="edge"/>')
            out.append(text(px + STEP_X // 2 + 6, y - 6, t[-1], "letter"))
    for number, t in enumerate(texts):
        x, y = spots[t]
        kind = "asked" if t == "ki" else "node"
        out.append(f'<circle cx="{x}" cy="{y}" r="13" class="{kind}"/>')
        out.append(text(x, y + 4, number, "number", "middle"))
        out.append(text(x, y + 28, " ".join(map(str, regions_under(t))), "own" if keeps_bits(t) else "small", "middle"))
    return out


def draw_tie():
    x, y = TREE_X - 22, 320
    out = [text(x, y, "Line 8: the best 2 under “ki” at (5, 5), weight 16. Node 2’s entries, in their order:", "head")]
    held = []
    for n, (r, score, stands) in enumerate(entries_under("ki")):
        top = y + 14 + n * 34
        tie = n > 0
        bound = 16 * score * DIAGONAL
        out.append(f'<rect x="{x}" y="{top}" width="650" height="28" class="{"tie" if tie else "entry"}"/>')
        out.append(text(x + 10, top + 19, f"region {r}, largest score {score}, bound {bound:,}", "name"))
        held = sorted(held + stands, key=lambda i: (-value(STANDS[i], 16), i))[:2]
        shown = ", ".join(f"{i} ({value(STANDS[i], 16):,})" for i in held)
        out.append(text(x + 640, top + 19, f"then held: {shown}", "name", "end"))
    for n, words in enumerate(WHY):
        out.append(text(x, y + 138 + 19 * n, words, "name"))
    return out


WHY = [
    "The last entry’s bound only equals the last value held, stand 3’s. Skipping it on that tie",
    "would answer 1, 3 and lose stand 2, whose value is the same and whose number is smaller.",
    "So where bound and last value are equal, an entry is passed over only if its first stand’s",
    "number is larger than the last one held.",
]

STYLE = """
text { font-family: sans-serif; font-size: 13px; fill: #1c2b33; }
.head { font-size: 14px; font-weight: bold; }
.small { font-size: 10px; fill: #5a6b75; }
.own { font-size: 11px; font-weight: bold; }
.tiny { font-size: 11px; }
.number { font-size: 12px; font-weight: bold; }
.letter { font-size: 13px; font-style: italic; }
.cell { fill: #ffffff; stroke: #b9c6cc; }
.held { fill: #dcecf2; stroke: #7fa3b3; }
.lens { fill: none; stroke: #9a6a00; stroke-width: 1.5; }
.beam { fill: none; stroke: #9a6a00; stroke-width: 0.8; stroke-dasharray: 3 3; }
.stand { fill: #0b5d7a; }
.edge { fill: none; stroke: #7fa3b3; stroke-width: 1.5; }
.node { fill: #ffffff; stroke: #0b5d7a; stroke-width: 1.5; }
.asked { fill: #ffd98a; stroke: #9a6a00; stroke-width: 1.5; }
.entry { fill: #f2f6f8; stroke: #b9c6cc; }
.tie { fill: #fff1cf; stroke: #c08a10; }
"""


def main():
    print('<svg xmlns="http://www.w3.org/2000/svg" width="1120" height="674" viewBox="0 0 1120 674">')
    print(f"<style>{STYLE}</style>")
    print('<rect width="1120" height="674" fill="#ffffff"/>')
    print("\n".join(draw_grid() + draw_lens() + draw_tree() + draw_tie()))
    print("</svg>")


if __name__ == "__main__":
    main()
