#!/usr/bin/env python3
"""Draws docs/ranked-map.svg: how a ranked question goes through its node's entries, from the lines that tests/src/ranked_map.rs prints.

    tests/map
"""

import sys

SIDE = 8
PX = 68                      # a cell of the drawing
MAP_X, MAP_Y = 30, 62        # its upper left corner
LIST_X, LIST_Y = 612, 84     # the first line of the list
STEP = 18                    # from one line of it to the next
COLUMNS = (20, 74, 130, 176, 286, 396, 408)


class Question:
    """What the program printed."""

    def __init__(self, lines):
        self.stands, self.entries, self.held = [], [], []
        for line in lines:
            kind, *words = line.rstrip("\n").split(" ")
            if kind == "grid":
                self.west, self.south, self.cell = map(int, words)
            elif kind == "question":
                self.east, self.north, self.weight, self.k = map(int, words[:4])
                self.text = " ".join(words[4:])
            elif kind == "stand":
                east, north, score = map(int, words[:3])
                self.stands.append((east, north, score, " ".join(words[3:])))
            elif kind == "entry":
                self.entries.append(words)
            elif kind == "held":
                self.held.append((int(words[0]), int(words[1])))

    def under(self):
        return [s for s in self.stands if s[3].startswith(self.text)]

    def verdicts(self):
        """Of each region in the list its place there, from 1, and whether it is taken."""
        return {int(e[0]): (n, e[5] == "taken") for n, e in enumerate(self.entries, 1)}

    def count(self, verdict):
        return len([e for e in self.entries if e[5] == verdict])

    def reckoned(self):
        return sum(int(e[2]) for e in self.entries if e[5] == "taken")


def text(x, y, words, kind="", anchor="start"):
    style = f' class="{kind}"' if kind else ""
    return f'<text x="{x:g}" y="{y:g}" text-anchor="{anchor}"{style}>{words}</text>'


def spot(q, east, north):
    metre = PX / q.cell
    return MAP_X + (east - q.west + 0.5) * metre, MAP_Y + SIDE * PX - (north - q.south + 0.5) * metre


def draw_cells(q):
    out, verdicts = [], q.verdicts()
    for region in range(SIDE * SIDE):
        x, y = MAP_X + region % SIDE * PX, MAP_Y + (SIDE - 1 - region // SIDE) * PX
        number, taken = verdicts.get(region, (None, None))
        kind = "never" if number is None else "taken" if taken else "passed"
        out.append(f'<rect x="{x}" y="{y}" width="{PX}" height="{PX}" class="{kind}"/>')
        if number is not None:
            out.append(text(x + 4, y + 13, number, "number"))
    return out


def draw_stands(q):
    out, best = [], [stand for stand, _ in q.held]
    for i, (east, north, _, name) in enumerate(q.stands):
        x, y = spot(q, east, north)
        kind, radius = ("under", 2.6) if name.startswith(q.text) else ("other", 1.3)
        out.append(f'<circle cx="{x:.1f}" cy="{y:.1f}" r="{radius}" class="{kind}"/>')
        if i in best:
            out.append(f'<circle cx="{x:.1f}" cy="{y:.1f}" r="6" class="ring"/>')
    x, y = spot(q, q.east, q.north)
    out.append(f'<path d="M{x - 8:.1f} {y:.1f} h16 M{x:.1f} {y - 8:.1f} v16" class="place"/>')
    return out


def draw_list(q):
    out = [text(LIST_X, 34, "The node’s entries in their order: largest score first", "head")]
    heads = ("", "region", "score", "stands", "bound", "last held", "")
    out += [text(LIST_X + x, LIST_Y - 14, words, "small", "end") for x, words in zip(COLUMNS, heads)]
    for n, (region, score, stands, bound, last, verdict) in enumerate(q.entries):
        y = LIST_Y + n * STEP
        out.append(f'<rect x="{LIST_X - 4}" y="{y - 10}" width="500" height="{STEP}" class="{verdict}"/>')
        shown = (n + 1, region, score, stands, f"{int(bound) / 1e6:,.3f}", last if last == "-" else f"{int(last) / 1e6:,.3f}")
        out += [text(LIST_X + x, y + 3, words, "row", "end") for x, words in zip(COLUMNS, shown)]
        out.append(text(LIST_X + COLUMNS[6], y + 3, "taken" if verdict == "taken" else "passed over", "row"))
    return out


def draw_words(q):
    y = MAP_Y + SIDE * PX + 24
    out, x = [], MAP_X
    legend = (("taken", "taken", 74), ("passed", "passed over", 112), ("never", f"never touched: no stand under “{q.text}”", 0))
    for kind, words, wide in legend:
        out.append(f'<rect x="{x}" y="{y - 11}" width="14" height="14" class="{kind}"/>')
        out.append(text(x + 20, y, words))
        x += wide
    under = len(q.under())
    others = len(q.stands) - under
    out.append(text(MAP_X, y + 24, f"Dots: the {under} stands under “{q.text}”; small ones: the other {others}. Cross: the place."))
    out.append(text(MAP_X, y + 44, f"Rings: the best {q.k}, {', '.join(q.stands[stand][3] for stand, _ in q.held)}."))
    below = LIST_Y + len(q.entries) * STEP + 16
    why = [
        "Bound and last held are in millions. An entry’s bound is what a stand with its",
        "largest score would be worth at the metre of its cell nearest to the place.",
        f"An entry is passed over where {q.k} are held and its bound is below the last of",
        "them, or equal to it with a first stand of larger number.",
        f"Here {q.count('taken')} are taken and {q.count('passed')} passed over: {q.reckoned()} stands are looked at, of {len(q.stands)}.",
    ]
    return out + [text(LIST_X - 4, below + 19 * n, words) for n, words in enumerate(why)]


STYLE = """
text { font-family: sans-serif; font-size: 13px; fill: #1c2b33; }
.head { font-size: 14px; font-weight: bold; }
.small { font-size: 11px; fill: #5a6b75; }
.row { font-size: 12px; }
.number { font-size: 12px; font-weight: bold; }
.never { fill: #ffffff; stroke: #b9c6cc; }
.taken { fill: #bfe0ee; stroke: #7fa3b3; }
.passed { fill: #ffedc4; stroke: #cfae62; }
.under { fill: #0b5d7a; }
.other { fill: #9fb0b8; }
.ring { fill: none; stroke: #b3261e; stroke-width: 1.8; }
.place { fill: none; stroke: #b3261e; stroke-width: 2.2; }
"""


def main():
    q = Question(sys.stdin)
    height = max(MAP_Y + SIDE * PX + 84, LIST_Y + len(q.entries) * STEP + 90)
    title = f"The best {q.k} of {len(q.stands)} stands under “{q.text}”, weight {q.weight}"
    print(f'<svg xmlns="http://www.w3.org/2000/svg" width="1120" height="{height}" viewBox="0 0 1120 {height}">')
    print(f"<style>{STYLE}</style>")
    print(f'<rect width="1120" height="{height}" fill="#ffffff"/>')
    print(text(MAP_X, 34, title, "head"))
    print("\n".join(draw_cells(q) + draw_stands(q) + draw_list(q) + draw_words(q)))
    print("</svg>")


if __name__ == "__main__":
    main()
