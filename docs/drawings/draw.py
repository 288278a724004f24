#!/usr/bin/env python3
"""Writes the drawings of the documents as SVG files beside this script.

    docs/drawings/draw.py            writes them
    docs/drawings/draw.py --check    only says whether they are as they would be written

It uses the standard library alone. Each drawing has a white ground of its own, so that it can be read on a dark page too.
A drawing is refused where a text overlaps another one or an arrow, or leaves the ground, by an estimate of the texts' widths.
"""

import pathlib
import sys
from xml.sax.saxutils import escape

HERE = pathlib.Path(__file__).resolve().parent

INK = "#1f2328"
GREY = "#6b7280"
LINE = "#4b5563"
PALE = "#f3f4f6"
BLUE = "#dbeafe"
GREEN = "#dcfce7"
AMBER = "#fef3c7"
RED = "#fee2e2"
STRONG = "#b45309"


class Drawing:
    """Collects the elements of one drawing."""

    def __init__(self, name, width, height, title):
        self.name, self.width, self.height, self.title = name, width, height, title
        self.parts = []
        self.extents = []
        self.segments = []

    def add(self, part):
        self.parts.append("  " + part)

    def rect(self, x, y, width, height, fill="none", stroke=LINE, line=1.5, radius=0, dashes=None):
        dashed = f' stroke-dasharray="{dashes}"' if dashes else ""
        self.add(
            f'<rect x="{x}" y="{y}" width="{width}" height="{height}" rx="{radius}"'
            f' fill="{fill}" stroke="{stroke}" stroke-width="{line}"{dashed}/>'
        )

    def text(self, x, y, words, size=14, fill=INK, anchor="middle", weight="normal", mono=False):
        """Puts one line of text with its baseline at y, and notes the place that it takes."""
        wide = len(words) * size * (0.62 if mono or weight == "bold" else 0.58)
        left = {"start": x, "middle": x - wide / 2, "end": x - wide}[anchor]
        self.extents.append((left, y - size * 0.8, left + wide, y + size * 0.25, words))
        family = "DejaVu Sans Mono, Menlo, Consolas, monospace" if mono else "DejaVu Sans, Verdana, Arial, sans-serif"
        self.add(
            f'<text x="{x}" y="{y}" font-family="{family}" font-size="{size}" font-weight="{weight}"'
            f' fill="{fill}" text-anchor="{anchor}">{escape(words)}</text>'
        )

    def box(self, x, y, width, height, name, below=(), fill=PALE):
        """Puts a box with a bold name and smaller lines below it."""
        self.rect(x, y, width, height, fill=fill, radius=8)
        rise = 17 * len(below)
        top = y + height / 2 + 5 - rise / 2
        self.text(x + width / 2, top, name, size=16, weight="bold")
        for k, words in enumerate(below):
            self.text(x + width / 2, top + 18 + 17 * k, words, size=12, fill=GREY)

    def arrow(self, points, dashes=None, stroke=LINE):
        """Draws a line of level and upright parts through the points, with a head at the last of them."""
        self.segments += zip(points, points[1:])
        way = " ".join(f"{x},{y}" for x, y in points)
        dashed = f' stroke-dasharray="{dashes}"' if dashes else ""
        self.add(f'<polyline points="{way}" fill="none" stroke="{stroke}" stroke-width="1.8"{dashed} marker-end="url(#head)"/>')

    def lines(self, x, y, texts, size=13, anchor="middle", mono=False, fill=INK):
        for k, words in enumerate(texts):
            self.text(x, y + k * (size + 4), words, size=size, anchor=anchor, mono=mono, fill=fill)

    def overlaps(self):
        """Lists the texts that overlap another one or an arrow, or leave the ground."""
        found = []
        for k, (left, top, right, bottom, words) in enumerate(self.extents):
            if left < 0 or top < 0 or right > self.width or bottom > self.height:
                found.append(f"{self.name}: '{words}' leaves the ground")
            for left2, top2, right2, bottom2, words2 in self.extents[k + 1 :]:
                if left < right2 and left2 < right and top < bottom2 and top2 < bottom:
                    found.append(f"{self.name}: '{words}' overlaps '{words2}'")
            for (x1, y1), (x2, y2) in self.segments:
                if min(x1, x2) < right and left < max(x1, x2) + 1 and min(y1, y2) < bottom and top < max(y1, y2) + 1:
                    found.append(f"{self.name}: '{words}' is crossed by an arrow")
        return found

    def svg(self):
        head = (
            f'<svg xmlns="http://www.w3.org/2000/svg" width="{self.width}" height="{self.height}"'
            f' viewBox="0 0 {self.width} {self.height}" role="img">\n'
            f"  <title>{escape(self.title)}</title>\n"
            '  <defs><marker id="head" viewBox="0 0 10 10" refX="9" refY="5" markerWidth="8" markerHeight="8"'
            f' orient="auto-start-reverse"><path d="M0,0 L10,5 L0,10 z" fill="{LINE}"/></marker></defs>\n'
            f'  <rect x="0.5" y="0.5" width="{self.width - 1}" height="{self.height - 1}" rx="10" fill="#ffffff" stroke="#d1d5db"/>\n'
        )
        return head + "\n".join(self.parts) + "\n</svg>\n"


def draw_life():
    """Draws the states of a version and the calls that move it from one to the next."""
    d = Drawing("life", 1120, 580, "The life of a version of a texture")
    d.text(30, 38, "The life of a version", size=18, anchor="start", weight="bold")
    d.box(40, 130, 170, 76, "live", ("the texture's version",), BLUE)
    d.box(340, 130, 170, 76, "retired", ("queue, oldest first",), AMBER)
    d.box(640, 130, 170, 76, "popped", ("hand, at most one",), AMBER)
    d.box(340, 330, 170, 76, "spare", ("kept for a rename",), GREEN)
    d.box(640, 330, 170, 76, "doomed", ("destroy queue",), RED)
    d.box(920, 330, 170, 76, "destroyed", ("by the caller",), PALE)
    d.box(40, 440, 170, 76, "fresh", ("the caller allocates",), PALE)

    d.arrow([(210, 168), (338, 168)])
    d.text(274, 158, "retire", mono=True)
    d.lines(274, 188, ("a new version", "replaces it"), size=12, fill=GREY)
    d.arrow([(510, 168), (638, 168)])
    d.text(574, 158, "pop_retired", mono=True)
    d.lines(574, 188, ("its submission", "is settled"), size=12, fill=GREY)

    d.arrow([(660, 206), (660, 250), (425, 250), (425, 328)])
    d.text(542, 242, "park", mono=True)
    d.lines(542, 268, ("kept: tracked still, no", "pressure, within the cap"), size=12, fill=GREY)
    d.arrow([(725, 206), (725, 328)])
    d.text(742, 246, "park", mono=True, anchor="start")
    d.lines(742, 264, ("its tracking is gone or renewed,", "pressure, or past the cap"), size=12, anchor="start", fill=GREY)

    d.arrow([(510, 368), (638, 368)])
    d.text(575, 358, "trim", mono=True)
    d.lines(575, 388, ("note_allocated", "forget_texture", "take_spare"), mono=True)
    d.text(575, 440, "(another shape)", size=12, fill=GREY)
    d.arrow([(810, 368), (918, 368)])
    d.text(864, 358, "take_doomed", mono=True)

    d.arrow([(340, 368), (150, 368), (150, 208)])
    d.text(165, 296, "a rename:", size=12, anchor="start", fill=GREY)
    d.lines(165, 314, ("take_spare", "preserve_plan", "retire"), mono=True, anchor="start")
    d.arrow([(85, 440), (85, 208)])
    d.lines(100, 400, ("no spare: the same three calls,", "and a new version"), size=12, anchor="start", fill=GREY)

    d.arrow([(425, 130), (425, 80), (1060, 80), (1060, 328)], dashes="5 4")
    d.text(742, 70, "drain_versions", mono=True)
    d.text(742, 100, "the queue, then the destroy queue, then the spares; the hand stays", size=12, fill=GREY)
    d.arrow([(725, 406), (725, 480), (975, 480), (975, 408)], dashes="5 4")
    d.arrow([(400, 406), (400, 520), (1035, 520), (1035, 408)], dashes="5 4")
    d.text(850, 470, "drain_versions", mono=True)
    d.text(560, 560, "The pool holds each retired version in just one of queue, hand, spares and destroy queue.", size=12, fill=GREY)
    return d


def draw_tiles(d, left, top, side, dirty):
    """Draws a level of 64 by 64 texels as 4 by 4 tiles, of which those in `dirty` are filled."""
    tile = side / 4
    for row in range(4):
        for column in range(4):
            fill = AMBER if (column, row) in dirty else "#ffffff"
            d.rect(left + column * tile, top + row * tile, tile, tile, fill=fill, stroke="#9ca3af", line=1)
    d.rect(left, top, side, side)


def draw_rename():
    """Draws the second rename of the sample: one write, its tile, the box and the copy."""
    d = Drawing("rename", 1080, 500, "One rename of the sample: write, tile, box and copy")
    d.text(30, 38, "One rename of the sample: texture 7, 64 by 64 texels, 4 by 4 tiles of 16 texels", size=16, anchor="start", weight="bold")
    side, top = 256, 120
    texel = side / 64
    lefts = (50, 412, 774)

    d.text(lefts[0] + side / 2, 84, "1. write,7,0,0,20,5,10,10", mono=True)
    d.text(lefts[0] + side / 2, 104, "the live version is written", size=12, fill=GREY)
    draw_tiles(d, lefts[0], top, side, ())
    d.rect(lefts[0] + 20 * texel, top + 5 * texel, 10 * texel, 10 * texel, fill=BLUE, stroke="#1d4ed8", line=2)
    for k in range(5):
        d.text(lefts[0] + k * side / 4, top + side + 18, str(16 * k), size=11, fill=GREY)
    for k in range(1, 5):
        d.text(lefts[0] - 8, top + k * side / 4 + 4, str(16 * k), size=11, fill=GREY, anchor="end")
    d.lines(lefts[0] + side / 2, top + side + 46, ("texels 20 to 29 across,", "5 to 14 down: write number 1"), size=12)

    d.text(lefts[1] + side / 2, 84, "2. the stamp grid", size=14)
    d.text(lefts[1] + side / 2, 104, "the last write that touched each tile", size=12, fill=GREY)
    draw_tiles(d, lefts[1], top, side, ((1, 0),))
    for row in range(4):
        for column in range(4):
            dirty = (column, row) == (1, 0)
            d.text(
                lefts[1] + (column + 0.5) * side / 4,
                top + (row + 0.5) * side / 4 + 6,
                "1" if dirty else "0",
                size=16,
                weight="bold" if dirty else "normal",
                fill=STRONG if dirty else GREY,
            )
    d.lines(lefts[1] + side / 2, top + side + 28, ("one tile is stamped above 0:", "the box since 0 writes is that tile"), size=12)

    d.text(lefts[2] + side / 2, 84, "3. plan,7,0,0,0,0", mono=True)
    d.text(lefts[2] + side / 2, 104, "the spare 900 holds 0 writes", size=12, fill=GREY)
    draw_tiles(d, lefts[2], top, side, ((1, 0),))
    d.rect(lefts[2] + side / 4, top, side / 4, side / 4, stroke=STRONG, line=3)
    d.lines(lefts[2] + side / 2, top + side + 28, ("one copy, from the live version into 900:", "left 16, top 0, 16 by 16 texels"), size=12)
    d.text(lefts[2] + side / 2, top + side + 68, "9,0,0,16,0,16,16", mono=True)

    d.arrow([(lefts[0] + side + 20, top + side / 2), (lefts[1] - 20, top + side / 2)])
    d.text((lefts[0] + side + lefts[1]) / 2, top + side / 2 - 10, "stamps", size=12)
    d.arrow([(lefts[1] + side + 20, top + side / 2), (lefts[2] - 20, top + side / 2)])
    d.text((lefts[1] + side + lefts[2]) / 2, top + side / 2 - 10, "box", size=12)
    d.text(540, 480, "Every other tile of 900 holds what the live version holds, so 256 of 4,096 texels are copied.", size=13)
    return d


def draw_layers():
    """Draws the layers of the crates, the highest on top."""
    d = Drawing("layers", 1080, 620, "The layers of the crates")
    d.text(30, 38, "The layers of the crates: each uses what stands below it", size=18, anchor="start", weight="bold")
    bands = (
        ("event_", "the event program", BLUE, (
            ("event_program, event_program_large", "their stores, and one call"),
            ("event_stream, event_feed, event_runs", "standard input; blocks; lines"),
            ("event_sessions, event_calls", "an event's call on the pool"),
            ("event_lines, event_answers, event_text", "a line to its event; an answer to its lines"),
        )),
        ("pool_", "the calls", GREEN, (
            ("pool, pool_lent_pacing, pool_formed, pool_formed_textures", "on any memory: the test, then the call"),
            ("pool_open, pool_take_spare, pool_preserve_plan, pool_retire, ..", "on memory that forms a pool"),
        )),
        ("pool_", "what a pool is", AMBER, (
            ("pool_memory, pool_records, pool_access", "lent numbers as a pool, and written back"),
            ("pool_rules", "the rules, one file a call"),
        )),
        ("grid_", "tiles and stamps", RED, (
            ("grid_views, grid_stamps, grid_axes, grid_rects, grid_shapes", "stamp grids, tiles, rectangles, shapes"),
        )),
        ("base_", "the ground", PALE, (
            ("base_tables, base_blocks", "records and rings; blocks of numbers"),
        )),
    )
    y = 62
    for prefix, name, fill, rows in bands:
        height = 34 * len(rows) + 22
        d.rect(30, y, 800, height, fill=fill, radius=8)
        d.text(48, y + height / 2, prefix, size=16, anchor="start", weight="bold", mono=True)
        d.text(48, y + height / 2 + 18, name, size=12, anchor="start", fill=GREY)
        for k, (crates, words) in enumerate(rows):
            d.text(200, y + 26 + 34 * k, crates, size=13, anchor="start", mono=True)
            d.text(200, y + 42 + 34 * k, words, size=12, anchor="start", fill=GREY)
        y += height + 12
    beside = (
        (62, 158, "event_books", ("demand 3 of every text", "that the program reads")),
        (232, 192, "pool_books", ("the two books, demand 3", "of every list of calls")),
        (436, 124, "test_, bench_", ("programs held to stored", "answers; measurements")),
    )
    for top, height, crates, words in beside:
        d.rect(850, top, 200, height, fill="#ffffff", radius=8, dashes="5 4")
        d.text(950, top + height / 2 - 12, crates, size=14, mono=True)
        d.lines(950, top + height / 2 + 10, words, size=12, fill=GREY)
    d.text(440, 602, "Dashed: theorems and programs beside the layers.", size=12, fill=GREY)
    return d


def draw_stores():
    """Draws the six lent slices and how each is filled."""
    d = Drawing("stores", 1080, 540, "The six lent slices")
    d.text(30, 38, "The six lent slices of u64: filled places, and free places that are never read", size=16, anchor="start", weight="bold")
    rows = (
        ("textures", "22 a texture", ((3, BLUE, ("7", "9", "12")), (3, None, ())), "tracked textures, packed, ascending id"),
        ("spares", "3 a version", ((2, GREEN, ("of 7", "of 12")), (4, None, ())), "packed texture by texture, the oldest first"),
        ("retiring", "7 a version", ((1, None, ()), (1, AMBER, ("hand",)), (1, AMBER, ("queue",)), (3, None, ())), "a ring from place `head`: the hand's, then the queue"),
        ("doomed", "2 a version", ((1, RED, ("second",)), (4, None, ()), (1, RED, ("first",))), "a ring from place `first`; this one has wrapped"),
        ("newest", "2 a grid", ((4, BLUE, ("7", "7", "9", "12")), (2, None, ())), "the largest stamp of each grid in use, and its tiling"),
        ("stamps", "1,024 a page", ((4, BLUE, ("7", "7", "9", "12"), (176, 40, 112, 56)), (1, None, (), (96,))), "each grid on just its columns times rows"),
    )
    for k, (name, numbers, runs, words) in enumerate(rows):
        y = 66 + 70 * k
        d.text(30, y + 20, name, size=15, anchor="start", weight="bold", mono=True)
        d.text(30, y + 38, numbers, size=12, anchor="start", fill=GREY)
        x = 160
        for count, fill, marks, *widths in runs:
            for place in range(count):
                wide = widths[0][place] if widths else 80
                d.rect(x, y, wide, 44, fill=fill or "#ffffff", stroke=LINE if fill else "#9ca3af", line=1.2, dashes=None if fill else "3 3")
                if fill:
                    d.text(x + wide / 2, y + 27, marks[place], size=13)
                else:
                    d.text(x + wide / 2, y + 27, "free", size=11, fill="#9ca3af")
                x += wide
        d.lines(660, y + 26, (words,), size=12, anchor="start")
    d.lines(
        540,
        500,
        (
            "Six places of each kind. Textures 7, 9 and 12 are tracked and keep histories; 7 has two levels, so two grids.",
            "Six versions: two spares, one in the hand, one queued and two doomed, so every version place is used.",
        ),
        size=12,
        fill=GREY,
    )
    return d


def main(arguments):
    if arguments not in ([], ["--check"]):
        print(__doc__.strip())
        return 2
    drawings = (draw_life(), draw_rename(), draw_layers(), draw_stores())
    wrong = [words for d in drawings for words in d.overlaps()]
    for d in drawings:
        file = HERE / f"{d.name}.svg"
        if not arguments:
            file.write_text(d.svg(), encoding="utf-8")
        elif not file.exists() or file.read_text(encoding="utf-8") != d.svg():
            wrong.append(f"docs/drawings/{file.name} is not as docs/drawings/draw.py writes it.")
    for words in wrong:
        print(words)
    return 1 if wrong else 0


if __name__ == "__main__":
    sys.exit(main(sys.argv[1:]))
