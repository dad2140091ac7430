#!/usr/bin/env python3
"""Draws the pictures of docs/ that aren't maps, from the numbers below.

    trials/pictures.py [FOLDER]

It writes split.svg, latches.svg, file.svg and cuts.svg into FOLDER, or docs/. The states of split.svg are those that `map` prints of a
file with room for 8 records a page, after eight inserts, a ninth, a `tidy`, three deletes and another `tidy`; the tree of cuts.svg is that
of page 14 of the first hour's file; the steps of latches.svg are those of an insert of 15 into a file whose posting is late.
"""
import os
import sys

from draw import Rect, box, colour, label, text

GREY, INK = "#666", "#222"


def arrow(left, top, right, bottom, more=""):
    return f'<path d="M{left:.1f} {top:.1f}L{right:.1f} {bottom:.1f}" stroke="{GREY}" stroke-width="1.4" marker-end="url(#tip)" fill="none" {more}/>'


def middle(x, y, words, size=12, ink=INK, more=""):
    return text(x, y, words, size, f'text-anchor="middle" fill="{ink}" {more}')


def plate(x, y, number, child=False):
    if child:
        return label(x, y, number, f'fill="{colour(number, 0.8)}" stroke="{colour(number, 0.35)}"', INK)
    return label(x, y, number, f'fill="{colour(number, 0.35)}"', "#fff")


def svg(width, height, marks):
    yield f'<svg xmlns="http://www.w3.org/2000/svg" width="{width}" height="{height}" viewBox="0 0 {width} {height}">'
    yield (f'<rect width="{width}" height="{height}" fill="#fff"/><defs><marker id="tip" viewBox="0 0 8 8" refX="7" refY="4" markerWidth="8" '
           f'markerHeight="8" orient="auto"><path d="M0 0L8 4L0 8Z" fill="{GREY}"/></marker></defs>')
    yield from marks
    yield "</svg>"


# ---- a split, its posting and a merge

# the side of a page's picture, from 0 to 100 in each attribute
SIDE = 150
CROSS = [(50, 50), (50, 70), (50, 85), (50, 30), (50, 15), (15, 50), (30, 50), (80, 50)]
LEFT = [(50, 15), (50, 30), (15, 50), (30, 50)]
GONE = [(50, 50), (50, 70), (50, 85), (80, 50), (80, 80)]
STAYS = [(50, 30), (15, 50), (50, 50), (50, 70), (80, 50), (80, 80)]
# a state: its title and words, then its pages: number, level, and leaves, as a kind, what it has, and the box
WHOLE = (0, 0, 100, 100)
CORNER = (50, 50, 100, 100)
STATES = [
    ("Page 1 is full", "8 records; 80 80 comes", [(1, 0, [("records", CROSS, WHOLE)])]),
    ("Split", "the corner leaves, a hole stays", [
        (1, 0, [("records", LEFT, (0, 0, 50, 100)), ("records", [], (50, 0, 100, 50)), ("hole", 2, CORNER)]),
        (2, 0, [("records", GONE, CORNER)])]),
    ("Posted", "a root, and its leaf for page 2", [
        (3, 1, [("child", 1, (0, 0, 50, 100)), ("child", 1, (50, 0, 100, 50)), ("child", 2, CORNER)]),
        (1, 0, [("records", LEFT, (0, 0, 50, 100)), ("records", [], (50, 0, 100, 50)), ("hole", 2, CORNER)]),
        (2, 0, [("records", GONE, CORNER)])]),
    ("Merged", "three deletes later", [
        (3, 1, [("child", 1, WHOLE)]),
        (1, 0, [("records", STAYS, WHOLE)])]),
]


def on_page(x, y):
    """Where a point stands in a page's picture."""
    return x * SIDE / 100, SIDE - y * SIDE / 100


def page_picture(number, leaves):
    dots = [point for kind, what, _ in leaves if kind == "records" for point in what]
    for kind, what, (left, low, right, high) in leaves:
        (x, y), (across, down) = on_page(left, high), on_page(right, low)
        fill = "url(#hole)" if kind == "hole" else colour(number, 0.9)
        yield box(Rect(x, y, across, down), f'fill="{fill}" stroke="{colour(number, 0.4)}"')
        at = (x + across) / 2, (y + down) / 2
        if kind == "child":
            yield plate(*at, what, child=True)
        elif kind == "hole":
            yield label(*at, f"page {what}", 'fill="#fff" stroke="#999"', INK)
    # a value's cell lies to the right of and above it, so a record that a cut just spares stands clear of the line
    for x, y in dots:
        yield '<circle cx="%.1f" cy="%.1f" r="3" fill="#222"/>' % on_page(x + 4, y + 4)


def split_marks():
    yield ('<pattern id="hole" width="7" height="7" patternUnits="userSpaceOnUse" patternTransform="rotate(45)">'
           '<rect width="7" height="7" fill="#fff"/><rect width="2" height="7" fill="#bbb"/></pattern>')
    column, row = SIDE + 80, SIDE + 40
    for at, (title, words, pages) in enumerate(STATES):
        x = 60 + at * column
        yield text(x, 26, f"{at}. {title}" if at else title, 15, f'font-weight="bold" fill="{INK}"')
        yield text(x, 45, words, 11, f'fill="{GREY}"')
        for number, level, leaves in pages:
            y = 76 + row * {3: 0, 1: 1, 2: 2}[number]
            yield f'<g transform="translate({x} {y})">'
            yield text(22, -7, f"level {level}", 11, f'fill="{GREY}"')
            yield from page_picture(number, leaves)
            yield plate(8, -11, number)
            yield "</g>"
        if at:
            yield arrow(x - 66, 76 + row + SIDE / 2, x - 14, 76 + row + SIDE / 2)
        if len(pages) > 1 and number == 2:
            yield arrow(x + SIDE * 0.87, 76 + row + SIDE * 0.42, x + SIDE * 0.87, 76 + 2 * row - 6)
    for at, words in enumerate(("To the right goes the first attribute, upwards the second one. A dot is a record. Hatched is a hole: its points are page 2's.",
                                "Pages of level 0 have records, page 3 names them. Merged, page 2 is free: page 1 has what is left of both.")):
        yield text(60, 76 + 2.62 * row + 18 * at, words, 11, f'fill="{GREY}"')


# ---- the latches of one walk

STEPS = [
    ("takes the line", "the point 15 is locked"), ("at the root", "latches 3"), ("goes down", "latches 1, lets 3 go"), ("goes aside", "latches 2, puts 15"),
    ("forces", "the group is durable"), ("answers", "1 ok"),
]
# rows of the picture: a name, the first and the last step, what is written on the bar, and its page for the colour
BARS = [
    ("lock on the point 15", 1, 4, "alone", None), ("root, page 3", 2, 3, "S, shared", 3), ("page 1", 3, 4, "X, exclusive", 1), ("page 2", 4, 4, "X", 2),
    ("the group of the put", 4, 5, "waits in the log", None),
]


def latch_marks():
    left, top, step, row = 170, 96, 130, 38
    yield text(20, 28, "The latches of an insert of 15, step by step", 15, f'font-weight="bold" fill="{INK}"')
    for at, (title, words) in enumerate(STEPS):
        x = left + step * at
        yield box(Rect(x, top - 46, x + step, top + row * len(BARS) + 6), f'fill="{"#f6f6f6" if at % 2 else "#fff"}" stroke="#ddd"')
        yield middle(x + step / 2, top - 29, f"{at + 1}. {title}", 12, INK, 'font-weight="bold"')
        yield middle(x + step / 2, top - 12, words, 10, GREY)
    for at, (name, first, last, words, page) in enumerate(BARS):
        y = top + row * at
        yield text(left - 10, y + 22, name, 12, f'text-anchor="end" fill="{INK}"')
        fill, edge = ("#e4e4e4", "#888") if page is None else (colour(page, 0.85), colour(page, 0.35))
        # what is taken in a step is taken in its first third, and what goes goes in its last
        yield box(Rect(left + step * (first - 1) + step * 0.3, y + 5, left + step * last - step * 0.12, y + 31), f'rx="4" fill="{fill}" stroke="{edge}"')
        yield middle(left + step * (first + last - 1) / 2 + step * 0.09, y + 22, words, 11)
    yield text(20, top + row * len(BARS) + 30, "Within a step the next page is latched before the held one is let go. Step 4 takes effect: all latches and the lock go, before the force.", 11, f'fill="{GREY}"')


# ---- the layout of a file

PAGES, LOG, PLACE = 64, 65536, 4096
PARTS = [("superblock 0", PLACE), ("superblock 1", PLACE), ("log area 0", LOG), ("log area 1", LOG), ("page 1", PLACE), ("page 2", PLACE), ("..", PLACE * (PAGES - 3)), (f"page {PAGES}", PLACE)]
INSIDE = [
    ("a superblock", ["gate 1", "name, version 9", "turn 1", "layout 14", "root, pages, chain 16"]),
    ("frames of a log", ["gate 1", "length 4", "groups", "gate 1", "length 4", "groups", "00 .."]),
    ("a group of a frame", ["images 1", "number 4", "page image 4,096", "..", "operation"]),
    ("a page of records", ["live 1", "level 1", "K 1", "zero 1", "box 16 K", "cuts and leaves", "zeros"]),
]


def file_marks():
    yield text(20, 28, f"A file of {PAGES} pages and log areas of {LOG:,} bytes", 15, f'font-weight="bold" fill="{INK}"')
    widths, x, place = [94, 94, 150, 150, 76, 76, 60, 76], 20, 0
    for (name, size), width in zip(PARTS, widths):
        hue = {"s": 1, "l": 2}.get(name[0], 4)
        yield box(Rect(x, 62, x + width, 110), f'fill="{colour(hue, 0.9)}" stroke="{colour(hue, 0.4)}"')
        yield middle(x + width / 2, 91, name)
        yield text(x, 56, f"{place:,}", 10, f'fill="{GREY}"')
        x, place = x + width, place + size
    yield text(x + 4, 56, f"{place:,}", 10, f'fill="{GREY}"')
    yield text(20, 128, "Above each part the place of its first byte. Widths aren't to scale.", 11, f'fill="{GREY}"')
    for at, (name, fields) in enumerate(INSIDE):
        y, x = 150 + 50 * at, 150
        hue = (1, 2, 2, 4)[at]
        yield text(140, y + 23, name, 12, f'text-anchor="end" fill="{INK}"')
        for field in fields:
            width = max(48, 7 * len(field) + 14)
            yield box(Rect(x, y, x + width, y + 36), f'fill="{colour(hue, 0.95)}" stroke="{colour(hue, 0.4)}"')
            yield middle(x + width / 2, y + 23, field, 11)
            x += width
    yield text(20, 150 + 50 * len(INSIDE) + 14, "Behind a field's name stands how many bytes it has, where that is fixed.", 11, f'fill="{GREY}"')


# ---- the cuts of an index page

TREE = (0, 60, (0, 50, (1, 60, (0, 20, 9, (1, 40, 6, 12)), (0, 30, 11, 7)), (1, 40, 2, 10)), (0, 70, 13, (0, 80, 5, (1, 40, 3, 8))))


def leaves_in(tree):
    return 1 if isinstance(tree, int) else leaves_in(tree[2]) + leaves_in(tree[3])


def cut_marks(tree, left, depth):
    """A tree of cuts whose leaves stand beside each other, from the leaf of this number on; where its top stands, and its marks."""
    wide, high, top = 62, 62, 76
    y = top + high * depth
    if isinstance(tree, int):
        x = 50 + wide * left
        return x, [plate(x, y, tree, child=True)]
    axis, value, low, high_side = tree
    one, marks = cut_marks(low, left, depth + 1)
    other, more = cut_marks(high_side, left + leaves_in(low), depth + 1)
    x = (one + other) / 2
    lines = [f'<path d="M{x:.1f} {y}L{end:.1f} {y + high - 9}" stroke="#999" fill="none"/>' for end in (one, other)]
    words = f"{('first', 'second')[axis]} &lt; {value}"
    cut = box(Rect(x - 42, y - 11, x + 42, y + 11), f'rx="3" fill="#fff" stroke="{colour(14, 0.4)}"') + middle(x, y + 4, words, 11)
    return x, lines + marks + more + [cut]


def tree_marks():
    yield text(20, 28, "Page 14: its cuts, and the child leaves at their tips", 15, f'font-weight="bold" fill="{INK}"')
    yield text(20, 46, "To the left goes a point whose value is below that of the cut, to the right any other one.", 11, f'fill="{GREY}"')
    yield from cut_marks(TREE, 0, 0)[1]


PICTURES = {"split.svg": (940, 610, split_marks), "latches.svg": (970, 340, latch_marks), "file.svg": (860, 376, file_marks), "cuts.svg": (730, 410, tree_marks)}


def main():
    folder = sys.argv[1] if sys.argv[1:] else os.path.join(os.path.dirname(os.path.abspath(__file__)), "../docs")
    for name, (width, height, marks) in PICTURES.items():
        with open(os.path.join(folder, name), "w", encoding="utf-8") as out:
            out.write("\n".join(svg(width, height, marks())) + "\n")


if __name__ == "__main__":
    main()
