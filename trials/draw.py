#!/usr/bin/env python3
"""Draws the map of a file of two attributes as an SVG picture.

    trials/draw.py < MAP > OUT.svg
    trials/draw.py MAP [LEVEL] > OUT.svg

MAP is what `map` prints, or trials/mapping.py; `-` is the standard input. Each level has a panel, the highest first; with LEVEL that one
alone is drawn. The first attribute goes to the right, the second one upwards. The axes are bent, so that each two cuts stand apart. Each
page has a colour of its own. A box is a leaf: of records with their number, or of a child with the number of its page, in that page's
colour. A hatched rim, in the colour of the page that has it, is a hole; within it stands what the page has that it names. The number of a
page that has nothing but holes stands on its rim. Of a level of many pages each page's own leaves are drawn without rims, and the legend
says how many there are. A number without room is left out; a browser tells it under the pointer. An input that is no such map, or is of
another number of attributes, is told in one line, and the status is 1.
"""
import collections
import colorsys
import sys

TOP = 2 ** 64 - 1
# the least and the greatest side of a panel and how much of it a cut gets, and what is left around a panel
LEAST, MOST, EACH, LEFT, ABOVE, BELOW = 300, 1800, 50, 52, 40, 40
# what stands above all panels, a line of the legend, the width of a hole's rim, and a level of more pages than this has no rims
HEAD, LINE, RIM, MANY = 72, 20, 6, 40
KEY = (
    "Dark plate: the number of a page. Light plate: the number of a child. Bare number: how many records.",
    "Hatched: a hole of the page of that colour; within it stands the page that it names.",
)
MANY_KEY = "Of a level of more than %d pages: colours part the pages, without rims." % MANY
GOLDEN = 0.618034
FONT = 'font-family="DejaVu Sans, Helvetica, Arial, sans-serif"'
Leaf = collections.namedtuple("Leaf", "kind what low high")


class Page:
    """A page of the map, with its leaves from the left."""

    def __init__(self, number, level, weight, parents):
        self.number, self.level, self.weight, self.parents, self.leaves = number, level, weight, parents, []

    def box(self):
        return tuple(min(lows) for lows in zip(*(leaf.low for leaf in self.leaves))), tuple(max(highs) for highs in zip(*(leaf.high for leaf in self.leaves)))

    def holes(self):
        return [leaf for leaf in self.leaves if leaf.kind == "hole"]


class NoMap(Exception):
    """Why an input can't be drawn."""


def read_head(line):
    """What the first line says."""
    words = line.split()
    if words[::2] != ["height", "root", "pages", "free"] or not all(word.isdigit() for word in words[1::2]) or len(words) != 8:
        raise NoMap("no map: the first line isn't `height H root R pages LIVE free F`")
    return dict(zip(words[::2], map(int, words[1::2])))


def read_leaf(kind, words):
    ends = [int(word) for word in words[1:]]
    if len(ends) != 4:
        raise NoMap(f"a map of {len(ends) // 2} attributes; only one of two can be drawn")
    return Leaf(kind, int(words[0]), tuple(ends[::2]), tuple(ends[1::2]))


def read_map(lines):
    """What the first line says, and the pages by number."""
    said, pages, page = read_head(next(lines, "")), {}, None
    for at, line in enumerate(lines, 2):
        kind, *words = line.split() or [""]
        try:
            if kind == "page":
                page = Page(*(int(word) for word in (words[0], *words[2::2])))
                pages[page.number] = page
            elif kind in ("records", "child", "hole") and page:
                page.leaves.append(read_leaf(kind, words))
            else:
                raise ValueError
        except (ValueError, IndexError, TypeError):
            raise NoMap(f"no map: line {at} is no page and no leaf") from None
    check_whole(said, pages)
    return said, pages


def check_whole(said, pages):
    """Whether each page is there that the first line or a leaf speaks of."""
    named = {leaf.what for page in pages.values() for leaf in page.leaves if leaf.kind != "records"}
    if len(pages) != said["pages"] or not (named | {said["root"]}) <= pages.keys() or not all(page.leaves for page in pages.values()):
        raise NoMap("a map that was cut short: pages or leaves are missing")
    for level in range(said["height"]):
        if not whole_pages(pages, level):
            raise NoMap(f"a map that was cut short: no page of level {level} has the whole space")


def whole_pages(pages, level):
    return [page for page in pages.values() if page.level == level and page.box() == ((0, 0), (TOP, TOP))]


# ---- where values stand

def ends_of(pages, axis):
    """Where leaves begin, and the end behind all values."""
    return sorted({0, TOP + 1, *(end for page in pages for leaf in page.leaves for end in (leaf.low[axis], leaf.high[axis] + 1))})


class Scale:
    """Where the values of an attribute stand. Half of the room goes to each step between cuts alike, half by its width."""

    def __init__(self, ends, side):
        self.ends, self.side = ends, side
        steps = [after - at for at, after in zip(ends, ends[1:])]
        # the step up to the greatest value would leave no room to the others
        steps[-1] = min(steps[-1], max(steps[:-1], default=1))
        self.places, at = {0: 0.0}, 0.0
        for end, step in zip(ends[1:], steps):
            at += side * (0.5 / len(steps) + 0.5 * step / sum(steps))
            self.places[end] = at

    def place(self, end):
        return self.places[end]


def scales_of(pages):
    """The scales of both attributes over these pages: the more cuts, the longer."""
    return [Scale(ends, min(MOST, max(LEAST, EACH * len(ends)))) for ends in (ends_of(pages, axis) for axis in (0, 1))]


Rect = collections.namedtuple("Rect", "left top right bottom")


def inner(rect, sides):
    return Rect(rect.left + sides[0], rect.top + sides[1], rect.right - sides[2], rect.bottom - sides[3])


def rectangle(scales, low, high):
    """Where a box stands."""
    (left, under), (right, over) = ([scale.place(end) for scale, end in zip(scales, ends)] for ends in (low, [value + 1 for value in high]))
    return Rect(left, scales[1].side - over, right, scales[1].side - under)


def shared(leaf, page, sides):
    """How far in a leaf begins on each side: where the page's box ends, as far as the page does."""
    low, high = page.box()
    ends = (leaf.low[0] == low[0], leaf.high[1] == high[1], leaf.high[0] == high[0], leaf.low[1] == low[1])
    return [side if is_end else 0 for side, is_end in zip(sides, ends)]


# ---- colours and marks

def colour(number, lightness, saturation=0.62):
    red, green, blue = colorsys.hls_to_rgb(number * GOLDEN % 1, lightness, saturation)
    return f"#{round(red * 255):02x}{round(green * 255):02x}{round(blue * 255):02x}"


def text(x, y, words, size=12, more=""):
    return f'<text x="{x:.1f}" y="{y:.1f}" font-size="{size}" {FONT} {more}>{words}</text>'


def box(rect, more):
    left, top, right, bottom = rect
    return f'<rect x="{left:.1f}" y="{top:.1f}" width="{max(right - left, 0):.1f}" height="{max(bottom - top, 0):.1f}" {more}/>'


def plate(x, y, words, high=9):
    """The room of a small plate around a place."""
    half = 4 * len(str(words)) + 5
    return Rect(x - half, y - high, x + half, y + high)


def label(x, y, words, fill, ink, high=9):
    """Words on a small plate around a place."""
    return box(plate(x, y, words, high), f'rx="4" {fill}') + text(x, y + high / 2, words, high + 3, f'text-anchor="middle" fill="{ink}"')


def spoken(leaf):
    """A leaf in words, for who points at it."""
    what = {"records": f"{leaf.what} records", "child": f"child, page {leaf.what}", "hole": f"hole, page {leaf.what}"}[leaf.kind]
    ends = ", ".join(f"{low} to {'the greatest' if high == TOP else high}" for low, high in zip(leaf.low, leaf.high))
    return f"{what}: {ends}"


def hatching(pages):
    """A pattern of lines for each page that has a hole."""
    for page in pages:
        if page.holes():
            yield (f'<pattern id="hatch{page.number}" width="5" height="5" patternUnits="userSpaceOnUse" patternTransform="rotate(45)">'
                   f'<rect width="5" height="5" fill="{colour(page.number, 0.93)}"/><rect width="2" height="5" fill="{colour(page.number, 0.42)}"/></pattern>')


# ---- a panel

class Panel:
    """The marks of a level, and the room that its words take."""

    def __init__(self, pages, level, root):
        self.pages, self.level, self.root, self.taken, self.last = pages, level, root, [], []
        self.of_level = [page for page in pages.values() if page.level == level]
        self.scales = scales_of(self.of_level)
        self.width, self.height = (scale.side for scale in self.scales)

    def put(self, room, marks):
        self.taken.append(room)
        return marks

    def is_free(self, room):
        return all(room.right <= it.left or it.right <= room.left or room.bottom <= it.top or it.bottom <= room.top for it in self.taken)

    def leaf_marks(self, page, leaf, rect):
        """A leaf that is no hole: its box, and what it says where there is room."""
        width, height = rect.right - rect.left, rect.bottom - rect.top
        x, y = (rect.left + rect.right) / 2, (rect.top + rect.bottom) / 2
        room = plate(x, y, leaf.what)
        yield f"<g><title>page {page.number}, {spoken(leaf)}</title>"
        yield box(rect, f'fill="{colour(page.number, 0.9)}" stroke="{colour(page.number, 0.4)}" stroke-width="0.8"')
        if leaf.kind == "records" and width > 8 * len(str(leaf.what)) + 4 and height > 14:
            yield self.put(room, text(x, y + 5, leaf.what, 13, 'text-anchor="middle" fill="#222"'))
        if leaf.kind == "child" and width > room.right - room.left + 2 and height > 20:
            yield self.put(room, label(x, y, leaf.what, f'fill="{colour(leaf.what, 0.8)}" stroke="{colour(leaf.what, 0.35)}"', "#222"))
        yield "</g>"

    def number_mark(self, page, rect):
        """The number of a page in the upper left corner of its widest leaf, where it fits beside what stands there."""
        half = 4 * len(str(page.number)) + 5
        room = plate(rect.left + half + 3, rect.top + 12, page.number)
        if rect.right - rect.left > 2 * half + 4 and rect.bottom - rect.top > 22 and self.is_free(room):
            yield self.put(room, label(rect.left + half + 3, rect.top + 12, page.number, f'fill="{colour(page.number, 0.35)}"', "#fff"))

    def page_marks(self, page, sides=(0, 0, 0, 0)):
        """A page and, within its holes, those that they name. Its number stands in its widest leaf, or on the rim of a hole."""
        widest, rims = (0, 0, 0, None), []
        for leaf in page.leaves:
            rect = inner(rectangle(self.scales, leaf.low, leaf.high), shared(leaf, page, sides))
            width, height = rect.right - rect.left, rect.bottom - rect.top
            if leaf.kind == "hole":
                rim = max(1.5, min(RIM, width / 9, height / 9))
                rims.append((rect, rim))
                yield from hole_marks(page, leaf, rect, rim)
                yield from self.page_marks(self.pages[leaf.what], [side + rim for side in shared(leaf, page, sides)])
            else:
                yield from self.leaf_marks(page, leaf, rect)
                widest = max(widest, (min(width, 60) * min(height, 60), -rect.top, -rect.left, rect))
        if widest[0]:
            yield from self.number_mark(page, widest[3])
        else:
            self.last.append((page, rims))

    def rim_marks(self):
        """The numbers of the pages that have nothing but holes, each on a rim, clear of all other numbers."""
        for page, rims in self.last:
            half = 4 * len(str(page.number)) + 5
            places = [(rect.left + part * (rect.right - rect.left), y) for rect, rim in rims for part in (0.25, 0.5, 0.75, 0.1, 0.9)
                      for y in (rect.bottom - rim / 2, rect.top + rim / 2)]
            for x, y in places:
                at = min(max(x, half), self.width - half)
                room = plate(at, y, page.number, 7)
                if self.is_free(room):
                    yield self.put(room, label(at, y, page.number, f'fill="{colour(page.number, 0.35)}" stroke="#fff"', "#fff", 7))
                    break

    def flat_marks(self):
        """Each page's own leaves, without rims: of many pages no rim could be told from the next."""
        for page in self.of_level:
            widest = (0, 0, 0, None)
            for leaf in page.leaves:
                if leaf.kind != "hole":
                    rect = rectangle(self.scales, leaf.low, leaf.high)
                    yield from self.leaf_marks(page, leaf, rect)
                    widest = max(widest, (min(rect.right - rect.left, 60) * min(rect.bottom - rect.top, 60), -rect.top, -rect.left, rect))
            if widest[0]:
                yield from self.number_mark(page, widest[3])

    def marks(self):
        kind = "pages of records" if self.level == 0 else "index pages"
        yield text(0, -12, f"Level {self.level}: {kind}", 14, 'font-weight="bold" fill="#222"')
        if len(self.of_level) > MANY:
            yield from self.flat_marks()
            yield from self.summary()
        else:
            yield from self.page_marks(whole_pages(self.pages, self.level)[0])
            yield from self.rim_marks()
            yield from self.legend()
        yield from axis_marks(self.scales)

    def summary(self):
        """What the legend says of a level of many pages."""
        weights = sorted(page.weight for page in self.of_level)
        orphans = sum(page.parents == 0 and page.number != self.root for page in self.of_level)
        for at, words in enumerate((f"{len(weights)} pages", f"weight {weights[0]} to {weights[-1]}, {weights[len(weights) // 2]} in the middle",
                                    f"{orphans} without a parent")):
            yield text(self.width + 28, 12 + LINE * at, words, 12, 'fill="#222"')

    def rows(self):
        return max(1, int(self.height) // LINE)

    def said(self):
        """A line of the legend for each page."""
        holder = {leaf.what: page.number for page in self.of_level for leaf in page.holes()}
        for page in self.of_level:
            said = [f"weight {page.weight}", "root" if page.number == self.root else f"parents {page.parents}"]
            yield page, ", ".join(said + ([f"hole of {holder[page.number]}"] if page.number in holder else []))

    def column(self):
        """How wide a column of the legend is."""
        return 42 + max(7.5 * len(f"page {page.number}: {words}") for page, words in self.said())

    def whole_width(self):
        if len(self.of_level) > MANY:
            return self.width + 300
        return self.width + 28 + self.column() * -(-len(self.of_level) // self.rows())

    def legend(self):
        """A line for each page of the level, in columns."""
        for at, (page, words) in enumerate(self.said()):
            left, top = self.width + 28 + at // self.rows() * self.column(), at % self.rows() * LINE
            yield box(Rect(left, top, left + 14, top + 14), f'fill="{colour(page.number, 0.9)}"')
            if page.holes():
                yield box(Rect(left, top, left + 14, top + 7), f'fill="url(#hatch{page.number})"')
            yield box(Rect(left, top, left + 14, top + 14), f'fill="none" stroke="{colour(page.number, 0.4)}"')
            yield text(left + 21, top + 12, f'<tspan font-weight="bold">page {page.number}</tspan>: {words}', 12, 'fill="#222"')


def hole_marks(page, leaf, rect, rim):
    """A hole: a hatched rim."""
    within = inner(rect, [rim] * 4)
    rings = "".join(f"M{at.left:.1f} {at.top:.1f}H{at.right:.1f}V{at.bottom:.1f}H{at.left:.1f}Z" for at in (rect, within))
    yield (f'<g><title>page {page.number}, {spoken(leaf)}</title><path d="{rings}" fill-rule="evenodd" fill="url(#hatch{page.number})" '
           f'stroke="{colour(page.number, 0.4)}" stroke-width="0.8"/></g>')


def axis_marks(scales):
    """The cuts below and beside a panel, as many as have room."""
    across, up = scales
    for axis, scale in enumerate(scales):
        last = -99
        for end in scale.ends:
            at, word = scale.place(end), "2⁶⁴" if end > TOP else str(end)
            room = 13 if axis else 7 * len(word) + 8
            if at - last < room or (end <= TOP and scale.side - at < room):
                continue
            last = at
            if axis:
                yield text(-8, up.side - at + 4, word, 10, 'text-anchor="end" fill="#555"')
                yield f'<path d="M-5 {up.side - at:.1f}h5" stroke="#777"/>'
            else:
                yield text(at, up.side + 17, word, 10, 'text-anchor="middle" fill="#555"')
                yield f'<path d="M{at:.1f} {up.side}v5" stroke="#777"/>'


def picture(said, pages, levels):
    panels = [Panel(pages, level, said["root"]) for level in levels]
    words = [*KEY, MANY_KEY] if any(len(panel.of_level) > MANY for panel in panels) else KEY
    head = HEAD + 17 * (len(words) - 2)
    width = LEFT + max(720, *(panel.whole_width() for panel in panels))
    height = head + sum(ABOVE + panel.height + BELOW for panel in panels)
    yield f'<svg xmlns="http://www.w3.org/2000/svg" width="{width:.0f}" height="{height:.0f}" viewBox="0 0 {width:.0f} {height:.0f}">'
    drawn = [page for panel in panels for page in panel.of_level if len(panel.of_level) <= MANY]
    yield f'<rect width="{width:.0f}" height="{height:.0f}" fill="#fff"/><defs>{"".join(hatching(drawn))}</defs>'
    yield text(LEFT, 28, f"Height {said['height']}, {said['pages']} pages in use, {said['free']} free", 16, 'font-weight="bold" fill="#222"')
    for at, line in enumerate(words):
        yield text(LEFT, 49 + 17 * at, line, 12, 'fill="#444"')
    top = head
    for panel in panels:
        yield f'<g transform="translate({LEFT} {top + ABOVE:.0f})">'
        yield from panel.marks()
        yield "</g>"
        top += ABOVE + panel.height + BELOW
    yield "</svg>"


def wanted_levels(said, words):
    """The levels to draw, the highest first."""
    if not words:
        return list(reversed(range(said["height"])))
    if not words[0].isdigit() or int(words[0]) >= said["height"]:
        raise NoMap(f"no level {words[0]}: the file has the levels 0 to {said['height'] - 1}")
    return [int(words[0])]


def main():
    sys.setrecursionlimit(100000)
    file, *words = sys.argv[1:] or ["-"]
    try:
        with open(file, encoding="ascii") if file != "-" else sys.stdin as lines:
            said, pages = read_map(iter(lines))
        for line in picture(said, pages, wanted_levels(said, words)):
            print(line)
    except (NoMap, OSError, UnicodeDecodeError) as fault:
        sys.exit(f"draw.py: {fault}")


if __name__ == "__main__":
    main()
