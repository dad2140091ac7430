"""The kinds `view` and `spoiled`: pages and bytes that may spell one, questions of a view of them, and the model's answers."""
import os
import struct
import sys

import model
from making import a_box, break_tree, parts_of, point_in, value
from model import holds, leaves, put, weight, well_cut, whole

sys.path.append(os.path.join(os.path.dirname(os.path.dirname(os.path.abspath(__file__))), "opening"))
from reading import Bad, spelled_page

sys.setrecursionlimit(5000)
PAGE, LARGE = 4096, 2 ** 32 - 1
SEEN = dict(leaves=0, cuts=0, bytes=0, wide=0, deep=0, full=0)  # the greatest of the pages asked; how many are great


# ---- random pages

def a_name(rng):
    return rng.choice((rng.randint(0, 9), rng.randint(0, 9), rng.randint(0, LARGE), LARGE))


def a_record(rng, box):
    return point_in(rng, box), rng.randbytes(rng.choice((0, 1, 1, 3, 32, rng.randint(0, 32))))


def a_leaf(rng, box, kinds, most):
    kind = rng.choice(kinds)
    if kind != "records":
        return (kind, a_name(rng))
    records = [a_record(rng, box) for _ in range(rng.randint(0, most))]
    return (kind, sorted(dict(records).items()) if rng.random() < 0.95 else records)


def a_tree(rng, box, parts, leaf, far):
    """So many leaves, or fewer where a box can't be cut. Cuts are far from the ends of a box, or often near one."""
    axes = [a for a in range(len(box[0])) if box[0][a] < box[1][a]]
    if parts == 1 or not axes:
        return leaf(box)
    axis = rng.choice(axes)
    least, greatest = box[0][axis] + 1, box[1][axis]
    at = rng.randint(least, greatest) if far else value(rng, least, greatest)
    below, above = model.sides(box, axis, at)
    few = rng.choice((parts // 2, rng.randint(1, parts - 1)))
    return ("cut", axis, at, a_tree(rng, below, few, leaf, far), a_tree(rng, above, parts - few, leaf, far))


def chain(rng, box, cuts, leaf, sides):
    """Cuts one below the other, each on a side of the one before."""
    axes = [a for a in range(len(box[0])) if box[0][a] + 4 < box[1][a]]
    if cuts == 0 or not axes:
        return leaf(box)
    axis, side = rng.choice(axes), rng.choice(sides)
    at = box[1][axis] - rng.randint(0, 3) if side == "L" else box[0][axis] + rng.randint(1, 4)
    below, above = model.sides(box, axis, at)
    if side == "L":
        return ("cut", axis, at, chain(rng, below, cuts - 1, leaf, sides), leaf(above))
    return ("cut", axis, at, leaf(below), chain(rng, above, cuts - 1, leaf, sides))


def filled(rng, page):
    """The page with records more in one of its leaves, up to the last of its bytes."""
    level, box, tree = page
    lists = [(path, part, area) for path, part, area in parts_of(tree, box) if part[0] == "records"]
    if not lists:
        return page
    path, part, area = rng.choice(lists)
    records, least, room = list(part[1]), 8 * len(box[0]) + 1, PAGE - len(model.page_bytes(page))
    while room >= least:
        length = min(32, room - least)
        if 0 < room - least - length < least:
            length = 0
        records.append((point_in(rng, area), rng.randbytes(length)))
        room -= least + length
    if rng.random() < 0.5:
        records.sort()
    return (level, box, model.with_part(tree, path, ("records", records)))


def a_page(rng):
    if rng.random() < 0.06:
        return ("free", a_name(rng))
    k, kind = rng.randint(1, 4), rng.random()
    box = whole(k) if rng.random() < 0.6 else a_box(rng, k)
    far = rng.random() < 0.6
    if kind < 0.45:
        most = rng.choice((2, 6, 12, 48))
        page = (0, box, a_tree(rng, box, rng.randint(1, 12), lambda b: a_leaf(rng, b, ("records", "records", "sibling"), most), far))
    elif kind < 0.8:
        parts = rng.choice((rng.randint(1, 12), rng.randint(2, 40), rng.randint(1, 256), 256))
        kinds = rng.choice((("child",), ("child", "child", "child", "sibling"), ("sibling", "child")))
        page = (rng.randint(1, 11), box, a_tree(rng, box, parts, lambda b: a_leaf(rng, b, kinds, 0), far))
    elif kind < 0.9:
        kinds = rng.choice((("records",), ("records", "child"), ("child", "sibling"), ("records", "child", "sibling")))
        few = 13 if kinds == ("records",) else 15
        most = (PAGE - 4 - 16 * k - few + 10) // few
        cuts = rng.choice((rng.randint(1, most), most))
        page = (rng.choice((0, 1)), whole(k), chain(rng, whole(k), cuts, lambda b: a_leaf(rng, b, kinds, 0), rng.choice(("L", "R", "LR"))))
    else:
        kinds = ("records", "records", "child", "sibling")
        page = (rng.choice((0, 1, 12, 255)), box, a_tree(rng, box, rng.randint(1, 24), lambda b: a_leaf(rng, b, kinds, 5), far))
    return page


def changed(rng, page):
    """Most pages as they are, some with their tree broken, their box changed, or filled to the last byte."""
    if page[0] == "free" or rng.random() < 0.6:
        return page
    level, (lo, hi), tree = page
    if rng.random() < 0.2 and len(model.page_bytes(page)) < PAGE:
        return filled(rng, page)
    tree = break_tree(rng, tree, (lo, hi))
    if well_cut(tree, (lo, hi)) and rng.random() < 0.5:
        tree = break_tree(rng, tree, (lo, hi))
    if rng.random() < 0.1:
        axis = rng.randrange(len(lo))
        hi = put(hi, axis, rng.randint(lo[axis], hi[axis]))
    return (level, (lo, hi), tree)


def a_spelled(rng):
    """A page and its fields, which have room in 4,096 bytes."""
    while True:
        page = changed(rng, a_page(rng))
        fields = model.page_fields(page)
        if sum(map(len, fields)) <= PAGE:
            return page, fields


# ---- bytes that were spoiled

def other_byte(rng, byte):
    return rng.choice((rng.randrange(256), rng.randrange(5), 255, (byte + 1) % 256, (byte - 1) % 256, byte ^ 1 << rng.randrange(8)))


def with_bytes(rng, text, end):
    text = bytearray(text)
    for _ in range(rng.randint(1, 3)):
        at = rng.choice((rng.randrange(end), rng.randrange(end), rng.randrange(min(end, 24)), min(end, PAGE - 1), rng.randrange(PAGE)))
        text[at] = other_byte(rng, text[at])
    return bytes(text)


def cut_short(rng, text, end):
    """Fewer bytes than a page has, or the fields without their last ones."""
    if rng.random() < 0.6:
        return text[:rng.choice((rng.randrange(end), end - 1))].ljust(PAGE, b"\0")
    return text[:rng.choice((0, 1, end, PAGE - 1, rng.randrange(PAGE)))]


def padded(rng, text, end):
    """More bytes than a page has, or more behind its fields or between them."""
    more = rng.choice((b"\0", b"\0\0", b"\1", rng.randbytes(rng.randint(1, 9)), bytes(rng.randint(1, 900))))
    at = rng.choice((PAGE, PAGE, end, end, rng.randrange(end), rng.randrange(PAGE)))
    text = text[:at] + more + text[at:]
    return text if at == PAGE or rng.random() < 0.3 else text[:PAGE]


def out_of_order(rng, fields):
    """Two fields in each other's place, or one in another place, left out or there twice."""
    fields = list(fields)
    at = rng.randrange(len(fields))
    to = rng.choice((rng.randrange(len(fields)), min(at + 1, len(fields) - 1)))
    kind = rng.randrange(5)
    if kind < 2:
        fields[at], fields[to] = fields[to], fields[at]
    elif kind == 2:
        fields.insert(to, fields.pop(at))
    elif kind == 3:
        fields.pop(at)
    else:
        fields.insert(to, fields[at])
    return b"".join(fields).ljust(PAGE, b"\0")


def spoil(rng, fields):
    text = b"".join(fields)
    end, text = len(text), text.ljust(PAGE, b"\0")
    kind = rng.choice(("changed", "cut short", "padded", "out of order"))
    if kind == "out of order":
        return kind, out_of_order(rng, fields)
    return kind, {"changed": with_bytes, "cut short": cut_short, "padded": padded}[kind](rng, text, end)


# ---- questions and answers

def some_points(rng, box, placed):
    points = []
    for _ in range(rng.randint(1, 5)):
        leaf, area = rng.choice(placed)
        at = rng.choice((area[0], area[1], point_in(rng, area), point_in(rng, box)))
        if leaf[0] == "records" and leaf[1] and rng.random() < 0.6:
            at = rng.choice(leaf[1])[0]
        if holds(box, at):
            points.append(at)
    return points


def some_names(rng, placed):
    there = [leaf[1] for leaf, _ in placed if leaf[0] != "records"] or [0]
    return [rng.choice((rng.choice(there), rng.choice(there), min(LARGE, rng.choice(there) + 1), a_name(rng))) for _ in range(4)]


def asked_of(rng, page):
    """Points of the page, page numbers, and what a file says of its attributes, levels and capacities."""
    if page is None or page[0] == "free":
        return [], [], dict(k=1, height=1, dcap=6, icap=32)
    level, box, tree = page
    k, n, placed = len(box[0]), weight(tree), []
    if well_cut(tree, box):
        placed = leaves(tree, box)
    capacities = [max(0, rng.choice((usual, usual, n, n, n + 1, n - 1))) for usual in (48, 256)]
    height = rng.choice((min(level + 1, 255), min(level + 1, 255), 12, rng.randrange(256), level))
    meta = dict(k=k if rng.random() < 0.95 else rng.randrange(6), height=height, dcap=capacities[0], icap=capacities[1])
    return some_points(rng, box, placed) if placed else [], some_names(rng, placed), meta


def asked_bytes(k, points, names, meta):
    text = struct.pack(">BB", k, len(points)) + b"".join(struct.pack(f">{k}Q", *p) for p in points)
    text += struct.pack(f">B{len(names)}I", len(names), *names)
    return text + struct.pack(">BBHH", meta["k"], meta["height"], meta["dcap"], meta["icap"])


def area_text(box):
    return "".join(f" {l}..{h}" for l, h in zip(*box))


def leaf_text(leaf):
    return " ." if leaf[0] == "records" else (" ^" if leaf[0] == "child" else " >") + str(leaf[1])


def tree_text(tree):
    if tree[0] == "cut":
        return f"({tree[1]}:{tree[2]} {tree_text(tree[3])} {tree_text(tree[4])})"
    if tree[0] == "records":
        return "".join("".join(f"{x}," for x in p) + body.hex() + ";" for p, body in tree[1]) + "."
    return ("^" if tree[0] == "child" else ">") + str(tree[1])


def point_text(placed, p):
    leaf, area = next((leaf, area) for leaf, area in placed if holds(area, p))
    records = leaf[1] if leaf[0] == "records" else []
    body = next((f"={body.hex()}" for q, body in records if q == p), "none")
    return f"{leaf_text(leaf)}{area_text(area)} {body} {len(records)}"


def first_text(placed, kind, name):
    return next((area_text(area) for leaf, area in placed if leaf == (kind, name)), " none")


def answer_of(page, points, names, meta):
    if page is None:
        return "no page"
    if page[0] == "free":
        return f"free {page[1]}"
    level, box, tree = page
    parts = [f"{level} {weight(tree)}{area_text(box)} {model.own_rule(page, meta) or 'ok'}"]
    if well_cut(tree, box):
        placed = leaves(tree, box)
        parts += [point_text(placed, p) for p in points]
        for name in names:
            parts += [first_text(placed, "sibling", name), first_text(placed, "child", name)]
        parts += [leaf_text(leaf) + area_text(area) for leaf, area in placed]
        parts.append(" end")
    return "".join(parts) + f" {level}{area_text(box)} {tree_text(tree)}"


def depth(tree):
    return 1 + max(depth(tree[3]), depth(tree[4])) if tree[0] == "cut" else 0


def note(page, length):
    count = len(leaves(page[2], page[1]))
    cuts = depth(page[2])
    for name, number in (("leaves", count), ("cuts", cuts), ("bytes", length)):
        SEEN[name] = max(SEEN[name], number)
    SEEN["wide"] += count >= 256
    SEEN["deep"] += cuts >= 200
    SEEN["full"] += length == PAGE


def asked(rng, page, text):
    """A case of bytes that spell a page, or of None."""
    points, names, meta = asked_of(rng, page)
    live = page is not None and page[0] != "free"
    if live:
        note(page, len(text.rstrip(b"\0")))
    given = text.rstrip(b"\0")
    head = struct.pack(">cHH", b"w", len(text), len(given)) + given
    return head + asked_bytes(len(page[1][0]) if live else 1, points, names, meta), answer_of(page, points, names, meta), meta


def view_case(rng):
    page, fields = a_spelled(rng)
    spelled = b"".join(fields).ljust(PAGE, b"\0")
    assert read(spelled) == page
    case, text, meta = asked(rng, page, spelled)
    if page[0] == "free":
        return case, text, "free"
    cut = "" if well_cut(page[2], page[1]) else ", badly cut"
    return case, text, f"rule {model.own_rule(page, meta) or 'none'}{cut}"


def read(text):
    try:
        return spelled_page(text)
    except Bad:
        return None


def spoiled_case(rng):
    kind, text = spoil(rng, a_spelled(rng)[1])
    page = read(text)
    case, told, _ = asked(rng, page, text)
    return case, told, f"{kind}: {'no page' if page is None else 'a page'}"
