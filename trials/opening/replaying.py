"""What an operation makes of the pages that a log has touched, and what a log's replay does.

An operation gives the meta and the pages that it sets, or raises `Bad` where it isn't allowed.
"""
from reading import Bad, groups
from model import carve, cuts, leaf_at, meets, merge_plan, names, normal, own_rule, renamed, sides, way_to, weight, whole, with_first, with_part


def read(number, meta, pages):
    page = pages.get(number)
    if page is None:
        raise Bad("lacks a page")
    if page[0] == "free" or own_rule(page, meta) is not None:
        raise Bad("page isn't well made")
    return page


def allocated(meta, fresh, after):
    if meta["live"] >= meta["pages"]:
        raise Bad("no page is left")
    if meta["free"] != 0:
        good = fresh == meta["free"] and fresh <= meta["high"]
    else:
        good = fresh == meta["high"] + 1 and fresh <= meta["pages"] and after == 0
    if not good:
        raise Bad("allocation")
    return dict(meta, free=after, high=max(meta["high"], fresh), live=meta["live"] + 1)


def records_at(page, point):
    found = leaf_at(page, point)
    if page[0] != 0 or found is None or found[0][0] != "records":
        raise Bad("no records leaf")
    return found[0][1], way_to(page[2], point)


def put(meta, pages, number, record):
    page = read(number, meta, pages)
    records, path = records_at(page, record[0])
    if record[0] in [point for point, _ in records]:
        raise Bad("point is there")
    tree = with_part(page[2], path, ("records", sorted(records + [record])))
    if weight(tree) > meta["dcap"]:
        raise Bad("put weighs too much")
    return meta, {number: page[:2] + (tree,)}


def delete(meta, pages, number, point):
    page = read(number, meta, pages)
    records, path = records_at(page, point)
    left = [record for record in records if record[0] != point]
    if len(left) == len(records):
        raise Bad("point isn't there")
    return meta, {number: page[:2] + (with_part(page[2], path, ("records", left)),)}


def part_at(page, path):
    level, area, part = page
    for side in path:
        if part[0] != "cut":
            raise Bad("path leaves the page")
        below, above = sides(area, part[1], part[2])
        part, area = (part[3], below) if side == "L" else (part[4], above)
    return part, area


def cut_off(part, area, made, fresh):
    """What stays of a part in its page, what goes, and the box of that."""
    if not made:
        if part[0] == "sibling":
            raise Bad("part is a sibling leaf")
        return ("sibling", fresh), part, area
    axis, value, side = made[0]
    if part[0] != "records" or not cuts(area, axis, value):
        raise Bad("no such cut")
    low = ("records", [r for r in part[1] if r[0][axis] < value])
    high = ("records", [r for r in part[1] if r[0][axis] >= value])
    if not low[1] or not high[1]:
        raise Bad("cut with an empty side")
    below, above = sides(area, axis, value)
    if side == "L":
        stays, goes, box = cut_off(low, below, made[1:], fresh)
        return ("cut", axis, value, stays, high), goes, box
    stays, goes, box = cut_off(high, above, made[1:], fresh)
    return ("cut", axis, value, low, stays), goes, box


def extract(meta, pages, source, fresh, after, path, made):
    page, said = read(source, meta, pages), allocated(meta, fresh, after)
    if not path and not made:
        raise Bad("whole page")
    part, area = part_at(page, path)
    stays, goes, box = cut_off(part, area, made, fresh)
    # where both numbers are the same, which no sound file has, the new page stands
    return said, {source: page[:2] + (with_part(page[2], path, stays),), fresh: (page[0], box, goes)}


def post(meta, pages, parent, path, inner, box):
    page = read(parent, meta, pages)
    leaf, area = part_at(page, path)
    if page[0] == 0 or leaf[0] != "child" or leaf[1] == inner or not meets(area, box):
        raise Bad("no such posting")
    tree = normal(with_part(page[2], path, carve(area, box, leaf[1], inner)))
    if weight(tree) > meta["icap"]:
        raise Bad("posting weighs too much")
    return meta, {parent: page[:2] + (tree,)}


def capacity(meta, level):
    return meta["dcap"] if level == 0 else meta["icap"]


def merge(meta, pages, parent, keep, gone):
    above, first, second = (read(number, meta, pages) for number in (parent, keep, gone))
    if len({parent, keep, gone}) < 3 or meta["live"] < 1 or not above[0] == first[0] + 1 == second[0] + 1:
        raise Bad("no such pair")
    if not names(above[2], keep) or not names(above[2], gone):
        raise Bad("parent doesn't name them")
    plan = merge_plan(above, first, gone, second, capacity(meta, first[0]))
    if plan != "merge":
        raise Bad(plan)
    tree = normal(with_first(first[2], ("sibling", gone), second[2]))
    said = dict(meta, free=gone, live=meta["live"] - 1)
    return said, {parent: above[:2] + (normal(renamed(above[2], gone, keep)),), keep: first[:2] + (tree,), gone: ("free", meta["free"])}


def grow(meta, pages, fresh, after):
    said = allocated(meta, fresh, after)
    if meta["height"] >= 12:
        raise Bad("too high")
    root = (meta["height"], whole(meta["k"]), ("child", meta["root"]))
    return dict(said, root=fresh, height=meta["height"] + 1), {fresh: root}


KINDS = {"put": put, "del": delete, "extract": extract, "post": post, "merge": merge, "grow": grow}


def change(op, meta, pages):
    return KINDS[op[0]](meta, pages, *op[1:])


# ---- frames

def replayed(payload, meta, touched):
    """What the file says of itself behind a frame, whose pages are set in `touched`."""
    if payload is None:
        raise Bad("length of a frame")
    for images, op in groups(payload, meta["k"]):
        if any(not 1 <= number <= meta["high"] for number, _ in images):
            raise Bad("number of an image")
        touched.update(images)
        try:
            meta, pages = change(op, meta, touched)
        except Bad as why:
            raise Bad(f"{op[0]}: {why}") from None
        touched.update(pages)
    return meta
