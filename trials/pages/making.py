"""Random trees, pages and files for the trials, and files broken at one place. What they are made by is model.py."""
import model
from model import TOP, holds, weight, whole


# ---- random trees and pages

def value(rng, lo, hi):
    """A value of the range: often near one of its ends, or a small number."""
    kind = rng.random()
    if kind < 0.2:
        return lo
    if kind < 0.4:
        return hi
    if kind < 0.8:
        return min(hi, lo + rng.randrange(0, 12))
    return rng.randint(lo, hi)


def point_in(rng, box):
    return tuple(value(rng, l, h) for l, h in zip(*box))


def a_cut(rng, box):
    axes = [a for a in range(len(box[0])) if box[0][a] < box[1][a]]
    if not axes:
        return None
    axis = rng.choice(axes)
    return axis, value(rng, box[0][axis] + 1, box[1][axis])


def records(rng, box, most):
    points = sorted({point_in(rng, box) for _ in range(rng.randint(0, most))})
    return ("records", [(p, bytes(rng.randrange(33, 126) for _ in range(rng.choice((0, 0, 1))))) for p in points])


def tree_of(rng, box, parts, leaf):
    cut = a_cut(rng, box) if parts > 1 else None
    if cut is None:
        return leaf(box)
    axis, at = cut
    below, above = model.sides(box, axis, at)
    few = rng.randint(1, parts - 1)
    return ("cut", axis, at, tree_of(rng, below, few, leaf), tree_of(rng, above, parts - few, leaf))


def cross(rng, k):
    """A page of records around one point, of which each single plane leaves few on one side."""
    middle = tuple(rng.randint(1, 9) for _ in range(k))
    points = {model.put(middle, axis, at) for axis in range(k) for at in (0, 10)} | {middle}
    points |= {point_in(rng, whole(k)) for _ in range(rng.randint(0, 2))}
    return (0, whole(k), ("records", [(p, b"") for p in sorted(points)]))


def data_page(rng, k, most):
    if k > 2 and rng.random() < 0.2:
        return cross(rng, k)
    box = whole(k)
    tree = tree_of(rng, box, rng.randint(1, 6), lambda b: ("sibling", rng.randint(2, 9)) if rng.random() < 0.3 else records(rng, b, most))
    return (0, box, tree)


def index_page(rng, k, most):
    box = whole(k)
    tree = tree_of(rng, box, rng.randint(1, most), lambda b: (rng.choice(("child", "child", "child", "sibling")), rng.randint(2, 9)))
    return (1, box, tree)


def a_box(rng, k):
    lo = tuple(value(rng, 0, TOP) for _ in range(k))
    return (lo, tuple(value(rng, l, TOP) for l in lo))


# ---- sound files, by random operations, and files broken at one place

def a_file(rng):
    k = rng.randint(1, 3)
    meta = dict(k=k, pages=rng.randint(1, 9), dcap=rng.randint(6, 9), icap=32, root=1, height=1, high=1, live=1, free=0)
    pages = {1: (0, whole(k), ("records", []))}
    for _ in range(rng.randint(0, 60)):
        rng.choice((add, add, add, add, split, split, grow, post, post))(rng, meta, pages)
    for _ in range(rng.choice((0, 0, 1, 2))):
        if meta["high"] < meta["pages"]:
            meta["high"] += 1
            pages[meta["high"]] = ("free", meta["free"])
            meta["free"] = meta["high"]
    return meta, [pages[i] for i in range(1, meta["high"] + 1)]


def add(rng, meta, pages):
    p = point_in(rng, whole(meta["k"]))
    for i, (level, box, tree) in list(pages.items()):
        if level != 0 or not holds(box, p):
            continue
        leaf, area = model.leaf_at(pages[i], p)
        if leaf[0] != "records" or p in [q for q, _ in leaf[1]]:
            continue
        new = ("records", sorted(leaf[1] + [(p, b"")]))
        made = model.with_part(tree, model.way_to(tree, p), new)
        if weight(made) <= meta["dcap"]:
            pages[i] = (level, box, made)


def take(meta, pages):
    if meta["live"] >= meta["pages"] or meta["high"] >= meta["pages"]:
        return None
    meta["high"] += 1
    meta["live"] += 1
    return meta["high"]


def parts_of(tree, box, path=""):
    yield path, tree, box
    if tree[0] == "cut":
        below, above = model.sides(box, tree[1], tree[2])
        yield from parts_of(tree[3], below, path + "L")
        yield from parts_of(tree[4], above, path + "R")


def split(rng, meta, pages):
    i = rng.choice(list(pages))
    level, box, tree = pages[i]
    path, part, area = rng.choice(list(parts_of(tree, box)))
    at = None
    if part[0] == "records" and len(part[1]) > 1 and (path == "" or rng.random() < 0.7):
        axis = rng.randrange(meta["k"])
        values = sorted({p[axis] for p, _ in part[1]})[1:]
        if not values:
            return
        at = rng.choice(values)
        low = ("records", [r for r in part[1] if r[0][axis] < at])
        high = ("records", [r for r in part[1] if r[0][axis] >= at])
        below, above = model.sides(area, axis, at)
    elif path == "" or part[0] == "sibling":
        return
    fresh = take(meta, pages)
    if fresh is None:
        return
    if at is None:
        pages[fresh] = (level, area, part)
        left = ("sibling", fresh)
    elif rng.random() < 0.5:
        pages[fresh] = (level, below, low)
        left = ("cut", axis, at, ("sibling", fresh), high)
    else:
        pages[fresh] = (level, above, high)
        left = ("cut", axis, at, low, ("sibling", fresh))
    pages[i] = (level, box, model.with_part(tree, path, left))


def grow(rng, meta, pages):
    if meta["height"] < 4 and (meta["height"] == 1 or rng.random() < 0.3):
        fresh = take(meta, pages)
        if fresh is not None:
            pages[fresh] = (meta["height"], whole(meta["k"]), ("child", meta["root"]))
            meta["root"], meta["height"] = fresh, meta["height"] + 1


def post(rng, meta, pages):
    above = [i for i in pages if pages[i][0] > 0]
    if above:
        i = rng.choice(above)
        p = point_in(rng, pages[i][1])
        leaf, _ = model.leaf_at(pages[i], p)
        if leaf[0] == "child":
            plan = model.post_plan(pages[i], pages[leaf[1]], p, meta["icap"])
            if plan[0] == "post":
                pages[i] = (pages[i][0], pages[i][1], plan[4])


def near(rng, n):
    return min(2 ** 32 - 1, max(0, rng.choice((n - 1, n + 1, n + 2, rng.randint(0, 9)))))


def break_tree(rng, tree, box):
    path, part, area = rng.choice(list(parts_of(tree, box)))
    kind = rng.randrange(7)
    if part[0] == "cut":
        _, axis, at, left, right = part
        new = rng.choice((
            ("cut", axis, max(0, at + rng.choice((-1, 1, 5))) % (TOP + 1), left, right),
            ("cut", rng.randrange(len(box[0])), at, left, right),
            ("cut", axis, at, right, left),
            left,
        ))
    elif kind == 0:
        new = rng.choice((("child", rng.randint(0, 7)), ("sibling", rng.randint(0, 7)), ("records", [])))
    elif kind == 1 and (cut := a_cut(rng, area)):
        new = ("cut", cut[0], cut[1], part if part[0] != "records" else ("records", []), part)
    elif part[0] == "records":
        points = list(part[1])
        if points and kind < 5:
            j = rng.randrange(len(points))
            p, body = points[j]
            axis = rng.randrange(len(p))
            points[j] = (model.put(p, axis, rng.choice((max(0, p[axis] - 1), min(TOP, p[axis] + 1), value(rng, 0, TOP)))), body)
            if rng.random() < 0.3:
                points.sort()
        elif points and kind == 5:
            points.append(points[-1])
        else:
            points += [(point_in(rng, area), b"") for _ in range(rng.randint(1, 7))]
            points = sorted(points)
        new = ("records", points)
    else:
        new = (part[0], near(rng, part[1]))
    return model.with_part(tree, path, new)


def break_page(rng, page, meta, pages):
    if page is None or rng.random() < 0.05:
        return None
    if page[0] == "free":
        return rng.choice((("free", near(rng, page[1])), rng.choice(pages)))
    level, (lo, hi), tree = page
    kind = rng.randrange(10)
    if kind == 0:
        return (near(rng, level), (lo, hi), tree)
    if kind < 3:
        axis = rng.randrange(len(lo))
        new = model.put(lo, axis, min(hi[axis], lo[axis] + 1)) if rng.random() < 0.5 else lo
        return (level, (new, model.put(hi, axis, max(new[axis], hi[axis] - 1))), tree)
    if kind == 3:
        return ("free", rng.choice((0, meta["free"], rng.randint(0, 6))))
    if kind == 4:
        k = rng.randint(1, 4)
        return (level, whole(k), tree if k == len(lo) else ("records", []))
    return (level, (lo, hi), break_tree(rng, tree, (lo, hi)))


def broken(rng):
    meta, pages = a_file(rng)
    for _ in range(rng.choice((0, 1, 1, 1, 1, 2))):
        if rng.random() < 0.25:
            field = rng.choice(("root", "height", "high", "live", "free", "pages", "dcap"))
            meta[field] = near(rng, meta[field])
            meta["height"] = min(12, max(1, meta["height"]))
            meta["pages"] = max(1, meta["pages"])
            meta["dcap"] = max(6, meta["dcap"])
        elif pages:
            i = rng.randrange(len(pages))
            pages[i] = break_page(rng, pages[i], meta, pages)
    return meta, pages
