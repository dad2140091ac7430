"""Logs spoiled: gates and lengths of frames, bytes of groups, operations, page images, and their order."""
from reading import OPEN, log_at, whole_page
from files import OPS, fresh_page, group_bytes, live, more_page_images, near, noise, some_cuts, spelled_or_none
from model import TOP, normal, whole
from making import a_box, break_page, data_page, parts_of, point_in, tree_of, value


# ---- frames

def a_frame(rng, file):
    return rng.randrange(len(file.frames)) if file.frames else None


def frame_gate(rng, file, meta, pages):
    which = a_frame(rng, file)
    if which is not None:
        file.writes.append((file.frame_places()[which][0], bytes([rng.choice((0, 0, 0xA4, rng.randrange(256)))])))


def frame_length(rng, file, meta, pages):
    which = a_frame(rng, file)
    if which is not None:
        at, length = file.frame_places()[which]
        rest = log_at(file.turn, file.meta) + file.meta["log"] - at - 5
        new = rng.choice((0, length - 1, length + 1, rest - 1, rest, rest + 1, near(rng, length), 2 ** 31, length + 256))
        file.writes.append((at + 1, max(0, new).to_bytes(4, "big")))


def log_byte(rng, file, meta, pages):
    """A byte of a payload, mostly in the front of its first page image or in its operation."""
    which = a_frame(rng, file)
    if which is not None:
        at, length = file.frame_places()[which]
        spot = rng.choice((rng.randrange(length), rng.randrange(min(length, 120)), length - 1 - rng.randrange(min(length, 50))))
        new = rng.choice((0, 1, 2, 3, 4, 5, 6, 33, 255, rng.randrange(256)))
        file.writes.append((at + 5 + spot, bytes([new]) if rng.random() < 0.9 else noise(rng, 6)))


def frames_moved(rng, file, meta, pages):
    which = a_frame(rng, file)
    if which is None:
        return
    frames, kind = file.frames, rng.randrange(5)
    if kind == 0:
        del frames[which]
    elif kind == 1:
        frames.insert(rng.randrange(len(frames) + 1), frames[which])
    elif kind == 2:
        other = rng.randrange(len(frames))
        frames[which], frames[other] = frames[other], frames[which]
    elif which + 1 < len(frames) and kind == 3:
        frames[which] = frames[which] + frames.pop(which + 1)
    else:
        frames[which:which + 1] = [[group] for group in frames[which]]


def frame_added(rng, file, meta, pages):
    """Bytes behind the last frame: a frame that is none of groups, or one that is cut short."""
    group = group_bytes([], ("grow", 1, 0))
    bad = rng.choice((b"", b"\0", group[:-1], group + b"\0", b"\4" + group[1:], b"\0\5" + bytes(12), b"\0\7", b"\0\0" + bytes(8), noise(rng, 20)))
    length = len(bad) if rng.random() < 0.8 else near(rng, len(bad))
    file.tail = bytes([OPEN]) + length.to_bytes(4, "big") + bad


# ---- groups

def path_spoiled(rng, path):
    at = rng.randrange(len(path) + 1)
    return rng.choice((path[:at], path[:at] + rng.choice("LR") + path[at:], path[:-1] + rng.choice("LR"), path + rng.choice("LR") * rng.choice((1, 1, 60))))


def point_spoiled(rng, point):
    axis = rng.randrange(len(point))
    new = min(max(rng.choice((point[axis] - 1, point[axis] + 1, value(rng, 0, TOP))), 0), TOP)
    return rng.choice((point[:axis] + (new,) + point[axis + 1:], point_in(rng, whole(len(point)))))


def cuts_spoiled(rng, cuts, k):
    kind = rng.randrange(5)
    if not cuts or kind == 0:
        return cuts + [(rng.randrange(k), value(rng, 0, TOP), rng.choice("LR"))]
    at = rng.randrange(len(cuts))
    axis, where, side = cuts[at]
    if kind == 1:
        new = []
    elif kind == 2:
        new = [(rng.choice((rng.randrange(k), k, 255)), where, side)]
    elif kind == 3:
        new = [(axis, min(max(where + rng.choice((-1, 1)), 0), TOP), side)]
    else:
        new = [(axis, where, "R" if side == "L" else "L")]
    return cuts[:at] + new + cuts[at + 1:]


def box_spoiled(rng, box):
    lo, hi = box
    kind = rng.randrange(4)
    if kind == 0:
        return point_spoiled(rng, lo), hi
    if kind == 1:
        return lo, point_spoiled(rng, hi)
    return a_box(rng, len(lo)) if kind == 2 else (hi, lo)


def op_spoiled(rng, op, k):
    kind, *of = op
    which = rng.randrange(len(of))
    if kind == "put" and which == 1:
        point, body = of[1]
        of[1] = rng.choice(((point_spoiled(rng, point), body), (point, b"x" * rng.choice((32, 33, 200))), (point + point[:1], body)))
    elif kind == "del" and which == 1:
        of[1] = point_spoiled(rng, of[1])
    elif kind == "extract" and which == 4:
        of[4] = cuts_spoiled(rng, of[4], k)
    elif kind == "post" and which == 3:
        of[3] = box_spoiled(rng, of[3])
    elif (kind, which) in (("extract", 3), ("post", 1)):
        of[which] = path_spoiled(rng, of[which])[:255]
    else:
        of[which] = near(rng, of[which])
    return (kind, *of)


def a_group(rng, file):
    which = a_frame(rng, file)
    return None if which is None else (which, rng.randrange(len(file.frames[which])))


def group_op(rng, file, meta, pages):
    place = a_group(rng, file)
    if place:
        which, at = place
        images, op = file.frames[which][at]
        file.frames[which][at] = (images, op_spoiled(rng, op, file.meta["k"]))


def page_image_spoiled(rng, images, at, meta, pages):
    """Page images with one that is another page, or has another number."""
    number, text = images[at]
    kind = rng.randrange(5)
    if kind == 0:
        number = rng.choice((0, meta["high"], meta["high"] + 1, near(rng, number)))
    elif kind == 1:
        text = whole_page(rng.choice(sorted(pages.items()))[1])
    elif kind == 2:
        spot = rng.randrange(90)
        new = noise(rng, rng.choice((1, 1, 8)))
        text = text[:spot] + new + text[spot + len(new):]
    else:
        text = spelled_or_none(break_page(rng, pages.get(number), meta, list(pages.values()))) or text
    return images[:at] + [(number, text)] + images[at + 1:]


def group_page_images(rng, file, meta, pages):
    place = a_group(rng, file)
    if not place:
        return
    which, at = place
    images, op = file.frames[which][at]
    images = list(images)
    kind = rng.randrange(6)
    if not images or kind == 0:
        more_page_images(rng, images, pages, rng.randint(1, 3))
    elif kind == 1:
        del images[rng.randrange(len(images))]
    elif kind == 2:
        images.append(rng.choice((images[0], (near(rng, images[0][0]), images[0][1]))))
        images = images[:3]
    else:
        images = page_image_spoiled(rng, images, rng.randrange(len(images)), meta, pages)
    file.frames[which][at] = (images, op)


def any_op(rng, meta, pages):
    """An operation of any kind, as a writer would do it or nearly so."""
    op = rng.choice(OPS)(rng, meta, pages)
    if op is None or rng.random() < 0.1:
        taken = fresh_page(meta, pages) or (near(rng, meta["high"]), near(rng, meta["free"]))
        op = rng.choice((("merge", *rng.sample((1, 2, 3, 4), 3)), ("grow", *taken), ("extract", rng.choice(live(pages)), *taken, "", [])))
    return op_spoiled(rng, op, meta["k"]) if rng.random() < 0.4 else op


def group_added(rng, file, meta, pages):
    """A group behind the log, or at a place where it may not fit."""
    op = any_op(rng, meta, pages)
    images = [(op[1], whole_page(pages[op[1]]))] if op[1] in pages and op[0] != "grow" and rng.random() < 0.8 else []
    at = len(file.frames) if rng.random() < 0.7 else rng.randrange(len(file.frames) + 1)
    file.frames.insert(at, [(images, op)])


def box_in(rng, area):
    both = [sorted((value(rng, low, high), value(rng, low, high))) for low, high in zip(*area)]
    return tuple(low for low, _ in both), tuple(high for _, high in both)


def full_index(rng, meta):
    """An index page with few leaves, or about as many as it may have."""
    many = rng.choice((4, meta["icap"], meta["icap"] + 2, meta["icap"] + 5))
    return (1, whole(meta["k"]), tree_of(rng, whole(meta["k"]), many, lambda _: (rng.choice(("child",) * 5 + ("sibling",)), rng.randint(2, 60))))


def page_added(rng, file, meta, pages):
    """A group behind the log with a page of its own, at its capacity or just above it, and an operation on it."""
    number, k = rng.randint(1, meta["high"]), meta["k"]
    if meta["height"] == 1 or rng.random() < 0.3:
        page = data_page(rng, k, 4)
    else:
        page = full_index(rng, meta)
    page = (page[0], page[1], normal(page[2]))
    parts = list(parts_of(page[2], page[1]))
    path, part, area = rng.choice([p for p in parts if p[1][0] == "child"] or parts)
    if rng.random() < 0.3:
        path, part, area = rng.choice(parts)
    taken = fresh_page(meta, pages) or (meta["high"] + 1, 0)
    op = rng.choice((
        ("put", number, (point_in(rng, area), b"")),
        ("del", number, rng.choice(part[1])[0] if part[0] == "records" and part[1] else point_in(rng, area)),
        ("extract", number, *taken, path, some_cuts(rng, part, k, rng.randint(0, 4)) if part[0] == "records" else []),
        ("post", number, path, rng.randint(2, 9), rng.choice((area, a_box(rng, k)))),
        ("post", number, path, rng.randint(2, 9), box_in(rng, area)),
        ("post", number, path, rng.randint(2, 9), box_in(rng, area)),
    ))
    text = spelled_or_none(page)
    if text:
        file.frames.append([([(number, text)], op)])
