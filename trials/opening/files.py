"""Random files as a writer would leave them, as parts that can be spoiled and then spelled.

A file has a superblock, a log of frames, and the places of its pages. It is made by random operations
of all five kinds: some before the turn, whose pages stand in their places, and some in its log, with
the page images that a writer gives. What stands in the places of pages that the log touches is free.
"""
import struct

from reading import OPEN, PAGE, Bad, body_bytes, log_at, page_at, size_of, whole_page
from replaying import change
from model import leaf_at, leaves, page_bytes, post_plan, whole
from making import parts_of, point_in


class File:
    def __init__(self, meta, turn, frames, places):
        self.meta, self.turn, self.frames, self.places = meta, turn, frames, places
        self.other = b""    # what stands in the other superblock's place
        self.tail = b""     # what stands behind the last frame
        self.idle = b""     # what stands in the log area that isn't in use
        self.behind = b""   # what stands behind the layout
        self.writes = []    # bytes that are put over all of it, each with its place
        self.size = None    # how long the disk is, where the layout doesn't say it

    def copy(self):
        made = File(dict(self.meta), self.turn, [list(frame) for frame in self.frames], dict(self.places))
        made.other, made.tail, made.idle, made.behind, made.size = self.other, self.tail, self.idle, self.behind, self.size
        made.writes = list(self.writes)
        return made

    def frame_places(self):
        """Where each frame begins, and the length of its payload."""
        at, found = log_at(self.turn, self.meta), []
        for frame in self.frames:
            length = sum(len(group_bytes(*group)) for group in frame)
            found.append((at, length))
            at += 5 + length
        return found

    def spelled(self):
        meta, size = self.meta, size_of(self.meta)
        text = bytearray(size)
        newest = PAGE * (self.turn % 2)
        text[newest:newest + 41] = bytes([OPEN]) + body_bytes(self.turn, meta)
        self.lay(text, PAGE - newest, self.other[:PAGE])
        log = b"".join(frame_bytes(frame) for frame in self.frames) + self.tail
        self.lay(text, log_at(self.turn, meta), log[:meta["log"]])
        self.lay(text, log_at(self.turn + 1, meta), self.idle[:meta["log"]])
        for number, page in self.places.items():
            if 1 <= number <= meta["pages"]:
                self.lay(text, page_at(number, meta), page)
        text += self.behind
        if self.size is not None:
            del text[self.size:]
            text += bytes(self.size - len(text))
        for at, piece in self.writes:
            if at < len(text):
                self.lay(text, at, piece[:len(text) - at])
        return bytes(text)

    @staticmethod
    def lay(text, at, piece):
        text[at:at + len(piece)] = piece


# ---- bytes of groups

def values(point):
    return b"".join(struct.pack(">Q", x) for x in point)


def path_bytes(path):
    return bytes([len(path)]) + bytes("LR".index(side) for side in path)


def op_bytes(op):
    kind, *of = op
    if kind == "put":
        number, (point, body) = of
        return struct.pack(">BI", 1, number) + values(point) + bytes([len(body)]) + body
    if kind == "del":
        return struct.pack(">BI", 2, of[0]) + values(of[1])
    if kind == "extract":
        source, fresh, after, path, made = of
        cuts = b"".join(struct.pack(">BQB", axis, value, "LR".index(side)) for axis, value, side in made)
        return struct.pack(">BIII", 3, source, fresh, after) + path_bytes(path) + bytes([len(made)]) + cuts
    if kind == "post":
        parent, path, inner, (lo, hi) = of
        return struct.pack(">BI", 4, parent) + path_bytes(path) + struct.pack(">I", inner) + values(lo + hi)
    if kind == "merge":
        return struct.pack(">BIII", 5, *of)
    return struct.pack(">BII", 6, *of)


def group_bytes(images, op):
    return bytes([len(images)]) + b"".join(struct.pack(">I", number) + page for number, page in images) + op_bytes(op)


def frame_bytes(frame):
    payload = b"".join(group_bytes(*group) for group in frame)
    return struct.pack(">BI", OPEN, len(payload)) + payload


def near(rng, n, width=4):
    """A number of so many bytes: close to n, or small, or any."""
    top = 256 ** width - 1
    new = rng.choice((n - 1, n - 1, n + 1, n + 1, n + 2, rng.randint(0, 9), rng.randint(0, 9), top, rng.randint(0, top)))
    return min(max(new, 0), top)


def spelled_or_none(page):
    text = page_bytes(page)
    return text.ljust(PAGE, b"\0") if len(text) <= PAGE else None


# ---- operations that a writer may do

def fresh_page(meta, pages):
    """The page that an allocation takes, and the free head behind it, or None."""
    if meta["live"] >= meta["pages"]:
        return None
    if meta["free"]:
        return meta["free"], pages[meta["free"]][1]
    return meta["high"] + 1, 0


def live(pages, least=0):
    return [i for i, page in pages.items() if page[0] != "free" and page[0] >= least]


def a_body(rng):
    return bytes(rng.randrange(33, 127) for _ in range(rng.choice((0, 0, 0, 1, 1, 5, 32))))


def a_put(rng, meta, pages):
    point = point_in(rng, whole(meta["k"]))
    for i in live(pages):
        found = leaf_at(pages[i], point) if pages[i][0] == 0 else None
        if found and found[0][0] == "records":
            return ("put", i, (point, a_body(rng)))
    return None


def a_del(rng, meta, pages):
    there = [(i, r[0]) for i in live(pages) if pages[i][0] == 0 for leaf, _ in leaves(pages[i][2], pages[i][1]) if leaf[0] == "records" for r in leaf[1]]
    return ("del", *rng.choice(there)) if there else None


def some_cuts(rng, part, k, most):
    made, records = [], part[1]
    while len(made) < most:
        axis = rng.randrange(k)
        found = sorted({p[axis] for p, _ in records})[1:]
        if not found:
            break
        value, side = rng.choice(found), rng.choice("LR")
        made.append((axis, value, side))
        records = [r for r in records if (r[0][axis] < value) == (side == "L")]
    return made


def an_extract(rng, meta, pages):
    taken = fresh_page(meta, pages)
    if taken is None:
        return None
    source = rng.choice(live(pages))
    parts = [(path, part) for path, part, _ in parts_of(pages[source][2], pages[source][1])]
    path, part = rng.choice(parts)
    most = rng.choice((1, 1, 1, 2, 3)) if part[0] == "records" and (path == "" or rng.random() < 0.7) else 0
    return ("extract", source, *taken, path, some_cuts(rng, part, meta["k"], most) if most else [])


def a_post(rng, meta, pages):
    above = live(pages, 1)
    if not above:
        return None
    parent = rng.choice(above)
    point = point_in(rng, pages[parent][1])
    leaf = leaf_at(pages[parent], point)[0]
    if leaf[0] != "child":
        return None
    plan = post_plan(pages[parent], pages[leaf[1]], point, meta["icap"])
    return ("post", parent, *plan[1:4]) if plan[0] == "post" else None


def a_grow(rng, meta, pages):
    taken = fresh_page(meta, pages)
    return ("grow", *taken) if taken and meta["height"] < rng.choice((2, 2, 3, 3, 4)) else None


OPS = (a_put,) * 8 + (a_del,) + (an_extract,) * 4 + (a_post,) * 4 + (a_grow,)


def step(rng, meta, pages):
    """One operation that may be done: it, the meta behind it, and the pages that it sets; or None."""
    op = rng.choice(OPS)(rng, meta, pages)
    try:
        return op and (op, *change(op, meta, pages))
    except Bad:
        return None


def free_one(meta, pages):
    """The highest page, that was in use once, and isn't any more."""
    if meta["high"] < meta["pages"]:
        meta["high"] += 1
        pages[meta["high"]] = ("free", meta["free"])
        meta["free"] = meta["high"]


# ---- whole files

def a_layout(rng):
    return dict(
        k=rng.choice((1, 1, 2, 2, 3, 4)),
        pages=rng.choice((1, 2, 3, 4, 5, 6, 6, 7, 7, 8, 8, 8)),
        log=rng.choice((65536, 65536, 65536, 65537, 65536 + rng.randrange(3000))),
        dcap=rng.choice((6, 6, 6, 7, 8, 9, 12, 48)),
        icap=rng.choice((32, 32, 33, 40, 256)),
        root=1, height=1, high=1, live=1, free=0,
    )


def a_beginning(rng):
    """What the file was when its turn began."""
    meta = a_layout(rng)
    first = {point_in(rng, whole(meta["k"])) for _ in range(rng.randint(0, 5))}
    pages = {1: (0, whole(meta["k"]), ("records", sorted((p, a_body(rng)) for p in first)))}
    for _ in range(rng.choice((0, 10, 30, 50, 50))):
        if rng.random() < 0.03:
            free_one(meta, pages)
        done = step(rng, meta, pages)
        if done:
            meta = done[1]
            pages.update(done[2])
    return meta, pages


def more_page_images(rng, images, pages, most):
    """Page images that no writer would give, of pages as they are."""
    numbers = {number for number, _ in images}
    for number in rng.sample(sorted(pages), min(len(pages), most)):
        if number not in numbers and len(images) < 3:
            images.append((number, whole_page(pages[number])))


def a_log(rng, meta, pages, most, full):
    """Frames of one group or more, and the pages that they touched. `pages` become those behind the log."""
    frames, known = [], set()
    for _ in range(most):
        done = step(rng, meta, pages)
        if not done:
            continue
        op, said, made = done
        reads = [] if op[0] == "grow" else [op[1]]
        images = [(i, whole_page(pages[i])) for i in reads if i not in known]
        if full:
            more_page_images(rng, images, pages, 3)
        elif rng.random() < 0.05:
            more_page_images(rng, images, pages, 1)
        known.update(reads, made, (number for number, _ in images))
        meta = said
        pages.update(made)
        if frames and rng.random() < 0.15:
            frames[-1].append((images, op))
        else:
            frames.append([(images, op)])
    return meta, frames, known


def noise(rng, count):
    return bytes(rng.choice((0, 1, 2, 3, 255, OPEN, rng.randrange(256))) for _ in range(count))


def a_place(rng, old, new):
    """What stands in the place of a page that the log touches."""
    kind = rng.random()
    if kind < 0.3 and old is not None:
        return whole_page(old)
    if kind < 0.6:
        return whole_page(new)
    if kind < 0.8 and old is not None:
        at = rng.randrange(300)
        return whole_page(new)[:at] + whole_page(old)[at:]
    return noise(rng, rng.choice((0, 5, 60)))


def other_super(rng, meta, behind, turn):
    """What stands in the place of the superblock that isn't the newest."""
    older = dict(meta, root=rng.randint(1, 3), high=rng.randint(0, 9), live=rng.randint(0, 9), free=rng.randint(0, 3), height=rng.randint(1, 3))
    before, after = body_bytes((turn - 1) % 4, older), body_bytes((turn + 1) % 4, rng.choice((older, behind)))
    kind = rng.randrange(8)
    if kind < 3:
        return bytes([OPEN]) + before
    if kind == 3:
        return b""
    if kind == 4:
        return bytes([OPEN]) + before[:rng.randrange(9)] + noise(rng, 40)
    if kind == 5:
        return bytes([rng.choice((0, 0, 0xA4))]) + after
    if kind == 6:
        return bytes([0]) + before
    return bytes([OPEN]) + body_bytes((turn - 1) % 4, dict(older, k=rng.randint(1, 4), pages=rng.randint(1, 99), dcap=rng.randint(6, 48)))


def a_tail(rng):
    """What stands behind the last frame: mostly nothing, or a frame whose gate isn't open."""
    kind = rng.random()
    if kind < 0.6:
        return b""
    return bytes([rng.choice((0, 0, 0xA4, 0x25))]) + noise(rng, rng.choice((3, 4, 30)))


def a_file(rng):
    """A file that opens, and what it says of itself and has as pages then."""
    meta, pages = a_beginning(rng)
    old, turn, full = dict(pages), rng.randrange(4), rng.random() < 0.06
    behind, frames, touched = a_log(rng, meta, pages, 40 if full else rng.choice((0, 3, 6, 12, 20)), full)
    places = {i: a_place(rng, old.get(i), page) if i in touched else whole_page(page) for i, page in pages.items()}
    for i in range(behind["high"] + 1, meta["pages"] + 1):
        places[i] = noise(rng, rng.choice((0, 0, 9)))
    file = File(meta, turn, frames, places)
    length = sum(len(frame_bytes(frame)) for frame in frames)
    file.tail = a_tail(rng)
    if length > meta["log"] - 5:
        # the area ends where the log does, or a few bytes behind it: below five of them are no frame
        meta["log"] = max(65536, length + rng.randrange(7))
        file.tail = bytes([OPEN if meta["log"] < length + 5 else 0]) * 7
    behind = dict(behind, log=meta["log"])
    file.other = other_super(rng, meta, behind, turn)
    if rng.random() < 0.5:
        file.idle = rng.choice((b"".join(frame_bytes(frame) for frame in frames[1:]), bytes([OPEN]) + noise(rng, 99), noise(rng, 9)))
    if rng.random() < 0.2:
        file.behind = noise(rng, rng.choice((1, 7, 200)))
    return file, behind, pages
