"""The bytes of a file: its superblocks, pages, frames and groups, read as docs/FORMAT.md has them.

Pages and boxes are those of trials/pages/model.py. A path is a text of L and R. A meta is a dictionary
of the superblock's fields. An operation is one of ("put", page, (point, body)), ("del", page, point),
("extract", source, fresh, after, path, cuts) with cuts of (axis, value, side),
("post", parent, path, inner, box), ("merge", parent, keep, gone) and ("grow", fresh, after).
"""
import os
import struct
import sys

sys.path.insert(0, os.path.join(os.path.dirname(os.path.dirname(os.path.abspath(__file__))), "pages"))
from model import page_bytes

PAGE, OPEN = 4096, 0xA5
FIELDS = (("k", "B"), ("height", "B"), ("pages", "I"), ("log", "I"), ("dcap", "H"), ("icap", "H"), ("root", "I"), ("high", "I"), ("live", "I"), ("free", "I"))
LIMITS = dict(k=(1, 4), height=(1, 12), pages=(1, 65536), log=(65536, 67108864), dcap=(6, 48), icap=(32, 256))


class Bad(Exception):
    """Bytes that are none of what they ought to be, with why."""


class Reader:
    def __init__(self, text):
        self.text, self.at = text, 0

    def take(self, count):
        if self.at + count > len(self.text):
            raise Bad("too few bytes")
        self.at += count
        return self.text[self.at - count:self.at]

    def number(self, width):
        return int.from_bytes(self.take(width), "big")

    def point(self, k):
        return tuple(self.number(8) for _ in range(k))

    def record(self, k):
        point, length = self.point(k), self.number(1)
        if length > 32:
            raise Bad("body")
        return point, self.take(length)

    def side(self):
        byte = self.number(1)
        if byte > 1:
            raise Bad("side")
        return "LR"[byte]

    def path(self):
        return "".join(self.side() for _ in range(self.number(1)))


# ---- pages

def tree_of(reader, k):
    tag = reader.number(1)
    if tag == 0:
        axis, value = reader.number(1), reader.number(8)
        if axis >= k:
            raise Bad("axis")
        left = tree_of(reader, k)
        return ("cut", axis, value, left, tree_of(reader, k))
    if tag == 1:
        return ("records", [reader.record(k) for _ in range(reader.number(2))])
    if tag > 3:
        raise Bad("tag")
    return ("child" if tag == 2 else "sibling", reader.number(4))


def live_of(reader):
    level, k, none = reader.number(1), reader.number(1), reader.number(1)
    if not 1 <= k <= 4 or none != 0:
        raise Bad("head")
    lo, hi = reader.point(k), reader.point(k)
    if any(l > h for l, h in zip(lo, hi)):
        raise Bad("box")
    return (level, (lo, hi), tree_of(reader, k))


def spelled_page(text):
    reader = Reader(text)
    kind = reader.number(1)
    if len(text) != PAGE or kind not in (1, 2):
        raise Bad("kind")
    page = ("free", reader.number(4)) if kind == 2 else live_of(reader)
    if any(text[reader.at:]):
        raise Bad("no zeros")
    return page


KNOWN = {}


def page_of(text):
    """The page of these bytes, or None. What was asked before is kept."""
    if text not in KNOWN:
        if len(KNOWN) > 20000:
            KNOWN.clear()
        try:
            KNOWN[text] = spelled_page(text)
        except Bad:
            KNOWN[text] = None
    return KNOWN[text]


def whole_page(page):
    """All bytes of a page."""
    text = page_bytes(page)
    assert len(text) <= PAGE
    return text.ljust(PAGE, b"\0")


# ---- superblocks

def body_bytes(turn, meta):
    text = b"HBPITREE" + bytes([1, turn])
    return text + b"".join(struct.pack(">" + kind, meta[name]) for name, kind in FIELDS)


def superblock(text, place):
    """The turn and the meta of a legal body, or None."""
    if text[:9] != b"HBPITREE\1" or text[9] > 3 or text[9] % 2 != place:
        return None
    said = struct.unpack(">" + "".join(kind for _, kind in FIELDS), text[10:40])
    meta = dict(zip((name for name, _ in FIELDS), said))
    if any(not low <= meta[name] <= high for name, (low, high) in LIMITS.items()):
        return None
    return text[9], meta


def newest(disk):
    found = [superblock(disk[at + 1:at + 41], place) if disk[at] == OPEN else None for place, at in enumerate((0, PAGE))]
    if None in found:
        return found[0] or found[1]
    first, second = found
    return second if second[0] == (first[0] + 1) % 4 else first


def size_of(meta):
    return 2 * PAGE + 2 * meta["log"] + PAGE * meta["pages"]


def log_at(turn, meta):
    return 2 * PAGE + turn % 2 * meta["log"]


def page_at(number, meta):
    return 2 * PAGE + 2 * meta["log"] + PAGE * (number - 1)


# ---- groups

def operation(reader, k):
    tag = reader.number(1)
    if tag == 1:
        return ("put", reader.number(4), reader.record(k))
    if tag == 2:
        return ("del", reader.number(4), reader.point(k))
    if tag == 3:
        source, fresh, after, path = reader.number(4), reader.number(4), reader.number(4), reader.path()
        return ("extract", source, fresh, after, path, [(reader.number(1), reader.number(8), reader.side()) for _ in range(reader.number(1))])
    if tag == 4:
        parent, path, inner, lo, hi = reader.number(4), reader.path(), reader.number(4), reader.point(k), reader.point(k)
        if any(l > h for l, h in zip(lo, hi)):
            raise Bad("box")
        return ("post", parent, path, inner, (lo, hi))
    if tag == 5:
        return ("merge", reader.number(4), reader.number(4), reader.number(4))
    if tag == 6:
        return ("grow", reader.number(4), reader.number(4))
    raise Bad("tag of an operation")


def group(reader, k):
    count = reader.number(1)
    if count > 3:
        raise Bad("count of images")
    images = []
    for _ in range(count):
        number, page = reader.number(4), page_of(bytes(reader.take(PAGE)))
        if page is None:
            raise Bad("image is no page")
        images.append((number, page))
    if len({number for number, _ in images}) < count:
        raise Bad("same image")
    return images, operation(reader, k)


def groups(payload, k):
    reader, found = Reader(payload), []
    while reader.at < len(payload):
        found.append(group(reader, k))
    return found


# ---- frames

def payloads(area):
    """Each open frame's payload, from the left, None where its length is bad."""
    at = 0
    while at + 5 <= len(area) and area[at] == OPEN:
        length = int.from_bytes(area[at + 1:at + 5], "big")
        at += 5 + length
        if length == 0 or at > len(area):
            yield None
            return
        yield area[at - length:at]
