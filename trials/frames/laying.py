#!/usr/bin/env python3
"""Files of many pages, laid down as docs/FORMAT.md says: pages of records in a row, and index pages above them.

    laying.py lay FILE LEAVES WIDTH RECORDS [K]
    laying.py spoil FILE LEAF KIND

`lay` makes a file of LEAVES pages of records, each with RECORDS records, and of index pages above with WIDTH children each. Leaf i is
page i, counted from 1, and holds the points whose first value is from 1,000 (i - 1) on, below 1,000 i; its records have the values
0, 2, 4 .. of these. Behind the leaves stand the pages of level 1, from the left, and so on; the root is the last page. Each page has
all behind its points, too, and gave it to the next one of its level. `spoil` puts other bytes into the place of a leaf: `zeros`,
`free` (a free page), `level` (one of level 1), `box` (one whose box begins a value later), `order` (two records have changed places),
`heavy` (more records than the capacity), `attributes` (one attribute more), or `body` (a sound one with other bodies).
"""
import struct
import sys

PAGE, STEP, MOST = 4096, 1000, 2 ** 64 - 1
LOG, CAPS = 1048576, (48, 256)


def fields(level, low, k):
    return bytes([1, level, k, 0]) + struct.pack(f">{k}Q", low, *[0] * (k - 1)) + struct.pack(f">{k}Q", *[MOST] * k)


def whole(page):
    assert len(page) <= PAGE
    return page.ljust(PAGE, b"\0")


def cut(value, left, right):
    return b"\0\0" + struct.pack(">Q", value) + left + right


def child(page):
    return b"\2" + struct.pack(">I", page)


def sibling(page):
    return b"\3" + struct.pack(">I", page)


def other_value(leaf, place):
    """The second value of a record, which follows no order."""
    return (leaf * 48 + place) * 2654435761 % 2 ** 32


def point(leaf, place, k):
    return (STEP * (leaf - 1) + 2 * place, *[other_value(leaf, place)] * (k - 1))


def record(values):
    return struct.pack(f">{len(values)}Q", *values) + bytes([8]) + b"a-record"


def leaf_page(leaf, last, records, k):
    inside = b"\1" + struct.pack(">H", records) + b"".join(record(point(leaf, place, k)) for place in range(records))
    return fields(0, STEP * (leaf - 1), k) + (cut(STEP * leaf, inside, sibling(leaf + 1)) if leaf < last else inside)


def between(children):
    """The cuts between children, each the least value of its part and a page; in the middle first."""
    if len(children) == 1:
        return child(children[0][1])
    middle = len(children) // 2
    return cut(children[middle][0], between(children[:middle]), between(children[middle:]))


def levels(leaves, width):
    """The pages of each level, each with the least value of its part and its number."""
    made, high = [[(STEP * number, number + 1) for number in range(leaves)]], leaves
    while len(made[-1]) > 1:
        below = made[-1]
        firsts = range(0, len(below), width)
        made.append([(below[first][0], high + 1 + at) for at, first in enumerate(firsts)])
        high += len(firsts)
    return made, high


def lay(name, leaves, width, records, k=1, log=LOG):
    made, high = levels(leaves, width)
    with open(name, "wb") as out:
        said = b"\xa5HBPITREE" + bytes([1, 0, k, len(made)]) + struct.pack(">IIHH", min(high + 100, 65536), log, *CAPS)
        out.write((said + struct.pack(">IIII", made[-1][0][1], high, high, 0)).ljust(2 * PAGE, b"\0"))
        out.seek(2 * log, 1)
        for leaf in range(1, leaves + 1):
            out.write(whole(leaf_page(leaf, leaves, records, k)))
        for level, pages in enumerate(made[1:], 1):
            for at, (low, number) in enumerate(pages):
                inside = between(made[level - 1][at * width:(at + 1) * width])
                if at + 1 < len(pages):
                    inside = cut(pages[at + 1][0], inside, sibling(number + 1))
                out.write(whole(fields(level, low, k) + inside))
        out.truncate(2 * PAGE + 2 * log + PAGE * min(high + 100, 65536))
    return made, high


def walk(made, width, leaf):
    """The pages of a walk from the root to a leaf."""
    at, pages = leaf - 1, []
    for level in made:
        pages.append(level[at][1])
        at //= width
    return pages[::-1]


def spoiled(leaf, kind, k):
    """Bytes for the place of a leaf that isn't the last one."""
    low, behind = STEP * (leaf - 1), sibling(leaf + 1)

    def of(values, attributes=k):
        held = b"".join(record((low + value, *[0] * (attributes - 1))) for value in values)
        return fields(0, low, attributes) + cut(STEP * leaf, b"\1" + struct.pack(">H", len(values)) + held, behind)
    return whole({
        "zeros": b"",
        "free": b"\2\0\0\0\0",
        "level": fields(1, low, k) + cut(STEP * leaf, child(leaf), behind),
        "box": fields(0, low + 1, k) + cut(STEP * leaf, b"\1\0\0", behind),
        "order": of([2, 0, 4]),
        "heavy": of(range(49)),
        "attributes": of([0, 2], k + 1),
        "body": of([0, 2, 4]).replace(b"a-record", b"other-it"),
    }[kind])


def spoil(name, leaf, kind):
    with open(name, "r+b") as file:
        head = file.read(2 * PAGE)
        file.seek(2 * PAGE + 2 * int.from_bytes(head[17:21], "big") + PAGE * (leaf - 1))
        file.write(spoiled(leaf, kind, head[11]))


if __name__ == "__main__":
    if sys.argv[1] == "lay":
        lay(sys.argv[2], *map(int, sys.argv[3:]))
    else:
        spoil(sys.argv[2], int(sys.argv[3]), sys.argv[4])
