"""The file that bytes open to, its map, and whether it is settled, as a plain program that knows nothing of the project's crates.
It follows docs/FORMAT.md and docs/TREE.md, and has the whole file before it. Pages are those of trials/pages/model.py.
"""
import collections
import os
import sys

HERE = os.path.dirname(os.path.abspath(__file__))
sys.path.insert(0, os.path.join(os.path.dirname(HERE), "opening"))
from opening import Answer, audited, behind_log, without_super
from reading import Bad, newest, page_at, page_of, PAGE
from replaying import change
from model import common, leaves, meets, post_plan, weight

HIGHEST = 12


class File:
    """What a file says of itself, and its pages by number."""

    def __init__(self, meta, pages):
        self.meta, self.pages = meta, pages
        self.live = {number: page for number, page in sorted(pages.items()) if page[0] != "free"}

    def leaves(self, number, kind):
        """The leaves of this kind in a page from the left: which page each names, or its records; and its box."""
        _, box, tree = self.pages[number]
        return [(leaf[1], area) for leaf, area in leaves(tree, box) if leaf[0] == kind]

    def records(self):
        """All records in the order of their points."""
        return sorted(record for number in self.live for records, _ in self.leaves(number, "records") for record in records)

    def children(self, number):
        """The pages that a page names by child leaves, each once."""
        return list(dict.fromkeys(child for child, _ in self.leaves(number, "child")))


def file_of(disk):
    """The sound file that bytes open to; where there is none, `Bad` with what an opening answers."""
    found = without_super(disk) or behind_log(disk, *newest(disk))
    if isinstance(found, Answer):
        raise Bad(found.told)
    meta, touched = found
    told = audited(disk, meta, touched)
    if told[0] != "ok":
        raise Bad(f"damaged {told[2]} S{told[1]}")
    pages = {}
    for number in range(1, meta["high"] + 1):
        at = page_at(number, meta)
        pages[number] = touched.get(number) or page_of(disk[at:at + PAGE])
    return File(meta, pages)


# ---- the map

NAMES = {"records": "records", "child": "child", "sibling": "hole"}


def leaf_line(leaf, area):
    what = len(leaf[1]) if leaf[0] == "records" else leaf[1]
    ends = " ".join(f"{low} {high}" for low, high in zip(*area))
    return f"{NAMES[leaf[0]]} {what} {ends}"


def map_lines(file):
    meta = file.meta
    parents = collections.Counter(child for number in file.live for child in file.children(number))
    yield f"height {meta['height']} root {meta['root']} pages {meta['live']} free {meta['pages'] - meta['live']}"
    for number, (level, box, tree) in file.live.items():
        yield f"page {number} level {level} weight {weight(tree)} parents {parents[number]}"
        for leaf, area in leaves(tree, box):
            yield leaf_line(leaf, area)


def map_text(file):
    return "".join(f"{line}\n" for line in map_lines(file))


def check_text(file):
    """What `check` says of it."""
    return f"sound height {file.meta['height']} pages {file.meta['live']} records {len(file.records())}\n"


# ---- settled, and nothing to merge

def owed(file):
    """The postings that are owed: a page, a child of it, and a point at which that has a sibling leaf."""
    for number in file.live:
        for child, area in file.leaves(number, "child"):
            for _, there in file.leaves(child, "sibling"):
                if meets(area, there):
                    yield number, child, common(area, there)[0]


def owes_growth(file):
    return file.meta["height"] < HIGHEST and bool(file.leaves(file.meta["root"], "sibling"))


def wants_page(file):
    """Whether a growth is owed, or a posting for which a page has to be split first."""
    plans = (post_plan(file.pages[parent], file.pages[child], point, file.meta["icap"])[0] for parent, child, point in owed(file))
    return owes_growth(file) or "split" in plans


def is_settled(file):
    return not owes_growth(file) and next(owed(file), None) is None


def is_allowed(op, file):
    try:
        change(op, file.meta, file.pages)
    except Bad:
        return False
    return True


def mergeable(file):
    """The triples of a page, and two that it names, of which a merge is allowed. The second has to have a sibling leaf to the third."""
    for parent in file.live:
        named = file.children(parent)
        for keep in named:
            for gone in dict.fromkeys(sibling for sibling, _ in file.leaves(keep, "sibling")):
                if gone in named and is_allowed(("merge", parent, keep, gone), file):
                    yield parent, keep, gone
