"""Pages spoiled, in their places or in page images, and files that are too short or have other bytes where none are read."""
from reading import PAGE, page_at, size_of, whole_page
from files import live, noise, spelled_or_none
from model import TOP, leaves, whole, with_part, within
from making import a_cut, break_page, parts_of


def touched(file):
    """The pages that the log sets, where it is as it should be."""
    found = set()
    for frame in file.frames:
        for images, op in frame:
            found.update(number for number, _ in images)
            found.add(op[2] if op[0] == "extract" else op[1])
    return found


def set_page(rng, file, number, page):
    """The page stands in its place, and in a group of its own where the log touches it."""
    text = spelled_or_none(page)
    if text is None:
        return
    file.places[number] = text
    if number in touched(file):
        last = file.frames[-1]
        images, op = last[-1]
        if len(images) < 3 and number not in [n for n, _ in images]:
            file.frames[-1] = last[:-1] + [(images + [(number, text)], op)]


def some_page(rng, file, pages):
    """A page: mostly one that the log doesn't touch."""
    calm = sorted(set(pages) - touched(file))
    return rng.choice(calm) if calm and rng.random() < 0.8 else rng.choice(sorted(pages))


def page_broken(rng, file, meta, pages):
    number = some_page(rng, file, pages)
    set_page(rng, file, number, break_page(rng, pages[number], meta, list(pages.values())))


def page_byte(rng, file, meta, pages):
    number = some_page(rng, file, pages)
    spot = rng.choice((rng.randrange(PAGE - 8), rng.randrange(120), rng.randrange(40)))
    new = noise(rng, rng.choice((1, 1, 1, 8)))
    file.writes.append((page_at(number, file.meta) + spot, new))


def hole_filled(rng, file, meta, pages):
    """A page keeps what another one has too: no sibling leaf names that."""
    for number in rng.sample(sorted(pages), len(pages)):
        page = pages[number]
        if page[0] == "free":
            continue
        for path, part, _ in parts_of(page[2], page[1]):
            if part[0] == "sibling":
                below = [i for i in live(pages) if pages[i][0] + 1 == page[0] and pages[i][1] == whole(meta["k"])]
                leaf = ("child", below[0]) if below else ("records", [])
                set_page(rng, file, number, page[:2] + (with_part(page[2], path, leaf),))
                return


def second_whole(rng, file, meta, pages):
    """A level has two pages of the whole area."""
    if touched(file) - set(pages) or meta["high"] >= meta["pages"] or meta["high"] != file.meta["high"]:
        return
    level = rng.randrange(meta["height"])
    below = [i for i in live(pages) if pages[i][0] + 1 == level]
    leaf = ("child", below[0]) if below else ("records", [])
    file.meta["high"] += 1
    file.meta["live"] += 1
    file.places[file.meta["high"]] = whole_page((level, whole(meta["k"]), leaf))


def no_whole(rng, file, meta, pages):
    """A level has no page of the whole area: what is left of that page is a part of it."""
    for number in live(pages):
        page = pages[number]
        if page[1] != whole(meta["k"]) or page[0] + 1 == meta["height"]:
            continue
        named = [area for i in live(pages, 1) for leaf, area in leaves(pages[i][2], pages[i][1]) if leaf == ("child", number)]
        for path, part, area in parts_of(page[2], page[1]):
            if path and part[0] != "sibling" and all(within(a, area) for a in named):
                set_page(rng, file, number, (page[0], area, part))
                return


def cut_moved(rng, file, meta, pages):
    """A cut of a page lies elsewhere, or none of its sides is where it was."""
    number = some_page(rng, file, pages)
    page = pages[number]
    cuts = [] if page[0] == "free" else [(path, part, area) for path, part, area in parts_of(page[2], page[1]) if part[0] == "cut"]
    if cuts:
        path, (kind, axis, at, left, right), (lo, hi) = rng.choice(cuts)
        new = rng.choice((lo[axis], hi[axis], min(hi[axis] + 1, TOP), max(lo[axis], 1) - 1, at + (at < TOP)))
        set_page(rng, file, number, page[:2] + (with_part(page[2], path, (kind, axis, new, left, right)),))


def leaf_parted(rng, file, meta, pages):
    """A leaf is cut into two that ought to be one."""
    for number in rng.sample(sorted(pages), len(pages)):
        page = pages[number]
        if page[0] == "free":
            continue
        for path, part, area in parts_of(page[2], page[1]):
            cut = a_cut(rng, area) if part[0] in ("records", "child") else None
            if cut:
                axis, at = cut
                both = [("records", [r for r in part[1] if (r[0][axis] < at) == low]) for low in (True, False)] if part[0] == "records" else [part, part]
                set_page(rng, file, number, page[:2] + (with_part(page[2], path, ("cut", axis, at, *both)),))
                return


# ---- the size, and what isn't looked at

def size_changed(rng, file, meta, pages):
    size = size_of(file.meta)
    file.size = rng.choice((0, rng.randrange(8192), 8191, 8192, rng.randrange(8192, size), size - 1, size, size + 1, size - PAGE, size + rng.randrange(9000)))


def unread(rng, file, meta, pages):
    """Bytes that no opening looks at."""
    file.idle = noise(rng, rng.choice((5, 400)))
    for number in touched(file) & set(pages):
        if rng.random() < 0.5:
            file.places[number] = noise(rng, 40)
