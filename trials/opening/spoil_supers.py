"""Superblocks spoiled: fields, bytes, places, and what they say of the file."""
from reading import LIMITS, OPEN, PAGE, body_bytes, whole_page
from files import fresh_page, live, near, noise, some_cuts
from making import parts_of, point_in

# where each field stands, and how many bytes it has
SPOTS = dict(
    gate=(0, 1), version=(9, 1), turn=(10, 1), k=(11, 1), height=(12, 1), pages=(13, 4), log=(17, 4),
    dcap=(21, 2), icap=(23, 2), root=(25, 4), high=(29, 4), live=(33, 4), free=(37, 4),
)
NUMBERS = ("root", "high", "live", "free", "height")


def super_field(rng, file, meta, pages):
    name = rng.choice(tuple(SPOTS) + NUMBERS)
    at, width = SPOTS[name]
    now = file.meta.get(name, {"gate": OPEN, "version": 1, "turn": file.turn}.get(name))
    new = near(rng, now, width)
    if name in LIMITS and rng.random() < 0.6:
        new = min(max(rng.choice(LIMITS[name]) + rng.choice((-1, 0, 0, 1)), 0), 256 ** width - 1)
    file.writes.append((PAGE * ((file.turn + (rng.random() < 0.1)) % 2) + at, new.to_bytes(width, "big")))


def super_numbers(rng, file, meta, pages):
    """A superblock that says something else of the file, within its limits."""
    name = rng.choice(NUMBERS + ("pages", "dcap", "icap", "log"))
    low, high = LIMITS.get(name, (0, 2 ** 32 - 1))
    file.meta[name] = min(max(near(rng, file.meta[name]), low), high)
    file.meta["pages"], file.meta["log"] = min(file.meta["pages"], 12), min(file.meta["log"], 80000)


def very_high(rng, file, meta, pages):
    """A file of eleven or twelve levels, by its superblock, that grows."""
    taken = fresh_page(meta, pages)
    if taken:
        file.meta["height"] = 12 - (meta["height"] - file.meta["height"]) - rng.choice((0, 0, 1))
        file.frames.append([([], ("grow", *taken))])


def free_in_use(rng, file, meta, pages):
    """The head of the free chain is a page in use, and is taken for a part of itself."""
    number = rng.choice(live(pages))
    level, box, tree = pages[number]
    found = [(path, some_cuts(rng, part, meta["k"], 1)) for path, part, _ in parts_of(tree, box) if part[0] == "records"]
    found = [(path, cuts) for path, cuts in found if path or cuts]
    if found and meta["live"] < meta["pages"]:
        file.meta, file.places = dict(meta, log=file.meta["log"], free=number), {i: whole_page(page) for i, page in pages.items()}
        point = point_in(rng, box)
        op = ("extract", number, number, rng.choice((0, meta["free"], number)), *rng.choice(found))
        file.frames = [[([(number, file.places[number])], op)], [([], rng.choice((("put", number, (point, b"")), ("del", number, point))))]]


def super_run(rng, file, meta, pages):
    at = PAGE * rng.randrange(2) + rng.randrange(45)
    file.writes.append((at, noise(rng, rng.randint(1, 12))))


def super_rest(rng, file, meta, pages):
    file.writes.append((PAGE * rng.randrange(2) + rng.randrange(41, PAGE - 20), noise(rng, 20)))


def super_lost(rng, file, meta, pages):
    """The newest superblock goes, and the other one, where there is one, is the newest."""
    at = PAGE * (file.turn % 2)
    file.writes.append((at, rng.choice((bytes(41), b"\0", bytes([OPEN]) + noise(rng, 40)))))
    if rng.random() < 0.3:
        file.writes.append((PAGE - at, bytes(1)))


def super_next(rng, file, meta, pages):
    """The other place has the superblock of the next turn, or of another one of its parity."""
    said = dict(rng.choice((meta, meta, file.meta)), log=file.meta["log"])
    if rng.random() < 0.5:
        file.places.update((i, whole_page(page)) for i, page in pages.items())
    turn = file.turn + rng.choice((1, 1, 1, 3))
    file.other = bytes([rng.choice((OPEN, OPEN, OPEN, 0))]) + body_bytes(turn % 4, said)
    file.idle = rng.choice((b"", b"", file.idle))
