"""The random schedules: files, and of each the runs over it, as lines and steps."""
import collections
import itertools
import random
import struct


class Case:
    """A file and its runs: of each the lines, the schedule, and what is wanted of it."""

    def __init__(self, seed, k, pages, log, dcap, icap):
        self.seed, self.k, self.pages, self.log, self.dcap, self.icap = seed, k, pages, log, dcap, icap
        # where it aims at them, moments and failing calls are drawn among those of the switches, too
        self.runs, self.wanted, self.file, self.aims = [], None, None, False
        # of a long run an image is opened before each call whose number is the second one modulo the first
        self.watched = 0, 0

    def add(self, lines, steps, moments=20, stopped=0, failing=0, crashes=False, finishes=False, back=False):
        """Behind a run that goes `back` the next one begins with the file that the first one left."""
        self.runs.append((lines, steps, moments, stopped, failing, crashes, finishes, back))

    def text(self, number):
        lines, steps = self.runs[number][:2]
        said = []
        for _, session, verb, point, body in lines:
            values = [value for pair in zip(point, body) for value in pair] if verb == "search" else point
            said.append(" ".join([str(session), verb] + [str(value) for value in values]) + (f" ={body}" if verb == "insert" else ""))
        words = [f"{actor}x{len(list(group))}" for actor, group in itertools.groupby(steps)]
        said += ["step " + " ".join(words[at:at + 20]) for at in range(0, len(words), 20)]
        return "".join(line + "\n" for line in said)

    def create(self):
        return f"create {self.k} {self.pages} {self.log} {self.dcap} {self.icap}"

    def spelled(self):
        create = self.create().encode()
        size = 8192 + 2 * self.log + 4096 * self.pages
        made = struct.pack(">IIII", self.seed, self.log, size, len(create)) + create + bytes([len(self.runs)])
        for number, (_, _, moments, stopped, failing, crashes, _, back) in enumerate(self.runs):
            text = self.text(number).encode()
            made += struct.pack(">HBHBHHI", moments, stopped, failing, crashes + 2 * back + 4 * self.aims, *self.watched, len(text)) + text
        return made


def a_line(rng, number, sessions, k, values, shares):
    verb = rng.choices(["insert", "delete", "lookup", "search"][:len(shares)], shares)[0]
    if verb == "search":
        sides = [sorted((rng.choice(values), rng.choice(values))) for _ in range(k)]
        return (number, rng.randint(1, sessions), verb, tuple(side[0] for side in sides), tuple(side[1] for side in sides))
    body = "".join(rng.choice("abcxyz~!") for _ in range(rng.choice([0, 1, 3, 32]))) if verb == "insert" else None
    return (number, rng.randint(1, sessions), verb, tuple(rng.choice(values) for _ in range(k)), body)


def a_schedule(rng, sessions, lines, poster, turn=60, merger=0):
    """Steps of all actors, in bursts or one by one, and whether they are enough for all lines."""
    actors = [str(session) for session in range(1, sessions + 1)]
    steps, most, burst = [], len(lines) * rng.choice([3, 5, 8, 12]), rng.choice([1, 1, 2, 4, 9])
    while len(steps) < most:
        drawn = rng.random()
        actor = "p" if drawn < poster else "c" if drawn < poster + merger else rng.choice("cf") if drawn > 0.98 else rng.choice(actors)
        steps += [actor] * rng.randint(1, burst)
    finishes = rng.random() < 0.4
    if finishes:
        for _ in range((max(collections.Counter(line[1] for line in lines).values()) + 4) * (2 if merger else 1)):
            for actor in actors:
                steps += [actor] * turn
            # who has begun goes on, since it may hold a page
            steps += ["p"] * (6 if poster else 0) + ["c"] * (9 if "c" in steps else 0)
    return steps, finishes


def a_case(rng, seed, failing, searching=False):
    """Small files and large ones, with few values and many."""
    k, sessions = rng.randint(1, 4), rng.choice([1, 2, 3, 4, 8, 16])
    pages, log = rng.choice([(1, 65536), (3, 65536), (8, 65536), (16, 131072), (16, 131072), (16, 131072), (40, 262144), (40, 262144), (40, 262144), (120, 524288)])
    case = Case(seed, k, pages, log, rng.choice([6, 6, 7, 9, 12, 20, 48]), rng.choice([32, 32, 33, 40, 64]))
    large = [0, 1, 2 ** 63 - 1, 2 ** 63, 2 ** 64 - 2, 2 ** 64 - 1] + [rng.randrange(2 ** 64) for _ in range(60)]
    values = rng.choice([list(range(2)), list(range(4)), list(range(9)), list(range(40)), large])
    shares, poster = rng.choice([(8, 1, 1), (4, 2, 2), (3, 3, 2), (10, 0, 1)]), rng.choice([0, 0.1, 0.3])
    if searching:
        shares = rng.choice([(8, 1, 1, 2), (4, 2, 1, 3), (3, 3, 2, 2), (10, 0, 0, 1)])
    for _ in range(rng.randint(1, 3) if failing else rng.randint(2, 4)):
        lines = [a_line(rng, at + 1, sessions, k, values, shares) for at in range(rng.randint(2, 14) if failing else rng.choice([5, 10, 20, 20, 40, 80, 160]))]
        steps, finishes = a_schedule(rng, sessions, lines, poster, 400 if searching else 60)
        case.add(lines, steps, 20, rng.random() < 0.05, 60000 if failing else rng.choice([0, 0, 0, 1]), rng.random() < 0.4, finishes)
    return case


def random_cases(count, seed, failing, searching=False):
    for number in range(count):
        yield a_case(random.Random(f"{seed} {number}"), number, failing, searching)


def deep_cases(count, seed):
    """Files of three levels, over which sessions and the poster go on."""
    for number in range(count):
        rng = random.Random(f"{seed} {number}")
        case, sessions = Case(number, 1 + number % 4, 220, 655360, 6, 32), rng.choice([1, 4, 16])
        values = [rng.randrange(2 ** 64) for _ in range(3000 if case.k == 1 else 60)]
        for size in (500, 250, 60):
            lines = [a_line(rng, at + 1, sessions, case.k, values, (8, 1, 1)) for at in range(size)]
            steps = a_schedule(rng, sessions, lines, 0.3)[0] + [str(actor) for actor in range(1, sessions + 1) for _ in range(20)] * (size // sessions)
            case.add(lines, steps, 20, size == 60, 1, size == 60)
        yield case


# what two sessions do to one page that has these points
RACES = [
    ((), ("insert", 5), ("insert", 5)), ((), ("insert", 5), ("lookup", 5)), ((5,), ("delete", 5), ("delete", 5)),
    ((5,), ("delete", 5), ("insert", 5)), ((5,), ("lookup", 5), ("delete", 5)), ((), ("insert", 5), ("insert", 6)),
    ((1, 2, 3, 4, 5, 6), ("insert", 7), ("insert", 8)), ((1, 2, 3, 4, 5, 6), ("insert", 7), ("insert", 7)),
    ((1, 2, 3, 4, 5, 6), ("insert", 7), ("lookup", 1)), ((1, 2, 3, 4, 5, 6), ("insert", 0), ("delete", 6)),
    ((1, 2, 3, 4, 5), ("insert", 6), ("insert", 7)), ((1, 2, 3, 4, 5, 6), ("delete", 1), ("insert", 9)),
]


# of inserts, deletes, lookups and searches
WAVES = {"fill": (17, 1, 1, 1), "drain": (1, 17, 1, 1), "mix": (6, 7, 2, 3)}


def some_points(rng, k, count):
    """Distinct points of a small space or of all of it, some on a line or around a middle."""
    most = rng.choice([8, 40, 1000, 2 ** 64]) if k > 1 else rng.choice([2 * count, 1000, 2 ** 64])
    points = set()
    while len(points) < count and len(points) < most ** k:
        point = [rng.randrange(most) for _ in range(k)]
        if rng.random() < 0.3:
            point = [most // 2 if rng.random() < 0.7 else value for value in point]
        points.add(tuple(point))
        most += len(points) < count
    return sorted(points)


def a_wave(rng, kind, points, size, sessions, k):
    """Lines of a wave: the points of inserts and deletes come in a sequence of their own, each once before one comes again."""
    values, drawn = sorted({value for point in points for value in point}), []
    lines = []
    for at in range(size):
        line = a_line(rng, at + 1, sessions, k, values, WAVES[kind])
        if line[2] != "search":
            drawn = drawn or rng.sample(points, len(points))
            line = line[:3] + (drawn.pop(),) + line[4:]
        lines.append(line)
    return lines


def a_merging_case(rng, seed, failing):
    k, sessions = rng.randint(1, 4), rng.choice([1, 1, 2, 3, 4, 8])
    pages, log = rng.choice([(4, 131072), (6, 131072), (16, 262144), (40, 524288), (40, 524288), (120, 1048576)])
    case = Case(seed, k, pages, log, rng.choice([6, 6, 7, 8] if failing else [6, 6, 7, 8, 12, 20]), rng.choice([32, 32, 40]))
    points = some_points(rng, k, rng.choice([9, 11] if failing else [10, 20, 40, 80, 120]))
    waves = ["fill", "drain", rng.choice(["fill", "mix"])] + ([] if failing else rng.choice([[], ["mix"], ["drain", "fill"]]))
    poster, merger = rng.choice([0.1, 0.2, 0.3]), rng.choice([0.1, 0.2, 0.3])
    for turn, wave in enumerate(waves):
        lines = a_wave(rng, wave, points, max(4, len(points) * rng.choice([9, 10, 12]) // 10), sessions, k)
        steps, finishes = a_schedule(rng, sessions, lines, poster, 400, merger)
        if failing or (turn == 0 and not finishes):
            steps += (["c"] * (9 if turn else 0) + ["p"] * 8 + [str(actor) for actor in range(1, sessions + 1)] * 9) * len(lines)
        case.add(lines, steps, 20, rng.random() < 0.05, (60000 if turn else 0) if failing else rng.choice([0, 0, 0, 1]), turn > 0 and rng.random() < 0.3, finishes)
    return case


def merging_cases(count, seed, failing=False):
    for number in range(count):
        yield a_merging_case(random.Random(f"{seed} {number}"), number, failing)


def merging_deep_cases(count, seed):
    """Files that grow to three levels and are emptied, so that pages above merge, too."""
    for number in range(count):
        rng = random.Random(f"{seed} {number}")
        case, sessions = Case(number, 1 + number % 4, 220, 1048576, 6, 32), rng.choice([1, 2, 4])
        points = some_points(rng, case.k, 400)
        for wave in ("fill", "drain", "fill"):
            lines = a_wave(rng, wave, points, 400, sessions, case.k)
            steps = a_schedule(rng, sessions, lines, 0.25, 60, 0.25)[0]
            for _ in range(400):
                steps += [str(actor) for actor in range(1, sessions + 1) for _ in range(9)] + ["p"] * 6 + ["c"] * 9
            case.add(lines, steps, 6, 0, 1, False)
        yield case


def racing_cases():
    for before, one, other in RACES:
        for places in itertools.combinations(range(12), 6):
            steps = ["1" if place in places else "2" for place in range(12)]
            case = Case(len(places), 1, 8, 65536, 6, 32)
            if before:
                lines = [(at + 1, 1, "insert", (point,), "a") for at, point in enumerate(before)]
                case.add(lines, ["1"] * 40, 1)
            lines = [(1, 1, one[0], (one[1],), "b"), (2, 2, other[0], (other[1],), "c")]
            case.add([line if line[2] == "insert" else line[:4] + (None,) for line in lines], steps, 20, 0, 0, True)
            case.runs[-1][1].extend((["1", "2"] if places[0] % 2 else ["2", "1"]) * (20 if places[1] % 2 else 0))
            case.add([(point + 1, 1, "lookup", (point,), None) for point in range(10)], ["1"] * 60, 1)
            yield case


def high_cases(count, seed):
    """3,000 inserts: of points in order, which make a level more, and of spread ones, in one attribute and two."""
    rng = random.Random(seed)
    for number in range(count):
        k = 1 + number % 2
        points = rng.sample(range(100000), 3000)
        if number % 3 == 0:
            points.sort()
        lines = [(at + 1, 1 + at % 4, "insert", (point,) if k == 1 else (point, point * 7919 % 10007), str(at)) for at, point in enumerate(points)]
        steps = []
        for _ in range(3000):
            for actor in "1234":
                steps += [actor] * 16
            steps += ["p"] * 12
        case = Case(number, k, 1500, 16777216, 6, 32)
        case.wanted = ("3000", "3" if number % 3 else "4")
        case.add(lines, steps, 0)
        asked = [(at + 1, 1 + at % 16, "lookup", line[3], None) for at, line in enumerate(lines[::10])]
        case.add(asked, [str(session) for _ in range(400) for session in range(1, 17)], 0)
        yield case


def merging_refused_cases(count, seed):
    """A file that is filled, emptied and filled, by few lines."""
    for number in range(count):
        rng = random.Random(f"{seed} {number}")
        case = Case(number, 1 + number % 4, 40, 262144, 6, 32)
        points = some_points(rng, case.k, 12)
        for wave in ("fill", "drain", "fill"):
            lines = a_wave(rng, wave, points, 12, 2, case.k)
            steps = a_schedule(rng, 2, lines, 0.25, 60, 0.25)[0] + (["1", "2"] * 6 + ["p"] * 8 + ["c"] * 10) * 12
            case.add(lines, steps, 1)
        yield case


def refused_cases(count, seed, searching=False):
    """Pages that split and are posted, by few lines."""
    for number in range(count):
        rng = random.Random(f"{seed} {number}")
        case = Case(number, 1 + number % 4, 40, 262144, 6, 32)
        values = list(range(9 if case.k > 1 else 30))
        for size in (12, 8):
            lines = [a_line(rng, at + 1, 3, case.k, values, (8, 1, 1, 5) if searching and size == 8 else (8, 1, 1)) for at in range(size)]
            steps = a_schedule(rng, 3, lines, 0.3)[0] + ["1", "2", "3", "p"] * 20
            case.add(lines, steps, 1)
        yield case
