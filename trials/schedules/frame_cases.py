"""Random schedules over files of more pages than there are frames."""
import random

from cases import Case, some_points

SESSIONS = 8
# of the lines of a run: inserts, deletes, lookups and searches
SHARES = {"fill": (90, 4, 5, 1), "drain": (4, 90, 5, 1), "mix": (45, 45, 9, 1), "ask": (3, 3, 90, 4)}


def steps_in_bursts(rng, count, workers):
    """So many steps in bursts or one by one; the poster and the consolidator take these shares of the turns."""
    steps, burst = [], rng.choice([1, 2, 4, 9])
    poster, merger = workers
    while len(steps) < count:
        drawn = rng.random()
        actor = "p" if drawn < poster else "c" if drawn < poster + merger else "f" if drawn > 0.99 else str(rng.randint(1, SESSIONS))
        steps += [actor] * rng.randint(1, burst)
    return steps


def some_lines(rng, kind, points, size, k, first=1):
    """Lines of a wave. The points of inserts and deletes come each once before one comes again; lookups are of any, or in their order,
    so that they walk over all pages; a search's box is a tenth of all values wide at most."""
    values, drawn, lines = sorted({value for point in points for value in point}), [], []
    rows = rng.random() < 0.5
    for at in range(size):
        session, verb, body = rng.randint(1, SESSIONS), rng.choices(["insert", "delete", "lookup", "search"], SHARES[kind])[0], None
        if verb == "search":
            lows = [rng.randrange(len(values)) for _ in range(k)]
            highs = [min(low + rng.randrange(len(values) // 10 + 1), len(values) - 1) for low in lows]
            point, body = (tuple(values[place] for place in places) for places in (lows, highs))
        elif verb == "lookup":
            point = points[at * len(points) // size] if rows else rng.choice(points)
        else:
            drawn = drawn or rng.sample(points, len(points))
            point = drawn.pop()
            body = "".join(rng.choice("abcxyz~!") for _ in range(rng.choice([0, 1, 3, 32]))) if verb == "insert" else None
        lines.append((first + at, session, verb, point, body))
    return lines


def a_filled_case(rng, seed, count, log=1048576):
    """A file into which so many points are put, with the poster; it tells how many lines that are."""
    k = rng.randint(1, 4)
    case = Case(seed, k, rng.choice([count // 4, count // 3, count // 3]), log, rng.choice([6, 6, 6, 7]), rng.choice([32, 32, 40]))
    points = some_points(rng, k, count)
    lines = some_lines(rng, "fill", points, len(points), k)
    case.add(lines, steps_in_bursts(rng, 13 * len(lines), (0.15, rng.choice([0, 0, 0.05]))), rng.choice([0, 0, 4]))
    return case, points


def a_framing_case(rng, seed):
    """Waves of all kinds over a file of some 300 pages, in which most runs change more pages than there are frames."""
    case, points = a_filled_case(rng, seed, rng.choice([1200, 1500, 1500]), rng.choice([65536, 262144, 1048576]))
    for _ in range(rng.randint(2, 4)):
        kind, size = rng.choice(["drain", "drain", "mix", "fill", "ask"]), rng.choice([150, 250, 400])
        lines = some_lines(rng, kind, points, size, case.k)
        steps = steps_in_bursts(rng, rng.choice([7, 10, 14]) * size, rng.choice([(0.05, 0), (0.15, 0.15), (0.05, 0.3)]))
        case.add(lines, steps, 6, 30 * (rng.random() < 0.1), rng.choice([0, 0, 1, 2]), rng.random() < 0.3)
    return case


def a_failing_frames_case(rng, seed):
    """A file of some 170 pages; many single calls of the runs behind the first one fail."""
    case, points = a_filled_case(rng, seed, 750)
    for _ in range(2):
        kind, size = rng.choice(["drain", "drain", "mix", "ask"]), rng.choice([60, 200, 350])
        lines = some_lines(rng, kind, points, size, case.k)
        case.add(lines, steps_in_bursts(rng, 9 * size, (0.1, 0.15)), 4, 0, 8, rng.random() < 0.3)
    return case


def a_crowded_case(rng, seed):
    """A file of some 200 pages, all of which are changed in each run, so that pages are written to their places all the time; and then
    lookups come, which have too few places."""
    case, points = a_filled_case(rng, seed, 900, rng.choice([65536, 1048576, 1048576]))
    some = rng.sample(points, 320)
    for turn in range(rng.randint(2, 3)):
        lines = some_lines(rng, "fill" if turn % 2 else "drain", some, 300, case.k)
        lines += some_lines(rng, "ask", points, 150, case.k, 301)
        steps = steps_in_bursts(rng, 9 * len(lines), rng.choice([(0.05, 0), (0.1, 0.1)]))
        case.add(lines, steps, 12, 0, 0, rng.random() < 0.5)
    return case


def frame_cases(count, seed, make):
    for number in range(count):
        yield make(random.Random(f"{seed} {number}"), number)


def frames_refused_cases(count, seed):
    """Some of the allocations of runs over a file of more pages than frames are refused."""
    for number in range(count):
        rng = random.Random(f"{seed} {number}")
        case, points = a_filled_case(rng, number, 700)
        lines = some_lines(rng, "mix", points, 150, case.k)
        case.add(lines, steps_in_bursts(rng, 10 * len(lines), (0.1, 0.1)), 1)
        yield case
