"""Random schedules over files with the smallest log, whose turn ends several times in a run: by steps that find no room, and by the
flusher."""
import collections
import random

from cases import Case, some_points
from frame_cases import some_lines

LOG = 65536


def some_steps(rng, sessions, count, shares):
    """So many steps; the poster, the consolidator and the flusher take these shares of the turns, and each is drawn for some steps."""
    poster, merger, flusher = shares
    steps, burst, flushes = [], rng.choice([1, 1, 2, 4, 9]), rng.choice([1, 1, 3, 40])
    while len(steps) < count:
        drawn = rng.random()
        actor = "p" if drawn < poster else "c" if drawn < poster + merger else "f" if drawn < sum(shares) else str(rng.randint(1, sessions))
        steps += [actor] * rng.randint(1, flushes if actor == "f" else burst)
    return steps


def the_rest(sessions, lines):
    """Steps enough for all lines, and for whoever of the workers has begun and may hold a page."""
    turn = [actor for session in range(1, sessions + 1) for actor in [str(session)] * 20] + ["p"] * 8 + ["c"] * 12
    return turn * (2 * max(collections.Counter(line[1] for line in lines).values()) + 8)


def a_switching_case(rng, seed, failing=False):
    """Waves over a file of some pages, most of which are changed in each wave, so that the log is full of their images again and again."""
    k, sessions = rng.randint(1, 4), rng.choice([1, 2, 4, 8])
    pages, count = rng.choice([(3, 8), (8, 30), (16, 60), (24, 90)] if failing else [(3, 8), (8, 30), (16, 50), (24, 60), (24, 90), (40, 120), (60, 200)])
    case = Case(seed, k, pages, LOG, rng.choice([6, 6, 6, 7, 9, 20]), rng.choice([32, 32, 33, 40, 64]))
    case.aims = True
    points = some_points(rng, k, count)
    for kind in ["fill"] + rng.choices(["fill", "drain", "mix", "mix", "ask"], k=rng.randint(1, 2)):
        size = rng.choice([4, 8, 16, 24]) if failing else rng.choice([10, 20, 40, 80]) if kind != "fill" or case.runs else count
        lines = [line[:1] + (1 + line[1] % sessions,) + line[2:] for line in some_lines(rng, kind, points, size, k)]
        shares = rng.choice([0, 0.1, 0.2]), rng.choice([0, 0.05, 0.2]), rng.choice([0, 0, 0.02, 0.1, 0.3])
        steps, finishes = some_steps(rng, sessions, size * rng.choice([5, 8, 11, 14]), shares), rng.random() < 0.2
        if finishes:
            steps += the_rest(sessions, lines)
        case.add(lines, steps, 3, rng.random() < 0.05, 60000 if failing else rng.choice([0, 0, 0, 1]), rng.random() < 0.4, finishes)
    return case


def switching_cases(count, seed, failing=False):
    for number in range(count):
        yield a_switching_case(random.Random(f"{seed} {number}"), number, failing)


def switching_deep_cases(count, seed):
    """Runs with a switch behind a switch, over copies of a small file; of each the recovery of an image, drawn among those of the
    switches each other time, is stopped and failed at each of its calls."""
    for number in range(count):
        rng = random.Random(f"{seed} {number}")
        case = Case(number, 1 + number % 4, 8, LOG, 6, 32)
        case.aims = True
        points = some_points(rng, case.k, 30)
        lines = some_lines(rng, "fill", points, 14, case.k)
        case.add(lines, the_rest(8, lines), 1, 0, 0, False, True)
        there = rng.sample([line[3] for line in lines if line[2] == "insert"], 2)
        lines = [(2 * at + turn, 1, *line) for at, point in enumerate(there) for turn, line in ((1, ("delete", point, None)), (2, ("insert", point, "a")))]
        for _ in range(20):
            case.add(lines, ["1"] * 12 + ["f"] * 9 + ["1"] * 24 + ["f"] * 9, 2, 1, back=True)
        yield case
