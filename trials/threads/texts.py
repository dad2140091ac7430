"""Random texts for sessions in threads, and what was said of one."""
import random

from plain_list import Bad, Run, do
from cases import WAVES, Case, a_line

# how many values a point's number has, by the count of attributes: few, so that lines meet, or many
FEW, MANY = {1: 12, 2: 4, 3: 3, 4: 2}, {1: 2500, 2: 50, 3: 14, 4: 7}


def a_case(seed, number, sessions=16, size=2000, runs=2, files=((12, 65536), (60, 65536), (400, 65536), (400, 1 << 20), (1500, 65536), (1500, 1 << 22))):
    """A file, and texts whose sessions share their points: waves of inserts, deletes, lookups and searches."""
    rng = random.Random(f"{seed} {number}")
    k, (pages, log) = rng.randint(1, 4), rng.choice(files)
    case = Case(number, k, pages, log, rng.choice([6, 6, 7, 9, 12, 20, 48]), rng.choice([32, 32, 33, 40, 64, 256]))
    large = [0, 1, 2 ** 63, 2 ** 64 - 2, 2 ** 64 - 1] + [rng.randrange(2 ** 64) for _ in range(2000 if k == 1 else 60)]
    values = rng.choice([range(FEW[k]), range(MANY[k]), range(MANY[k]), large])
    for _ in range(runs):
        waves = [rng.choice(list(WAVES.values())) for _ in range(4)]
        waves[0] = waves[0] if case.runs else WAVES["fill"]
        case.add([a_line(rng, at + 1, sessions, k, values, waves[4 * at // size]) for at in range(size)], [])
    return case


def an_own_case(sessions, size, pages=2400):
    """A file of one attribute, and a text in which each point is of one session alone, which inserts it under the line's number, and may
    delete it three lines later."""
    case, lines, own = Case(0, 1, pages, 65536, 6, 32), [], {}
    for number in range(1, size + 1):
        session = (number - 1) % sessions + 1
        points = own.setdefault(session, [])
        point = (number * 7919 % 100003,)
        if len(points) % 4 == 3:
            points.append(None)
            lines.append((number, session, "delete", points[-4], None))
        else:
            points.append(point)
            lines.append((number, session, "insert", point, str(number)))
    case.add(lines, [])
    return case


def after(lines, records):
    """The records behind these lines, one after the other."""
    records = dict(records)
    for line in lines:
        do(records, line)
    return records


def judge(case, at, records, status, text):
    """What was said of the text of this number, over these records: against the plain list, and by time."""
    run = Run(case.k, records, case.runs[at][0], status, text, [], 0)
    run.at, run.clock = list(range(len(run.said.replies))), len(run.said.replies)
    if run.said.order is None:
        raise Bad(f"no order: {text[-90:]} ({status})")
    run.check()
    check_time(run)
    return run


def check_time(run):
    """A line begins when its session's last one is answered. None takes effect in front of one that was answered by then."""
    places, latest, begun = {line: place for place, line in enumerate(run.said.order)}, [-1], {}
    for line, _ in run.said.replies:
        latest.append(max(latest[-1], places.get(line, -1)))
    replied = {line: latest[at + 1] for at, (line, _) in enumerate(run.said.replies)}
    for line in sorted(run.lines):
        session = run.lines[line][1]
        if line in places and places[line] < begun.get(session, -1):
            raise Bad(f"line {line} took effect before one that was answered before it began")
        begun[session] = replied.get(line, begun.get(session, -1))


def judge_whole(case, at, records, status, text):
    """The same of a run in which nothing failed: each line is answered, and all is settled."""
    run = judge(case, at, records, status, text)
    if status or run.said.left or run.said.settled != len(run.said.order):
        raise Bad(f"not whole: status {status}, {len(run.said.left)} lines left, settled {run.said.settled} of {len(run.said.order)}")
    return run
