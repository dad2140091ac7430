#!/usr/bin/env python3
"""Random texts of sessions in threads, compared with a plain list in the order that is printed.

    HBPI=PROGRAM trials/threads/random_runs.py KIND COUNT SEED

KIND is `free`, `paused` (disturb.c puts pauses at random in front of calls, and half of the files run on one processor), `refused`
(calls that make a thread fail: all, the first, the last three, each single one, then random ones), or `refused-paused`. COUNT is of
files, with `refused` of those with random ones. Each has two runs of 2,000 lines from 16 sessions, the second over what the first
left: files of even numbers on a disk, of odd ones in memory. Behind each run the file has to be sound and to have exactly the records
of the list. The line of a file is `ok` or `BAD`, and the status is 0 where none is BAD. What a BAD one takes to be done again is kept
in a file.
"""
import collections
import os
import random
import sys
import tempfile

import calling
from plain_list import Bad
from texts import a_case, judge_whole

# threads asked for by 16 sessions: one for each worker, and one less than the sessions
SPAWNS = 18


def keep(case, at, said):
    """Writes down a run that differs."""
    place = os.path.join(tempfile.gettempdir(), f"threads-{os.getpid()}-{case.seed}")
    with open(place, "w") as f:
        f.write(case.create() + "\n" + "".join(f"-- run {number + 1}\n{case.text(number)}" for number in range(at + 1)) + f"-- said ({said[0]})\n{said[1]}")
    return place


def try_file(rooms, case, cpu, disturbed, counts):
    """Both runs over a new file."""
    path, records = rooms.memory if case.seed % 2 else rooms.disk, {}
    rooms.make(path, case)
    for at in range(len(case.runs)):
        said = rooms.call(path, "run", case.text(at), cpu, **disturbed)
        try:
            run = judge_whole(case, at, records, *said)
            records = run.sets[-1]
            if rooms.holds(path, case.k) != records:
                raise Bad("the file hasn't the records of the list")
        except Bad as bad:
            raise Bad(f"run {at + 1}: {bad}; see {keep(case, at, said)}") from None
        counts.update(reply.split(" ")[0] for _, reply in run.said.replies)
        counts["runs"] += 1
        counts["lines moved"] += sum(line != place for line, place in zip(run.said.order, sorted(run.said.order)))
        if disturbed:
            told = rooms.told_numbers()
            counts.update(dict(zip(("threads", "refused", "failed", "pauses", "empty wakes"), told)))
            if "REFUSED" in disturbed and not told[1] or "PAUSES" in disturbed and not told[3]:
                raise Bad("nothing was disturbed")
    return f"{case.create()[7:]}, {'memory' if case.seed % 2 else 'disk'}, {len(records)} records" + "".join(f", {name} {word}" for name, word in disturbed.items())


def refusals(count, seed):
    """Which calls are refused, file by file."""
    rng = random.Random(seed)
    yield from ("all", "1", ",".join(str(number) for number in range(SPAWNS - 2, SPAWNS + 1)))
    yield from map(str, range(1, SPAWNS + 1))
    for _ in range(count):
        yield ",".join(str(number) for number in range(1, SPAWNS + 1) if rng.random() < rng.choice([0.1, 0.3, 0.7])) or "2"


def files_of(kind, count, seed):
    """Of each file the processor that it runs on, or none, and what is disturbed."""
    words = list(refusals(count, seed)) if kind.startswith("refused") else [None] * count
    for number, word in enumerate(words):
        cpu, disturbed = None, {}
        if kind.endswith("paused"):
            cpu = number // 2 % os.cpu_count() if number % 4 < 2 else None
            disturbed["PAUSES"] = str(random.Random(f"{seed} pauses {number}").randrange(1, 2 ** 31))
        if word:
            disturbed["REFUSED"] = word
        yield cpu, disturbed


def main():
    kind, count, seed = sys.argv[1], int(sys.argv[2]), sys.argv[3]
    if kind not in ("free", "paused", "refused", "refused-paused"):
        sys.exit(__doc__)
    counts, bad = collections.Counter(), 0
    with calling.Rooms() as rooms:
        for number, (cpu, disturbed) in enumerate(files_of(kind, count, seed)):
            case = a_case(seed, number)
            bad += not calling.tells(f"{kind} {seed} {number}", lambda: try_file(rooms, case, cpu, disturbed, counts))
    print(f"{'BAD ' if bad else 'ok  '} {bad} BAD;", dict(counts), "the longest took", {place: f"{taken:.1f} s" for place, taken in rooms.longest.items()})
    sys.exit(bad > 0)


if __name__ == "__main__":
    main()
