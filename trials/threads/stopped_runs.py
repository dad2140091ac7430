#!/usr/bin/env python3
"""Runs of sessions in threads that are stopped: killed, over a disk that fails, or with an output that fails.

    HBPI=PROGRAM trials/threads/stopped_runs.py KIND COUNT SEED

`killed`: eight sessions on a disk, with the smallest log; the process is killed (SIGKILL) at COUNT moments, drawn by how many replies
were read. Behind the next opening each session has the records of a first part of its lines: of those that were answered, or of
one more. `failing`: eight sessions over a file of more pages than frames; by disturb.c each of the first COUNT calls of pread, pwrite
and fdatasync behind the opening fails, once and for good. The run has to end; the next opening finds the records of a first part of the
order, with all that was answered. `failing-paused`: the same with pauses at random, too. `output`: the output is full, or is closed, at once or once some lines were read, at COUNT
moments; or the text ends inside a line. The line of a run is `ok` or `BAD`, and the status is 0 where none is BAD.
"""
import functools
import os
import random
import select
import shutil
import subprocess
import sys
import time

import calling
from cases import Case, WAVES, a_line
from plain_list import Bad, Said
from texts import after, an_own_case, judge, judge_whole

CALLS = ("pread", "pwrite", "fdatasync")


def read_lines(process, wanted, text):
    """What is written, until it has so many lines or ends."""
    said = b""
    while said.count(b"\n") < wanted:
        if not select.select([process.stdout], [], [], calling.LIMIT)[0]:
            raise calling.look_at(process, text)
        part = os.read(process.stdout.fileno(), 65536)
        if not part:
            break
        said += part
    return said


def begin(rooms, case, **streams):
    """A new file on the disk, and a run over it that has the text in a file."""
    rooms.make(rooms.disk, case)
    with open(rooms.disk + ".text", "w+") as f:
        f.write(case.text(0))
        f.flush()
        f.seek(0)
        return rooms.begin(rooms.disk, "run", {}, stdin=f, **streams)


def ended(process, text):
    try:
        return process.wait(calling.LIMIT)
    except subprocess.TimeoutExpired:
        raise calling.look_at(process, text) from None


def answered(lines, said):
    """Of each session its lines, and how many were answered. Each is `ok`, in the session's sequence."""
    for session in {line[1] for line in lines}:
        own = [line for line in lines if line[1] == session]
        replies = [reply for reply in said.replies if lines[reply[0] - 1][1] == session]
        if replies != [(line[0], "ok") for line in own[:len(replies)]]:
            raise Bad(f"session {session} is answered {replies[-3:]}")
        yield own, len(replies)


def check_sessions(lines, said, records):
    """Each session has the records of its answered lines, or of one more. No two share a point. How many have one more."""
    known, further = set(), 0
    for own, count in answered(lines, said):
        points = {line[3] for line in own}
        held = {point: records[point] for point in points if point in records}
        if held not in (after(own[:count + more], {}) for more in (0, 1)):
            raise Bad(f"session {own[0][1]}, {count} lines answered, has {sorted(held.items())}")
        further += held != after(own[:count], {})
        known |= points
    if not known.issuperset(records):
        raise Bad("a record of no session")
    return further


# ---- killed

def kill(rooms, case, rng, tally):
    """A run that is killed once so many replies were read, and a little later."""
    lines, wanted, pause = case.runs[0][0], rng.randrange(len(case.runs[0][0])), rng.choice([0, rng.random() / 200])
    process = begin(rooms, case, stdout=subprocess.PIPE)
    said = read_lines(process, wanted, case.text(0))
    time.sleep(pause)
    process.kill()
    said += process.stdout.read()
    tally["killed"] += process.wait() == -9
    text = said.decode()
    records = rooms.holds(rooms.disk, case.k)
    said = Said(text[:text.rfind("\n") + 1])
    further = check_sessions(lines, said, records)
    tally["one more"] += further
    return f"killed {pause * 1000:.1f} ms behind reply {wanted}: {len(said.replies)} replies written, {len(records)} records, {further} lines more"


def killed(rooms, count, seed):
    case, tally, tries = an_own_case(8, 1200), {"killed": 0, "one more": 0}, 0
    # a run that was done before its moment doesn't count
    while tally["killed"] < count and tries < 2 * count:
        tries += 1
        yield f"{seed} {tries}", functools.partial(kill, rooms, case, random.Random(f"{seed} {tries}"), tally)
    print("     ", tally)


# ---- failing

def filled(rooms):
    """A case whose file has more pages than frames, and its records. The file is kept beside."""
    rng, case = random.Random("filled"), Case(0, 2, 1200, 65536, 6, 32)
    case.add([a_line(rng, at + 1, 16, 2, range(50), (1, 0, 0, 0)) for at in range(2000)], [])
    rooms.make(rooms.memory, case)
    records = judge_whole(case, 0, {}, *rooms.call(rooms.memory, "run", case.text(0))).sets[-1]
    shutil.copy(rooms.memory, rooms.memory + ".filled")
    return case, records


def check_failed(run, name, found):
    """What a run may come to in which this call failed, and what the next opening may find."""
    said, faults = run.said, sum(reply == "read fault" for _, reply in run.said.replies)
    if said.fault not in (None, "disk fault") or any(word != "unanswered" for _, word in said.left):
        raise Bad(f"{said.fault}, {said.left[:3]}")
    if name == "pread" and (said.left or said.settled != len(said.order) or (run.status == 6) != (faults > 0)):
        raise Bad(f"status {run.status} and {faults} read faults, {len(said.left)} lines left")
    if name != "pread" and (run.status != 6 or faults):
        raise Bad(f"status {run.status} and {faults} read faults")
    if found not in run.sets[said.settled:]:
        raise Bad(f"the next opening has no part of the order from {said.settled} on")
    return f"status {run.status}, {len(said.left)} lines unanswered, {faults} read faults, settled {said.settled} of {len(said.order)}"


def fail(rooms, case, records, name, number, behind, paused):
    rng = random.Random(f"{case.seed} {name} {number} {behind}")
    disturbed = {"PAUSES": str(rng.randrange(1, 2 ** 31))} if paused else {}
    waves = [rng.choice(list(WAVES.values())) for _ in range(4)]
    case.runs[1:] = []
    case.add([a_line(rng, at + 1, 8, 2, range(50), waves[at // 150]) for at in range(600)], [])
    shutil.copy(rooms.memory + ".filled", rooms.memory)
    said = rooms.call(rooms.memory, "run", case.text(1), FAILS=f"{name},{number}{behind}", **disturbed)
    if not rooms.told_numbers()[2]:
        raise Bad("no call failed")
    run = judge(case, 1, records, *said)
    return check_failed(run, name, rooms.holds(rooms.memory, 2))


def failing(rooms, count, seed, paused=False):
    case, records = filled(rooms)
    case.seed = seed
    for number in range(1, count + 1):
        for name in CALLS:
            for behind in ("", ",on"):
                yield f"{seed}: {name} {number}{behind}", functools.partial(fail, rooms, case, records, name, number, behind, paused)


# ---- output

def whole(rooms, case, status, wanted):
    """Behind a run whose output failed all lines took effect."""
    records = rooms.holds(rooms.disk, case.k)
    if status not in wanted or records != after(case.runs[0][0], {}):
        raise Bad(f"status {status}, {len(records)} records")
    return f"status {status}, {len(records)} records"


def fill(rooms, case, name):
    with open("/dev/full", "w") as f:
        process = begin(rooms, case, stdout=f if name == "full" else None, preexec_fn=(lambda: os.close(1)) if name == "closed" else None)
        return whole(rooms, case, ended(process, case.text(0)), (5,))


def shut(rooms, case, wanted):
    """The output is closed once so many lines were read. A run that has written all by then doesn't see it."""
    process = begin(rooms, case, stdout=subprocess.PIPE)
    said = read_lines(process, wanted, case.text(0)).decode()
    process.stdout.close()
    status = ended(process, case.text(0))
    list(answered(case.runs[0][0], Said(said[:said.rfind("\n") + 1])))
    return whole(rooms, case, status, (0, 5))


def rule_of(line):
    """The rule that a front of `16 insert 34 =ab` breaks, or None."""
    words = line.split(" ")
    if line.endswith(" "):
        return "BadSpacing"
    if line and words[1:2] != ["insert"]:
        return "BadVerb"
    return "BadCount" if line and len(words) < 4 else None


def cut(rooms, line):
    """A text whose last line is this one, without a line feed."""
    case, rule = Case(0, 1, 60, 65536, 6, 32), rule_of(line)
    rooms.make(rooms.disk, case)
    said = rooms.call(rooms.disk, "run", "1 insert 5 =a\n" + line)
    records = rooms.holds(rooms.disk, 1)
    if rule:
        wanted, good = {}, said == (3, f"bad text 2 {rule}\n")
    else:
        wanted = {(5,): "a", (34,): line.partition("=")[2]} if line else {(5,): "a"}
        good = said[0] == 0 and sorted(said[1].split("\n")[:-2]) == ["1 ok", "2 ok"][:len(wanted)]
    if not good or records != wanted:
        raise Bad(f"{said} and {records}")
    return f"{said[1].split(chr(10))[-2]} ({said[0]})"


def no_text(rooms, source):
    rooms.make(rooms.disk, Case(0, 1, 60, 65536, 6, 32))
    process = rooms.begin(rooms.disk, "run", {}, stdin=source, stdout=subprocess.PIPE)
    said = process.communicate(timeout=calling.LIMIT)[0]
    if (process.returncode, said) != (4, b"source fault\n") or rooms.holds(rooms.disk, 1):
        raise Bad(f"{said} ({process.returncode})")
    return "source fault (4)"


def output(rooms, count, seed):
    case, rng = an_own_case(8, 600), random.Random(seed)
    for name in ("full", "closed"):
        yield f"the output is {name}", functools.partial(fill, rooms, case, name)
    for number in range(count):
        lines = number if number < 4 else rng.randrange(600)
        yield f"the output is closed behind line {lines}", functools.partial(shut, rooms, case, lines)
    line = "16 insert 34 =ab"
    for at in range(len(line) + 1):
        yield f"a text that ends in {line[:at]!r}", functools.partial(cut, rooms, line[:at])
    folder = os.open(".", os.O_RDONLY)
    yield "a folder as the text", functools.partial(no_text, rooms, folder)


def main():
    kinds = {"killed": killed, "failing": failing, "failing-paused": functools.partial(failing, paused=True), "output": output}
    kind, count, seed = sys.argv[1], int(sys.argv[2]), sys.argv[3]
    if kind not in kinds:
        sys.exit(__doc__)
    tried = bad = 0
    with calling.Rooms() as rooms:
        for name, try_it in kinds[kind](rooms, count, seed):
            tried += 1
            bad += not calling.tells(f"{kind} {name}", try_it)
    print(f"{'BAD ' if bad else 'ok  '} {tried} tried, {bad} BAD")
    sys.exit(bad > 0)


if __name__ == "__main__":
    main()
