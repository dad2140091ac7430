#!/usr/bin/env python3
"""Maps files by their bytes, and compares the map with what `map` says.

    trials/mapping.py FILE
    HBPI=PROGRAM trials/mapping.py COUNT [SEED]

The first form prints the map of a file, whose log it replays; it writes nothing. The second one makes COUNT random files in one to
four attributes, by `work`, `run` and `drive`. Of each the map by its bytes has to be what `map` says, before an opening and behind one,
`check` has to say the same numbers, and a search of the whole space the same records. Where the program has no `map` yet, it says so.
"""
import collections
import os
import sys
import tempfile

HERE = os.path.dirname(os.path.abspath(__file__))
sys.path.insert(0, os.path.join(HERE, "maps"))
from grown import TOP, call, contents, grow, layout, read, record_text, seeded
from mapped import Bad, check_text, file_of, map_text

NOT_BUILT = 11
# where files are quick
MEMORY = "/dev/shm" if os.path.isdir("/dev/shm") else None
# a layout, a text, and the map of the file behind it; slashes for line feeds, M for the greatest value
ROWS = (
    ("3 64 65536 6 32",
     "1 insert 1 5 5 =/1 insert 9 5 5 =/1 insert 5 1 5 =/1 insert 5 9 5 =/1 insert 5 5 1 =/1 insert 5 5 9 =/1 insert 5 5 5 =/step 1x40",
     "height 1 root 1 pages 2 free 62/page 1 level 0 weight 3 parents 0/records 1 0 4 0 M 0 M/hole 2 5 8 0 M 0 M/records 1 9 M 0 M 0 M"
     "/page 2 level 0 weight 5 parents 0/records 5 5 8 0 M 0 M"),
    ("1 64 65536 6 32",
     "1 insert 10 =/1 insert 20 =/1 insert 30 =/1 insert 40 =/1 insert 50 =/1 insert 60 =/1 insert 70 =/step 1x40",
     "height 1 root 1 pages 2 free 62/page 1 level 0 weight 5 parents 0/hole 2 0 39/records 4 40 M/page 2 level 0 weight 3 parents 0/records 3 0 39"),
)


def lines_of(text):
    return f"{text}/".replace("/", "\n").replace("M", str(TOP))


def differences(program, name, k):
    """What is said otherwise of a file, and whether `map` is there."""
    file = file_of(read(name))
    wanted, found = map_text(file), []
    said, status = call(program, name, "map")
    if status != NOT_BUILT and (said, status) != (wanted, 0):
        found.append("map")
    if call(program, name, "check") != (check_text(file), 0):
        found.append("check")
    if map_text(file_of(read(name))) != wanted:
        found.append("the map behind an opening")
    if contents(program, name, k) != [record_text(record) for record in file.records()]:
        found.append("the records")
    return found, status != NOT_BUILT, file


def rows(program, folder):
    """The two files whose maps were worked out by hand."""
    wrong = 0
    for number, (made, text, wanted) in enumerate(ROWS):
        name = f"{folder}/row"
        call(program, name, "create", *made.split())
        call(program, name, "drive", text=lines_of(text))
        found, _, file = differences(program, name, int(made[0]))
        os.remove(name)
        found += ["the map worked out by hand"] if map_text(file) != lines_of(wanted) else []
        print(f"{'BAD ' if found else 'ok  '} file {number + 1} by hand: {', '.join(found) or 'the same'}")
        wrong += bool(found)
    return wrong


def load(program, folder):
    """Twenty thousand lines of eight sessions, which own their points: each reply comes as often as it does over a plain set."""
    name, none = f"{folder}/load", "-"
    call(program, name, "create", 3, 4096, 1048576, 48, 256)
    said, status = call(program, name, "work", 1, 20000)
    plain = collections.Counter(line.split(" ", 2)[1] for line in call(program, none, "dry", 3, text=call(program, none, "gen", 1, 20000, 3)[0])[0].splitlines() if line[0].isdigit())
    counts = {reply: plain[reply] for reply in ("ok", "duplicate", "absent", "found", "none", "box")}
    found, _, file = differences(program, name, 3)
    wanted = " ".join(f"{reply} {times}" for reply, times in counts.items()) + f" records {len(file.records())}\n"
    found += ["the line of work"] if (said, status) != (wanted, 0) or sum(counts.values()) != 20000 else []
    os.remove(name)
    print(f"{'BAD ' if found else 'ok  '} a load: {', '.join(found) or said.strip()}", flush=True)
    return bool(found)


def compare(program, folder, count, seed):
    """How many of so many random files differ, and what all of them have."""
    wrong, built, seen = 0, True, dict(files=0, pages=0, holes=0, heights={}, records=0)
    for number in range(count):
        rng, name = seeded(seed, number), f"{folder}/file"
        made = layout(rng)
        done = grow(rng, program, name, made)
        try:
            found, built, file = differences(program, name, made[0])
        except Bad as why:
            found, file = [str(why)], None
        os.remove(name)
        if file:
            height = file.meta["height"]
            seen["heights"][height] = seen["heights"].get(height, 0) + 1
            seen["files"], seen["pages"], seen["records"] = seen["files"] + 1, seen["pages"] + len(file.live), seen["records"] + len(file.records())
            seen["holes"] += sum(len(file.leaves(page, "sibling")) for page in file.live)
        if found:
            print(f"BAD  file {number} of seed {seed}: {', '.join(found)} ({done})")
            wrong += 1
    heights = ", ".join(f"{count} of height {height}" for height, count in sorted(seen["heights"].items()))
    print(f"{'BAD ' if wrong else 'ok  '} {seen['files']} files ({heights}), {seen['pages']} pages, {seen['holes']} holes, {seen['records']} records: {wrong} differ")
    if not built:
        print("     `map` isn't built: nothing was compared with it")
    return wrong


def main():
    if not sys.argv[1].isdigit():
        print(map_text(file_of(read(sys.argv[1]))), end="")
        return 0
    count, seed = (sys.argv[1:] + ["1"])[:2]
    program = os.path.realpath(os.environ["HBPI"])
    with tempfile.TemporaryDirectory(dir=MEMORY) as folder:
        return bool(rows(program, folder) + load(program, folder) + compare(program, folder, int(count), seed))


if __name__ == "__main__":
    sys.exit(main())
