#!/usr/bin/env python3
"""Random files, opened by the project's `recover` and by opening.py, and compared.

    trials/opening/random_files.py COUNT [SEED]

It copies the repository's sources into a temporary folder, puts program.txt there as one more program,
and runs it unproved (`rt try`) on COUNT files, which files.py makes and spoiling.py spoils. What an
opening says, and each call by which it writes, zeroes or syncs, with a sum of what it writes, has to be
what opening.py says. Of one file in fifty all bytes are compared too, over a disk in memory. It prints
how many files there were of each answer, and the first that differ. The status is 0 where none does.
"""
import collections
import os
import random
import shutil
import struct
import subprocess
import sys
import tempfile

import opening
import files
import spoiling

HERE = os.path.dirname(os.path.abspath(__file__))
ROOT = os.path.dirname(os.path.dirname(HERE))
USES = "hb_space hb_outside hb_disk hb_layout hb_ops hb_store hb_restart"
# how many files are made of one, of how many all bytes are compared, and how many a run of the program takes
SAME, WHOLE, BATCH = 10, 50, 100000


# ---- cases

def pieces(old, new):
    """What has to be put over `old`, cut short or filled with zeros, to make it `new`."""
    old, found = old[:len(new)].ljust(len(new), b"\0"), []
    for block in range(0, len(new), 4096):
        if old[block:block + 4096] == new[block:block + 4096]:
            continue
        for at in range(block, min(block + 4096, len(new)), 32):
            if old[at:at + 32] == new[at:at + 32]:
                continue
            if found and found[-1][1] == at and at - found[-1][0] < 60000:
                found[-1][1] = at + 32
            else:
                found.append([at, at + 32])
    return [(at, new[at:end]) for at, end in found]


def spelled(kind, old, new):
    put = pieces(old, new)
    return struct.pack(">BIH", kind, len(new), len(put)) + b"".join(struct.pack(">IH", at, len(piece)) + piece for at, piece in put)


def disk_of(old, case):
    """The bytes again."""
    _, size, count = struct.unpack(">BIH", case[:7])
    disk, at = bytearray(old[:size].ljust(size, b"\0")), 7
    for _ in range(count):
        place, length = struct.unpack(">IH", case[at:at + 6])
        disk[place:place + length] = case[at + 6:at + 6 + length]
        at += 6 + length
    return bytes(disk)


def cases(rng, count):
    """The bytes of the cases, and of each what is wanted: the answer, its names, and the bytes again."""
    made, wanted = [], []
    while len(wanted) < count:
        file, meta, pages = files.a_file(rng)
        base = file.spelled()
        made.append(spelled(0, b"", base))
        first = made[-1]
        for _ in range(min(SAME, count - len(wanted))):
            disk = spoiling.spoiled(rng, file, meta, pages)
            answer, whole = opening.opened(disk), len(wanted) % WHOLE == 0
            made.append(spelled(2 if whole else 1, base, disk))
            wanted.append((opening.all_said(disk, answer, whole), answer.name, answer.fine, first, made[-1]))
    return b"".join(made), wanted


# ---- the program

class Program:
    """The copy with the program, in a folder that goes at the end."""

    def __enter__(self):
        self.top = tempfile.TemporaryDirectory()
        top = self.top.name
        shutil.copytree(os.path.join(ROOT, "crates"), os.path.join(top, "crates"), ignore=shutil.ignore_patterns("out"))
        with open(os.path.join(ROOT, "crates.txt")) as f:
            lines = f.read()
        with open(os.path.join(top, "crates.txt"), "w") as f:
            f.write(lines + f"opening_trial: {USES}\n")
        place = os.path.join(top, "crates", "opening_trial", "src")
        os.makedirs(place)
        shutil.copy(os.path.join(HERE, "program.txt"), os.path.join(place, "main.rt"))
        self.place = os.path.dirname(place)
        return self

    def __exit__(self, *_):
        self.top.cleanup()

    def run(self, stdin):
        return subprocess.run(["rt", "try", "--seconds", "3000"], cwd=self.place, input=stdin, capture_output=True)


def keep(told, wanted, number):
    """Says what differs, and leaves the file."""
    answer, _, fine, first, case = wanted
    place = os.path.join(tempfile.gettempdir(), f"opens-otherwise-{os.getpid()}-{number}")
    with open(place, "wb") as f:
        f.write(disk_of(disk_of(b"", first), case))
    print(f"{fine}: the model says {answer!r}, the crate {told!r}; the file is {place}")


def compare(program, rng, count, names):
    """How many of so many files differ. Their names are counted."""
    stdin, wanted = cases(rng, count)
    done = program.run(stdin)
    told = done.stdout.decode(errors="replace").splitlines()
    if len(told) < count:
        print(f"only {len(told)} answers", done.stderr.decode(errors="replace")[-2000:], "\n".join(told[-5:]))
        sys.exit(1)
    names.update(w[1] for w in wanted)
    names.update(w[2] for w in wanted if w[2] != w[1])
    wrong = [(line, w) for line, w in zip(told, wanted) if line != w[0]]
    for number, (line, w) in enumerate(wrong[:3]):
        keep(line, w, number)
    return len(wrong)


def main():
    count = int(sys.argv[1])
    rng = random.Random(int(sys.argv[2]) if len(sys.argv) > 2 else 1)
    names, wrong = collections.Counter(), 0
    with Program() as program:
        for at in range(0, count, BATCH):
            wrong += compare(program, rng, min(BATCH, count - at), names)
    for name, times in sorted(names.items()):
        print(f"{name}: {times}")
    print(f"{count} files, {wrong} differ")
    sys.exit(1 if wrong else 0)


if __name__ == "__main__":
    main()
