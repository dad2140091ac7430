#!/usr/bin/env python3
"""Random calls of hb_latch, compared with a plain map.

    trials/latches/random_latches.py [THOUSANDS]

It copies the repository's sources into a temporary folder, puts program.txt there as one more
program, and runs it unproved (`rt try`). It makes the same calls on a dictionary here, and prints how
many were granted, refused and left out. The status is 0 where the answers are the same.
"""
import collections
import os
import shutil
import subprocess
import sys
import tempfile

HERE = os.path.dirname(os.path.abspath(__file__))
ROOT = os.path.dirname(os.path.dirname(HERE))
BESIDE = {("shared", "shared"), ("shared", "update"), ("update", "shared")}


class Numbers:
    state = 1

    def below(self, bound):
        self.state = (self.state * 6364136223846793005 + 1442695040888963407) % 2 ** 64
        return (self.state >> 33) % bound


def asked(held, actor, page, mode):
    """What is answered where the actor asks for the page in this mode."""
    in_the_way = [other for (other, at), has in held.items() if at == page and other != actor and (mode, has) not in BESIDE]
    if in_the_way:
        return min(in_the_way)
    held[actor, page] = mode
    return 0


def call(held, numbers):
    actor, page = 1 + numbers.below(19), 1 + numbers.below(8)
    mode = ("shared", "shared", "update", "update", "exclusive")[numbers.below(5)]
    promotes = numbers.below(2) == 0
    has = held.get((actor, page))
    if has is None:
        return asked(held, actor, page, mode) if sum(other == actor for other, _ in held) < 3 else 99
    if has == "update" and promotes:
        return asked(held, actor, page, "exclusive")
    del held[actor, page]
    return 0


def run(thousands):
    with tempfile.TemporaryDirectory() as top:
        shutil.copytree(os.path.join(ROOT, "crates"), os.path.join(top, "crates"), ignore=shutil.ignore_patterns("out"))
        with open(os.path.join(ROOT, "crates.txt")) as f:
            lines = f.read()
        with open(os.path.join(top, "crates.txt"), "w") as f:
            f.write(lines + "latch_trial: hb_space hb_latch\n")
        place = os.path.join(top, "crates", "latch_trial", "src")
        os.makedirs(place)
        shutil.copy(os.path.join(HERE, "program.txt"), os.path.join(place, "main.rt"))
        return subprocess.run(["rt", "try", "--seconds", "300"], cwd=os.path.dirname(place), input=str(thousands), capture_output=True, text=True)


def main():
    thousands = int(sys.argv[1]) if len(sys.argv) > 1 else 1000
    numbers, held, wanted, kinds = Numbers(), {}, [], collections.Counter()
    for _ in range(thousands):
        total = 2166136261
        for _ in range(1000):
            answer = call(held, numbers)
            kinds["done" if answer == 0 else "left out" if answer == 99 else "refused"] += 1
            total = (total ^ answer) * 16777619 % 2 ** 32
        wanted.append(f"{total:08x}")
    done = run(thousands)
    told = done.stdout.split()
    print(dict(kinds))
    if told[:thousands] != wanted:
        print("the answers differ", done.stderr[-2000:], told[-3:])
        sys.exit(1)
    print(f"{thousands} thousand calls, the same answers")


if __name__ == "__main__":
    main()
