#!/usr/bin/env python3
"""Random schedules over the whole program, compared with a plain list.

    trials/schedules/random_schedules.py KIND COUNT SEED

KIND is `random`, `searching` (random, with searches), `deep` (files of three levels), `failing` (each device call fails, once
and for good), `searching-failing` (the same with searches), `racing` (two sessions on one page, in all interleavings of their
first six steps), `high` (3,000 inserts with the poster), `refused` (each allocation is refused in turn; with TRIAL_PROGRAM
alone), `searching-refused` (some allocations of schedules with searches), `merging` (waves of inserts and deletes with searches,
the poster and the consolidator), `merging-deep` (the same over files of three levels), `merging-failing` or `merging-refused`;
over files of more pages than there are frames `framing` (waves of all kinds), `crowding` (each run changes all pages),
`framing-failing`, `framing-refused` or `framing-short` (a hundred short schedules over copies of each file); over files with the
smallest log, whose turn ends several times in a run, `switching`, `switching-failing` or `switching-deep` (recoveries inside switches).
Each run that starts with a known file is also taken step by step by a machine in Python (machine.py), also where a call fails. It
has to print the same, to make the same calls of the disk, and to leave the same pages; each image of a moment has to open to the
one or two files that the machine says. Of merges and of frames its counts tell. It copies the repository's sources into a
temporary folder, puts program.txt there as one more program, and runs it unproved (`rt try`); or it runs the program that
TRIAL_PROGRAM names, which was built of these sources with optimisation, since `rt try` takes a hundred times as long. It prints what was tried, and
of the first runs that differ all that it takes to do them again. The status is 0 where none does.
"""
import collections
import itertools
import os
import random
import re
import shutil
import subprocess
import sys
import tempfile

from cases import deep_cases, high_cases, merging_cases, merging_deep_cases, merging_refused_cases, racing_cases, random_cases, refused_cases
from comparing import Told, compare
from frame_cases import a_crowded_case, a_failing_frames_case, a_framing_case, frame_cases, frames_refused_cases
from plain_list import Bad
from short_cases import a_short_case
from switching_cases import switching_cases, switching_deep_cases

HERE = os.path.dirname(os.path.abspath(__file__))
ROOT = os.path.dirname(os.path.dirname(HERE))
USES = "hb_space hb_outside hb_disk hb_layout hb_set hb_store hb_restart hb_text hb_ops hbpi"
# how many schedules are of one file, and how many files of one run of the program
FILE, BATCH = 20, 50


# ---- the program

class Program:
    """The copy with the program, in a folder that goes at the end."""

    def __enter__(self):
        self.built = os.environ.get("TRIAL_PROGRAM")
        self.top = tempfile.TemporaryDirectory()
        if self.built:
            return self
        top = self.top.name
        shutil.copytree(os.path.join(ROOT, "crates"), os.path.join(top, "crates"), ignore=shutil.ignore_patterns("out"))
        with open(os.path.join(ROOT, "crates.txt")) as f:
            lines = f.read()
        with open(os.path.join(top, "crates.txt"), "w") as f:
            f.write(lines + f"schedule_trial: {USES}\n")
        place = os.path.join(top, "crates", "schedule_trial", "src")
        os.makedirs(place)
        for name, module in (("program.txt", "main.rt"), ("watched.txt", "watched.rt")):
            shutil.copy(os.path.join(HERE, name), os.path.join(place, module))
        self.place = os.path.dirname(place)
        return self

    def __exit__(self, *_):
        self.top.cleanup()

    def call(self, stdin, **more):
        done = subprocess.run([self.built], input=stdin, capture_output=True, env=dict(os.environ, **more))
        if more and done.returncode == 1:
            return None
        if done.returncode or done.stderr:
            print(f"the program ended with {done.returncode}:", done.stderr.decode("latin-1")[-2000:])
        return done.stdout.decode("latin-1")

    def run(self, files):
        """What it writes for each of these inputs."""
        if self.built:
            return {number: self.call(stdin) for number, stdin in enumerate(files)}
        with tempfile.TemporaryDirectory() as folder:
            for number, stdin in enumerate(files):
                with open(os.path.join(folder, f"{number:04}"), "wb") as f:
                    f.write(stdin)
            done = subprocess.run(["rt", "try", "--steps", "1", "--seconds", "3000", "--cases", folder], cwd=self.place, capture_output=True)
        parts = re.split(r"^== (\d{4}).*\n", done.stdout.decode("latin-1"), flags=re.M)
        said = dict(zip(map(int, parts[1::2]), parts[2::2]))
        if len(said) != len(files):
            print("the program ended early:", done.stderr.decode("latin-1")[-3000:], done.stdout[-600:])
        return said


# ---- all cases

def show(case, bad, told, begun):
    place = os.path.join(tempfile.gettempdir(), f"schedule-{os.getpid()}-{case.seed}")
    with open(place, "w") as f:
        f.write(f"{bad}\n\n{case.create()}\n")
        for number in range(len(case.runs)):
            f.write(f"-- run {number + 1} {case.runs[number][2:]}\n" + case.text(number))
        f.write("-- told\n" + told.text[begun:begun + 200000])
    print(f"DIFFERS: case {case.seed}: {bad}; see {place}")


def refuse(cases, most=None):
    """Each case once for each allocation that is refused, or for so many of them that are drawn."""
    counts, differ = collections.Counter(), 0
    with Program() as program, tempfile.TemporaryDirectory() as folder:
        shim, said = os.path.join(folder, "refuse.so"), os.path.join(folder, "said")
        subprocess.run(["cc", "-O1", "-shared", "-fPIC", "-fno-builtin", "-o", shim, os.path.join(HERE, "refuse.c")], check=True)
        for case in cases:
            spelled = case.spelled()
            program.call(spelled, LD_PRELOAD=shim, REFUSE_TOLD=said)
            with open(said) as f:
                all_of_them = int(f.read())
            counts["cases"] += 1
            drawn = range(1, all_of_them + 1) if most is None else sorted(random.Random(case.seed).sample(range(1, all_of_them + 1), min(most, all_of_them)))
            for number in drawn:
                text = program.call(spelled, LD_PRELOAD=shim, REFUSE=str(number), REFUSE_TOLD=said)
                counts["refused" if text is not None else "refused to the trial itself"] += 1
                if text is None:
                    continue
                told = Told(text)
                try:
                    compare(case, told, counts, True)
                except Bad as bad:
                    differ += 1
                    if differ <= 9:
                        show(case, f"allocation {number}: {bad}", told, 0)
            if most is None or counts["cases"] % 50 == 0:
                print(f"case {case.seed}, {all_of_them} allocations, {differ} differ", dict(counts), flush=True)
    print(f"{differ} differ", dict(counts))
    sys.exit(differ > 0)


def main():
    kind, count, seed = sys.argv[1], int(sys.argv[2]), sys.argv[3]
    if kind == "refused":
        refuse(refused_cases(count, seed))
    if kind == "searching-refused":
        refuse(refused_cases(count, seed, True), 40)
    if kind == "merging-refused":
        refuse(merging_refused_cases(count, seed), 40)
    if kind == "framing-refused":
        refuse(frames_refused_cases(count, seed), 40)
    made = {"random": lambda: random_cases(count, seed, False), "failing": lambda: random_cases(count, seed, True),
            "searching": lambda: random_cases(count, seed, False, True), "searching-failing": lambda: random_cases(count, seed, True, True),
            "merging": lambda: merging_cases(count, seed), "merging-failing": lambda: merging_cases(count, seed, True), "merging-deep": lambda: merging_deep_cases(count, seed),
            "framing": lambda: frame_cases(count, seed, a_framing_case), "framing-failing": lambda: frame_cases(count, seed, a_failing_frames_case),
            "crowding": lambda: frame_cases(count, seed, a_crowded_case), "framing-short": lambda: frame_cases(count, seed, a_short_case),
            "switching": lambda: switching_cases(count, seed), "switching-failing": lambda: switching_cases(count, seed, True),
            "switching-deep": lambda: switching_deep_cases(count, seed),
            "racing": lambda: itertools.islice(racing_cases(), count), "deep": lambda: deep_cases(count, seed), "high": lambda: high_cases(count, seed)}[kind]()
    size = {"failing": 2, "searching-failing": 2, "merging-failing": 2, "switching-failing": 1, "switching-deep": 1, "switching": 4, "high": 1, "deep": 1, "merging-deep": 1, "framing": 1, "framing-failing": 1, "framing-short": 1, "crowding": 1}.get(kind, FILE)
    counts, differ = collections.Counter(), 0
    with Program() as program:
        while batch := list(itertools.islice(made, size * BATCH if size > 1 else 1)):
            parts = [batch[at:at + size] for at in range(0, len(batch), size)]
            said = program.run([b"".join(case.spelled() for case in part) for part in parts])
            for number, part in enumerate(parts):
                told = Told(said.get(number, ""))
                for case in part:
                    begun = told.at
                    counts["schedules"] += 1
                    try:
                        compare(case, told, counts)
                    except Bad as bad:
                        differ += 1
                        if differ <= 9:
                            show(case, bad, told, begun)
                        at = re.compile(r"^case ", re.M).search(told.text, told.at)
                        told.at = at.start() if at else len(told.text)
            print(counts["schedules"], "schedules,", differ, "differ", dict(counts), flush=True)
    for front, name in (("merging", "merged"), ("switching", "f: switched")):
        if kind.startswith(front) and not counts["machine: " + name]:
            print("It never happened:", name)
            differ += 1
    sys.exit(differ > 0)


if __name__ == "__main__":
    main()
