#!/usr/bin/env python3
"""A drive of many changes over a file of many pages with the smallest log, by eight sessions and all workers.

    TRIAL_PROGRAM=PROGRAM trials/schedules/long_drive.py CHANGES RECORDS SEED [PARTS PART]

So many records are put into a file of capacity 6, and then as many changes come, deletes and inserts of these points. An image is
opened before each hundredth call of the disk behind the opening, or before each PARTS-th of those, so that runs beside each other
share the work. The run is taken by the machine in Python (machine.py), too: it has to print the same, to make the same calls, to
answer at the same values of the clock, and each image has to open to the one or two files that it says. And each image has to have
the records of a plain list behind a prefix of the order that has each answered line.
"""
import itertools
import random
import sys

from cases import Case
from comparing import Told, records_of
from frames import FRAMES
from machine import Machine
from plain_file import File, Sums
from plain_list import Said, do, sum_of
from random_schedules import Program
from switching_cases import LOG

SESSIONS, EVERY = 8, 100
PRIME, MASK = 1099511628211, 2 ** 64 - 1


def some_lines(rng, changes, records):
    """Each point is one session's, so that each change is done."""
    points = rng.sample(range(2 ** 32), records)
    lines = [(at + 1, at % SESSIONS + 1, "insert", (point,), str(at)) for at, point in enumerate(points)]
    there = [True] * records
    for number in range(records + 1, records + changes + 1):
        at = rng.randrange(records)
        verb, body = ("delete", None) if there[at] else ("insert", str(number))
        there[at] = not there[at]
        lines.append((number, at % SESSIONS + 1, verb, (points[at],), body))
    return lines


def some_steps(rng, count):
    """Rounds of all sessions, in bursts or one by one, with the workers; the flusher comes now and then."""
    steps = []
    while len(steps) < count:
        burst = rng.choice([1, 1, 2, 3])
        for session in range(1, SESSIONS + 1):
            steps += [str(session)] * burst
        steps += ["p"] * rng.randint(0, 3) + ["c"] * rng.randint(0, 2) + ["f"] * (rng.random() < 0.05)
    return steps


class LongMachine(Machine):
    """It keeps no call and no file but the last two, and says of each moment that is asked for which files a crash may leave."""

    def watch(self, first, every, left):
        self.first, self.every, self.left, self.count, self.sum = first, every, left, 0, 0
        self.sums, self.expected = Sums(self.file.k), {}

    def call(self, kind, at, length):
        number = self.first + self.count
        if number % self.every == self.left:
            self.look(number)
        for part in (ord(kind), at, length):
            self.sum = (self.sum ^ part) * PRIME & MASK
        self.count += 1
        self.clock += kind != "r"

    def look(self, number):
        # a force that goes on has written its gate
        tried = self.forces and self.forces[-1][1] is None and self.clock >= self.forces[-1][0] + 3
        if len(self.sums.known) > 20000:
            self.sums = Sums(self.file.k)
        words = {self.sums.word(file) for file in ([self.durable, self.states[-1]] if tried else [self.durable])}
        self.expected[number] = words, self.clock, self.is_in_switch()
        del self.states[:-2], self.forces[:-1], self.switches[:-1]

    def is_in_switch(self):
        return bool(self.switches) and self.switches[-1][1] is None

    def tell(self, *event):
        """Nobody asks for events."""


def sums_of(lines, said):
    """The records of a plain list behind each place of the order, as the program tells them."""
    lines, replies, records = {line[0]: line for line in lines}, dict(said.replies), {}
    total, words = 0, ["0/0"]
    for number in said.order:
        _, _, verb, point, body = lines[number]
        total -= sum_of(1, point, records[point]) if verb == "delete" else 0
        reply = do(records, lines[number])
        assert reply == "ok" == replies.get(number, "ok"), (number, reply, replies.get(number))
        total += sum_of(1, point, body) if verb == "insert" else 0
        words.append(f"{total % 2 ** 64:x}/{len(records)}")
    return words


def compare_images(told, made, words, behind, answered):
    """Each image, and which ones stood in a switch."""
    images, inside, places = 0, 0, {word: place for place, word in enumerate(words)}
    while told.line(peek=True)[0] == "image":
        _, number, clock, _, answer = told.line()
        wanted, at, is_inside = made.expected.pop(int(number))
        assert at + behind == int(clock), (number, clock, at)
        assert answer in wanted, f"the image before call {number} opens to {answer}, and not to {wanted}"
        # a plain list may have had these records before, but the last time is late enough
        assert places[records_of(answer)] >= answered(int(clock)), f"the image before call {number} has lost a line"
        images, inside = images + 1, inside + is_inside
    assert not made.expected, "some moments weren't looked at"
    return images, inside


def main():
    changes, records, seed = int(sys.argv[1]), int(sys.argv[2]), sys.argv[3]
    parts, which = (int(sys.argv[4]), int(sys.argv[5])) if len(sys.argv) > 4 else (1, 0)
    rng = random.Random(seed)
    case = Case(1, 1, records // 3 + 20, LOG, 6, 32)
    case.watched = EVERY * parts, EVERY * which
    lines = some_lines(rng, changes, records)
    steps = some_steps(rng, 16 * len(lines))
    case.add(lines, steps)
    with Program() as program:
        told = Told(program.call(case.spelled()))
    assert told.line() == ["case", "0"]
    name, status, count, clock, first, total = told.line()
    assert (name, status) == ("watched", "0"), (name, status)
    first = int(first)
    at = [int(word) for word in told.line()[1:] if word]
    text = told.take(int(told.line()[1]))

    made = LongMachine(File(1, case.pages, LOG, case.dcap, case.icap), lines)
    made.watch(first, *case.watched)
    for actor, some in itertools.groupby(steps):
        made.step(actor, len(list(some)))
    behind = int(clock) - made.clock
    assert made.said() == text, "the machine says otherwise"
    assert [behind + moment for moment in made.answered] == at, "the machine answers at other values of the clock"
    assert (first + made.count, made.sum) == (int(count), int(total)), "the machine makes other calls"

    said = Said(text)
    words = sums_of(lines, said)
    places = {line: place for place, line in enumerate(said.order)}
    done = sorted((moment, places[line] + 1) for (line, _), moment in zip(said.replies, at))
    most = list(itertools.accumulate((place for _, place in done), max))

    def answered(moment):
        low, high = 0, len(done)
        while low < high:
            middle = (low + high) // 2
            low, high = (middle + 1, high) if done[middle][0] <= moment else (low, middle)
        return most[low - 1] if low else 0

    images, inside = compare_images(told, made, words, behind, answered)
    print(f"{len(said.order)} changes in the order, {len(said.left)} lines left, {made.file.live} of {made.file.high} pages, {count} calls,"
          f" {images} images, {inside} of them within a switch, none differs;", dict(made.counts), FRAMES, "frames")


if __name__ == "__main__":
    main()
