#!/usr/bin/env python3
"""Compares `gen` with a plain program, written after docs/TEXT.md.

    HBPI=PROGRAM trials/generating.py [SEEDS [LINES]]

SEEDS (1,000) states, the first few and others spread over all numbers below 2^64, each with 1 to 4 attributes and up to LINES (60) lines.
"""
import os
import random
import subprocess
import sys

HBPI = os.environ["HBPI"]


class Draws:
    def __init__(self, state):
        self.state = state

    def below(self, limit):
        self.state = (self.state * 6364136223846793005 + 1442695040888963407) % 2**64
        return (self.state >> 32) % limit


def command(draws, number, session, attributes):
    kind = draws.below(10)
    if kind == 9:
        pairs = [(low, low + draws.below(50)) for low in (draws.below(1000) for _ in range(attributes))]
        return "search " + " ".join(f"{low} {high}" for low, high in pairs)
    values = [draws.below(125) * 8 + session - 1, *(draws.below(1000) for _ in range(attributes - 1))]
    point = " ".join(map(str, values))
    if kind < 6:
        return f"insert {point} ={number}"
    return f"{'delete' if kind == 6 else 'lookup'} {point}"


def lines(state, count, attributes):
    draws = Draws(state)
    for number in range(1, count + 1):
        session = draws.below(8) + 1
        yield f"{session} {command(draws, number, session, attributes)}\n"


def differs(state, count, attributes):
    words = [HBPI, "-", "gen", str(state), str(count), str(attributes)]
    done = subprocess.run(words, stdin=subprocess.DEVNULL, stdout=subprocess.PIPE, check=False)
    return done.returncode != 0 or done.stdout != "".join(lines(state, count, attributes)).encode()


def main():
    seeds, most = (int(word) for word in (sys.argv[1:] + ["1000", "60"][len(sys.argv) - 1:])[:2])
    drawn = random.Random(1)
    states = [*range(10), 2**64 - 1, *(drawn.randrange(2**64) for _ in range(seeds))][:seeds]
    bad = 0
    for at, state in enumerate(states):
        for attributes in range(1, 5):
            count = drawn.randrange(most + 1)
            if differs(state, count, attributes):
                print(f"BAD  gen {state} {count} {attributes}")
                bad += 1
    print(f"{'BAD ' if bad else 'ok  '} {len(states)} states with 1 to 4 attributes: {bad} differ")
    return bad > 0


if __name__ == "__main__":
    sys.exit(main())
