#!/usr/bin/env python3
"""Writes two transcripts of rooms of version 1 with protocols of the full language; all are runs.

    python3 make_full.py FOLDER [--seed N]

`check-big` has the rooms of that name in `make_inputs.py`; what goes beyond version 1
there makes no difference to their events. `check-many-comparisons` has 32 rules of 8 comparisons,
all of which are made at each snapshot, since only the last of each rule fails.
"""

import argparse
import os
import random

import make_inputs
from make_inputs import INPUT, MAX, MIN, MINE, ROUND, Protocol, const, name

PROCESSES = 16
ROUNDS = 15
HOLDING = [
    (name("count"), "<=", name("n")),
    (MIN, "<=", name("max")),
    (MIN, "<=", MINE),
    (MINE, "<=", name("max")),
    (name("id"), "<", name("n")),
    (const(0), "<", ROUND),
    (const(0), "<", name("n")),
]

any_block = make_inputs.block


def block_of_version_1(room, inputs, _simulators, rounds, turns, protocol, **_beyond):
    return any_block(room, inputs, 1, rounds, turns, protocol)


def check_big(rng):
    make_inputs.block = block_of_version_1
    return make_inputs.check_big(rng, 1)


def equal(value):
    return "equal(%d)" % value, "equal(view,%d)" % value


def check_many_comparisons(rng):
    rules = [(HOLDING + [(name("n"), "<", equal(value))], "write", const(0)) for value in range(32)]
    protocol = Protocol(INPUT, rules, ("write", MINE))

    def room(i):
        title = "many-%d" % i
        inputs = [rng.randrange(MAX + 1) for _ in range(PROCESSES)]
        text = any_block(title, inputs, 1, ROUNDS, 1000, protocol)
        return text, make_inputs.real_run(rng, title, inputs, ROUNDS, protocol)

    return make_inputs.transcript(rng, make_inputs.endless(room), 4 * 1048576)


def main():
    parser = argparse.ArgumentParser(description="Writes two large transcripts.")
    parser.add_argument("folder")
    parser.add_argument("--seed", type=int, default=1)
    words = parser.parse_args()
    for case in check_big, check_many_comparisons:
        title = case.__name__.replace("_", "-")
        text = case(random.Random("%d %s" % (words.seed, title)))
        with open(os.path.join(words.folder, title + ".txt"), "w") as file:
            file.write(text)
        print("%-24s %9d bytes" % (title, len(text)))


if __name__ == "__main__":
    main()
