#!/usr/bin/env python3
"""Writes scripts and files of rooms.

    python3 make_rooms.py FOLDER [--seed N]

Six are the cases of these names in `make_inputs.py`, with a room of version 1 that has as many simulators in place of
each of version 2. In the other three, `play-words`, `run-words` and `run-large`, all rooms are of version 2, and their memories take two or four words.
"""

import argparse
import os
import random

import make_inputs

WIDEST = (1, 8, 8, 1)  # of version 1, with 8 simulators
SEVERAL_WORDS = [(2, 9, 8, 1), (2, 16, 8, 3), (2, 9, 2, 15), (2, 8, 8, 15)]  # two, four, two and four
LARGEST = (2, 16, 8, 3)

any_shaped = make_inputs.shaped


def shaped_in_version_1(rng, room, shape, protocol=None, fuses=()):
    return any_shaped(rng, room, shape if shape[0] == 1 else WIDEST, protocol, fuses)


def play_words(rng, scale):
    rooms = [("r%d" % i, SEVERAL_WORDS[i % 4]) for i in range(int(100 * scale))]
    script = ["open\n" + any_shaped(rng, room, shape) for room, shape in rooms]
    for room, (_, _, m, _) in rooms:
        script += ["step %s %d %d\n" % (room, i, rng.randint(1, 300)) for i in range(m)]
        script += ["step %s %d 65535\n" % (room, i) for i in rng.sample(range(m), m)]
    return "".join(script + ["settle %s\nreport %s\n" % (room, room) for room, _ in rooms])


def run_words(rng, scale):
    return "".join(any_shaped(rng, "r%d" % i, SEVERAL_WORDS[i % 4]) for i in range(int(200 * scale)))


def run_large(rng, scale):
    return "".join(any_shaped(rng, "r%d" % i, LARGEST) for i in range(int(500 * scale)))


CASES = [
    make_inputs.play_steps,
    make_inputs.play_single_steps,
    make_inputs.play_full,
    play_words,
    make_inputs.run_many,
    make_inputs.run_fuses,
    make_inputs.run_wide,
    run_words,
    run_large,
]


def main():
    parser = argparse.ArgumentParser(description="Writes scripts and files of rooms.")
    parser.add_argument("folder")
    parser.add_argument("--seed", type=int, default=1)
    words = parser.parse_args()
    make_inputs.SHAPES_2 = []
    make_inputs.shaped = shaped_in_version_1
    for case in CASES:
        title = case.__name__.replace("_", "-")
        text = case(random.Random("%d %s" % (words.seed, title)), 1)
        with open(os.path.join(words.folder, title + ".txt"), "w") as file:
            file.write(text)
        print("%-24s %9d bytes" % (title, len(text)))


if __name__ == "__main__":
    main()
