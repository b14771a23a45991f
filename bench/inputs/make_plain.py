#!/usr/bin/env python3
"""Writes a transcript of just under 16 MiB, all of whose rooms are runs.

    python3 make_plain.py FILE [--seed N]

Each room has 16 processes and 15 rounds, the most there can be, and one of a few protocols that
write in every round. The processes of a room take their turns in a random order, and the lines of
all rooms are mixed.
"""

import argparse
import random

LIMIT = 16777216
PROCESSES = 16
ROUNDS = 15

# What each protocol writes after a snapshot, by the process's own last value and all values that it saw.
WRITES = {
    "mine": lambda mine, seen: mine,
    "max": lambda mine, seen: max(seen),
    "min": lambda mine, seen: min(seen),
    "count": lambda mine, seen: len(seen),
}


def block(room, inputs, name):
    return (
        "bgsim 1\nroom %s\ninputs %s\nsimulators 1\nrounds %d\nturns 1000\n"
        "protocol\nfirst input;\nelse write %s;\nend\n"
        % (room, " ".join(map(str, inputs)), ROUNDS, name)
    )


def lines_of_run(rng, room, inputs, write):
    """Writes and snapshots of all processes, until each has taken its last snapshot."""
    last = [None] * PROCESSES
    due = list(inputs)
    lines = []
    # process p stands as often in the order as it has events: its writes and snapshots alternate
    order = [p for p in range(PROCESSES) for _ in range(2 * ROUNDS)]
    rng.shuffle(order)
    has_written = [False] * PROCESSES
    for p in order:
        if has_written[p]:
            row = " ".join("." if value is None else str(value) for value in last)
            lines.append("%s %d snap %s\n" % (room, p, row))
            due[p] = write(last[p], [value for value in last if value is not None])
        else:
            last[p] = due[p]
            lines.append("%s %d write %d\n" % (room, p, last[p]))
        has_written[p] = not has_written[p]
    return lines


def main():
    parser = argparse.ArgumentParser(description="Writes a large transcript.")
    parser.add_argument("file")
    parser.add_argument("--seed", type=int, default=1)
    words = parser.parse_args()
    rng = random.Random(words.seed)
    blocks, runs, size = [], [], len("events\n")
    for i in range(LIMIT):
        room = "plain-%d" % i
        name = sorted(WRITES)[i % len(WRITES)]
        inputs = [rng.randrange(10 ** rng.randint(1, 9)) for _ in range(PROCESSES)]
        text = block(room, inputs, name)
        lines = lines_of_run(rng, room, inputs, WRITES[name])
        size += len(text) + sum(map(len, lines))
        if size > LIMIT:
            break
        blocks.append(text)
        runs.append(lines)
    order = [i for i, lines in enumerate(runs) for _ in lines]
    rng.shuffle(order)
    nexts = [iter(lines) for lines in runs]
    text = "".join(blocks) + "events\n" + "".join(next(nexts[i]) for i in order)
    with open(words.file, "w") as file:
        file.write(text)
    print("%-24s %9d bytes, %d rooms" % ("check-plain", len(text), len(runs)))


if __name__ == "__main__":
    main()
