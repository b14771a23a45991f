#!/usr/bin/env python3
"""Makes inputs of just under 16 MiB that are meant to be slow: each repeats what an algorithm could go over again and again.

    python3 make_hostile.py FOLDER
"""

import itertools
import os
import string
import sys

SIZE = 16 * 1024 * 1024
EVENTS = "events\n"


def block(name, inputs):
    return (
        "bgsim 1\nroom %s\ninputs %s\nsimulators 1\nrounds 15\nturns 1000\nprotocol\nfirst input;\nelse write mine;\nend\n"
        % (name, " ".join(map(str, inputs)))
    )


def repeated(text, before="", after=""):
    """As many copies of the text as fit between the two others."""
    room = SIZE - 1 - len(before) - len(after)
    return before + text * (room // len(text)) + after


def names():
    """Names of the greatest length, of which neighbours differ in the last bytes alone."""
    letters = string.ascii_lowercase + string.digits + "_-"
    for last in itertools.product(letters, repeat=4):
        yield "a" * 28 + "".join(last)


def rooms():
    parts, left = [], SIZE - 1 - len(EVENTS)
    for name in names():
        text = block(name, [1])
        if len(text) > left:
            break
        parts.append(text)
        left -= len(text)
    return "".join(parts) + EVENTS


INPUTS = {
    "check-hostile-blocks": lambda: repeated("x\nend\n", after=EVENTS),
    "check-hostile-ends": lambda: repeated("end\n", after=EVENTS),
    "check-hostile-events": lambda: repeated("one 0 write 1\n", before=block("one", [1]) + EVENTS),
    "check-hostile-names": rooms,
}

for title, text in INPUTS.items():
    path = os.path.join(sys.argv[1], title + ".txt")
    with open(path, "w") as out:
        out.write(text())
    print("%-24s %9d bytes" % (title, os.path.getsize(path)))
