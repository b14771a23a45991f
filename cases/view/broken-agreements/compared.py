"""compared.py MODEL: plays the schedules of the model, and some at random, on a room of one process, and compares the steps of the agreement on its
snapshot with those of the model's right agreement: the line, and the levels after it. Prints what differs, and how many steps were compared."""

import json
import pathlib
import random
import subprocess
import sys

sys.dont_write_bytecode = True
sys.path.insert(0, str(pathlib.Path(sys.argv[1]).parent))

from agreement import LESSONS, RIGHT, levels_of, run

LINES = {"V": "show", "1": "enter", "?": "look", "2": "leave", "0": "leave", "A": "ask", "G": "view"}
BLOCK = "open\nbgsim 1\nroom {0}\ninputs 7\nsimulators 2\nrounds 1\nturns 50\nprotocol\nfirst input;\nelse decide min;\nend\nstep {0} 0 3\nstep {0} 1 3\n"


def steps_of(schedule):
    """The steps of the model, each with its line and the levels. A simulator of bgsim that has asked in vain is idle at the next try."""
    steps = []
    for i, letter, did, state, _ in run(RIGHT, schedule):
        if letter:
            steps.append((i, LINES[letter], levels_of(state)))
        if did.endswith("not resolved"):
            steps.append((i, "idle", levels_of(state)))
    return steps


def played(schedules):
    """What `bgview trace` answers to the steps of each schedule, by its name: the simulator, the line, and the levels."""
    script = "".join(BLOCK.format(name) + "".join(f"step {name} {i} 1\n" for i, _, _ in steps) for name, steps in schedules.items())
    answer = subprocess.run(["bgview", "trace", "--json"], input=script, capture_output=True, text=True, check=True).stdout
    found, levels, lines = {}, [0, 0], map(json.loads, answer.splitlines())
    for line in lines:
        own = found.setdefault(line["room"], [])
        if line.get("reply") == "opened":
            levels = [0, 0]
        elif line.get("reply") == "step" and line["steps"] == 0:
            own.append((line["simulator"], line["last"], levels))
        elif "step" in line and line["access"]["line"] in LINES.values():
            levels = line["access"]["after"] if line["access"]["place"]["kind"] == "levels" else levels
            own.append((line["simulator"], line["access"]["line"], levels))
    return found


dice = random.Random(1)
at_random = {f"r{number}": [dice.randrange(2) for _ in range(dice.randint(6, 20))] for number in range(200)}
schedules = {name: steps_of(schedule) for name, schedule in [*((name, lesson.schedule) for name, lesson in LESSONS.items()), *at_random.items()]}
for name, found in played(schedules).items():
    if found != schedules[name]:
        print(f"{name}: bgsim takes {found}, the model {schedules[name]}")
print(f"{sum(map(len, schedules.values()))} steps of {len(schedules)} schedules")
