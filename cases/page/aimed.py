"""Scripts at random, whose simulators take single steps and crash in their unsafe sections, with a report after each step."""

import random
import re

from differing import answered
from simulated import simulators_of

PROTOCOLS = ("first input; else decide min;", "first input; else write mine;", "first input; when count >= n - 1 decide min; else write mine;", "first id; when round == 2 decide max; else write min + 1;")
ROOMS = 20  # in each script


def inputs_of(dice, count):
    return " ".join(str(dice.choice((3, 5, 7, 9))) for _ in range(count))


def block_of(dice, name):
    """The block of a room, or, for a third of them on average, of a reduction."""
    processes, simulators = dice.randint(1, 3), dice.randint(2, 3)
    if dice.random() < 1 / 3:
        begin, numbers = "reduction 1", f"inputs {inputs_of(dice, simulators)}\nprocesses {processes}"
    else:
        begin, numbers = "bgsim 1", f"inputs {inputs_of(dice, processes)}\nsimulators {simulators}"
    return f"open\n{begin}\nroom {name}\n{numbers}\nrounds {dice.randint(1, 2)}\nturns 100\nprotocol\n{dice.choice(PROTOCOLS)}\nend\n"


def schedule_of(dice, block):
    """Stretches of one simulator each: some up to the unsafe section of its first turn, or just before it."""
    simulators = simulators_of(block.split("\n")[1:])
    stretches = [(dice.randrange(simulators), dice.choice((1, 2, 3, 4, 4, 5, 6, 7, 12))) for _ in range(dice.randint(4, 9))]
    return [i for i, length in stretches for _ in range(length)]


def inside_after(name, block, schedule, folder):
    """After which steps a simulator is in its unsafe section: how many steps there are by then, and the simulator."""
    script = folder / "steps.txt"
    script.write_text(block + "".join(f"step {name} {i} 1\n" for i in schedule))
    inside, found = set(), []
    count = -1
    for line in answered(["trace"], script).stdout.splitlines():
        if line.startswith(f"{name} step "):
            count += 1
            own = int(line.split(" ")[2])
        level = re.search(r"(?:add 1 to|subtract 1 from) level\(.*?\) +\d to (\d)", line)
        if level:
            (inside.add if level[1] == "1" else inside.discard)(own)
        if re.match(r" {4}\d+ ", line):
            found += [(count + 1, i) for i in inside]
    return found


def commands_of(dice, name, schedule, inside):
    """The steps, each with a report, and mostly a crash aimed at a simulator in its unsafe section; some settle in the end."""
    crashes = dict([dice.choice(inside)]) if inside and dice.random() < 0.7 else {}
    lines = []
    for count, i in enumerate(schedule):
        if count in crashes:
            lines += [f"crash {name} {crashes[count]}", f"report {name}"]
        lines += [f"step {name} {i} 1", f"report {name}"]
    if dice.random() < 0.3:
        lines += [f"settle {name}", f"report {name}"]
    return "\n".join(lines) + "\n"


def aimed_scripts(folder, count):
    """The paths of scripts that open this many rooms together."""
    dice = random.Random(count)
    for first in range(0, count, ROOMS):
        text = ""
        for number in range(first, min(first + ROOMS, count)):
            name = f"r{number}"
            block = block_of(dice, name)
            schedule = schedule_of(dice, block)
            text += block + commands_of(dice, name, schedule, inside_after(name, block, schedule, folder))
        script = folder / f"aimed-{first}.txt"
        script.write_text(text)
        yield script
