"""What the programs answer, and scripts as the check makes them: of single steps, whatever commands the page made of them."""

import json
import re
import subprocess


class Differs(Exception):
    pass


def holds(what, found, wanted):
    if found != wanted:
        raise Differs(f"{what}: the page has {found!r}, not {wanted!r}")


def answered(words, text):
    return subprocess.run(words, input=text, capture_output=True, text=True, check=False)


def traced(script):
    """The objects of `bgview trace --json`."""
    return [json.loads(line) for line in answered(["bgview", "trace", "--json"], script).stdout.splitlines()]


def opening(rooms):
    return re.sub(r"^(?:bgsim|reduction) \d+$", r"open\n\g<0>", rooms, flags=re.M)


def blocks_of(text):
    return re.findall(r"^(?:bgsim|reduction) \d+\n.*?^end$", text, re.M | re.S)


def player(script):
    """The program that gives the replies to a script: `bgsim play` refuses reductions."""
    return ["bgview", "live"] if re.search(r"^open\nreduction 1$", script, re.M) else ["bgsim", "play"]


def simulators_of(block):
    """How many simulators a block says: in a reduction each has an input."""
    if block.startswith("reduction 1\n"):
        return len(re.search(r"^inputs (.*)$", block, re.M)[1].split(" "))
    return int(re.search(r"^simulators (\d+)$", block, re.M)[1])


class Room:
    """A room that a script opens, with its moments: for each step its object, and for each crash {"crash": simulator}."""

    def __init__(self, block):
        self.block = block
        self.name = re.search(r"^room (\S+)$", block, re.M)[1]
        self.simulators = simulators_of(block)
        self.moments = []
        self.commands = []  # for each one the reply, and how many moments there were before it
        self.is_closed = False

    def schedule(self):
        """Who moves: the number of a simulator that takes a step, or one below 0 for a crash."""
        return [-1 - moment["crash"] if "crash" in moment else moment["simulator"] for moment in self.moments]

    def lines(self, count):
        """Commands that bring the first moments: single steps, and each try of a simulator that could not go on, since it may go on after that."""
        ends = [begin for _, begin in self.commands[1:]] + [len(self.moments)]
        for (reply, begin), end in zip(self.commands, ends):
            if begin >= count and (count < len(self.moments) or self.is_closed):
                return
            if reply["reply"] == "settled" and end <= count:
                yield f"settle {self.name}"
                continue
            for move in self.schedule()[begin : min(end, count)]:
                yield f"step {self.name} {move} 1" if move >= 0 else f"crash {self.name} {-1 - move}"
            if reply["reply"] == "step" and reply["last"] != "stepped" and end <= count:
                yield f"step {self.name} {reply['simulator']} 1"

    def script(self, count):
        return f"open\n{self.block}\n" + "".join(line + "\n" for line in self.lines(count))

    def ahead(self, count, simulator, most=1):
        """The steps that a simulator takes after some moments, and the answer to its last try."""
        objects = traced(f"{self.script(count)}step {self.name} {simulator} {most}\n")
        reply = max(at for at, said in enumerate(objects) if "reply" in said)
        return objects[reply + 1 :], objects[reply]["last"]

    def sentence(self, count):
        """The first line of what the page says of a moment."""
        if count == 0:
            return "Nobody has taken a step."
        moment = self.moments[count - 1]
        if "crash" in moment:
            return f"simulator {moment['crash']} crashes"
        return "simulator {simulator}, turn {turn}, process {process}, round {round}: {operation} \u2192 {shows}".format(**moment)


def rooms_of(script):
    """The rooms that a script opens, by its trace."""
    commands = iter(re.findall(r"^open\n(?:.*\n)*?end$|^open\n(?:.*\n?)*|^.+$", script, re.M))
    rooms, open_now = [], {}
    for said in traced(script):
        reply = said.get("reply")
        command = next(commands) if reply else None
        if reply == "opened":
            open_now[said["room"]] = room = Room(command.removeprefix("open\n"))
            rooms.append(room)
        elif reply == "closed":
            open_now.pop(said["room"]).is_closed = True
        elif reply is None:
            open_now[said["room"]].moments.append(said)
        elif reply in ("step", "crash", "settled"):
            room = open_now[said["room"]]
            room.commands.append((said, len(room.moments)))
            if reply == "crash" and said["last"] == "crashed":
                room.moments.append({"crash": said["simulator"]})
    return rooms


ENDED = {"crashed": "has crashed", "idle": "idle: nothing is left to do", "out of turns": "has no turns left"}


def moves_of(room, count):
    """What the page says of each simulator: what it does next, and of which turn."""
    said = []
    for simulator in range(room.simulators):
        steps, last = room.ahead(count, simulator)
        if steps:
            step = steps[0]
            said.append([f"next: {step['operation']}", f"turn {step['turn']}, process {step['process']}, round {step['round']}"])
        else:
            said.append([ENDED[last], ""])
    return said
