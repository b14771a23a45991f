"""rebuilt.py SCRIPT ..: rebuilds the words of each room of a script from what `bgview trace --json` says of its steps, with no simulation: each step replaces the word at
its place. What these words say, of each process, has to be what the reports of `bgsim play` say, or of a reduction, which it doesn't read, those of `bgview live`."""

import copy
import json
import subprocess
import sys

# of each line of a turn: the kind of its place, and whether the word stays
LINES = {
    "propose": ("value", False), "input": ("value", True), "write": ("value", False), "raise": ("steps", False), "snap": ("steps", True), "show": ("view", False), "enter": ("levels", False), "look": ("levels", True),
    "leave": ("levels", False), "ask": ("levels", True), "view": ("view", True), "values": ("value", True), "out": ("out", False),
}


def nothing(word):
    """The word at a place to which no step has come: zeros, and no decision."""
    return [nothing(one) for one in word] if isinstance(word, list) else word and 0


def least(simulators):
    return min(simulators, default=None)


def greatest(rows):
    """The greatest number at each place of these rows."""
    return [max(column) for column in zip(*rows)]


class Room:
    """The words of a room, by their places, who has crashed, and which processes are spent."""

    def __init__(self):
        self.words, self.crashed, self.spent, self.chosen = {}, set(), set(), {}

    def take(self, step):
        """Takes a step. Says whether it fits what is known of the room."""
        access = step["access"]
        kind, stays = LINES[access["line"]]
        place = tuple(sorted(access["place"].items()))
        is_known = self.words.get(place, nothing(access["before"])) == access["before"]
        self.words[place] = access["after"]
        if (step["end"] or {}).get("state") == "spent":
            self.spent.add(step["process"])
        return access["place"]["kind"] == kind and is_known and access["after"] == (access["before"] if stays else self.changed(step)) and self.fits(step)

    def fits(self, step):
        """Whether what a step says of an agreement is what its levels say: who is inside, who crashed there and, once nobody is inside, whose proposal is chosen. A
        choice was made by a simulator that left with its proposal, and stays."""
        if step["access"]["place"]["kind"] != "levels":
            return step["agreement"] is None
        said, levels = step["agreement"], step["access"]["after"]
        inside = [i for i, level in enumerate(levels) if level == 1]
        left = least(i for i, level in enumerate(levels) if level == 2)
        known = self.chosen.setdefault((step["process"], step["round"]), said["chosen"])
        self.chosen[step["process"], step["round"]] = said["chosen"]
        return said["inside"] == least(inside) and said["blocked_by"] == least(i for i in inside if i in self.crashed) and said["chosen"] in ([None, left] if inside else [left]) and known in (None, said["chosen"])

    def changed(self, step):
        """What the word has to be after a step that changes it: one that raises or lowers a number changes that of its simulator, and no other."""
        own, access = step["simulator"], step["access"]
        after = copy.deepcopy(access["before"])
        if access["line"] == "raise":
            after[own][step["process"]] += 1
        elif access["line"] == "enter":
            after[own] = 1
        elif access["line"] == "leave":
            after[own] = 0 if access["after"][own] == 0 else 2
        else:
            after = access["after"]
        return after

    def found(self, kind, **numbers):
        """The words of this kind whose places have these numbers."""
        wanted = {"kind": kind, **numbers}.items()
        return {place: word for place, word in self.words.items() if wanted <= dict(place).items()}

    def steps(self, kind="steps", **numbers):
        """The step numbers of each simulator, from all memory words, or of a proposal."""
        parts = self.found(kind, **numbers).values()
        return [greatest(rows) for rows in zip(*parts)]

    def written(self, steps, process, count):
        """The value that a process wrote in the round of this number, as one has it that has counted as many writes of it."""
        by = next(i for i, row in enumerate(steps) if row[process] >= count)
        return self.words[tuple(sorted({"kind": "value", "simulator": by, "process": process, "round": count}.items()))]

    def decision(self, process):
        stored = [word for word in self.found("out", process=process).values() if word is not None]
        return stored[0] if stored else None

    def levels(self, process, count):
        return next(iter(self.found("levels", process=process, round=count).values()), [])

    def events(self, process):
        """The events of a process: its writes, the snapshots from which it went on or may go on, and its decision."""
        steps = self.steps()
        made = max((row[process] for row in steps), default=0)
        decision = self.decision(process)
        for count in range(1, made + 1):
            yield f"{process} write {self.written(steps, process, count)}"
            levels = self.levels(process, count)
            if (2 in levels and 1 not in levels) or count < made or decision is not None:
                shown = self.steps("view", simulator=levels.index(2), process=process, round=count)
                counts = greatest(shown)
                yield " ".join([f"{process} snap", *(str(self.written(shown, other, last)) if last else "." for other, last in enumerate(counts))])
        if decision is not None:
            yield f"{process} decide {decision}"

    def state(self, process):
        inside = [i for word in self.found("levels", process=process).values() for i, level in enumerate(word) if level == 1 and i in self.crashed]
        if self.decision(process) is not None:
            return f"decided {self.decision(process)}"
        return "spent" if process in self.spent else f"held {min(inside)}" if inside else "going"


def reports(played):
    """The reports of a script: the state of each process, who has crashed, and the history."""
    lines = iter(played.splitlines())
    for line in lines:
        if line.split(" ")[1:] == ["report"]:
            report = {"process": [], "crashed": "", "history": []}
            for name, word, *more in (line.split(" ") for line in lines):
                if word == "end":
                    break
                if word == "process":
                    report["process"].append(" ".join(more[1:]))
                elif word == "crashed":
                    report["crashed"] = " ".join(more)
                elif word != "history":
                    report["history"].append(" ".join([word, *more]))
            yield report


def compare(script):
    """How many steps and how many reports of a script are as they have to be, and how many are not."""
    traced = subprocess.run(["bgview", "trace", "--json", script], capture_output=True, check=False).stdout
    with open(script, errors="replace") as file:
        program = ["bgview", "live"] if "\nreduction 1\n" in file.read() else ["bgsim", "play"]
    played = reports(subprocess.run([*program, script], capture_output=True, text=True, check=False).stdout)
    rooms, counts = {}, [0, 0, 0]
    for one in map(json.loads, traced.splitlines()):
        if one.get("reply") == "opened":
            rooms[one["room"]] = Room()
        elif one.get("reply") == "crash":
            rooms[one["room"]].crashed.add(one["simulator"])
        elif one.get("reply") == "report":
            room, report = rooms[one["room"]], next(played)
            same = report["crashed"] == " ".join(map(str, sorted(room.crashed)))
            for process, state in enumerate(report["process"]):
                same = same and room.state(process) == state and [*room.events(process)] == [event for event in report["history"] if event.split(" ")[0] == str(process)]
            counts[1 if same else 2] += 1
        elif "reply" not in one:
            counts[0 if rooms[one["room"]].take(one) else 2] += 1
    return counts


totals = [0, 0, 0]
for script in sys.argv[1:]:
    counts = compare(script)
    totals = [total + count for total, count in zip(totals, counts)]
    if counts[2]:
        print(f"{script}: {counts[2]} steps or reports that are not as they have to be")
print("steps: more than 2000" if totals[0] > 2000 else f"steps: {totals[0]}", "reports: more than 30" if totals[1] > 30 else f"reports: {totals[1]}", sep="\n")
