"""Random inputs: protocols, room blocks, scripts and transcripts, and near misses of them."""
import dataclasses
import random

NAMES = ["input", "id", "n", "round", "mine", "count", "min", "max"]
CALLS = ["cell", "seen", "equal"]
COMPARATORS = ["==", "!=", "<", "<=", ">", ">="]
DIGITS = {1: 1, 2: 2, 3: 2, **dict.fromkeys(range(4, 8), 3), **dict.fromkeys(range(8, 16), 4)}
WIDTH = {1: 64, 2: 256}


class Source(random.Random):
    """What is drawn; the same seed draws the same."""

    def often(self, share):
        return self.random() < share

    def spaced(self, tokens):
        """The tokens as a text: now and then with more room between them than is needed."""
        return "".join(token + self.choice([" ", " ", " ", "  ", "\n", " \n "]) for token in tokens)

    def value(self):
        return self.choice([0, 1, 2, 3, 5, 7, 9, self.randrange(100), 4294967295])


# ---- protocols


def expression(source, names, depth=0):
    """The tokens of an expression over these names; with no calls where there are no views."""
    kind = source.randrange(6) if depth < 3 else source.randrange(2)
    if kind == 0:
        return [str(source.value())]
    if kind == 1:
        return [source.choice(names)]
    if kind == 2 and "mine" in names:
        return [source.choice(CALLS), "(", *expression(source, names, depth + 1), ")"]
    if kind == 3:
        return ["(", *expression(source, names, depth + 1), ")"]
    left, right = (expression(source, names, depth + 1) for _ in range(2))
    return [*left, source.choice("+-*/%"), *right]


def condition(source):
    tokens = []
    for place in range(source.choice([1, 1, 1, 2, 8])):
        tokens += ["and"] if place else []
        tokens += [*expression(source, NAMES, 2), source.choice(COMPARATORS), *expression(source, NAMES, 2)]
    return tokens


def action(source):
    return [source.choice(["write", "decide"]), *expression(source, NAMES, 1), ";"]


def protocol(source):
    """A text of the protocol language. Each third is one that is known from the literature."""
    known = source.randrange(9)
    if known == 0:
        return "first input;\nelse decide min;\n"
    if known == 1:
        return f"first input;\nwhen count >= n - {source.randrange(3)} decide min;\nelse write mine;\n"
    if known == 2:
        return "first input;\nwhen round < 2 write mine + 1;\nelse decide max;\n"
    tokens = ["first", *expression(source, ["input", "id", "n"]), ";"]
    for _ in range(source.choice([0, 1, 1, 2, 3])):
        tokens += ["when", *condition(source), *action(source)]
    return source.spaced([*tokens, "else", *action(source)]) + "\n"


# ---- rooms


@dataclasses.dataclass
class Room:
    name: str
    version: int
    inputs: list
    simulators: int
    rounds: int
    turns: int
    task: int | None
    fuses: dict
    protocol: str

    def lines_before_protocol(self):
        yield f"bgsim {self.version}"
        yield f"room {self.name}"
        yield "inputs " + " ".join(map(str, self.inputs))
        yield f"simulators {self.simulators}"
        yield f"rounds {self.rounds}"
        yield f"turns {self.turns}"
        if self.task is not None:
            yield f"task agree {self.task}"
        for simulator, steps in self.fuses.items():
            yield f"crash {simulator} after {steps}"

    def block(self):
        return "".join(line + "\n" for line in self.lines_before_protocol()) + f"protocol\n{self.protocol}end\n"


def room(source, name):
    """A room within the limits of its version; in every fifth the memory takes more than one word."""
    version = source.choice([1, 1, 2])
    least = 65 if version == 2 and source.often(0.6) else 0
    while True:
        processes, simulators, rounds = source.randint(1, 16), source.randint(1, 8), source.choice([1, 1, 2, 2, 3, 4, 8, 15])
        if least <= processes * simulators * DIGITS[rounds] <= WIDTH[version]:
            break
    return Room(
        name=name,
        version=version,
        inputs=[source.value() for _ in range(processes)],
        simulators=simulators,
        rounds=rounds,
        turns=source.choice([1, 2, 5, 100, 65535]),
        task=source.choice([None, 1, 2, 3]) if version == 2 else None,
        fuses={simulator: source.randrange(200) for simulator in range(simulators) if source.often(0.2)},
        protocol=protocol(source),
    )


# ---- scripts


def command(source, name, simulators):
    """One line about the room of this name, which has so many simulators."""
    simulator = source.randrange(simulators + 1)
    kind = source.randrange(20)
    if kind == 0:
        return f"close {name}\n"
    if kind < 4:
        return f"report {name}\n"
    if kind == 4:
        return f"settle {name}\n"
    if kind < 7:
        return f"crash {name} {simulator}\n"
    return f"step {name} {simulator} {source.choice([1, 2, 5, 20, 400])}\n"


def script(source, names, length):
    """A script as a list of pairs: a room's name, and a command about that room."""
    rooms = {name: room(source, name) for name in names}
    commands = [(name, "open\n" + rooms[name].block()) for name in names]
    for _ in range(length):
        name = source.choice(names)
        if source.often(0.04):
            commands.append((name, "open\n" + room(source, name).block()))
        else:
            commands.append((name, command(source, name, rooms[name].simulators)))
    return commands


def busy_script(source, name, simulators):
    """Lines by which all simulators of a room take turns, few steps at a time, and some crash late."""
    for _ in range(source.choice([50, 400, 1500])):
        yield f"step {name} {source.randrange(simulators)} {source.choice([1, 1, 2, 3, 9])}\n"
    for simulator in range(simulators):
        if source.often(0.3):
            yield f"crash {name} {simulator}\n"


# ---- near misses


def near_miss(source, text):
    """The text with one place of it changed."""
    lines = text.splitlines(keepends=True)
    place = source.randrange(len(lines))
    words = lines[place].split(" ")
    word = source.randrange(len(words))
    kind = source.randrange(9)
    if kind == 0:
        del lines[place]
    elif kind == 1:
        lines.insert(place, lines[place])
    elif kind == 2:
        other = source.randrange(len(lines))
        lines[place], lines[other] = lines[other], lines[place]
    elif kind == 3:
        words[word] = source.choice(["0", "1", "16", "17", "01", "-1", "4294967296", "9" * 30, "min", "minn", "x", "", "é", "events", "end"])
        lines[place] = " ".join(words)
    elif kind == 4:
        words.insert(word, source.choice(["", "0", "7", "."]))
        lines[place] = " ".join(words)
    elif kind == 5:
        lines[place] = lines[place].rstrip("\n") + source.choice([" \n", "\r\n", ";\n", "\n\n", ""])
    else:
        at = source.randrange(len(text))
        kept = text[at + 1:] if kind == 6 else text[at:]
        return text[:at] + source.choice(["", " ", "\n", "(", ")", "0", "a", "Z", "\x00", "é"]) + kept
    return "".join(lines) or "\n"
