"""A plain reference of reductions, written from docs/FORMATS.md and docs/COURSE.md alone: rooms as maps, one atomic step at a time, and what `live` replies.

A room is a block `reduction 1`; its m simulators have inputs of their own, agree on each process's input in a round numbered 0, and run the n processes on
write-snapshot memory. Nothing here is taken from the program: no packed words are changed in place, no index of a place is reckoned, no row of steps is joined.
"""
import re

MOST = 4294967295
WORDS = ("input", "id", "n", "round", "mine", "count", "min", "max", "cell", "seen", "equal")


# ---- protocols


class Protocol:
    """The rules of a text, as nested tuples."""

    def __init__(self, text):
        self.tokens = re.findall(r"[a-z]+|[0-9]+|==|!=|<=|>=|[;()+\-*/%<>]", text)
        self.at = 0
        self.want("first")
        self.first = self.sum()
        self.want(";")
        self.rules = []
        while self.tokens[self.at] == "when":
            self.at += 1
            conditions = [self.comparison()]
            while self.tokens[self.at] == "and":
                self.at += 1
                conditions.append(self.comparison())
            self.rules.append((conditions, self.action()))
        self.want("else")
        self.last = self.action()
        assert self.at == len(self.tokens), text

    def want(self, token):
        assert self.tokens[self.at] == token, (self.tokens, self.at, token)
        self.at += 1

    def action(self):
        word = self.tokens[self.at]
        assert word in ("write", "decide")
        self.at += 1
        value = self.sum()
        self.want(";")
        return word, value

    def comparison(self):
        left = self.sum()
        sign = self.tokens[self.at]
        assert sign in ("==", "!=", "<", "<=", ">", ">=")
        self.at += 1
        return sign, left, self.sum()

    def chain(self, signs, part):
        value = part()
        while self.at < len(self.tokens) and self.tokens[self.at] in signs:
            sign = self.tokens[self.at]
            self.at += 1
            value = (sign, value, part())
        return value

    def sum(self):
        return self.chain("+-", self.product)

    def product(self):
        return self.chain("*/%", self.factor)

    def factor(self):
        token = self.tokens[self.at]
        self.at += 1
        if token.isdigit():
            return int(token)
        if token == "(":
            value = self.sum()
            self.want(")")
            return value
        assert token in WORDS, token
        if token in ("cell", "seen", "equal"):
            self.want("(")
            value = self.sum()
            self.want(")")
            return token, value
        return (token,)


def value_of(e, at):
    """The value of an expression for a process at a view: `at` has its input, number, round and view."""
    if isinstance(e, int):
        return e
    if len(e) == 1:
        there = [v for v in at["view"] if v is not None]
        return {
            "input": lambda: at["input"],
            "id": lambda: at["id"],
            "n": lambda: at["n"],
            "round": lambda: at["round"],
            "mine": lambda: at["view"][at["id"]] or 0,
            "count": lambda: len(there),
            "min": lambda: min(there, default=0),
            "max": lambda: max(there, default=0),
        }[e[0]]()
    if len(e) == 2:
        k = value_of(e[1], at)
        entry = at["view"][k] if k < at["n"] else None
        if e[0] == "cell":
            return entry or 0
        if e[0] == "seen":
            return int(entry is not None)
        return sum(v == k for v in at["view"])
    a, b = value_of(e[1], at), value_of(e[2], at)
    if e[0] == "+":
        return min(a + b, MOST)
    if e[0] == "-":
        return max(a - b, 0)
    if e[0] == "*":
        return min(a * b, MOST)
    if e[0] == "/":
        return a // b if b else 0
    return a % b if b else 0


def holds(comparison, at):
    sign, left, right = comparison
    a, b = value_of(left, at), value_of(right, at)
    return {"==": a == b, "!=": a != b, "<": a < b, "<=": a <= b, ">": a > b, ">=": a >= b}[sign]


def first(protocol, value, j, n):
    return value_of(protocol.first, {"input": value, "id": j, "n": n, "round": 0, "view": [None] * n})


def following(protocol, value, j, k, view):
    at = {"input": value, "id": j, "n": len(view), "round": k, "view": view}
    for conditions, action in protocol.rules:
        if all(holds(c, at) for c in conditions):
            return action[0], value_of(action[1], at)
    return protocol.last[0], value_of(protocol.last[1], at)


# ---- rooms


class Spec:
    """A reduction: its simulators' own inputs, and how many processes it has."""

    def __init__(self, name, own, n, rounds, turns, text, fuses=(), task=None):
        self.name, self.own, self.m, self.n = name, list(own), len(own), n
        self.rounds, self.turns, self.text, self.task = rounds, turns, text, task
        self.fuses = list(fuses)
        self.protocol = Protocol(text)
        bits = rounds.bit_length()
        in_word = 64 // bits
        self.word_of = {(i, p): (i * n + p) // in_word for i in range(self.m) for p in range(n)}
        self.words = max(self.word_of.values()) + 1

    def lines(self):
        """The block."""
        head = ["reduction 1", f"room {self.name}", "inputs " + " ".join(map(str, self.own)), f"processes {self.n}", f"rounds {self.rounds}", f"turns {self.turns}"]
        head += [f"task agree {self.task}"] if self.task else []
        head += [f"crash {i} after {k}" for i, k in self.fuses]
        return head + ["protocol", self.text.rstrip("\n"), "end"]


class Mind:
    """What a simulator has in mind."""

    def __init__(self, spec, i):
        self.i = i
        self.state = {j: ("write", 0, spec.own[i]) for j in range(spec.n)}
        self.input = {j: None for j in range(spec.n)}
        self.sweep = i % spec.n
        self.turns = self.steps = self.quiet = 0
        self.decision = None
        self.turn = None

    def open(self):
        return [j for j in self.state if self.state[j][0] in ("write", "ask")]


class Room:
    def __init__(self, spec):
        self.spec = spec
        m, n, rounds = range(spec.m), range(spec.n), range(spec.rounds + 1)
        self.step_of = {(i, p): 0 for i in m for p in n}
        self.level = {(i, j, k): 0 for i in m for j in n for k in rounds}
        self.view, self.value = {}, {}
        self.out = {(i, j): None for i in m for j in n}
        self.minds = [Mind(spec, i) for i in m]
        self.crashed = set()

    # ---- steps

    def ready(self, mind):
        if mind.turn:
            return "step"
        if mind.quiet >= len(mind.open()):
            return "idle"
        return "out of turns" if mind.turns == self.spec.turns else "step"

    def step(self, i):
        if i >= self.spec.m:
            return "nobody"
        if i in self.crashed:
            return "crashed"
        mind = self.minds[i]
        ready = self.ready(mind)
        if ready == "idle":
            mind.quiet = 0
        if ready != "step":
            return ready
        if not mind.turn:
            self.begin(mind)
        mind.steps += 1
        getattr(self, "at_" + mind.turn["line"])(mind, mind.turn)
        return "stepped"

    def begin(self, mind):
        n = self.spec.n
        j = next(j for j in ((mind.sweep + d) % n for d in range(n)) if mind.state[j][0] in ("write", "ask"))
        mind.turns += 1
        what = mind.state[j]
        mind.turn = {"j": j, "k": what[1], "line": "store" if what[0] == "write" else "ask"}
        if what[0] == "write":
            mind.turn["value"] = what[2]

    def end(self, mind, useful, stays=False):
        j = mind.turn["j"]
        mind.quiet = 0 if useful else min(mind.quiet + 1, 255)
        mind.sweep = j if stays else (j + 1) % self.spec.n
        mind.turn = None

    def levels(self, j, k):
        return [self.level[(i, j, k)] for i in range(self.spec.m)]

    def at_store(self, mind, turn):
        self.value[(mind.i, turn["j"], turn["k"])] = turn["value"]
        turn["line"] = "raise" if turn["k"] else "enter"

    def at_raise(self, mind, turn):
        self.step_of[(mind.i, turn["j"])] += 1
        turn.update(line="snap", word=0, collect={}, before=None, collects=0)

    def at_snap(self, mind, turn):
        spec = self.spec
        turn["collect"].update({f: self.step_of[f] for f in spec.word_of if spec.word_of[f] == turn["word"]})
        turn["word"] += 1
        if turn["word"] < spec.words:
            return
        turn["collects"] += 1
        turn["word"] = 0
        most = spec.m * spec.n * spec.rounds + 2
        if spec.words == 1 or turn["collect"] == turn["before"] or turn["collects"] == most:
            turn["line"] = "show"
            return
        turn["before"], turn["collect"] = turn["collect"], {}

    def at_show(self, mind, turn):
        spec = self.spec
        seen = self.view.setdefault((mind.i, turn["j"], turn["k"]), {f: 0 for f in spec.word_of})
        seen.update({f: turn["collect"][f] for f in spec.word_of if spec.word_of[f] == turn["word"]})
        turn["word"] += 1
        if turn["word"] == spec.words:
            turn["line"] = "enter"

    def at_enter(self, mind, turn):
        self.level[(mind.i, turn["j"], turn["k"])] += 1
        turn["line"] = "look"

    def at_look(self, mind, turn):
        turn["stands"] = 2 in self.levels(turn["j"], turn["k"])
        turn["line"] = "leave"

    def at_leave(self, mind, turn):
        self.level[(mind.i, turn["j"], turn["k"])] += -1 if turn["stands"] else 1
        turn["line"] = "ask"

    def at_ask(self, mind, turn):
        j, k = turn["j"], turn["k"]
        levels = self.levels(j, k)
        if 1 in levels or 2 not in levels:
            mind.state[j] = ("ask", k)
            self.end(mind, False)
            return
        turn.update(chosen=levels.index(2), word=0, got={})
        turn["line"] = "get" if k else "take"

    def at_take(self, mind, turn):
        j = turn["j"]
        mind.input[j] = self.value[(turn["chosen"], j, 0)]
        mind.state[j] = ("write", 1, first(self.spec.protocol, mind.input[j], j, self.spec.n))
        self.end(mind, True, stays=True)

    def at_get(self, mind, turn):
        spec = self.spec
        shown = self.view[(turn["chosen"], turn["j"], turn["k"])]
        turn["got"].update({f: shown[f] for f in spec.word_of if spec.word_of[f] == turn["word"]})
        turn["word"] += 1
        if turn["word"] < spec.words:
            return
        turn["row"] = row_of(spec, turn["got"])
        turn["entries"] = []
        turn["line"] = "values"
        self.pass_silent(mind, turn)

    def pass_silent(self, mind, turn):
        """Goes on to the next process whose write the row shows, or after the last to what the process does."""
        spec = self.spec
        while len(turn["entries"]) < spec.n and turn["row"][len(turn["entries"])][0] == 0:
            turn["entries"].append(None)
        if len(turn["entries"]) < spec.n:
            return
        j, k = turn["j"], turn["k"]
        word, v = following(spec.protocol, mind.input[j], j, k, turn["entries"])
        if word == "decide":
            turn.update(line="out", value=v)
            return
        mind.state[j] = ("write", k + 1, v) if k < spec.rounds else ("spent",)
        self.end(mind, True)

    def at_values(self, mind, turn):
        p = len(turn["entries"])
        greatest, holder = turn["row"][p]
        turn["entries"].append(self.value[(holder, p, greatest)])
        self.pass_silent(mind, turn)

    def at_out(self, mind, turn):
        self.out[(mind.i, turn["j"])] = turn["value"]
        if mind.decision is None:
            mind.decision = turn["value"]
        mind.state[turn["j"]] = ("done",)
        self.end(mind, True)

    def crash(self, i):
        if i >= self.spec.m:
            return "nobody"
        if i in self.crashed:
            return "already"
        self.crashed.add(i)
        return "crashed"

    def settle(self):
        alive = [mind for mind in self.minds if mind.i not in self.crashed]
        for mind in alive:
            while mind.turn:
                self.step(mind.i)
        for mind in alive:
            mind.quiet = 0
            while self.step(mind.i) == "stepped":
                pass

    # ---- what is read off

    def input_of(self, j):
        """The input of a process that some simulator has."""
        return next((mind.input[j] for mind in self.minds if mind.input[j] is not None), None)

    def greatest(self, p):
        return max(self.step_of[(i, p)] for i in range(self.spec.m))

    def out_of(self, j):
        return next((self.out[(i, j)] for i in range(self.spec.m) if self.out[(i, j)] is not None), None)

    def is_clean(self, j, k):
        levels = self.levels(j, k)
        return 2 in levels and 1 not in levels

    def is_passed(self, j, k):
        more = any(self.step_of[(i, j)] > k for i in range(self.spec.m))
        return self.is_clean(j, k) or more or (self.out_of(j) is not None and k == self.greatest(j))

    def written(self, p, r):
        return next(self.value[(i, p, r)] for i in range(self.spec.m) if self.step_of[(i, p)] >= r)

    def state(self, j):
        """In the words of a report."""
        decision = self.out_of(j)
        if decision is not None:
            return f"decided {decision}"
        if self.is_spent(j):
            return "spent"
        held = [i for i in sorted(self.crashed) if any(self.level[(i, j, k)] == 1 for k in range(self.spec.rounds + 1))]
        return f"held {held[0]}" if held else "going"

    def row_at(self, j, k):
        return [entry[0] for entry in row_of(self.spec, self.view[(self.levels(j, k).index(2), j, k)])]

    def shown(self, row):
        return [self.written(p, r) if r else None for p, r in enumerate(row)]

    def is_spent(self, j):
        """Its last snapshot can be read, and asks for one write more."""
        k = self.spec.rounds
        if not self.is_clean(j, k):
            return False
        return following(self.spec.protocol, self.input_of(j), j, k, self.shown(self.row_at(j, k)))[0] == "write"

    def history(self):
        spec = self.spec
        snaps = [(j, k) for j in range(spec.n) for k in range(1, spec.rounds + 1) if self.is_passed(j, k)]
        rows = {at: self.row_at(*at) for at in snaps}
        events, done = [], [0] * spec.n

        def catch_up(row):
            for p in range(spec.n):
                for r in range(done[p] + 1, row[p] + 1):
                    events.append(("write", p, self.written(p, r)))
                done[p] = max(done[p], row[p])

        for j, k in sorted(snaps, key=lambda at: (sum(rows[at]), at[0])):
            catch_up(rows[(j, k)])
            events.append(("snap", j, self.shown(rows[(j, k)])))
            if self.out_of(j) is not None and k == self.greatest(j):
                events.append(("decide", j, self.out_of(j)))
        catch_up([self.greatest(p) for p in range(spec.n)])
        return events

    def event_lines(self):
        lines = []
        for word, p, what in self.history():
            entries = " ".join("." if v is None else str(v) for v in what) if word == "snap" else str(what)
            lines.append(f"{self.spec.name} {p} {word} {entries}")
        return lines

    def report(self):
        name, events = self.spec.name, self.event_lines()
        lines = [f"{name} report"] + [f"{name} process {j} {self.state(j)}" for j in range(self.spec.n)]
        lines += [f"{name} crashed" + "".join(f" {i}" for i in sorted(self.crashed)), f"{name} history {len(events)}"]
        return lines + events + [f"{name} end"]

    def notes(self):
        """What `trace` says under a report: each process's input, and what each simulator has decided."""
        inputs = [self.input_of(j) for j in range(self.spec.n)]
        lines = [f"    process {j} has no input yet" if v is None else f"    process {j} has the input {v}" for j, v in enumerate(inputs)]
        decided = [mind.decision for mind in self.minds]
        return lines + [f"    simulator {i} has not decided" if v is None else f"    simulator {i} has decided {v}" for i, v in enumerate(decided)]

    def run_block(self):
        """The block of the ordinary room that the history is a run of."""
        spec = self.spec
        inputs = [spec.own[0] if self.input_of(j) is None else self.input_of(j) for j in range(spec.n)]
        lines = spec.lines()
        lines[0], lines[2], lines[3] = "bgsim 2", "inputs " + " ".join(map(str, inputs)), f"simulators {spec.m}"
        return lines


def row_of(spec, steps):
    """For each process the greatest step number, and the least simulator that has it."""
    row = []
    for p in range(spec.n):
        numbers = [steps[(i, p)] for i in range(spec.m)]
        row.append((max(numbers), numbers.index(max(numbers))))
    return row


# ---- scripts


def replies(spec, commands):
    """The lines that answer to a room's block and to commands, and the room. A command is ("step", i, count), ("crash", i), ("settle",), ("report",) or ("close",)."""
    room, name = Room(spec), spec.name
    lines = [f"{name} opened"]
    for command in commands:
        if command[0] in ("step", "crash") and command[1] >= spec.m:
            lines.append(f"{name} refused 42")
        elif command[0] == "step":
            taken, last = 0, None
            while taken < command[2]:
                last = room.step(command[1])
                if last != "stepped":
                    break
                taken += 1
            lines.append(f"{name} step {command[1]} {taken} {last}")
        elif command[0] == "crash":
            lines.append(f"{name} crash {command[1]} {room.crash(command[1])}")
        elif command[0] == "settle":
            room.settle()
            lines.append(f"{name} settled")
        elif command[0] == "report":
            lines += room.report()
        else:
            lines.append(f"{name} closed")
    return lines, room


def script(spec, commands):
    words = {"step": lambda c: f"step {spec.name} {c[1]} {c[2]}", "crash": lambda c: f"crash {spec.name} {c[1]}"}
    return ["open"] + spec.lines() + [words.get(c[0], lambda c: f"{c[0]} {spec.name}")(c) for c in commands]
