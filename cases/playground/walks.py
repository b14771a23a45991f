"""Walks at random through the buttons, keys and moments of one room. After each click the script of the page has to bring just the moments that were clicked,
and all that is shown of the moment is compared with what the programs say."""

import random

from programs import Differs, holds, moves_of, rooms_of

BLOCKS = (
    "bgsim 1\nroom pair\ninputs 7 3\nsimulators 2\nrounds 1\nturns 100\nprotocol\nfirst input;\nelse decide min;\nend",
    "bgsim 2\nroom trio\ninputs 9 6 4\nsimulators 3\nrounds 2\nturns 100\ntask agree 1\nprotocol\nfirst input;\nwhen count >= n - 1 decide min;\nelse write mine;\nend",
    "bgsim 1\nroom few\ninputs 5 8\nsimulators 2\nrounds 2\nturns 3\nprotocol\nfirst input;\nwhen round == 2 decide max;\nelse write min + 1;\nend",
    "reduction 1\nroom vote\ninputs 7 3\nprocesses 3\nrounds 2\nturns 100\ntask agree 1\nprotocol\nfirst input;\nwhen count >= n - 1 decide min;\nelse write mine;\nend",
)
SHOWN = """(() => {
  const room = runs[0].rooms[current];
  return {
    text: at('text').value,
    count: Math.min(count, room.moments.length),
    total: room.moments.length,
    said: [...document.querySelectorAll('.run .sentence')].map(one => [...one.childNodes].filter(node => node.nodeName !== 'SMALL').map(node => node.textContent).join('')),
    moves: [...document.querySelectorAll('.mover')].map(mover => [...mover.querySelectorAll('small')].map(small => small.textContent)),
    off: [...document.querySelectorAll('.mover')].map(mover => [...mover.querySelectorAll('button')].map(button => button.disabled)),
    runs: runs.length,
    before: paper.before,
    verdict: at('verdict').hidden ? '' : at('verdict').textContent,
    undo: !at('undo').disabled,
    redo: !at('redo').disabled,
  };
})()"""


class Walk:
    def __init__(self, page, seed):
        self.page = page
        self.dice = random.Random(seed)
        self.block = BLOCKS[seed % len(BLOCKS)]
        (self.room,) = rooms_of(f"open\n{self.block}\n")
        self.at = 0  # the moment that is shown
        self.before = None  # the schedule of the run before, once there is a branch
        self.past, self.future = [], []
        page.run(f"change({{ text: {self.room.script(0)!r}, before: null, exercise: null }}, Infinity); past.length = 0; future.length = 0; showPaper()")

    def change(self, *commands):
        """What commands at the moment that is shown make of the room."""
        self.past.append((self.room, self.before))
        self.future = []
        if self.at < len(self.room.moments):
            self.before = self.room.schedule()
        (self.room,) = rooms_of(self.room.script(self.at) + "".join(f"{command}\n" for command in commands))
        self.at = len(self.room.moments)

    def press(self, kind, simulator):
        """A move, by its button or by its keys."""
        if self.dice.random() < 0.5:
            self.page.click(f'[data-move="{kind}"][data-simulator="{simulator}"]')
        elif kind == "crash":
            self.page.key("x")
            self.page.key(str(simulator))
        else:
            self.page.key(str(simulator), shift=kind == "turn")

    def move(self):
        kind = self.dice.choice(("step", "step", "step", "turn", "turn", "crash"))
        if kind == "crash" and self.dice.random() < 0.6:
            kind = "step"
        simulator = self.dice.randrange(self.room.simulators)
        steps, last = self.room.ahead(self.at, simulator, 65535 if kind == "turn" else 1)
        self.press(kind, simulator)
        if kind == "crash":
            if last != "crashed":
                self.change(f"crash {self.room.name} {simulator}")
        elif steps:
            ends = [place for place, step in enumerate(steps, 1) if step["end"] is not None]
            length = 1 if kind == "step" else ends[0] if ends else len(steps)
            self.change(*[f"step {self.room.name} {simulator} 1"] * length)
        return f"{kind} {simulator}"

    def settle(self):
        self.page.click("[data-move=settle]") if self.dice.random() < 0.5 else self.page.key("s")
        self.change(f"settle {self.room.name}")
        return "settle"

    def look(self):
        total = len(self.room.moments)
        longest = max(total, len(self.before or []))
        kind = self.dice.choice(("back", "on", "first", "last", "slider"))
        if kind == "slider":
            to = self.dice.randint(0, total)
            self.page.run(f"at('slider').value = {to}; at('slider').oninput({{ target: at('slider') }})")
        else:
            shown = self.page.run("count")
            to = {"back": max(0, shown - 1), "on": min(longest, shown + 1), "first": 0, "last": longest}[kind]
            self.page.click(f"#{kind}") if self.dice.random() < 0.5 else self.page.key({"back": "ArrowLeft", "on": "ArrowRight", "first": "Home", "last": "End"}[kind])
        self.at = min(to, total)
        return kind

    def go_back(self, key, shift, button, one, other):
        self.page.click(button) if self.dice.random() < 0.5 else self.page.key(key, shift=shift)
        if one:
            other.append((self.room, self.before))
            self.room, self.before = one.pop()
            self.at = len(self.room.moments)

    def undo(self):
        self.go_back("u", False, "#undo", self.past, self.future)
        return "undo"

    def redo(self):
        self.go_back("u", True, "#redo", self.future, self.past)
        return "redo"

    def one_run(self):
        self.page.click("#one-run") if self.before is not None and self.dice.random() < 0.5 else self.page.key("o")
        if self.before is not None:
            self.past.append((self.room, self.before))
            self.future = []
            self.before = None
        return "one run"

    def act(self):
        kinds = (self.move,) * 13 + (self.look,) * 4 + (self.undo,) * 3 + (self.redo,) + (self.one_run,)
        return self.settle() if self.dice.random() < 0.05 else self.dice.choice(kinds)()

    def compare(self):
        shown = self.page.run(SHOWN)
        (copied,) = rooms_of(shown["text"])
        holds("the moments of the script", copied.schedule(), self.room.schedule())
        holds("the trace of the script", copied.moments, self.room.moments)
        holds("the number of moments, and that which is shown", (shown["total"], shown["count"]), (len(self.room.moments), self.at))
        holds("the sentence", shown["said"][0], self.room.sentence(self.at))
        holds("the moves", shown["moves"], moves_of(self.room, self.at))
        crashed = {-1 - move for move in self.room.schedule()[: self.at] if move < 0}
        stuck = [not words[0].startswith("next: ") for words in shown["moves"]]
        holds("the buttons that can't be pressed", shown["off"], [[off, off, simulator in crashed] for simulator, off in enumerate(stuck)])
        holds("the number of runs", shown["runs"], 1 if self.before is None else 2)
        if self.before is not None:
            holds("the run before", rooms_of(shown["before"])[0].schedule(), self.before)
        holds("what can be undone and redone", (shown["undo"], shown["redo"]), (bool(self.past), bool(self.future)))
        holds("whether the task is broken", "task broken" in shown["verdict"], self.breaks_task())

    def breaks_task(self):
        """Whether two different values are decided in the room whose task is to decide one; an input is decided in any case."""
        decided = {moment["effect"]["value"] for moment in self.room.moments if "crash" not in moment and (moment["effect"] or {}).get("event") == "decide"}
        return "\ntask agree 1\n" in self.block and len(decided) > 1


def walk(page, seed, clicks):
    one = Walk(page, seed)
    done = []
    try:
        one.compare()
        for _ in range(clicks):
            done.append(one.act())
            one.compare()
    except Differs as difference:
        raise Differs(f"walk {seed}, click {len(done)}: {'; '.join(done[-6:])}: {difference}") from None
    page.holds_no_fault()
    return f"{clicks} clicks in the room {one.room.name}"
