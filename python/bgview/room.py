"""A room that is stepped by hand."""

from __future__ import annotations

import re
from dataclasses import dataclass
from typing import Iterable, List, Optional

from .answers import Answer, Json, Page, Picture, Text, draw, inputs, keeps, lint, outcomes, page, place_in, task, trace, trace_json
from .errors import InputError, Refused

_MOST_STEPS = 65535


@dataclass(frozen=True)
class Report:
    """What has become of a room."""

    processes: List[Json]
    """The state of each process: `{"state": "decided", "value": V}`, `{"state": "held", "by": I}`, `{"state": "spent"}` or `{"state": "going"}`."""
    crashed: List[int]
    """The simulators that have crashed."""
    history: List[Json]
    """The events, in an order in which they are a run of the protocol, as docs/VIEW.md has them."""


class Room:
    """A room and what was done in it. `Room(block).step(0, 5).crash(0).step(1, 100)` shows what each step did; in a notebook it is drawn.

    It keeps a script, and each move has the library play the whole script anew: so the room is always what the script says, and can be copied by
    its script. A command that the room refuses raises `Refused`, and changes nothing."""

    def __init__(self, block: Text) -> None:
        """Opens the room of one block, as docs/FORMATS.md has it. `InputError` says at which line of the block its fault is."""
        text = block if isinstance(block, str) else block.decode(errors="surrogateescape")
        self._block = text.rstrip("\n") + "\n"
        self._commands: List[str] = []
        self._shown = ""
        try:
            opened, *more = trace_json(self.script)
        except InputError:
            more = [{}]
        if more:
            raise ValueError("a room is made of one block, with nothing after it")
        if opened["reply"] == "refused":
            raise self._fault(opened)
        self.name: str = opened["room"]
        """The room's name."""

    def _fault(self, refusal: Json) -> InputError:
        """Why the block opens no room."""
        explanation = lint(self._block)
        shown = re.search(r"^    line (\d+): (.*)$", explanation, re.M)
        if not shown or not explanation.startswith("read as rooms"):  # a text that doesn't begin as a block is explained as something else
            return InputError(1, refusal["fault"][0], refusal["words"])
        line = int(shown[1])
        return InputError(line, refusal["fault"][0], shown[2], place_in(explanation, line, self._block), str(explanation))

    @property
    def block(self) -> str:
        """The block that the room was opened by."""
        return self._block

    @property
    def script(self) -> str:
        """The script that opens the room and does what was done in it. The other functions and programs take it."""
        return "open\n" + self._block + "".join(command + "\n" for command in self._commands)

    def _tried(self, command: str) -> List[Json]:
        """The reply to one more command, and its steps."""
        moves = trace_json(self.script + command + "\n")
        begin = max(place for place, one in enumerate(moves) if "reply" in one)
        return moves[begin:]

    def _do(self, command: str) -> "Room":
        reply = self._tried(command)[0]
        if reply["reply"] == "refused":
            raise Refused(command, reply["fault"][0], reply["words"])
        before = trace(self.script)
        self._commands.append(command)
        self._shown = trace(self.script)[len(before) :]
        return self

    def step(self, simulator: int, count: int = 1) -> "Room":
        """Lets a simulator take this number of atomic steps, or as many as it can: 1 to 65535."""
        if not 1 <= count <= _MOST_STEPS:
            raise ValueError(f"count is {count}, and not 1 to {_MOST_STEPS}")
        return self._do(f"step {self.name} {simulator} {count}")

    def turn(self, simulator: int) -> "Room":
        """Lets a simulator go on to the end of its turn."""
        count = 32
        while True:
            _, *steps = self._tried(f"step {self.name} {simulator} {count}")
            ends = [place for place, step in enumerate(steps, 1) if step["end"] is not None]
            if ends or len(steps) < count or count == _MOST_STEPS:
                return self.step(simulator, ends[0] if ends else max(len(steps), 1))
            count = min(2 * count, _MOST_STEPS)

    def crash(self, simulator: int) -> "Room":
        """Crashes a simulator: it takes no step any more."""
        return self._do(f"crash {self.name} {simulator}")

    def settle(self) -> "Room":
        """Lets the simulators that have not crashed go on until none of them can do anything more."""
        return self._do(f"settle {self.name}")

    def undo(self) -> "Room":
        """Takes back the last command, if there is one."""
        if self._commands:
            self._commands.pop()
            self._shown = ""
        return self

    def report(self) -> Report:
        """The states of the processes, the crashed simulators, and the history. It changes nothing."""
        report = self._tried(f"report {self.name}")[0]
        return Report(report["processes"], report["crashed"], report["history"])

    def draw(self, percent: int = 100, by_turns: bool = False) -> Picture:
        """A picture of what was done."""
        return draw(self.script, percent, by_turns)

    def page(self) -> Page:
        """A page that steps through what was done."""
        return page(self.script)

    def outcomes(self, crashes: Optional[int] = None, nodes: int = 1000000, brief: bool = False) -> Answer:
        """All outcomes of the room's protocol."""
        return outcomes(self._block, crashes, nodes, brief)

    def task(self, crashes: Optional[int] = None, nodes: int = 1000000) -> Answer:
        """Whether each run of the room's protocol keeps its task."""
        return task(self._block, crashes, nodes)

    def inputs(self, values: Iterable[int], nodes: int = 1000000) -> Answer:
        """With which inputs each run of the room's protocol keeps its task, of all lists of these values."""
        return inputs(self._block, values, nodes)

    def keeps(self, task: Text, nodes: int = 1000000) -> Answer:
        """Whether each run of the room's protocol keeps a task of your own."""
        return keeps(self._block, task, nodes)

    def __str__(self) -> str:
        """What the last command did, step by step."""
        return self._shown

    def __repr__(self) -> str:
        return self._shown.rstrip("\n") or f"<room {self.name}>"

    def _repr_svg_(self) -> str:
        return str(self.draw())
