"""What the modes of bgsim and bgview answer: a function for each."""

from __future__ import annotations

import ctypes
import json
import re
from typing import Any, Dict, Iterable, List, Optional, Tuple

from . import _library
from ._library import LARGEST, Plan, Search, Text, bytes_of, flag, number, sentence, slice_of
from .errors import InputError

Json = Dict[str, Any]
"""An object of JSON. docs/VIEW.md lists the members of each."""


class Answer(str):
    """What a program writes to standard output."""

    well: bool
    """Whether all is well: the program's exit status is 0, and not 1."""

    def __new__(cls, text: str, well: bool) -> "Answer":
        answer = super().__new__(cls, text)
        answer.well = well
        return answer


class Picture(Answer):
    """A picture, as an SVG file. A notebook shows it."""

    def __repr__(self) -> str:
        return f"<picture of {len(bytes_of(self))} bytes>"

    def _repr_svg_(self) -> str:
        return str(self)


class Page(Answer):
    """A page for a browser, as an HTML file."""

    def save(self, path: str) -> None:
        """Writes it to a file."""
        with open(path, "wb") as file:
            file.write(bytes_of(self))


class Objects(List[Json]):
    """An answer as JSON: the object of each line."""

    well: bool
    """Whether all is well: the program's exit status is 0, and not 1."""

    def __init__(self, text: str, well: bool) -> None:
        super().__init__(json.loads(line) for line in text.splitlines())
        self.well = well


def place_in(explanation: str, line: int, text: Text) -> Optional[int]:
    """At which byte of a line, counted from 1, `lint` shows its fault, if it shows the line as it is."""
    lines = bytes_of(text).split(b"\n")
    shown = re.search(rf"^    line {line}: .*\n    (.*)\n    ( *)\^$", explanation, re.M)
    is_whole = shown and line <= len(lines) and bytes_of(shown[1]) == lines[line - 1]
    return len(bytes_of(shown[1][: len(shown[2])])) + 1 if shown and is_whole else None


def _explained(fault: InputError, text: Text) -> InputError:
    """The same fault, with what `lint` says of the input."""
    explanation = lint(text)
    if explanation.well:
        return fault
    return InputError(fault.line, fault.fault, fault.sentence, place_in(explanation, fault.line, text), str(explanation))


def _answer(name: str, text: Text, *more: Any) -> Tuple[str, bool]:
    try:
        return _library.call(name, *slice_of(text), *more)
    except InputError as fault:
        raise _explained(fault, text) from None


def _unless_none(name: str, value: Optional[int], most: int, least: int = 0) -> Any:
    """A number as a call takes it that may be left out."""
    return number(name, LARGEST) if value is None else number(name, value, most, least)


def check(transcript: Text) -> Answer:
    """The verdict on each room of a transcript: whether its events are a run of its protocol. As `bgsim check`."""
    return Answer(*_answer("check", transcript))


def play(script: Text) -> Answer:
    """The replies to the commands of a script. As `bgsim play`."""
    return Answer(*_answer("play", script))


def why(transcript: Text, keeps: Optional[Text] = None) -> Answer:
    """The verdicts of `check`, and under each that breaks a run the line and the reason; then, with `keeps`, whether each run keeps this task of your own, as of
    `keeps`. As `bgview why`, also with `--keeps`."""
    if keeps is None:
        return Answer(*_answer("why", transcript, flag(False)))
    return Answer(*_answer("why_with", transcript, *slice_of(keeps)))


def why_json(transcript: Text, keeps: Optional[Text] = None) -> Objects:
    """The same: an object for each room, and with `keeps` one more for each run. As `bgview why --json`."""
    if keeps is None:
        return Objects(*_answer("why", transcript, flag(True)))
    return Objects(*_answer("why_with_json", transcript, *slice_of(keeps)))


def trace(script: Text) -> Answer:
    """The replies to a script, and under each the atomic steps that its command took. As `bgview trace`."""
    return Answer(*_answer("trace", script, flag(False)))


def trace_json(script: Text) -> Objects:
    """The same: an object for each reply and for each step. As `bgview trace --json`."""
    return Objects(*_answer("trace", script, flag(True)))


def draw(script: Text, percent: int = 100, by_turns: bool = False) -> Picture:
    """A picture of a script. `percent` is 10 to 1000; with `by_turns` a box is a stretch of a turn. As `bgview draw`."""
    return Picture(*_answer("draw", script, number("percent", percent, 1000, 10), flag(by_turns)))


def transcript(script: Text) -> Answer:
    """A script's rooms as a transcript, with the events in the order in which they took effect. As `bgview transcript`."""
    return Answer(*_answer("transcript", script))


def page(file: Text, keeps: Optional[Text] = None) -> Page:
    """A page that steps through a script or a transcript in a browser; with `keeps` through a transcript, and with what `why` says of it. As `bgview page`, also with
    `--keeps`."""
    if keeps is None:
        return Page(*_answer("page", file))
    return Page(*_answer("page_with", file, *slice_of(keeps)))


def _nodes(nodes: int) -> Any:
    """How many nodes of a room are searched at most, as a call takes it."""
    return number("nodes", nodes, 100000000, 1)


def outcomes(rooms: Text, crashes: Optional[int] = None, nodes: int = 1000000, brief: bool = False) -> Answer:
    """All outcomes of the protocol of each room, if at most `crashes` processes stop (without a number all but one). A room is searched up to
    `nodes` nodes; if one has more, the answer says so, and not all is well. `brief` leaves out the transcripts. As `bgview outcomes`."""
    return Answer(*_answer("outcomes", rooms, _unless_none("crashes", crashes, 16), _nodes(nodes), flag(brief)))


def outcomes_json(rooms: Text, crashes: Optional[int] = None, nodes: int = 1000000, brief: bool = False) -> Objects:
    """The same: for each room an object for each outcome, and one for the room. As `bgview outcomes --json`."""
    return Objects(*_answer("outcomes_json", rooms, _unless_none("crashes", crashes, 16), _nodes(nodes), flag(brief)))


def task(rooms: Text, crashes: Optional[int] = None, nodes: int = 1000000) -> Answer:
    """Whether each run of each room keeps its task; no outcomes are listed. The search stops at the first run that breaks the task, and shows it. If a room has more than
    `nodes` nodes, the answer says so, and not all is well. How many processes stop (`crashes`) makes no difference. As `bgview outcomes --task`."""
    return Answer(*_answer("task", rooms, _unless_none("crashes", crashes, 16), _nodes(nodes)))


def task_json(rooms: Text, crashes: Optional[int] = None, nodes: int = 1000000) -> Objects:
    """The same: an object for each room. As `bgview outcomes --task --json`."""
    return Objects(*_answer("task_json", rooms, _unless_none("crashes", crashes, 16), _nodes(nodes)))


def inputs(rooms: Text, values: Iterable[int], nodes: int = 1000000) -> Answer:
    """With which inputs each run of each room keeps its task, of all lists of these values in place of the room's. As `bgview outcomes --inputs`."""
    return Answer(*_answer("inputs", rooms, *slice_of(",".join(map(str, values))), _nodes(nodes)))


def inputs_json(rooms: Text, values: Iterable[int], nodes: int = 1000000) -> Objects:
    """The same: for each room an object for each list of inputs, and one for the room. As `bgview outcomes --inputs --json`."""
    return Objects(*_answer("inputs_json", rooms, *slice_of(",".join(map(str, values))), _nodes(nodes)))


def keeps(rooms: Text, task: Text, nodes: int = 1000000) -> Answer:
    """Whether each run of each room keeps a task of your own: conditions on what the processes have decided, with semicolons between them, of which one has to hold for
    each process that has decided, as `equal(mine) == count and given >= 1`. As `bgview outcomes --keeps`."""
    return Answer(*_answer("keeps", rooms, *slice_of(task), _nodes(nodes)))


def keeps_json(rooms: Text, task: Text, nodes: int = 1000000) -> Objects:
    """The same: an object for each room. As `bgview outcomes --keeps --json`."""
    return Objects(*_answer("keeps_json", rooms, *slice_of(task), _nodes(nodes)))


def _search(json: bool, crashes: Optional[int], nodes: int, brief: bool) -> Any:
    """How all schedules of rooms are searched, as a call takes it."""
    return ctypes.byref(Search(_unless_none("crashes", crashes, 16), _nodes(nodes), brief, json))


def rooms(rooms: Text, crashes: Optional[int] = None, nodes: int = 1000000, brief: bool = False) -> Answer:
    """All outcomes that the simulators of each room can reach under any schedule, if at most `crashes` of them crash (without a number all but one), each with a script
    that leads to it. A room is searched up to `nodes` nodes; `brief` leaves out the scripts. As `bgview outcomes --rooms`."""
    return Answer(*_answer("rooms", rooms, _search(False, crashes, nodes, brief)))


def rooms_json(rooms: Text, crashes: Optional[int] = None, nodes: int = 1000000, brief: bool = False) -> Objects:
    """The same: for each room an object for each outcome, and one for the room. As `bgview outcomes --rooms --json`."""
    return Objects(*_answer("rooms", rooms, _search(True, crashes, nodes, brief)))


def _plan(json: bool, schedules: int, crashes: int, seed: int, group: bool, brief: bool, top: Optional[int], outcome: Optional[int], from_: int) -> Any:
    """How rooms are sampled, as a call takes it."""
    numbers = number("schedules", schedules, 1000000, 1), number("crashes", crashes, 8), number("seed", seed), number("from_", from_)
    return ctypes.byref(Plan(*numbers, _unless_none("top", top, 1000000, 1), _unless_none("outcome", outcome, 1000000, 1), group, brief, json))


def sample(
    rooms: Text, schedules: int = 1000, crashes: int = 1, seed: int = 1, group: bool = False, brief: bool = False, top: Optional[int] = None, outcome: Optional[int] = None, from_: int = 0
) -> Answer:
    """The outcomes of each room by this number of random schedules, and how often each came. In a schedule at most `crashes` simulators crash; the same `seed` gives
    the same schedules. `group` counts outcomes as one that differ only in which simulators hold processes; `brief` leaves out the scripts that lead to the outcomes;
    `top` shows only this number of them, the most frequent; `outcome` gives nothing but the script of the outcome of this number; the schedules begin with the number
    `from_`. As `bgview sample`, on one thread."""
    return Answer(*_answer("sample", rooms, _plan(False, schedules, crashes, seed, group, brief, top, outcome, from_)))


def sample_json(
    rooms: Text, schedules: int = 1000, crashes: int = 1, seed: int = 1, group: bool = False, brief: bool = False, top: Optional[int] = None, outcome: Optional[int] = None, from_: int = 0
) -> Objects:
    """The same: for each room an object for each outcome, and then one for the room. As `bgview sample --json`."""
    return Objects(*_answer("sample", rooms, _plan(True, schedules, crashes, seed, group, brief, top, outcome, from_)))


def lint(file: Text) -> Answer:
    """All faults of a file of rooms, a script or a transcript, explained. As `bgview lint`."""
    return Answer(*_library.call("lint", *slice_of(file)))


def warnings(file: Text) -> Answer:
    """What `lint` warns of in a file: what is no fault, but can hardly be meant. Nothing, if there is no such thing. As `bgview lint` on standard error."""
    return Answer(*_library.call("warnings", *slice_of(file)))


def grade(script: Text, goal: Text, commands: Optional[int] = None) -> Answer:
    """Whether the last report of a script satisfies a goal, claim by claim, with at most this number of commands `step` and `crash`. As `bgview grade`."""
    return Answer(*_answer("grade", script, *slice_of(goal), _unless_none("commands", commands, 1000000)))


def grade_json(script: Text, goal: Text, commands: Optional[int] = None) -> Objects:
    """The same, as one object. As `bgview grade --json`."""
    return Objects(*_answer("grade_json", script, *slice_of(goal), _unless_none("commands", commands, 1000000)))


def fault(code: int) -> str:
    """What the number of a fault means. As `bgview fault`, without the number before it."""
    return sentence(code)
