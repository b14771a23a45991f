"""The answers of bgsim and bgview, by their proved library: docs/LIBRARY.md of the repository has examples, and says what is proved.

    >>> import bgview
    >>> print(bgview.trace(open("script.txt").read()))
    >>> room = bgview.Room(open("room.txt").read())
    >>> room.step(0, 5).crash(0).turn(1)
    >>> room.report().processes

A text of an input is `str` or `bytes`. Each function may be called by any number of threads at the same time."""

from .answers import (
    Answer, Objects, Page, Picture, check, draw, fault, grade, grade_json, inputs, inputs_json, keeps, keeps_json, lint, outcomes, outcomes_json, page, play, rooms, rooms_json, sample, sample_json, task, task_json,
    trace, trace_json, transcript, warnings, why, why_json,
)
from .errors import BgviewError, GoalError, InputError, OutOfMemory, Refused, TaskError, TooLong, ValuesError
from .room import Report, Room

__all__ = [
    "Answer", "BgviewError", "GoalError", "InputError", "Objects", "OutOfMemory", "Page", "Picture", "Refused", "Report", "Room", "TaskError", "TooLong", "ValuesError",
    "check", "draw", "fault", "grade", "grade_json", "inputs", "inputs_json", "keeps", "keeps_json", "lint", "outcomes", "outcomes_json", "page", "play", "rooms", "rooms_json", "sample", "sample_json", "task", "task_json",
    "trace", "trace_json", "transcript", "warnings", "why", "why_json",
]
