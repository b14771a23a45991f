"""Why there is no answer."""

from __future__ import annotations

from typing import Optional


class BgviewError(Exception):
    """What this package raises is one of these, or a ValueError for an argument that is out of range."""


class InputError(BgviewError, ValueError):
    """A line of an input is malformed, or a block opens no room."""

    line: int
    """The number of the line, counted from 1."""
    place: Optional[int]
    """At which byte of the line the fault is, counted from 1, if `lint` shows that."""
    fault: int
    """The number of the fault, as docs/FORMATS.md has it."""
    sentence: str
    """What the fault says."""
    explanation: str
    """All faults of the input, as `lint` explains them."""

    def __init__(self, line: int, fault: int, sentence: str, place: Optional[int] = None, explanation: str = "") -> None:
        super().__init__(line, fault, sentence, place, explanation)
        self.line = line
        self.fault = fault
        self.sentence = sentence
        self.place = place
        self.explanation = explanation

    def __str__(self) -> str:
        said = f"line {self.line}: {self.sentence} (fault {self.fault})"
        return f"{said}\n{self.explanation}" if self.explanation else said


class GoalError(BgviewError, ValueError):
    """A goal is not valid."""

    claim: int
    """The number of the claim that is none, or that is followed by neither `and` nor `or`, counted from 1."""

    def __init__(self, claim: int) -> None:
        super().__init__(claim)
        self.claim = claim

    def __str__(self) -> str:
        return f"claim {self.claim} of the goal is not valid, or is followed by neither `and` nor `or`"


class ValuesError(BgviewError, ValueError):
    """The values of which inputs are made are not valid."""

    value: int
    """The number of the value, counted from 1, that is not a number of 0 to 4294967295, or is there before, or is the 17th."""

    def __init__(self, value: int) -> None:
        super().__init__(value)
        self.value = value

    def __str__(self) -> str:
        return f"value {self.value} of the inputs is not a number of 0 to 4294967295, or is there twice, or is one too many: there may be 16"


class TaskError(BgviewError, ValueError):
    """A line of a task is no condition."""

    line: int
    """The number of the line, counted from 1."""
    fault: int
    """The number of the fault, as docs/FORMATS.md has it."""
    sentence: str
    """What the fault says."""

    def __init__(self, line: int, fault: int, sentence: str) -> None:
        super().__init__(line, fault, sentence)
        self.line = line
        self.fault = fault
        self.sentence = sentence

    def __str__(self) -> str:
        return f"line {self.line} of the task: {self.sentence} (fault {self.fault})"


class TooLong(BgviewError, ValueError):
    """An input has more than 16777216 bytes."""

    def __str__(self) -> str:
        return "the input has more than 16777216 bytes"


class OutOfMemory(BgviewError, MemoryError):
    """An allocation failed."""

    answer: str
    """The replies to a script, of which one says for which command the allocation failed; else nothing."""

    def __init__(self, answer: str) -> None:
        super().__init__(answer)
        self.answer = answer

    def __str__(self) -> str:
        return "out of memory"


class Refused(BgviewError):
    """A room refused a command, and is as it was."""

    command: str
    """The command, as a script has it."""
    fault: int
    """The number of the fault, as docs/FORMATS.md has it."""
    sentence: str
    """What the fault says."""

    def __init__(self, command: str, fault: int, sentence: str) -> None:
        super().__init__(command, fault, sentence)
        self.command = command
        self.fault = fault
        self.sentence = sentence

    def __str__(self) -> str:
        return f"{self.command}: {self.sentence} (fault {self.fault})"
