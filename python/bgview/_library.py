"""The calls of libbgview.so, by ctypes. While one runs, other threads of Python run too."""

from __future__ import annotations

import ctypes
import os
import pathlib
from typing import Any, Tuple, Union

from .errors import GoalError, InputError, OutOfMemory, TaskError, TooLong, ValuesError

Text = Union[str, bytes]

LARGEST = 2**32 - 1
_OK, _REFUSED, _BAD_INPUT, _NO_MEMORY, _INCOMPLETE, _TOO_LONG, _BAD_GOAL, _BAD_VALUES, _BAD_TASK = range(9)
_FIRST_SIZE = 1 << 16


def _find() -> pathlib.Path:
    """The library that the environment names, or that of the package, or, in a clone or an archive, the released one."""
    named = os.environ.get("BGVIEW_LIBRARY")
    if named:
        return pathlib.Path(named)
    here = pathlib.Path(__file__).resolve().parent
    packed = here / "libbgview.so"
    return packed if packed.exists() else here.parent.parent / "dist" / "libbgview.so"


_LIBRARY = ctypes.CDLL(str(_find()))


class _Result(ctypes.Structure):
    """`struct bgview_result` of include/bgview.h."""

    _fields_ = [("status", ctypes.c_uint32), ("fault", ctypes.c_uint32), ("line", ctypes.c_uint64), ("length", ctypes.c_uint64)]


class Plan(ctypes.Structure):
    """`struct bgview_plan` of include/bgview.h."""

    _fields_ = [(name, ctypes.c_uint32) for name in ("schedules", "crashes", "seed", "from", "top", "outcome")] + [(name, ctypes.c_bool) for name in ("group", "brief", "json")]


class Search(ctypes.Structure):
    """`struct bgview_search` of include/bgview.h."""

    _fields_ = [(name, ctypes.c_uint32) for name in ("crashes", "nodes")] + [(name, ctypes.c_bool) for name in ("brief", "json")]


def bytes_of(text: Text) -> bytes:
    """Bytes as they are, and a text as UTF-8."""
    return text.encode(errors="surrogateescape") if isinstance(text, str) else bytes(text)


def slice_of(text: Text) -> Tuple[Any, Any]:
    """An input as a call takes it: where its bytes are, and how many."""
    data = bytes_of(text)
    return ctypes.c_char_p(data), ctypes.c_size_t(len(data))


def number(name: str, value: int, most: int = LARGEST, least: int = 0) -> Any:
    """A number as a call takes it."""
    if not least <= value <= most:
        raise ValueError(f"{name} is {value}, and not {least} to {most}")
    return ctypes.c_uint32(value)


def flag(value: bool) -> Any:
    """A truth value as a call takes it."""
    return ctypes.c_bool(value)


def _try(name: str, words: Tuple[Any, ...], size: int) -> Tuple[_Result, str]:
    """One call, with a buffer of this size."""
    result = _Result()
    output = ctypes.create_string_buffer(size)
    getattr(_LIBRARY, "bgview_" + name)(*words, output, ctypes.c_size_t(size), ctypes.byref(result))
    return result, output.raw[: min(result.length, size)].decode(errors="surrogateescape")


def call(name: str, *words: Any) -> Tuple[str, bool]:
    """The whole answer, and whether all is well. If there is none, or an allocation failed for a part of it, an exception says so."""
    result, answer = _try(name, words, _FIRST_SIZE)
    if result.length > _FIRST_SIZE:
        result, answer = _try(name, words, result.length)
    if result.status == _BAD_INPUT:
        raise InputError(result.line, result.fault, sentence(result.fault))
    if result.status in (_NO_MEMORY, _INCOMPLETE):
        raise OutOfMemory(answer)
    if result.status == _TOO_LONG:
        raise TooLong()
    if result.status == _BAD_GOAL:
        raise GoalError(result.line)
    if result.status == _BAD_VALUES:
        raise ValuesError(result.line)
    if result.status == _BAD_TASK:
        raise TaskError(result.line, result.fault, sentence(result.fault))
    return answer, result.status == _OK


def sentence(fault: int) -> str:
    """What the number of a fault means."""
    answer, _ = call("fault", number("the number of a fault", fault))
    return answer.rstrip("\n").partition(": ")[2]
