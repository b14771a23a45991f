#!/usr/bin/env python3
"""Safe agreement and three wrong ones, step by step, each wrong one with the right one on the same schedule.

This is a small model, written to be read and changed. It is no part of bgsim or bgview, and nothing is proved of it.

Two simulators agree on what one process sees. Simulator 0 took its snapshot early and proposes `7 .`; simulator 1 took it later and proposes `7 3`."""

import argparse
import collections
import json
import pathlib
from typing import NamedTuple, Optional

PROPOSALS = ("7 .", "7 3")


class Simulator(NamedTuple):
    """What the agreement holds of one simulator, and what the simulator knows."""

    line: int = 0  # how many of its lines it has done
    level: int = 0  # 0 outside, 1 in the unsafe section, 2 its proposal counts
    proposal: Optional[str] = None
    saw: bool = False  # whether it saw a level 2 when it looked
    chosen: Optional[int] = None  # whose proposal it is going to read
    read: Optional[str] = None


# ---- the lines: each is one atomic step of simulator i, and returns what it changes of it, a letter, and what it did in words


def propose(state, i):
    return {"proposal": PROPOSALS[i]}, "V", f"proposes {PROPOSALS[i]}"


def enter(state, i):
    return {"level": 1}, "1", "enters the unsafe section: level 1"


def look(state, i):
    saw = 2 in levels_of(state)
    return {"saw": saw}, "?", f"looks: levels {words(levels_of(state))}: {'a' if saw else 'no'} proposal stands"


def leave(state, i):
    if state[i].saw:
        return {"level": 0}, "0", "leaves at level 0: it withdraws"
    return {"level": 2}, "2", "leaves at level 2: its proposal stands"


def ask(state, i):
    levels = levels_of(state)
    if 1 in levels or 2 not in levels:
        return {"line": state[i].line}, "A", f"asks: levels {words(levels)}: not resolved"
    return choose(levels)


def get(state, i):
    value = state[state[i].chosen].proposal or "nothing"
    return {"read": value}, "G", f"reads {value}"


# ---- the wrong lines


def look_not(state, i):
    return {}, "-", "does not look"


def ask_inside(state, i):
    """Asks, but doesn't wait until no simulator is at level 1."""
    levels = levels_of(state)
    if 2 not in levels:
        return {"line": state[i].line}, "A", f"asks: levels {words(levels)}: no proposal stands"
    return choose(levels)


def choose(levels):
    chosen = levels.index(2)
    return {"chosen": chosen}, "A", f"asks: levels {words(levels)}: the proposal of simulator {chosen} is chosen"


MEANINGS = {
    propose: "propose: store the proposal",
    enter: "enter: level 1",
    look: "look: read the levels",
    leave: "leave: level 0 if a level was 2, else level 2",
    ask: "ask: read the levels until none is 1 and some is 2; the least simulator at 2 is chosen",
    get: "get: read the proposal that is chosen",
    look_not: "don't look",
    ask_inside: "ask: read the levels until some is 2; the least simulator at 2 is chosen",
}

# ---- the agreements, and a schedule for each wrong one that breaks it

RIGHT = (propose, enter, look, leave, ask, get)


class Lesson(NamedTuple):
    wrong: tuple
    schedule: tuple
    about: str
    question: str


LESSONS = {
    "no-look": Lesson((propose, enter, look_not, leave, ask, get), (1,) * 6 + (0,) * 6,
        "A simulator doesn't look at the levels before it leaves.", "Simulator 1 has read its result. May simulator 0 still leave at level 2?"),
    "late-entry": Lesson((propose, look, enter, leave, ask, get), (0,) * 2 + (1,) * 6 + (0,) * 4 + (1,) * 2,
        "A simulator looks before it enters, and not after it.", "What has happened between the look of simulator 0 and its entry?"),
    "read-inside": Lesson((propose, enter, look, leave, ask_inside, get), (0,) * 3 + (1,) * 6 + (0,) * 3 + (1,) * 2,
        "A simulator reads the result while another one is in its unsafe section.", "Can simulator 1 know which proposal will be chosen while simulator 0 is inside?"),
}

START = (Simulator(),) * len(PROPOSALS)


def levels_of(state):
    return [simulator.level for simulator in state]


def words(numbers):
    return " ".join(map(str, numbers))


def take_step(lines, state, i):
    """The state after the next line of simulator i, the letter of the line, and what it did."""
    if state[i].line == len(lines):
        return state, "", "has read its result, and does nothing"
    changes, letter, did = lines[state[i].line](state, i)
    after = state[i]._replace(**{"line": state[i].line + 1, **changes})
    return state[:i] + (after,) + state[i + 1 :], letter, did


def verdict(state):
    """What the results that were read so far say of the agreement."""
    read = [(i, simulator.read) for i, simulator in enumerate(state) if simulator.read]
    if len({value for _, value in read}) > 1:
        return "BROKEN: " + ", ".join(f"simulator {i} has read {value}" for i, value in read)
    if len(read) == len(state):
        return f"agreed: all have read {read[0][1]}"
    return "; ".join(f"simulator {i} has read {value}" for i, value in read) or "no simulator has read a result"


def run(lines, schedule):
    """The steps of a schedule: the simulator, the letter, what it did, the state after the step, and the verdict."""
    state, steps = START, []
    for i in schedule:
        state, letter, did = take_step(lines, state, i)
        steps.append((i, letter, did, state, verdict(state)))
    return steps


def search(lines):
    """How many states there are, and a shortest schedule to one in which the agreement is broken, if there is one."""
    schedules, waiting = {START: ()}, collections.deque([START])
    while waiting:
        state = waiting.popleft()
        for i in range(len(state)):
            after = take_step(lines, state, i)[0]
            if after not in schedules:
                schedules[after] = schedules[state] + (i,)
                waiting.append(after)
    broken = [schedule for state, schedule in schedules.items() if verdict(state).startswith("BROKEN")]
    return len(schedules), min(broken, key=len, default=None)


# ---- what is written


def print_steps(name):
    lesson = LESSONS[name]
    print(f"{name}: {lesson.about}")
    for title, lines in (("safe agreement", RIGHT), (name, lesson.wrong)):
        print(f"\n  {title}")
        for number, (i, letter, did, state, _) in enumerate(run(lines, lesson.schedule), 1):
            print(f"    {number:2}  simulator {i}  {letter:1}  {did:<62} levels {words(levels_of(state))}")
        print(f"  {verdict(state)}")
    print()


def print_search():
    for name, lines in (("safe agreement", RIGHT), *((name, lesson.wrong) for name, lesson in LESSONS.items())):
        count, schedule = search(lines)
        print(f"{name}: {count} states, " + ("the agreement holds in each" if schedule is None else f"the agreement is broken after the schedule {words(schedule)}"))


def page():
    """The page, with all steps of all lessons in it: the code in it only shows them."""
    def shown(title, lines, schedule):
        steps = [{"simulator": i, "letter": letter, "did": did, "state": [simulator._asdict() for simulator in state], "verdict": said} for i, letter, did, state, said in run(lines, schedule)]
        start = [simulator._asdict() for simulator in START]
        return {"title": title, "lines": [{"text": MEANINGS[line], "isWrong": RIGHT[k : k + 1] != (line,)} for k, line in enumerate(lines)], "start": start, "steps": steps}

    lessons = [{"name": name, "about": lesson.about, "question": lesson.question, "runs": [shown("Safe agreement", RIGHT, lesson.schedule), shown(f"Wrong: {name}", lesson.wrong, lesson.schedule)]} for name, lesson in LESSONS.items()]
    template = pathlib.Path(__file__).resolve().with_name("template.html").read_text()
    return template.replace("@LESSONS@", json.dumps(lessons))


def main():
    parser = argparse.ArgumentParser(description="Steps through a model of safe agreement and of three wrong ones. It is no part of bgsim or bgview, and nothing is proved of it.")
    parser.add_argument("lesson", nargs="?", choices=LESSONS, help="the steps of this one alone")
    parser.add_argument("--page", action="store_true", help="write a page that steps through all of them in a browser")
    parser.add_argument("--search", action="store_true", help="search all schedules for one that breaks an agreement")
    asked = parser.parse_args()
    if asked.page:
        print(page(), end="")
    elif asked.search:
        print_search()
    else:
        for name in [asked.lesson] if asked.lesson else LESSONS:
            print_steps(name)


if __name__ == "__main__":
    main()
