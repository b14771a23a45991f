"""compare.py TOP: whether the Python package gives, on each lesson, just what the programs print, with the same end. Four calls run at a time."""

import json
import pathlib
import re
import subprocess
import sys
from concurrent.futures import ThreadPoolExecutor

import bgview

TOP = pathlib.Path(sys.argv[1])
MODES = {
    "bgsim check": bgview.check,
    "bgsim play": bgview.play,
    "bgview why": bgview.why,
    "bgview why --json": bgview.why_json,
    "bgview trace": bgview.trace,
    "bgview trace --json": bgview.trace_json,
    "bgview draw": bgview.draw,
    "bgview draw --scale 50 --turns": lambda text: bgview.draw(text, percent=50, by_turns=True),
    "bgview transcript": bgview.transcript,
    "bgview page": bgview.page,
    "bgview outcomes --nodes 20000": lambda text: bgview.outcomes(text, nodes=20000),
    "bgview outcomes --nodes 20000 --crashes 0 --brief": lambda text: bgview.outcomes(text, 0, 20000, True),
    "bgview outcomes --nodes 20000 --task": lambda text: bgview.task(text, nodes=20000),
    "bgview outcomes --nodes 20000 --task --crashes 0": lambda text: bgview.task(text, 0, 20000),
    "bgview outcomes --nodes 20000 --json": lambda text: bgview.outcomes_json(text, nodes=20000),
    "bgview outcomes --nodes 20000 --task --json": lambda text: bgview.task_json(text, nodes=20000),
    "bgview outcomes --nodes 200 --inputs 0,7 --json": lambda text: bgview.inputs_json(text, (0, 7), 200),
    "bgview outcomes --nodes 20000 --json --keeps": lambda text: bgview.keeps_json(text, "equal(mine) == count; given >= 2", 20000),
    "bgview outcomes --nodes 200 --inputs 0,7": lambda text: bgview.inputs(text, (0, 7), 200),
    "bgview outcomes --nodes 20000 --keeps": lambda text: bgview.keeps(text, "equal(mine) == count; given >= 2", 20000),
    "bgview why --keeps": lambda text: bgview.why(text, "equal(mine) == count"),
    "bgview why --json --keeps": lambda text: bgview.why_json(text, keeps="equal(mine) == count"),
    "bgview page --keeps": lambda text: bgview.page(text, "mine == min"),
    "bgview outcomes --rooms --nodes 2000 --crashes 0": lambda text: bgview.rooms(text, 0, 2000),
    "bgview outcomes --rooms --nodes 2000 --brief --json": lambda text: bgview.rooms_json(text, nodes=2000, brief=True),
    "bgview sample --schedules 20": lambda text: bgview.sample(text, 20),
    "bgview sample --schedules 20 --crashes 2 --seed 5 --group --brief --top 2": lambda text: bgview.sample(text, 20, 2, 5, group=True, brief=True, top=2),
    "bgview sample --schedules 20 --from 4294967290": lambda text: bgview.sample(text, 20, from_=4294967290),
    "bgview sample --schedules 20 --outcome 2": lambda text: bgview.sample(text, 20, outcome=2),
    "bgview sample --schedules 20 --json --workers 2": lambda text: bgview.sample_json(text, 20),
    "bgview lint": bgview.lint,
    "bgview grade --goal": lambda text: bgview.grade(text, "held 0 or not crashed 1"),
    "bgview grade --commands 2 --goal": lambda text: bgview.grade(text, "decided 1 3", 2),
    "bgview grade --json --goal": lambda text: bgview.grade_json(text, "decided 1 3 or not spent 0"),
}
TEXTS = {
    "bgview why --keeps": ["equal(mine) == count"],
    "bgview why --json --keeps": ["equal(mine) == count"],
    "bgview page --keeps": ["mine == min"],
    "bgview grade --goal": ["held 0 or not crashed 1"],
    "bgview grade --commands 2 --goal": ["decided 1 3"],
    "bgview grade --json --goal": ["decided 1 3 or not spent 0"],
    "bgview outcomes --nodes 20000 --keeps": ["equal(mine) == count; given >= 2"],
    "bgview outcomes --nodes 20000 --json --keeps": ["equal(mine) == count; given >= 2"],
}


def by_program(words, file):
    """The answer, the exit status, and the line and the fault that are named."""
    ran = subprocess.run([*words.split(), *TEXTS.get(words, []), file], capture_output=True, check=False)
    named = re.match(rb"bg\w+: line (\d+): fault (\d+)\n", ran.stderr)
    return ran.stdout, ran.returncode, named and (int(named[1]), int(named[2]))


def by_library(words, text):
    """The same of the package."""
    try:
        answer = MODES[words](text)
    except bgview.InputError as fault:
        return b"", 2, (fault.line, fault.fault)
    shown = answer if isinstance(answer, str) else "".join(json.dumps(one, separators=(",", ":"), ensure_ascii=False) + "\n" for one in answer)
    return shown.encode(errors="surrogateescape"), 0 if answer.well else 1, None


def differs(words, file):
    if by_program(words, file) != by_library(words, file.read_bytes()):
        print(f"{words} {file.relative_to(TOP)}")


def is_warned_of(file):
    """Whether something is warned of. Says if it is not what `lint` writes to standard error."""
    ran = subprocess.run(["bgview", "lint", file], capture_output=True, check=False)
    warned = bgview.warnings(file.read_bytes())
    if not warned.well or warned.encode(errors="surrogateescape") != ran.stderr:
        print(f"the warnings of {file.relative_to(TOP)}")
    return bool(warned)


def said():
    """Whether each fault from 0 to 99 has the words that the program has for it."""
    by_words = subprocess.run(["bgview", "fault", *map(str, range(100))], capture_output=True, text=True, check=False).stdout
    return by_words == "".join(f"{number}: {bgview.fault(number)}\n" for number in range(100))


files = sorted([*TOP.glob("examples/*/*/input.txt"), *TOP.glob("exercises/*/*.txt")])
print("answers that differ:")
with ThreadPoolExecutor(4) as pool:
    list(pool.map(lambda one: differs(*one), [(words, file) for file in files for words in MODES]))
    warned = list(pool.map(is_warned_of, [*files, *TOP.glob("cases/view/warnings/*.txt")]))
print(f"something is warned of: {any(warned)}")
print(f"each of {len(MODES)} modes was tried, on {'more than 60' if len(files) > 60 else len(files)} files; the faults have the same words: {said()}")
