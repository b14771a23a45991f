"""What holds of the program's answers, judged with no second implementation of it."""
import re

import inputs
from program import Failure

REFUSED = re.compile(r"line (\d+) refused (.*)")


def expect(holds, what):
    if not holds:
        raise Failure(what)


def replies_rest_on_their_own_room(source, program):
    """The lines about a room are those of the script with that room's commands alone."""
    commands = inputs.script(source, ["a", "b", "c"], 60)
    yield "".join(line for _, line in commands)
    together = program.piped(["play"], "".join(line for _, line in commands)).lines()
    for name in "abc":
        alone = program.piped(["play"], "".join(line for about, line in commands if about == name)).lines()
        expect(of_room(alone, name) == of_room(together, name), f"room {name} is answered otherwise alone")


def of_room(lines, name):
    return [line for line in lines if line.startswith(name + " ")]


def reports_of_play_are_runs(source, program):
    """Whatever is asked of a room, each report of it is a run, in which no more are held than have crashed."""
    room = inputs.room(source, "a")
    room.fuses = {}
    few = [inputs.command(source, "a", room.simulators) for _ in range(20)]
    commands = few if source.often(0.5) else inputs.busy_script(source, "a", room.simulators)
    text = "open\n" + room.block() + "".join(commands) + "report a\nsettle a\nreport a\n"
    yield text
    judge_reports(program, {"a": room}, program.piped(["play"], text).lines())


def reports_of_run_are_runs(source, program):
    """The same of rooms on threads, with fuses."""
    rooms = {f"r{number}": inputs.room(source, f"r{number}") for number in range(source.randint(1, 8))}
    text = "".join(room.block() for room in rooms.values())
    workers = str(source.randint(1, 16))
    yield f"({workers} workers)\n" + text
    judge_reports(program, rooms, program.piped(["run", "--workers", workers], text).lines())


def judge_reports(program, rooms, lines):
    """Looks at each report, and lets `check` judge its history as that of a room of its own."""
    blocks, events = [], []
    for number, report in enumerate(reports_in(lines)):
        name, states, crashed, history = report
        room = rooms[name]
        expect(sum(state.startswith("held") for state in states) <= len(crashed), f"more are held than crashed in {name}")
        expect(len(states) == len(room.inputs), f"{name} has another number of processes")
        decided = {process: state.split()[1] for process, state in enumerate(states) if state.startswith("decided")}
        in_history = {int(words[1]): words[3] for words in history if words[2] == "decide"}
        expect(decided == in_history, f"{name} has other decisions than its history")
        judge_certified(room, states, decided)
        own = f"report-{number}"
        blocks.append(room.block().replace(f"room {name}\n", f"room {own}\n", 1))
        events += [" ".join([own, *words[1:]]) + "\n" for words in history]
    verdicts = program.piped(["check"], "".join(blocks) + "events\n" + "".join(events)).lines()
    runs = [line for line in verdicts if " task " not in line]
    expect(runs == [f"report-{number} is a run" for number in range(len(blocks))], "a report is no run")


def judge_certified(room, states, decided):
    """A protocol that waits for all but f inputs decides at most f + 1 values; with two rounds none is spent."""
    form = re.fullmatch(r"first input;\nwhen count >= n - (\d+) decide min;\nelse write mine;\n", room.protocol)
    if form and int(form[1]) < len(room.inputs):
        expect(len(set(decided.values())) <= int(form[1]) + 1, f"too many values are decided in {room.name}")
        expect(set(decided.values()) <= set(map(str, room.inputs)), f"no input is decided in {room.name}")
        expect(room.rounds == 1 or "spent" not in states, f"a process is spent in {room.name}")


def reports_in(lines):
    """For each report its room's name, its states, who has crashed, and its history."""
    lines = iter(lines)
    for line in lines:
        words = line.split(" ")
        if words[1:] != ["report"]:
            continue
        states, crashed, history = [], [], []
        for line in lines:
            words = line.split(" ")
            if words[1] == "process":
                states.append(" ".join(words[3:]))
            elif words[1] == "crashed":
                crashed = words[2:]
            elif words[1] == "end":
                break
            elif words[1] != "history":
                history.append(words)
        yield words[0], states, crashed, history


def blocks_are_refused_alike(source, program):
    """The three modes refuse the same blocks, for the same faults, at the lines that belong together."""
    text = "".join(inputs.near_miss(source, inputs.room(source, f"r{number}").block()) for number in range(6))
    yield text
    blocks = cut_at_end(text)
    if any(block.startswith("events\n") for block in blocks):
        return
    ends = blocks and (blocks[-1].endswith("\nend\n") or blocks[-1] == "end\n")
    in_run = refused_in(program.piped(["run"], text))
    starts = starts_of(blocks)
    expect(set(in_run) <= set(starts), "a fault at a line where no block begins")
    if ends:
        expect(refused_in(program.piped(["check"], text + "events\n")) == in_run, "check refuses other blocks than run")
    script = program.piped(["play"], "".join("open\n" + block for block in blocks))
    in_script = {line - number - 1: fault for number, (line, fault) in numbered(refused_in(script), starts)}
    taken = {line: fault for line, fault in in_run.items() if fault != "41"}
    expect(in_script == taken, "play refuses other blocks than run")


def numbered(refused, starts):
    """Refused blocks of a script with the number of the block of each."""
    place = {start + number + 1: number for number, start in enumerate(starts)}
    for line, fault in refused.items():
        expect(line in place, "a fault at a line where no block of the script begins")
        yield place[line], (line, fault)


def refused_in(answer):
    found = (REFUSED.fullmatch(line) for line in answer.lines())
    return {int(match[1]): match[2] for match in found if match}


def cut_at_end(text):
    """The blocks of a text: each ends with the first line that is exactly `end`."""
    blocks, lines = [], []
    for line in re.findall(r"[^\n]*\n|[^\n]+", text):
        lines.append(line)
        if line.rstrip("\n") == "end":
            blocks.append("".join(lines))
            lines = []
    return blocks + (["".join(lines)] if lines else [])


def starts_of(blocks):
    starts, line = [], 1
    for block in blocks:
        starts.append(line)
        line += block.count("\n")
    return starts


def answers_rest_on_the_bytes(source, program):
    """The same input has the same answer from a file, from a pipe, and one byte a read."""
    mode = source.choice(["check", "play", "run"])
    text = transcript(source, program) if mode == "check" else short_script(source) if mode == "play" else inputs.room(source, "a").block()
    words = [mode, "--workers", "1"] if mode == "run" else [mode]
    if source.often(0.5):
        text = inputs.near_miss(source, text)
    yield f"({mode})\n" + text
    whole = program.piped(words, text)
    expect(program.by_file(words, text) == whole, "another answer from a file")
    expect(program.by_single_bytes(words, text) == whole, "another answer one byte a read")


def short_script(source):
    return "".join(line for _, line in inputs.script(source, ["a"], 5))


def transcript(source, program):
    """A transcript of some rooms that were run, their lines mixed."""
    rooms = [inputs.room(source, name) for name in ("a", "b")]
    blocks = "".join(room.block() for room in rooms)
    reports = reports_in(program.piped(["run", "--workers", "1"], blocks).lines())
    histories = [[" ".join(words) + "\n" for words in history] for _, _, _, history in reports]
    text = blocks + "events\n"
    while any(histories):
        text += source.choice([history for history in histories if history]).pop(0)
    return text


def faults_rest_on_what_stands_before(source, program):
    """A bad line is the first one whatever stands behind it."""
    mode, text = source.choice([("check", transcript(source, program)), ("play", short_script(source))])
    for _ in range(source.randint(1, 3)):
        text = inputs.near_miss(source, text)
    yield f"({mode})\n" + text
    answer = program.piped([mode], text)
    fault = re.fullmatch(r"bgsim: line (\d+): fault (\d+)\n", answer.message)
    if fault and fault[2] != "61":
        before = "".join(re.findall(r"[^\n]*\n|[^\n]+", text)[: int(fault[1])])
        behind = inputs.near_miss(source, text)
        ended = before if before.endswith("\n") else before + "\n"
        expect(program.piped([mode], ended + behind).message == answer.message, "the first fault rests on what stands behind it")
        expect(program.piped([mode], before).message == answer.message, "the first fault isn't there without what stands behind it")


ALL = [
    replies_rest_on_their_own_room,
    reports_of_play_are_runs,
    reports_of_run_are_runs,
    blocks_are_refused_alike,
    answers_rest_on_the_bytes,
    faults_rest_on_what_stands_before,
]
