"""What a page has to show of the rooms of a script, computed anew from what `bgview trace` answers to it, and its events from `bgview transcript`
of the script up to each step."""

import itertools
import re

from differing import Differs, answered, holds

TURN = re.compile(r"simulator (\d+), turn (\d+), process (\d+), round (\d+)")
# A step's line: its number, its turn if that begins there, what was done, and what came of it.
COLUMNS = re.compile(r"^ {4}(\d+) +(?:(simulator \d+, turn \d+, process \d+, round \d+) +)?(.*?\)|load the step numbers(?:, word \d+)?)(, word \d+)? +(.*)$")
SQUARE, LANE, EVENTS, LEFT, TOP = 27, 42, 26, 104, 16
CROSS = "\u2715"
UNREPORTED = " (not in a report)"


# ---- the rooms and their commands


def entries_of(script):
    """The block of each entry that opens a room, and each other line."""
    lines = script.split("\n")
    at = 0
    while at < len(lines):
        if lines[at] == "open":
            end = lines.index("end", at) if "end" in lines[at:] else len(lines)
            yield "open", lines[at + 1: end + 1]
            at = end + 1
        else:
            if lines[at]:
                yield lines[at], None
            at += 1


def replies_of(trace):
    """Each reply with the lines under it, and the lines of its report."""
    replies, is_report = [], False
    for line in trace.splitlines():
        if line.startswith("    "):
            replies[-1]["notes"].append(line)
        elif is_report:
            replies[-1]["report"].append(line)
            is_report = line.split(" ")[1] != "end"
        else:
            replies.append({"line": line, "notes": [], "report": []})
            is_report = line.split(" ")[1:] == ["report"]
    return replies


def rooms_of_script(script, trace, openings=()):
    """The rooms that were opened, in order: the block, the commands, and the moments, each a step or a crash; and what is open after each command, if that is said."""
    rooms, opened = [], {}
    for (entry, block), reply, opening in itertools.zip_longest(entries_of(script), replies_of(trace), openings):
        words = reply["line"].split(" ")
        if words[1] == "opened":
            opened[words[0]] = {"name": words[0], "block": block, "commands": [], "moments": [], "said": [], "openings": [], "compare": compare_simulated}
            rooms.append(opened[words[0]])
        elif " refused " not in reply["line"] and words[0] in opened:
            play_command(opened[words[0]], entry, words, reply)
        if opening and "room" in opening:
            note_opening(opened[words[0]], opening)
        if words[1:] == ["closed"]:
            del opened[words[0]]
    for room in rooms:
        room["sentences"] = ["Nobody has taken a step.", *map(sentence_of, room["moments"])]
    return rooms


def note_opening(room, opening):
    """How many outcomes are open after a command, and which, each as the ends of its processes."""
    ends = opening["open"] and [" ".join(str(end["value"]) if end["state"] == "decided" else end["state"] for end in outcome) for outcome in opening["open"]]
    room["openings"].append({"at": len(room["moments"]), "open": ends, "complete": opening["complete"]})


def play_command(room, entry, words, reply):
    before = len(room["moments"])
    for line in reply["notes"]:
        read_note(room["moments"], line)
    if words[1] == "crash" and words[3] == "crashed":
        room["moments"].append({"crash": True, "i": int(words[2]), "turn": None, "notes": [], "operation": "", "sight": ""})
    room["said"] += [(len(room["moments"]), line) for line in reply["report"]]
    room["commands"].append((entry.split(" "), len(room["moments"]) - before))


def read_note(moments, line):
    """A step of a turn that its line names, or that goes on with the turn of the last step; or what is said of the last step."""
    if line.startswith("         "):
        moments[-1]["notes"].append(line.strip())
        return
    found = COLUMNS.match(line)
    if found: # what is said of refused blocks after all replies is no step
        turn = found[2] or next(moment["turn"] for moment in reversed(moments) if moment["turn"])
        i, _, p, r = map(int, TURN.match(turn).groups())
        moments.append({"crash": False, "i": i, "p": p, "r": r, "turn": turn, "notes": [], "operation": found[3] + (found[4] or ""), "sight": found[5]})


def sentence_of(moment):
    if moment["crash"]:
        return f"simulator {moment['i']}| crashes"
    return "|".join([moment["turn"], f": {moment['operation']} \u2192 ", moment["sight"], *moment["notes"]])


# ---- the events of each moment


def prefix_of(room, count, name):
    """The room under another name, with its commands up to this moment."""
    lines = ["open", *(f"room {name}" if line.startswith("room ") else line for line in room["block"])]
    done = 0
    for words, moments in room["commands"]:
        taken = min(moments, count - done)
        if done < count and words[0] in ("step", "crash", "settle"):
            lines += part_of(words, name, taken == moments, room["moments"][done: done + taken])
        done += taken
    return [*lines, f"report {name}"]


def part_of(words, name, is_whole, own):
    """A command of a room under another name, or what of it takes only these moments. One that takes no step may still find that a simulator is idle."""
    if is_whole:
        return [" ".join([words[0], name, *words[2:]])]
    return [f"step {name} {moment['i']} 1" for moment in own]


def events_in(lines):
    """The events by their lines, by the name of the room."""
    found = {}
    for line in lines:
        name, process, event = line.split(" ", 2)
        found.setdefault(name, []).append((int(process), event))
    return found


def note_events(room, folder):
    """For each moment of a room: the events that have taken effect, and those of a report. None if the commands up to there take other steps: in the
    midst of settling, a simulator goes on that is idle by itself."""
    total = len(room["moments"])
    script = folder / "prefixes.txt"
    script.write_text("\n".join(line for count in range(total + 1) for line in prefix_of(room, count, f"m{count}")) + "\n")
    taken, reported, states = {}, {}, {}
    for reply in replies_of(answered(["trace"], script).stdout):
        name, *words = reply["line"].split(" ")
        taken[name] = taken.get(name, 0) + sum(bool(COLUMNS.match(note)) for note in reply["notes"]) + (words[0] == "crash" and words[2] == "crashed")
        if words == ["report"]:
            reported[name] = events_in(line for line in reply["report"] if re.match(r"\S+ \d+ (write|snap|decide) ", line)).get(name, [])
            states[name] = [line.split(" ", 3)[3] for line in reply["report"] if " process " in line]
    transcript = answered(["transcript"], script).stdout.split("\n")
    took = events_in(line for line in transcript[transcript.index("events") + 1:] if line)
    names = [f"m{count}" for count in range(total + 1)]
    room["events"] = [(took.get(name, []), reported[name]) if taken[name] == count else None for count, name in enumerate(names)]
    room["states"] = [states[name] if taken[name] == count else None for count, name in enumerate(names)]
    if None in room["events"] and not any(words[0] == "settle" for words, _ in room["commands"]):
        raise Differs(f"{room['name']}: the script up to step {room['events'].index(None)} takes other steps")


# ---- what a page shows besides


def letter(moment):
    operation, sight = moment["operation"], moment["sight"]
    for begin, shown in (("add 1 to step", "+"), ("add 1 to level", sight[5:6]), ("subtract", "0"), ("load the step", "S"), ("load view", "G"), ("load value", "r")):
        if operation.startswith(begin):
            return shown
    if operation.startswith("load the levels"):
        return "?" if "proposal stands" in sight else "A"
    return next(shown for part, shown in ((" in value(", "W"), (" in out(", "D"), (" in view(", "V")) if part in operation)


EMPTY = {"crashed": [], "counted": {}, "levels": {}, "blind": [], "proposals": {}, "chosen": {}, "values": {}, "events": [], "read": {}, "decided": {}, "own": {}}


def situations(room):
    """After each moment: who has crashed, the step numbers, levels, proposals, choices, values, events and decisions of the room."""
    now = EMPTY
    yield now
    for at, moment in enumerate(room["moments"]):
        now = {name: (list(of) if isinstance(of, list) else dict(of)) for name, of in now.items()}
        if moment["crash"]:
            now["crashed"].append(moment["i"])
        else:
            store(now, moment)
            take_effect(now, moment, at)
            change_level(now, moment, at)
        yield now


def store(now, moment):
    key, own = (moment["p"], moment["r"]), (moment["i"], moment["p"], moment["r"])
    operation, sight = moment["operation"], moment["sight"]
    value = re.match(r"store (\d+) in value", operation)
    if value and moment["r"] == 0:
        now["proposals"][own] = [value[1]]
    elif value:
        now["values"][key] = value[1]
    if " in view(" in operation:
        old = now["proposals"].get(own) if re.search(r", word [1-9]", operation) else None
        now["proposals"][own] = [old[p] if old and entry == "." else entry for p, entry in enumerate(sight.split(" "))]
    if " in out(" in operation:
        now["decided"][moment["p"]] = re.search(r"decides (\d+)", sight)[1]
        now["own"].setdefault(moment["i"], now["decided"][moment["p"]])
    if operation.startswith("add 1 to step"):
        now["counted"][moment["i"], moment["p"]] = int(sight.split(" ")[2])
    if letter(moment) == "?" and "no proposal stands" in sight:
        now["blind"].append(own)


def take_effect(now, moment, at):
    for note in moment["notes"]:
        event = re.match(r"here: process (\d+) (write|decide)s (\d+)$", note)
        if event:
            now["events"].append((at, int(event[1]), f"{event[2]} {event[3]}"))
        if note.startswith("here, if"):
            now["read"][moment["i"], moment["p"], moment["r"]] = at


def change_level(now, moment, at):
    """A level changes; with it the agreement may become fixed: a proposal stands, and none can come to stand any more."""
    key = (moment["p"], moment["r"])
    if not re.match(r"(?:add 1 to|subtract 1 from) level", moment["operation"]):
        return
    of = now["levels"][key] = {**now["levels"].get(key, {}), moment["i"]: int(re.match(r"\d+ to (\d+)", moment["sight"])[1])}
    standing = [i for i, level in of.items() if level == 2]
    coming = [i for i, level in of.items() if level == 1 and (i, *key) in now["blind"]]
    if key not in now["chosen"] and standing and not coming:
        i = now["chosen"][key] = min(standing)
        if moment["r"] == 0: # an input is no event
            return
        row = [entry if entry == "." else now["values"][p, int(entry)] for p, entry in enumerate(now["proposals"][i, *key])]
        now["events"].append((now["read"][i, *key], moment["p"], "snap " + " ".join(row)))


# ---- the comparison


def compare_simulated(room, panels, columns):
    all_now = list(situations(room))
    for count, (panel, now) in enumerate(zip(panels, all_now)):
        where = f"{room['name']}, step {count}"
        holds(f"{where}: the sentence", panel["sentence"], room["sentences"][count])
        if count:
            compare_obstacle(where, room["moments"][count - 1], now)
            compare_decision(where, room["moments"][count - 1], all_now[count - 1], now)
        compare_words(where, panel, now)
        compare_agreements(where, panel, now)
        compare_frames(where, panel, room["moments"][count - 1]["operation"] if count else "", set(now["own"]) - set(all_now[count - 1]["own"] if count else []))
        compare_processes(where, room, panel, now, count)
        compare_hints(where, panel, now)
        compare_outcomes(where, room, panel, count)
        compare_lanes(where, room, panel, panel["drawn"], now, all_now[-1], count, columns)
        if panel["hidden"]:
            compare_lanes(f"{where} without the future", {**room, "moments": room["moments"][:count]}, panel, panel["hidden"], now, now, count, columns, len(room["moments"]))


def compare_obstacle(where, moment, now):
    """What the trace says after a quiet turn keeps the agreement from being read, against the levels and choices of its steps so far."""
    said = [note for note in moment["notes"] if note.startswith(("open:", "chosen:", "blocked"))]
    if not any(note.startswith("quiet") for note in moment["notes"]):
        holds(f"{where}: what is said of an agreement", said, [])
        return
    key = (moment["p"], moment["r"])
    inside = sorted(i for i, level in now["levels"][key].items() if level == 1)
    crashed = [i for i in inside if i in now["crashed"]]
    chosen = now["chosen"].get(key)
    choice = "" if chosen is None else f"chosen: simulator {chosen}'s; "
    if crashed:
        why = f"blocked for ever by simulator {crashed[0]}"
    else:
        why = f"open: simulator {inside[0]} is inside" if chosen is None else f"not readable while simulator {inside[0]} is inside"
    holds(f"{where}: what is said of the agreement {key}", said, [choice + why])


def compare_decision(where, moment, before, now):
    """A simulator decides what it first stores as the decision of a process."""
    said = [note for note in moment["notes"] if note.startswith("simulator")]
    holds(f"{where}: what the simulator decides", said, [f"simulator {i} decides {value}" for i, value in now["own"].items() if i not in before["own"]])


def compare_words(where, panel, now):
    numbers, _, values = panel["tables"][:3]
    for i, row in enumerate(numbers):
        holds(f"{where}: the step numbers of simulator {i}", row, [f"simulator {i}" + (f" {CROSS}" if i in now["crashed"] else ""), *(str(now["counted"].get((i, p), 0)) for p in range(len(row) - 2)), now["own"].get(i, "")])
    for p, row in enumerate(values):
        holds(f"{where}: the values of process {p}", [(r, value) for r, value in enumerate(row[1:], 1) if value], [(r, value) for (q, r), value in sorted(now["values"].items()) if q == p])


def named(simulators):
    words = [str(i) for i in simulators]
    return ("simulator " if len(words) == 1 else "simulators ") + (", ".join(words[:-1]) + " and " if words[1:] else "") + words[-1]


def result_of(of, chosen, crashed):
    inside = sorted(i for i, level in of.items() if level == 1)
    blocked = [i for i in inside if i in crashed]
    are = "is" if len(inside) == 1 else "are"
    if chosen is not None and not inside:
        return f"resolved: the proposal of simulator {chosen}"
    if blocked:
        return f"blocked for ever by {named(blocked)}"
    if chosen is not None:
        return f"chosen: simulator {chosen}'s; not readable while {named(inside)} {are} inside"
    return f"open: {named(inside)} {are} inside" if inside else "no proposal stands"


def compare_agreements(where, panel, now):
    shown = {tuple(map(int, re.match(r"p(\d+) r(\d+)", row[0]).groups())): (row, marks) for row, marks in zip(panel["tables"][1], panel["classes"][1])}
    holds(f"{where}: the agreements", set(shown), set(now["levels"]) | {key[1:] for key in now["proposals"]})
    for key, (row, classes) in shown.items():
        of, chosen = now["levels"].get(key, {}), now["chosen"].get(key)
        holds(f"{where}: the result of agreement {key}", row[-1], result_of(of, chosen, now["crashed"]))
        for i, cell in enumerate(row[1:-1]):
            proposal = now["proposals"].get((i, *key))
            marks = classes[i + 1].split()
            holds(f"{where}: simulator {i} in agreement {key}", cell, str(of.get(i, 0)) + (f" \u27e8{' '.join(proposal)}\u27e9" if proposal else ""))
            holds(f"{where}: the frame of simulator {i} in agreement {key}", "chosen" in marks, chosen == i)
            holds(f"{where}: whether simulator {i} has lost in agreement {key}", "lost" in marks, bool(proposal) and chosen is not None and chosen != i)


def touches(operation, kind, *numbers):
    """Whether an operation is on a field: of a kind with these numbers, each of which may be any if it is None."""
    field = re.search(rf" {kind}\(([\d,]+)\)", operation)
    return bool(field) and all(wanted in (None, number) for wanted, number in zip(numbers, map(int, field[1].split(","))))


def compare_frames(where, panel, operation, deciding):
    """The red frames: around the fields that the operation is on, and the decision of a simulator that decides. Who reads a proposal doesn't touch it."""
    numbers, agreements, values, _ = [[["now" in classes.split() for classes in row[1:]] for row in table] for table in panel["classes"][:4]]
    holds(f"{where}: the frames of step numbers", numbers, [[*(operation.startswith("load the step numbers") or touches(operation, "step", i, p) for p in range(len(row) - 1)), i in deciding] for i, row in enumerate(numbers)])
    holds(f"{where}: the frames of values", values, [[touches(operation, "value", None, p, r) for r in range(1, len(row) + 1)] for p, row in enumerate(values)])
    for row, frames in zip(panel["tables"][1], agreements):
        key = tuple(map(int, re.match(r"p(\d+) r(\d+)", row[0]).groups()))
        is_load = touches(operation, "agreement ", *key)
        holds(f"{where}: the frames of agreement {key}", frames, [is_load or touches(operation, "level", i, *key) or (operation.startswith("store") and touches(operation, "view" if key[1] else "value", i, *key)) for i in range(len(frames) - 1)] + [False])


def has_stopped(room, i, count):
    """Whether a simulator has crashed or ended its last turn."""
    last = next(line for line in room["block"] if line.startswith("turns ")).split(" ")[1]
    own = [moment for moment in room["moments"][:count] if moment["i"] == i]
    return any(moment["crash"] or (f" turn {last}," in moment["turn"] and any(re.match("useful|quiet", note) for note in moment["notes"])) for moment in own)


def is_said_spent(room, process, count):
    """Whether a report of the script or the end of a turn has said by now that the process is out of rounds."""
    notes = [note for moment in room["moments"][:count] for note in moment["notes"]]
    return f"useful: process {process} is spent" in notes or any(at <= count and line.endswith(f" process {process} spent") for at, line in room["said"] if at > 0)


def simulators_of(block):
    """How many simulators a block says: in a reduction each has an input."""
    word = "inputs " if block[0] == "reduction 1" else "simulators "
    numbers = next(line for line in block if line.startswith(word)).split(" ")[1:]
    return len(numbers) if block[0] == "reduction 1" else int(numbers[0])


def processes_of(block):
    return int(block[3].split(" ")[1]) if block[0] == "reduction 1" else len(block[2].split(" ")[1:])


def state_of(room, now, process, count):
    """The state by the report of the script up to this moment, with all simulators that hold the process; a process is out of rounds once that was said."""
    held = sorted(i for (q, _), of in now["levels"].items() if q == process for i, level in of.items() if level == 1 and i in now["crashed"])
    state = room["states"][count][process] if room["states"][count] else f"decided {now['decided'][process]}" if process in now["decided"] else f"held {held[0]}" if held else "going"
    if state == "spent" and not is_said_spent(room, process, count):
        state = f"held {held[0]}" if held else "going"
    if state.startswith("held "):
        holds("the simulator of a report that holds a process", state, f"held {min(held)}")
        return f"held by {named(held)}"
    simulators = simulators_of(room["block"])
    if state == "going":
        return "no simulator left" if all(has_stopped(room, i, count) for i in range(simulators)) else "may still go on"
    return state


def compare_processes(where, room, panel, now, count):
    """The events that have taken effect are those of the transcript, in its order; of each process a report has them all, or all but a last snapshot,
    which is marked."""
    events = [(p, text) for _, p, text in sorted(now["events"])]
    took, reported = room["events"][count] or (events, None)
    holds(f"{where}: the events that the lines of the trace lead to", events, took)
    for p, row in enumerate(panel["tables"][3]):
        own = [text for q, text in took if q == p]
        known = own if reported is None else [text for q, text in reported if q == p]
        if own[: len(known)] != known or len(own) > len(known) + 1 or any(not text.startswith("snap") for text in own[len(known):]):
            raise Differs(f"{where}: process {p} has {own} in the transcript and {known} in the report")
        shown = "; ".join(known + [text + UNREPORTED for text in own[len(known):]])
        holds(f"{where}: the events of process {p}", row[1] if reported is not None else row[1].replace(UNREPORTED, ""), shown)
        holds(f"{where}: the state of process {p}", row[2], state_of(room, now, p, count))


def compare_hints(where, panel, now):
    """The hints that have numbers in them: of step numbers, decisions, values and agreements."""
    numbers, agreements, values = panel["hints"][:3]
    for i, row in enumerate(numbers):
        holds(f"{where}: the hint of a decision", row[-1], f"simulator {i} has {'decided ' + now['own'][i] if i in now['own'] else 'not decided'}")
        for p, hint in enumerate(row[1:-1]):
            count = now["counted"].get((i, p), 0)
            holds(f"{where}: a hint of step numbers", hint, f"step({i},{p}): simulator {i} has counted {count} write{'' if count == 1 else 's'} of process {p}")
    for p, row in enumerate(values):
        for r, hint in enumerate(row[1:], 1):
            holds(f"{where}: a hint of values", hint, f"process {p} writes {now['values'][p, r]} in round {r}" if (p, r) in now["values"] else f"process {p} has not written in round {r}")
    for cells, hints in zip(panel["tables"][1], agreements):
        key = tuple(map(int, re.match(r"p(\d+) r(\d+)", cells[0]).groups()))
        for i, hint in enumerate(hints[1:-1]):
            holds(f"{where}: the hint of simulator {i} in agreement {key}", hint, hint_of(now, i, key))


def hint_of(now, i, key):
    proposal, chosen = now["proposals"].get((i, *key)), now["chosen"].get(key)
    level = ("outside", "in the unsafe section", "its proposal counts")[now["levels"].get(key, {}).get(i, 0)]
    begin = f"simulator {i} in agreement ({key[0]},{key[1]}): level {now['levels'].get(key, {}).get(i, 0)}: {level}; "
    if proposal is None:
        return begin + f"simulator {i} proposes nothing yet"
    fate = "" if chosen is None else "; it is chosen" if chosen == i else "; another one is chosen"
    if key[1] == 0:
        return begin + f"it proposes the input {proposal[0]}" + fate
    seen = [("no write" if entry == "." else "1 write" if entry == "1" else f"{entry} writes") + f" of process {p}" for p, entry in enumerate(proposal)]
    row = seen[0] if len(seen) == 1 else ", ".join(seen[:-1]) + " and " + seen[-1]
    return begin + f"it proposes a snapshot with {row}" + fate


def closed_by(openings, outcome):
    """The command after which all that is open is known, and an outcome is not among that; or None."""
    return next((opening for opening in openings if opening["complete"] and outcome not in opening["open"]), None)


def compare_outcomes(where, room, panel, count):
    """The table of outcomes that were open, if what is open is said: each with the step that closed it."""
    openings = [opening for opening in room["openings"] if opening["at"] <= count]
    if not openings:
        holds(f"{where}: the tables", len(panel["tables"]), 4)
        return
    last = openings[-1]
    holds(f"{where}: the title of outcomes", panel["titles"][4], f"Outcomes that could still be reached after step {last['at']}" + ("" if last["complete"] else ", as far as known"))
    known = list(dict.fromkeys(outcome for opening in openings for outcome in opening["open"] or []))
    rows, frames, hints = [], [], []
    for number, outcome in enumerate(known, 1):
        closing = closed_by(openings, outcome)
        standing = f"closed by step {closing['at']}" if closing else "open" if outcome in (last["open"] or []) else "not known"
        rows.append([str(number), *outcome.split(" "), standing])
        frames.append(bool(closing) and closing["at"] == count == last["at"])
        hints.append([f"process {p} {'decides' if end.isdigit() else 'is'} {end}" for p, end in enumerate(outcome.split(" "))])
    holds(f"{where}: the outcomes", panel["tables"][4], rows)
    holds(f"{where}: the frames of outcomes", ["now" in row[-1].split() for row in panel["classes"][4]], frames)
    holds(f"{where}: the hints of outcomes", [row[1:-1] for row in panel["hints"][4]], hints)


def number_open(opening):
    return "?" if opening["open"] is None else str(len(opening["open"])) + ("" if opening["complete"] else "+")


def hint_of_opening(openings, index):
    opening = openings[index]
    if opening["open"] is None:
        return f"after step {opening['at']}: the search met its limit"
    number = len(opening["open"])
    said = f"after step {opening['at']}: {number} outcome{'' if number == 1 else 's'} can still be reached" + ("" if opening["complete"] else ", and maybe more")
    before = (openings[index - 1]["open"] or []) if index else []
    return said + "".join(f"; not any more: {outcome}" for outcome in before if opening["complete"] and outcome not in opening["open"])


def compare_openings(where, room, drawn, count, first, columns, simulators, is_hidden):
    """The row of how many outcomes are open: a number where it changes, and at the first moment that is drawn."""
    openings = room["openings"]
    before = max((index for index, opening in enumerate(openings) if opening["at"] <= first), default=None)
    y = TOP + simulators * LANE + 6 + processes_of(room["block"]) * EVENTS + 15
    wanted = []
    for index, opening in enumerate(openings):
        is_change = first < opening["at"] <= first + columns and number_open(opening) != number_open(openings[index - 1])
        if (index == before or is_change) and not (is_hidden and opening["at"] > count):
            passed = opening["at"] <= count
            wanted.append({"text": number_open(opening), "x": LEFT + max(0, opening["at"] - first) * SQUARE, "y": y, "pale": not passed, "bold": passed, "fill": "var(--now)" if index and opening["at"] > first else "var(--ink)", "hint": hint_of_opening(openings, index)})
    holds(f"{where}: the row of outcomes", drawn["openings"], wanted)


def compare_lanes(where, room, panel, drawn, now, final, count, columns, total=None):
    """The lanes, by the moments that are drawn at all; the total says to where the run goes on."""
    moments, simulators = room["moments"], len(panel["tables"][0])
    first = max(0, min(count - -(-columns // 2), (len(moments) if total is None else total) - columns))
    last = min(first + columns, len(moments))
    place = lambda at: LEFT + (at - first) * SQUARE
    top = TOP + simulators * LANE + 6
    squares = [(letter(moment), place(at) + 1, TOP + moment["i"] * LANE, at >= count) for at, moment in enumerate(moments) if first <= at < last and not moment["crash"]]
    boxes = drawn["boxes"]
    holds(f"{where}: the squares", sorted((box["text"], box["x"], box["y"], box["pale"]) for box in boxes if box["y"] < top), sorted(squares))
    begins = [(at, moment) for at, moment in enumerate(moments) if first <= at < last and not moment["crash"] and (at == first or moments[at - 1]["turn"] != moment["turn"])]
    holds(f"{where}: the names of turns", sorted(drawn["turns"]), sorted([f"p{moment['p']} r{moment['r']}", place(at) + 2, TOP + moment["i"] * LANE + 37] for at, moment in begins))
    known = set(now["events"])
    holds(f"{where}: the events in the lanes", sorted((box["text"], box["y"], box["pale"], *box["from"]) for box in boxes if box["y"] >= top),
        sorted((text, top + p * EVENTS, (at, p, text) not in known, place(at) + SQUARE / 2, TOP + moments[at]["i"] * LANE + 24) for at, p, text in final["events"] if first <= at < last))
    marked = [(p, row[1].split("; ")[-1].removesuffix(UNREPORTED)) for p, row in enumerate(panel["tables"][3]) if row[1].endswith(UNREPORTED)]
    holds(f"{where}: the events with a dashed border", sorted(((box["y"] - top) // EVENTS, box["text"]) for box in boxes if box["y"] >= top and box["dashed"]),
        sorted((p, text) for at, p, text in now["events"] if (p, text) in marked and at == max(a for a, q, other in now["events"] if (q, other) == (p, text)) and first <= at < last))
    holds(f"{where}: the crosses", sorted(drawn["crosses"]), sorted([place(at) + SQUARE / 2, TOP + moment["i"] * LANE + 19] for at, moment in enumerate(moments) if moment["crash"] and first <= at < last))
    parts = [(i, max(begin, first), min(end, last)) for i, begin, end in inside_parts(moments)]
    crashed = lambda i: " " + CROSS if i in now["crashed"] else ""
    holds(f"{where}: the names of simulators", drawn["names"], [f"simulator {i}{crashed(i)}" for i in range(simulators)])
    holds(f"{where}: whether the line of the moment crosses an event", drawn["isCrossed"], False)
    holds(f"{where}: the hatching", sorted(drawn["hatched"]), sorted([place(begin), TOP + i * LANE - 4, (end - begin) * SQUARE] for i, begin, end in parts if begin < end))
    holds(f"{where}: the current moment", drawn["now"], place(count))
    compare_openings(where, room, drawn, count, first, columns, simulators, total is not None)


def inside_parts(moments):
    """Where a simulator is in the unsafe section: from which moment to which."""
    parts = []
    for at, moment in enumerate(moments):
        own = "" if moment["crash"] else letter(moment)
        if own == "1":
            parts.append([moment["i"], at, len(moments)])
        if own in ("2", "0"):
            next(part for part in reversed(parts) if part[0] == moment["i"])[2] = at + 1
    return parts
