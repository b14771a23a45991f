"""What a page has to show of the rooms of a transcript, computed anew from what `bgview why` answers to it."""

import re

from differing import Differs, holds


def judged_rooms(transcript, answer):
    """The events of each room that has a verdict, with the reason of each that breaks its run or a task."""
    lines = transcript.split("\n")
    first = lines.index("events")
    sizes, rounds, name = {}, {}, None
    for line in lines[:first]:
        word, _, rest = line.partition(" ")
        if word == "room":
            name = rest
        elif word == "inputs":
            sizes.setdefault(name, len(rest.split(" ")))
        elif word == "rounds":
            rounds.setdefault(name, int(rest))
    rooms, notes = {}, []
    for line in answer.splitlines():
        if line.startswith("    "):
            notes.append(line.strip())
        elif line.startswith("line "):
            notes = []
        else:
            name = line.split(" ")[0]
            if name not in rooms:
                rooms[name] = {"name": name, "size": sizes[name], "rounds": rounds[name], "verdicts": [], "notes": {}, "events": [], "compare": compare_judged}
            rooms[name]["verdicts"].append(line)
            notes = []
            if breaking := re.search(r" line (\d+)$", line):
                rooms[name]["notes"][int(breaking[1])] = notes
    for number, line in enumerate(lines[first + 1:], first + 2):
        if line.split(" ")[0] in rooms:
            rooms[line.split(" ")[0]]["events"].append((number, line.split(" ", 2)[1:]))
    for room in rooms.values():
        broken = re.search(r"is not a run: line (\d+)$", room["verdicts"][0])
        room["broken"] = int(broken[1]) if broken else None
        room["sentences"] = judged_sentences(room)
    return list(rooms.values())


def judged_sentences(room):
    sentences = ["Nothing has happened."]
    for number, (process, event) in room["events"]:
        sentence = [f"line {number}: ", f"process {process}", ": ", event]
        if number in room["notes"]:
            sentence.append(" ".join(room["notes"][number][1:]))
        elif room["broken"] and number > room["broken"]:
            sentence.append("after the event that breaks the run")
        sentences.append("|".join(sentence))
    return sentences


def next_events(room, count):
    """What each process may do after the first events, or could have done at the one that broke the run."""
    events = [event for number, event in room["events"][:count] if not room["broken"] or number < room["broken"]]
    own = [[event for process, event in events if int(process) == p] for p in range(room["size"])]
    writes = [[event.split(" ")[1] for event in of if event.startswith("write ")] for of in own]
    row = " ".join(of[-1] if of else "." for of in writes)
    result = []
    for p, of in enumerate(own):
        if not of:
            result.append("write its first value")
        elif of[-1].startswith("write "):
            result.append(f"snap {row}")
        elif of[-1].startswith("decide "):
            result.append("nothing: it has decided")
        elif len(writes[p]) < room["rounds"]:
            result.append("write or decide, as the protocol says")
        else:
            result.append("decide, if the protocol says so: it has made all its writes")
    return [[f"p{p}", " ".join(writes[p]), result[p]] for p in range(room["size"])]


def compare_judged(room, panels, columns):
    total = len(room["events"])
    for number, panel in enumerate(panels[:total + 1]):
        where = f"{room['name']}, event {number}"
        ended = "".join(f"|{verdict}" for verdict in room["verdicts"]) if number == total else ""
        holds(f"{where}: the sentence", panel["sentence"], room["sentences"][number] + ended)
        holds(f"{where}: the processes", panel["tables"], [next_events(room, number)])
        compare_boxes(where, room, panel["drawn"], number)
        if panel["hidden"]:
            holds(f"{where}: the boxes without the future", panel["hidden"]["boxes"], [box for box in panel["drawn"]["boxes"] if not box["pale"]])


def compare_boxes(where, room, drawn, count):
    """The boxes: each event that is drawn, whether it has passed, and which breaks the run."""
    shown = [(event, number) for number, (process, event) in room["events"] if int(process) < room["size"]]
    boxes = drawn["boxes"]
    at = next((k for k in range(len(shown) - len(boxes) + 1) if [event for event, _ in shown[k: k + len(boxes)]] == [box["text"] for box in boxes]), None)
    if at is None:
        raise Differs(f"{where}: the boxes are {[box['text'] for box in boxes]}")
    breaking = [number == room["broken"] for _, number in shown[at: at + len(boxes)]]
    holds(f"{where}: the event that breaks the run", [(box["width"] == 3, box["stroke"] == "var(--now)") for box in boxes], [(breaks, breaks) for breaks in breaking])
    if len(shown) == len(room["events"]):
        holds(f"{where}: those that have passed", [box["pale"] for box in boxes], [index >= count for index in range(at, at + len(boxes))])
        passed = [box["x"] for box in boxes if not box["pale"]]
        following = [box["x"] for box in boxes if box["pale"]]
        if (passed and drawn["now"] <= passed[-1]) or (following and drawn["now"] >= following[0]):
            raise Differs(f"{where}: the line of the moment is at {drawn['now']}")
