#!/usr/bin/env python3
"""layout.py PICTURE TRANSCRIPT: checks where the shapes of a picture are, and whether its events have the transcript's order.

Nothing is outside the picture, no two squares, events or proposals overlap, and the events of each room, from left to right and from
the first row to the last, are those of the transcript in its order, but for the last snapshot of a process whose agreement the picture
says is not resolved. For each snapshot one proposal is framed, and shows the same processes; in a reduction one proposed input for each
process that does something, and it is the transcript's. Prints how many squares, events and proposals there are.
"""

import re
import sys
import xml.etree.ElementTree as tree

SVG = "{http://www.w3.org/2000/svg}"
LEFT, TOP, PITCH, LANE, PROCESS = 120, 32, 16, 58, 36  # simulator_lanes/src/layout.rt
HUES = {"#2f5f9e", "#b85c1a", "#14532d", "#b8407f", "#5c3310", "#1b7f86", "#4a1f7a", "#6b6b14"}


def extent(element):
    """The left, upper, right and lower end of a shape; a letter is taken as 0.6 of its height."""
    def number(name):
        return float(element.get(name))
    if element.tag == SVG + "rect":
        return number("x"), number("y"), number("x") + number("width"), number("y") + number("height")
    if element.tag == SVG + "line":
        return min(number("x1"), number("x2")), min(number("y1"), number("y2")), max(number("x1"), number("x2")), max(number("y1"), number("y2"))
    width = 0.6 * number("font-size") * len(element.text or "")
    start = number("x") - (width / 2 if element.get("text-anchor") else 0)
    return start, number("y") - number("font-size"), start + width, number("y") + 3


def overlap(one, other):
    return one[0] < other[2] and other[0] < one[2] and one[1] < other[3] and other[1] < one[3]


def overlapping(frames):
    """How many pairs overlap, looked for among neighbours from above to below."""
    frames = sorted(frames, key=lambda frame: frame[1])
    pairs = 0
    for index, one in enumerate(frames):
        after = index + 1
        while after < len(frames) and frames[after][1] < one[3]:
            pairs += overlap(one, frames[after])
            after += 1
    return pairs


def events_in(numbers, shapes):
    """The events of a room with these numbers of processes and simulators, in the order of their steps: a process and words each."""
    height = LANE * numbers[1] + PROCESS * numbers[0] + 50
    ties = [shape for shape in shapes if shape.tag == SVG + "line" and shape.get("stroke-width") == "1" and shape.get("stroke") in HUES][::2]
    hints = [shape[0].text for shape in shapes if shape.tag == SVG + "rect" and len(shape) and shape.get("height") == "22"]
    found = []
    for tie, hint in zip(ties, hints, strict=True):
        row = (int(tie.get("y1")) - TOP) // height
        process, words = re.fullmatch(r"process (\d+): (.*)", hint).groups()
        found.append((row, (int(tie.get("x1")) - 8 - LEFT) // PITCH, f"{process} {words}"))
    return [words for _, _, words in sorted(found)]


def proposals_in(name, shapes, events, inputs):
    """How many proposals of a room are framed. Each snapshot of a process is what its framed proposal says: a value where that shows writes. No other one is framed.
    In a reduction each process that does something has a framed input, the transcript's."""
    rows, agreed = {}, {}
    for event in events:
        process, verb, *row = event.split(" ")
        if verb == "snap":
            rows.setdefault(process, []).append(row)
    framed = 0
    for area, label, hint in zip(shapes, shapes[1:], shapes[2:]):
        if area.tag != SVG + "rect" or area.get("height") != "11" or len(area):
            continue
        proposed, process, round_, fate = re.fullmatch(r"simulator \d+ proposed((?: \S+)+) for process (\d+), round (\d+), (.*)", hint[0].text).groups()
        is_framed, is_struck = area.get("stroke") != "none", label.get("text-decoration") is not None
        if (is_framed, is_struck) != (fate == "chosen", fate == "not chosen"):
            print(f"{name}: {hint[0].text}: framed {is_framed}, struck through {is_struck}")
        if round_ == "0":
            agreed.setdefault(process, []).extend(proposed.split() if is_framed else [])
            continue
        seen = rows.get(process, [])[int(round_) - 1:int(round_)]
        if is_framed:
            framed += 1
            if not seen or [count != "." for count in proposed.split()] != [value != "." for value in seen[0]]:
                print(f"{name}: {hint[0].text}, but the snapshot is {seen}")
    if framed != sum(map(len, rows.values())):
        print(f"{name}: {framed} proposals are framed, but there are {sum(map(len, rows.values()))} snapshots")
    for process in {event.split(" ")[0] for event in events} if agreed else ():
        if agreed.get(process) != [inputs[int(process)]]:
            print(f"{name}: process {process} has the input {inputs[int(process)]}, but framed is {agreed.get(process)}")
    if any(len(values) > 1 for values in agreed.values()):
        print(f"{name}: two inputs of one process are framed")
    return framed + sum(map(len, agreed.values()))


def reported(name, shapes, drawn, wanted):
    """The transcript's events without the last snapshot of each process that isn't drawn. Of its agreement it is said that it is not resolved."""
    said = [words for shape in shapes for words in [shape.text or "", *(hint.text or "" for hint in shape)]]
    left = list(wanted)
    for process in {event.split(" ")[0] for event in wanted}:
        theirs, ours = ([event for event in events if event.split(" ")[0] == process] for events in (wanted, drawn))
        if len(theirs) != len(ours) + 1 or theirs[-1].split(" ")[1] != "snap":
            continue
        round_ = sum(event.split(" ")[1] == "snap" for event in theirs)
        if not any(re.match(rf"round {round_} is not resolved", words) for words in said):
            print(f"{name}: the snapshot {round_} of process {process} is not drawn, and nothing says that it is not resolved")
        del left[len(left) - 1 - left[::-1].index(theirs[-1])]
    return left


def inputs_of(transcript):
    """The inputs of each room's processes, by its block."""
    return {name: inputs.split(" ") for name, inputs in re.findall(r"^room (\S+)\ninputs (.*)$", transcript.split("events\n", 1)[0], re.M)}


def events_of(transcript):
    """The events of each room: what follows the line `events`."""
    rooms = {}
    for line in transcript.split("events\n", 1)[1].splitlines() if "events\n" in transcript else []:
        name, _, words = line.partition(" ")
        rooms.setdefault(name, []).append(words)
    return rooms


def main():
    picture, transcript = (open(name).read() for name in sys.argv[1:3])
    svg = tree.fromstring(picture)
    width, height = map(int, svg.get("viewBox").split()[2:])
    wanted, inputs = events_of(transcript), inputs_of(transcript)
    squares, boxes, proposals, outside, drawn, folded, chosen = [], [], [], 0, {}, set(), 0
    for part in svg.iter(SVG + "g"):
        shapes, top = list(part), int(re.search(r"translate\(0 (\d+)\)", part.get("transform"))[1])
        for shape in shapes:
            left, upper, right, lower = extent(shape)
            outside += left < 0 or right > width or upper < 0 or top + lower > height
            if shape.tag == SVG + "rect" and len(shape) == 0:
                frame = (left, top + upper, right, top + lower)
                if (shape.get("width"), shape.get("height")) in (("14", "16"), ("38", "16")):
                    squares.append(frame)
                elif shape.get("height") == "22":
                    boxes.append(frame)
                elif shape.get("height") == "11":
                    proposals.append(frame)
        if shapes and shapes[0].get("font-size") == "16":  # what is above the lanes of a room
            name = shapes[0].text
            numbers = [int(number) for number in re.findall(r"(\d+) (?:process|simulator)", shapes[1].text)]
        elif shapes and shapes[0].text == "Step by step":
            folded.discard(name)
            if (shapes[1].text or "").startswith("each box"):
                folded.add(name)
            else:
                drawn[name] = numbers, shapes
    if outside:
        print(f"{outside} shapes are outside the picture")
    for what, frames in ("squares", squares), ("events", boxes), ("proposals", proposals):
        if pairs := overlapping(frames):
            print(f"{pairs} pairs of {what} overlap")
    for name, (numbers, shapes) in drawn.items():
        if name in folded:
            continue
        events = events_in(numbers, shapes)
        if events != reported(name, shapes, events, wanted.get(name, [])):
            print(f"{name}: drawn {events}, but in the transcript {wanted.get(name)}")
        chosen += proposals_in(name, shapes, events, inputs.get(name))
    print(f"{len(squares)} squares, {len(boxes)} events, {chosen} of {len(proposals)} proposals chosen, {len(drawn)} rooms step by step, {len(folded)} folded")


main()
