#!/usr/bin/env python3
"""order.py TRANSCRIPT TRACE: compares events of rooms in the order in which they took effect. A transcript has those of reports, and of a
process at most one snapshot more, at its end: its agreement is fixed, and no report can read it yet."""

import sys


def rooms_of(path):
    rooms = {}
    for line in open(path):
        name, _, event = line.rstrip("\n").partition(" ")
        rooms.setdefault(name, []).append(event)
    return rooms


def without(events, shown):
    """The events without the last snapshot of each process that has one more than is shown."""
    left = list(events)
    for process in {event.split(" ")[0] for event in events}:
        theirs, ours = ([event for event in some if event.split(" ")[0] == process] for some in (events, shown))
        if len(theirs) == len(ours) + 1 and theirs[-1].split(" ")[1] == "snap":
            del left[len(left) - 1 - left[::-1].index(theirs[-1])]
    return left


transcript, trace = map(rooms_of, sys.argv[1:])
more = 0
for room in transcript.keys() | trace.keys():
    events, shown = transcript.get(room, []), trace.get(room, [])
    if without(events, shown) != shown:
        print(f"{room}: {events}, but by trace and report {shown}")
    more += len(events) - len(shown)
print(f"in the order of trace: {sum(map(len, trace.values()))} events, and {more} snapshots that no report can read yet")
