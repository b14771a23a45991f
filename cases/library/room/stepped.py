"""A room that is stepped by hand, and each exception."""

import bgview

BLOCK = """\
bgsim 1
room pair
inputs 7 3
simulators 2
rounds 1
turns 100
protocol
first input;
else decide min;
end
"""


def shown(call):
    """What a call raises."""
    try:
        call()
        print("nothing is raised")
    except (bgview.BgviewError, ValueError) as error:
        print(f"{type(error).__name__}: {error}")
        return error


room = bgview.Room(BLOCK)
print(repr(room))
print(repr(room.step(0, 5)))
print(repr(room.crash(0)))
print(repr(room.turn(1)))
print(repr(room.turn(1)))
print(room.undo().undo().script)
print(room.turn(1).settle().report())
print(room.block == BLOCK, room.name, bgview.play(room.script).well, bgview.check(bgview.transcript(room.script)))
print(room._repr_svg_().startswith("<svg "), room.page().count("</html>"), room.outcomes(crashes=0, brief=True).splitlines()[0])
broken = bgview.task(BLOCK.replace("bgsim 1", "bgsim 2").replace("protocol", "task agree 1\nprotocol"))
print(repr(room.task(crashes=0)), broken.splitlines()[0], broken.well)
print(room.keeps("equal(mine) == count"), bgview.inputs(BLOCK.replace("bgsim 1", "bgsim 2").replace("protocol", "task agree 1\nprotocol"), [7, 3]))
print(bgview.warnings(BLOCK.replace("turns 100", "turns 1")), repr(bgview.warnings(BLOCK)), repr(bgview.warnings("")))
print(bgview.trace_json(room.script)[0], bgview.why_json(bgview.transcript(room.script)))
print(bgview.grade(room.script + "report pair\n", "held 0", commands=3))

before = room.script
refused = shown(lambda: room.step(2))
print(refused.command, refused.fault, room.script == before)
shown(lambda: room.step(0, 0))
fault = shown(lambda: bgview.play(room.script + "stp pair 0 5\n"))
print(fault.line, fault.place, fault.fault, fault.sentence)
fault = shown(lambda: bgview.check(BLOCK + "events\npair 0 wrote 7\n"))
print(fault.line, fault.place, fault.fault)
fault = shown(lambda: bgview.Room(BLOCK.replace("min", "mn")))
print(fault.line, fault.place, fault.fault)
shown(lambda: bgview.Room(BLOCK + BLOCK.replace("pair", "other")))
shown(lambda: bgview.Room("report pair"))
print(shown(lambda: bgview.grade(room.script, "held 0 and nothing")).claim)
print(shown(lambda: room.inputs([7, 3, 7])).value)
fault = shown(lambda: room.keeps("count >= 1; mine =< 3"))
print(fault.line, fault.fault, fault.sentence)
shown(lambda: bgview.lint(b"x" * (2**24 + 1)))
shown(lambda: bgview.outcomes(BLOCK, crashes=17))
shown(lambda: bgview.task(BLOCK, nodes=0))
shown(lambda: bgview.draw(room.script, percent=9))
shown(lambda: bgview.sample(BLOCK, schedules=0))
shown(lambda: bgview.sample(BLOCK, top=0))
print(bgview.play(bgview.sample(BLOCK, outcome=1)).well, bgview.sample(BLOCK, brief=True, outcome=100).well)
print([bgview.sample_json(rooms, brief=True) for rooms in ("", "bgsim 1\n")])
