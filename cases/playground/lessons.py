"""Each lesson and each exercise, as the list of the page opens it: what every part of the page shows of it is compared with what the programs answer."""

import pathlib
import random
import re
import shlex

from programs import Differs, answered, blocks_of, holds, moves_of, opening, player, rooms_of

TOP = pathlib.Path(__file__).resolve().parent.parent.parent
PLACES = "[...at('marks').querySelectorAll('mark')].map(mark => { const place = mark.querySelector('b'); return [mark.className, place ? (place.previousSibling?.textContent.length ?? 0) : null]; })"
MOMENTS = 4  # are compared of each room, and its end
SEARCHED = ("outcomes", "sample")  # the lessons whose rooms are searched


def choose(page, value):
    page.run(f"at('lessons').value = {value!r}; at('lessons').dispatchEvent(new Event('change'))")


def tab(page, name):
    page.run(f"document.querySelector('[data-tab={name}]').click()")
    return page.run("at('shown').textContent")


def kind_of(lint):
    return re.match(r"read as (?:a )?(\w+)", lint)[1]


def fault_of(said):
    line, fault = re.search(r"line (\d+): fault ([\d ]+)", said).groups()
    return f"Line {line} has a fault ({fault}), which has to be mended first."


def places_in(said, text, kind):
    """The lines that are named, each with the kind of its mark and the place in it."""
    lines, places = text.split("\n"), {}
    for number, line, caret in re.findall(r"^    line (\d+): .*(?:\n    (.*)\n( +\^)$)?", said, re.M):
        places.setdefault(int(number), [kind, len(caret) - 5 if caret and line == lines[int(number) - 1] else None])
    return places


def compare_lint(page, text):
    said = answered(["bgview", "lint"], text)
    words = [said.stdout.rstrip(), said.stderr.rstrip()] if text.strip() else ["Write a script, rooms or a transcript, or take a lesson.", ""]
    holds("the words of lint", page.run("[...at('words').children].map(one => [one.className, one.textContent])"), [["", words[0]], *([["warning", words[1]]] if words[1] else [])])
    places = {**places_in(said.stderr, text, "warning"), **places_in(said.stdout if said.returncode == 1 else "", text, "")}
    holds("the marked lines", page.run("[...at('numbers').querySelectorAll('b')].map(one => [one.className, Number(one.textContent)])"), [[places[line][0], line] for line in sorted(places)])
    holds("the marked places", page.run(PLACES), [places[line] for line in sorted(places)])
    holds("whether the text counts as well", page.run("at('words').className"), "faulty" if text.strip() and said.returncode else "well")
    return kind_of(said.stdout)


def compare_answer(page, name, words, text):
    """A tab that has just what a program answers."""
    said = answered(words, text)
    holds(f"the tab {name}", tab(page, name), fault_of(said.stderr) if said.returncode == 2 else said.stdout)


def compare_picture(page, script):
    said = answered(["bgview", "draw"], script)
    shown = tab(page, "picture")
    if said.returncode == 2:
        holds("the picture", shown, fault_of(said.stderr))
        return
    holds("the picture", page.run("picture"), said.stdout)
    holds("the picture that is drawn", page.run("at('shown').querySelectorAll('svg rect').length"), said.stdout.count("<rect"))


def compare_steps(page, script, dice):
    tab(page, "steps")
    rooms = rooms_of(script)
    ends = len(re.findall("^open$", script, re.M)) == len(blocks_of(script))  # nothing is added to a script whose last block goes on to its end
    holds("the rooms", page.run("runs.length === 0 ? [] : runs[0].rooms.map(room => [room.name, room.moments.length])"), [[room.name, len(room.moments)] for room in rooms])
    for index, room in enumerate(rooms):
        total = len(room.moments)
        for count in sorted({total, *(dice.randint(0, total) for _ in range(MOMENTS))}):
            page.run(f"open({index}, {count})")
            said = page.run("[...document.querySelector('.run .sentence').childNodes].filter(node => node.nodeName !== 'SMALL').map(node => node.textContent).join('')")
            holds(f"the sentence of {room.name} at {count}", said, room.sentence(count))
            moves = page.run("[...document.querySelectorAll('.mover')].map(mover => [...mover.querySelectorAll('small')].map(small => small.textContent))")
            holds(f"the moves of {room.name} at {count}", moves, moves_of(room, count) if ends else [])


def compare_transcript(page, text):
    said = answered(["bgview", "why"], text)
    tab(page, "steps")
    holds("the verdict", page.run("at('verdict').hidden ? '' : at('verdict').querySelector('pre').textContent"), said.stdout.rstrip() if said.returncode < 2 else "")
    broken = re.search(r"^(\S+) is not a run: line (\d+)$", said.stdout, re.M)
    if broken:
        page.click("#to-break")
        holds("the line to which the verdict goes", page.run("document.querySelectorAll('.run .sentence')[0].textContent.startsWith('line " + broken[2] + ": ')"), True)


def cards(page):
    page.until("at('progress').hidden", 60)
    return page.run("[...document.querySelectorAll('.card')].map(card => ({ lines: [...card.querySelectorAll('span')].map(one => one.textContent), run: card.querySelector('button')?.dataset.run ?? '', broken: card.classList.contains('broken') }))")


def compare_run(card):
    """Whether the run of an outcome ends as its card says."""
    is_script = card["run"].startswith("open\n")
    said = answered(player(card["run"]) if is_script else ["bgview", "why"], card["run"])
    states = [line for line in card["lines"] if " process " in line]
    if is_script:
        found = [line for line in said.stdout.splitlines() if line in states]
        holds("the end of a run", found, states)
        return
    holds("whether the trace of an outcome is a run", " is a run" in said.stdout, True)
    for name, process, state in (re.match(r"(\S+) process (\d+) (.*)$", line).groups() for line in states):
        decided = re.search(rf"^{name} {process} decide (\d+)$", card["run"], re.M)
        holds(f"the end of process {process}", f"decided {decided[1]}" if decided else "", state if state.startswith("decided") else "")


def compare_search(page, mode, text, options):
    rooms = "".join(block + "\n" for block in blocks_of(text))
    said = answered(["bgview", mode, *options], rooms)
    tab(page, mode)
    found = cards(page)
    lines = [line for card in found for line in (*card["lines"], *card["run"].splitlines())]
    holds(f"the lines of all cards of {mode}", sorted(lines), sorted(line for line in said.stdout.splitlines() if line))
    for card in found:
        if card["run"] and not card["broken"]:
            compare_run(card)
    holds("the cards of broken tasks", sum(card["broken"] for card in found), len(re.findall(r" task broken |, which no line allows, ", said.stdout)))
    return found


def searched(options):
    """The options of a lesson that the page has: it shows all runs."""
    return [word for word in options if word != "--brief"]


def lesson(page, folder, dice):
    mode, name = folder.parts[-2:]
    text = (folder / "input.txt").read_text()
    options = shlex.split((folder / "options").read_text()) if (folder / "options").exists() else []
    choose(page, f"{mode}/{name}")
    holds("the text", page.run("at('text').value"), text)
    holds("whether there is a question", page.run("at('question').querySelector('summary').textContent.endsWith('?')"), True)
    kind = compare_lint(page, text)
    if kind == "transcript":
        compare_transcript(page, text)
        compare_answer(page, "replies", ["bgview", "why"], text)
    else:
        script = opening(text) if kind == "rooms" else text
        compare_steps(page, script, dice)
        compare_answer(page, "replies", player(script), script)
        compare_answer(page, "trace", ["bgview", "transcript"], script)
        compare_picture(page, script)
    if mode in SEARCHED:
        compare_search(page, mode, text, searched(options))
    page.holds_no_fault()


def exercise(page, folder):
    """The model answer is right, and the other one is not."""
    name = folder.name
    choose(page, f"exercise/{name}")
    holds("the text", page.run("at('text').value"), (folder / "room.txt").read_text())
    for answer, is_right in (("wrong", False), ("model", True), ("room", False)):
        page.run(f"change({{ text: {(folder / f'{answer}.txt').read_text()!r} }}, Infinity)")
        page.until("!/searching all runs/.test(at('exercise').textContent)", 60)
        if answer != "room" or not (folder / "goal").exists():
            holds(f"whether the answer {answer} is right", page.run("at('exercise').className"), "reached" if is_right else "")
        if (folder / "goal").exists():
            script = (folder / f"{answer}.txt").read_text()
            graded = script if answer != "room" else f"{script}settle {(room := re.search('^room (.*)$', script, re.M)[1])}\nreport {room}\n"
            said = answered(["bgview", "grade", "--goal", (folder / "goal").read_text().strip(), "--commands", (folder / "commands").read_text().strip()], graded)
            holds("the claims", page.run("[...at('exercise').querySelectorAll('li')].map(one => one.textContent.slice(2))"), said.stdout.splitlines()[:-1])
            holds("the ticks", page.run("[...at('exercise').querySelectorAll('li')].map(one => one.textContent[0])"), ["\u2713" if line.endswith(": yes") else "\u2717" for line in said.stdout.splitlines()[:-1]])
    page.run("change({ text: 'bgsim 1\\n' })")
    holds("whether another room is refused", page.run("Boolean(at('exercise').querySelector('[data-again]'))"), True)
    page.click("[data-again]")
    holds("the text after beginning again", page.run("at('text').value"), (folder / "room.txt").read_text())
    page.holds_no_fault()


def all_of(page):
    dice = random.Random(1)
    folders = sorted(file.parent for file in TOP.glob("examples/*/*/input.txt"))
    listed = page.run("[...at('lessons').options].map(option => option.value)")
    names = [f"{folder.parent.name}/{folder.name}" for folder in folders]
    own = sorted(file.parent for file in TOP.glob("exercises/*/room.txt"))
    holds("the list", sorted(listed), sorted(["", *names, *(f"exercise/{folder.name}" for folder in own)]))
    for folder in folders:
        try:
            lesson(page, folder, dice)
        except Differs as difference:
            raise Differs(f"lesson {folder.parent.name}/{folder.name}: {difference}") from None
    for folder in own:
        try:
            exercise(page, folder)
        except Differs as difference:
            raise Differs(f"exercise {folder.name}: {difference}") from None
    return f"{len(folders)} lessons and {len(own)} exercises"
