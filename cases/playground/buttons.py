"""Each button, field and key of the page once, with what it has to do; and that there is no other button."""

import pathlib
import random
import re
import tempfile

from lessons import cards, choose, compare_answer, compare_lint, compare_picture, compare_search, tab
from programs import answered, holds

PAIR = "open\nbgsim 1\nroom pair\ninputs 7 3\nsimulators 2\nrounds 1\nturns 100\nprotocol\nfirst input;\nelse decide min;\nend\n"
LARGE = "bgsim 1\nroom large\ninputs 1 2 3 4 5 6\nsimulators 2\nrounds 3\nturns 100\nprotocol\nfirst input;\nwhen round == 3 decide min + count;\nelse write mine + count;\nend\n"
VOTE = "reduction 1\nroom vote\ninputs 7 3\nprocesses 2\nrounds 1\nturns 100\ntask agree 1\nprotocol\nfirst input;\nwhen count >= n - 1 decide min;\nelse write mine;\nend\n"
WATCH = "globalThis.pressed = new Set(); addEventListener('click', event => { const one = event.target.closest('button'); if (one) pressed.add(one.id || Object.keys(one.dataset).filter(name => name !== 'simulator')[0] || one.textContent); }, true)"


def text_of(page):
    return page.run("at('text').value")


def clipboard(page):
    return page.run("await navigator.clipboard.readText()")


def editing(page):
    """Typing, with the words of lint at each key, and undo and redo of what was typed."""
    choose(page, "trace/inside")
    page.run("at('text').focus(); at('text').setSelectionRange(at('text').value.length, at('text').value.length)")
    given, before = text_of(page), page.run("past.length")
    for letter in "stp pair 0 1 \nstep peer 0 1":
        page.type(letter)
        compare_lint(page, text_of(page))
    typed = text_of(page)
    holds("what is typed", typed, given + "stp pair 0 1 \nstep peer 0 1")
    holds("a space at the end of a line is visible", page.run("at('marks').textContent.includes('\\u00b7')"), True)
    page.click("#words [data-line]")
    holds("the line to which the words go", page.run("at('text').value.slice(at('text').selectionStart, at('text').selectionEnd)"), "stp pair 0 1 ")
    steps = page.run("past.length") - before
    for key, text in (("z", given), ("y", typed)):
        for _ in range(steps):
            page.key(key, ctrl=True)
        holds(f"the text after Ctrl and {key} in the editor", text_of(page), text)
    page.key("Escape")
    holds("the element that has the focus", page.run("document.activeElement === document.body"), True)
    page.click("#undo")
    page.click("#redo")
    holds("the text after undo and redo", text_of(page), typed)
    for name in ("rooms", "script", "transcript"):
        text = pathlib.Path(f"cases/view/warnings/{name}.txt").read_text()
        page.run(f"change({{ text: {text!r} }})")
        compare_lint(page, text)
    page.key("e")
    holds("whether the editor has the focus", page.run("document.activeElement.id"), "text")
    page.key("Escape")


def failing(page):
    """What is said if a call has no answer, or a part of one."""
    for status, words in ((3, "There is not enough memory for this."), (5, "The text has more than 16777216 bytes.")):
        holds(f"what is said of the status {status}", page.run(f"showLint('open', {{ status: {status}, text: '' }}, ''); at('words').textContent"), words)
        holds(f"what a search says of the status {status}", page.run(f"showCards({{ status: {status}, text: '' }}); at('shown').textContent"), words)
    holds("what a search says of the status 4", page.run("showCards({ status: 4, text: 'pair sample 9 crashes 0 seed 1\\n' }); at('shown').textContent"), "There was not enough memory for more than this.pair sample 9 crashes 0 seed 1")
    page.run("showPaper()")


def moving(page):
    """Moves by buttons and keys, the switch, and a branch with the run before."""
    page.run(f"change({{ text: {PAIR!r}, before: null }}, Infinity)")
    for selector, line in (('[data-move=step][data-simulator="0"]', "step pair 0 1"), ('[data-move=turn][data-simulator="1"]', "step pair 1 11"), ('[data-move=crash][data-simulator="1"]', "crash pair 1")):
        page.click(selector)
        holds(f"the last command after {selector}", text_of(page).splitlines()[-1], line)
    page.key("x")
    holds("what x asks for", page.run("at('note').textContent"), "Which simulator crashes?")
    page.key("Escape")
    page.key("0")
    holds("the last command after x, Escape and 0", text_of(page).splitlines()[-1], "step pair 0 1")
    page.click("[data-move=settle]")
    holds("the last commands after settling", text_of(page).splitlines()[-2:], ["settle pair", "report pair"])
    page.click("#first")
    page.click("#future")
    holds("the squares that are drawn at the beginning", page.run("document.querySelectorAll('.lanes g').length"), 0)
    page.until("location.hash.endsWith('&future=hidden')")
    page.key("h")
    holds("whether squares are drawn again", page.run("document.querySelectorAll('.lanes g').length > 10"), True)
    page.click("#on")
    page.click('[data-move=step][data-simulator="1"]')
    holds("the script of the branch", text_of(page), PAIR + "step pair 0 1\nstep pair 1 1\n")
    holds("the run before", page.run("paper.before").endswith("report pair\n"), True)
    holds("the heading of the run before", page.run("getComputedStyle(document.querySelectorAll('.run h1')[1], '::after').content").strip('"'), " \u2013 the run before")
    page.click("#difference")
    holds("the first difference", page.run("count"), 3)
    linking(page)
    page.click("#one-run")
    holds("the number of runs", page.run("runs.length"), 1)
    for selector in ("#last", "#turn-back", "#turn-on", "#back", "#play", "#play"):
        page.click(selector)


def linking(page):
    """A link to a branch has the run before, unless it is too long with it; one whose run before is damaged, or no script, is not opened in part."""
    page.click("#copy-link")
    page.until("/link is copied/.test(at('note').textContent)")
    other = page.browser.page(clipboard(page))
    holds("the runs of a link to a branch", other.run("[paper.text, paper.before]"), page.run("[paper.text, paper.before]"))
    holds("the headings of a link to a branch", other.run("document.querySelectorAll('.run h1').length"), 2)
    text, before = other.run("paper.text"), other.run("paper.before")
    for damaged in ("abc", other.run("await packed('no script')")):
        other.run(f"location.hash = '#text=' + await packed(paper.text) + '&before={damaged}'")
        other.until("/damaged/.test(at('note').textContent)")
        holds("the run before of a damaged link", other.run("paper.before"), None)
        other.run(f"at('note').textContent = ''; change({{ text: {text!r}, before: {before!r} }})")
    long = "".join(random.Random(1).choices("abcdefghijklmnopqrstuvwxyz", k=50000))
    address = other.run(f"paper.before += {long!r}; await addressNow()")
    holds("the address without a run before that is too long", (len(address) < 1000, "before" in address), (True, False))
    other.close()


def branching(page):
    """A move at an earlier moment: what becomes of commands to other rooms, to a room that is closed and opened again, and of one that settles."""
    other = PAIR.replace("pair", "other")
    for text, to, branch in (
        (PAIR + "step pair 0 3\n" + other + "step other 0 2\nstep pair 1 2\nstep other 1 1\n", 2, PAIR + "step pair 0 2\n" + other + "step other 0 2\nstep other 1 1\nstep pair 1 1\n"),
        (PAIR + "step pair 0 2\nclose pair\n" + PAIR + "step pair 1 1\n", 2, PAIR + "step pair 0 2\nstep pair 1 1\n"),
        (PAIR + "step pair 0 2\nsettle pair\nreport pair\n", 4, PAIR + "step pair 0 2\nstep pair 0 2\nstep pair 1 1\n"),
        (PAIR + "step pair 0 100\nstep pair 0 100\n", 23, PAIR + "step pair 0 100\nstep pair 0 100\nstep pair 1 1\n"),
    ):
        page.run(f"change({{ text: {text!r}, before: null }}, Infinity); open(0, {to})")
        page.click('[data-move=step][data-simulator="1"]')
        holds(f"the script of the branch from {text!r}", text_of(page), branch)
    page.run(f"change({{ text: {PAIR.removeprefix('open')[1:]!r}, before: null }})")
    page.click('[data-move=step][data-simulator="1"]')
    holds("the script after a move in a file of rooms", text_of(page), PAIR + "step pair 1 1\n")


def reducing(page):
    """A reduction in a file of rooms and in a script: what lint says of it, moves, each tab, a branch, and searches from each list of inputs that its simulators can agree on."""
    for text in (VOTE.replace("processes 2", "processes 0"), VOTE):
        page.run(f"tab = 'steps'; change({{ text: {text!r}, before: null }})")
        compare_lint(page, text)
    script = f"open\n{VOTE}"
    for selector, line in (('[data-move=turn][data-simulator="1"]', "step vote 1 6"), ('[data-move=step][data-simulator="0"]', "step vote 0 1"), ('[data-move=crash][data-simulator="0"]', "crash vote 0")):
        page.click(selector)
        script += line + "\n"
        holds(f"the script after {selector}", text_of(page), script)
    page.click("[data-move=settle]")
    script += "settle vote\nreport vote\n"
    compare_answer(page, "replies", ["bgview", "live"], script)
    compare_answer(page, "trace", ["bgview", "transcript"], script)
    compare_picture(page, script)
    few = ["--rooms", "--crashes", "0", "--nodes", "300"]
    for mode, fields, options in (("outcomes", "", []), ("outcomes", "task.checked = true", ["--task"]), ("outcomes", "task.checked = false; rooms.checked = true; crashes.value = '0'; nodes.value = '300'", few), ("sample", "", [])):
        tab(page, mode)
        if fields:
            page.run("; ".join(f"at('fields').{field}" for field in fields.split("; ")))
            page.click("#fields button")
        compare_search(page, mode, script, options)
        said = answered(["bgview", mode, *options], VOTE).stdout
        groups = re.findall(r"^vote (?:from the inputs .*:|outcomes rooms .*|sample .*)$", said, re.M)
        holds(f"the first lines of the cards of {mode} {options}", page.run("[...at('shown').querySelectorAll('.cards')].map(one => one.querySelector('span').textContent)"), groups)
    run = next(card["run"] for card in cards(page) if card["run"])
    page.click("#shown [data-run]")
    holds("the run that is opened", page.run("[tab, paper.text]"), ["steps", run])
    page.run(f"change({{ text: {script!r}, before: null }}, Infinity); open(0, 6)")
    page.click('[data-move=step][data-simulator="1"]')
    holds("the script of a branch of a reduction", text_of(page), f"open\n{VOTE}step vote 1 7\n")


def copying(page):
    """Copies of the text and of a link, which opens the same text in another page; a link to a lesson, and one that is damaged."""
    page.click("#copy-text")
    holds("the copied text", clipboard(page), text_of(page))
    page.click("#copy-link")
    page.until("/link is copied/.test(at('note').textContent)")
    link = clipboard(page)
    other = page.browser.page(link)
    holds("the text of the link", text_of(other), text_of(page))
    other.run("location.hash = '#lesson=play/tenants&at=1,2'")
    other.until("current === 1")
    holds("the moment of the link", other.run("[current, count]"), [1, 2])
    other.run("location.hash = '#text=abc'")
    other.until("/damaged/.test(at('note').textContent)")
    other.run("location.hash = '#exercise=late-crash&tab=picture'")
    other.until("tab === 'picture'")
    holds("the exercise of the link", other.run("paper.exercise.name"), "late-crash")
    other.run("location.hash = '#lesson=nothing/here'")
    other.until("paper.exercise === null")
    holds("the text of a link to no lesson", text_of(other), "")
    other.close()
    page.run(f"change({{ text: {LARGE!r} + Array.from({{ length: 60000 }}, () => String.fromCharCode(97 + Math.random() * 26)).join('') }})")
    page.click("#copy-link")
    page.until("/too long/.test(at('note').textContent)")
    page.click("#undo")


def searching(page):
    """The fields of the searches, a search that is stopped, and the run of a card."""
    choose(page, "outcomes/consensus")
    text = text_of(page)
    for mode, fields, options in (
        ("outcomes", {"crashes": "", "nodes": "1"}, ["--nodes", "1"]),
        ("outcomes", {"crashes": "", "nodes": "50"}, []),
        ("sample", {"schedules": "3000", "crashes": "2", "seed": "7"}, ["--schedules", "3000", "--crashes", "2", "--seed", "7"]),
        ("sample", {"schedules": "50", "crashes": "0", "seed": "1"}, ["--schedules", "50", "--crashes", "0"]),
    ):
        tab(page, mode)
        for name, value in fields.items():
            page.run(f"at('fields').{name}.value = {value!r}")
        page.click("#fields button")
        compare_search(page, mode, text, options)
    page.run("at('fields').group.checked = true")
    page.click("#fields button")
    compare_search(page, "sample", text, ["--schedules", "50", "--crashes", "0", "--group"])
    page.run("at('fields').schedules.value = '0'; at('shown').textContent = 'as before'")
    page.click("#fields button")
    holds("what a number that is not valid brings", page.run("[at('fields').schedules.validity.valid, at('shown').textContent]"), [False, "as before"])
    page.run(f"change({{ text: {LARGE!r} }})")
    tab(page, "outcomes")
    page.run("at('fields').nodes.value = '100000000'")
    page.click("#fields button")
    page.until("/ of 100,000,000 nodes; going on to /.test(at('progress').textContent)", 60)
    page.click("#stop")
    holds("what is said of a search that was stopped", page.run("[at('progress').hidden, at('shown').querySelector('.fault').textContent]"), [True, "The search was stopped."])
    choose(page, "outcomes/consensus")
    tab(page, "outcomes")
    page.run("at('fields').task.checked = true")
    page.click("#fields button")
    compare_search(page, "outcomes", text, ["--task"])
    for lesson, field, value, option in (
        ("outcomes/which-inputs", "values", "0,1", "--inputs"),
        ("outcomes/five-names", "keeps", "equal(mine) == 1 and mine <= 5", "--keeps"),
        ("outcomes/five-names", "keeps", "equal(mine) == count", "--keeps"),
    ):
        choose(page, lesson)
        tab(page, "outcomes")
        page.run(f"at('fields').{field}.value = {value!r}")
        page.click("#fields button")
        compare_search(page, "outcomes", text_of(page), [option, value])
        holds("whether a card is of a broken task", any(card["broken"] for card in cards(page)), value == "equal(mine) == count")
    choose(page, "outcomes/blind")
    tab(page, "outcomes")
    page.run("at('fields').rooms.checked = true; at('fields').crashes.value = '0'; at('fields').nodes.value = '300'")
    page.click("#fields button")
    compare_search(page, "outcomes", text_of(page), ["--rooms", "--crashes", "0", "--nodes", "300"])
    page.run("at('fields').keeps.value = 'count'")
    page.click("#fields button")
    holds("what all schedules and a task of one's own bring", page.run("at('shown').textContent"), "Of all schedules the outcomes are listed: no task is judged, and there are no other inputs.")
    page.run("at('fields').rooms.checked = false; at('fields').values.value = '0'")
    page.click("#fields button")
    holds("what other inputs and a task of one's own bring", page.run("at('shown').textContent"), "There can be other inputs, or a task of your own, but not both.")
    page.run("at('fields').keeps.value = ''; at('fields').values.value = '3,3'")
    page.click("#fields button")
    page.until("/twice/.test(at('shown').textContent)", 10)
    page.run("at('fields').values.value = ''; at('fields').keeps.value = 'count'")
    page.click("#fields button")
    page.until("/^Line 1 of the task is no condition: the token is not allowed here/.test(at('shown').textContent)", 10)
    choose(page, "sample/one-crash")
    run = next(card["run"] for card in cards(page) if card["run"])
    page.click("#shown [data-run]")
    holds("the run that is opened", page.run("[tab, paper.text]"), ["steps", run])
    page.click("#undo")
    holds("the text after undo", text_of(page), pathlib.Path("examples/sample/one-crash/input.txt").read_text())


def verdict(page, task):
    """What is said at once of a task of the reader's own."""
    page.run(f"at('own-task').value = {task!r}; at('own-task').dispatchEvent(new Event('input'))")
    return page.run("[at('verdict').hidden ? '' : at('verdict').querySelector('pre').textContent, at('verdict').className]")


def judging(page):
    """A task of the reader's own, over a transcript and over a script, and one that is no task."""
    choose(page, "check/set-agreement")
    for task, mark in (("equal(mine) == count", "broken"), ("given >= 1", "broken")):
        said = answered(["bgview", "why", "--keeps", task], text_of(page)).stdout
        holds(f"the verdict on a transcript by {task}", verdict(page, task), [said.rstrip(), mark])
    choose(page, "play/half-done")
    trace = answered(["bgview", "transcript"], text_of(page)).stdout
    for task, mark in (("mine == 7", "broken"), ("count <= 2", "")):
        said = answered(["bgview", "why", "--keeps", task], trace).stdout
        shown = re.findall(r"^\S+ decisions (?:are allowed|broken: line \d+\n(?:    .*\n)*)", said, re.M)
        holds(f"the verdict on a script by {task}", verdict(page, task), ["\n".join(line.rstrip() for line in shown), mark])
    holds("the verdict by what is no task", verdict(page, "count"), ["Line 1 of the task is no condition: the token is not allowed here, or the text ends too early.", "broken"])
    holds("the verdict without a task", verdict(page, ""), ["", ""])


def answers(page):
    """The tabs by their keys, pictures to save, and a trace that is opened and judged."""
    page.browser.ask("Browser.setDownloadBehavior", behavior="allow", downloadPath=(folder := tempfile.mkdtemp()))
    choose(page, "play/half-done")
    script = text_of(page)
    page.run("document.querySelector('[data-tab=steps]').focus()")
    for name in ("outcomes", "sample", "picture"):
        page.key("ArrowRight")
        holds("the tab after the right arrow", page.run("tab"), name)
    page.run("at('fields').percent.value = '50'; at('fields').byTurns.checked = true")
    page.click("#fields button")
    drawn = answered(["bgview", "draw", "--scale", "50", "--turns"], script).stdout
    holds("the picture by turns", page.run("picture"), drawn)
    for kind in ("svg", "png"):
        page.click(f"[data-save={kind}]")
        file = pathlib.Path(folder, f"before.{kind}")
        page.browser.wait(file.exists)
    holds("the saved picture", pathlib.Path(folder, "before.svg").read_text(), drawn)
    png = pathlib.Path(folder, "before.png").read_bytes()
    size = [float(number) for number in re.search(r'width="([\d.]+)" height="([\d.]+)"', drawn).groups()]
    holds("the saved picture as PNG", (png[:4], [int.from_bytes(png[at : at + 4], "big") for at in (16, 20)]), (b"\x89PNG", [int(number * 2) for number in size]))
    page.run("picture = '<svg xmlns=\"http://www.w3.org/2000/svg\" width=\"90000\" height=\"90000\"/>'")
    page.click("[data-save=png]")
    page.until("/too large/.test(at('note').textContent)")
    tab(page, "trace")
    page.click("[data-copy]")
    trace = answered(["bgview", "transcript"], script).stdout
    holds("the copied trace", clipboard(page), trace)
    page.click("[data-edit]")
    holds("the trace in the editor", text_of(page), trace)
    holds("its verdict", page.run("at('verdict').textContent"), answered(["bgview", "why"], trace).stdout.rstrip())
    holds("the tabs of a transcript", page.run("[...document.querySelectorAll('#tabs button:not([hidden])')].map(one => one.dataset.tab)"), ["steps", "outcomes", "sample", "replies"])
    page.run("change({ text: paper.text.replace('1 decide 3', '1 decide 7') })")
    said = answered(["bgview", "why"], text_of(page))
    holds("the verdict on a wrong trace", page.run("at('verdict').querySelector('pre').textContent"), said.stdout.rstrip())
    page.click("#to-break")
    choose(page, "play/tenants")
    page.click("#rooms [data-room='1']")
    holds("the room that is shown", page.run("current"), 1)


def in_sizes(page, file):
    """No page is wider than its window, and letters grow with it."""
    sizes = {}
    for width, height in ((390, 844), (1280, 720), (1920, 1080), (3840, 2160)):
        other = page.browser.page(file + "#lesson=trace/two-proposals", width, height, phone=width < 500)
        holds(f"the width of the page at {width}", other.run("document.documentElement.scrollWidth") <= width, True)
        sizes[width] = other.run("parseFloat(getComputedStyle(document.body).fontSize)")
        other.close()
    holds("whether letters grow with the window", sizes[390] <= sizes[1280] < sizes[1920] < sizes[3840], True)


def all_of(page, file):
    page.run(WATCH)
    for part in (editing, failing, moving, branching, reducing, copying, searching, judging, answers):
        part(page)
        page.holds_no_fault()
    choose(page, "exercise/one-value")
    page.run("change({ text: '' })")
    page.click("[data-again]")
    run = "open\nbgsim 2\nroom a\ninputs 7 3\nsimulators 2\nrounds 1\nturns 9\ntask agree 1\nprotocol\nfirst input;\nelse decide min;\nend\nstep a 0 30\nstep a 1 30\n"
    page.run(f"change({{ text: {run!r}, exercise: null }})")
    why = answered(["bgview", "why"], answered(["bgview", "transcript"], run).stdout).stdout
    holds("the broken task", page.run("at('verdict').textContent"), why.split("\n", 1)[1].rstrip())
    buttons = set(re.findall(r"""<button (?:type="button" |role="tab" )?(?:id="|data-)([\w-]+)""", page.run("document.documentElement.outerHTML")))
    holds("the buttons that were not pressed", sorted(buttons - set(page.run("[...pressed]"))), [])
    in_sizes(page, file)
    return f"{len(buttons)} kinds of buttons"
