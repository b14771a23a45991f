"""What the scripts of this folder read of the repository's crates: which uses which, their sources, and a checksum of those."""

import functools
import hashlib
import os
import pathlib
import shutil

TOP = pathlib.Path(__file__).resolve().parent.parent
CRATES = TOP / "crates"
PARTS = ("proofs", "specs", "src")


def lines():
    """For each crate, its line in crates.txt without a comment."""
    texts = [line.partition("#")[0].strip() for line in (TOP / "crates.txt").read_text().splitlines()]
    return {text.partition(":")[0].split()[0]: text for text in texts if ":" in text}


def libraries():
    """For each crate, the crates of this repository that it uses directly, as crates.txt has them."""
    uses = {crate: line.partition(":")[2].split() for crate, line in LINES.items()}
    return {crate: [name for name in names if name in uses] for crate, names in uses.items()}


LINES = lines()
USES = libraries()
STATIC = {crate for crate, line in LINES.items() if " staticlib" in line.partition(":")[0]}


@functools.cache
def closure(crate):
    """The crate and all below it, lowest first."""
    found = dict.fromkeys(name for used in USES[crate] for name in closure(used))
    return [*found, crate]


@functools.cache
def files_of(crate):
    files = (file for part in PARTS for file in (CRATES / crate / part).rglob("*") if file.is_file() and not file.name.startswith("."))
    return sorted(files, key=str)


@functools.cache
def line_of(file):
    """The checksum and the path of a file, as `sha256sum` prints them."""
    return f"{hashlib.sha256(file.read_bytes()).hexdigest()}  {file.relative_to(TOP)}\n"


@functools.cache
def sum_of(crate):
    """A checksum of all that the proof of a crate reads, apart from the kit: of the text that `tools/sources CRATE` prints."""
    names = sorted(closure(crate))
    files = [TOP / "HANDLES", *(file for name in names for file in files_of(name))]
    text = "".join([*map(line_of, files), *(f"# {LINES[name]}\n" for name in names)])
    return hashlib.sha256(text.encode()).hexdigest()


def link(one, other):
    """Gives a file a second name, or copies it to another disk."""
    try:
        os.link(one, other)
    except OSError:
        shutil.copy2(one, other)


def copy_sources(crate, top):
    """Puts the sources of a crate and of those below it into a repository of their own, and lists them in its crates.txt. `rt` keeps no
    result of a crate if a link to a file of it is made meanwhile, so they are copied."""
    for name in closure(crate):
        for part in PARTS:
            if (CRATES / name / part).is_dir():
                shutil.copytree(CRATES / name / part, top / "crates" / name / part)
    (top / "crates.txt").write_text("\n".join(LINES[name] for name in closure(crate)) + "\n")
    shutil.copyfile(TOP / "HANDLES", top / "HANDLES")
