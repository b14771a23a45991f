"""What the parts of the check share: an answer of bgview, and a difference."""

import subprocess


class Differs(Exception):
    pass


def holds(what, found, wanted):
    if found != wanted:
        raise Differs(f"{what}: the page has {found!r}, not {wanted!r}")


def answered(words, file):
    return subprocess.run(["bgview", *words, file], capture_output=True, text=True, check=False)
