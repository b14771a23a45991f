"""Whether a picture has each room's protocol as its script has it: the first 24 lines, each at most 86 bytes, of which the last two are `..` if it is cut, and whole in its hint, and `..` if there are more."""

import html
import re
import sys

script, picture = (open(name, encoding="utf-8").read() for name in sys.argv[1:])
protocols = [text.splitlines() for text in re.findall(r"^protocol\n(.*?)\nend$", script, re.M | re.S)]
shown = [(html.unescape(line), html.unescape(hint or "")) for line, hint in re.findall(r'<text x="16" [^>]*monospace[^>]*>([^<]*)</text>(?:\n<rect [^>]*><title>([^<]*)</title>)?', picture)]
for lines in protocols:
    for line in lines[:24]:
        text, hint = shown.pop(0)
        if hint != line or not (text == line or len(text) == 86 < len(line) and text == line[:84] + ".."):
            sys.exit(f"{line!r} is shown as {text!r}, with the hint {hint!r}")
    if len(lines) > 24 and shown.pop(0)[0] != "..":
        sys.exit("more lines aren't said")
if shown:
    sys.exit(f"also shown: {shown[0]}")
print(f"{len(protocols)} rooms, {sum(map(len, protocols))} lines")
