"""typed.py PAGE: what the page's blocks of Python show has to be what Python prints, if they are typed one after the other."""

import doctest
import pathlib
import re
import sys

blocks = re.findall(r"^```\n(>>> .*?)^```$", pathlib.Path(sys.argv[1]).read_text(), re.M | re.S)
typed = doctest.DocTestParser().get_doctest("\n".join(blocks), {}, sys.argv[1], None, 0)
print(doctest.DocTestRunner(optionflags=doctest.ELLIPSIS).run(typed))
