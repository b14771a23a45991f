"""What a browser shows of a page."""

import html
import json
import pathlib
import re
import shutil
import subprocess
import tempfile

from differing import holds

BROWSERS = ("chromium", "chromium-browser", "google-chrome")


def found_browser():
    """The name of a browser that is installed, or None."""
    return next((name for name in BROWSERS if shutil.which(name)), None)


def seen_in(browser, page, watching):
    """What a browser shows of a page, by code at its end that writes it as JSON into the element `seen`."""
    with tempfile.TemporaryDirectory(ignore_cleanup_errors=True) as folder: # the browser may still write into it for a moment
        file = pathlib.Path(folder) / "page.html"
        file.write_text(page.replace("</html>", f"<script>{watching}</script>\n</html>"))
        words = [browser, "--headless", "--no-sandbox", "--disable-gpu", "--disable-ipc-flooding-protection", "--enable-logging=stderr", f"--user-data-dir={folder}/user", "--window-size=1280,720", "--virtual-time-budget=60000", "--dump-dom", f"file://{file}#0,1"]
        ran = subprocess.run(words, capture_output=True, text=True, check=False, timeout=900)
    holds("the messages on the console", [line for line in ran.stderr.splitlines() if "CONSOLE" in line], [])
    return json.loads(html.unescape(re.search(r'<pre id="seen">(.*?)</pre>', ran.stdout, re.S)[1]))
