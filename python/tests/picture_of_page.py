"""Draws docs/serve.png again: the page of `olr-tools serve` with the example's messages, in headless Chromium.

Run it by `PYTHONPATH=python /usr/bin/python3 python/tests/picture_of_page.py`. The program is the one of `./olr-tools`.
"""

import tempfile
from pathlib import Path

from browser import Browser
from conftest import TOP
from forked import template
from olr.asking.program import find_program
from page_of_server import Page
from servers import serving

PICTURE = TOP / "docs/serve.png"
SIZE = (1180, 720)
"""The width and the height of the picture in pixels."""


def draw(picture: Path) -> None:
    """Writes the picture as a PNG."""
    with tempfile.TemporaryDirectory(prefix="picture.") as folder, Browser() as browser:
        with serving(find_program(), TOP / "examples", Path(folder, "log")) as server:
            page = Page(browser, server)
            page.open("", *SIZE)
            page.read((TOP / "examples/messages.tsv").read_text(encoding="utf-8"))
            page.browser.press("ArrowDown")
            page.browser.press("ArrowDown")
            page.settle()
            page.wait("document.querySelector('#row').textContent.includes('m3')")
            browser.screenshot(picture)


if __name__ == "__main__":
    template.start()
    draw(PICTURE)
    template.end()
