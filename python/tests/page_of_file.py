"""The page that answers by itself in Chromium, opened as a file: for its own tests, and for those of serve's page that hold for it."""

import json
import pytest
import subprocess
from collections.abc import Iterable, Iterator
from pathlib import Path
from typing import Any

from browser import Browser
from conftest import Program, Tools
from olr.model.questions import What
from page_of_server import Page

READY = "document.body.dataset.program === 'ready'"
"""Whether the program is there."""
NOTING = """((before) => {
  window.questions = [];
  Worker.prototype.postMessage = function (told, ...more) {
    if (told.kind === "ask") questions.push(told.address);
    before.call(this, told, ...more);
  };
})(Worker.prototype.postMessage)"""
"""A script that runs before those of a page, and notes what its worker is asked for."""


class FilePage(Page):
    """It, in a browser."""

    def __init__(self, browser: Browser, file: Path) -> None:
        self.browser, self.file = browser, file

    def address(self) -> str:
        return self.file.as_uri()

    def answer(self, link: str) -> Any:
        status, text = self.answers([link.removeprefix(f"{self.file.parent.as_uri()}/")])[0]
        assert status == 200
        return json.loads(text)

    def times_asked(self, path: str) -> Any:
        return self.value(f"questions.filter(address => address.startsWith('{path}?')).length")

    def begin(self) -> None:
        """Opens it, and waits until the program is there."""
        self.open()
        self.wait(READY)

    def answers(self, addresses: list[str]) -> list[tuple[int, str]]:
        """The statuses and texts of addresses, which are all asked for at once."""
        asking = "async (address) => { const answer = await fetch(address); return [answer.status, await answer.text()]; }"
        found = self.value(f"Promise.all({json.dumps(addresses)}.map({asking}))")
        return [(status, text) for status, text in found]


def lines_of_batch(
    program: Program, what: What, folder: Path, records: Iterable[tuple[str, str]], *words: object
) -> list[str]:
    """The lines that the program writes of records, each a key and a reference."""
    command = [program.path, "batch", what, "--map", folder, *words]
    given = "".join(f"{key}\t{ref}\n" for key, ref in records).encode()
    ended = subprocess.run(list(map(str, command)), input=given, capture_output=True, check=True)
    return ended.stdout.decode().splitlines()


def answer_in(line: str) -> str:
    """The answer in such a line, as it is written there."""
    return line[len('{"answer":') : line.rindex(',"fault":null,"key":')]


def write_page(tools: Tools, folder: Path, file: Path) -> Path:
    """The page of the map in a folder, as a file that the command writes."""
    ended = tools.run("page", "--map", folder, "--out", file)
    assert (ended.returncode, ended.stderr) == (0, "")
    return file


@pytest.fixture(scope="module")
def app(tools: Tools, folder: Path, tmp_path_factory: pytest.TempPathFactory) -> Path:
    """The page of the map that a server has in other tests."""
    return write_page(tools, folder, tmp_path_factory.mktemp("app") / "app.html")


@pytest.fixture
def alone(browser: Browser, app: Path) -> Iterator[FilePage]:
    """It, which isn't opened yet."""
    noting = browser.call("Page.addScriptToEvaluateOnNewDocument", source=NOTING)
    yield FilePage(browser, app)
    browser.call("Page.removeScriptToEvaluateOnNewDocument", **noting)
