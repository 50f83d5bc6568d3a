"""The page of a server in Chromium, for tests and for its picture. conftest.py hands its fixtures on."""

import json
import pytest
from collections.abc import Iterator
from pathlib import Path
from typing import Any

from browser import Browser
from conftest import TOP, Program
from olr.model.profiles import FEED, tolerances_of
from servers import Server, serving, wait_until

ROADWORKS = "CwVGnSN2zhvHCgDX/tIzAw=="
"""It fits two places of the map of the examples without its bans."""
UNMATCHED = "CwVGnSN2zhtnBgEB/2IjAQ=="
"""It fits none."""
MESSAGES = (TOP / "examples/messages.tsv").read_text()
SHOWN = "[...document.querySelectorAll('#rows tbody tr[data-index]')]"
"""The rows of its table that are in the document."""
ALL_CELLS = (
    """(() => {
  const frame = document.querySelector('#rows .frame');
  const before = frame.scrollTop;
  const found = new Map();
  const scroll = (top) => {
    frame.scrollTop = top;
    frame.dispatchEvent(new Event('scroll'));
  };
  for (let top = 0; ; top += 4 * frame.clientHeight) {
    scroll(top);
    for (const line of %s) found.set(Number(line.ariaRowIndex), [...line.cells].map((cell) => cell.textContent));
    if (frame.scrollTop < top || !frame.clientHeight || top + frame.clientHeight >= frame.scrollHeight) break;
  }
  scroll(before);
  return [...found].sort(([one], [other]) => one - other).map(([, cells]) => cells);
})()"""
    % SHOWN
)
"""The texts of all rows, which are scrolled through. The table is told of it at once: the browser tells it with its next frame, and draws none
that it has no need of."""
OF_FEED = [word for name, value in tolerances_of(FEED).items() for word in (f"--{name}", value)]
"""Words of the program for what the page asks, if nobody changes an option."""
AS_PROGRAM = "?profile=program"
"""The page with the program's own tolerances."""
(
    RECORD,
    KEY,
    VERDICT,
    PROBABILITY,
    NONE_OF_THESE,
    TURNS_BACK,
    TOTAL,
    MARGIN,
    REASONS,
    REFERENCE,
) = range(10)
"""Columns of its table."""


class Page:
    """The page of a server in a browser."""

    def __init__(self, browser: Browser, server: Server) -> None:
        self.browser, self.server = browser, server

    def address(self) -> str:
        """Where it is, without a query."""
        return self.server.url

    def answer(self, link: str) -> Any:
        """The JSON that one of its links leads to."""
        return json.loads(self.server.get(f"/{link.removeprefix(self.address())}").body)

    def times_asked(self, path: str) -> Any:
        """How often it asked an address for something since it was read."""
        entries = "performance.getEntriesByType('resource')"
        return self.value(f"{entries}.filter(entry => entry.name.includes('/{path}?')).length")

    def open(self, query: str = "", width: int = 1280, height: int = 800) -> None:
        """Opens it, and waits until it shows what its address says."""
        self.browser.visit(f"{self.address()}{query}", width, height)
        self.wait("document.body.dataset.ready === 'yes'")
        self.settle()

    def value(self, expression: str) -> Any:
        """The value of an expression of its script."""
        return self.browser.value(expression)

    def wait(self, expression: str) -> None:
        """Waits until something is so."""
        wait_until(lambda: bool(self.value(expression)))

    def settle(self) -> str:
        """Waits until the picture is there, or what stands for it. Answers which."""
        self.wait("document.body.dataset.state !== 'asking'")
        return str(self.value("document.body.dataset.state"))

    def text(self, selector: str) -> str:
        """The text that is seen of an element."""
        return str(self.value(f"document.querySelector({json.dumps(selector)}).innerText"))

    def count(self, selector: str) -> Any:
        """How many elements are seen."""
        found = f"[...document.querySelectorAll({json.dumps(selector)})]"
        return self.value(f"{found}.filter(element => element.checkVisibility()).length")

    def query(self) -> str:
        """What the address says."""
        return str(self.value("location.search"))

    def fill(self, selector: str, text: str) -> None:
        """Writes a text into a field, as one does, in place of what it has."""
        self.value(f"document.querySelector({json.dumps(selector)}).select()")
        self.browser.call("Input.insertText", text=text)

    def ask(self, text: str) -> str:
        """Writes a reference, and presses Enter."""
        self.value("document.querySelector('#ref').focus()")
        self.fill("#ref", text)
        self.browser.press("Enter", "\r")
        return self.settle()

    def read(self, text: str) -> None:
        """Writes a list into its field, and has it read and answered."""
        self.value("delete document.querySelector('#list').dataset.state")
        self.value("document.querySelector('#list-form').hidden = false")
        self.value(f"document.querySelector('#list-text').value = {json.dumps(text)}")
        self.browser.click("#list-form button")
        self.wait("document.querySelector('#list').dataset.state === 'done'")
        self.settle()

    def rows(self) -> list[list[str]]:
        """The texts of the rows that are shown, in sight or not."""
        found: list[list[str]] = self.value(ALL_CELLS)
        return found

    def column(self, number: int) -> list[str]:
        """The texts of a column, of the rows that are shown."""
        return [row[number] for row in self.rows()]

    def chosen(self, number: int) -> Any:
        """The text of a cell of the chosen row."""
        return self.value(
            f"document.querySelector('#rows [aria-current]').cells[{number}].textContent"
        )

    def is_quiet(self, *expected: str) -> bool:
        """Whether its console says nothing but what is expected, and nothing was asked of others."""
        others = [text for text in self.browser.errors if not any(one in text for one in expected)]
        print("said:", others, "loaded:", self.browser.loaded)
        return (others, self.browser.loaded) == ([], [])


@pytest.fixture(scope="module")
def folder(tmp_path_factory: pytest.TempPathFactory) -> Path:
    """The map of the examples without its bans."""
    made = tmp_path_factory.mktemp("examples")
    for name in ("nodes.csv", "lines.csv"):
        (made / name).write_bytes((TOP / "examples" / name).read_bytes())
    return made


@pytest.fixture(scope="module")
def server(
    program: Program, folder: Path, tmp_path_factory: pytest.TempPathFactory
) -> Iterator[Server]:
    """A server on it."""
    log = tmp_path_factory.mktemp("log") / "log"
    with serving(program.path, folder, log, "--workers", 4) as found:
        yield found


@pytest.fixture
def served(browser: Browser, server: Server) -> Page:
    """Its page, which isn't opened yet."""
    return Page(browser, server)


@pytest.fixture
def kind(request: pytest.FixtureRequest) -> str:
    """The fixture that a test has its page from."""
    return str(getattr(request, "param", "served"))


@pytest.fixture
def page(kind: str, request: pytest.FixtureRequest) -> Page:
    """Its page, without a reference, unless a test is `opened` otherwise, and without the list of the test before. A test that is
    `also_of_a_file` has it once more as a file."""
    found: Page = request.getfixturevalue(kind)
    found.open(getattr(request, "param", ""))
    found.value("document.querySelector('#close').click()")
    return found


def opened(query: str) -> pytest.MarkDecorator:
    """What a test is marked with whose page is opened by an address with a query."""
    return pytest.mark.parametrize("page", [query], indirect=True)


also_of_a_file = pytest.mark.parametrize("kind", ["served", "alone"], indirect=True)
"""What a test is marked with that holds for the page of a server and for the one that answers by itself (`page_of_file.py`)."""
