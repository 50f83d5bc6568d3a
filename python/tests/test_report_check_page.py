"""The page of `olr-tools report --check` in Chromium, and the file that it saves, which `olr-tools calibrate --checked` takes."""

import os
import pytest
import random
import shlex
from collections.abc import Iterator
from pathlib import Path
from typing import Any

from browser import Browser
from checked_feed import KEYS, check, make_place
from conftest import Program
from feeds import data_of
from olr.confidence.confidence import Confidence
from olr.confidence.messages import read_checked
from olr.tools import run
from servers import wait_until

COUNT = "document.querySelector('#count').textContent"
WHICH = "document.querySelector('#which').textContent"
ANSWERS = (
    "[...document.querySelectorAll('.sorted tbody tr')].map(line => line.lastChild.textContent)"
)


@pytest.fixture(scope="module", autouse=True)
def environment(program: Program) -> Any:
    """The command finds the program by its environment."""
    with pytest.MonkeyPatch.context() as patch:
        patch.setenv("OLR_PROGRAM", os.fspath(program.path))
        yield


@pytest.fixture(scope="module")
def place(tmp_path_factory: pytest.TempPathFactory) -> Path:
    """The map and the feed."""
    return make_place(tmp_path_factory.mktemp("place"))


@pytest.fixture(scope="module")
def page(place: Path) -> Path:
    """The page of all messages that can be checked: keys of all kinds are among them."""
    assert check(place, place / "page.html", "--check", 200, "--keep", "what") == 0
    return place / "page.html"


@pytest.fixture(scope="module")
def started(chromium: Browser) -> Iterator[Browser]:
    """The browser with an empty page for all tests of this file."""
    with chromium.afresh():
        yield chromium


def opened(browser: Browser, page: Path, width: int = 1280) -> Browser:
    """The browser with a page, as somebody opens it again."""
    browser.open(page, width)
    assert browser.value("document.body.dataset.ready") == "yes"
    assert (browser.errors, browser.loaded) == ([], [])
    return browser


@pytest.fixture
def browser(started: Browser, page: Path) -> Iterator[Browser]:
    """The browser with the page, of which nothing was checked. It has no error and loads nothing, before and after the test."""
    opened(started, page).value("localStorage.clear()")
    yield opened(started, page)
    assert (started.errors, started.loaded) == ([], [])


def answers(browser: Browser) -> dict[int, str]:
    """What was said of the rows of the table, by their numbers."""
    return {at: text for at, text in enumerate(browser.value(ANSWERS), 1) if text}


def saved(browser: Browser, folder: Path) -> Path:
    """The file that the button has the browser save."""
    browser.call("Page.setDownloadBehavior", behavior="allow", downloadPath=str(folder))
    browser.click("#save")
    wait_until((folder / "checked.csv").exists)
    return folder / "checked.csv"


def test_what_the_page_says(browser: Browser, page: Path) -> None:
    """What right means, what takes the file, and what it is worth; and of a message its key and what is kept of it, as texts."""
    texts = browser.value("document.querySelector('header').innerText")
    assert (
        "is right if it and the path that the sender meant cover at least 90 percent of each other"
        in texts
    )
    assert "takes 20 checked messages or more: forty decide more" in texts
    assert data_of(page)["command"] in texts
    row = data_of(page)["rows"][0]
    assert browser.value(WHICH) == f"1 of 27: {row['key']}"
    assert browser.value("document.querySelector('#said').textContent") == f"what: {row['kept'][0]}"
    assert browser.value("document.querySelectorAll('#evil').length") == 0
    assert browser.value(COUNT) == "0 of 27 checked: 0 right, 0 wrong. 20 are needed."
    assert browser.value("document.querySelectorAll('#map .outer').length") == 1


def test_clicks_and_keys(browser: Browser) -> None:
    """An answer goes on to the next message without one; arrows go on without an answer; another answer takes the place of the first one."""
    browser.click("#right")
    browser.click("#wrong")
    assert answers(browser) == {1: "right", 2: "wrong"} and browser.value(WHICH).startswith("3 of")
    for key in ("ArrowRight", "w", "ArrowLeft", "ArrowLeft", "r"):
        browser.press(key)
    assert answers(browser) == {1: "right", 2: "wrong", 3: "right", 4: "wrong"}
    assert browser.value(WHICH).startswith("5 of")
    browser.press("ArrowLeft")
    pressed = "document.querySelector('[aria-pressed=true]').id"
    assert browser.value(pressed) == "wrong"
    browser.press("r")
    assert answers(browser)[4] == "right" and browser.value(WHICH).startswith("5 of")
    browser.click("tr[data-index='26']")
    assert browser.value(WHICH).startswith("27 of")
    browser.press("ArrowRight")
    browser.press("ArrowLeft")
    browser.press("r")
    assert browser.value(WHICH).startswith("5 of")
    assert browser.value(COUNT) == "5 of 27 checked: 4 right, 1 wrong. 20 are needed."


def test_undo(browser: Browser) -> None:
    """The clicks are taken back, the last one first, with the answers that they took the place of."""
    undone = "document.querySelector('#undo').disabled"
    assert browser.value(undone) and browser.value("document.querySelector('#save').disabled")
    for key in ("r", "w", "ArrowLeft", "r"):
        browser.press(key)
    browser.click("#undo")
    assert answers(browser) == {1: "right", 2: "wrong"} and browser.value(WHICH).startswith("2 of")
    browser.press("u")
    assert answers(browser) == {1: "right"} and browser.value(WHICH).startswith("2 of")
    for _ in range(2):
        browser.press("u")
    assert answers(browser) == {} and browser.value(undone)


def test_what_was_clicked_is_kept(
    browser: Browser, place: Path, page: Path, tmp_path: Path
) -> None:
    """A page that is opened again has it, and one with other messages doesn't. One that was made again is the same."""
    for key in ("r", "w", "r"):
        browser.press(key)
    there = answers(opened(browser, page))
    assert there == {1: "right", 2: "wrong", 3: "right"} and browser.value(WHICH).startswith("4 of")
    browser.press("u")
    assert len(answers(opened(browser, page))) == 2
    other, same = tmp_path / "other.html", tmp_path / "same.html"
    assert check(place, other, "--check", 20, "--keep", "what") == 0
    assert check(place, same, "--check", 200, "--keep", "what") == 0
    assert answers(opened(browser, other)) == {}
    assert len(answers(opened(browser, same))) == 2


NO_ROOM = (
    "Object.defineProperty(window, 'localStorage', { get() { throw new Error('forbidden'); } });"
)


def test_where_nothing_can_be_kept(started: Browser, page: Path, tmp_path: Path) -> None:
    """The page says so, and works. In the file a message called `key` isn't taken for the names of columns."""
    at = [row["key"] for row in data_of(page)["rows"]].index("key")
    script = started.call("Page.addScriptToEvaluateOnNewDocument", source=NO_ROOM)
    try:
        opened(started, page).click(f"tr[data-index='{at}']")
        started.press("r")
        assert "This browser keeps nothing: save the file before" in started.value(COUNT)
        assert read_checked(saved(started, tmp_path)) == {"key": True}
    finally:
        started.call("Page.removeScriptToEvaluateOnNewDocument", **script)


def test_letters_that_are_typed_elsewhere(browser: Browser) -> None:
    """In the field that searches they are text, and they can be turned off; arrows move the map that has the focus."""
    browser.value("document.querySelector('[type=search]').focus()")
    for key in ("r", "ArrowRight"):
        browser.press(key)
    browser.value("document.querySelector('[type=search]').blur()")
    browser.value("document.querySelector('#toggle-keys').click()")
    for key in ("r", "w", "u"):
        browser.press(key)
    assert answers(browser) == {}
    browser.press("ArrowRight")
    assert browser.value(WHICH).startswith("2 of")
    browser.value("document.querySelector('#map').focus()")
    browser.press("ArrowRight")
    assert browser.value(WHICH).startswith("2 of")
    browser.value("document.querySelector('#toggle-keys').click()")
    browser.press("r")
    assert answers(browser) == {2: "right"}


def test_the_file_is_taken(
    browser: Browser,
    place: Path,
    page: Path,
    tmp_path: Path,
    monkeypatch: pytest.MonkeyPatch,
    capsys: pytest.CaptureFixture[str],
) -> None:
    """All answers, of keys with commas, tabs, quotes and markup too, by the command that the page says, among its messages."""
    rows = data_of(page)["rows"]
    draws = random.Random(7)
    wanted = {row["key"]: draws.random() < 0.7 for row in rows}
    for row in rows:
        browser.press("r" if wanted[row["key"]] else "w")
    right = sum(wanted.values())
    assert browser.value(COUNT) == (
        f"27 of 27 checked: {right} right, {27 - right} wrong. All are checked: save the file."
    )
    file = saved(browser, tmp_path)
    assert read_checked(file) == wanted and set(KEYS) <= set(wanted)
    for name in ("tempe", "feed.csv"):
        (tmp_path / name).symlink_to(place / name)
    monkeypatch.chdir(tmp_path)
    capsys.readouterr()
    assert run([*shlex.split(data_of(page)["command"])[1:], "--references", "100"]) == 0
    about = Confidence.of_file(tmp_path / "confidence.json").about["checked"]
    assert (about["answers"], about["right"]) == (27, right)
    assert f"checked: {right} of 27 right" in capsys.readouterr().out


def test_a_narrow_window(started: Browser, page: Path) -> None:
    """Nothing is wider, and the buttons stay in sight."""
    opened(started, page, 400).value("window.scrollTo(0, 1500)")
    assert started.value("document.documentElement.scrollWidth") <= 400
    top = "document.querySelector('#right').getBoundingClientRect().top"
    assert 0 <= started.value(top) < 100
