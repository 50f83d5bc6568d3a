"""The page of `olr-tools compare` in Chromium: what it shows, sorting, filters, clicks and keys, and that it loads nothing."""

import csv
import json
import os
import pytest
import re
import shlex
from pathlib import Path
from typing import Any

from browser import Browser
from compared_maps import NO_PROBABILITIES
from conftest import ASKED_WITH_PROGRAM, OF_PROGRAM, Program, Tools
from olr.asking.program import SHIPPED
from olr.regions.making import make_store_of_folder
from region_maps import EAST, WEST, Drawing, Point, first_position, text_of

HOSTILE = "</script><img src=x onerror=alert(1)>&amp;'\"@DATA@\u2028"
ROADS = 12
"""From the south to the north, 2.2 km apart."""
Rows = list[list[str]]


@pytest.fixture(autouse=True)
def environment(program: Program, monkeypatch: pytest.MonkeyPatch) -> None:
    """The command finds the program by its environment."""
    monkeypatch.setenv("OLR_PROGRAM", os.fspath(program.path))


@pytest.fixture
def maps(tmp_path: Path) -> Path:
    """A folder with two maps and messages. Of twelve roads each with its reference, three moved by 200 to 600 millionths of a degree, two
    are lost, one is found, and six stay."""
    old, new = Drawing(), Drawing()
    lines = []
    for number in range(ROADS):
        west, south = first_position((10_000_000, 50_000_000 + 20_000 * number))
        shift = {1: 200, 2: 600, 3: 400}.get(number, 0)
        if number != 6:
            old.line((west, south), (west + 10_000, south))
        if number not in (4, 5):
            new.line((west, south + shift), (west + 10_000, south + shift))
        text = text_of([Point(west, south, EAST, 12), Point(west + 10_000, south, WEST)])
        key = {0: "same", 1: HOSTILE, 4: "<b>bold</b>"}.get(number, f"key {number}")
        lines.append([key, text])
    old.write(tmp_path / "old")
    new.write(tmp_path / "new")
    with (tmp_path / "messages.csv").open("w", newline="") as stream:
        csv.writer(stream).writerows([["key", "ref"], *lines, ["bad", "CwVG"]])
    return tmp_path


def made(tools: Tools, folder: Path, *words: object) -> tuple[Path, str]:
    """The page, and what the command prints."""
    page = folder / "page.html"
    given = ["compare", folder / "messages.csv", "--map", folder / "old", "--with", folder / "new"]
    given += ["--out", folder / "out.csv", "--page", page, "--force", *OF_PROGRAM, *words]
    ended = tools.run(*given)
    assert (ended.returncode, ended.stderr) == (0, "")
    return page, ended.stdout


def shown(browser: Browser) -> Rows:
    """The cells of the rows that are seen."""
    cells = "[...line.cells].map(cell => cell.textContent)"
    lines = "[...document.querySelectorAll('#rows tbody tr')].filter(line => !line.hidden)"
    found: Rows = browser.value(f"{lines}.map(line => {cells})")
    return found


def count(browser: Browser, selector: str) -> Any:
    """How many elements there are."""
    return browser.value(f"document.querySelectorAll('{selector}').length")


def opened(browser: Browser, page: Path, width: int = 1280) -> None:
    """Opens the page, whose script has no error."""
    browser.open(page, width)
    assert browser.value("document.body.dataset.ready") == "yes"
    assert (browser.errors, browser.loaded) == ([], [])


@pytest.mark.parametrize("width", [1280, 500])
def test_the_page(tools: Tools, browser: Browser, maps: Path, width: int) -> None:
    page, printed = made(tools, maps)
    assert printed.splitlines() == [
        f"{maps / 'out.csv'}: 26 rows of 13 references",
        f"{page}: 6 of 6 that change",
        "same: 6",
        "moved: 3",
        "lost: 2",
        "found: 1",
        "refused by both maps, BadLength: 1",
        "certainty same: 9",
        "agree: 6 of 9 that both maps place",
        "moved by: median 44.5 m, greatest 66.8 m",
        f"{ASKED_WITH_PROGRAM}, across 10 m",
        NO_PROBABILITIES,
    ]
    opened(browser, page, width)
    text = browser.value("document.body.innerText")
    for said in (
        "13 references",
        "46.2 %",
        "44.5 m in the median",
        "66.8 m at most",
        "across 10 m",
        "The maps agree on 6 of 9 that both maps place: each of their two places covers 90% of the other one",
        NO_PROBABILITIES,
    ):
        assert said in text
    rows = shown(browser)
    assert [row[0] for row in rows] == ["2", "3", "4", "5", "6", "7"]
    assert [row[2] for row in rows] == ["moved"] * 3 + ["lost"] * 2 + ["found"]
    assert [row[5] for row in rows] == ["0.000"] * 3 + [""] * 3
    assert [row[6] for row in rows] == ["22.3", "66.8", "44.5", "", "", ""]
    assert [row[3] for row in rows] == ["", "", "", "point 1", "point 1", "point 1"]
    # Keys are texts.
    assert (rows[0][1], rows[3][1]) == (HOSTILE, "<b>bold</b>")
    assert count(browser, "img[src=x], #rows b") == 0
    assert browser.value("document.documentElement.scrollWidth <= innerWidth")
    assert "place on the old map" in browser.value("document.querySelector('#legend').innerText")


def test_sort_filter_and_keys(tools: Tools, browser: Browser, maps: Path) -> None:
    opened(browser, made(tools, maps)[0])
    heading = "#rows thead th:nth-of-type(7) button"
    browser.click(heading)
    assert [row[6] for row in shown(browser)] == ["22.3", "44.5", "66.8", "", "", ""]
    browser.click(heading)
    assert [row[6] for row in shown(browser)] == ["66.8", "44.5", "22.3", "", "", ""]
    browser.click("#rows tbody tr:nth-of-type(2) th")
    current = "document.querySelector('#rows [aria-current=true]').cells[0].textContent"
    assert browser.value(current) == "4"
    # A halo of two lines around each place, and each place above them.
    assert count(browser, ".halo") == 6
    assert browser.value("document.querySelector('#all').disabled") is False
    browser.press("ArrowDown")
    assert browser.value(current) == "2"
    browser.press("ArrowDown")
    assert (browser.value(current), count(browser, ".halo")) == ("5", 3)
    colours = "[...document.querySelectorAll('.halo')].map(e => e.getAttribute('stroke'))"
    assert browser.value(colours)[-1] == "#e69f00"
    browser.press("ArrowDown")
    browser.press("ArrowDown")
    assert browser.value(colours)[-1] == "#0072b2"
    assert "9 5" in browser.value(
        "[...document.querySelectorAll('.halo')].at(-1).getAttribute('stroke-dasharray').replace(',', ' ')"
    )
    browser.click("#all")
    assert (count(browser, ".halo"), count(browser, "[aria-current=true]")) == (0, 0)
    choose = "(() => { const s = document.querySelectorAll('#rows select')[0]; s.value = '=lost'; s.dispatchEvent(new Event('change')); })()"
    browser.value(choose)
    assert [row[0] for row in shown(browser)] == ["5", "6"]
    search = "(() => { const i = document.querySelector('#rows input'); i.value = 'bold'; i.dispatchEvent(new Event('input')); })()"
    browser.value(search)
    assert [row[0] for row in shown(browser)] == ["5"]
    assert (browser.errors, browser.loaded) == ([], [])


def test_probabilities_of_both_maps(tools: Tools, browser: Browser, maps: Path) -> None:
    """Those of the rows, behind the verdict on each map; and the file that they are by."""
    page, _ = made(tools, maps, "--profile", "feed")
    with (maps / "out.csv").open(encoding="utf-8", newline="") as stream:
        rows = list(csv.DictReader(stream))
    wanted: dict[str, list[str]] = {}
    for row in rows:
        share = f"{float(row['probability']):.3f}" if row["probability"] else ""
        wanted.setdefault(row["record"], []).extend([row["verdict"], share])
    opened(browser, page)
    titles = browser.value("[...document.querySelectorAll('#rows thead th')].map(e => e.innerText)")
    assert titles[-4:] == ["old verdict", "old probability", "new verdict", "new probability"]
    found = {row[0]: row[-4:] for row in shown(browser)}
    assert len(found) == 6 and found == {record: wanted[record] for record in found}
    assert sum(one[1] != "" for one in found.values()) == 5
    assert "by the file that comes with olr-tools" in browser.value("document.body.innerText")
    (maps / "own.json").write_bytes(SHIPPED.read_bytes())
    page, _ = made(tools, maps, "--profile", "feed", "--confidence", maps / "own.json")
    opened(browser, page)
    assert f"by {maps / 'own.json'}" in browser.value("document.body.innerText")


def test_rows_that_are_left_out(tools: Tools, browser: Browser, maps: Path) -> None:
    """Of three rows each change has one."""
    page, printed = made(tools, maps, "--rows", 3)
    assert f"{page}: 3 of 6 that change" in printed
    opened(browser, page)
    assert [row[2] for row in shown(browser)] == ["moved", "lost", "found"]
    assert "3 of 6 references that change are left out" in browser.value(
        "document.querySelector('#left-out').textContent"
    )


def test_places_and_rows_are_limited_apart(tools: Tools, browser: Browser, maps: Path) -> None:
    """`--most` is of the places of a reference, `--rows` of the references of the page."""
    page, printed = made(tools, maps, "--most", 2)
    assert f"{page}: 6 of 6 that change" in printed
    assert ", most 2 places" in printed
    opened(browser, page)
    assert len(shown(browser)) == 6


def data_of(page: Path) -> Any:
    """The data of a page, without what names the maps."""
    text = page.read_text(encoding="utf-8")
    found = re.search(r'<script id="data" type="application/json">(.*?)</script>', text)
    assert found is not None
    data = json.loads(found[1])
    del data["facts"]
    for row in data["rows"]:
        del row["commands"]
    return data


def test_a_page_of_stores(tools: Tools, maps: Path) -> None:
    """It has what that of folders has: rows, both places, and the four roads of the new map that lie near them."""
    wanted = data_of(made(tools, maps)[0])
    for name in ("old", "new"):
        make_store_of_folder(maps / name, maps / f"{name}.gpkg")
    stores = ("--map", maps / "old.gpkg", "--with", maps / "new.gpkg")
    assert data_of(made(tools, maps, *stores)[0]) == wanted
    assert [shape["kind"] for shape in wanted["shapes"]] == ["old", "new"] * 3 + [
        "old",
        "old",
        "new",
    ]
    assert len(wanted["roads"]) == 4
    moved = [spot[0] for spot in wanted["shapes"][1]["path"]]
    before = [spot[0] for spot in wanted["shapes"][0]["path"]]
    assert [one - other for one, other in zip(moved, before)] == pytest.approx([0.0002] * 2)


def test_a_page_without_rows(tools: Tools, browser: Browser, maps: Path) -> None:
    """The old map with itself."""
    page, printed = made(tools, maps, "--with", maps / "old")
    assert f"{page}: 0 of 0 that change" in printed
    opened(browser, page)
    assert shown(browser) == []


def test_the_commands_of_the_chosen_row(tools: Tools, browser: Browser, maps: Path) -> None:
    """One for each map."""
    page, _ = made(tools, maps, "--radius", 90)
    opened(browser, page)
    assert browser.value("document.querySelector('#same').hidden")
    browser.click("#rows tbody td")
    texts = "[...document.querySelectorAll('#commands code')].map(it => it.textContent)"
    for name, words in zip(("old", "new"), map(shlex.split, browser.value(texts)), strict=True):
        assert words[:2] == ["olr", "places"]
        assert words[3:] == ["--map", str(maps / name), "--radius", "90"]
    browser.click("#all")
    assert browser.value(texts) == []


def test_a_page_that_is_refused(tools: Tools, maps: Path) -> None:
    """Then nothing is written."""
    page = maps / "page.html"
    page.write_text("mine")
    words = ["compare", maps / "messages.csv", "--map", maps / "old", "--with", maps / "new"]
    words += ["--out", maps / "out.csv", "--page"]
    for name, said in (("page.html", "--force"), ("page.txt", "no suffix that is known")):
        ended = tools.run(*words, maps / name)
        assert ended.returncode == 1 and said in ended.stderr
    assert page.read_text() == "mine" and not (maps / "out.csv").exists()
