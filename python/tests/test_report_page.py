"""The page of `olr-tools report` in Chromium: what it shows, clicks and keys, pages of references, print, and that it loads nothing."""

import base64
import os
import pytest
import random
import re
from collections.abc import Iterator
from pathlib import Path
from typing import Any

from browser import Browser
from confidences import FEED, write_confidence
from conftest import OF_PROGRAM, Program, Tools
from feeds import MARKUP, Feed, data_of, make_feed
from olr.confidence.confidence import Range
from olr.tools import run

NUMBERS = ["--within", "200", "--look", "20", *OF_PROGRAM]
SHOWN = "[...document.querySelectorAll('.sorted tbody tr')].filter(line => !line.hidden)"
CHOSEN = "document.querySelector('.sorted [aria-current]')"


@pytest.fixture(autouse=True)
def environment(program: Program, monkeypatch: pytest.MonkeyPatch) -> None:
    """The command finds the program by its environment."""
    monkeypatch.setenv("OLR_PROGRAM", os.fspath(program.path))


@pytest.fixture(scope="module")
def feed(tmp_path_factory: pytest.TempPathFactory) -> Feed:
    """A feed with references of all kinds."""
    return make_feed(tmp_path_factory.mktemp("feed"), 120)


@pytest.fixture(scope="module")
def page(feed: Feed, program: Program) -> Path:
    """The page of its report."""
    out = feed.folder.parent / "page.html"
    with pytest.MonkeyPatch.context() as patch:
        patch.setenv("OLR_PROGRAM", os.fspath(program.path))
        words = ["report", feed.messages, "--map", feed.folder, "--out", out, *NUMBERS]
        assert run(list(map(str, [*words, *sure(feed)]))) == 0
    return out


def sure(feed: Feed) -> list[object]:
    """The words that name a confidence."""
    file = feed.folder.parent / "sure.json"
    return ["--confidence", write_confidence(file, Range(0.8, 0.6, 1.2), FEED)]


@pytest.fixture(scope="module")
def data(page: Path) -> Any:
    """What it has."""
    return data_of(page)


@pytest.fixture(scope="module")
def started(chromium: Browser) -> Iterator[Browser]:
    """The browser with an empty page for all tests of this file."""
    with chromium.afresh():
        yield chromium


@pytest.fixture
def browser(started: Browser, page: Path) -> Iterator[Browser]:
    """The browser with the page, which has no error and loads nothing, before and after the test."""
    open_page(started, page)
    yield started
    assert (started.errors, started.loaded) == ([], [])


def open_page(browser: Browser, page: Path, width: int = 1280, height: int = 800) -> None:
    """Opens a page, and sees that its script ran."""
    browser.open(page, width, height)
    assert browser.value("document.body.dataset.ready") == "yes"
    assert (browser.errors, browser.loaded) == ([], [])


def column(browser: Browser, number: int) -> Any:
    """The texts of a column, of the rows that are shown."""
    return browser.value(f"{SHOWN}.map(line => line.cells[{number}].textContent)")


def heading(browser: Browser, number: int) -> Any:
    """How a column is sorted."""
    return browser.value(
        f"document.querySelectorAll('.sorted thead th')[{number}].getAttribute('aria-sort')"
    )


def type_text(browser: Browser, text: str) -> None:
    """Puts a text into the search field, as keys do."""
    browser.value("document.querySelector('.tools input').select()")
    browser.value("document.querySelector('.tools input').focus()")
    browser.call("Input.insertText", text=text)


def choose(browser: Browser, number: int, value: str) -> None:
    """Chooses a value of a list of choices."""
    browser.value(
        f"(() => {{ const list = document.querySelectorAll('.tools select')[{number}]; list.value = '={value}';"
        " list.dispatchEvent(new Event('change')); })()"
    )


def test_it_is_a_page_for_all(browser: Browser, data: Any) -> None:
    """Tables have captions and headings, fields have labels, and a key with markup is a text."""
    assert browser.value("document.querySelector('h1').textContent") == data["title"]
    tables = "[...document.querySelectorAll('table')]"
    assert browser.value(f"{tables}.every(table => table.caption && table.caption.textContent)")
    assert browser.value("[...document.querySelectorAll('th')].every(cell => cell.scope)")
    assert browser.value(f"{tables}.length") == 1 + sum(
        len(section["tables"]) for section in data["sections"]
    )
    labels = (
        "[...document.querySelectorAll('input, select')].every(field => field.labels.length === 1)"
    )
    assert browser.value(labels)
    assert browser.value("document.querySelectorAll('#evil').length") == 0
    assert all(MARKUP in key for key in column(browser, 1))
    bars = "[...document.querySelectorAll('.bars tbody tr')].every(line => /\\d/.test(line.cells[1].textContent))"
    assert browser.value(bars)
    top = browser.value("[...document.querySelectorAll('#summary p')].map(it => it.textContent)")
    assert top == data["summary"] and "likeliest places are right (" in top[0]
    assert "The two maps seem to differ by 0.8 (0.6 to 1.2)" in top[1]
    legend = browser.value("document.querySelector('.legend').innerText")
    for word in ("unique", "ambiguous", "open", "none", "refused", "a point without a candidate"):
        assert word in legend


SORTED = f"""(() => {{ const headings = [...document.querySelectorAll('.sorted thead th')].filter(it => it.querySelector('button'));
return headings.map((heading, number) => [1, 2].map(() => {{
  heading.querySelector('button').click();
  return [headings.map(it => it.getAttribute('aria-sort')), {SHOWN}.map(line => line.cells[number].textContent)];
}})); }})()"""
"""How the columns are sorted, and the texts of each one, after it was sorted once and once more: all in one go, so nothing is drawn
meanwhile."""


def test_sorting_by_each_heading(browser: Browser, data: Any) -> None:
    """Up and then down; what lacks a value stays at the end."""
    names = ["record", "key", "verdict", "total", "points", "margin", "probability"]
    names += ["none_of_these", "turns_back", "length", "reason"]
    browser.click(".sorted thead th:nth-child(2) button")
    assert heading(browser, 1) == "ascending"
    browser.click(".sorted thead th:nth-child(1) button")
    assert (heading(browser, 0), heading(browser, 1)) == ("ascending", "none")
    browser.click(".sorted thead th:nth-child(1) button")
    assert heading(browser, 0) == "descending"
    for number, (name, both) in enumerate(zip(names, browser.value(SORTED), strict=True)):
        values = [row.get(name) for row in data["rows"]]
        there = [value for value in values if value not in (None, "")]
        for expected, (headings, shown) in zip(("ascending", "descending"), both, strict=True):
            assert headings.pop(number) == expected and set(headings) == {"none"}
            assert shown[len(there) :] == [""] * (len(values) - len(there))
            if isinstance(there[0], str):
                assert sorted(shown[: len(there)]) == sorted(there)
                continue
            numbers = [float(text.replace(",", "")) for text in shown[: len(there)]]
            assert numbers == sorted(there, reverse=expected == "descending")
    browser.value("document.querySelector('.sorted thead th button').focus()")
    browser.press("Enter", "\r")
    assert heading(browser, 0) == "ascending" and column(browser, 0)[0] == "1"


def test_filters(browser: Browser, data: Any) -> None:
    rows = data["rows"]
    choose(browser, 0, "ambiguous")
    ambiguous = [row for row in rows if row["verdict"] == "ambiguous"]
    assert set(column(browser, 2)) == {"ambiguous"}
    status = "document.querySelector('[role=status]').textContent"
    assert browser.value(status) == f"{len(ambiguous)} of {len(rows)} rows"
    key = f"{ambiguous[0]['record'] - 1} </script><b"
    type_text(browser, key)
    wanted = [row["key"] for row in ambiguous if "</script><b" in row["key"]]
    found = column(browser, 1)
    assert ambiguous[0]["key"] in found and set(found) <= set(wanted)
    type_text(browser, "")
    choose(browser, 0, "refused")
    choose(browser, 1, "TooManyCandidates")
    assert [text.split(":")[0] for text in column(browser, 10)] == ["TooManyCandidates 1"]
    type_text(browser, "nothing has this")
    assert column(browser, 1) == []
    assert browser.value(status) == f"0 of {len(rows)} rows"


def test_arrow_keys(browser: Browser) -> None:
    choose(browser, 0, "unique")
    records = column(browser, 0)
    browser.click(".sorted tbody tr:not([hidden]) td:nth-child(3)")
    assert browser.value(f"{CHOSEN}.cells[0].textContent") == records[0]
    for key, at in (
        ("ArrowDown", 1),
        ("ArrowDown", 2),
        ("ArrowUp", 1),
        ("ArrowUp", 0),
        ("ArrowUp", 0),
    ):
        browser.press(key)
        assert browser.value(f"{CHOSEN}.cells[0].textContent") == records[at]
        assert browser.value(f"document.activeElement === {CHOSEN}")
    assert browser.value("document.querySelectorAll('[aria-current]').length") == 1
    assert (
        browser.value("document.querySelectorAll('.sorted tbody tr[tabindex=\"0\"]').length") == 1
    )
    halos = "document.querySelectorAll('path.halo').length"
    assert browser.value(halos) > 0
    box = "(() => { const r = document.querySelector('path.halo').getBoundingClientRect(); return [r.x, r.y, r.right, r.bottom]; })()"
    frame = box.replace("path.halo", "#map")
    inner, outer = browser.value(box), browser.value(frame)
    assert (
        outer[0] <= inner[0]
        and outer[1] <= inner[1]
        and inner[2] <= outer[2]
        and inner[3] <= outer[3]
    )


CATCH = """window.made = []; const before = URL.createObjectURL;
URL.createObjectURL = (blob) => { const address = before.call(URL, blob); window.made.push({ address, blob }); return address; };"""


def test_each_row_opens_its_page(browser: Browser, data: Any) -> None:
    """Each row of a reference has a button; a text that is none has no page."""
    buttons = browser.value(
        "[...document.querySelectorAll('.sorted tbody tr')].map(line => line.querySelectorAll('button').length)"
    )
    assert buttons == [0 if scene is None else 1 for scene in data["scenes"]]
    pages = "window.made.filter((it) => it.blob.size > 1000).length"
    browser.value(CATCH + "window.open = () => null;")
    browser.value(
        "document.querySelectorAll('.sorted tbody button').forEach(button => button.click())"
    )
    assert browser.value(pages) == sum(buttons)


def test_the_page_of_a_row_is_the_page_of_view(
    browser: Browser, page: Path, feed: Feed, data: Any, tools: Tools, tmp_path: Path
) -> None:
    """The same data, without what is said of other paths, and the same text but for them, of rows of each verdict."""
    browser.value(CATCH + "window.open = () => null;")
    draws = random.Random(2)
    for verdict in ("unique", "ambiguous", "open", "none", "refused"):
        there = [at for at, row in enumerate(data["rows"]) if row["verdict"] == verdict]
        at = draws.choice([at for at in there if data["scenes"][at]])
        browser.value(f"document.querySelector('tr[data-index=\"{at}\"] button').click()")
        text = browser.value("window.made.pop().blob.text()")
        out = tmp_path / f"{verdict}.html"
        words = [
            "--record",
            data["rows"][at]["record"],
            "--messages",
            feed.messages,
            "--map",
            feed.folder,
        ]
        ended = tools.run("view", *words, *NUMBERS, *sure(feed), "--out", out)
        assert ended.returncode == 0 and ended.stdout.splitlines()[0].endswith(f": {verdict}")
        other = out.read_text(encoding="utf-8")
        rest = r'(<script id="data" type="application/json">).*?(</script>)'
        assert _plain(re.sub(rest, "", text, flags=re.DOTALL)) == _plain(
            re.sub(rest, "", other, flags=re.DOTALL)
        )
        (tmp_path / "opened.html").write_text(text, encoding="utf-8")
        viewed = data_of(out)
        del viewed["notes"], viewed["others"]
        assert _sorted(data_of(tmp_path / "opened.html")) == _sorted(viewed)


def _sorted(scene: Any) -> Any:
    """A scene whose lines are sorted by their ids: which one of a class is drawn first doesn't matter."""
    lines = scene["lines"]
    classes = [line["class"] for line in lines]
    assert classes == sorted(classes) and classes
    return scene | {"lines": sorted(lines, key=lambda line: int(line["id"]))}


def _plain(text: str) -> str:
    """A text with one way to escape a quote."""
    return text.replace("&#39;", "&#x27;")


def test_a_page_that_is_opened_draws_its_reference(started: Browser, page: Path, data: Any) -> None:
    """By a click, in a page of its own, under the same policy. Its script runs, and it loads nothing."""
    open_page(started, page)
    started.value(CATCH)
    at = next(at for at, row in enumerate(data["rows"]) if row["verdict"] == "ambiguous")
    started.click(f"tr[data-index='{at}'] button")
    address = started.value("window.made[0].address")
    assert address.startswith("blob:")
    with started.other_page(address) as opened:
        assert opened.value("document.body.dataset.ready") == "yes"
        assert opened.value("document.querySelector('#verdict').textContent") == "ambiguous"
        assert opened.value("document.querySelectorAll('.outer').length") == 1
        opened.value("document.querySelector('.leaflet-control-zoom-in').click()")
    assert (started.errors, started.loaded) == ([], [])


def test_a_click_on_the_map_chooses_the_row(browser: Browser, data: Any) -> None:
    """Of a single shape that is shown, in its middle, where the map has brought it into sight."""
    crowded = next(
        at for at, row in enumerate(data["rows"]) if row.get("cause") == "TooManyCandidates"
    )
    browser.value(f"document.querySelector('tr[data-index=\"{crowded}\"]').click()")
    other = 0 if crowded else 1
    browser.value("document.querySelector('#references').scrollIntoView()")
    box = browser.value(
        "(() => { const r = document.querySelector('path.halo').getBoundingClientRect(); return [r.x + r.width / 2, r.y + r.height / 2]; })()"
    )
    view = browser.value("document.querySelector('.leaflet-map-pane').style.transform")
    browser.value(
        f"document.querySelector('tr[data-index=\"{other}\"]').setAttribute('aria-current', 'true')"
    )
    browser.value(
        f"document.querySelector('tr[data-index=\"{crowded}\"]').removeAttribute('aria-current')"
    )
    for kind in ("mouseMoved", "mousePressed", "mouseReleased"):
        browser.call(
            "Input.dispatchMouseEvent", type=kind, x=box[0], y=box[1], button="left", clickCount=1
        )
    assert (
        browser.value(
            f"document.querySelector('tr[data-index=\"{crowded}\"]').getAttribute('aria-current')"
        )
        == "true"
    )
    assert browser.value("document.querySelector('.leaflet-map-pane').style.transform") == view
    tip = browser.value("document.querySelector('.leaflet-tooltip').textContent")
    assert (
        tip == f"record {data['rows'][crowded]['record']}, {data['rows'][crowded]['key']}: refused"
    )


def test_the_command_of_the_chosen_row(browser: Browser, data: Any) -> None:
    """A text that is no reference has none."""
    isnt_seen = "document.querySelector('#same').hidden"
    unique = next(at for at, row in enumerate(data["rows"]) if row["verdict"] == "unique")
    other = next(at for at, scene in enumerate(data["scenes"]) if scene is None)
    for at in (unique, other, unique):
        browser.value(f"document.querySelector('tr[data-index=\"{at}\"]').click()")
        assert browser.value(isnt_seen) == (at == other)
        shown = browser.value("document.querySelector('#command').textContent")
        assert shown == ("" if at == other else data["scenes"][at]["command"])
    assert shown.startswith("olr places ")


def test_a_narrow_window(started: Browser, page: Path) -> None:
    open_page(started, page, 500, 800)
    assert started.value("document.documentElement.scrollWidth") <= 500


def test_on_paper(started: Browser, page: Path, tmp_path: Path) -> None:
    """All rows are there, no field, no button, and nothing is wider than the page."""
    open_page(started, page, 700, 1000)
    started.call("Emulation.setEmulatedMedia", media="print")
    try:
        seen = "[...document.querySelectorAll('{}')].filter(it => it.checkVisibility()).length"
        assert (
            started.value(seen.replace("{}", ".tools input, .tools select, .sorted tbody button"))
            == 0
        )
        assert started.value(seen.replace("{}", ".sorted tbody tr")) > 100
        frame = "(() => { const it = document.querySelector('.frame'); return it.scrollHeight - it.clientHeight; })()"
        assert started.value(frame) <= 0
        assert started.value("document.documentElement.scrollWidth") <= 700
    finally:
        started.call("Emulation.setEmulatedMedia", media="")
    printed = base64.b64decode(started.call("Page.printToPDF")["data"])
    assert printed.startswith(b"%PDF") and len(re.findall(rb"/Type /Page\b", printed)) > 5
    assert started.errors == []


def test_tiles(started: Browser, feed: Feed, tmp_path: Path) -> None:
    """They alone are asked for, by the page and by one that it opens."""
    page = tmp_path / "page.html"
    words = ["report", feed.messages, "--map", feed.folder, "--out", page, "--rows", 20]
    assert run([*map(str, words), "--tiles", "http://127.0.0.1:9/{z}/{x}/{y}.png"]) == 0
    started.open(page)
    assert started.loaded and all(it.startswith("http://127.0.0.1:9/") for it in started.loaded)
    started.value(CATCH + "window.open = () => null;")
    started.value("document.querySelector('.sorted tbody button').click()")
    text = started.value("window.made[0].blob.text()")
    assert "img-src data: http://127.0.0.1:9" in text


def test_the_licences_are_in_a_page_that_it_opens(browser: Browser) -> None:
    """As in the report itself, which has them once."""
    browser.value(
        f"{CATCH}window.open = () => null; document.querySelector('.sorted tbody button').click()"
    )
    opened = browser.value("window.made[0].blob.text()")
    for text in (opened, browser.value("document.documentElement.outerHTML")):
        assert text.count("Redistribution and use in source and binary forms") == 1
        assert text.count("Grant of Copyright License") == 1


def test_the_map_shows_where_most_are(browser: Browser, data: Any) -> None:
    """One reference lies thousands of kilometres away from all others: a button shows it too."""
    scale = "document.querySelector('.leaflet-control-scale-line').textContent"
    assert browser.value(scale) in ("1 km", "2 km", "3 km", "5 km", "10 km")
    browser.click("#all")
    assert browser.value(scale) in ("1000 km", "2000 km", "3000 km", "5000 km")
    choose(browser, 0, "unique")
    browser.click("#all")
    assert browser.value(scale) in ("1 km", "2 km", "3 km", "5 km", "10 km")
