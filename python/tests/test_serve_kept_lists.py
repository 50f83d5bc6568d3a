"""What becomes of a list of the page of `olr-tools serve`: it is there after a reload, and goes out as CSV and GeoJSON."""

import csv
import io
import json
import signal
from pathlib import Path
from typing import Any

from browser import Browser
from conftest import TOP, Program, Tools
from page_of_server import (
    KEY,
    MESSAGES,
    REASONS,
    REFERENCE,
    ROADWORKS,
    VERDICT,
    Page,
    also_of_a_file,
)
from servers import Server, serving, wait_until

DONE = "document.querySelector('#list').dataset.state === 'done'"


def reload(page: Page) -> None:
    """Reads the page anew, as a browser does."""
    page.value("window.isOld = true")
    page.browser.call("Page.reload")
    page.wait("!window.isOld && document.body && document.body.dataset.ready === 'yes'")
    page.settle()


@also_of_a_file
def test_a_list_is_there_after_a_reload(page: Page) -> None:
    """With its answers, and the row that was chosen; another tab has none, and closing it ends it."""
    page.read(MESSAGES)
    page.browser.press("ArrowDown")
    page.wait("document.querySelector('#row').textContent.includes('m2')")
    page.settle()
    before = page.rows()
    reload(page)
    assert page.rows() == before and page.chosen(KEY) == "m2"
    assert "5 of 5 answered" in page.text("#progress")
    assert page.times_asked("rows") == 0
    # Other options ask anew, from an address too.
    page.open("?profile=program&lowest=2")
    page.wait(DONE)
    assert page.times_asked("rows") == 1 and page.column(VERDICT)[3] == "unique"
    with page.browser.tab(page.address()):
        page.wait("document.body.dataset.ready === 'yes'")
        assert page.count("#list") == 0
    page.browser.click("#close")
    reload(page)
    assert page.count("#list") == 0 and page.value("sessionStorage.length") == 0
    assert page.is_quiet("status of 422")


def test_a_list_that_there_is_no_room_for(page: Page) -> None:
    """Its references are kept alone, and asked for again; or nothing, and so where storage is forbidden."""
    page.read(MESSAGES)
    before = page.rows()
    small = "((before) => { Storage.prototype.setItem = function (name, text) { if (text.length > %d) throw new Error('full'); before.call(this, name, text); }; })(Storage.prototype.setItem)"
    page.value(small % 450)
    reload(page)
    page.wait(DONE)
    assert page.rows() == before and page.times_asked("rows") == 1
    page.value(small % 10)
    reload(page)
    assert page.count("#list") == 0
    page.read(MESSAGES)
    page.value(
        "Object.defineProperty(window, 'sessionStorage', { get() { throw new Error('forbidden'); } }); 0"
    )
    reload(page)
    assert page.count("#list") == 0
    assert page.is_quiet("status of 422")


def test_a_list_of_another_map(
    browser: Browser, program: Program, folder: Path, tmp_path: Path
) -> None:
    """Answers that were kept aren't shown with those of another map: all is asked for anew."""
    for name in ("nodes.csv", "lines.csv"):
        (tmp_path / name).write_bytes((folder / name).read_bytes())
    with serving(program.path, tmp_path, tmp_path / "log") as server:
        page = Page(browser, server)
        page.open("?profile=program")
        page.read(MESSAGES)
        before = page.column(VERDICT)
        lines = (tmp_path / "lines.csv").read_text().splitlines(keepends=True)
        (tmp_path / "lines.csv").write_text("".join(lines[:2]))
        server.signal(signal.SIGHUP)
        wait_until(lambda: "read anew" in server.log())
        reload(page)
        page.wait(DONE)
        assert page.column(VERDICT) != before
        assert page.column(VERDICT) == ["none"] * 4 + ["refused"]


def saved(page: Page, folder: Path, button: str, name: str) -> str:
    """The text of the file that a button has the browser save."""
    page.browser.call("Page.setDownloadBehavior", behavior="allow", downloadPath=str(folder))
    page.value(f"document.querySelector('{button}').click()")
    wait_until((folder / name).exists)
    text = (folder / name).read_text(encoding="utf-8")
    (folder / name).unlink()
    return text


def saved_rows(page: Page, folder: Path) -> list[dict[str, str]]:
    """The rows of the CSV that the browser saves."""
    text = saved(page, folder, "#save-csv", "references.csv")
    return list(csv.DictReader(io.StringIO(text)))


def test_rows_as_csv(page: Page, server: Server, tmp_path: Path) -> None:
    """The rows that are shown, in their order, with the columns of `/rows`. What would be a formula is a text."""
    keys = ["=1+1", "+1", "-1", "@a", "\ta", 'a "b", c', "ü", "2"]
    text = json.dumps([{"key": key, "ref": ROADWORKS} for key in keys] + [{"ref": "=CwVG"}])
    page.read(text)
    rows = saved_rows(page, tmp_path)
    assert [row["key"] for row in rows[:5]] == [f"'{key}" for key in keys[:5]]
    assert [row["key"] for row in rows[5:]] == [*keys[5:], ""]
    assert [row["record"] for row in rows] == [str(number + 1) for number in range(9)]
    assert rows[-1]["reference"] == "'=CwVG" and rows[-1]["verdict"] == "fault"
    body = "".join(f"{ROADWORKS}\n" for _ in keys) + "=CwVG\n"
    reply = server.get("/rows?profile=feed", "POST", body, Content_Type="text/plain")
    for row, line in zip(rows, map(json.loads, reply.body.splitlines()), strict=True):
        for column in ("verdict", "probability", "none_of_these", "turns_back", "total", "margin"):
            assert row[column] == ("" if line[column] is None else str(line[column]))
        assert (row["fault"], row["reasons"]) == (line["fault"] or "", line["reasons"] or "")
    page.value("document.querySelectorAll('#rows thead button')[0].click()")
    page.value("document.querySelectorAll('#rows thead button')[0].click()")
    page.fill("#rows input", "ü")
    assert [row["key"] for row in saved_rows(page, tmp_path)] == ["ü"]
    page.fill("#rows input", "ambiguous")
    records = [int(row["record"]) for row in saved_rows(page, tmp_path)]
    assert records == sorted(records, reverse=True) and len(records) == 8
    assert page.is_quiet("status of 422")


@also_of_a_file
def test_places_as_geojson(page: Page, tools: Tools, folder: Path, tmp_path: Path) -> None:
    """A feature for each row that is shown, in their order: that of the likeliest place in the file of `olr-tools match`, or one without a geometry."""
    page.read(MESSAGES)
    found = saved(page, tmp_path, "#save-geojson", "places.geojson")
    file, out = tmp_path / "messages.tsv", tmp_path / "out.geojson"
    file.write_text(MESSAGES)
    ended = tools.run("match", file, "--map", folder, "--places", "--out", out)
    assert ended.returncode == 0
    first: dict[int, Any] = {}
    for feature in json.loads(out.read_text())["features"]:
        first.setdefault(feature["properties"]["record"], feature)
    made = json.loads(found)["features"]
    assert [one["properties"]["key"] for one in made] == ["m1", "m2", "m3", "m4", "m5"]
    for one, other in zip(made, first.values(), strict=True):
        assert one["geometry"] == other["geometry"]
        assert one["properties"].items() <= other["properties"].items()
    assert made[-1]["properties"]["fault"].startswith("BadLength")
    assert page.text("#save-geojson") == "Save GeoJSON"


def test_geojson_that_is_stopped(page: Page) -> None:
    """By the same button, and by a server that doesn't answer, which is said."""
    page.read(MESSAGES)
    hanging = "((before) => { window.fetch = (address, more) => String(address).startsWith('batch/places') ? %s : before(address, more); })(fetch)"
    never = "new Promise((_, fail) => more.signal.addEventListener('abort', () => fail(more.signal.reason)))"
    page.value(hanging % never)
    page.browser.click("#save-geojson")
    assert page.text("#save-geojson") == "Stop saving: 0 of 5"
    page.browser.click("#save-geojson")
    assert page.text("#save-geojson") == "Save GeoJSON"
    page.value(hanging % "Promise.reject(new TypeError('gone'))")
    page.browser.click("#save-geojson")
    page.wait("document.querySelector('#answered').textContent.includes('reached')")
    assert page.text("#save-geojson") == "Save GeoJSON"
    assert page.is_quiet("status of 422")


@also_of_a_file
def test_faults_of_messages_themselves(page: Page, tmp_path: Path) -> None:
    """What can't be written in binary is said in the row, by that name, and in all that goes out; after a reload and with other options too."""
    faults = ["Empty", "PoiWithAccess"]
    page.read((TOP / "python/tests/feeds_xml/openlr.xml").read_text())
    assert page.column(KEY) == ["first", "second", "third", "fourth"]
    assert page.column(VERDICT)[2:] == ["refused", "refused"]
    assert page.column(REASONS)[2:] == faults
    assert [row["fault"] for row in saved_rows(page, tmp_path)] == ["", "", *faults]
    made = json.loads(saved(page, tmp_path, "#save-geojson", "places.geojson"))["features"]
    assert [one["properties"]["fault"] for one in made] == [None, None, *faults]
    reload(page)
    assert page.column(REASONS)[2:] == faults and page.times_asked("rows") == 0
    page.open("?lowest=2")
    page.wait(DONE)
    assert page.column(REASONS)[2:] == faults and page.times_asked("rows") == 1
    assert page.is_quiet("status of 422")


def test_base64_of_a_list(page: Page) -> None:
    """References in base64 for URLs are plain ones in the table. Without the option the list is refused, and the error names it."""
    text = "m1\tCwVF_yN2yRpnBAFUAAgbpwYBAf9kK0Fa\nm2\tCwVF-yN2yhpnBAFdAAsaFg\n"
    page.value("document.querySelector('#list-base64').value = 'url'")
    page.read(text)
    plain = ["CwVF/yN2yRpnBAFUAAgbpwYBAf9kK0Fa", "CwVF+yN2yhpnBAFdAAsaFg=="]
    assert page.column(REFERENCE) == plain and set(page.column(REASONS)) != {"NotBase64"}
    page.value("document.querySelector('#list-base64').value = ''")
    page.value("document.querySelector('#list-form').requestSubmit()")
    page.wait("document.body.dataset.list === 'failed'")
    assert "say --base64 url" in page.text("#list-problem")
    assert page.is_quiet("status of 422")
