"""Lists on the page of `olr-tools serve` in Chromium, and `POST /messages`, which reads them."""

import json
import pytest
import signal
from collections import Counter
from pathlib import Path
from typing import Any

from asking import batch_of, draw_map, draw_references, likeliest_of
from bad_programs import bad_program
from browser import Browser
from conftest import OF_PROGRAM, Program, Tools
from olr.messages.reading import read_messages
from page_of_server import (
    AS_PROGRAM,
    KEY,
    MARGIN,
    MESSAGES,
    NONE_OF_THESE,
    OF_FEED,
    PROBABILITY,
    REASONS,
    REFERENCE,
    ROADWORKS,
    SHOWN,
    TOTAL,
    TURNS_BACK,
    UNMATCHED,
    VERDICT,
    Page,
    also_of_a_file,
    opened,
)
from servers import Server, serving, wait_until

BROKEN = "CwVGnSN2zhvHCgDX"
MARKUP = "<img src=x onerror=alert(1)><b>"


def answers(
    program: Program, folder: Path, tmp_path: Path, texts: list[str], *words: object
) -> Any:
    """What the program answers for references, as `places`."""
    records = tmp_path / "records"
    records.write_text("".join(f"{number}\t{text}\n" for number, text in enumerate(texts)))
    return batch_of(program, "places", records, ["--map", folder, *words])


@also_of_a_file
@opened(AS_PROGRAM)
def test_a_list(page: Page, program: Program, tools: Tools, folder: Path, tmp_path: Path) -> None:
    """A list that is pasted, its table, keys, and the picture that follows."""
    event = "new ClipboardEvent('paste', {bubbles: true, cancelable: true, clipboardData: data})"
    page.value(
        f"(() => {{ const data = new DataTransfer(); data.setData('text/plain', {json.dumps(MESSAGES)});"
        f" document.querySelector('#ref').dispatchEvent({event}); }})()"
    )
    page.wait("document.querySelector('#list').dataset.state === 'done'")
    texts = [line.split("\t")[1] for line in MESSAGES.splitlines()]
    expected = answers(program, folder, tmp_path, texts)
    verdicts = ["refused" if isinstance(one, str) else one["verdict"] for one in expected]
    assert page.column(KEY) == ["m1", "m2", "m3", "m4", "m5"]
    assert page.column(VERDICT) == verdicts
    assert page.column(REFERENCE) == texts
    file = tmp_path / "messages.tsv"
    file.write_text(MESSAGES)
    likeliest = likeliest_of(tools, file, folder, *OF_PROGRAM)
    assert page.column(TOTAL) == [row["total"] for row in likeliest]
    assert likeliest[2]["rank"] == "2"
    assert page.column(MARGIN) == ["", "", str(expected[2]["margin"]), "", ""]
    assert page.column(REASONS) == ["", "", "", "", expected[4]]
    # The first row is chosen, and has the keys.
    page.settle()
    assert page.chosen(KEY) == "m1" and "key m1" in page.text("#row")
    for _ in range(2):
        page.browser.press("ArrowDown")
    page.wait("document.querySelector('#verdict').textContent === 'ambiguous'")
    assert page.chosen(KEY) == "m3" and "&key=m3&record=3&" in page.query()
    assert page.text("#panel #reference") == ROADWORKS
    page.browser.press("End")
    page.wait("document.body.dataset.state === 'failed'")
    assert "BadLength 12: 12 bytes are no size" in page.text("#problem")
    assert page.count("#problem button") == 0 and page.count("#panel") == 0
    page.value("document.querySelector('#rows select').value = '=none'")
    page.value("document.querySelector('#rows select').dispatchEvent(new Event('change'))")
    assert page.column(KEY) == ["m4"]
    page.browser.click("#rows tbody tr")
    page.wait("document.querySelector('#why') && !document.querySelector('#why').hidden")
    assert page.text("#verdict") == "Nothing fits"
    page.value("history.back()")
    page.wait("document.body.dataset.state === 'failed'")
    assert "key m5" in page.text("#row") and page.count("#rows [aria-current]") == 0
    page.value("document.querySelector('#rows select').value = ''")
    page.value("document.querySelector('#rows select').dispatchEvent(new Event('change'))")
    assert page.chosen(KEY) == "m5"
    page.browser.click("#close")
    assert page.count("#list") == 0
    assert page.is_quiet("status of 422")


@also_of_a_file
@opened(AS_PROGRAM)
def test_options_ask_a_list_anew(page: Page) -> None:
    page.read(MESSAGES)
    page.browser.click("#options-button")
    page.fill("#option-lowest", "2")
    page.browser.press("Enter", "\r")
    page.wait(f"{SHOWN}[3].cells[{VERDICT}].textContent === 'unique'")
    page.wait("document.querySelector('#list').dataset.state === 'done'")
    others = "radius is 100, not 75; bearing is 4, not 6; lowest is 2, not 4; percent is 30, not 15"
    said = f"No probabilities: {others}: make a file with your options by olr-tools calibrate."
    page.settle()
    assert said in page.text("#progress") and said in page.text("#probability")
    assert {*page.column(PROBABILITY), *page.column(NONE_OF_THESE)} == {""}
    page.value("[...document.querySelectorAll('#options button')].at(-1).click()")
    page.wait(f"{SHOWN}[3].cells[{PROBABILITY}].textContent !== ''")
    page.wait("document.querySelector('#list').dataset.state === 'done'")
    assert "robabilities" not in page.text("#progress")
    assert "" not in page.column(NONE_OF_THESE)[:4]
    assert page.is_quiet()


def test_a_list_is_sorted_and_filtered_by_probability(page: Page) -> None:
    page.read(MESSAGES)
    shown = page.column(PROBABILITY)
    assert len(set(shown[:4])) > 1 and "" not in shown[:4] and shown[4] == ""
    heading = f"document.querySelectorAll('#rows thead button')[{PROBABILITY}]"
    page.value(f"{heading}.click()")
    assert page.column(PROBABILITY) == [*sorted(shown[:4], key=float), ""]
    page.value(f"{heading}.click()")
    assert page.column(PROBABILITY) == [*sorted(shown[:4], key=float, reverse=True), ""]
    choice = "document.querySelectorAll('#rows select')[1]"
    texts = page.value(f"[...{choice}.options].map(option => option.textContent)")
    words = ("below 0.5", "0.5 to 0.9", "0.9 and above")
    counts = Counter(words[(float(text) >= 0.5) + (float(text) >= 0.9)] for text in shown[:4])
    shares = [f"{word} ({counts[word]})" for word in sorted(counts)]
    assert texts == ["all (5)", "without (1)", *shares] and len(shares) > 1
    page.value(f"{choice}.value = '='")
    page.value(f"{choice}.dispatchEvent(new Event('change'))")
    assert page.column(KEY) == ["m5"]
    assert page.is_quiet()


@also_of_a_file
@opened(f"{AS_PROGRAM}&look=1")
def test_a_list_that_is_looked_at_in_part(
    page: Page, tools: Tools, folder: Path, tmp_path: Path
) -> None:
    """It says how many references may have more places, as the summary of `olr-tools match` does."""
    file = tmp_path / "messages.tsv"
    file.write_text(MESSAGES)
    words = ["match", file, "--map", folder, "--places", *OF_PROGRAM, "--look", 1]
    said = tools.run(*words, "--out", tmp_path / "out.csv").stdout
    page.read(MESSAGES)
    assert "\ncut off: 2 may have more places: give a greater --look\n" in said
    assert "2 may have more places: give a greater look." in page.text("#progress")
    assert page.column(VERDICT)[2] == "open"
    assert page.is_quiet()


def drop(page: Page, name: str, text: str) -> None:
    """Drops a file onto the map."""
    page.value(
        f"(() => {{ const dataTransfer = new DataTransfer(); dataTransfer.items.add(new File([{json.dumps(text)}], '{name}'));"
        " document.querySelector('#map').dispatchEvent(new DragEvent('drop', {bubbles: true, cancelable: true, dataTransfer})); })()"
    )


@also_of_a_file
@opened(AS_PROGRAM)
def test_files_that_are_dropped(page: Page) -> None:
    """Tables and JSON, with keys that look like markup."""
    drop(page, "feed.csv", f'id;key;ref\n1;"{MARKUP}";{ROADWORKS}\n2;;{UNMATCHED}\n')
    page.wait("document.querySelector('#list').dataset.state === 'done'")
    page.settle()
    assert page.column(KEY) == [MARKUP, ""] and page.column(VERDICT) == ["ambiguous", "none"]
    assert MARKUP in page.text("#row")
    drop(page, "feed.json", json.dumps([{"ref": MARKUP, "key": 7}, {"ref": ROADWORKS}]))
    page.wait(f"{SHOWN}[0].cells[{KEY}].textContent === '7'")
    page.wait("document.querySelector('#list').dataset.state === 'done'")
    page.settle()
    assert page.column(VERDICT) == ["refused", "ambiguous"]
    assert page.column(REFERENCE)[0] == MARKUP
    assert page.count("img") == 0
    assert page.is_quiet("status of 422")


@also_of_a_file
def test_a_list_that_is_not_understood(page: Page) -> None:
    drop(page, "feed.csv", f"id,code\nx,{ROADWORKS}\n")
    page.wait("document.body.dataset.list === 'failed'")
    assert (
        page.text("#list-problem")
        == "The list has no column ref: name it by --ref: id, code; or say --format tab if its first line is a record."
    )
    page.fill("#list-ref", "code")
    page.fill("#list-key", "id")
    page.browser.press("Enter", "\r")
    page.wait("document.querySelector('#list').dataset.state === 'done'")
    assert page.column(KEY) == ["x"] and page.count("#list-problem") == 0
    page.value(
        "document.querySelector('#list-ref').value = document.querySelector('#list-key').value = ''"
    )
    drop(page, "large.tsv", "x" * (16 * 1024 * 1024 + 1))
    page.wait("document.body.dataset.list === 'failed'")
    assert "The list has 16,777,217 bytes" in page.text("#list-problem")
    assert page.column(KEY) == ["x"]
    assert page.is_quiet("status of 422")


@pytest.fixture(scope="module")
def town(tmp_path_factory: pytest.TempPathFactory) -> Path:
    """A drawn map."""
    return draw_map(tmp_path_factory.mktemp("town"))


def test_two_hundred_rows(
    browser: Browser, program: Program, tools: Tools, town: Path, tmp_path: Path
) -> None:
    """Verdicts and faults are those of the program, and probabilities those of `olr-tools match`."""
    texts = draw_references(town, 200)
    lines = [f"k{number}\t{text}" for number, text in enumerate(texts)]
    expected = answers(program, town, tmp_path, texts, *OF_FEED)
    with serving(program.path, town, tmp_path / "log") as server:
        page = Page(browser, server)
        page.open()
        page.read("\n".join(lines))
        columns = list(zip(*page.rows(), strict=True))
        assert list(columns[KEY]) == [line.partition("\t")[0] for line in lines]
        verdicts = ["refused" if isinstance(one, str) else one["verdict"] for one in expected]
        assert list(columns[VERDICT]) == verdicts
        assert "200 of 200 answered" in page.text("#progress")
        file = tmp_path / "messages.tsv"
        file.write_text("\n".join(lines))
        likeliest = likeliest_of(tools, file, town)
        for column, name in ((PROBABILITY, "probability"), (NONE_OF_THESE, "none_of_these")):
            rounded = [f"{float(row[name]):.3f}" if row[name] else "" for row in likeliest]
            assert list(columns[column]) == rounded and len(set(rounded)) > 50
        assert list(columns[REASONS]) == [row["fault"] or row["reasons"] for row in likeliest]
        assert [text == "turns back" for text in columns[TURNS_BACK]] == [
            row["turns_back"] == "1" for row in likeliest
        ]
        # On paper there are all.
        drawn = f"{SHOWN}.length"
        assert page.value(drawn) < 100
        page.value("dispatchEvent(new Event('beforeprint'))")
        assert page.value(drawn) == 200
        page.value("dispatchEvent(new Event('afterprint'))")
        assert page.value(drawn) < 100
        page.value(f"[...document.querySelectorAll('#rows thead button')].at({TOTAL}).click()")
        totals = [int(text.replace(",", "")) for text in page.column(TOTAL) if text]
        assert totals == sorted(totals) and len(totals) > 100
        options = page.value(
            "[...document.querySelector('#rows select').options].map(e => e.textContent)"
        )
        counts = Counter(verdicts)
        assert options[1:] == [f"{word} ({counts[word]})" for word in sorted(counts)]
        page.value(f"{SHOWN}[0].focus()")
        for _ in range(30):
            page.browser.press("ArrowDown")
        page.settle()
        current = "document.querySelector('#rows [aria-current]')"
        assert page.value(f"{current}.ariaRowIndex") == "32"
        assert page.value(f"document.activeElement === {current}")
        assert page.text("#panel #reference").strip() == page.chosen(REFERENCE).strip()
        assert page.is_quiet("status of 422")


def test_stop_and_go_on(browser: Browser, program: Program, folder: Path, tmp_path: Path) -> None:
    """The process hangs at the second reference of three."""
    hanging = bad_program(tmp_path / "olr", program, {UNMATCHED: "hangs"})
    with serving(hanging, folder, tmp_path / "log", "--time-limit", 600) as server:
        page = Page(browser, server)
        page.open(AS_PROGRAM)
        text = "".join(f"{key}\t{ref}\n" for key, ref in zip("abc", (ROADWORKS, UNMATCHED, BROKEN)))
        page.value(f"document.querySelector('#list-text').value = {json.dumps(text)}")
        page.value("document.querySelector('#list-form').requestSubmit()")
        page.wait(
            f"{SHOWN}.length === 3 && {SHOWN}[0].cells[{VERDICT}].textContent === 'ambiguous'"
        )
        assert page.column(VERDICT) == ["ambiguous", "waiting", "waiting"]
        assert "1 of 3 answered" in page.text("#progress") and page.count("#go-on") == 0
        page.browser.click("#stop")
        assert "Stopped" in page.text("#progress") and page.count("#stop") == 0
        wait_until(lambda: server.figure('olr_processes{state="working"}') == 0)
        Path(f"{hanging}.good").touch()
        page.browser.click("#go-on")
        page.wait("document.querySelector('#list').dataset.state === 'done'")
        assert page.column(VERDICT) == ["ambiguous", "none", "refused"]
        assert page.is_quiet()


def test_a_server_that_ends(
    browser: Browser, program: Program, folder: Path, tmp_path: Path
) -> None:
    """It ends, and later another one is at the same port."""
    with serving(program.path, folder, tmp_path / "log") as server:
        page = Page(browser, server)
        page.open()
        page.read(MESSAGES)
        server.signal(signal.SIGTERM)
        server.process.wait(30)
        assert page.ask(ROADWORKS) == "failed"
        assert "can't be reached" in page.text("#problem")
        page.fill("#list-text", "") if page.count("#list-text") else None
        page.value("document.querySelector('#option-radius').value = 150")
        page.value("document.querySelector('#options').dispatchEvent(new Event('change'))")
        page.wait("document.querySelector('#list').dataset.state === 'failed'")
        assert "can't be reached" in page.text("#progress")
    with serving(program.path, folder, tmp_path / "log", "--port", server.port):
        page.browser.click("#problem button")
        page.wait("document.body.dataset.state === 'ready'")
        page.browser.click("#go-on")
        page.wait("document.querySelector('#list').dataset.state === 'done'")
        assert page.is_quiet("net::ERR_")


@pytest.mark.parametrize("end", ["\n", "\r\n"])
@pytest.mark.parametrize("text", [MESSAGES, f"key;ref\na;{ROADWORKS}\n;{BROKEN}\n", "[]", ""])
def test_lists_are_read_as_files(server: Server, text: str, end: str, tmp_path: Path) -> None:
    file = tmp_path / "list"
    file.write_text(text.replace("\n", end))
    reply = server.get("/messages", "POST", file.read_bytes())
    found = [json.loads(line) for line in reply.body.splitlines()]
    assert [(one["key"], one["reference"]) for one in found] == list(read_messages(file))


@pytest.mark.parametrize(
    "query, body, problem",
    [
        ("", b"id,code\n1,x\n", (422, "UnreadableList", "the list has no column ref")),
        (
            "?format=yaml",
            b"",
            (400, "BadRequest", "format is one of tab, csv, jsonl, jsonseq, json, xml"),
        ),
        ("?radius=5", b"", (400, "BadRequest", "'radius' is no option of this address")),
        ("", b"a\t\xff", (422, "UnreadableList", "isn't UTF-8")),
        ("", b"x" * (16 * 1024 * 1024 + 1), (413, "BodyTooLarge", "16,777,216 bytes at most")),
    ],
)
def test_lists_that_are_refused(
    server: Server, query: str, body: bytes, problem: tuple[int, str, str]
) -> None:
    found = server.get(f"/messages{query}", "POST", body).problem()
    assert found[:2] == problem[:2] and problem[2] in found[2]


def test_long_lists_are_cut(server: Server) -> None:
    """The page shows 10,000 rows, and is told that there are more."""
    reply = server.get("/messages", "POST", f"{ROADWORKS}\n".encode() * 12_000)
    assert reply.body.count(b"\n") == 10_001


def test_ten_thousand_rows(page: Page) -> None:
    """The document has those in sight and some around. Sorting, searching and keys go over all of them."""
    count = 10_000
    keys = [f"k{number * 7919 % count}" for number in range(count)]
    # Nothing is asked: the table is that of a list that is stopped at once.
    page.value(
        "window.fetch = ((before) => (address, more) => address.startsWith('rows') ? new Promise(() => {}) : before(address, more))(fetch)"
    )
    text = "".join(f"{key}\t{ROADWORKS}\n" for key in keys)
    page.value(f"document.querySelector('#list-text').value = {json.dumps(text)}")
    page.value("document.querySelector('#list-form').requestSubmit()")
    page.wait("document.body.dataset.list === 'read'")
    page.settle()
    table = "document.querySelector('#rows table')"
    frame = "document.querySelector('#rows .frame')"
    drawn = f"{SHOWN}.map(line => [Number(line.ariaRowIndex), line.cells[1].textContent])"

    def look(expected: list[str]) -> list[int]:
        """The numbers of the rows that are in the document, whose keys are those that are expected."""
        found = page.value(drawn)
        assert len(found) <= 100
        assert [expected[at - 2] for at, _ in found] == [key for _, key in found]
        assert page.value(f"{table}.ariaRowCount") == str(len(expected) + 1)
        return [at for at, _ in found]

    def scroll(top: str) -> None:
        """Scrolls to a height, and tells the table so."""
        page.value(f"{frame}.scrollTop = {top}")
        page.value(f"{frame}.dispatchEvent(new Event('scroll'))")

    assert look(keys)[0] == 2
    height = page.value(f"{frame}.scrollHeight")
    scroll(f"5000 * {SHOWN}[0].offsetHeight")
    middle = look(keys)
    # The chosen row has the keys, and stays.
    assert middle[0] == 2 and middle[1] < 5002 < middle[-1] and page.chosen(KEY) == keys[0]
    assert page.value("document.activeElement.ariaRowIndex") == "2"
    assert page.value(f"{frame}.scrollHeight") == height
    in_sight = f"(() => {{ const box = {frame}.getBoundingClientRect(); const line = document.elementFromPoint(box.x + 9, box.bottom - 40).closest('tr'); return Number(line.ariaRowIndex); }})()"
    assert 5002 < page.value(in_sight) < 5030
    page.browser.press("ArrowDown")
    assert page.chosen(KEY) == keys[1] and look(keys)[0] == 2
    page.browser.press("End")
    assert page.chosen(KEY) == keys[-1] and look(keys)[-1] == count + 1
    page.value("document.querySelectorAll('#rows thead button')[1].click()")
    ordered = [f"k{number}" for number in range(count)]
    look(ordered)
    page.value("document.querySelector('#rows [aria-current]').focus()")
    page.browser.press("Home")
    assert page.chosen(KEY) == "k0" and look(ordered)[0] == 2
    page.browser.call(
        "Input.dispatchKeyEvent", type="rawKeyDown", key="f", code="KeyF", modifiers=2
    )
    assert page.value("document.activeElement.type") == "search"
    page.browser.call("Input.insertText", text="k99")
    found = [key for key in ordered if "k99" in key]
    assert look(found)[0] == 2 and look(found)[-1] < 100 < len(found)
    assert page.text(".tools .status") == f"{len(found)} of {count} rows"
    scroll("1e6")
    assert look(found)[-1] == len(found) + 1
    page.fill("#rows input", "k777")
    assert look(["k777", *(f"k777{digit}" for digit in range(10))]) == list(range(2, 13))
    page.browser.click("#close")
    assert page.is_quiet()
