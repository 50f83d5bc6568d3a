"""The page of `olr-tools serve` in Chromium: a reference, options, addresses that are sent on, keys, and a program that hangs."""

import json
import os
import shlex
import signal
from pathlib import Path
from urllib.parse import quote

from asking import said
from bad_programs import bad_program
from browser import Browser
from conftest import Program
from olr.model.profiles import FEED, tolerances_of
from olr.model.questions import TOLERANCES
from page_of_server import (
    AS_PROGRAM,
    MESSAGES,
    OF_FEED,
    ROADWORKS,
    UNMATCHED,
    Page,
    also_of_a_file,
    opened,
)
from servers import Server, is_running, serving, wait_until
from test_serve_makers import words_of


@also_of_a_file
def test_a_reference(page: Page, program: Program, folder: Path) -> None:
    assert page.value("document.activeElement.id") == "ref"
    assert page.ask(f" {ROADWORKS} ") == "ready"
    expected = said(program, "places", ROADWORKS, "--map", folder, *OF_FEED, "--format", "json")
    assert page.text("#verdict").lower() == expected["verdict"] == "ambiguous"
    assert page.count(".entry") == len(expected["places"]) == 2
    assert [page.count(kind) for kind in (".pin", ".ray", ".outer", ".inner")] == [2, 2, 1, 1]
    assert page.query() == f"?ref={quote(ROADWORKS, safe='/')}"
    assert ROADWORKS in page.value("document.title")
    assert page.text("#served") == f"map {folder.name}"
    for what in ("match", "places", "why", "candidates", "show"):
        link = page.value(
            f"[...document.querySelectorAll('#answers a')].find(a => a.textContent === '{what}').href"
        )
        words = [] if what == "show" else ["--map", folder, *OF_FEED]
        assert page.answer(link) == said(program, what, ROADWORKS, *words, "--format", "json")
    assert page.is_quiet()


@also_of_a_file
def test_texts_that_are_no_references(page: Page) -> None:
    for text, said_of_it in (
        ("CwVG", "BadLength 3: 3 bytes are no size of a reference."),
        ("<b>oh</b>", "NotBase64: "),
        ("A" * 9000, "TooLong: "),
        ("A" * 399 + "\N{GRINNING FACE}" + "A" * 9, "TooLong: "),
    ):
        assert page.ask(text) == "failed"
        assert said_of_it in page.text("#problem") and page.count("#panel") == 0
        assert page.count("#problem button") == 0
    assert page.ask(ROADWORKS) == "ready"
    assert page.count("#problem") == 0
    assert page.is_quiet("status of 422")


@also_of_a_file
@opened(AS_PROGRAM)
def test_one_scene_after_the_other(page: Page) -> None:
    """What was drawn is gone: as many elements are there as if it had been the first one."""
    counted = "document.querySelectorAll('#place *').length"
    page.ask(ROADWORKS)
    first = page.value(counted)
    for _ in range(3):
        page.ask(UNMATCHED)
        assert page.text("#verdict") == "Nothing fits"
        assert page.count(".outer") == 0 and page.count(".near") > 0
        assert "admits none of 4 pairs" in page.text("#reasons")
        page.ask(ROADWORKS)
        assert page.value(counted) == first
        assert page.count(".outer") == 1 and page.count("#why") == 0
    assert page.is_quiet()


@also_of_a_file
def test_options(page: Page) -> None:
    page.ask(ROADWORKS)
    page.browser.click("#options-button")
    assert page.value("document.activeElement.id") == "option-profile"
    fields = page.value(
        "[...document.querySelectorAll('#options input')].map(e => [e.min, e.max, e.value])"
    )
    assert fields[0] == ["1", "1000", str(tolerances_of(FEED)["radius"])] and len(fields) == 10
    page.fill("#option-within", "6")
    page.browser.press("Enter", "\r")
    page.wait("document.querySelector('#verdict').textContent === 'unique'")
    assert page.query().endswith("&within=6")
    assert page.text("#options-button") == "Options: within 6"
    before = page.query()
    page.fill("#option-radius", "1001")
    page.browser.press("Enter", "\r")
    assert page.value("document.querySelector('#option-radius').matches(':invalid')")
    assert page.query() == before
    page.value("[...document.querySelectorAll('#options button')].at(-1).click()")
    page.wait("document.querySelector('#verdict').textContent === 'ambiguous'")
    assert page.query() == f"?ref={quote(ROADWORKS, safe='/')}"
    assert page.is_quiet()


def choose_profile(page: Page, name: str) -> None:
    """Chooses a profile, as one does."""
    page.value(f"document.querySelector('#option-profile').value = {json.dumps(name)}")
    change = "new Event('change', {bubbles: true})"
    page.value(f"document.querySelector('#option-profile').dispatchEvent({change})")
    page.settle()


def values_of(page: Page) -> dict[str, int]:
    """The numbers of the fields of tolerances."""
    fields = "[...document.querySelectorAll('#options input')].map(e => [e.id.slice(7), Number(e.value)])"
    return {name: value for name, value in page.value(fields) if name in TOLERANCES}


@also_of_a_file
def test_profiles(page: Page, program: Program, folder: Path) -> None:
    """The fields are those of the profile, but for one that was changed. Addresses, and the program's own answers, say which it is."""
    query = f"?ref={quote(ROADWORKS, safe='/')}"
    page.ask(ROADWORKS)
    page.browser.click("#options-button")
    assert values_of(page) == tolerances_of(FEED)
    words = shlex.split(page.text("#command"))
    assert words[:3] == ["olr", "places", ROADWORKS] and folder.name in words
    page.fill("#option-radius", "80")
    page.browser.press("Enter", "\r")
    page.settle()
    assert page.query() == f"{query}&radius=80"
    choose_profile(page, "program")
    assert values_of(page) == {**tolerances_of("program"), "radius": 80}
    assert page.query() == f"{query}&profile=program&radius=80"
    assert page.text("#options-button") == "Options: profile program, radius 80"
    # The likeliest place isn't always the first one.
    command = f"olr places {ROADWORKS} --map {folder.name} --radius 80 --order likely --detail"
    assert page.text("#command") == command
    link = page.value("document.querySelector('#answers a:nth-of-type(2)').href")
    given = ("--map", folder, "--radius", 80, "--format", "json")
    assert page.answer(link) == said(program, "places", ROADWORKS, *given)
    page.open(f"{query}&profile=program&radius=80")
    assert values_of(page) == {**tolerances_of("program"), "radius": 80}
    page.value("[...document.querySelectorAll('#options button')].at(-1).click()")
    page.settle()
    assert page.query() == query and values_of(page) == tolerances_of(FEED)
    page.open(f"{query}&profile=none")
    assert page.settle() == "failed" and "'none' is no profile" in page.text("#problem")
    assert page.is_quiet("status of 400")


@also_of_a_file
@opened(f"?ref={quote(ROADWORKS, safe='/')}&radius=1001")
def test_an_option_of_an_address_that_is_out_of_its_range(page: Page) -> None:
    """Its field comes into sight when something else is asked for, and is named."""
    assert page.settle() == "failed" and "from 1 to 1000" in page.text("#problem")
    assert page.value("document.querySelector('#options').hidden")
    page.fill("#ref", UNMATCHED)
    page.browser.press("Enter", "\r")
    page.wait("!document.querySelector('#options').hidden")
    assert page.value("document.activeElement.id") == "option-radius"
    assert page.is_quiet("status of 400")


@also_of_a_file
@opened(AS_PROGRAM)
def test_an_address_has_all(page: Page) -> None:
    """A tab that is opened anew shows the same; and so does going back."""
    page.ask(UNMATCHED)
    page.ask(ROADWORKS)
    page.browser.press("Tab")
    page.browser.press("2")
    page.wait("location.search.endsWith('&place=2')")
    shown = "[document.querySelector('.outer').getAttribute('d'), document.querySelector('.entry.chosen').innerText]"
    second = page.value(shown)
    address = page.value("location.href")
    browser = page.browser
    with browser.tab(address):
        page.wait("document.body.dataset.state === 'ready'")
        assert page.value("document.querySelector('.entry.chosen').innerText") == second[1]
        assert page.value("document.querySelector('#ref').value") == ROADWORKS
    page.value("history.back()")
    page.wait(f"document.querySelector('#ref').value === '{UNMATCHED}'")
    page.settle()
    assert page.text("#verdict") == "Nothing fits"
    page.value("history.forward()")
    page.wait("document.querySelectorAll('.entry').length === 2")
    assert page.value(shown) == second
    page.open(f"?ref={ROADWORKS}&place=none")
    assert page.count(".outer") == 1
    page.open(f"?ref={ROADWORKS}&place=0&radius=150&most=1")
    assert page.count(".outer") == 0 and page.count(".entry") == 1
    assert page.value("document.querySelector('#option-radius').value") == "150"
    assert page.is_quiet()


@also_of_a_file
def test_keys_alone(page: Page) -> None:
    """All can be reached by the tabulator, and what has the focus is seen."""
    page.read(MESSAGES)
    page.value("document.querySelector('#ref').focus()")
    seen = []
    for _ in range(40):
        page.browser.press("Tab")
        seen.append(
            page.value(
                "(() => { const e = document.activeElement; return [e.id || e.textContent || e.className, getComputedStyle(e).outlineStyle]; })()"
            )
        )
    names = " ".join(name for name, _ in seen)
    for name in ("Show", "options-button", "list-button", "map", "match", "toggle-candidates"):
        assert name in names
    assert "m1" in names and "close" in names
    assert {style for name, style in seen if name in ("Show", "options-button", "close")} == {
        "solid"
    }
    assert page.is_quiet()


@also_of_a_file
def test_a_narrow_window(page: Page) -> None:
    page.open(f"?ref={ROADWORKS}", 500)
    assert page.value("document.documentElement.scrollWidth") <= 500
    page.read(MESSAGES)
    page.browser.click("#options-button")
    assert page.value("document.documentElement.scrollWidth") <= 500
    printed = page.browser.call("Page.printToPDF")["data"]
    assert len(printed) > 10_000
    assert page.is_quiet()


def test_a_narrow_window_without_a_picture(page: Page) -> None:
    """The map has little room, so that what is said is in sight; but a list stays where it is."""
    height = "document.querySelector('#place').clientHeight"
    page.open("?ref=Hello", 500)
    assert page.value(height) < 150 and "NotBase64" in page.text("#problem")
    assert page.ask(ROADWORKS) == "ready"
    usual = page.value(height)
    assert usual >= 400
    page.read(MESSAGES)
    assert page.ask("Hello") == "failed"
    assert page.value(height) == usual


def test_what_takes_too_long(
    browser: Browser, program: Program, folder: Path, tmp_path: Path
) -> None:
    """The process hangs at a reference: the page says so, and asks once more."""
    hanging = bad_program(tmp_path / "olr", program, {UNMATCHED: "hangs"})
    with serving(hanging, folder, tmp_path / "log", "--time-limit", 1) as server:
        page = Page(browser, server)
        page.open(f"{AS_PROGRAM}&ref={quote(UNMATCHED)}")
        assert "It took too long: the program took longer" in page.text("#problem")
        Path(f"{hanging}.good").touch()
        page.browser.click("#problem button")
        page.wait("document.body.dataset.state === 'ready'")
        assert page.text("#verdict") == "Nothing fits" and page.count("#problem") == 0
        assert page.is_quiet("status of 504")


def test_a_map_that_changes(
    browser: Browser, program: Program, folder: Path, tmp_path: Path
) -> None:
    """What was read answers, until no process is left: then the page says so, and asks once more when the server has read the map anew."""
    for name in ("nodes.csv", "lines.csv"):
        (tmp_path / name).write_bytes((folder / name).read_bytes())
    with serving(program.path, tmp_path, tmp_path / "log") as server:
        page = Page(browser, server)
        page.open()
        lines = (tmp_path / "lines.csv").read_text().splitlines(keepends=True)
        (tmp_path / "lines.csv").write_text("".join(lines[:-1]))
        assert page.ask(ROADWORKS) == "ready"
        wait_until(lambda: server.get("/ready").status == 503)
        answering = [one for one in server.programs() if b"maker" not in words_of(one)]
        for one in answering:
            os.kill(one, signal.SIGKILL)
        wait_until(lambda: not any(map(is_running, answering)))
        assert page.ask(UNMATCHED) == "failed"
        assert "The files of the map aren't those that are served" in page.text("#problem")
        server.signal(signal.SIGHUP)
        wait_until(lambda: "read anew" in server.log())
        page.browser.click("#problem button")
        page.wait("document.body.dataset.state === 'ready'")
        assert page.is_quiet("status of 503")


def test_files_of_the_page(server: Server) -> None:
    """They are kept by browsers, load nothing from elsewhere, and the licences are there."""
    names = ["leaflet.js", "leaflet.css", "picture.js", "picture.css", "shared.css", "table.js"]
    texts = {}
    for path in ["/", *(f"/assets/{name}" for name in [*names, "page.js", "page.css"])]:
        reply = server.get(path)
        assert reply.status == 200 and reply.headers["cache-control"] == "no-cache"
        again = server.get(path, If_None_Match=reply.headers["etag"])
        assert (again.status, again.body) == (304, b"")
        assert server.get(path, If_None_Match='"x"').body == reply.body
        assert "unsafe" not in reply.headers["content-security-policy"]
        assert reply.headers["content-security-policy"].startswith("default-src 'none';")
        texts[path] = reply.body.decode()
    assert "Vladimir Agafonkin" in server.get("/assets/licences.txt").body.decode()
    assert "style=" not in texts["/"] and texts["/"].count("<script ") == 11
    assert "url(" not in "".join(texts[path] for path in texts if path.endswith(".css"))


def test_tiles_and_a_smaller_limit(
    browser: Browser, program: Program, folder: Path, tmp_path: Path
) -> None:
    """Images come from the host of the tiles alone, and what is left out is within the limit."""
    words = ["--tiles", "http://127.0.0.1:9/{z}/{x}/{y}.png", "--look-limit", 500]
    with serving(program.path, folder, tmp_path / "log", *words) as server:
        page = Page(browser, server)
        page.open(f"?ref={quote(ROADWORKS)}")
        assert page.text("#verdict") == "Ambiguous"
        assert page.value("document.querySelector('#option-look').max") == "500"
        page.wait("document.querySelectorAll('.leaflet-tile').length")
        loaded = page.browser.loaded
        assert loaded and all(one.startswith("http://127.0.0.1:9/") for one in loaded)
        assert not any("Content Security" in text for text in page.browser.errors)
