"""`olr-tools view`: the page in Chromium, what it draws, clicks and keys, and that it loads nothing."""

import json
import os
import pytest
import shlex
import shutil
from pathlib import Path
from typing import Any

import olr
from browser import Browser
from confidences import FEED, write_confidence
from conftest import OF_PROGRAM, REFERENCE, TOP, Program, Tools
from feeds import data_of
from olr.confidence.confidence import Range
from olr.errors import ToolError
from olr.model.fault import TOO_LARGE
from olr.pages.view import scene
from olr.pages.view.page import html_of
from olr.pages.view.scene import scene_of
from olr.tools import run
from region_maps import EAST, Drawing, Point, text_of

KIOSK = "KwVGnCN20HPDBwFCATFjT5Y="
ROADWORKS = "CwVGnSN2zhvHCgDX/tIzAw=="
UNMATCHED = "CwVGnSN2zhtnBgEB/2IjAQ=="
BREAKDOWN = "CwVF+yN2yhpnBAFdAAsaFg=="


@pytest.fixture(autouse=True)
def environment(program: Program, monkeypatch: pytest.MonkeyPatch) -> None:
    """The command finds the program by its environment."""
    monkeypatch.setenv("OLR_PROGRAM", os.fspath(program.path))


@pytest.fixture
def folder(tmp_path: Path) -> Path:
    """The map of the examples without its bans."""
    for name in ("nodes.csv", "lines.csv"):
        shutil.copy(TOP / "examples" / name, tmp_path / name)
    return tmp_path


def count(browser: Browser, selector: str) -> Any:
    """How many elements there are, seen ones alone."""
    return browser.value(
        f"[...document.querySelectorAll('{selector}')].filter(e => e.checkVisibility()).length"
    )


def view(tools: Tools, browser: Browser, folder: Path, text: str, *words: object) -> str:
    """Opens the page of a reference, and sees that its script had no error and that it loaded nothing. Answers its verdict."""
    page = folder / "page.html"
    ended = tools.run("view", text, "--map", folder, "--out", page, *OF_PROGRAM, *words)
    assert (ended.returncode, ended.stderr) == (0, "")
    browser.open(page)
    assert browser.value("document.body.dataset.ready") == "yes"
    assert (browser.errors, browser.loaded) == ([], [])
    verdict = ended.stdout.splitlines()[0].removeprefix(f"{page}: ")
    assert verdict in browser.value("document.title")
    return verdict


def test_one_place_at_a_time(tools: Tools, browser: Browser, folder: Path) -> None:
    assert view(tools, browser, folder, ROADWORKS) == "ambiguous"
    assert browser.value("document.querySelector('#verdict').textContent") == "ambiguous"
    assert "7 penalty points more" in browser.value(
        "document.querySelector('#verdict-text').innerText"
    )
    assert [count(browser, kind) for kind in (".pin", ".ray", ".leg", ".leg-label")] == [2, 2, 1, 1]
    assert count(browser, ".rank") == 4
    assert [count(browser, kind) for kind in (".entry", ".outer", ".inner", ".route")] == [
        2,
        1,
        1,
        1,
    ]
    first = browser.value("document.querySelector('.outer').getAttribute('d')")
    assert count(browser, ".arrow") > 3
    browser.press("ArrowDown")
    assert browser.value("document.querySelector('.outer').getAttribute('d')") != first
    browser.press("ArrowUp")
    assert browser.value("document.querySelector('.outer').getAttribute('d')") == first
    browser.click(".entry:nth-of-type(2)")
    assert [count(browser, kind) for kind in (".outer", ".inner", ".entry.chosen")] == [1, 1, 1]
    assert "Place 2" in browser.value("document.querySelector('.entry.chosen').innerText")
    second = browser.value("document.querySelector('.outer').getAttribute('d')")
    assert second != first
    chosen = "[...document.querySelectorAll('.rank.chosen b')].map(e => e.textContent)"
    assert browser.value(chosen) == ["1: 1", "2: 2"]
    browser.press("ArrowUp")
    assert browser.value("document.querySelector('.outer').getAttribute('d')") == first
    assert browser.value(chosen) == ["1: 1", "2: 1"]
    browser.press("2")
    assert browser.value("document.querySelector('.outer').getAttribute('d')") == second
    browser.press("0")
    assert [count(browser, kind) for kind in (".outer", ".inner", ".arrow")] == [0, 0, 0]
    browser.press("c")
    assert count(browser, ".rank") == 0
    browser.press("c")
    assert count(browser, ".rank") == 4
    browser.click(".leaflet-control-zoom-in")
    assert (browser.errors, browser.loaded) == ([], [])


def test_matchings_of_one_place(tools: Tools, browser: Browser, folder: Path) -> None:
    assert view(tools, browser, folder, BREAKDOWN) == "unique"
    assert count(browser, ".entry") == 1
    browser.click("summary")
    assert count(browser, ".entry") == 4
    browser.press("4")
    assert browser.value("document.querySelector('.entry.chosen').innerText").startswith(
        "Matching 4"
    )
    assert count(browser, ".outer") == 1


def test_a_point_along_a_line(tools: Tools, browser: Browser, folder: Path) -> None:
    assert view(tools, browser, folder, KIOSK) == "unique"
    assert [count(browser, kind) for kind in (".star", ".end", ".outer", ".route")] == [1, 2, 0, 1]


def test_why_nothing_fits(tools: Tools, browser: Browser, folder: Path) -> None:
    assert view(tools, browser, folder, UNMATCHED) == "none"
    text = browser.value("document.querySelector('#panel').innerText")
    assert "Leg 1, from point 1 to point 2, admits none of 4 pairs of candidates" in text
    assert "Candidates 1 and 1: no path; 401.8 m with roads of class 5." in text
    assert "--lowest 2: a matching with 12 penalty points" in text
    assert count(browser, ".entry") == 0
    assert count(browser, ".near") > 0


@pytest.mark.parametrize(
    ("words", "shown"),
    [
        (["--radius", 1, "--class", 0], "Point 1 has no candidate."),
        (["--percent", 0, "--slack", 0, "--lowest", 7], "m too"),
    ],
)
def test_other_reasons(
    tools: Tools, browser: Browser, folder: Path, words: list[object], shown: str
) -> None:
    longer = "CwVGnSN2zhunAwEB/2IrAQ=="
    assert view(tools, browser, folder, longer, *words) == "none"
    assert shown in browser.value("document.querySelector('#reasons').innerText")


def test_too_many_candidates(tools: Tools, browser: Browser, folder: Path) -> None:
    nodes = ["id,lon,lat", "1,0,0", "2,1000,0"]
    lines = ["id,from,to,class,form,length,shape"]
    lines += [f"{number},1,2,{number % 8},3,1113,500 {number}" for number in range(1, 71)]
    (folder / "nodes.csv").write_text("\n".join(nodes) + "\n")
    (folder / "lines.csv").write_text("\n".join(lines) + "\n")
    assert view(tools, browser, folder, "CwAAAAAAABtoAQBkAAAbGA==") == "refused"
    text = browser.value("document.querySelector('#panel').innerText")
    assert "TooManyCandidates 1: more than 64 lines may carry point 1" in text
    assert "Point 1 has more than 64 candidates." in text
    assert "--class 3: a matching with 10" in text


def test_a_narrow_window_shows_all_of_it(tools: Tools, browser: Browser, folder: Path) -> None:
    view(tools, browser, folder, ROADWORKS)
    browser.open(folder / "page.html", 500, 800)
    box = "(() => { const r = document.querySelector('{}').getBoundingClientRect(); return [r.left, r.top, r.right, r.bottom]; })()"
    left, top, right, bottom = browser.value(box.replace("{}", "#map"))
    for kind in (".outer", ".pin"):
        inner = browser.value(box.replace("{}", kind))
        assert left <= inner[0] and top <= inner[1] and inner[2] <= right and inner[3] <= bottom
    assert browser.value("document.documentElement.scrollWidth") <= 500
    # An option of the command that is shown isn't broken behind its dashes.
    for width in range(300, 400, 10):
        browser.value(
            f"document.querySelector('#command').style = 'display: block; width: {width}px'"
        )
        options = "[...document.querySelectorAll('#command .option')].map((one) => one.getClientRects().length)"
        assert {*browser.value(options)} == {1}


def test_numbers_of_places(folder: Path, capsys: pytest.CaptureFixture[str]) -> None:
    """The second place of the roadworks has a gap of 7."""
    words = ["view", ROADWORKS, "--map", str(folder), "--out", str(folder / "page.html")]
    words += OF_PROGRAM
    assert run([*words, "--within", "6"]) == 0
    assert run([*words, "--within", "7", "--force"]) == 0
    lines = capsys.readouterr().out.splitlines()
    assert [line.split()[-1] for line in lines if str(folder) in line] == ["unique", "ambiguous"]


def entries(browser: Browser) -> Any:
    """The texts of the entries, each as its lines."""
    texts = browser.value("[...document.querySelectorAll('.entry')].map(e => e.innerText)")
    return [text.splitlines() for text in texts]


def test_the_likely_order(tools: Tools, browser: Browser, folder: Path) -> None:
    """The second place of the program costs 14 points at its points and a fifth of 57 on its leg, and its points lie 3.6 m from the ends of
    their lines: 26.6. The first one costs 44, a fifth of 20, and a third of 5.4: 49.8."""
    view(tools, browser, folder, ROADWORKS)
    titles = browser.value("[...document.querySelectorAll('.entry b')].map(e => e.textContent)")
    assert titles == ["Place 1likeliest", "Place 2"]
    first, second = entries(browser)
    assert "71 penalty points, gap 7, 701.7 m, 1 matching" in first
    assert "points 3.6 m from the ends of their lines, rank 2 by penalty" in first
    assert "64 penalty points, 565.8 m, 1 matching" in second
    assert "points 5.4 m from the ends of their lines, rank 1 by penalty" in second


def test_the_command_lists_what_is_shown(
    tools: Tools,
    browser: Browser,
    folder: Path,
    program: Program,
    monkeypatch: pytest.MonkeyPatch,
) -> None:
    """Also what is shown as it is likely, though it costs more than is asked for."""
    assert view(tools, browser, folder, ROADWORKS, "--within", 6) == "unique"
    scene = data_of(folder / "page.html")
    monkeypatch.chdir(folder.parent)
    olr_word, *words = shlex.split(scene["command"])
    answer = json.loads(program.run(*words, "--format", "json").stdout)
    listed = [place["matching"]["cursor"] for place in answer["places"]]
    assert olr_word == "olr" and len(listed) == 2
    assert [entry["cursor"] for entry in scene["entries"]] == listed


@pytest.mark.parametrize(
    ("feed", "differs", "shown"),
    [
        (FEED, Range(0.9, 0.6, 1.2), "The maps seem to differ by 0.9 (0.6 to 1.2), 1 as another"),
        (None, Range(0.7, 0.5, 0.9), "The probabilities are those of maps that differ by 0.7"),
        (None, None, ""),
    ],
)
def test_how_probable_it_is(
    feed: Any,
    differs: Any,
    shown: str,
    tools: Tools,
    browser: Browser,
    folder: Path,
) -> None:
    """By this confidence each of two places has a probability of 1 / 2.6, and none of them 0.6 / 2.6."""
    sure = write_confidence(folder / "sure.json", differs, feed)
    view(tools, browser, folder, ROADWORKS, "--confidence", sure)
    titles = browser.value("[...document.querySelectorAll('.entry b')].map(e => e.textContent)")
    assert titles == ["Place 1probability 0.38", "Place 2probability 0.38"]
    reasons = browser.value("[...document.querySelectorAll('.reasons')].map(e => e.innerText)")
    assert reasons == ["points, directions and lengths are nearly as the reference says."] * 2
    texts = browser.value("[...document.querySelectorAll('#probability li')].map(e => e.innerText)")
    assert texts[0] == "None of these: probability 0.23."
    assert [text[: len(shown)] for text in texts[1:]] == ([shown] if shown else [])
    view(tools, browser, folder, ROADWORKS, "--confidence", sure, "--most", 1, "--force")
    texts = browser.value("[...document.querySelectorAll('#probability li')].map(e => e.innerText)")
    assert texts[1] == "Others that aren't shown: probability 0.38."
    assert count(browser, ".entry") == 1


def test_no_probability(
    browser: Browser,
    folder: Path,
    capsys: pytest.CaptureFixture[str],
) -> None:
    """A point along a line has none. With other tolerances than those of the confidence there are none, and it is said why."""
    sure, page = write_confidence(folder / "sure.html"), folder / "page.html"
    words = ["view", "--map", str(folder), "--out", str(page), "--force", *OF_PROGRAM]
    own = "Probabilities are of lines: a point along a line has none."
    others = "radius is 150, not 75; bearing is 4, not 6; lowest is 0, not 4; percent is 30, not 15"
    note = f"o probabilities: {others}: make a file with your options by olr-tools calibrate"
    for more, texts, notes in (
        ([KIOSK, "--confidence", str(sure)], [own], []),
        ([ROADWORKS, "--radius", "150"], [f"N{note}."], [f"n{note}"]),
        ([UNMATCHED, "--radius", "150"], [], []),
    ):
        assert run([*words, *more]) == 0
        browser.open(page)
        shown = "[...document.querySelectorAll('#probability li')].map(e => e.innerText)"
        assert browser.value(shown) == texts
        assert "probability" not in browser.value("document.querySelector('#entries').innerText")
        assert (count(browser, "#probability") == 1) == bool(texts)
        printed = capsys.readouterr().out.splitlines()[2:]
        assert printed == notes
    assert run([*words, ROADWORKS, "--confidence", str(sure), "--radius", "150"]) == 1
    assert (
        "sure.html says nothing of such answers: radius is 150, not 100" in capsys.readouterr().err
    )
    assert run([*words, ROADWORKS, "--confidence", str(sure), "--out", str(sure)]) == 1
    assert "is one of the inputs" in capsys.readouterr().err


def test_turning_back_at_a_dead_end(tools: Tools, browser: Browser, folder: Path) -> None:
    """The reference begins on a road to the east that ends after 55.7 m, and its other point is in the west."""
    drawing = Drawing()
    for spots in (((-500, 0), (500, 0)), ((500, 0), (-500, 0)), ((-500, 0), (-5000, 0))):
        drawing.line(*spots)
    text = text_of([Point(0, 0, EAST, 667 // 59), Point(-5000, 0, EAST)])
    sure = write_confidence(folder / "sure.json", turning_back=1 << 24)
    map_folder = drawing.write(folder / "stub")
    view(tools, browser, map_folder, text, "--confidence", sure)
    (entry,) = entries(browser)
    assert "points 50.0 m from the ends of their lines, turns back" in entry
    reasons = browser.value("document.querySelector('.reasons').innerText")
    assert reasons == "it turns back."


def test_looking_was_cut_off(
    tools: Tools, browser: Browser, folder: Path, capsys: pytest.CaptureFixture[str]
) -> None:
    """Of two matchings of the roadworks one is looked at."""
    said = "Looking was cut off: give a greater --look."
    for look, shown in ((1, said), (2, "")):
        words = ["--look", look, "--force"]
        assert view(tools, browser, folder, ROADWORKS, *words) == ("open", "ambiguous")[look - 1]
        assert browser.value("document.querySelector('#looking').innerText") == shown
        assert (count(browser, "#looking") == 1) == bool(shown)
        page = [str(folder), "--out", str(folder / "page.html"), *OF_PROGRAM]
        assert run(["view", ROADWORKS, "--map", *page, *map(str, words)]) == 0
        printed = capsys.readouterr().out
        assert ("cut off: 1 may have more places: give a greater --look\n" in printed) == bool(
            shown
        )


def test_one_file_without_addresses(tools: Tools, folder: Path) -> None:
    page = folder / "page.html"
    assert tools.run("view", REFERENCE, "--map", folder, "--out", page).returncode == 0
    text = page.read_text(encoding="utf-8")
    assert "default-src &#x27;none&#x27;" in text and "img-src data:&" not in text
    assert "url(" not in text.split("</style>")[0]
    assert " src=" not in text.split("<script>")[0]
    assert len(text) < 400_000


def test_tiles(browser: Browser, folder: Path, program: Program) -> None:
    with olr.Map.of_folder(folder, program=program.path) as asked:
        scene = scene_of(REFERENCE, asked)
    page = folder / "page.html"
    page.write_text(html_of(scene, "http://127.0.0.1:9/{z}/{x}/{y}.png"), encoding="utf-8")
    browser.open(page)
    assert browser.loaded and all(one.startswith("http://127.0.0.1:9/") for one in browser.loaded)
    for url in ("tiles/{z}", "https://x.example;script-src *;/{z}", "https://a:b@x.example/{z}"):
        with pytest.raises(ToolError, match="is no URL of tiles"):
            html_of(scene, url)


def test_texts_are_no_markup(browser: Browser, folder: Path, program: Program) -> None:
    with olr.Map.of_folder(folder, program=program.path) as asked:
        scene = scene_of(REFERENCE, asked)
    scene["verdict"]["text"] = "</script><b id=evil>@JS@ \u2028"
    page = folder / "page.html"
    page.write_text(html_of(scene), encoding="utf-8")
    browser.open(page)
    assert browser.value("document.body.dataset.ready") == "yes" and browser.errors == []
    assert count(browser, "#evil") == 0


@pytest.mark.parametrize(
    ("words", "shown"),
    [
        (["CwVGnSN2zhvHCgDX", "--out", "p.html"], "BadLength 12: 12 bytes are no size"),
        ([REFERENCE, "--out", "lines.csv/p.html"], "can't be written: Not a directory"),
        ([REFERENCE, "--out", "p.html", "--most", "0"], "BadNumber most"),
        ([REFERENCE, "--out", "p.html", "--radius", "0"], "BadTolerance radius"),
    ],
)
def test_runs_that_fail(
    tools: Tools, folder: Path, monkeypatch: pytest.MonkeyPatch, words: list[str], shown: str
) -> None:
    monkeypatch.chdir(folder)
    ended = tools.run("view", *words, "--map", folder)
    assert ended.returncode == 1 and shown in ended.stderr and ended.stderr.count("\n") == 1
    assert sorted(os.listdir(folder)) == ["lines.csv", "nodes.csv"]


def test_a_store_without_room_for_what_lies_around(
    program: Program, browser: Browser, folder: Path, monkeypatch: pytest.MonkeyPatch
) -> None:
    """The place is drawn, without the lines around it and other paths."""

    def refuse(*_: object, **__: object) -> None:
        raise olr.Fault(TOO_LARGE)

    with olr.Map(folder, program=program.path) as asked:
        assert scene_of(ROADWORKS, asked)["lines"]
        monkeypatch.setattr(asked, "lines", refuse)
        monkeypatch.setattr(scene, "drawn_legs", refuse)
        drawn = scene_of(ROADWORKS, asked)
    assert [drawn[name] for name in ("lines", "cut", "more", "notes", "others")] == [
        [],
        0,
        True,
        [],
        [],
    ]
    page = folder / "page.html"
    page.write_text(html_of(drawn))
    browser.open(page)
    assert browser.value("document.querySelector('#cut').innerText") == (
        "More lines further out aren't drawn."
    )
    assert count(browser, ".entry") == 2 and browser.errors == []
