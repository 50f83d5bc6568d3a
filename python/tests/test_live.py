"""`view --live` and `report --live`: pages that were made for references, in Chromium, opened as files. They carry the part of a map that
these references need, and answer as the program does on the whole map, with any tolerances."""

import base64
import json
import os
import pytest
import re
from pathlib import Path
from typing import Any

import olr
from browser import Browser
from conftest import OF_PROGRAM, REFERENCE, TOP, Program, Tools, by_default
from feeds import Feed, make_feed
from live_maps import Made, draw_made
from olr.model.questions import NUMBERS, TOLERANCES, What
from olr.pages.alone import module, part
from olr.pages.view.scene import scene_of
from olr.regions.making import make_store_of_folder

GREATEST = {name: number.greatest for name, number in TOLERANCES.items()}
TOLERANCES_TRIED: list[dict[str, int]] = [
    {},
    {"radius": 60, "bearing": 2, "percent": 5, "slack": 100},
    {"radius": 250, "lowest": 7, "percent": 100, "slack": 10_000},
]
PART = "document.getElementById('part')?.innerText ?? null"
SETTLED = """new Promise(done => { const wait = () => {
  const { program, state } = document.body?.dataset ?? {};
  if (program === 'ready' && ['ready', 'failed'].includes(state)) done(1); else setTimeout(wait, 20);
}; wait(); })"""
LISTED = """new Promise(done => { const wait = () => (
  document.getElementById('list')?.dataset.state === 'done' ? done(1) : setTimeout(wait, 20)); wait(); })"""
REPORTED = """new Promise(done => { const wait = () => (
  document.getElementById('again') && document.body.dataset.ready === 'yes' ? done(1) : setTimeout(wait, 20)); wait(); })"""
DATA = "JSON.parse(document.getElementById('data').textContent)"
CELLS = "[...document.querySelectorAll('#rows tbody tr[data-index]')].map(row => [...row.cells].map(cell => cell.textContent))"


@pytest.fixture(autouse=True)
def environment(program: Program, monkeypatch: pytest.MonkeyPatch) -> None:
    """The commands find the program, and no map is so small that it is carried whole."""
    monkeypatch.setenv("OLR_PROGRAM", os.fspath(program.path))
    monkeypatch.setattr(part, "WHOLE", 0)


@pytest.fixture(scope="module")
def made(tmp_path_factory: pytest.TempPathFactory) -> Made:
    """A drawn map, and two references that need less than half of it."""
    return draw_made(tmp_path_factory.mktemp("live"))


def view(tools: Tools, made: Made, *words: object) -> Path:
    """The page of the first reference. What the command says is beside it."""
    file = made.place / "page.html"
    common = ("--map", made.folder, "--out", file, "--force", "--live")
    ended = tools.run("view", made.references[0], *common, *words)
    assert (ended.returncode, ended.stderr) == (0, ""), ended
    file.with_suffix(".txt").write_text(ended.stdout)
    return file


def asked(browser: Browser, address: str, **more: Any) -> tuple[int, str]:
    """The status and the text of an address of the page."""
    call = f"fetch({json.dumps(address)}, {json.dumps(more)})"
    status, text = browser.value(
        f"{call}.then(async answer => [answer.status, await answer.text()])"
    )
    return status, text


def answer_of(browser: Browser, what: What, reference: str, numbers: dict[str, int]) -> Any:
    """What the page answers: JSON, or a fault."""
    ref = reference.replace("=", "%3D")
    query = "".join(f"&{name}={value}" for name, value in numbers.items())
    status, text = asked(browser, f"{what}?ref={ref}{query}")
    return json.loads(text) if status == 200 else json.loads(text)["title"]


def answer_on_all(
    program: Program, made: Made, what: What, reference: str, numbers: dict[str, int]
) -> Any:
    """What the program answers on the whole map."""
    given = [word for name, value in numbers.items() for word in (f"--{name}", value)]
    words = by_default(what, reference, "--map", made.folder, "--format", "json", *given)
    ended = program.run(*words)
    return json.loads(ended.stdout) if ended.returncode == 0 else ended.stderr.split()[1]


def without_cursors(answer: Any) -> Any:
    """An answer without the cursor that has a digest of the map."""
    return answer | {"next": None} if isinstance(answer, dict) and "next" in answer else answer


def test_it_opens_with_the_answer(browser: Browser, tools: Tools, made: Made) -> None:
    """The reference and the tolerances of the command are in its address; what it shows is what the command says; and it says what it has
    of the map."""
    file = view(tools, made, "--radius", "60", "--within", "50", "--most", "10", *OF_PROGRAM)
    said = file.with_suffix(".txt").read_text().splitlines()
    assert said[0].startswith(f"{file}: ") and "radius 60 m" in said[1]
    browser.open(file)
    browser.value(SETTLED)
    verdict = said[0].rpartition(" ")[2]
    assert browser.value("document.title") == f"{made.references[0]}: {verdict}"
    escaped = made.references[0].replace("+", "%2B").replace("=", "%3D")
    query = f"?ref={escaped}&profile=program&radius=60&within=50"
    assert browser.value("location.search") == query
    lines = browser.value(PART).removeprefix("This page has ").partition(" lines of the map: ")[0]
    assert lines.endswith(" of the 3,000") and int(lines.split()[0].replace(",", "")) < 1500
    assert f"with {lines.replace('the ', '')} lines of the map" in said[2]
    assert (browser.errors, browser.loaded) == ([], [])


def test_the_scene_is_that_of_the_whole_map(
    browser: Browser, tools: Tools, made: Made, program: Program
) -> None:
    browser.open(view(tools, made))
    browser.value(SETTLED)
    for tolerances in TOLERANCES_TRIED:
        query = "".join(f"&{name}={value}" for name, value in tolerances.items())
        ref = made.references[0].replace("=", "%3D")
        found = json.loads(asked(browser, f"scene?ref={ref}{query}")[1])
        given: dict[str, Any] = dict(tolerances)
        with olr.Map(made.folder, program=program.path, **given) as whole:
            expected = scene_of(made.references[0], whole)
        for name in ("verdict", "points", "offsets", "kind", "notes"):
            assert found[name] == expected[name], name
        for name in ("cursor", "total", "title", "length"):
            assert [one[name] for one in found["entries"]] == [
                one[name] for one in expected["entries"]
            ]
        assert found["lines"] and found["command"].partition(" --map ")[2].startswith("town")


def test_another_tolerance(browser: Browser, tools: Tools, made: Made, program: Program) -> None:
    """A greater radius than that of the command, in its field, is asked on the part, and answered as on the whole map."""
    reference = made.references[0]
    browser.open(view(tools, made, "--radius", "1", "--within", "14620", *OF_PROGRAM))
    browser.value(SETTLED)
    numbers = {"radius": 1, "within": 14_620}
    for radius in (1, 400):
        if radius != numbers["radius"]:
            numbers["radius"] = radius
            browser.value(CHANGE % radius)
            browser.value(SETTLED)
        answer = answer_on_all(program, made, "places", reference, numbers)
        assert browser.value("document.title") == f"{reference}: {answer['verdict']}"
        panel = browser.value("document.getElementById('panel').innerText")
        assert re.findall("Place ([0-9]+)\n", panel) == [
            str(at + 1) for at in range(len(answer["places"]))
        ]
        assert f"radius={radius}&within=14620" in browser.value("location.search")
    assert len(answer["places"]) == 10 and browser.errors == []


CHANGE = """(() => {
  document.getElementById('options-button').click();
  const field = document.getElementById('option-radius');
  field.value = '%s';
  field.dispatchEvent(new Event('change', { bubbles: true }));
})()"""


def test_answers_are_those_of_the_whole_map(
    browser: Browser, tools: Tools, made: Made, program: Program
) -> None:
    """All questions, with few and with the greatest tolerances."""
    reference = made.references[0]
    browser.open(view(tools, made))
    browser.value(SETTLED)
    asks: list[tuple[What, dict[str, int]]] = [
        (what, numbers) for what in NUMBERS for numbers in TOLERANCES_TRIED
    ]
    asks += [("candidates", GREATEST), ("why", GREATEST | {"nearest": 64})]
    asks += [("why", {"radius": 1, "nearest": 64}), ("why", {"bearing": 0, "class": 0})]
    for what, numbers in asks:
        found = answer_of(browser, what, reference, numbers)
        expected = answer_on_all(program, made, what, reference, numbers)
        assert without_cursors(found) == without_cursors(expected), (what, numbers)
    first = answer_of(browser, "match", reference, {"page": 1})["matchings"]
    behind = f"{reference.replace('=', '%3D')}&page=1&after={first[0]['cursor']}"
    second = json.loads(asked(browser, f"match?ref={behind}")[1])["matchings"]
    on_all = answer_on_all(program, made, "match", reference, {"page": 2})["matchings"]
    assert [*first, *second] == on_all


def other_direction(reference: str) -> str:
    """A reference with the same points, whose first direction is another one."""
    content = bytearray(base64.b64decode(reference))
    content[8] ^= 16
    return base64.b64encode(content).decode()


def test_others_are_refused(browser: Browser, tools: Tools, made: Made, program: Program) -> None:
    """Of a reference for which the page wasn't made it says nothing, but it does of one with the same points and distances, which needs the
    same lines. A text that is none has its own fault."""
    browser.open(view(tools, made))
    browser.value(SETTLED)
    other = made.references[1]
    for what in NUMBERS:
        assert answer_of(browser, what, other, {}) == "NotOnPage"
    scene = json.loads(asked(browser, f"scene?ref={other.replace('=', '%3D')}")[1])
    assert scene["verdict"]["text"].startswith("NotOnPage: of a page of --live: it has only")
    texts = [made.references[0], other, "CwVF", other_direction(made.references[0])]
    body = "".join(f"k{at}\t{text}\n" for at, text in enumerate(texts))
    status, text = asked(browser, "rows", method="POST", body=body)
    rows = [json.loads(line) for line in text.splitlines()]
    assert [(row["record"], row["key"]) for row in rows] == [(at + 1, f"k{at}") for at in range(4)]
    assert [row["fault"] for row in rows] == [None, "NotOnPage", "BadLength 3", None]
    for numbers in TOLERANCES_TRIED:
        found = answer_of(browser, "places", texts[3], numbers)
        assert found == answer_on_all(program, made, "places", texts[3], numbers)


def test_a_small_map_is_carried_whole(
    browser: Browser, tools: Tools, made: Made, monkeypatch: pytest.MonkeyPatch
) -> None:
    """Then others are answered, and nothing is said of a part."""
    monkeypatch.setattr(part, "WHOLE", 3000)
    browser.open(view(tools, made))
    browser.value(SETTLED)
    assert browser.value(PART) is None
    assert "verdict" in answer_of(browser, "places", made.references[1], {})
    assert "with all 3,000 lines of the map\n" in (made.place / "page.txt").read_text()


def test_an_address_comes_first(browser: Browser, tools: Tools, made: Made) -> None:
    """The page shows what its address has, if that has something; a message has its key and its record there."""
    messages = made.place / "messages.tsv"
    messages.write_text("".join(f"k&({at})!\t{text}\n" for at, text in enumerate(made.references)))
    for words, own in ((["k&(1)!"], "&key=k%26(1)!"), (["--record", "2"], "&record=2")):
        file = made.place / "message.html"
        common = ("--map", made.folder, "--out", file, "--force", "--live", "--messages", messages)
        assert tools.run("view", *words, *common).returncode == 0
        browser.open(file)
        browser.value(SETTLED)
        assert browser.value("location.search").endswith(own)
        assert browser.value("document.title").startswith(f"{made.references[1]}: ")
    browser.visit(f"{file.as_uri()}?ref=CwVF")
    browser.value(SETTLED)
    assert browser.value("document.title") == "CwVF"
    assert browser.value("location.search") == "?ref=CwVF"


def test_a_page_of_a_store(browser: Browser, tools: Tools, made: Made) -> None:
    """The program reads no store, so no command is shown."""
    store = made.place / "shown.gpkg"
    make_store_of_folder(made.folder, store, force=True)
    browser.open(view(tools, made._replace(folder=store)))
    browser.value(SETTLED)
    assert browser.value("document.getElementById('served').textContent") == "map shown.gpkg"
    assert " of the 3,000 lines of the map" in browser.value(PART)
    scene = asked(browser, f"scene?ref={made.references[0].replace('=', '%3D')}")[1]
    assert json.loads(scene)["command"] == ""


def test_without_room(
    tools: Tools, made: Made, program: Program, monkeypatch: pytest.MonkeyPatch
) -> None:
    """One that needs more than the program reads is refused; of many the first ones are carried."""
    with olr.Map(made.folder, program=program.path) as whole:
        first = part.part_for(whole, made.references[:1])
        monkeypatch.setattr("olr.model.road_map.MOST_LINES", first.lines)
        cut = part.part_for(whole, [*made.references[:1], "CwVF", *made.references[1:], "CwVF"])
        assert cut == first._replace(references=2)
        monkeypatch.setattr("olr.model.road_map.MOST_LINES", first.lines - 1)
        out = made.place / "none.html"
        ended = tools.run("view", made.references[0], "--map", made.folder, "--out", out, "--live")
        assert (ended.returncode, out.exists()) == (1, False)
        assert "too many for a page: leave out --live" in ended.stderr


def test_references_that_need_no_line(browser: Browser, tools: Tools, made: Made) -> None:
    """A text that is no reference has its fault."""
    file, messages = made.place / "refused.html", made.place / "refused.tsv"
    messages.write_text("k\tCwVF\n")
    words = ("--map", made.folder, "--out", file, "--live", "--format", "tab")
    assert tools.run("report", messages, *words).returncode == 0
    browser.open(file)
    browser.value(REPORTED)
    assert browser.value("document.querySelector('#rows tbody button').innerText") == "open"
    browser.visit(f"{file.as_uri()}?list=all")
    browser.value(LISTED)
    browser.value(SETTLED)
    assert browser.value(CELLS)[0][:3] == ["1", "k", "refused"]
    problem = browser.value("document.getElementById('problem').innerText")
    assert problem.startswith("BadLength 3: ") and browser.errors == []


def test_what_is_refused(tools: Tools, made: Made, monkeypatch: pytest.MonkeyPatch) -> None:
    out = made.place / "there.html"
    out.write_text("mine")
    words = ("--map", made.folder, "--out", out, "--live")
    messages = made.place / "one.tsv"
    messages.write_text(f"k\t{made.references[0]}\n")
    for command in (("view", made.references[0]), ("report", messages)):
        ended = tools.run(*command, *words)
        assert (ended.returncode, out.read_text()) == (1, "mine") and "--force" in ended.stderr
        bad = tools.run(*command, *words, "--force", "--tiles", "https://tiles.example/")
        assert (bad.returncode, out.read_text()) == (1, "mine")
        assert "is no URL of tiles" in bad.stderr
    monkeypatch.setattr(module, "PLACES", ())
    for command in (("view", "no reference"), ("report", made.place / "no.tsv")):
        ended = tools.run(*command, *words, "--force")
        assert "there is no olr.wasm" in ended.stderr


def test_tiles(tools: Tools, made: Made) -> None:
    """They are all that a page may load."""
    tiles = ("--tiles", "https://tiles.example/{z}/{x}/{y}.png")
    file, messages = made.place / "tiles.html", made.place / "tiles.tsv"
    messages.write_text(f"k\t{made.references[0]}\n")
    words = ("--map", made.folder, "--out", file, "--live", "--format", "tab", *tiles)
    assert tools.run("report", messages, *words).returncode == 0
    for text in (view(tools, made, *tiles).read_text(), file.read_text()):
        assert "img-src data: https://tiles.example; base-uri 'none'" in text
        assert "connect-src" not in text and "default-src 'none'" in text


@pytest.fixture(scope="module")
def feed(tmp_path_factory: pytest.TempPathFactory) -> Feed:
    """A feed with references of all kinds, whose keys hold markup."""
    return make_feed(tmp_path_factory.mktemp("feed"), 40)


def report(tools: Tools, feed: Feed, *words: object) -> tuple[Path, str]:
    """The page of its report, and what the command says."""
    file = feed.folder.parent / "report.html"
    common = ("--map", feed.folder, "--out", file, "--force", "--live", "--radius", "90")
    ended = tools.run("report", feed.messages, *common, *words)
    assert (ended.returncode, ended.stderr) == (0, ""), ended
    return file, ended.stdout


def test_a_report(browser: Browser, tools: Tools, feed: Feed) -> None:
    """It is the report, whose rows open where they can be asked again; and so does the list of all of them, with the same verdicts."""
    file, _ = report(tools, feed)
    browser.open(file)
    browser.value(REPORTED)
    data = browser.value(DATA)
    lived = [row for row in data["rows"] if "live" in row]
    assert len(lived) > 40 and all(row["live"].startswith("?ref=") for row in lived)
    texts = [line.split("\t")[1] for line in feed.messages.read_text().split("\n")[:-1]]
    empty = [row for row in data["rows"] if not texts[row["record"] - 1].strip()]
    assert empty and [row for row in data["rows"] if "live" not in row] == empty
    assert browser.value("document.getElementById('again').hidden") is False
    address = browser.value("document.querySelector('#again a').href")
    assert address == f"{file.as_uri()}?list=all&radius=90"
    assert (browser.errors, browser.loaded) == ([], [])
    row = next(one for one in lived if one["verdict"] == "unique")
    with browser.tab(address) as listed:
        listed.value(LISTED)
        found = {(cells[0], cells[1]): cells[2] for cells in listed.value(CELLS)}
        known = {(f"{one['record']:,}", one["key"] or ""): one["verdict"] for one in data["rows"]}
        assert found and found.items() <= known.items()
        told = listed.value("document.getElementById('answered').textContent")
        assert f"{len(data['rows'])} answered" in told and "others" not in told
        assert "&radius=90" in listed.value("location.search")
    with browser.tab(f"{file.as_uri()}{row['live']}") as single:
        single.value(SETTLED)
        panel = single.value("document.getElementById('panel').innerText")
        assert panel.startswith("Unique\n") and single.value(LIST_HIDDEN) is True
        assert single.value("document.getElementById('row').textContent").startswith(
            f"record {row['record']}"
        )
    assert (browser.errors, browser.loaded) == ([], [])


LIST_HIDDEN = "document.getElementById('list').hidden"


def test_a_browser_that_draws_no_report(browser: Browser, tools: Tools, feed: Feed) -> None:
    """It is told so, and so is one that runs no scripts."""
    file, _ = report(tools, feed)
    damaged = file.with_name("damaged.html")
    damaged.write_text(file.read_text().replace('type="text/plain">', 'type="text/plain">AAAA'))
    browser.open(damaged)
    browser.value(UNABLE)
    assert "This page can't be drawn in this browser" in browser.value("document.body.innerText")
    assert "<noscript>This page is drawn by its scripts" in file.read_text()


UNABLE = """new Promise(done => { const wait = () => (
  document.getElementById('unable')?.hidden === false ? done(1) : setTimeout(wait, 20)); wait(); })"""


def test_a_row_opens_its_page(browser: Browser, tools: Tools, feed: Feed) -> None:
    """In a tab of its own, at an address that stays as it is."""
    file, _ = report(tools, feed)
    browser.open(file)
    browser.value(REPORTED)
    browser.click("#rows tbody button")
    address = f"{file.as_uri()}{browser.value(DATA)['rows'][0]['live']}"
    with browser.other_page(address) as opened:
        opened.value(SETTLED)
        assert opened.value("location.href") == address
        assert opened.value("window.opener") is None


def test_a_report_without_room(
    tools: Tools, feed: Feed, monkeypatch: pytest.MonkeyPatch, browser: Browser
) -> None:
    """The first rows can be asked again, which aren't unique; of others the page that view draws opens."""
    monkeypatch.setattr("olr.model.road_map.MOST_LINES", 900)
    file, said = report(tools, feed)
    browser.open(file)
    browser.value(REPORTED)
    rows = browser.value(DATA)["rows"]
    count = sum("live" in row for row in rows)
    room = int(said.partition(" lines of the map, for ")[2].split()[0])
    assert 0 < count <= room < len(rows) and f", for {room} of {len(rows)} rows\n" in said
    assert not any("live" in row for row in rows[room:])
    with browser.tab(browser.value("document.querySelector('#again a').href")) as listed:
        listed.value(LISTED)
        told = listed.value("document.getElementById('answered').textContent")
        assert f"{room} of {room} answered" in told
        assert f"{len(rows) - room} others of the report aren't here" in told


def test_a_report_of_the_examples(browser: Browser, tools: Tools, tmp_path: Path) -> None:
    """A profile is in the addresses; a map of which all lines are needed is whole."""
    file = tmp_path / "report.html"
    words = ("--map", TOP / "examples", "--out", file, "--live", *OF_PROGRAM)
    assert tools.run("report", TOP / "examples/messages.tsv", *words).returncode == 0
    browser.open(file)
    browser.value(REPORTED)
    rows = {row["key"]: row["live"] for row in browser.value(DATA)["rows"]}
    assert rows["m1"] == f"?ref={REFERENCE}&key=m1&record=1&profile=program"
    with browser.tab(f"{file.as_uri()}{rows['m4']}") as single:
        single.value(SETTLED)
        assert single.value("document.getElementById('panel').innerText").startswith(
            "Nothing fits\n"
        )
        assert single.value(PART) is None
