"""`olr-tools page`: the page in Chromium, opened as a file. Its program is the released one, its lists are answered, and it loads nothing."""

import json
import os
import pytest
import subprocess
from pathlib import Path
from typing import Any

from browser import Browser
from conftest import REFERENCE, TOP, Program, Tools
from olr.errors import ToolError
from olr.pages.alone import module

DAMAGED = ["", "xx", "CwVF", REFERENCE[:-4], "A" * 400, "=" + REFERENCE, "-" + REFERENCE]
QUESTIONS = ("candidates", "match", "places", "why")
LONG = "radius=1000&bearing=16&percent=100&slack=10000&lowest=7&look=1000000&within=14620"
"""Options with which the program is at a list of the examples for a second and more."""


@pytest.fixture(scope="module")
def page(program: Program, tmp_path_factory: pytest.TempPathFactory) -> Path:
    """The page of the examples."""
    file = tmp_path_factory.mktemp("page") / "app.html"
    words = [str(TOP / "olr-tools"), "page", "--map", str(TOP / "examples"), "--out", str(file)]
    environment = os.environ | {"OLR_PROGRAM": os.fspath(program.path)}
    subprocess.run(words, check=True, env=environment, capture_output=True)
    return file


@pytest.fixture
def opened(browser: Browser, page: Path) -> Browser:
    """The page, once the program is there."""
    browser.open(page)
    browser.value(READY)
    return browser


READY = "new Promise(done => { const wait = () => document.body.dataset.program === 'ready' ? done(1) : setTimeout(wait, 20); wait(); })"
DRAWN = "new Promise(done => { const wait = () => ['ready', 'failed'].includes(document.body.dataset.state) ? done(1) : setTimeout(wait, 20); wait(); })"


def asked(browser: Browser, address: str, **more: Any) -> tuple[int, str]:
    """The status and the text of an address of the page."""
    call = f"fetch({json.dumps(address)}, {json.dumps(more)})"
    status, text = browser.value(
        f"{call}.then(async answer => [answer.status, await answer.text()])"
    )
    return status, text


def references() -> list[str]:
    """Those of the examples."""
    lines = [
        line
        for name in ("messages.tsv", "unmatched.tsv")
        for line in (TOP / "examples" / name).read_text().splitlines()
    ]
    return [line.split("\t")[1] for line in lines]


def test_it_shows_a_reference(opened: Browser) -> None:
    opened.value(f"document.getElementById('ref').value = {json.dumps(REFERENCE)}")
    opened.click("#ask button.main")
    opened.value(DRAWN)
    panel = opened.value("document.getElementById('panel').innerText")
    assert panel.startswith("Unique\n") and "Place 1" in panel and "probability 0.98" in panel
    assert opened.value("location.search") == f"?ref={REFERENCE}"
    assert (opened.errors, opened.loaded) == ([], [])


def test_its_answers_are_those_of_the_program(opened: Browser, program: Program) -> None:
    """All questions, by the bytes that the program writes about many references."""
    options: list[list[str]] = [
        [],
        ["--radius", "75", "--lowest", "4"],
        ["--radius", "1000", "--bearing", "16"],
    ]
    refs = [*references(), *DAMAGED]
    for what in QUESTIONS:
        for words in options:
            examples = os.fspath(TOP / "examples")
            command = [os.fspath(program.path), "batch", what, "--map", examples, *words]
            records = "".join(f"{at}\t{ref}\n" for at, ref in enumerate(refs))
            written = subprocess.run(command, input=records, capture_output=True, text=True)
            pairs = zip(words[::2], words[1::2])
            query = "&profile=program" + "".join(f"&{name[2:]}={value}" for name, value in pairs)
            for ref, line in zip(refs, written.stdout.splitlines(), strict=True):
                status, text = asked(opened, f"{what}?ref={_escaped(ref)}{query}")
                fault = json.loads(line)["fault"]
                if fault is None:
                    assert status == 200 and line.startswith(f'{{"answer":{text},"fault":null,')
                else:
                    assert status == 422, (what, ref, words, text)
                    assert json.loads(text)["detail"].partition(":")[0] == fault, (ref, text, fault)


def _escaped(ref: str) -> str:
    return ref.replace("%", "%25").replace("&", "%26").replace("#", "%23").replace("=", "%3D")


def test_a_page_behind_a_cursor(opened: Browser) -> None:
    ref = _escaped(references()[0])
    first = json.loads(asked(opened, f"match?ref={ref}&page=1")[1])
    query = f"match?ref={ref}&page=1&after={first['matchings'][0]['cursor']}"
    status, text = asked(opened, query)
    assert status == 200 and json.loads(text)["matchings"] != first["matchings"]


def test_rows_of_many(opened: Browser) -> None:
    body = "".join(f"{at}\t{ref}\n" for at, ref in enumerate([*references(), *DAMAGED[1:]]))
    status, text = asked(opened, "rows?profile=feed", method="POST", body=body)
    rows = [json.loads(line) for line in text.splitlines()]
    assert status == 200 and [row["key"] for row in rows] == [str(at) for at in range(len(rows))]
    assert len(rows) == body.count("\n") and rows[0]["probability"] > 0.9
    assert rows[-1]["fault"] == "NotBase64"


@pytest.mark.parametrize(
    ("address", "status", "detail"),
    [
        ("match", 400, "ref is missing: the text of a reference, in base64"),
        ("places?ref=a&radius=0", 400, "radius is a whole number of metres from 1 to 1000"),
        ("places?ref=a&ref=b", 400, "'ref' is given twice"),
        ("why?ref=a&page=1", 400, "'page' is no option of /why: it has ref, profile,"),
        ("match?ref=a&profile=x", 400, "'x' is no profile: the profiles are program, feed"),
        ("nothing", 404, "there is no such address"),
    ],
)
def test_what_is_refused(opened: Browser, address: str, status: int, detail: str) -> None:
    found, text = asked(opened, address)
    assert found == status and json.loads(text)["detail"].startswith(detail)


def test_a_question_is_stopped(opened: Browser) -> None:
    """A dropped question is refused at once, and others are answered after it, also where the program was at it."""
    stopped = "new Promise(done => { const it = new AbortController(); fetch('rows?look=1000000', { method: 'POST', body: BODY, signal: it.signal })"
    stopped += ".then(() => done('answered'), (error) => done(error.name)); setTimeout(() => it.abort(), 30); })"
    body = json.dumps("".join(f"{at}\t{REFERENCE}\n" for at in range(20_000)))
    assert opened.value(stopped.replace("BODY", body)) in ("AbortError", "answered")
    assert asked(opened, f"match?ref={REFERENCE}")[0] == 200


def test_a_list_keeps_nothing_waiting(opened: Browser) -> None:
    """Questions are answered while a list is. One that is dropped, also where the program is at it, leaves the list as it is."""
    records = "".join(f"{at}\t{REFERENCE}\n" for at in range(1_000))
    asking = """(async () => {
      const list = await fetch('rows', { body: BODY });
      const match = await fetch('match?ref=REF');
      const dropped = async (address, more) => {
        const it = new AbortController();
        setTimeout(() => it.abort(), 20);
        return fetch(address, { ...more, signal: it.signal }).then(() => 'answered', (error) => error.name);
      };
      const both = [await dropped('scene?ref=REF'), await dropped('rows?LONG', { body: BODY })];
      const begun = performance.now();
      while (document.body.dataset.program === 'ready' && performance.now() < begun + 2000) await new Promise((done) => setTimeout(done, 20));
      return [match.status, both, document.body.dataset.program, await list.text()];
    })()"""
    values = {"BODY": json.dumps(records), "REF": REFERENCE, "LONG": LONG}
    for name, value in values.items():
        asking = asking.replace(name, value)
    status, dropped, state, text = opened.value(asking)
    assert (status, dropped, state) == (200, ["AbortError", "AbortError"], "starting")
    rows = [json.loads(line) for line in text.splitlines()]
    assert [row["key"] for row in rows] == [str(at) for at in range(1_000)]


def test_a_page_that_cannot_begin_says_so(browser: Browser, page: Path, tmp_path: Path) -> None:
    text = page.read_text()
    begin, _, behind = text.partition('<script id="packed" type="text/plain">')
    broken = tmp_path / "broken.html"
    broken.write_text(
        f'{begin}<script id="packed" type="text/plain">AAAA</script>{behind.partition("</script>")[2]}'
    )
    browser.open(broken)
    browser.value(READY.replace("'ready'", "'failed'"))
    status, said = asked(browser, f"match?ref={REFERENCE}")
    assert status == 503 and json.loads(said)["title"] == "ProgramFailed"


def test_two_pages(opened: Browser, page: Path) -> None:
    with opened.tab(page.as_uri()) as other:
        other.value(READY)
        assert asked(other, f"match?ref={REFERENCE}")[0] == 200
    assert asked(opened, f"match?ref={REFERENCE}")[0] == 200


def test_it_says_what_it_is(page: Path) -> None:
    text = page.read_text()
    released = dict(
        line.partition(" ")[::2] for line in (TOP / "released/MODULE").read_text().splitlines()
    )
    assert f"Module {released['module']}, map " in text
    assert page.stat().st_size < 1_600_000
    assert "http" not in text.partition("Content-Security-Policy")[2].partition(">")[0]


def test_its_licences_are_shown(opened: Browser) -> None:
    """Once somebody looks at them."""
    shown = "document.querySelector('#licences pre').textContent"
    assert opened.value(shown) == ""
    opened.value("document.querySelector('#licences').open = true")
    text = opened.value(
        f"new Promise(done => {{ const wait = () => {shown} ? done({shown}) : setTimeout(wait, 20); wait(); }})"
    )
    for name in ("NOTICE", "LICENSE"):
        assert (TOP / name).read_text(encoding="utf-8") in text
    assert opened.errors == []


def test_what_the_command_refuses(
    tools: Tools, tmp_path: Path, monkeypatch: pytest.MonkeyPatch
) -> None:
    examples = os.fspath(TOP / "examples")
    for words, said in (
        (
            ["--map", examples, "--out", "page.txt"],
            "page.txt has no suffix that is known: name a file .html",
        ),
        (["--map", os.fspath(tmp_path), "--out", "page.html"], "OpenFailed nodes"),
        (["--map", os.fspath(tmp_path / "x.gpkg"), "--out", "page.html"], "there is no store"),
    ):
        ended = tools.run("page", *words)
        assert ended.returncode == 1 and said in ended.stderr, ended
    monkeypatch.setattr(module, "PLACES", (tmp_path / "olr.wasm",))
    with pytest.raises(ToolError, match="there is no olr.wasm"):
        module.find_module()


def test_a_list_is_read_answered_and_saved(opened: Browser) -> None:
    text = (TOP / "examples/messages.tsv").read_text()
    opened.value(f"document.getElementById('list-text').value = {json.dumps(text)}, null")
    opened.click("#list-button")
    opened.click("#list-form button.main")
    opened.value(LISTED)
    rows = opened.value("document.querySelector('#rows').innerText")
    assert "unique" in rows and "refused" in rows and "BadLength" in rows
    body = "".join(f"{at}\t{ref}\n" for at, ref in enumerate(references()[:2]))
    headers = {"Accept": "application/geo+json-seq"}
    query = "batch/places?profile=feed&most=1"
    status, lines = asked(opened, query, method="POST", body=body, headers=headers)
    features = [json.loads(line.removeprefix("\x1e")) for line in lines.split("\n") if line]
    assert status == 200 and [one["properties"]["verdict"] for one in features] == ["unique"] * 2
    assert (opened.errors, opened.loaded) == ([], [])


LISTED = "new Promise(done => { const wait = () => document.getElementById('list').dataset.state === 'done' ? done(1) : setTimeout(wait, 20); wait(); })"
