"""The program of the page on one map, in a browser: it reads the map once, keeps it, and gives its memory back."""

import base64
import json
import pytest
from pathlib import Path
from typing import Any

from alone import FOLDER
from asking import draw_map
from browser import Browser
from conftest import REFERENCE, TOP, Program
from olr.model.map_folder import BANS, LINES, NODES
from olr.pages.alone.module import find_module

EXAMPLES = TOP / "examples"
SETUP = """
const bytesOf = (text) => Uint8Array.from(atob(text), (one) => one.charCodeAt(0));
const filesOf = (texts) => Object.fromEntries(Object.entries(texts).map(([name, text]) => [name, bytesOf(text)]));
const mapFilesOf = (texts) => Object.fromEntries(Object.entries(filesOf(texts)).map(([name, bytes]) => [`map/${name}`, bytes]));
globalThis.opened = 0;
const openOf = Olr.prototype.open;
Olr.prototype.open = function (files) { opened += 1; return openOf.call(this, files); };
globalThis.memories = [];
const takenOf = WebAssembly.instantiate;
WebAssembly.instantiate = async (...given) => { const made = await takenOf(...given); memories.push(made.exports.memory); return made; };
globalThis.memory = () => memories.at(-1).buffer.byteLength;
globalThis.said = ({ status, errors }) => [status, new TextDecoder().decode(errors)];
"""


class Page:
    """The scripts of the program in an empty page, with the module."""

    def __init__(self, browser: Browser) -> None:
        self._browser = browser
        names = ("questions.js", "olr.js", "program.js")
        scripts = "\n".join((FOLDER / name).read_text() for name in names)
        browser.value(f"{scripts}\n{SETUP}\nnull")
        module = base64.b64encode(find_module().read_bytes()).decode()
        browser.value(f"globalThis.module = bytesOf({json.dumps(module)}), null")

    def value(self, expression: str) -> Any:
        """The value of an expression."""
        return self._browser.value(expression)

    def begin(self, folder: Path) -> None:
        """Makes the program on a map, which expressions may call `program` from now on, with no map opened before."""
        self.value("globalThis.opened = 0, null")
        self.value(
            f"Program.of(module, filesOf({json.dumps(texts_of(folder))})).then(made => {{ globalThis.program = made; }})"
        )

    def begin_without_map(self) -> None:
        """Makes a module with no map, which expressions may call `olr` from now on."""
        self.value(
            "WebAssembly.compile(module).then(Olr.of).then(made => { globalThis.olr = made; })"
        )

    def open(self, folder: Path) -> list[Any]:
        """Opens a map: the status and the texts."""
        found: list[Any] = self.value(f"said(olr.open(mapFilesOf({json.dumps(texts_of(folder))})))")
        return found

    def lines(self, records: str) -> str:
        """The lines of the module for records."""
        asked = f"olr.answer(new TextEncoder().encode({json.dumps(records)}))"
        found: str = self.value(f"new TextDecoder().decode({asked})")
        return found

    def answer(self, what: str, reference: str = REFERENCE) -> dict[str, str | None]:
        """The answer of the program."""
        found: dict[str, str | None] = self.value(
            f"program.answer({json.dumps(what)}, {{}}, {json.dumps(reference)})"
        )
        return found


def texts_of(folder: Path) -> dict[str, str]:
    """The files of a map, in base64."""
    files = (folder / name for name in (NODES, LINES, BANS))
    return {
        file.name: base64.b64encode(file.read_bytes()).decode() for file in files if file.exists()
    }


@pytest.fixture(scope="module")
def page(browser: Browser) -> Page:
    return Page(browser)


@pytest.fixture(scope="module")
def other(tmp_path_factory: pytest.TempPathFactory) -> Path:
    """Another map."""
    return draw_map(tmp_path_factory.mktemp("other") / "drawn", 200, 400)


def printed(program: Program, folder: Path, records: Path) -> str:
    """The lines of the program for the records of a file, on the map of a folder."""
    ended = program.run("answer", "--map", folder, "--input", records)
    assert (ended.returncode, ended.stderr) == (0, "")
    return ended.stdout


def test_the_map_is_read_once(page: Page) -> None:
    page.begin(EXAMPLES)
    for what in ("candidates", "match", "places", "why"):
        assert page.answer(what)["fault"] is None
    assert page.value("opened") == 1


def test_questions_take_no_memory(page: Page) -> None:
    """What a question takes is given back: a thousand more need no more than the first ones."""
    page.begin(EXAMPLES)
    ask_all = "['candidates', 'match', 'places', 'why'].map((what) => program.answer(what, {}, ref).fault)"
    begun = f"(ref => {{ {ask_all}; {ask_all}; return memory(); }})({json.dumps(REFERENCE)})"
    many = f"(ref => {{ for (let at = 0; at < 250; at += 1) {ask_all}; return memory(); }})({json.dumps(REFERENCE)})"
    assert page.value(begun) == page.value(many)


def test_a_map_is_closed(page: Page, other: Path) -> None:
    """Maps that are opened and closed, or opened in place of each other, take no more memory than the first ones."""
    page.begin_without_map()
    maps = [texts_of(other), texts_of(EXAMPLES)]
    work = "maps.forEach((files) => olr.open(files)); olr.close(); olr.close()"
    given = f"globalThis.maps = {json.dumps(maps)}.map(mapFilesOf), null"
    page.value(given)
    first = page.value(f"(() => {{ {work}; {work}; return memory(); }})()")
    assert (
        page.value(
            f"(() => {{ for (let at = 0; at < 100; at += 1) {{ {work}; }} return memory(); }})()"
        )
        == first
    )


@pytest.fixture(scope="module")
def records(tmp_path_factory: pytest.TempPathFactory) -> Path:
    """Records of each question, of words that aren't understood and of a text that is no reference."""
    texts = [f"{what} -- {REFERENCE}" for what in ("show", "candidates", "match", "places", "why")]
    others = [
        "",
        f"match --all -- {REFERENCE}",
        "match --help",
        "why -- x",
        "k\tmatch --page 0 -- x",
    ]
    file = tmp_path_factory.mktemp("records") / "records"
    file.write_text("".join(f"{text}\n" for text in [*texts, *others]))
    return file


def test_a_map_takes_the_place_of_the_one_before(
    page: Page, program: Program, other: Path, records: Path
) -> None:
    page.begin_without_map()
    answers = []
    for folder in (EXAMPLES, other, EXAMPLES):
        assert page.open(folder) == [0, ""]
        answers.append(page.lines(records.read_text()))
        assert answers[-1] == printed(program, folder, records)
    assert answers[0] == answers[2] != answers[1]


def test_without_a_map(page: Page, program: Program, records: Path, tmp_path: Path) -> None:
    """Before the first map, and behind a map that was closed, a map without lines is asked."""
    (tmp_path / NODES).write_text("id,lon,lat\n")
    (tmp_path / LINES).write_text("id,from,to,class,form,length,shape\n")
    page.begin_without_map()
    for _ in range(2):
        assert page.lines(records.read_text()) == printed(program, tmp_path, records)
        assert page.open(EXAMPLES) == [0, ""]
        assert page.lines(records.read_text()) == printed(program, EXAMPLES, records)
        page.value("olr.close(), null")


def test_a_map_that_is_refused(page: Page, program: Program, tmp_path: Path) -> None:
    """Each question on the map has its fault, also where a map was kept before; what needs no map is answered."""
    for name in (NODES, LINES):
        (tmp_path / name).write_bytes((EXAMPLES / name).read_bytes())
    (tmp_path / BANS).write_text("from,to\n1,x\n")
    fault = program.fault(tmp_path)
    assert fault
    page.begin(tmp_path)
    for others in ("", ", '1@1'"):
        asked = f"program.answer('match', {{}}, {json.dumps(REFERENCE)}{others})"
        tried = (
            f"(() => {{ try {{ return {asked}; }} catch (error) {{ return error.message; }} }})()"
        )
        assert page.value(tried) == fault
    assert page.value(f"program.show({json.dumps(REFERENCE)}).fault") is None
    page.begin_without_map()
    page.open(EXAMPLES)
    assert page.open(tmp_path) == [1, f"olr: {fault}\n"]
    assert '{"points":[[],[],[]]}' in page.lines(f"candidates -- {REFERENCE}\n")


def test_a_long_output_is_whole(page: Page, program: Program, tmp_path: Path) -> None:
    """An output with more bytes than the first room for one."""
    page.begin_without_map()
    page.open(EXAMPLES)
    words = "match --page 1000 --radius 1000 --bearing 16"
    (tmp_path / "records").write_text(f"{words} -- {REFERENCE}\n" * 40)
    expected = printed(program, EXAMPLES, tmp_path / "records")
    assert len(expected) > 1 << 20
    assert page.lines((tmp_path / "records").read_text()) == expected


def test_a_cursor_with_blanks(page: Page) -> None:
    """It is no cursor, and its blanks end no word."""
    page.begin(EXAMPLES)
    found = page.value(
        f"program.answer('match', {{}}, {json.dumps(REFERENCE)}, '8:1.1.1 --page 1')"
    )
    assert found == {"text": None, "fault": "BadCursor"}
