"""The page that answers by itself where memory is refused, or a trap stops the program: it says so, and goes on."""

import json
import pytest
import subprocess
from collections.abc import Iterator
from pathlib import Path
from typing import Any, get_args

from asking import draw_map
from browser import Browser
from conftest import REFERENCE, TOP, Program, Tools, by_default
from olr.model.questions import What
from olr.pages.alone import module
from page_of_file import FilePage, answer_in, lines_of_batch, write_page

PAGE = 1 << 16
"""Bytes that memory grows by."""
MEMORY = 5
"""The number of the section of a module that says how much memory it has."""
REFUSED = "NoMemory: the allocator refused memory; raise the limit, or cut the map"
HEAVY = "radius=300&bearing=16&percent=100&slack=10000"
"""Numbers with which the reference below has thousands of matchings."""


def read_number(data: bytes, at: int) -> tuple[int, int]:
    """A number of a module, and where it ends: seven bits a byte, the lowest first."""
    number = data[at] & 127
    if data[at] < 128:
        return number, at + 1
    more, end = read_number(data, at + 1)
    return number | more << 7, end


def number_of(value: int) -> bytes:
    """The bytes of a number of a module."""
    return bytes([value]) if value < 128 else bytes([value & 127 | 128]) + number_of(value >> 7)


def limited(content: bytes, most: int) -> bytes:
    """A module whose memory has so many bytes at most."""
    made, at = content[:8], 8
    while at < len(content):
        kind = content[at]
        size, begin = read_number(content, at + 1)
        at = begin + size
        section = content[begin:at]
        if kind == MEMORY:
            assert section[:2] == b"\x01\x00", "one memory, without a limit"
            least, _ = read_number(section, 2)
            section = b"\x01\x01" + number_of(least) + number_of(most // PAGE)
        made += bytes([kind]) + number_of(len(section)) + section
    return made


@pytest.fixture(scope="module")
def drawn(tmp_path_factory: pytest.TempPathFactory) -> Path:
    """A map of 20,000 lines. The program needs 14 MB for it."""
    return draw_map(tmp_path_factory.mktemp("many"), 10_000, 20_000)


@pytest.fixture(scope="module")
def reference(drawn: Path) -> str:
    """A reference of ten points on it."""
    script = TOP / "bench/generate_reference.py"
    command = ["/usr/bin/python3", str(script), "--map", str(drawn), "--seed", "5"]
    ended = subprocess.run(command, check=True, capture_output=True, text=True)
    return ended.stdout.split()[-1]


@pytest.fixture(scope="module")
def page(browser: Browser, tools: Tools, drawn: Path, megabytes: int) -> Iterator[FilePage]:
    """Its page, whose program has so much memory at most."""
    path = drawn / f"olr{megabytes}.wasm"
    path.write_bytes(limited(module.find_module().read_bytes(), megabytes << 20))
    with pytest.MonkeyPatch.context() as change:
        change.setattr(module, "PLACES", (path,))
        found = FilePage(browser, write_page(tools, drawn, path.with_suffix(".html")))
    found.begin()
    yield found
    assert found.is_quiet()


@pytest.fixture(scope="module")
def megabytes(request: pytest.FixtureRequest) -> int:
    """What a test is `within`."""
    return int(request.param)


def within(megabytes: int) -> pytest.MarkDecorator:
    """What a test is marked with whose program has so much memory."""
    return pytest.mark.parametrize("megabytes", [megabytes], indirect=True)


def problem(page: FilePage, address: str) -> tuple[int, str, str]:
    """The status, the title and the detail of a problem."""
    [(status, text)] = page.answers([address])
    document = json.loads(text)
    return status, document["title"], document["detail"]


def require_answers(page: FilePage, program: Program, folder: Path, reference: str) -> None:
    """The page answers as the program does."""
    whats: tuple[What, ...] = get_args(What)
    usual = by_default()
    lines = [lines_of_batch(program, what, folder, [("", reference)], *usual)[0] for what in whats]
    found = page.answers([f"{what}?ref={reference}" for what in whats])
    assert found == [(200, answer_in(line)) for line in lines]


@within(32)
def test_a_question_that_needs_too_much(
    page: FilePage, program: Program, drawn: Path, reference: str
) -> None:
    """The program is refused memory: that is a fault of this reference."""
    require_answers(page, program, drawn, reference)
    for _ in range(2):
        found = problem(page, f"match?ref={reference}&page=1000&{HEAVY}")
        assert found == (422, "NoMemory", "NoMemory: the allocator refused memory")
        require_answers(page, program, drawn, reference)


@within(32)
def test_answers_that_there_is_no_room_for(
    page: FilePage, program: Program, drawn: Path, reference: str
) -> None:
    """The room for what the program writes is refused: so many rows have no answer, and fewer have one."""

    def asked(count: int) -> Any:
        body = "".join(f"{number}\t{reference}\n" for number in range(count))
        asking = f"fetch('rows?profile=program&look=10000&within=14620&most=100', {{ method: 'POST', body: {json.dumps(body)} }})"
        return page.value(f"{asking}.then(async answer => [answer.status, await answer.text()])")

    status, text = asked(100)
    document = json.loads(text)
    assert (status, document["title"], document["detail"]) == (503, "NoMemory", REFUSED)
    status, text = asked(3)
    rows = [json.loads(line) for line in text.splitlines()]
    assert status == 200 and [row["key"] for row in rows] == ["0", "1", "2"]
    require_answers(page, program, drawn, reference)


@within(10)
def test_a_map_that_is_too_large(
    page: FilePage, program: Program, drawn: Path, reference: str
) -> None:
    """Each question says so, also on the page, and what needs no map is answered."""
    for what in ("candidates", "match", "places", "why", "scene") * 2:
        assert problem(page, f"{what}?ref={reference}") == (503, "NoMemory", REFUSED)
        expected = program.run("show", "--format", "json", "--", REFERENCE).stdout
        assert page.answers([f"show?ref={REFERENCE}"]) == [(200, expected.rstrip("\n"))]
    assert page.ask(reference) == "failed" and REFUSED in page.text("#problem")


TRAPPING = """"use strict";
const made = WebAssembly.instantiate;
WebAssembly.instantiate = async (...given) => {
  const instance = await made(...given);
  return { exports: { ...instance.exports, olr_page_ask: () => { throw new WebAssembly.RuntimeError("unreachable"); } } };
};
"""
"""A script before those of the worker: what is instantiated at its start traps."""


def test_a_trap(browser: Browser, tools: Tools, program: Program, tmp_path: Path) -> None:
    """The question has no answer, and others have one, of a new instance."""
    folder = TOP / "examples"
    file = write_page(tools, folder, tmp_path / "page.html")
    worker = '<script id="worker" type="text/plain">'
    text = file.read_text()
    assert text.count(worker) == 1
    file.write_text(text.replace(worker, worker + TRAPPING))
    page = FilePage(browser, file)
    page.begin()
    assert problem(page, f"match?ref={REFERENCE}") == (503, "ProgramFailed", "unreachable")
    require_answers(page, program, folder, REFERENCE)
    assert page.is_quiet()
