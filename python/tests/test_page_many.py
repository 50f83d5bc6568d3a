"""The page that answers by itself on a map of many lines: 2,000 references are answered as the program does."""

import hashlib
import json
import pytest
from collections.abc import Sequence
from pathlib import Path
from typing import get_args

from asking import draw_map, draw_references
from browser import Browser
from conftest import Program, Tools
from olr.model.questions import What
from page_of_file import FilePage, lines_of_batch, write_page

LINES, COUNT, LOT = 20_000, 2_000, 500
"""Of the map, of references on it, and of those that the program is asked about at once."""
BEFORE = """"use strict";
addEventListener("message", (event) => {
  const { what, records } = event.data;
  if (!records) return;
  event.stopImmediatePropagation();
  postMessage({ kind: "lines", lines: known.program.lines(what, {}, records) });
});
"""
"""A script before those of a worker: it answers lots of records by what the program says, and by nothing of the other scripts."""
OF_WORKER = """(async (before, what, lots) => {
  const text = (id) => document.getElementById(id).textContent;
  const worker = new Worker(URL.createObjectURL(new Blob([before, text("worker")], { type: "text/javascript" })));
  const told = (kind) => new Promise((done, fail) => {
    worker.onmessage = ({ data }) => data.kind === kind && done(data);
    worker.onerror = ({ message }) => fail(new Error(message));
  });
  const digest = async (line) => {
    const bytes = await crypto.subtle.digest("SHA-256", new TextEncoder().encode(line));
    return [...new Uint8Array(bytes)].map((byte) => byte.toString(16).padStart(2, "0")).join("");
  };
  worker.postMessage({ kind: "start", packed: text("packed"), data: JSON.parse(text("data")) });
  await told("state");
  const found = [];
  for (const records of lots) {
    worker.postMessage({ what, records });
    found.push(...(await told("lines")).lines);
  }
  worker.terminate();
  return Promise.all(found.map(digest));
})"""
"""The digests of these lines."""


@pytest.fixture(scope="module")
def drawn(tmp_path_factory: pytest.TempPathFactory) -> Path:
    """The map."""
    return draw_map(tmp_path_factory.mktemp("many"), LINES // 2, LINES)


@pytest.fixture(scope="module")
def references(drawn: Path) -> list[str]:
    """The references, of which every ninth is damaged."""
    return draw_references(drawn, COUNT)


@pytest.fixture(scope="module")
def page(browser: Browser, tools: Tools, drawn: Path) -> FilePage:
    """The page, once the program is there."""
    found = FilePage(browser, write_page(tools, drawn, drawn / "many.html"))
    found.begin()
    return found


def lots_of(references: Sequence[str]) -> list[list[tuple[str, str]]]:
    """Their records, in lots. Those of each one count from 1."""
    records = [(f"k{number}", ref) for number, ref in enumerate(references)]
    return [records[begin : begin + LOT] for begin in range(0, len(records), LOT)]


def lines_of(program: Program, folder: Path, what: What, references: Sequence[str]) -> list[str]:
    """What the program says of references."""
    lots = lots_of(references)
    return [line for lot in lots for line in lines_of_batch(program, what, folder, lot)]


@pytest.mark.parametrize("what", get_args(What))
def test_two_thousand_references(
    page: FilePage, program: Program, drawn: Path, references: list[str], what: What
) -> None:
    """Byte for byte."""
    expected = lines_of(program, drawn, what, references)
    given = ", ".join(map(json.dumps, (BEFORE, what, lots_of(references))))
    found = page.value(f"{OF_WORKER}({given})")
    digests = [hashlib.sha256(line.encode()).hexdigest() for line in expected]
    assert len(found) == len(digests) == COUNT
    differing = [line for line, one, other in zip(expected, digests, found) if one != other]
    assert differing[:1] == []
    assert page.is_quiet()


def test_rows_of_two_thousand_references(
    page: FilePage, program: Program, drawn: Path, references: list[str]
) -> None:
    """They come in pieces, in the order of the records, with the keys of these."""
    body = "".join(f"k{number}\t{ref}\n" for number, ref in enumerate(references))
    asking = "const answer = await fetch('rows?profile=program', { method: 'POST', body }); return answer.text();"
    text = page.value(f"(async (body) => {{ {asking} }})({json.dumps(body)})")
    rows = [json.loads(line) for line in text.splitlines()]
    assert [row["key"] for row in rows] == [f"k{number}" for number in range(COUNT)]
    lines = map(json.loads, lines_of(program, drawn, "places", references))
    verdicts = [line["fault"] or line["answer"]["verdict"] for line in lines]
    assert [row["fault"] or row["verdict"] for row in rows] == verdicts
    assert len(set(verdicts)) > 4
    assert page.is_quiet()
