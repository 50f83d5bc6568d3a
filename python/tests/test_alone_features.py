"""Features and rows of the page that answers by itself: their texts are those of the server's lines."""

import json
import pytest
from collections.abc import Callable, Sequence
from pathlib import Path
from typing import Any, NamedTuple

from alone import Scripts
from asking import draw_map, draw_references
from browser import Browser
from conftest import TOP, Program
from feeds import point_along_line
from olr.asking.records import Answered, Record
from olr.asking import exchange
from olr.asking.program import SHIPPED
from olr.confidence.confidence import Confidence
from olr.geometry.network import Network
from olr.model.objects import raw_line
from olr.model.questions import What
from olr.serving import row_texts
from olr.serving.feature_texts import lines_of
from olr.pages.alone.tables import tables
from olr.serving.queries import Options, asked_of
from olr.serving.tasks import LinesTask
from olr.serving.wanted import likely_of, shaped

COUNT = 60
KIOSK = "KwVGnCN20HPDBwFCATFjT5Y="
"""A point along a line with an offset."""
OPTIONS = [
    {"profile": "feed"},
    {"radius": "60", "lowest": "1"},
    {"most": "3", "within": "60", "apart": "200"},
]
LOOK = 1000


class Asked(NamedTuple):
    """What the program answered to a list."""

    network: Network
    kind: exchange.Asked
    lines: Sequence[bytes]
    texts: Sequence[str]

    def answered(self) -> list[Answered]:
        """The answers, as the server has them."""
        raw = list(map(raw_line, self.lines))
        return [
            Answered(Record(one.record, f"{one.key}\t{text}".encode()), one.answer, one.fault)
            for one, text in zip(raw, self.texts)
        ]


def ask(
    program: Program, folder: Path, texts: Sequence[str], what: What, options: Options
) -> Asked:
    """Asks the program about references on a map, with the options of an address."""
    kind = asked_of(what, options, LOOK)
    words = list(shaped(likely_of(kind)).words)
    words += ["--confidence", str(SHIPPED)] if what == "places" else []
    list_of = folder / "list.tsv"
    list_of.write_text("".join(f'k{n} "é"\t{text}\n' for n, text in enumerate(texts)))
    ended = program.run("batch", what, "--map", folder, "--input", list_of, *words)
    lines = ended.stdout.encode().splitlines()
    assert len(lines) == len(texts)
    return Asked(Network.read(folder), kind, lines, texts)


def lines_in_page(scripts: Scripts, asked: Asked) -> str:
    """The lines of features that the scripts make of the program's."""
    found: str = scripts.value(
        "lines.map((line) => featureLine(line, tables)).join('')",
        lines=[line.decode() for line in asked.lines],
        tables=tables(),
    )
    return found


def rows_in_page(scripts: Scripts, asked: Asked) -> str:
    """The rows that the scripts make of them."""
    found: str = scripts.value(
        "lines.map((line) => `${rowText(rowOf(line, { numbers, confidence, tables }))}\n`).join('')",
        lines=[line.decode() for line in asked.lines],
        numbers=asked.kind.numbers(),
        confidence=json.loads(SHIPPED.read_text()),
        tables=tables(),
    )
    return found


@pytest.fixture(scope="module")
def scripts(browser: Browser) -> Scripts:
    """The scripts."""
    return Scripts(browser)


@pytest.fixture(scope="module")
def maps(tmp_path_factory: pytest.TempPathFactory) -> Callable[[str], tuple[Path, list[str]]]:
    """The example map and a drawn one, with references: some are damaged, and some are points along a line."""
    drawn = draw_map(tmp_path_factory.mktemp("drawn"), 600, 1200)
    example = tmp_path_factory.mktemp("example")
    for name in ("nodes.csv", "lines.csv"):
        (example / name).write_bytes((TOP / "examples" / name).read_bytes())
    known = (TOP / "examples/messages.tsv").read_text().splitlines()
    texts = draw_references(drawn, COUNT)
    texts += [point_along_line(text) for text in texts if len(text) == 24]
    found = {
        "drawn": (drawn, texts),
        "example": (example, [KIOSK, *(line.split("\t")[1] for line in known)]),
    }
    return found.__getitem__


@pytest.mark.parametrize("options", OPTIONS)
@pytest.mark.parametrize("name", ["drawn", "example"])
def test_places(
    scripts: Scripts,
    program: Program,
    maps: Callable[[str], tuple[Path, list[str]]],
    name: str,
    options: Options,
) -> None:
    folder, texts = maps(name)
    asked = ask(program, folder, texts, "places", options)
    found = lines_in_page(scripts, asked)
    wanted = lines_of(asked.answered(), asked.network, "places").decode()
    assert found == wanted
    assert ('"probability":0.' in wanted) == ("profile" in options)
    task = LinesTask("rows", asked.kind, Confidence.default(), asked.answered())
    rows = row_texts.lines_of(task).decode()
    assert rows_in_page(scripts, asked) == rows
    assert ("no probabilities: " in rows) == ("profile" not in options)
    if name == "drawn":
        kinds = {json.loads(text)["properties"]["part"] for text in found.split("\x1e")[1:]}
        assert kinds == {"outer", "point", None}


@pytest.mark.parametrize("name", ["drawn", "example"])
def test_matchings(
    scripts: Scripts, program: Program, maps: Callable[[str], tuple[Path, list[str]]], name: str
) -> None:
    """Lines of the program become lines of features."""
    folder, texts = maps(name)
    asked = ask(program, folder, texts, "match", {"page": "4"})
    found = lines_in_page(scripts, asked)
    assert found == lines_of(asked.answered(), asked.network, "match").decode()


def test_an_answer_that_is_too_large(scripts: Scripts) -> None:
    """Of such a one no lines are made."""
    network = Network.read(TOP / "examples")
    for size in ((4 << 20) - 60, (4 << 20) + 1):
        filled = '{"cut":false,"looked":0,"margin":null,"next":null,"places":[],"verdict":"none"}'
        answer = filled[:-1] + " " * (size - len(filled)) + "}"
        line = f'{{"answer":{answer},"fault":null,"key":"k","record":7}}'
        one = Answered(Record(7, b"k\tx"), answer.encode(), None)
        found = scripts.value("featureLine(line, tables)", line=line, tables=tables())
        assert found == lines_of([one], network, "places").decode()


def test_names_of_lines(scripts: Scripts) -> None:
    """Sources and names, of which one that several lines in a row have is there once."""
    matching: dict[str, Any] = {
        **{"total": 1, "cursor": "1:1.1", "points": [], "legs": [], "route": [], "inner": None},
        "outer": [[str(line), 0, 10] for line in (1, 2, 3, 4, 1)],
        "shape": {"outer": [[0, 0], [1_000_000, -25]]},
    }
    page = {"matchings": [matching], "next": None}
    sources = [
        [str(line), {"source": source, "name": name}]
        for line, source, name in [
            (1, "a", "High Street"),
            (2, "a", ""),
            (3, "b", "High Street"),
            (4, "c", None),
        ]
    ]
    given = "featuresOfPage({ page }, new Map(sources))"
    (found,) = scripts.value(given, page=page, sources=sources)
    names = found["properties"]
    assert (names["sources"], names["names"], names["lines"]) == (
        "a;b;c;a",
        "High Street",
        "1;2;3;4;1",
    )
    assert found["geometry"]["coordinates"] == [[0, 0], [1, -0.000025]]
    assert list(names)[0] == "likely"
