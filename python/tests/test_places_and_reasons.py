"""`olr-tools match --places --why`: the rows of places, and columns that say why other messages have none."""

import csv
import os
import pytest
import sqlite3
from collections.abc import Iterator
from pathlib import Path
from typing import Any

from conftest import OF_PROGRAM, TOP, Program, Tools
from feeds import CROWDED, Feed, make_feed
from olr.client.map_client import Map
from olr.matching.chunks import ROWS
from olr.matching.columns import ANSWERS, NO_PLACE

EXAMPLES = TOP / "examples"
FAULTY = TOP / "python/tests/feeds_xml/openlr.xml"
UNMATCHED = "CwVGnSN2zhtnBgEB/2IjAQ=="
ROADWORKS = "CwVGnSN2zhvHCgDX/tIzAw=="
"""It has two places on the map of the examples without its bans."""


@pytest.fixture(autouse=True)
def environment(program: Program, monkeypatch: pytest.MonkeyPatch) -> None:
    """The command finds the program by the environment."""
    monkeypatch.setenv("OLR_PROGRAM", os.fspath(program.path))


@pytest.fixture(scope="module")
def feed(tmp_path_factory: pytest.TempPathFactory) -> Feed:
    """Messages with a place and with none, one whose points have too many candidates, and some that are refused."""
    made = make_feed(tmp_path_factory.mktemp("feed"), 60)
    with made.messages.open("a") as stream:
        stream.write("bad\tbad\nshort\tCwVGnSN2zhvHCgDX\nempty\t\n")
    return made


def rows_of(file: Path) -> list[dict[str, str]]:
    with file.open(newline="", encoding="utf-8") as stream:
        return list(csv.DictReader(stream))


def matched(
    tools: Tools, feed: Feed, out: Path, *words: object
) -> tuple[str, list[dict[str, str]]]:
    """What `match` prints behind the names of its files, and its rows."""
    given = ["match", feed.messages, "--map", feed.folder, "--out", out, *words]
    ended = tools.run(*given)
    assert (ended.returncode, ended.stderr) == (0, "")
    return ended.stdout.partition(": ")[2], rows_of(out)


@pytest.mark.parametrize("numbers", [[], ["--within", 60, "--most", 2, "--radius", 60]])
def test_one_table(tools: Tools, feed: Feed, tmp_path: Path, numbers: list[object]) -> None:
    """The rows, the pieces and the summary are those of `--places`, and the columns behind them those of `--why`, where there is no place."""
    why = {
        row["record"]: row
        for row in matched(tools, feed, tmp_path / "why.csv", "--why", *numbers[4:])[1]
    }
    made = {}
    for name, question in (("places", ["--places"]), ("both", ["--places", "--why"])):
        pieces = tmp_path / f"pieces of {name}.csv"
        said, rows = matched(
            tools, feed, tmp_path / f"{name}.csv", *question, *numbers, "--pieces", pieces
        )
        made[name] = (said.replace(str(pieces), ""), rows, pieces.read_bytes())
    (said, rows, pieces_of), (also_said, both, also_pieces) = made["places"], made["both"]
    assert said == also_said and "fit nowhere: " in said and pieces_of == also_pieces
    assert list(both[0]) == ["record", "key", *ANSWERS, *NO_PLACE]
    assert [{name: row[name] for name in rows[0]} for row in both] == rows
    seen = set()
    for row in both:
        expected, found = why[row["record"]], tuple(row[name] for name in NO_PLACE)
        if row["rank"]:
            assert found == ("", "", "", "")
        else:
            names = ("verdict", "at", "remedies", "cursor")
            assert found == tuple(expected[name] for name in names)
            seen.add((row["verdict"], row["why"]))
    assert {("fault", "fault"), ("fault", "crowded")} < seen
    assert {"point", "leg"} <= {word for verdict, word in seen if verdict == "none"}
    assert any(row["remedy_cursor"] for row in both)


@pytest.fixture
def asked(monkeypatch: pytest.MonkeyPatch) -> Iterator[list[list[str]]]:
    """The references of which `why` is asked, each time that it is."""
    found: list[list[str]] = []
    answers = Map.answers

    def spy(self: Map, what: Any, refs: Any, **numbers: int) -> Any:
        if what == "why":
            refs = list(refs)
            found.append(refs)
        return answers(self, what, refs, **numbers)

    monkeypatch.setattr(Map, "answers", spy)
    yield found


def test_why_is_asked_where_there_is_no_place(
    tools: Tools, feed: Feed, tmp_path: Path, asked: list[list[str]]
) -> None:
    """Once, and not of those that are refused otherwise."""
    _, rows = matched(tools, feed, tmp_path / "out.csv", "--places", "--why")
    texts = [line.split("\t")[1] for line in feed.messages.read_text().splitlines()]
    without = [row for row in rows if row["verdict"] == "none" or row["why"] == "crowded"]
    found = [text for some in asked for text in some]
    assert found == [texts[int(row["record"]) - 1] for row in without] and CROWDED in found


def test_many_without_a_place(tools: Tools, tmp_path: Path, asked: list[list[str]]) -> None:
    """They are asked about by the chunk, while others are read: none waits for the end of the file."""
    file, count = tmp_path / "messages", 2 * ROWS + 7
    file.write_text(f"{UNMATCHED}\n" * count)
    words = ["--places", "--why", *OF_PROGRAM]
    _, rows = matched(tools, Feed(EXAMPLES, file), tmp_path / "out.csv", *words)
    assert [len(some) for some in asked] == [ROWS, ROWS, 7]
    assert [(row["record"], row["why"], row["at"]) for row in rows] == [
        (str(number), "leg", "1") for number in range(1, count + 1)
    ]


def test_messages_with_several_places(tools: Tools, tmp_path: Path) -> None:
    """A reason stands in the row of its own message, wherever that is."""
    for name in ("nodes.csv", "lines.csv"):
        (tmp_path / name).symlink_to(EXAMPLES / name)
    file = tmp_path / "messages"
    file.write_text(f"{ROADWORKS}\n{UNMATCHED}\n{ROADWORKS}\n{UNMATCHED}\n")
    words = ["--places", "--why", *OF_PROGRAM]
    _, rows = matched(tools, Feed(tmp_path, file), tmp_path / "out.csv", *words)
    assert [(row["record"], row["rank"], row["why"]) for row in rows] == [
        ("1", "2", ""),
        ("1", "1", ""),
        ("2", "", "leg"),
        ("3", "2", ""),
        ("3", "1", ""),
        ("4", "", "leg"),
    ]


def test_all_have_a_place(tools: Tools, tmp_path: Path, asked: list[list[str]]) -> None:
    """Nothing is asked about then, and the columns are there."""
    file = tmp_path / "messages"
    file.write_text("CwVF/yN2yRpnBAFUAAgbpwYBAf9kK0Fa\n")
    _, rows = matched(tools, Feed(EXAMPLES, file), tmp_path / "out.csv", "--places", "--why")
    assert [row["why"] for row in rows] == [""] and asked == []


def test_a_fault_of_its_own(tools: Tools, tmp_path: Path) -> None:
    _, rows = matched(tools, Feed(EXAMPLES, FAULTY), tmp_path / "out.csv", "--places", "--why")
    found = [(row["key"], row["why"], row["fault"]) for row in rows if row["verdict"] == "fault"]
    assert found == [("third", "fault", "Empty"), ("fourth", "fault", "PoiWithAccess")]


def test_the_columns_of_a_layer(tools: Tools, tmp_path: Path) -> None:
    """They have their types, and rows of places alone aren't added to them."""
    out = tmp_path / "out.gpkg"
    words = ["match", EXAMPLES / "messages.tsv", "--map", EXAMPLES, "--out", out, "--places"]
    words += OF_PROGRAM
    assert tools.run(*words, "--why").returncode == 0
    with sqlite3.connect(out) as base:
        columns = base.execute("select name, type from pragma_table_info('places')").fetchall()
        rows = base.execute("select key, why, at from places where why is not null").fetchall()
    assert columns[-4:] == [
        ("why", "TEXT"),
        ("at", "INTEGER"),
        ("remedies", "TEXT"),
        ("remedy_cursor", "TEXT"),
    ]
    assert rows == [("m4", "leg", 1), ("m5", "fault", None)]
    ended = tools.run(*words, "--append")
    assert ended.returncode == 1 and "has other columns" in ended.stderr
    assert tools.run(*words, "--why", "--append").returncode == 0


@pytest.mark.parametrize(
    ("command", "words", "said"),
    [
        ("run", "--places --why", "--places and --why are several questions: give one of them"),
        ("run", "--why --candidates", "--why and --candidates are several questions"),
        ("run", "--candidates --places", "--places and --candidates are several questions"),
        ("run", "--candidates --why --places", "--places and --why and --candidates are several"),
        ("match", "--places --why --page 1", "--page is for match, not for places"),
    ],
)
def test_questions_that_dont_go_together(
    tools: Tools, tmp_path: Path, command: str, words: str, said: str
) -> None:
    given = [command, EXAMPLES / "messages.tsv", "--map", EXAMPLES, "--out", tmp_path / "out.csv"]
    ended = tools.run(*given, *words.split())
    assert ended.returncode == 2 and said in ended.stderr
    assert not list(tmp_path.iterdir())
