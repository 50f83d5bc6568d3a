"""Members of records that are kept: their kinds and values, the names of their columns, and the file that is read twice for them."""

import gzip
import json
import math
import pytest
import sqlite3
import tracemalloc
from contextlib import closing
from io import BytesIO
from pathlib import Path
from typing import Any

from conftest import REFERENCE
from olr.errors import ToolError
from olr.matching.columns import ANSWERS, REASONS
from olr.matching.kept_columns import kept_columns
from olr.messages import kinds
from olr.messages.kinds import Kinds, json_text, value_as
from olr.messages.message import ALL, Message, Reading
from olr.messages.message_file import message_file
from olr.messages.reading import messages_in
from olr.regions.geopackage import insert


def gathered(*values: Any, keep: tuple[str, ...] = ALL) -> Kinds:
    """The kinds of a member `a` that has these values."""
    found = Kinds(Reading(keep=keep), "x")
    for value in values:
        found.add({"a": value})
    return found


@pytest.mark.parametrize(
    ("given", "kind", "expected"),
    [
        ([1, None, -(2**63), 2**63 - 1], "int64", [1, None, -(2**63), 2**63 - 1]),
        ([1, 2.5, -(2**53)], "float", [1.0, 2.5, -(2.0**53)]),
        # Neither is exact otherwise.
        ([2**53 + 1, 2.5], "str", ["9007199254740993", "2.5"]),
        ([1, 2**63], "str", ["1", "9223372036854775808"]),
        ([True, None, False], "bool", [True, None, False]),
        ([True, 1], "str", ["true", "1"]),
        (["", "b", None], "str", ["", "b", None]),
        (["b", 1, [1, "ä"], {"c": None}], "str", ["b", "1", '[1,"ä"]', '{"c":null}']),
        ([[1], {"c": [2.5]}, []], "json", [[1], {"c": [2.5]}, []]),
        ([math.nan, 1.5, -math.inf], "float", [None, 1.5, None]),
        ([math.inf, 1], "int64", [None, 1]),
        ([[math.nan, {"c": math.inf}]], "json", [[None, {"c": None}]]),
        ([None], "str", [None]),
        ([], "str", []),
    ],
)
def test_kinds_and_values(given: list[Any], kind: str, expected: list[Any]) -> None:
    """They are those of all records together. What was made once stays as it is, and is JSON."""
    found = gathered(*given, keep=("a",)).found()
    assert found == {"a": kind}
    values = [value_as(value, found["a"]) for value in given]
    assert values == expected and list(map(type, values)) == list(map(type, expected))
    assert [value_as(json.loads(json_text(value)), found["a"]) for value in values] == values


def test_a_value_of_another_kind() -> None:
    """It wasn't there when the file was looked through."""
    for value, kind in (("x", "int64"), (2.5, "int64"), (True, "float"), (1, "bool"), (1, "json")):
        with pytest.raises(ToolError, match="the file changed meanwhile"):
            value_as(value, kind)  # type: ignore[arg-type]


def test_lists_within_lists() -> None:
    """As many as a record of JSON may have."""
    value: Any = 1
    for _ in range(kinds.MOST_DEPTH):
        value = {"b": 1, "a": value}
    gathered(value)
    with pytest.raises(ToolError, match="^x has in a more than 200 lists and objects within each"):
        gathered([value])


def test_names() -> None:
    """No more of them than a table takes, and none that would fill the memory."""
    found = gathered()
    found.add({str(number): 1 for number in range(kinds.MOST_NAMES)})
    with pytest.raises(ToolError, match="^x has more than 500 members to keep: name those"):
        found.add({"more": 1})
    gathered().add({"n" * kinds.MOST_LETTERS: 1})
    with pytest.raises(
        ToolError, match="^x has a member with a name of 1,001 letters, nnn"
    ) as said:
        gathered().add({"n" * (kinds.MOST_LETTERS + 1): 1})
    assert len(str(said.value)) < 300


def test_a_name_that_no_record_has() -> None:
    """It is there if a record has it, whatever its value."""
    gathered(None, keep=("a",)).require_all()
    with pytest.raises(ToolError, match="^x has no b in any record: name another by --keep$"):
        gathered(1, keep=("a", "b")).require_all()


@pytest.mark.parametrize(
    ("members", "names"),
    [
        (["speed", "a.b", "@id"], ["speed", "a.b", "@id"]),
        (["total", "Key"], ["kept_total", "kept_Key"]),
        (
            ["RECORD", "fid", "Geom", "rowid"],
            ["kept_RECORD", "kept_fid", "kept_Geom", "kept_rowid"],
        ),
        (["road", "Road", "ROAD", "road_2"], ["road", "Road_2", "ROAD_3", "road_2_2"]),
        (["kept_total", "total", "Total"], ["kept_total", "kept_total_2", "kept_Total_3"]),
        (["a\nb", "a b", "\t", ""], ["a b", "a b_2", "kept_", "kept__2"]),
        (["at", "remedies"], ["at", "remedies"]),
    ],
)
def test_names_of_columns(members: list[str], names: list[str]) -> None:
    """None is one of ours or another one's, in whatever case."""
    assert list(kept_columns({member: "str" for member in members}, ANSWERS)) == names


def test_names_of_columns_of_reasons() -> None:
    found = kept_columns({"at": "int64", "rank": "str"}, REASONS)
    assert [(name, column.kind) for name, column in found.items()] == [
        ("kept_at", "int64"),
        ("rank", "str"),
    ]
    messages = [Message(1, None, "", None, {"at": 5}), Message(2, None, "")]
    assert [list(column.values(messages)) for column in found.values()] == [[5, None], [None, None]]


RECORDS = f'{{"ref":"{REFERENCE}","a":1}}\n'


def test_a_file_that_changes(tmp_path: Path) -> None:
    """Where something is kept that is an error; it is read each time with the kinds that it had."""
    file = tmp_path / "messages.jsonl"
    file.write_text(RECORDS)
    with message_file(file, Reading(keep=("a",))) as found:
        assert (found.total, found.kept) == (1, {"a": "int64"})
        assert [message.kept for message in found.messages()] == [{"a": 1}]
        file.write_text(RECORDS * 2)
        messages = found.messages()
        assert len([next(messages), next(messages)]) == 2
        with pytest.raises(ToolError, match="changed while it was read: begin again"):
            next(messages)
    with message_file(file, Reading()) as found:
        file.write_text(RECORDS)
        assert (found.total, len(list(found.messages()))) == (2, 1)


def test_memory(tmp_path: Path) -> None:
    """Values aren't held: 8 MB of them take no more than the pieces that are read at once."""
    file = tmp_path / "messages.jsonl"
    with gzip.open(file, "wt", compresslevel=1) as stream:
        for number in range(800):
            stream.write(json.dumps({"ref": REFERENCE, "a": "x" * 10_000 + str(number)}) + "\n")
    tracemalloc.start()
    try:
        with message_file(file, Reading(keep=ALL)) as found:
            assert (found.total, found.kept) == (800, {"a": "str"})
        assert tracemalloc.get_traced_memory()[1] < 4_500_000
    finally:
        tracemalloc.stop()


NESTED = f"""<feed><jam id="0"><note>none</note></jam><jam id="1"><openlrBinary>{REFERENCE}</openlrBinary><note>one</note>
<jam id="2"><cause>road <kind>works<kind>now</kind></kind></cause><openlrBinary>{REFERENCE}</openlrBinary></jam>
<openlrBinary>{REFERENCE}</openlrBinary></jam><jam id="3"/><jam id="4"><openlrBinary>{REFERENCE}</openlrBinary></jam></feed>"""


@pytest.mark.parametrize("options", [{}, {"ref": "openlrBinary"}, {"key": "note"}])
def test_numbers_of_messages_of_xml(options: dict[str, Any]) -> None:
    """What is kept of records changes neither the number nor the key of a message, though they come when the record ends. An element within
    one that is kept is kept too."""
    found = []
    for keep in ((), ("all",), ("note",), ("cause", "kind")):
        stream = BytesIO(NESTED.encode())
        messages = list(messages_in(stream, Reading(keep=keep, **options), "x"))
        found.append({message.record: message.key for message in messages})
    assert list(found[0]) == list(range(1, len(messages) + 1)) and len(messages) > 3
    assert all(one == found[0] for one in found)
    kept = [dict(one.kept) for one in messages if one.kept]
    assert {"cause": "road works now", "kind": "works now"} in kept


def test_rows_with_many_columns() -> None:
    """SQLite takes no more values at once, unless it is built otherwise."""
    with closing(sqlite3.connect(":memory:")) as base:
        base.setlimit(sqlite3.SQLITE_LIMIT_VARIABLE_NUMBER, 32_766)
        base.execute(f"CREATE TABLE wide ({', '.join(f'm{number}' for number in range(500))})")
        insert(base, "wide", *[range(number, number + 300) for number in range(500)])
        assert base.execute("SELECT count(*), min(m7), max(m499) FROM wide").fetchall() == [
            (300, 7, 798)
        ]
