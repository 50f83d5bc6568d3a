"""`olr.answers`: what `olr batch` and `olr-tools run` wrote, read again."""

import json
import pytest
from itertools import islice
from pathlib import Path
from typing import Any

import olr
from asking import as_json
from conftest import TOP, Program
from olr.model.questions import What
from runs import Town, lines_of_batch

EXAMPLES = TOP / "examples"


@pytest.mark.parametrize("what", ["candidates", "match", "places", "why"])
def test_all_lines(what: What, town: Town, program: Program, tmp_path: Path) -> None:
    """Records of all kinds: each line is what its JSON has."""
    file = tmp_path / "lines.jsonl"
    file.write_bytes(lines_of_batch(program, town.folder, what, town.messages))
    number = 0
    for number, (line, one) in enumerate(zip(file.open(), olr.answers(file), strict=True), 1):
        expected = json.loads(line)
        assert (one.key, one.record) == (expected["key"], expected["record"])
        if isinstance(one.answer, olr.Fault):
            assert (expected["answer"], expected["fault"]) == (None, one.answer.text)
        else:
            assert (as_json(one.answer), None) == (expected["answer"], expected["fault"])
    assert number > 300


def test_keys_that_look_like_an_answer(program: Program, tmp_path: Path) -> None:
    keys = ['"],"next":', "[[1,2,3]]", ',"fault":null,', '{"answer":null', "\\", "null"]
    records = tmp_path / "records.tsv"
    texts = [text for _, text in olr.read_messages(EXAMPLES / "messages.tsv")]
    records.write_text("".join(f"{key}\t{texts[0]}\n{key}\t{texts[4]}\n" for key in keys))
    whats: tuple[What, ...] = ("match", "places")
    for what in whats:
        file = tmp_path / f"{what}.jsonl"
        file.write_bytes(lines_of_batch(program, EXAMPLES, what, records))
        found = list(olr.answers(file))
        assert [one.key for one in found] == [key for key in keys for _ in range(2)]
        with olr.Map(EXAMPLES, profile="program") as town:
            first, last = town.answers(what, [texts[0], texts[4]])
        assert [one.answer for one in found] == [first, last] * len(keys)


def test_a_table_of_them(program: Program, tmp_path: Path) -> None:
    file = tmp_path / "lines.jsonl"
    words = ("--map", EXAMPLES, "--shape", "--input", EXAMPLES / "messages.tsv")
    file.write_text(program.run("batch", "places", *words).stdout)
    read: list[Any] = list(olr.answers(str(file)))
    found = olr.to_geodataframe([one.answer for one in read], keys=[one.key for one in read])
    assert found["key"].tolist() == ["m1", "m2", "m3", "m4", "m5"]
    assert found.geometry.notna().tolist() == [True, True, True, False, False]


def test_one_at_a_time(tmp_path: Path) -> None:
    """What is behind isn't read before it is asked for."""
    file = tmp_path / "lines.jsonl"
    file.write_bytes(b'{"answer":null,"fault":"BadLength 1","key":null,"record":3}\n' * 9 + b"no")
    found = olr.answers(file)
    assert list(islice(found, 9)) == [(None, 3, olr.Fault("BadLength 1"))] * 9
    with pytest.raises(olr.ToolError, match="lines.jsonl: line 10 isn't an answer of olr-tools"):
        next(found)
    with pytest.raises(olr.ToolError, match="other.jsonl can't be read: No such file"):
        olr.answers(tmp_path / "other.jsonl")


@pytest.mark.parametrize(
    "line",
    [
        "",
        "{}",
        "[]",
        '{"answer":null,"fault":null,"key":null,"record":1}',
        '{"answer":{},"fault":null,"key":null,"record":1}',
        '{"answer":{"matchings":[]},"fault":null,"key":null,"record":1}',
        '{"answer":{"points":[[{}]]},"fault":null,"key":null}',
        '{"answer":{"points":[]},"fault":null,"key":7,"record":1}',
        '{"answer":{"looked":1},"fault":null,"key":null,"record":1}',
        '{"answer":{"points":[],"fault":null,"key":null,"record":1}',
        '{"answer":null,"fault":"BadLength 1","key":null,"record":',
    ],
)
def test_lines_that_are_no_answers(line: str, tmp_path: Path) -> None:
    file = tmp_path / "lines.jsonl"
    file.write_text(line + "\n")
    with pytest.raises(olr.ToolError, match="line 1 isn't an answer"):
        list(olr.answers(file))
