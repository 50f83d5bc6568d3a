"""What `olr-tools run` is made of, without Dask: records, references, the curve, groups, regions that are too large, joined files."""

import base64
import json
import numpy as np
import os
import pytest
import random
import tempfile
from collections import Counter
from dataclasses import replace
from itertools import pairwise
from pathlib import Path
from typing import Any

from conftest import REFERENCE, Program
from olr import curve
from olr.asking.records import Record
from olr.content import Content
from olr.errors import ToolError
from olr.messages.message import Reading
from olr.model import road_map
from olr.model.fault import TOO_LARGE
from olr.model.reference import first_position, read_reference
from olr.outputs import PREFIX
from olr.running import answering
from olr.running.answering import ANSWERED, Job, answer_groups
from olr.running.asked_map import AskedMap
from olr.running.grouping import Grouped, digests_of, read_group, usual_size, write_groups
from olr.running.identity import Build
from olr.running.joining import MOST_OPEN, Lines, join, lines_of, number_of
from olr.running.records import END, read_records, reference_of
from olr.running.run_folder import RunFolder
from runs import Town, question_about


def test_records_are_those_of_batch(program: Program, tmp_path: Path) -> None:
    """Ends, empty records and long ones: the program says of each record what it says of the one that it was read as."""
    draw = random.Random(1)
    ends = [b"", b"\r", b"\r\r", b"\r\n"]
    sizes = [0, 1, 65_535, 65_536, 65_537, 65_538, 65_539, 140_000]
    data = b"\n".join(b"x" * draw.choice(sizes) + draw.choice(ends) for _ in range(200))
    asked, again = tmp_path / "asked", tmp_path / "again"
    asked.write_bytes(data)
    read = list(read_records(asked, Reading("tab")))
    again.write_bytes(b"".join(record.data + END for record in read))
    (tmp_path / "nodes.csv").write_text("id,lon,lat\n")
    (tmp_path / "lines.csv").write_text("id,from,to,class,form,length,shape\n")
    said_of, said_again = (
        [json.loads(line) for line in ended.stdout.splitlines()]
        for ended in (
            program.run("batch", "match", "--map", tmp_path, "--input", file)
            for file in (asked, again)
        )
    )
    assert [line.pop("record") for line in said_of] == [record.number for record in read]
    assert [line.pop("record") for line in said_again] == list(range(1, len(read) + 1))
    assert said_of == said_again and {line["fault"] for line in said_of} > {"LongRecord"}


def test_first_positions(town: Town) -> None:
    draw = random.Random(2)
    with town.plain.open() as stream:
        texts = [line.rstrip("\n").partition("\t")[2] for line in stream]
    for _ in range(500):
        data = bytearray(draw.randbytes(16))
        data[0], data[4], data[15] = 0x0B, draw.choice([0, 1, 255, 57]), 0
        texts.append(f" {base64.b64encode(bytes(data)).decode()}\t")
    read = [read_reference(text) for text in texts]
    found = [one and (one.points[0].lon, one.points[0].lat) for one in read]
    assert found.count(None) > 30 and len(set(found)) > 300
    for text, first in zip(texts, found):
        assert first is None or first == first_position(text)
    assert [first_position(text) for text in ("", "AAAA", "é" * 24, "A" * 23)] == [None] * 4


def test_neighbours_on_the_curve(monkeypatch: pytest.MonkeyPatch) -> None:
    """It goes through each cell once, and always to a cell that has a side in common with the one before."""
    monkeypatch.setattr(curve, "BITS", 5)
    column, row = (side.ravel() for side in np.meshgrid(np.arange(32), np.arange(32)))
    middles = ((side * 2 + 1) * 360_000_001 // 64 - 180_000_000 for side in (column, row))
    order = np.argsort(places := curve.places_on_curve(*middles))
    assert sorted(places) == list(range(32 * 32))
    steps = np.abs(np.diff(column[order])) + np.abs(np.diff(row[order]))
    assert set(steps.tolist()) == {1}


def groups_of(folder: Path, grouped: Grouped) -> list[list[Record]]:
    """The records of all groups in a folder."""
    digests = digests_of(folder, grouped.sha256)
    return [read_group(folder, group, digests).records() for group in range(grouped.groups)]


def test_groups(town: Town, tmp_path: Path) -> None:
    records = list(read_records(town.messages, Reading()))
    assert records == list(read_records(town.messages, Reading("tab")))
    for most in (1, 7, 1000, None):
        grouped = write_groups(records, tmp_path, most)
        groups = groups_of(tmp_path, grouped)
        size = usual_size(len(records)) if most is None else most
        assert grouped[:2] == (len(records), -(-len(records) // size))
        assert sorted(sum(groups, [])) == records
        assert all(group == sorted(group) and 0 < len(group) <= size for group in groups)
    counts = (0, 1, 1600, 1601, 64_000, 10**7)
    assert [usual_size(count) for count in counts] == [50, 50, 50, 51, 2000, 4000]


def test_groups_are_near_together(town: Town, tmp_path: Path) -> None:
    """The way from each first point to the next one is a small part of that in the order of the file."""

    def way(records: list[Record]) -> float:
        found = [first_position(reference_of(record.data)) for record in records]
        points = [np.array(point) for point in found if point is not None]
        return float(sum(np.abs(after - before).sum() for before, after in pairwise(points)))

    records = list(read_records(town.plain, Reading()))
    grouped = write_groups(records, tmp_path, 1)
    along = [records[0] for records in groups_of(tmp_path, grouped)]
    assert way(along) < way(records) / 5


def test_records_without_a_position_are_together(town: Town, tmp_path: Path) -> None:
    """Before those with one."""
    data = base64.b64decode(REFERENCE)
    south_west = base64.b64encode(data[:1] + b"\xce\0\0\xce\0\0" + data[7:])
    records = [*read_records(town.messages, Reading()), Record(1000, south_west)]
    grouped = write_groups(records, tmp_path, 1)
    positions = [
        first_position(reference_of(record.data)) for (record,) in groups_of(tmp_path, grouped)
    ]
    are_there = [position is not None for position in positions]
    assert are_there == sorted(are_there) and 1 < are_there.count(False) < 100


def answer_all(run: RunFolder, town: Town, program: Program, messages: Path) -> Counter[str]:
    """Answers all groups of messages, with pages of two, and joins them."""
    counts = Counter[str]()
    records = read_records(messages, Reading())
    question = question_about(town, program, messages, {"page": 2})
    with run.begun(question, records, False) as grouped:
        job = Job(run.path, AskedMap.of(town.store), question, grouped.sha256)
        for group in range(grouped.groups):
            counts += answer_groups(job, [group])
    lines = [run.lines(question, grouped, group) for group in range(grouped.groups)]
    join(lines, run.path / "joined", grouped.records)
    return counts


@pytest.mark.usefixtures("here")
def test_regions_that_are_too_large(
    town: Town, program: Program, tmp_path: Path, monkeypatch: pytest.MonkeyPatch
) -> None:
    """With a lower limit groups are answered in parts, and references that are beyond it alone have a fault; all others have the answers
    that they have on the whole map."""
    monkeypatch.setattr(road_map, "MOST_LINES", 300)
    messages = tmp_path / "messages"
    messages.write_bytes(b"\n".join(town.messages.read_bytes().splitlines()[:130]))
    run = RunFolder(tmp_path / "run")
    counts = answer_all(run, town, program, messages)
    ended = program.run("batch", "match", "--map", town.folder, "--page", 2, "--input", messages)
    expected = ended.stdout.encode().splitlines(keepends=True)
    found = (run.path / "joined").read_bytes().splitlines(keepends=True)
    too_large = b'{"answer":null,"fault":"RegionTooLarge",'
    differ = 0
    for line, other in zip(found, expected, strict=True):
        if line.startswith(too_large):
            assert line == too_large + other[other.rindex(b'"key":') :]
            assert other.startswith(b'{"answer":{')
            differ += 1
        else:
            assert line == other
    assert counts[TOO_LARGE] == differ and differ > 10 and counts[ANSWERED] > 40


@pytest.mark.usefixtures("here")
def test_a_reference_that_isnt_read(
    town: Town, program: Program, tmp_path: Path, monkeypatch: pytest.MonkeyPatch
) -> None:
    """If Python took a reference for none, it would have no region: that is an error, and no answer."""
    monkeypatch.setattr(answering, "read_points", lambda text: None)
    run = RunFolder(tmp_path / "run")
    with pytest.raises(ToolError, match="record [0-9]+ is a reference that olr-tools can't read"):
        answer_all(run, town, program, town.plain)
    assert os.listdir(run.path / "parts") == []


def test_many_files_are_joined(tmp_path: Path) -> None:
    count = 2 * MOST_OPEN + 3
    lines = [b'{"answer":null,"key":"\xc3\xa9 }:","record":%d}\n' % n for n in range(3 * count)]
    parts = [tmp_path / str(number) for number in range(count)]
    for number, part in enumerate(parts):
        part.write_bytes(b"".join(lines[number::count]))
    assert [number_of(line) for line in lines] == list(range(3 * count))
    there = most = 0

    def counted(part: Path) -> Lines:
        nonlocal there, most
        there += 1
        most = max(most, there)
        yield from lines_of(part)
        there -= 1

    join([counted(part) for part in parts], tmp_path / "new" / "joined", len(lines))
    assert most == MOST_OPEN
    assert (tmp_path / "new/joined").read_bytes() == b"".join(lines)
    assert os.listdir(tmp_path / "new") == ["joined"]


def test_a_joined_file_that_is_replaced(tmp_path: Path) -> None:
    """By `--force` alone, and never what it is made of."""
    part, file, text = tmp_path / "part", tmp_path / "joined", b'{"key":"","record":1}\n'
    part.write_bytes(text)
    file.write_bytes(b"old")
    with pytest.raises(ToolError, match="joined is there: .* or replace it by --force"):
        join([lines_of(part)], file, 1)
    for inputs in ([part], [part, file]):
        with pytest.raises(ToolError, match="is one of the inputs: name another file"):
            join([lines_of(part)], inputs[-1], 1, force=True, inputs=inputs)
    assert file.read_bytes() == b"old" and part.read_bytes() == text
    join([lines_of(part)], file, 1, force=True)
    assert file.read_bytes() == text


def test_a_part_that_isnt_there(tmp_path: Path) -> None:
    """It is named, and not what is written."""
    with pytest.raises(ToolError) as raised:
        join([lines_of(tmp_path / "000007.jsonl")], tmp_path / "joined", 1)
    assert str(raised.value) == f"{tmp_path}/000007.jsonl can't be read: No such file or directory"
    assert os.listdir(tmp_path) == []


def test_folders_of_runs(town: Town, program: Program, tmp_path: Path) -> None:
    """A run goes on with the same question alone, and one at a time."""
    question = question_about(town, program, town.plain, {"page": 3})
    changes: dict[str, dict[str, Any]] = {
        "messages": {"messages": Content(1, "a")},
        "map [(].*[.][.], and not aa[.][.][)]": {"store": "aa"},
        "program [(].*, and not olr 7, SHA-256 bb[.][.][)]": {"program": Build("olr 7", "bb")},
        "what": {"what": "why"},
        "options": {"options": {**question.options, "page": 4}},
        "per-group": {"per_group": 9},
        "format": {"format": "csv"},
        "ref, key": {"ref": "a", "key": "b"},
        "base64": {"base64": "url"},
        "confidence": {"confidence": "aa"},
    }
    records = list(read_records(town.plain, Reading()))
    run = RunFolder(tmp_path / "new" / "run")
    with pytest.raises(ToolError, match="new/run isn't there: leave --resume out to begin a run$"):
        with run.begun(question, records, True):
            pass
    assert not run.path.parent.exists()
    (run.path / "groups").mkdir(parents=True)
    # As if it had been killed before the groups were written.
    (run.path / "groups/records.txt").write_bytes(b"half")
    with run.begun(question, records, True) as grouped:
        assert len(run.group(0, grouped.sha256).records()) == 50
        left = Path(tempfile.mkdtemp(prefix=PREFIX, dir=run.file_of(0).parent))
        with pytest.raises(ToolError, match="is in use by another run"):
            with run.begun(question, records, True):
                pass
        assert left.exists()
    assert not left.exists()
    with pytest.raises(KeyboardInterrupt):
        with run.begun(question, records, True):
            left.mkdir()
            raise KeyboardInterrupt
    assert not left.exists()
    with pytest.raises(ToolError, match="holds a run: go on with it by --resume"):
        with run.begun(question, records, False):
            pass
    for name, change in changes.items():
        with pytest.raises(ToolError, match=f"holds a run with other {name}: name another"):
            with run.begun(replace(question, **change), records, True):
                pass
    left.mkdir()
    for asked in (question, replace(question, per_group=50)):
        with run.begun(asked, records, True) as again:
            assert again == grouped and not left.exists()
    table = json.loads((run.path / "run.json").read_text())
    table["grouped"]["sha256"] = "0" * 64
    for text, said in (
        (json.dumps(table), "has groups of another version of olr-tools: name another folder"),
        ("{}", "isn't understood"),
        ('{"version": 4}', "isn't understood"),
        ('{"version": 3}', "holds a run of another version of olr-tools: name another folder"),
    ):
        (run.path / "run.json").write_text(text)
        with pytest.raises(ToolError, match=said):
            with run.begun(question, records, True):
                pass


def test_folders_that_arent_empty(town: Town, program: Program, tmp_path: Path) -> None:
    """Only what a run left that was killed before it began is deleted."""
    question = question_about(town, program, town.plain)
    for name in ("parts/000000.jsonl", "groups/mine.txt", "facts/a/b", "groups", "other"):
        run = RunFolder(tmp_path / name.replace("/", " "))
        mine = run.path / name
        mine.parent.mkdir(parents=True)
        mine.write_text("mine")
        with pytest.raises(ToolError, match="isn't empty: name another folder"):
            with run.begun(question, [], False):
                pass
        assert mine.read_text() == "mine"
    (tmp_path / "file").touch()
    with pytest.raises(ToolError, match="is a file: name a folder"):
        with RunFolder(tmp_path / "file").begun(question, [], False):
            pass
