"""`olr-tools run`: its answers beside those of one `olr batch` on the whole map."""

import json
import os
import pytest
import random
import subprocess
from collections.abc import Iterator
from pathlib import Path

from conftest import ASKED_WITH_PROGRAM, OF_PROGRAM, Program
from olr.running import cluster
from olr.tools import run
from region_maps import Drawing, hostile_map, hostile_text
from runs import (
    Runs,
    Town,
    assert_resumes,
    identities,
    likely_words,
    listened_on,
    without_progress,
)
from schedulers import Scheduler, Shared


def test_all_answers(runs: Runs) -> None:
    """By the command as a new process. While its workers ask, nobody listens."""
    words = runs.words("--workers", 2, "--per-group", 20, "--join", runs.joined)
    environment, pipe = runs.environment(runs.waiting()), subprocess.PIPE
    with subprocess.Popen(words, env=environment, stdout=pipe, stderr=pipe, text=True) as run:
        try:
            runs.await_asked(run)
            assert len(runs.left()) >= 3 and not listened_on(runs.left())
        finally:
            (runs.folder / "go").touch()
        stdout, stderr = run.communicate()
    runs.await_end()
    expected = runs.expected()
    assert (run.returncode, without_progress(stderr)) == (0, "")
    assert runs.joined.read_bytes() == expected
    lines = [json.loads(line) for line in expected.splitlines()]
    head, *counts, tail = stdout.splitlines()
    assert head == f"{runs.out}: {len(lines)} lines of {len(lines)} in {len(runs.parts())} parts"
    assert f"answered: {sum(line['fault'] is None for line in lines)}" in counts
    assert "refused, NotText: 1" in counts and "refused, LongRecord: 1" in counts
    assert tail == f"{runs.joined}: {len(lines)} lines"
    assert len(runs.parts()) > 10 and all(name.endswith(".jsonl") for name in runs.parts())
    numbers = [
        [json.loads(line)["record"] for line in (runs.out / "parts" / name).open()]
        for name in runs.parts()
    ]
    assert all(part == sorted(part) for part in numbers)
    assert sorted(sum(numbers, [])) == [line["record"] for line in lines]
    assert os.listdir(runs.folder / "scratch") == []
    for name in ("000000", "000003"):
        (runs.out / f"parts/{name}.jsonl").unlink()
    waiting = runs.folder / "waiting"
    ended = runs.run_here("--per-group", 20, "--radius", 101, "--resume", program=waiting)
    refused = f"olr-tools: {runs.out} holds a run with other options: name another folder\n"
    assert (ended.status, ended.stdout, ended.stderr) == (1, "", refused)
    runs.joined.unlink()
    assert_resumes(runs, "--per-group", 20, program=waiting)


def test_a_table_at_standard_input(runs: Runs) -> None:
    """In UTF-16, with semicolons. The answers are those to the lines that it was made of."""
    words = ["--format", "csv", "--ref", "openlr", "--key", "id", "--join", runs.joined]
    absent = f"olr-tools: {runs.out} isn't there: leave --resume out to begin a run\n"
    rows = runs.town.plain.read_text().replace("\t", ";note;")
    table = ("id;note;openlr\n" + rows).encode("utf-16")
    ended = runs.run_here(*words, "--resume", messages=Path("-"), given=table)
    assert ended == (1, "", absent)
    ended = runs.run_here(*words, messages=Path("-"), given=table)
    assert (ended.status, ended.stderr) == (0, "")
    assert runs.joined.read_bytes() == runs.expected(messages=runs.town.plain)
    assert os.listdir(runs.folder / "scratch") == []
    ended = runs.run_here(*words[:4], "--resume", messages=Path("-"), given=table)
    refused = f"olr-tools: {runs.out} holds a run with other key: name another folder\n"
    assert ended == (1, "", refused)


@pytest.mark.parametrize(
    ("text", "words", "said"),
    [
        (
            "id,openlr\nm1,x\n",
            [],
            "has no column ref: name it by --ref: id, openlr; or say --format",
        ),
        (
            "key,ref\nm1,x\n",
            [],
            "has no reference in its first record, but 'x': name another column",
        ),
        ("m1\tx\n", ["--ref", "openlr"], "has no column openlr: name it by --ref: m1, x"),
    ],
)
def test_messages_that_arent_clear(
    runs: Runs,
    monkeypatch: pytest.MonkeyPatch,
    capfd: pytest.CaptureFixture[str],
    text: str,
    words: list[str],
    said: str,
) -> None:
    """Nothing is written for them."""
    messages = runs.folder / "messages.csv"
    messages.write_text(text)
    monkeypatch.setenv("OLR_PROGRAM", os.fspath(runs.program.path))
    assert run(runs.words(*words, messages=messages)[1:]) == 1
    ended = capfd.readouterr()
    assert ended.out == "" and ended.err.startswith(f"olr-tools: {messages} {said}")
    assert not runs.out.exists()


@pytest.fixture(scope="module")
def shared(
    town: Town, program: Program, tmp_path_factory: pytest.TempPathFactory
) -> Iterator[Shared]:
    """A scheduler with two workers of two threads each."""
    runs = Runs(town, program, tmp_path_factory.mktemp("shared"))
    asked = runs.folder / "program"
    try:
        with Scheduler(runs, asked) as started:
            for _ in range(2):
                started.add_worker(threads=2)
            yield Shared(started.address, asked)
    finally:
        runs.end_all()


def records_of(draw: random.Random, drawing: Drawing) -> list[bytes]:
    """References on a map, with keys and without, among records that are refused each in another way, or are none."""
    texts = [hostile_text(draw, drawing).encode() for _ in range(110)]
    bad = [
        b"",
        b"\r",
        b"key\t",
        b"x" * 70_000,
        b"\xff\t" + texts[0],
        b"\xc3\xa9\t" + texts[1] + b"\r",
        b"no base64!",
        b"key\t" + texts[2][:-1],
        texts[3] + texts[3],
        b"\t" + texts[4],
        b"a\tb\t" + texts[5],
        b"CwAAAA==",
    ]
    records = [b"%d\t%b" % pair if pair[0] % 3 else pair[1] for pair in enumerate(texts)]
    for record in bad:
        records.insert(draw.randint(1, len(records)), record)
    return records


def test_all_questions_on_two_maps(
    runs: Runs, shared: Shared, monkeypatch: pytest.MonkeyPatch, capfd: pytest.CaptureFixture[str]
) -> None:
    """By the command line alone, from the files of a map to the joined lines. All runs have the workers that were there. Places are in the
    likely order, by the confidence of the package."""
    shared.ask(runs.program.path)
    monkeypatch.setenv("OLR_PROGRAM", os.fspath(shared.program))
    questions: dict[str, list[str]] = {
        "match": ["--page", "3"],
        "candidates": ["--radius", "60"],
        "why": ["--nearest", "2", "--radius", "20"],
        "places": ["--apart", "100", "--lowest", "1"],
    }
    faults = set()
    for number, lat in enumerate((48_000_000, -2_000_000)):
        draw = random.Random(number)
        drawing, folder = hostile_map(draw, lat), runs.folder / f"map {number}"
        store, messages = folder / "map.gpkg", folder / "messages"
        drawing.write(folder)
        messages.write_bytes(b"\n".join(records_of(draw, drawing)))
        assert run(["regions", str(folder), "--out", str(store)]) == 0
        for what, options in questions.items():
            out, joined = folder / what, folder / f"{what}.jsonl"
            words = ["run", messages, "--store", store, "--out", out, "--join", joined, *options]
            words += ["--scheduler", shared.address, "--per-group", 30, *OF_PROGRAM]
            words += [] if what == "match" else [f"--{what}"]
            assert run(list(map(str, words))) == 0, capfd.readouterr().err
            command = [runs.program.path, "batch", what, "--map", folder, *options]
            command += ["--input", messages]
            command += likely_words(what)
            ended = subprocess.run(list(map(str, command)), capture_output=True, check=True)
            is_same = joined.read_bytes() == ended.stdout
            assert ended.stdout.count(b"\n") == 120 and is_same
            assert len(os.listdir(out / "parts")) == 4
            faults |= {
                str(json.loads(line)["fault"]).split()[0] for line in ended.stdout.splitlines()
            }
    assert faults >= {"None", "NotBase64", "LongRecord", "NotText", "Empty", "BadLength"}


def test_a_run_whose_program_always_fails(runs: Runs, shared: Shared) -> None:
    """Each group fails, with the reason, and the program isn't started for each record."""
    log = runs.folder / "log"
    script = runs.folder / "failing"
    script.write_text(
        f"#!/bin/sh\nif [ $1 = answer ] && [ -e {runs.out}/parts ]; then echo >> {log}; exit 3; fi\n"
        f'exec {runs.program.path} "$@"\n'
    )
    script.chmod(0o755)
    ended = runs.run_with(shared, "--per-group", 100, program=script)
    assert ended.status == 1 and ended.stderr.count("\n") == 1
    assert "4 of 4 groups failed" in ended.stderr and "ended with status 3" in ended.stderr
    assert runs.parts() == [] and log.read_text().count("\n") == 4 * 3 * 3


def test_a_run_in_which_a_group_fails(runs: Runs, shared: Shared) -> None:
    """In tasks of three groups. Something is in the way of its part before the first answer: it alone is listed, and the next run makes
    its part alone."""
    words = ["--per-group", 5]
    in_its_way = runs.out / "parts" / "000007.jsonl"
    script = runs.folder / "script"
    script.write_text(
        f"""#!/bin/sh
if [ -e {runs.out}/parts ] && mkdir {runs.folder}/begun 2>&-; then mkdir {in_its_way}; fi
exec {runs.program.path} "$@"
"""
    )
    script.chmod(0o755)
    ended = runs.run_with(shared, *words, program=script)
    assert ended.status == 1 and ": 302 lines of 307 in 61 parts\n" in ended.stdout
    listed = (runs.out / "failed.txt").read_text().splitlines()
    assert len(listed) == 1 and listed[0].startswith("000007\t")
    assert "Is a directory" in listed[0] and "1 of 62 groups failed" in ended.stderr
    there = identities(runs)
    in_its_way.rmdir()
    assert_resumes(runs, *words, program=script)
    assert len(there) == 62 and identities(runs).keys() == there.keys()


def test_an_empty_input(runs: Runs) -> None:
    empty = runs.folder / "empty.txt"
    for text in ("", "\n\r\n\n"):
        empty.write_text(text)
        runs.out, runs.joined = (runs.folder / f"{len(text)}{name}" for name in ("out", "joined"))
        ended = runs.run_here("--join", runs.joined, messages=empty)
        said = [f"{runs.out}: 0 lines of 0 in 0 parts", ASKED_WITH_PROGRAM]
        said += [f"{runs.joined}: 0 lines", ""]
        assert ended == (0, "\n".join(said), "")
        assert (runs.joined.read_bytes(), runs.parts()) == (b"", [])


@pytest.mark.parametrize(
    ("words", "said"),
    [
        (["--radius", "0"], "BadTolerance radius: "),
        (["--page", "0"], "BadPage 0: "),
        (["--places", "--most", "101"], "BadNumber most: "),
        (["--scheduler", "tcp://127.0.0.1:9"], "there is no scheduler at tcp://127.0.0.1:9: "),
        (["--join", __file__], f"{__file__} is there: name another file, or replace it by --force"),
        (["--join", "messages.txt", "--force"], "messages.txt is one of the inputs: "),
        (["--join", "town.gpkg", "--force"], "town.gpkg is one of the inputs: "),
        (["--out", __file__], f"{__file__} is a file: "),
        (["--out", Path(__file__).parent], f"{Path(__file__).parent} isn't empty: "),
        (["--store", __file__], f"{__file__} isn't a store of olr-tools regions: "),
    ],
)
def test_runs_that_dont_begin(
    runs: Runs,
    monkeypatch: pytest.MonkeyPatch,
    capfd: pytest.CaptureFixture[str],
    words: list[object],
    said: str,
) -> None:
    monkeypatch.setenv("OLR_PROGRAM", os.fspath(runs.program.path))
    monkeypatch.setattr(cluster, "SECONDS_TO_CONNECT", 0.5)
    monkeypatch.chdir(runs.town.store.parent)
    status = run(runs.words(*words)[1:])
    ended = capfd.readouterr()
    assert (status, ended.out) == (1, "")
    assert ended.err.startswith(f"olr-tools: {said}") and ended.err.count("\n") == 1


def test_words_that_arent_understood(runs: Runs, capfd: pytest.CaptureFixture[str]) -> None:
    both = ["--scheduler", "tcp://x:1", "--workers", "2"]
    rows = ["--join", f"{runs.folder}/rows.CSV"]
    for words in (["--nearest", "3"], ["--places", "--page", "3"], ["--force"], both, rows):
        assert run(runs.words(*words)[1:]) == 2
        assert capfd.readouterr().err.startswith("olr-tools: --")
    assert not runs.out.exists()
