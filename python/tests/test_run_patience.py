"""`olr-tools run` with a program that fails at some records: each of them stands alone, and the others have their answers."""

import pytest
import random
import re
import subprocess
from contextlib import closing
from pathlib import Path

from bad_programs import FAILING, GOOD, HANGING, bad_program, starts
from conftest import Program
from olr.asking.exchange import Asked
from olr.asking.files import MapFiles
from olr.asking.processes import Processes
from olr.asking.records import Record
from olr.errors import ProgramEnded, ProgramNotFound, TimedOut
from olr.messages.message import Reading
from olr.running.isolating import TRIED, isolated
from olr.running.records import read_records
from runs import Runs, Town

PATIENCE = 2.0
"""Seconds: long enough for a good program on a busy machine."""
ASKED = Asked("match", ("--page", "1"))


class Group:
    """Some records of a town, and what the program says of them on the whole map."""

    def __init__(self, town: Town, program: Program, folder: Path) -> None:
        self.town, self.program, self.folder = town, program, folder
        self.records = list(read_records(town.plain, Reading()))[:80]
        self.files = MapFiles.of_folder(town.folder)

    def lines(self, program: Path | None = None, patience: float | None = None) -> list[bytes]:
        """The lines of the good program, or of another one."""
        with closing(Processes(self.files, program or self.program.path, patience)) as processes:
            return list(isolated(processes, ASKED, self.records))

    def bad(self, ways: dict[int, str]) -> Path:
        """A program that fails at the records with these numbers of the list."""
        texts = {self.text(number): way for number, way in ways.items()}
        return bad_program(self.folder / "bad", self.program, texts)

    def text(self, number: int) -> str:
        """The reference of a record."""
        return self.records[number].data.partition(b"\t")[2].decode()

    def script(self, line: str) -> Path:
        """A program made of a line of a shell."""
        script = self.folder / "script"
        script.write_text(f"#!/bin/sh\n{line}\n")
        script.chmod(0o755)
        return script


@pytest.fixture
def group(town: Town, program: Program, tmp_path: Path) -> Group:
    return Group(town, program, tmp_path)


def with_faults(group: Group, lines: list[bytes], ways: dict[int, str]) -> list[bytes]:
    """Good lines, with faults where the program fails."""
    found = list(lines)
    for number, way in ways.items():
        fault = "TimedOut" if way in HANGING else "ProgramFailed"
        if way not in GOOD:
            found[number] = group.records[number].line(b"null", fault)
    return found


def test_each_way_to_fail(group: Group) -> None:
    """At the first record, the last one and drawn ones between, all in one group."""
    expected = group.lines()
    ways = [*FAILING, *GOOD, *HANGING]
    between = random.Random(5).sample(range(1, 79), len(ways) - 2)
    at = dict(zip([0, 79, *between], ways))
    assert group.lines(group.bad(at), PATIENCE) == with_faults(group, expected, at)


def test_few_records(group: Group) -> None:
    """One record alone, and all of a few: the program reads the map, so it is the records."""
    for count in (3, 1):
        del group.records[count:]
        ways = dict.fromkeys(range(count), "half a line")
        assert group.lines(group.bad(ways)) == with_faults(group, [b""] * count, ways)


def test_a_program_that_fails_at_each_reference(group: Group) -> None:
    """It isn't started for each of them."""
    bad = group.bad(dict.fromkeys(range(80), "exits"))
    with pytest.raises(ProgramEnded, match="olr ended with status 3 after 0 answers"):
        group.lines(bad)
    assert starts(bad) == 3 + TRIED


def test_how_often_the_program_is_started(group: Group) -> None:
    """For a record of 80: for all, for it alone, to see that others are answered, and for those behind it."""
    bad = group.bad({41: "exits"})
    group.lines(bad)
    assert starts(bad) == 4


@pytest.mark.parametrize(
    "line",
    [
        "exit 3",
        "kill -9 $$",
        "echo {}",
        "echo no >&2",
        "exec sleep 600",
        "exec >&-; exec sleep 600",
    ],
)
def test_a_program_that_always_fails(
    group: Group, line: str, monkeypatch: pytest.MonkeyPatch
) -> None:
    monkeypatch.setattr("olr.asking.threaded.SECONDS_TO_END", 0.2)
    error, patience = (TimedOut, 0.5) if line == "exec sleep 600" else (ProgramEnded, None)
    with pytest.raises(error, match="after 0 answers|no answer to what it was asked: is it the"):
        group.lines(group.script(line), patience)


def test_a_program_that_is_killed_once(group: Group) -> None:
    """By somebody: no record has a fault for it."""
    once = group.folder / "once"
    line = f'mkdir {once} 2>&- && kill -9 $$\nexec {group.program.path} "$@"'
    assert group.lines(group.script(line)) == group.lines() and once.exists()


def test_a_program_that_cant_be_started(group: Group) -> None:
    script = group.folder / "script"
    for text, mode in (("#!/bin/sh\n", 0o644), ("#!/no/such/shell\n", 0o755)):
        script.write_text(text)
        script.chmod(mode)
        with pytest.raises(ProgramNotFound, match=f"{script} can't be started: "):
            group.lines(script)


def test_lines_are_those_of_the_program(group: Group, program: Program) -> None:
    """Of drawn records, with bytes that aren't text and some that are too long, as the program reads them itself."""
    draw = random.Random(6)
    pieces = [b"\t", b'"', b"\\", b"/", b"\x00", b"\x1f", b"\x7f", b"\xc3\xa9", b"\xe2\x80\xa8"]
    pieces += [b"\xff", b"\xed\xa0\x80", b"\xf0\x9f\x9a\x97", b" ", b"a", b"\r", b"x" * 33_000]
    weights = [9] * 9 + [1] * 2 + [9] * 4 + [4]
    drawn = [b"".join(draw.choices(pieces, weights, k=draw.randrange(1, 7))) for _ in range(400)]
    data = [record.data for record in group.records] + drawn
    group.records = [Record(number, one) for number, one in enumerate(data, 1)]
    feed = group.folder / "feed"
    feed.write_bytes(b"".join(one + b"\r\n" for one in data))
    words = ["batch", "match", "--map", group.town.folder, "--page", "1", "--input", feed]
    command = [str(program.path), *map(str, words)]
    expected = subprocess.run(command, capture_output=True, check=True).stdout
    assert b"".join(group.lines()) == expected
    assert {b"LongRecord", b"NotText", b"TooLong"} <= set(re.findall(rb'"fault":"(\w+)', expected))


def test_a_run(runs: Runs) -> None:
    """One record that hangs, two at which the program fails: the summary, the status and the joined lines say so. `--resume` asks again
    what was deleted, and says so of the rest."""
    expected = runs.expected().splitlines(keepends=True)
    records = list(read_records(runs.town.messages, Reading("tab")))
    ways = {40: "hangs", 130: "exits", len(records) - 2: "another number"}
    texts = {records[at].data.partition(b"\t")[2].decode(): way for at, way in sorted(ways.items())}
    bad = bad_program(runs.folder / "bad", runs.program, texts)
    words = ["--per-group", 100, "--patience", PATIENCE, "--join", runs.joined]
    ended = runs.run_here(*words, program=bad)
    for at, way in ways.items():
        fault = "TimedOut" if way in HANGING else "ProgramFailed"
        expected[at] = records[at].line(b"null", fault)
    assert runs.joined.read_bytes() == b"".join(expected)
    counts = ended.stdout.splitlines()
    assert "failed, ProgramFailed: 2" in counts and "failed, TimedOut: 1" in counts
    said = (
        f"olr-tools: the program failed at 3 of 307 records, and their lines in {runs.out} say so "
        "(ProgramFailed: 2, TimedOut: 1): to ask them again, delete their parts, and go on by --resume\n"
    )
    assert ended.status == 1 and ended.stderr.endswith(said)
    for name in runs.parts():
        if b'"fault":"ProgramFailed"' in (runs.out / "parts" / name).read_bytes():
            (runs.out / "parts" / name).unlink()
    Path(f"{bad}.good").touch()
    ended = runs.run_here(*words, "--force", "--resume", "--patience", 60, program=bad)
    assert ended.status == 1 and "at 1 of 307 records" in ended.stderr
    good = runs.expected().splitlines(keepends=True)
    good[40] = expected[40]
    assert runs.joined.read_bytes() == b"".join(good)


def test_a_program_that_answers_nothing_at_all(runs: Runs) -> None:
    """The first question waits no longer than asked for either, and nothing is written."""
    script = runs.folder / "hanging"
    script.write_text("#!/bin/sh\nexec sleep 600\n")
    script.chmod(0o755)
    ended = runs.run_here("--patience", 0.5, program=script)
    assert (ended.status, ended.stdout) == (1, "")
    assert " for 0.5 seconds" in ended.stderr and ended.stderr.count("\n") == 1
    assert not runs.out.exists()
