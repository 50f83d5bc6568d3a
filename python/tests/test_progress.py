"""How far long work is, where standard error is no terminal."""

import hashlib
import os
import pytest
import sys
import threading
from collections.abc import Generator, Iterator
from pathlib import Path

from conftest import Program
from olr import progress as shown
from olr.content import Content, digest_of
from olr.model.road_map import Ban, Line, Node, Position, RoadMap
from olr.progress import progress, watched
from olr.regions.making import make_store_of_map
from olr.running.joining import join, lines_of
from olr.signals import ENDING
from olr.tools import run
from vector_files import road, write


class Clock:
    """A clock that a test sets."""

    def __init__(self) -> None:
        self.seconds = 0.0

    def __call__(self) -> float:
        return self.seconds


def test_a_line_every_ten_seconds(capsys: pytest.CaptureFixture[str]) -> None:
    clock = Clock()
    with progress("records", 12_000, clock) as advance:
        for seconds in (3.0, 9.9, 10.0, 19.9, 20.5, 30.0, 30.4):
            clock.seconds = seconds
            advance(1000)
    assert capsys.readouterr().err == "records: 3,000 of 12,000\nrecords: 5,000 of 12,000\n"


def test_its_thread_gets_no_signal() -> None:
    """An interrupt that it got while the main thread keeps interrupts could be lost."""
    before = set(os.listdir("/proc/self/task"))
    with progress("records"):
        (thread,) = set(os.listdir("/proc/self/task")) - before
        status = Path(f"/proc/self/task/{thread}/status").read_text()
    blocked = int(status.partition("SigBlk:")[2].split()[0], 16)
    assert all(blocked >> (one - 1) & 1 for one in ENDING)


def test_short_work_has_no_line(capsys: pytest.CaptureFixture[str]) -> None:
    clock = Clock()
    with progress("records", None, clock) as advance:
        clock.seconds = 9.9
        advance(1)
    assert capsys.readouterr().err == ""


def test_without_a_total(capsys: pytest.CaptureFixture[str]) -> None:
    clock = Clock()
    with progress("ways", None, clock) as advance:
        clock.seconds = 10.0
        advance(40_000)
    assert capsys.readouterr().err == "ways: 40,000\n"


def test_a_step_that_takes_long(
    monkeypatch: pytest.MonkeyPatch, capsys: pytest.CaptureFixture[str]
) -> None:
    """A line comes while no step ends: the clock says that ten seconds went by, and then that none does."""
    looked = threading.Event()
    seconds: Iterator[float] = iter((0.0, 10.0))

    def clock() -> float:
        found = next(seconds, None)
        if found is None:
            looked.set()
        return 10.0 if found is None else found

    monkeypatch.setattr(shown, "SECONDS_OF_LOOKS", 0.001)
    with progress("ways", None, clock):
        assert looked.wait(60)
    assert capsys.readouterr().err == "ways: 0\n"


@pytest.mark.parametrize("is_terminal", [False, True])
def test_what_is_waited_for(
    monkeypatch: pytest.MonkeyPatch, capsys: pytest.CaptureFixture[str], is_terminal: bool
) -> None:
    """It is said after each minute in which no step ends, and not before: by a clock whose seconds are those of the looks of a thread."""
    seconds = [0.0, 59.0, 60.0, 90.0, 119.9, 120.0, 130.0]
    left, looked = iter(seconds), threading.Event()

    def clock() -> float:
        found = next(left, None)
        if found is None:
            looked.set()
        return 181.0 if found is None else found

    monkeypatch.setattr(shown, "SECONDS_OF_LOOKS", 0.001)
    monkeypatch.setattr(shown, "SECONDS_OF_LINES", 1000.0)
    monkeypatch.setattr(sys.stderr, "isatty", lambda: is_terminal)
    waiting = iter(f"for [bold]{number}[/bold]" for number in range(9))
    with progress("groups", 32, clock, lambda: next(waiting)):
        assert looked.wait(60)
    lines = [line for line in capsys.readouterr().err.splitlines() if "nothing" in line]
    assert [line[line.index("nothing") :].rstrip() for line in lines[:3]] == [
        "nothing was finished for 60 seconds: for [bold]0[/bold]",
        "nothing was finished for 120 seconds: for [bold]1[/bold]",
        "nothing was finished for 181 seconds: for [bold]2[/bold]",
    ]


def test_steps_are_waited_for_anew(
    monkeypatch: pytest.MonkeyPatch, capsys: pytest.CaptureFixture[str]
) -> None:
    """A step begins the minute again; calls without a step don't."""
    said, looks = threading.Event(), threading.Semaphore(0)
    seconds = 0.0

    def clock() -> float:
        looks.release()
        return seconds

    def look() -> None:
        """Waits until the thread has looked at the time."""
        while looks.acquire(blocking=False):
            pass
        assert all(looks.acquire(timeout=600) for _ in range(2))

    def waiting() -> str:
        said.set()
        return "for it"

    monkeypatch.setattr(shown, "SECONDS_OF_LOOKS", 0.001)
    monkeypatch.setattr(shown, "SECONDS_OF_LINES", 1000.0)
    with progress("groups", 32, clock, waiting) as advance:
        seconds = 59.0
        advance(1)
        seconds = 118.0
        advance(0)
        look()
        assert not said.is_set()
        seconds = 119.5
        assert said.wait(60)
    assert capsys.readouterr().err == "nothing was finished for 60 seconds: for it\n"


def test_its_thread_closes_a_generator(monkeypatch: pytest.MonkeyPatch) -> None:
    """As the garbage collector may: it doesn't wait for itself."""
    wrong: list[object] = []
    closed = threading.Event()
    monkeypatch.setattr(shown, "SECONDS_OF_LOOKS", 0.001)
    clock = Clock()

    def waiting() -> str:
        try:
            steps.pop().close()
        except RuntimeError as error:
            wrong.append(error)
        closed.set()
        return "for it"

    def shown_steps() -> Generator[None, None, None]:
        with progress("groups", 32, clock, waiting):
            yield

    steps = [shown_steps()]
    next(steps[0])
    clock.seconds = 60.0
    assert closed.wait(60) and not wrong


def test_items_are_counted(
    monkeypatch: pytest.MonkeyPatch, capsys: pytest.CaptureFixture[str]
) -> None:
    monkeypatch.setattr(shown, "SECONDS_OF_LINES", 0.0)
    assert list(watched("ab", "letters", 2)) == ["a", "b"]
    assert capsys.readouterr().err == "letters: 1 of 2\nletters: 2 of 2\n"


def test_what_is_read_and_written_is_counted(
    monkeypatch: pytest.MonkeyPatch, capsys: pytest.CaptureFixture[str], tmp_path: Path
) -> None:
    """The digest of a large file, lines of a run that are joined, and bans of a store."""
    monkeypatch.setattr(shown, "SECONDS_OF_LINES", 0.0)
    monkeypatch.setattr("olr.content.PIECE", 10)
    part = tmp_path / "part"
    part.write_bytes(b'{"record":1}\n{"record":2}\n')
    assert Content.of(part) == Content(26, hashlib.sha256(part.read_bytes()).hexdigest())
    assert capsys.readouterr().err.endswith("MiB of part: 2 of 3\nMiB of part: 3 of 3\n")
    assert digest_of(part) is not None and capsys.readouterr().err == ""
    join([lines_of(part)], tmp_path / "joined", 2)
    assert capsys.readouterr().err == "lines joined: 1 of 2\nlines joined: 2 of 2\n"
    ends = Node(1, Position(0, 0)), Node(2, Position(1000, 0))
    lines = [Line(1, 1, 2, 3, 3, 1113, ()), Line(2, 2, 1, 3, 3, 1113, ())]
    make_store_of_map(RoadMap(ends, lines, [Ban(1, 2)]), tmp_path / "store.gpkg")
    assert "bans written: 1 of 1\n" in capsys.readouterr().err


def test_commands_show_how_far_they_are(
    monkeypatch: pytest.MonkeyPatch,
    capsys: pytest.CaptureFixture[str],
    top: Path,
    tmp_path: Path,
    program: Program,
) -> None:
    monkeypatch.setattr(shown, "SECONDS_OF_LINES", 0.0)
    monkeypatch.setattr("olr.osm.reading.STEP", 9)
    osm, folder = str(top / "examples/town.osm"), str(tmp_path / "town")
    assert run(["import", "osm", osm, "--out", folder]) == 0
    printed = capsys.readouterr().err
    assert "ways of town.osm: 9\nways of town.osm: 18\n" in printed
    assert "roads cut: 15 of 15\n" in printed
    assert "lines written: 39 of 39\n" in printed
    words = ["match", str(top / "examples/messages.tsv"), "--map", str(top / "examples")]
    monkeypatch.setenv("OLR_PROGRAM", os.fspath(program.path))
    assert run([*words, "--out", str(tmp_path / "out.gpkg")]) == 0
    assert "matching: 4 of 5\nmatching: 5 of 5\n" in capsys.readouterr().err
    assert run(["check", folder]) == 0
    assert "bytes of lines.csv: " in capsys.readouterr().err
    assert run(["regions", folder, "--out", str(tmp_path / "town.gpkg")]) == 0
    printed = capsys.readouterr().err
    assert "bytes of lines.csv: " in printed
    assert "last steps of the store: 4 of 4\n" in printed
    roads = write(tmp_path / "roads.gpkg", [road([(9.0, 49.0), (9.001, 49.0)])], crs=4326)
    words = ["import", "vector", str(roads), "--class", "3", "--form", "3"]
    assert run([*words, "--out", str(tmp_path / "roads")]) == 0
    printed = capsys.readouterr().err
    for what, steps in {
        "records of roads.gpkg": 1,
        "roads joined": 1,
        "lines asked what leads back": 2,
    }.items():
        assert f"{what}: {steps} of {steps}\n" in printed
