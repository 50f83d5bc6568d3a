"""`olr.Map` and a program that hangs: an error that names the reference, and a new process for what is asked next."""

import gc
import os
import pickle
import pytest
import re
import threading
import time
from collections.abc import Iterator
from pathlib import Path

import olr
from bad_programs import bad_program, starts
from conftest import REFERENCE, TOP, Program
from olr.asking import once
from olr.asking.processes import AHEAD
from olr.tools import run
from servers import wait_until
from test_client_failures import ROADWORKS, children

BAD = "CwVF+yN2yhpnBAFdAAsaFg=="
PATIENCE = 3.0
"""Seconds: long enough for a good program on a busy machine."""


@pytest.fixture(autouse=True)
def nothing_left() -> Iterator[None]:
    """Sees that a test leaves no process and no thread."""
    before, threads = children(), threading.active_count()
    yield
    gc.collect()
    wait_until(lambda: children() <= before and threading.active_count() == threads)


@pytest.fixture
def bad(program: Program, tmp_path: Path) -> Path:
    """A program that hangs at one reference."""
    return bad_program(tmp_path / "bad", program, {BAD: "hangs within a line"})


def town(program: Path, patience: float | None = PATIENCE) -> olr.Map:
    """The map of the examples."""
    return olr.Map.of_folder(TOP / "examples", program=program, patience=patience)


def test_one_reference(program: Program, bad: Path) -> None:
    with town(program.path) as good, town(bad) as asked:
        expected = good.match(REFERENCE)
        assert asked.match(REFERENCE) == expected
        with pytest.raises(
            olr.TimedOut, match=f"nothing for 3 seconds to '{re.escape(BAD)}.*: ask again"
        ):
            asked.match(BAD)
        assert asked.match(REFERENCE) == expected
        with pytest.raises(olr.TimedOut) as raised:
            asked.match(BAD)
        assert (raised.value.reference, raised.value.number) == (BAD, None)
        again = pickle.loads(pickle.dumps(raised.value))
        assert (str(again), again.reference) == (str(raised.value), BAD)
    assert starts(bad) == 2


@pytest.mark.parametrize("at", [0, AHEAD - 3, AHEAD + 59])
def test_many_references(program: Program, bad: Path, at: int) -> None:
    """At the first, the last and one between, of more than are handed over at once: all before it are answered, and all behind it."""
    texts = [REFERENCE, ROADWORKS] * (AHEAD // 2 + 30)
    with town(program.path) as good, town(bad) as asked:
        expected = list(good.matches(texts))
        found = []
        with pytest.raises(
            olr.TimedOut, match=f"to reference {at + 1}, '{re.escape(BAD)}"
        ) as raised:
            for answer in asked.matches([*texts[:at], BAD, *texts[at + 1 :]]):
                found.append(answer)
        assert (raised.value.reference, raised.value.number) == (BAD, at + 1)
        assert found == expected[:at]
        assert list(asked.matches(texts[at + 1 :])) == expected[at + 1 :]


def test_threads(program: Program, bad: Path) -> None:
    """They share a process: only those that ask the bad reference get the error."""
    with town(program.path) as good:
        expected = good.match(REFERENCE)
    said: dict[int, object] = {}
    with town(bad) as asked:

        def ask(number: int) -> None:
            try:
                said[number] = asked.match(BAD if number < 2 else REFERENCE)
            except olr.TimedOut as error:
                said[number] = error.reference

        threads = [threading.Thread(target=ask, args=(number,)) for number in range(6)]
        for thread in threads:
            thread.start()
        for thread in threads:
            thread.join()
    assert [said[number] for number in range(6)] == [BAD] * 2 + [expected] * 4


def test_others_whose_records_are_slow(program: Program, tmp_path: Path) -> None:
    """Whoever waits behind them does so as long as the patience, however many there are: then another process answers, and theirs goes on."""
    slow = bad_program(tmp_path / "slow", program, {BAD: "is slow"})
    with town(slow, 1) as asked:
        others = asked.matches([BAD] * AHEAD)
        first, begin = next(others), time.monotonic()
        assert asked.match(REFERENCE) and asked.match(REFERENCE)
        assert time.monotonic() - begin < 10
        assert all(next(others) == first for _ in range(15)) and starts(slow) == 3


@pytest.mark.parametrize("way", ["dribbles", "no line"])
def test_a_program_that_writes_no_line(way: str, program: Program, tmp_path: Path) -> None:
    """Whatever else it writes doesn't make the patience longer."""
    bad = bad_program(tmp_path / "bad", program, {BAD: way})
    with town(bad, 1) as asked:
        with pytest.raises(olr.TimedOut, match="nothing for 1 seconds to reference 2, "):
            list(asked.matches([REFERENCE, BAD]))


def test_several_processes(program: Program, tmp_path: Path) -> None:
    """One for each who asks, but no more than are admitted."""
    slow, before = bad_program(tmp_path / "slow", program, {BAD: "is slow"}), children()
    with olr.Map(TOP / "examples", program=slow, processes=2) as asked:
        assert asked.match(REFERENCE) == asked.match(REFERENCE) and starts(slow) == 1
        streams = [asked.matches([BAD] * 3) for _ in range(3)]
        assert len({next(stream) for stream in streams}) == 1
        assert len(children() - before) == starts(slow) == 2
    with pytest.raises(ValueError, match="processes is how many there may be, from 1 on, not 0"):
        olr.Map(TOP / "examples", processes=0)


@pytest.mark.parametrize("is_map", [True, False])
def test_all_that_a_program_started_is_ended(is_map: bool, tmp_path: Path) -> None:
    """It has a group of its own."""
    script, child = tmp_path / "program", tmp_path / "child"
    script.write_text(f"#!/bin/sh\nsleep 600 &\necho $! > {child}\nwait\n")
    script.chmod(0o755)
    with town(script, patience=1) as asked, pytest.raises(olr.TimedOut):
        asked.match(REFERENCE) if is_map else once.run(script, ["show"], 1)
    status = Path(f"/proc/{child.read_text().strip()}/stat")
    wait_until(lambda: not status.exists() or status.read_text().split()[2] == "Z")


def test_patience_without_end(program: Program, tmp_path: Path) -> None:
    """The program waits for a file, which is there after what a short patience would have waited for."""
    script, go = tmp_path / "program", tmp_path / "go"
    script.write_text(
        f'#!/bin/sh\nwhile [ ! -e {go} ]; do sleep 0.1; done\nexec {program.path} "$@"\n'
    )
    script.chmod(0o755)
    with town(script, 0.2) as short, town(script, None) as endless:
        with pytest.raises(olr.TimedOut):
            short.match(REFERENCE)
        timer = threading.Timer(0.5, go.touch)
        timer.start()
        assert endless.match(REFERENCE) == endless.match(REFERENCE)
        timer.join()


def test_an_error_of_the_references(program: Program) -> None:
    """One that another map raised isn't taken for one of this map."""

    def references() -> Iterator[str]:
        yield REFERENCE
        raise olr.TimedOut("mine")

    with town(program.path) as asked:
        with pytest.raises(olr.TimedOut, match="mine"):
            list(asked.matches(references()))


def test_a_command(
    bad: Path, tmp_path: Path, monkeypatch: pytest.MonkeyPatch, capfd: pytest.CaptureFixture[str]
) -> None:
    """It writes nothing, and names the record."""
    monkeypatch.setenv("OLR_PROGRAM", os.fspath(bad))
    messages, out = tmp_path / "messages.txt", tmp_path / "out.gpkg"
    messages.write_text(f"a\t{REFERENCE}\nb\t{BAD}\n")
    words = ["match", str(messages), "--map", str(TOP / "examples"), "--out", str(out)]
    assert run([*words, "--patience", "3"]) == 1
    said = capfd.readouterr().err
    assert said.startswith(f"olr-tools: olr answered nothing for 3 seconds to reference 2, '{BAD}'")
    assert not out.exists()
    assert run([*words, "--patience", "nan"]) == 2
    assert "patience is a number of seconds above 0" in capfd.readouterr().err
