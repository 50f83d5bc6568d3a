"""Processes that end, maps that are refused, threads: no wrong answer, no process that is left behind, and errors that help."""

import gc
import os
import pytest
import re
import signal
import subprocess
import sys
import threading
import time
from collections.abc import Callable, Iterator
from pathlib import Path
from typing import Any

import olr
from asking import as_json
from conftest import REFERENCE, TOP, Program
from olr.asking.processes import AHEAD
from olr.asking.starting import start
from olr.errors import ToolError
from olr.model.fault_table import ROWS
from servers import is_running, wait_until

ROADWORKS = "CwVGnSN2zhvHCgDX/tIzAw=="
BREAKDOWN = "CwVF+yN2yhpnBAFdAAsaFg=="
"""A reference with four matchings."""


def children() -> set[int]:
    """The processes that threads of this one started and that aren't waited for."""
    found = [file.read_text().split() for file in Path("/proc/self/task").glob("*/children")]
    return {int(process) for some in found for process in some}


@pytest.fixture(autouse=True)
def nothing_left() -> Iterator[None]:
    """Sees that a test leaves no process and no thread."""
    before, threads = children(), threading.active_count()
    yield
    gc.collect()
    wait_until(lambda: children() <= before and threading.active_count() == threads)


def town(program: Program) -> olr.Map:
    """The map of the examples."""
    return olr.Map.of_folder(TOP / "examples", program=program.path, profile="program")


def script(folder: Path, text: str) -> Path:
    """A program made of a line of a shell."""
    path = folder / "program"
    path.write_text(f"#!/bin/sh\n{text}\n")
    path.chmod(0o755)
    return path


def test_a_killed_process(program: Program) -> None:
    before = children()
    with town(program) as asked:
        first = asked.match(REFERENCE)
        (process,) = children() - before
        os.kill(process, signal.SIGKILL)
        with pytest.raises(olr.ProgramEnded, match=r"signal 9 after 1 answers: ask again"):
            asked.match(REFERENCE)
        assert asked.match(REFERENCE) == first


def test_a_process_killed_amid_many(program: Program) -> None:
    before = children()
    with town(program) as asked:
        answers = asked.matches([REFERENCE] * 100_000)
        first = next(answers)
        os.kill((children() - before).pop(), signal.SIGKILL)
        seen = 1
        with pytest.raises(olr.ProgramEnded):
            for answer in answers:
                assert answer == first
                seen += 1
        assert seen < 100_000
        assert asked.match(REFERENCE) == first


def test_a_reader_that_stops_early(program: Program) -> None:
    with town(program) as asked:
        for page in asked.matches([ROADWORKS] * 5000):
            break
        answers = asked.matches([ROADWORKS] * 5000)
        next(answers)
        assert as_json(asked.match(REFERENCE))["matchings"][0]["total"] == 8
        answers.close()  # type: ignore[attr-defined]
        assert asked.match(REFERENCE, page=1).matchings[0].total == 8
        left = asked.matches([ROADWORKS] * 5000)
        next(left)
    with pytest.raises(ToolError, match="closed"):
        list(left)


def test_references_are_taken_ahead_but_not_all(program: Program) -> None:
    taken = []

    def references() -> Iterator[str]:
        for number in range(10_000):
            taken.append(number)
            yield REFERENCE

    with town(program) as asked:
        answers = asked.matches(references())
        assert not taken
        next(answers)
        assert len(taken) == AHEAD
        for _ in range(1000):
            next(answers)
        assert len(taken) <= 1001 + AHEAD


def test_an_error_in_the_references(program: Program) -> None:
    def references() -> Iterator[str]:
        yield REFERENCE
        raise KeyError("mine")

    with town(program) as asked:
        with pytest.raises(KeyError, match="mine"):
            list(asked.matches(references()))
        with pytest.raises(TypeError, match="a reference is a text, not float"):
            asked.match(float("nan"))  # type: ignore[arg-type]
        assert asked.match(REFERENCE).matchings


def test_questions_within_questions(program: Program) -> None:
    with town(program) as asked:
        expected = asked.match(ROADWORKS)
        pairs = zip(asked.matches([REFERENCE] * 600), asked.matches([ROADWORKS] * 600))
        for one, two in pairs:
            assert two == expected == asked.match(ROADWORKS)
            assert one != two


def test_one_process_answers_all(program: Program) -> None:
    """Whatever is asked with whatever numbers, also amid many others."""
    before = children()
    with town(program) as asked:
        for number, page in enumerate(asked.matches([REFERENCE] * 600)):
            assert isinstance(page, olr.Page) and len(page.matchings) == 1
            first, second, *_ = asked.match(BREAKDOWN, page=2 + number % 3).matchings
            assert asked.match(BREAKDOWN, after=first.cursor).matchings[0] == second
        assert asked.why(REFERENCE) and asked.candidates(REFERENCE) and asked.places(REFERENCE)
        assert len(children() - before) == 1


def test_an_interrupted_start(program: Program, monkeypatch: pytest.MonkeyPatch) -> None:
    """What is started meanwhile ends."""
    begin = threading.Thread.start

    def interrupted(thread: threading.Thread) -> None:
        begin(thread)
        if threading.current_thread() is threading.main_thread():
            raise KeyboardInterrupt

    def slow(*words: Any, **pipes: Any) -> "subprocess.Popen[bytes]":
        time.sleep(0.2)
        return start(*words, **pipes)

    before, threads = children(), threading.active_count()
    with town(program) as asked:
        with monkeypatch.context() as patch, pytest.raises(KeyboardInterrupt):
            patch.setattr(threading.Thread, "start", interrupted)
            patch.setattr("olr.asking.threaded.start", slow)
            asked.match(REFERENCE)
        wait_until(lambda: threading.active_count() == threads)
        assert children() <= before and asked.match(REFERENCE)


def test_two_maps_at_once(program: Program) -> None:
    examples = TOP / "examples"
    files = examples / "nodes.csv", examples / "lines.csv"
    with olr.Map(*files, program=program.path) as free, town(program) as banned:
        pairs = zip(free.matches([ROADWORKS] * 600), banned.matches([ROADWORKS] * 600))
        for one, two in pairs:
            assert isinstance(one, olr.Page) and isinstance(two, olr.Page)
            assert (len(one.matchings), len(two.matchings)) == (2, 1)


def test_threads(program: Program) -> None:
    texts = [REFERENCE, ROADWORKS, "KwVGnCN20HPDBwFCATFjT5Y=", "CwVF+yN2yhpnBAFdAAsaFg=="]
    wrong: list[str] = []
    with town(program) as asked:
        expected = {text: asked.match(text) for text in texts}

        def ask(start: int) -> None:
            mine = [texts[(start + number) % 4] for number in range(150)]
            for text, page in zip(mine, asked.matches(mine)):
                if page != expected[text] or asked.match(text) != expected[text]:
                    wrong.append(text)

        threads = [threading.Thread(target=ask, args=(number,)) for number in range(8)]
        for thread in threads:
            thread.start()
        for thread in threads:
            thread.join()
    assert not wrong


def test_a_map_that_isnt_closed(program: Program) -> None:
    asked = town(program)
    asked.match(REFERENCE)
    del asked
    gc.collect()
    code = "import olr, sys; m = olr.Map.of_folder(sys.argv[1]); m.match(sys.argv[2]); print(m._source._there[0]._process.pid)"
    environment = os.environ | {"OLR_PROGRAM": str(program.path), "PYTHONPATH": str(TOP / "python")}
    command = [sys.executable, "-c", code, str(TOP / "examples"), REFERENCE]
    ended = subprocess.run(command, env=environment, capture_output=True, text=True, check=True)
    wait_until(lambda: not is_running(int(ended.stdout)))


@pytest.mark.parametrize(
    "call",
    [
        "olr.Map(sys.argv[1], patience=None).match(sys.argv[2])",
        "olr.decode(sys.argv[2])",
    ],
)
def test_python_is_killed(call: str, tmp_path: Path) -> None:
    """While the program works, and doesn't see that its input ends."""
    path = script(
        tmp_path, f"echo $$ > {tmp_path}/new; mv {tmp_path}/new {tmp_path}/pid; exec sleep 600"
    )
    environment = os.environ | {"OLR_PROGRAM": str(path), "PYTHONPATH": str(TOP / "python")}
    command = [sys.executable, "-c", f"import olr, sys; {call}", str(TOP / "examples"), REFERENCE]
    with subprocess.Popen(command, env=environment) as python:
        while not (tmp_path / "pid").exists():
            assert python.poll() is None
            time.sleep(0.02)
        asked = int((tmp_path / "pid").read_text())
        assert is_running(asked)
        python.kill()
    wait_until(lambda: not is_running(asked))


def test_a_thread_that_asked_has_ended(program: Program) -> None:
    """Its process goes on for others."""
    before = children()
    with town(program) as asked:
        first = threading.Thread(target=asked.match, args=(REFERENCE,))
        first.start()
        first.join()
        there = children() - before
        assert len(there) == 1 and asked.match(REFERENCE).matchings
        assert children() - before == there


def test_a_forked_process_may_not_ask(program: Program) -> None:
    """Nor go on with what was asked before."""
    with town(program) as asked:
        answers = asked.matches([REFERENCE] * 1000)
        first = next(answers)
        child = os.fork()
        if child == 0:
            said = []
            calls: list[Callable[[], object]] = [
                lambda: asked.match(REFERENCE),
                lambda: next(answers),
            ]
            for call in calls:
                try:
                    call()
                except ToolError as error:
                    said.append("another one here" in str(error))
            asked.close()
            os._exit(7 if said == [True, True] else 1)
        assert os.waitstatus_to_exitcode(os.waitpid(child, 0)[1]) == 7
        assert next(answers) == asked.match(REFERENCE) == first


def test_a_map_that_is_refused(program: Program, tmp_path: Path) -> None:
    (tmp_path / "nodes.csv").write_text("id,lon,lat\n1,7.5,49\n")
    (tmp_path / "lines.csv").write_text("id,from,to,class,form,length,shape\n")
    with olr.Map.of_folder(tmp_path, program=program.path) as asked:
        with pytest.raises(olr.MapRefused) as raised:
            asked.match(REFERENCE)
        assert str(raised.value).startswith("olr refuses the map: Field nodes 1 2: column 2 has no")
        with pytest.raises(olr.MapRefused):
            list(asked.matches([REFERENCE] * 1000))
    with olr.Map.of_folder(tmp_path / "none", program=program.path) as asked:
        with pytest.raises(olr.MapRefused, match="OpenFailed nodes"):
            asked.why(REFERENCE)


def test_numbers_out_of_range(program: Program) -> None:
    with pytest.raises(olr.Fault, match="BadTolerance radius: the tolerance radius is out of"):
        olr.Map.of_folder(TOP / "examples", radius=0, program=program.path)
    with town(program) as asked:
        with pytest.raises(olr.Fault, match="BadPage 0: the page size 0 is out of its range"):
            asked.match(REFERENCE, page=0)
        with pytest.raises(olr.Fault, match="BadPage 1001"):
            asked.pages(REFERENCE, page=1001)
        with pytest.raises(olr.Fault, match="BadNumber most"):
            asked.answers("places", [REFERENCE], most=0)
        assert asked.match(REFERENCE).matchings
    with pytest.raises(ToolError, match="closed"):
        asked.match(REFERENCE)


@pytest.mark.parametrize(
    ("line", "error", "words"),
    [
        ("exit 0", olr.ProgramEnded, "ended with status 0 after 0 answers"),
        ("echo oops >&2; exit 3", olr.ProgramEnded, "ended with status 3 after 0 answers: oops"),
        ("yes", olr.ProgramEnded, "is it the program olr"),
        (
            'read record; echo \'{"answer":null,"fault":"Empty","key":"2","record":1}\'; cat',
            olr.ProgramEnded,
            "it isn't the line of record 1",
        ),
        (
            'read record; echo \'{"answer":{"matchings":[{}],"next":null},"key":"1"}\'; cat',
            olr.ProgramEnded,
            "it doesn't begin as one",
        ),
        (
            'read record; echo \'{"answer":null,"fault":"Words --new","key":"1","record":1}\'; cat',
            olr.ProgramEnded,
            "doesn't know what it is asked: is it of another version than this package? (--new)",
        ),
        ("echo no answer >&2; exit 2", olr.ProgramEnded, "of another version than this package?"),
        ("exec 1>&-; exec sleep 60", olr.ProgramEnded, "signal 9"),
        ("echo 'olr: NoMemory' >&2; exit 1", olr.ProgramEnded, "0 answers: olr: NoMemory"),
    ],
)
def test_another_program(
    line: str, error: type[Exception], words: str, tmp_path: Path, monkeypatch: pytest.MonkeyPatch
) -> None:
    monkeypatch.setattr("olr.asking.threaded.SECONDS_TO_END", 0.5)
    path = script(tmp_path, line)
    with olr.Map.of_folder(TOP / "examples", program=path) as asked:
        with pytest.raises(error, match=re.escape(words)):
            asked.match(REFERENCE)


@pytest.mark.parametrize("line", ["echo {}", "echo []", "echo", "exit 2", "kill -9 $$"])
def test_another_program_that_is_run_once(line: str, tmp_path: Path) -> None:
    path = script(tmp_path, line)
    with pytest.raises(olr.ProgramEnded, match="olr show ended .*: is it the program olr"):
        olr.decode(REFERENCE, program=path)


def test_a_program_that_cant_be_started(tmp_path: Path) -> None:
    with olr.Map.of_folder(TOP / "examples", program=tmp_path / "none") as asked:
        with pytest.raises(olr.ProgramNotFound, match="there is no program"):
            asked.match(REFERENCE)
    path = tmp_path / "plain"
    path.write_text("no program")
    with pytest.raises(olr.ProgramNotFound, match="can't be started: Permission denied"):
        olr.decode(REFERENCE, program=path)


def test_the_table_of_faults_is_that_of_the_page() -> None:
    rows = {}
    for line in (TOP / "docs/FAULTS.md").read_text(encoding="utf-8").splitlines():
        cells = [cell.strip() for cell in line.strip("| ").split(" | ")]
        name = re.match(r"`([A-Z][^`]*)`", cells[0])
        if line.startswith("| `") and len(cells) == 4 and name:
            rows[name.group(1)] = cells[1], cells[3]
    assert rows == ROWS


@pytest.mark.parametrize(
    ("text", "name", "number", "sentence"),
    [
        ("BadLength 12", "BadLength", 12, "12 bytes are no size of a reference"),
        ("OtherKind Area", "OtherKind", None, "a circle, rectangle, grid, polygon or closed line"),
        ("TooManyCandidates 3", "TooManyCandidates", 3, "more than 64 lines may carry point 3"),
        ("Field lines 1 6", "Field", 6, "column 6 has no value of its kind"),
        ("Unknown 7", "Unknown", 7, ""),
    ],
)
def test_the_sentence_of_a_fault(text: str, name: str, number: int, sentence: str) -> None:
    fault = olr.Fault(text)
    assert (fault.name, fault.number, fault.meaning) == (name, number, sentence)
    assert str(fault).startswith(text) and "\n" not in str(fault) and "`" not in str(fault)
