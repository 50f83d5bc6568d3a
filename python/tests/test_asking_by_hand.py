"""The program asked by hand: where it is, how long it is waited for, what it says in vain, and the files that it reads."""

import os
import pytest
import shutil
import subprocess
from collections.abc import Callable
from pathlib import Path

from conftest import TOP
from olr.asking import program as finding
from olr.asking.files import MapFiles
from olr.asking.once import read_once
from olr.asking.patience import require_patience
from olr.asking.program import find_program
from olr.asking.starting import command_of
from olr.errors import MapRefused, ProgramEnded, ProgramNotFound
from olr.model.fault import Fault
from release.machines import MACHINES, Machine
from servers import is_running, wait_until
from stores import folder_of


@pytest.mark.parametrize("seconds", [None, 1, 0.001, 1_000_000])
def test_a_patience(seconds: float | None) -> None:
    assert require_patience(seconds) == seconds


@pytest.mark.parametrize(
    "seconds, error",
    [
        (0, ValueError),
        (-1, ValueError),
        (1_000_001, ValueError),
        (float("nan"), ValueError),
        (True, TypeError),
        ("5", TypeError),
        (float("inf"), ValueError),
    ],
)
def test_no_patience(seconds: float, error: type[Exception]) -> None:
    with pytest.raises(error, match="patience is a number of seconds above 0, 1,000,000 at most"):
        require_patience(seconds)


@pytest.fixture
def program_that(tmp_path: Path) -> Callable[[str], Path]:
    """Writes a program of some lines of a shell."""

    def write(lines: str) -> Path:
        file = tmp_path / "program"
        file.write_text(f"#!/bin/sh\n{lines}\n")
        file.chmod(0o755)
        return file

    return write


@pytest.mark.parametrize(
    "status, printed, errors, error, said",
    [
        (1, b"", b"olr: BadLength 3\n", Fault, "BadLength 3"),
        (1, b"", b"olr: Header nodes\n", MapRefused, "Header nodes"),
        (2, b"", b"olr: BadLength 3\n", ProgramEnded, "ended with status 2"),
        (1, b"", b"", ProgramEnded, "ended with status 1: is it the program olr?"),
        (3, b"7", b"", ProgramEnded, "ended with status 3: is it the program olr?"),
        (1, b"", b"setpriv: oh: no\n", ProgramNotFound, "program can't be started: no"),
        (0, b"x", b"", ProgramEnded, "is it the program olr"),
    ],
)
def test_a_run_that_answers_nothing(
    status: int, printed: bytes, errors: bytes, error: type[Exception], said: str
) -> None:
    with pytest.raises(error, match=said):
        read_once("program", "show", (status, printed, errors), int)


def test_a_run_that_answers() -> None:
    assert read_once("program", "show", (0, b"7", b""), int) == 7


def test_which_program(tmp_path: Path, monkeypatch: pytest.MonkeyPatch) -> None:
    """The given one, that of the variable, the package's own, the newer one of the repository, and one on the path."""
    places = {
        name: tmp_path / name / "olr" for name in "given named own built released path".split()
    }
    for file in places.values():
        file.parent.mkdir()
        file.touch(0o755)
    monkeypatch.setattr(finding, "OWN", places["own"])
    monkeypatch.setattr(finding, "OF_REPOSITORY", (places["built"], places["released"]))
    monkeypatch.setenv("OLR_PROGRAM", str(places["named"]))
    monkeypatch.setenv("PATH", str(places["path"].parent))
    os.utime(places["built"], (1, 1))
    assert find_program(places["given"]) == places["given"]
    assert find_program() == places["named"]
    monkeypatch.setenv("OLR_PROGRAM", "")
    for name in ("own", "released", "built", "path"):
        assert find_program() == places[name]
        places[name].unlink()
    with pytest.raises(ProgramNotFound, match="no program olr: install its package, build it"):
        find_program()
    for given in (places["path"], tmp_path):
        with pytest.raises(ProgramNotFound, match="there is no program .*: name the program"):
            find_program(given)


@pytest.mark.parametrize("machine", MACHINES)
def test_the_released_program_of_a_machine(machine: Machine) -> None:
    """By the number of the machine in its bytes."""
    program = (TOP / finding.released_name(machine.name)).read_bytes()
    assert program[18:20] == {"x86_64": b"\x3e\0", "aarch64": b"\xb7\0"}[machine.name]


def test_programs_that_cant_be_started(tmp_path: Path) -> None:
    """The reason is the one that the system would give."""
    (tmp_path / "file").touch()
    for name, reason in (("file", "Permission denied"), ("none", "No such file or directory")):
        with pytest.raises(ProgramNotFound, match=f"{name} can't be started: {reason}"):
            command_of(tmp_path / name, [])


@pytest.mark.skipif(shutil.which("setpriv") is None, reason="it is a command of Linux")
def test_a_process_whose_starter_is_killed(program_that: Callable[[str], Path]) -> None:
    """It ends too."""
    program = program_that("echo $$; exec sleep 60")
    script = f"""
from olr.asking.starting import start
import sys, time
with start({str(program)!r}, []) as process:
    time.sleep(60)
"""
    command = ["/usr/bin/python3", "-c", script]
    environment = os.environ | {"PYTHONPATH": str(TOP / "python")}
    with subprocess.Popen(command, stdout=subprocess.PIPE, text=True, env=environment) as starter:
        assert starter.stdout is not None
        process = int(starter.stdout.readline())
        assert is_running(process)
        starter.kill()
        wait_until(lambda: not is_running(process))


def test_files_that_change(tmp_path: Path) -> None:
    """Once they were read all answers are of one version, of bans too."""
    for changed in ("nodes.csv", "lines.csv", "bans.csv"):
        folder = folder_of(tmp_path / changed)
        files = MapFiles.of_folder(folder)
        with files.reading() as version:
            pass
        with files.reading() as again:
            assert again == version
        with pytest.raises(MapRefused, match="have changed since they were read"):
            with files.reading():
                (folder / changed).write_text((folder / changed).read_text() + "\n")
        with pytest.raises(MapRefused, match="have changed since they were read"):
            files.found()


def test_files_that_change_while_they_are_read_first(tmp_path: Path) -> None:
    folder = folder_of(tmp_path / "map")
    files = MapFiles.of_folder(folder)
    with pytest.raises(MapRefused, match="have changed since they were read"):
        with files.reading():
            (folder / "bans.csv").write_text("from,to\n")
    assert files.words() == [
        *("--nodes", f"{folder}/nodes.csv", "--lines", f"{folder}/lines.csv"),
        *("--bans", f"{folder}/bans.csv"),
    ]
