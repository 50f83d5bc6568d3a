"""What the scripts of attacks/ share: how a run is ended, and what is no flaw on a busy machine."""

import importlib
import pytest
import subprocess
import sys
from pathlib import Path
from typing import Any

from conftest import TOP, Program


@pytest.fixture
def trials(monkeypatch: pytest.MonkeyPatch) -> Any:
    """The module that they share, with a second for each run."""
    monkeypatch.syspath_prepend(TOP / "attacks")
    module = importlib.import_module("trials")
    monkeypatch.setattr(module, "SECONDS", 1)
    return module


def script(folder: Path, text: str) -> Path:
    """A program."""
    file = folder / "program"
    file.write_text(f"#!/bin/sh\n{text}\n", encoding="utf-8")
    file.chmod(0o700)
    return file


def test_a_run_that_waits_is_no_flaw(trials: Any, tmp_path: Path) -> None:
    trial = trials.Trial(script(tmp_path, "sleep 1.5; echo done"), tmp_path)
    assert trial.run([]) == (0, b"done\n", b"")


def test_a_run_without_an_end_is_a_flaw(trials: Any, tmp_path: Path) -> None:
    trial = trials.Trial(script(tmp_path, "while :; do :; done"), tmp_path)
    with pytest.raises(trials.GivenUp, match="no end after 1 s of a processor: words"):
        trial.run(["words"])


def test_the_likely_order(program: Program) -> None:
    """A short run of the script that works it out from the program's other answers."""
    words = [str(TOP / "attacks/likely_order.py"), str(program.path), "--references", "200"]
    ended = subprocess.run([sys.executable, *words], capture_output=True, text=True, check=False)
    assert ended.returncode == 0, ended.stdout + ended.stderr
    assert ended.stdout.endswith("220 passed, 0 failed\n")


@pytest.mark.parametrize(
    "text, line",
    [
        ("read a; i=0; while [ $i -lt 200000 ]; do i=$((i+1)); done; echo $a; read b", b"one\n"),
        ("read a; read b; echo $a", b""),
        ("read a", b""),
    ],
)
def test_the_line_of_a_record(trials: Any, tmp_path: Path, text: str, line: bytes) -> None:
    """It comes before more is written, or it never does."""
    records = importlib.import_module("records")
    pipe = subprocess.PIPE
    with subprocess.Popen(script(tmp_path, text), bufsize=0, stdin=pipe, stdout=pipe) as process:
        assert process.stdin is not None
        process.stdin.write(b"one\n")
        assert records.next_line(process) == line
        process.communicate(b"two\n")
