"""`olr-tools run` when a worker or the run itself is killed, or files can't grow: nothing is lost, and nothing is there twice."""

import os
import pytest
import resource
from collections.abc import Iterator
from contextlib import contextmanager
from pathlib import Path

from runs import Runs, assert_resumes

GROUPS = ["--per-group", "10"]
"""31 groups."""


def test_a_worker_is_killed(runs: Runs) -> None:
    killing = runs.killing("os.getppid()")
    ended = runs.run(*GROUPS, "--join", runs.joined, program=killing)
    assert (ended.status, ended.stderr) == (0, "")
    assert runs.flag().exists()
    assert runs.joined.read_bytes() == runs.expected()
    assert os.listdir(runs.folder / "scratch") == []


def test_the_run_is_killed(runs: Runs) -> None:
    """No program is left either, though it hangs."""
    killing = runs.killing("run")
    ended = runs.run(*GROUPS, program=killing)
    assert runs.flag().exists() and len(runs.parts()) < 31
    assert ended.status == -9
    assert_resumes(runs, *GROUPS, program=killing)


@pytest.mark.parametrize(("whom", "sign"), [("run", "TERM"), ("-run", "INT")])
def test_the_run_is_interrupted(runs: Runs, whom: str, sign: str) -> None:
    """By somebody, or at a terminal, where all processes get the signal. The program hangs meanwhile."""
    ended = runs.run(*GROUPS, program=runs.killing(whom, sign))
    assert runs.flag(sign).exists()
    assert (ended.status, ended.stderr.strip()) == (1, "olr-tools: interrupted")
    parts = runs.parts()
    assert 2 <= len(parts) < 31 and all(name[0] != "." for name in parts), parts
    assert os.listdir(runs.folder / "scratch") == []


@contextmanager
def small_files() -> Iterator[None]:
    """As on a full disk: meanwhile no file of more than 20 kB can be written."""
    soft, hard = resource.getrlimit(resource.RLIMIT_FSIZE)
    resource.setrlimit(resource.RLIMIT_FSIZE, (20_000, hard))
    try:
        yield
    finally:
        resource.setrlimit(resource.RLIMIT_FSIZE, (soft, hard))


def test_files_may_not_grow(runs: Runs) -> None:
    plain = runs.town.plain
    with small_files():
        ended = runs.run_here("--per-group", 60, messages=plain)
    assert ended.status == 1 and ended.stderr.count("\n") == 1
    assert " of 5 groups failed, listed in " in ended.stderr
    assert "can't be written: File too large" in ended.stderr
    assert ended.stderr.endswith(": go on by --resume\n")
    listed = (runs.out / "failed.txt").read_text().splitlines()
    assert len(listed) + len(runs.parts()) == 5 and len(listed) > 2
    assert all("File too large" in line for line in listed)
    assert_resumes(runs, "--per-group", 60, messages=plain)


def test_standard_input_that_cant_be_copied(runs: Runs) -> None:
    with small_files():
        ended = runs.run_here(messages=Path("-"), given=b"x" * 100_000)
    said = "olr-tools: standard input can't be copied: File too large\n"
    assert ended == (1, "", said)
    assert os.listdir(runs.folder / "scratch") == [] and not runs.out.exists()
