"""Where few files may be open a command says so in one line, or does without."""

import os
import pytest
import resource
from pathlib import Path

from conftest import TOP, Program
from forked import Forked
from olr.__main__ import main
from runs import Town, without_progress

EXAMPLES = TOP / "examples"
MESSAGES = EXAMPLES / "messages.tsv"


def ended(folder: Path, files: int, *words: object) -> tuple[int, str]:
    """The status of a command that may open so many files, and what it says. What it says is in the folder meanwhile."""
    errors = folder / "stderr"

    def command() -> None:
        resource.setrlimit(resource.RLIMIT_NOFILE, (files, files))
        main()

    with Forked([*map(str, words)], os.environ, errors, command) as process:
        status = process.wait()
    said = without_progress(errors.read_text())
    errors.unlink()
    return status, said


@pytest.mark.parametrize(
    "files, words",
    [
        (9, ["match", MESSAGES, "--map", EXAMPLES, "--out", "OUT"]),
        (5, ["regions", EXAMPLES, "--out", "OUT"]),
        (20, ["serve", "--map", EXAMPLES, "--port", 0]),
    ],
)
def test_one_line(program: Program, tmp_path: Path, files: int, words: list[object]) -> None:
    out = tmp_path / "out.gpkg"
    status, said = ended(tmp_path, files, *(out if word == "OUT" else word for word in words))
    assert status == 1 and said.count("\n") == 1
    assert said.startswith("olr-tools: ") and "open" in said
    assert list(tmp_path.iterdir()) == []


@pytest.mark.parametrize("files", [8, 12, 16, 20, 32])
def test_a_run(program: Program, town: Town, tmp_path: Path, files: int) -> None:
    """It needs less than that, or says so."""
    words = ["--store", town.store, "--out", tmp_path / "run", "--workers", 1]
    status, said = ended(tmp_path, files, "run", town.plain, *words)
    if status:
        assert said.startswith("olr-tools: ") and said.count("\n") == 1
        assert "Too many open files" in said
    assert (status, said) == (0, "") if files == 32 else status == 1 or files > 8
