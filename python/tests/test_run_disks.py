"""Runs whose disk fills up: there is one message, nothing is half written, and the run goes on once there is room."""

import os
import pytest
import subprocess
import tempfile
from collections.abc import Iterator
from functools import partial
from pathlib import Path

from conftest import OF_PROGRAM, Program
from olr.tools import run as olr_tools
from runs import Runs, Town, answer_all, lines_of_batch

FULL = "No space left on device"


class Disk:
    """A disk of its own, of a size that can be changed."""

    def __init__(self, folder: Path) -> None:
        self.folder = folder
        folder.mkdir()
        mount = ["mount", "-t", "tmpfs", "-o", "size=8k", "tmpfs", str(folder)]
        if subprocess.run(mount, capture_output=True, check=False).returncode:
            pytest.skip("this user may not mount a disk")

    def resize(self, size: str) -> None:
        """Gives it another size."""
        subprocess.run(["mount", "-o", f"remount,size={size}", str(self.folder)], check=True)

    def names(self) -> list[str]:
        """All files and folders on it."""
        return sorted(str(path.relative_to(self.folder)) for path in self.folder.rglob("*"))

    def end(self) -> None:
        """Takes it away."""
        subprocess.run(["umount", "--lazy", str(self.folder)], check=True)


@pytest.fixture
def disk(tmp_path: Path) -> Iterator[Disk]:
    """A disk of 8 kB."""
    made = Disk(tmp_path / "disk")
    yield made
    made.end()


class Commands:
    """Runs whose groups are answered in this process, and what they say."""

    def __init__(self, town: Town, out: Path, capsys: pytest.CaptureFixture[str]) -> None:
        self.out, self.joined = out, out.parent / "joined"
        words = ["run", town.plain, "--store", town.store, "--out", out, "--per-group", "30"]
        words += OF_PROGRAM
        self._words = list(map(str, words))
        self._capsys = capsys

    def run(self, *words: object) -> tuple[int, str]:
        """The status of a run, and its errors."""
        status = olr_tools([*self._words, *map(str, words)])
        return status, self._capsys.readouterr().err

    def parts(self) -> dict[str, bytes]:
        """All parts."""
        return {file.name: file.read_bytes() for file in (self.out / "parts").iterdir()}


@pytest.mark.usefixtures("here")
def test_no_room_for_the_run(
    town: Town, program: Program, disk: Disk, capsys: pytest.CaptureFixture[str]
) -> None:
    """The disk is full when the run begins, then when most parts are written, and then it is large enough."""
    commands = Commands(town, disk.folder / "new" / "out", capsys)
    assert commands.run() == (1, f"olr-tools: {commands.out} can't be written: {FULL}\n")
    assert disk.names() == []
    disk.resize("140k")
    status, said = commands.run()
    assert status == 1 and said.count("\n") == 1
    assert " of 10 groups failed, listed in " in said and ": go on by --resume\n" in said
    assert f"{commands.out}/parts can't be written: {FULL}" in said
    before = commands.parts()
    assert 0 < len(before) < 10 and not any(name[0] == "." for name in before)
    disk.resize("20m")
    assert commands.run("--resume", "--join", commands.joined) == (0, "")
    assert len(commands.parts()) == 10 and commands.parts().items() >= before.items()
    expected = lines_of_batch(program, town.folder, "match", town.plain)
    assert commands.joined.read_bytes() == expected
    assert not (commands.out / "failed.txt").exists()


@pytest.mark.usefixtures("here")
def test_no_room_for_joined_lines(
    town: Town, program: Program, disk: Disk, tmp_path: Path, capsys: pytest.CaptureFixture[str]
) -> None:
    """All parts are there, and a file that was there stays."""
    commands = Commands(town, tmp_path / "out", capsys)
    joined = disk.folder / "joined"
    joined.write_text("old")
    words = ["--join", joined, "--force"]
    assert commands.run(*words) == (1, f"olr-tools: {joined} can't be written: {FULL}\n")
    assert disk.names() == ["joined"] and joined.read_text() == "old"
    before = commands.parts()
    disk.resize("20m")
    assert commands.run("--resume", *words) == (0, "")
    assert joined.read_bytes() == lines_of_batch(program, town.folder, "match", town.plain)
    assert commands.parts() == before


@pytest.mark.usefixtures("here")
def test_no_room_for_scratch_files(
    town: Town,
    program: Program,
    disk: Disk,
    tmp_path: Path,
    capsys: pytest.CaptureFixture[str],
    monkeypatch: pytest.MonkeyPatch,
) -> None:
    """Those of the command; then those of its workers, where each group fails; then nothing is left there."""
    commands = Commands(town, tmp_path / "out", capsys)
    monkeypatch.setattr(tempfile, "tempdir", os.fspath(disk.folder))
    monkeypatch.setattr("olr.commands.run.answer_here", partial(answer_all, scratch=disk.folder))
    said = f"olr-tools: scratch files can't be written: {FULL}: name another folder by TMPDIR\n"
    disk.resize("8k,nr_inodes=2")
    assert commands.run() == (1, said)
    assert disk.names() == [] and not commands.out.exists()
    disk.resize("8k,nr_inodes=1000")
    monkeypatch.setattr(tempfile, "tempdir", None)
    status, text = commands.run()
    assert status == 1 and text.count("\n") == 1
    assert ": the scratch folder of a worker on " in text and text.endswith(": go on by --resume\n")
    assert f"can't be written: {FULL}" in text
    assert disk.names() == [] and commands.parts() == {}
    disk.resize("20m")
    assert commands.run("--resume", "--join", commands.joined) == (0, "")
    expected = lines_of_batch(program, town.folder, "match", town.plain)
    assert commands.joined.read_bytes() == expected and disk.names() == []


def test_no_room_for_scratch_files_of_workers(runs: Runs, disk: Disk) -> None:
    """With little room the run begins, and there is one message."""
    runs.scratch = disk.folder
    disk.resize("100k")
    ended = runs.run("--per-group", 150)
    assert ended.status == 1 and ended.stderr.count("\n") == 1
    assert ": the scratch folder of a worker on " in ended.stderr and FULL in ended.stderr
    assert disk.names() == []
