"""Paths that can't be read, from Python: a `ToolError` of one line with the path, and no error of the system."""

import errno
import os
import pytest
from collections.abc import Callable
from pathlib import Path

import olr
from conftest import REFERENCE, TOP, Program


def asked(path: Path) -> None:
    """Asks about a reference on a map."""
    with olr.Map(path) as asked:
        asked.match(REFERENCE)


@pytest.fixture(params=["long", "nul", "through a file", "loop", "shut"])
def path(request: pytest.FixtureRequest, tmp_path: Path, monkeypatch: pytest.MonkeyPatch) -> Path:
    """A path at which nothing can be read."""
    (tmp_path / "file").touch()
    (tmp_path / "loop").symlink_to("loop")
    names = {"long": "x" * 300, "nul": "a\0b", "through a file": "file/x", "loop": "loop"}
    if request.param in names:
        return tmp_path / names[request.param]
    shut = tmp_path / "shut"
    shut.mkdir()

    # Root can enter each folder, so the answer of the system is set here.
    def refuse(path: Path, *_: object, **__: object) -> None:
        raise PermissionError(errno.EACCES, os.strerror(errno.EACCES), os.fspath(path))

    for name in ("stat", "open", "read_bytes"):
        monkeypatch.setattr(Path, name, refuse)
    return shut


@pytest.mark.parametrize(
    "read",
    [
        olr.Network.read,
        olr.Confidence.of_file,
        lambda path: list(olr.read_messages(path)),
        lambda path: list(olr.answers(path)),
        lambda path: olr.Confidence.of_file(str(path)),
        asked,
    ],
    ids=[
        "Network.read",
        "Confidence.of_file",
        "read_messages",
        "answers",
        "of_file of a text",
        "Map",
    ],
)
def test_a_path_that_cant_be_read(
    read: Callable[[Path], object], path: Path, program: Program, monkeypatch: pytest.MonkeyPatch
) -> None:
    monkeypatch.setenv("OLR_PROGRAM", os.fspath(program.path))
    with pytest.raises(olr.ToolError) as raised:
        read(path)
    said = str(raised.value)
    assert "\n" not in said and "\0" not in said
    assert path.name.replace("\0", r"\x00") in said


@pytest.mark.parametrize("lacks", ["nodes", "lines", "bans"])
@pytest.mark.parametrize("fault", ["OpenFailed", "ReadFailed"])
def test_a_file_of_a_map(
    lacks: str, fault: str, program: Program, tmp_path: Path, monkeypatch: pytest.MonkeyPatch
) -> None:
    """Each question names the file that isn't there, or is a folder."""
    monkeypatch.setenv("OLR_PROGRAM", os.fspath(program.path))
    files = {name: TOP / "examples" / f"{name}.csv" for name in ("nodes", "lines", "bans")}
    files[lacks] = tmp_path / "other"
    reason = "No such file or directory"
    if fault == "ReadFailed":
        (tmp_path / "other").mkdir()
        reason = "Is a directory"
    reason += ": name a folder with nodes.csv and lines.csv"
    said = f"olr refuses the map: {fault} {lacks}: {tmp_path}/other can't be read: {reason}"
    with olr.Map(files["nodes"], files["lines"], files["bans"]) as asked:
        questions: list[Callable[[], object]] = [
            lambda: asked.match(REFERENCE),
            lambda: asked.match(REFERENCE, after="8:1.1.1"),
            lambda: asked.raw_answer("why", REFERENCE),
            lambda: list(asked.answers("places", [REFERENCE])),
        ]
        for ask in questions:
            with pytest.raises(olr.MapRefused) as raised:
                ask()
            assert str(raised.value) == said


def test_a_file_of_a_map_without_rights(
    program: Program, tmp_path: Path, monkeypatch: pytest.MonkeyPatch
) -> None:
    """Root may read each file, so the answer of the system is set here."""
    monkeypatch.setenv("OLR_PROGRAM", os.fspath(program.path))
    for name in ("nodes.csv", "lines.csv"):
        (tmp_path / name).write_bytes((TOP / "examples" / name).read_bytes())
    lines = tmp_path / "lines.csv"
    access = os.access
    monkeypatch.setattr(os, "access", lambda path, mode: path != lines and access(path, mode))
    with olr.Map(tmp_path) as asked, pytest.raises(olr.MapRefused) as raised:
        asked.match(REFERENCE)
    assert str(raised.value).endswith(
        f" OpenFailed lines: {lines} can't be read: Permission denied"
    )


def test_a_program_whose_name_is_too_long(monkeypatch: pytest.MonkeyPatch) -> None:
    monkeypatch.setenv("OLR_PROGRAM", "x" * 300)
    with pytest.raises(olr.ProgramNotFound, match="there is no program xxx"):
        olr.decode(REFERENCE)
