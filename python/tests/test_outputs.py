"""What commands write is there whole or not at all, and what was there stays where it can't be written."""

import os
import pytest
import resource
import shutil
import signal
import sqlite3
import subprocess
import time
from collections.abc import Iterator
from contextlib import contextmanager
from functools import partial
from pathlib import Path

from conftest import REFERENCE, TOP, Program
from olr.errors import ToolError
from olr.matching.columns import ANSWERS, IN_FRONT
from olr.matching.geopackage import make
from olr.outputs import PREFIX, require_free_file, whole_file, write_whole
from olr.regions import geopackage
from olr.running.joining import join, lines_of
from olr.tools import run

EXAMPLES = TOP / "examples"
MATCH = ["match", EXAMPLES / "messages.tsv", "--map", EXAMPLES]
VIEW = ["view", REFERENCE, "--map", EXAMPLES]
IMPORT = ["import", "osm", EXAMPLES / "town.osm"]


@pytest.fixture(autouse=True)
def environment(program: Program, monkeypatch: pytest.MonkeyPatch) -> None:
    """The commands find the program by its environment."""
    monkeypatch.setenv("OLR_PROGRAM", os.fspath(program.path))


def olr_tools(*words: object) -> int:
    """Runs the command line, and answers its status."""
    return run(list(map(str, words)))


def contents(folder: Path) -> dict[Path, bytes | None]:
    """All that is in a folder, with what files have in them."""
    return {path: None if path.is_dir() else path.read_bytes() for path in folder.rglob("*")}


@contextmanager
def full_disk(room: int = 100) -> Iterator[None]:
    """Files can't grow beyond some bytes: a write has an error, as on a full disk."""
    before = resource.getrlimit(resource.RLIMIT_FSIZE)
    resource.setrlimit(resource.RLIMIT_FSIZE, (room, before[1]))
    try:
        yield
    finally:
        resource.setrlimit(resource.RLIMIT_FSIZE, before)


@pytest.mark.parametrize(
    ("words", "name"),
    [
        (MATCH, "out.gpkg"),
        (MATCH, "out.geojson"),
        ([*MATCH, "--why"], "out.geojson"),
        (VIEW, "page.html"),
        (IMPORT, "map"),
        (["regions", EXAMPLES], "town.gpkg"),
        (["regions", EXAMPLES / "town.osm"], "town.gpkg"),
        (IMPORT, "store"),
    ],
)
def test_a_full_disk(
    words: list[object],
    name: str,
    tmp_path: Path,
    capsys: pytest.CaptureFixture[str],
    monkeypatch: pytest.MonkeyPatch,
) -> None:
    """The old file stays; where there is none, nothing is left, nor a folder that was made for it."""
    if name == "store":
        monkeypatch.setattr("olr.model.road_map.MOST_LINES", 1)
    # SQLite doesn't tell which error it had.
    stores = name in ("store", "town.gpkg")
    reason = "Input/output error" if stores else "File too large"
    out, new = tmp_path / name, tmp_path / "new" / name
    assert olr_tools(*words, "--out", out) == 0
    before = contents(tmp_path)
    capsys.readouterr()
    with full_disk():
        statuses = [olr_tools(*words, "--out", out, "--force"), olr_tools(*words, "--out", new)]
    said = [line for line in capsys.readouterr().err.splitlines() if "left out: " not in line]
    assert statuses == [1, 1]
    assert said == [f"olr-tools: {one} can't be written: {reason}" for one in (out, new)]
    assert contents(tmp_path) == before


def test_a_disk_with_room_for_an_empty_layer_alone(
    tmp_path: Path, capsys: pytest.CaptureFixture[str]
) -> None:
    """The empty file fits, and what SQLite makes of it doesn't."""
    out, many = tmp_path / "out.gpkg", tmp_path / "many.tsv"
    many.write_text((EXAMPLES / "messages.tsv").read_text() * 40)
    make(out, "match", {**IN_FRONT, **ANSWERS})
    size = out.stat().st_size
    out.unlink()
    with full_disk(size + 1):
        assert olr_tools("match", many, "--map", EXAMPLES, "--out", out) == 1
    assert capsys.readouterr().err.splitlines() == [
        f"olr-tools: {out} can't be written: Input/output error"
    ]
    assert list(tmp_path.iterdir()) == [many]


@pytest.mark.parametrize("words", [["regions", EXAMPLES], IMPORT])
def test_a_disk_without_room_for_a_store(
    words: list[object],
    tmp_path: Path,
    capsys: pytest.CaptureFixture[str],
    monkeypatch: pytest.MonkeyPatch,
) -> None:
    """SQLite says so in its own words. Here it may make its file no longer."""
    monkeypatch.setattr("olr.model.road_map.MOST_LINES", 1)
    make_tables = geopackage.make_tables

    def make_last_tables(connection: sqlite3.Connection) -> None:
        make_tables(connection)
        connection.execute("PRAGMA max_page_count = 1")
        connection.execute("CREATE TABLE more (text TEXT)")

    monkeypatch.setattr(geopackage, "make_tables", make_last_tables)
    assert olr_tools(*words, "--out", tmp_path / "new" / "out") == 1
    said = f"olr-tools: {tmp_path}/new/out can't be written: No space left on device\n"
    assert capsys.readouterr().err.endswith(said)
    assert contents(tmp_path) == {}


def test_a_full_disk_of_bans_and_joined_answers(
    tmp_path: Path, capsys: pytest.CaptureFixture[str]
) -> None:
    for name in ("nodes.csv", "lines.csv", "bans.csv"):
        shutil.copy(EXAMPLES / name, tmp_path)
    part = tmp_path / "part"
    part.write_bytes(b'{"key":"%b","record":1}\n' % (b"x" * 100))
    before = contents(tmp_path)
    with full_disk():
        assert olr_tools("u-turns", tmp_path) == 1
        with pytest.raises(ToolError, match="joined can't be written: File too large"):
            join([lines_of(part)], tmp_path / "joined", 1)
    bans = tmp_path / "bans.csv"
    assert capsys.readouterr().err == f"olr-tools: {bans} can't be written: File too large\n"
    assert contents(tmp_path) == before


def test_a_file_is_on_the_disk_before_it_is_moved(
    tmp_path: Path, monkeypatch: pytest.MonkeyPatch
) -> None:
    """And its name afterwards, with those of folders that were made."""
    file = tmp_path / "new" / "out"
    synced: list[tuple[str, bool]] = []

    def note(handle: int) -> None:
        path = os.readlink(f"/proc/self/fd/{handle}").replace(str(tmp_path), "")
        synced.append(("made" if PREFIX in path else path, file.exists()))

    monkeypatch.setattr(os, "fsync", note)
    write_whole(file, b"content")
    assert synced == [("made", False), ("/new", True), ("", True)]


def test_a_disk_that_fails_when_it_is_synced(
    tmp_path: Path, monkeypatch: pytest.MonkeyPatch
) -> None:
    (tmp_path / "out").write_text("old")

    def fail(_: int) -> None:
        raise OSError(5, "Input/output error")

    monkeypatch.setattr(os, "fsync", fail)
    with pytest.raises(ToolError, match="out can't be written: Input/output error"):
        write_whole(tmp_path / "out", b"new", force=True)
    assert contents(tmp_path) == {tmp_path / "out": b"old"}


def test_a_file_that_is_replaced(tmp_path: Path) -> None:
    """A link stays one, and permissions are those that the file had."""
    (tmp_path / "out").write_text("old")
    (tmp_path / "out").chmod(0o606)
    (tmp_path / "link").symlink_to("out")
    write_whole(tmp_path / "link", b"new", force=True)
    assert (tmp_path / "link").is_symlink()
    assert (tmp_path / "out").read_text() == "new"
    assert (tmp_path / "out").stat().st_mode & 0o777 == 0o606


def test_a_file_that_came_meanwhile(tmp_path: Path) -> None:
    with pytest.raises(ToolError, match="out is there: name another file"):
        with whole_file(tmp_path / "out") as made:
            made.write_text("new")
            (tmp_path / "out").write_text("of another process")
    assert contents(tmp_path) == {tmp_path / "out": b"of another process"}


@pytest.mark.parametrize("source", [EXAMPLES, EXAMPLES / "town.osm"])
def test_a_store_that_came_meanwhile(
    source: Path,
    tmp_path: Path,
    capsys: pytest.CaptureFixture[str],
    monkeypatch: pytest.MonkeyPatch,
) -> None:
    """It is another process's, or an input under another name."""
    out = tmp_path / "out.gpkg"
    link = source / "lines.csv" if source.is_dir() else source
    make_tables = geopackage.make_tables

    def make(connection: sqlite3.Connection) -> None:
        if out.exists():
            out.unlink()
            out.symlink_to(link)
        else:
            out.write_text("of another process")
        make_tables(connection)

    monkeypatch.setattr(geopackage, "make_tables", make)
    before = link.read_bytes()
    assert olr_tools("regions", source, "--out", out) == 1
    assert "out.gpkg is there: name another file, or replace it by --force" in read_error(capsys)
    assert out.read_text() == "of another process"
    assert olr_tools("regions", source, "--out", out, "--force") == 1
    assert "out.gpkg is one of the inputs: name another file" in read_error(capsys)
    assert link.read_bytes() == before and os.listdir(tmp_path) == ["out.gpkg"]


def read_error(capsys: pytest.CaptureFixture[str]) -> str:
    """The line that the command ended with."""
    return capsys.readouterr().err.splitlines()[-1]


def test_what_isnt_a_file(tmp_path: Path) -> None:
    os.mkfifo(tmp_path / "pipe")
    (tmp_path / "file").touch()
    with pytest.raises(ToolError, match="pipe is a device or a pipe: name a file"):
        require_free_file(tmp_path / "pipe", force=True)
    with pytest.raises(ToolError, match="file/out can't be written: Not a directory"):
        write_whole(tmp_path / "file" / "out", b"")


@pytest.mark.parametrize(
    ("words", "name", "said"),
    [
        (MATCH, "old.geojson", "is there: name another file, or replace it by --force"),
        (VIEW, "old.html", "is there: name another file, or replace it by --force"),
        ([*MATCH, "--force"], "folder.gpkg", "is a folder: name a file"),
        ([*VIEW, "--force"], "folder.html", "is a folder: name a file"),
        ([*VIEW, "--force"], "messages.tsv", "has no suffix that is known: name a file .html"),
        ([*MATCH, "--force"], "lines.gpkg", "is one of the inputs: name another file"),
        ([*VIEW, "--force"], "lines.html", "is one of the inputs: name another file"),
        (
            ["match", "messages.json", "--map", EXAMPLES, "--force"],
            "messages.json",
            "is one of the inputs: name another file",
        ),
        (
            ["view", "m1", "--messages", "messages.html", "--map", EXAMPLES, "--force"],
            "messages.html",
            "is one of the inputs: name another file",
        ),
        (
            ["regions", EXAMPLES, "--force"],
            "lines.gpkg",
            "is one of the inputs: name another file",
        ),
    ],
)
def test_outputs_that_are_refused(
    words: list[object],
    name: str,
    said: str,
    tmp_path: Path,
    monkeypatch: pytest.MonkeyPatch,
    capsys: pytest.CaptureFixture[str],
) -> None:
    monkeypatch.chdir(tmp_path)
    for file in ("old.geojson", "old.html", "messages.tsv", "messages.json"):
        Path(file).write_text("mine")
    Path("messages.html").write_text(f"m1\t{REFERENCE}\n")
    for folder in ("folder.gpkg", "folder.html"):
        Path(folder).mkdir()
    for link in ("lines.gpkg", "lines.html"):
        Path(link).symlink_to(EXAMPLES / "lines.csv")
    before = contents(tmp_path)
    assert olr_tools(*words, "--out", name) == 1
    assert capsys.readouterr() == ("", f"olr-tools: {name} {said}\n")
    assert contents(tmp_path) == before


def test_a_map_that_would_replace_what_it_is_made_of(
    tmp_path: Path, capsys: pytest.CaptureFixture[str]
) -> None:
    """The roads are in a file that has the name of a store."""
    roads = tmp_path / "map.gpkg"
    roads.write_text("mine")
    words = ["import", "vector", roads, "--class", "3", "--form", "3", "--out", tmp_path]
    assert olr_tools(*words, "--force") == 1
    assert capsys.readouterr().err == (
        f"olr-tools: {roads} is one of the inputs: name another file\n"
    )
    assert contents(tmp_path) == {roads: b"mine"}


@pytest.mark.parametrize("sign", [signal.SIGINT, signal.SIGTERM, signal.SIGHUP])
def test_a_command_that_is_ended(sign: signal.Signals, tmp_path: Path) -> None:
    """Here it waits for the nodes of the map, when it has begun to write."""
    folder, out = tmp_path / "map", tmp_path / "out"
    for made in (folder, out):
        made.mkdir()
    os.mkfifo(folder / "nodes.csv")
    words = ["regions", str(folder), "--out", str(out / "town.gpkg")]
    process = subprocess.Popen(
        [TOP / "olr-tools", *words],
        stdout=subprocess.PIPE,
        stderr=subprocess.PIPE,
        # Tests in the background may ignore it.
        preexec_fn=partial(signal.signal, sign, signal.SIG_DFL),
    )
    try:
        until = time.monotonic() + 600
        while not os.listdir(out) and time.monotonic() < until:
            time.sleep(0.02)
        assert os.listdir(out)[0].startswith(PREFIX)
        process.send_signal(sign)
        said = process.communicate(timeout=600)
    finally:
        process.kill()
        process.wait()
    assert process.returncode == 1 and said[1].strip() == b"olr-tools: interrupted"
    assert os.listdir(out) == []


def test_an_import_that_is_ended(
    monkeypatch: pytest.MonkeyPatch, capsys: pytest.CaptureFixture[str]
) -> None:
    """An interrupt leaves its lock unlocked, which is an error of its own."""

    def imported(_: str) -> None:
        try:
            raise KeyboardInterrupt
        finally:
            raise RuntimeError("release unlocked lock")

    monkeypatch.setattr("olr.tools.importlib.import_module", imported)
    assert run(["regions", "map"]) == 1
    assert capsys.readouterr().err.strip() == "olr-tools: interrupted"
