"""A run is of one map and one program: stores and programs that are others, or become others while groups are answered."""

import os
import pytest
import shutil
from collections.abc import Iterator
from dataclasses import replace
from hashlib import sha256
from pathlib import Path
from socket import gethostname
from typing import Any

from conftest import OF_PROGRAM, Program
from olr import content
from olr.asking.records import Record
from olr.content import Stamp
from olr.errors import ProgramEnded, ProgramNotFound, ToolError
from olr.model import road_map
from olr.regions.making import make_store_of_folder
from olr.regions.store import Store
from olr.running import identity
from olr.running.asked_map import AskedMap
from olr.running.identity import Build
from olr.running.records import read_records
from olr.tools import run as olr_tools
from runs import Begun, Runs, Town, assert_resumes, lines_of_batch

pytestmark = pytest.mark.usefixtures("here")


class Editions:
    """A store, and another edition of its map in a file of the same size: one digit of each length is another one."""

    def __init__(self, town: Town, folder: Path) -> None:
        self.folder = folder
        map_folder = folder / "edition"
        shutil.copytree(town.folder, map_folder)
        header, *rows = (map_folder / "lines.csv").read_text().splitlines()
        fields = [row.split(",") for row in rows]
        for row in fields:
            row[5] = row[5][:-1] + str(9 - int(row[5][-1]))
            row[5] = row[5] if int(row[5]) else "1"
        (map_folder / "lines.csv").write_text("\n".join([header, *map(",".join, fields)]) + "\n")
        make_store_of_folder(map_folder, folder / "other.gpkg")
        self.first, self.other = town.store, folder / "other.gpkg"
        self.town = town._replace(store=folder / "town.gpkg")
        shutil.copy(self.first, self.town.store)
        assert self.first.stat().st_size == self.other.stat().st_size

    def put(self, edition: Path, in_place: bool) -> None:
        """Gives the store's path to an edition: by another file, or in the bytes of the one that is there."""
        if in_place:
            with self.town.store.open("r+b") as stream:
                stream.write(edition.read_bytes())
        else:
            new = self.folder / "new.gpkg"
            shutil.copy(edition, new)
            new.replace(self.town.store)


@pytest.fixture
def editions(town: Town, tmp_path: Path, monkeypatch: pytest.MonkeyPatch) -> Editions:
    """Editions of the town. A file that has just been written isn't waited for."""
    monkeypatch.setattr(content, "SETTLED", 0)
    return Editions(town, tmp_path)


@pytest.mark.parametrize("in_place", [False, True])
def test_a_store_that_is_replaced_between_groups(
    editions: Editions, program: Program, tmp_path: Path, in_place: bool
) -> None:
    """The other edition is refused, and once the first one is there again all lines are of it."""
    town = editions.town
    begun = Begun(town, program, tmp_path / "run", town.messages)
    half, rest = begun.groups()[:5], begun.groups()[5:]
    begun.answer(half)
    editions.put(editions.other, in_place)
    for group in rest:
        with pytest.raises(ToolError, match="^on .*: .*/town.gpkg is of another map, ") as raised:
            begun.answer([group])
        assert str(raised.value).endswith(": copy the store of the run there")
        assert not begun.has(group)
    with Store.open(editions.first) as first, Store.open(editions.other) as other:
        assert f"{other.digest[:12]}.., and not {first.digest[:12]}.." in str(raised.value)
    begun.answer(half)
    editions.put(editions.first, in_place)
    begun.answer(rest)
    assert begun.joined() == lines_of_batch(program, town.folder, "match", town.messages)


def program_that(folder: Path, program: Program, once: str) -> Program:
    """A program that does something when it is first asked, and is the program besides."""
    script = folder / "doing"
    script.write_text(
        f'#!/bin/sh\nif [ "$1" = answer ] && mkdir {folder}/done 2>{os.devnull}; then\n    {once}\nfi\n'
        f'exec {program.path} "$@"\n'
    )
    script.chmod(0o755)
    return Program(script)


@pytest.mark.parametrize("how", ["mv {other} {store}", "dd if={other} of={store} conv=notrunc"])
def test_a_store_that_is_replaced_within_a_group(
    editions: Editions,
    program: Program,
    tmp_path: Path,
    monkeypatch: pytest.MonkeyPatch,
    how: str,
) -> None:
    """Half of its regions were read before, and half would be read after that: there is no part of it."""
    monkeypatch.setattr(road_map, "MOST_LINES", 1000)
    town, store = editions.town, editions.town.store
    swapping = how.format(other=editions.other, store=store) + f" 2>{os.devnull}"
    doing = program_that(tmp_path, program, swapping)
    monkeypatch.setenv("OLR_PROGRAM", os.fspath(doing.path))
    begun = Begun(town, doing, tmp_path / "run", town.messages)
    with pytest.raises(ToolError, match="^on .*: .*/town.gpkg changed while it was used: go on by"):
        begun.answer([4])
    assert (tmp_path / "done").exists() and not begun.has(4)
    with pytest.raises(ToolError, match="is of another map"):
        begun.answer([4])
    assert not begun.has(4) and os.listdir(tmp_path / "run/parts") == []


def test_a_store_that_is_replaced_in_a_run(editions: Editions, runs: Runs) -> None:
    """When some parts are there: the other edition is refused, and the groups are listed."""
    runs.town, store = editions.town, editions.town.store
    swap = runs.folder / "swapping"
    swap.write_text(
        f"""#!/bin/sh
if [ "$1" = answer ] && [ -e {runs.out}/parts/000003.jsonl ] && mkdir {runs.folder}/swapped; then
    cp {store} {runs.folder}/first.gpkg && mv {editions.other} {store}
fi 2>{os.devnull}
exec {runs.program.path} "$@"
"""
    )
    swap.chmod(0o755)
    ended = runs.run_here("--per-group", 20, program=swap)
    assert (runs.folder / "swapped").exists()
    assert ended.status == 1 and ended.stderr.count("\n") == 1
    listed = (runs.out / "failed.txt").read_text().splitlines()
    assert len(listed) + len(runs.parts()) == 16 and len(listed) > 5
    refused = f"on {gethostname()}: {store} is of another map, "
    assert all(refused in line or " changed while it was used" in line for line in listed)
    assert sum(refused in line for line in listed) > 5 and refused in ended.stderr
    (runs.folder / "first.gpkg").replace(store)
    assert_resumes(runs, "--per-group", 20, program=swap)


def test_workers_with_two_stores(editions: Editions, program: Program, tmp_path: Path) -> None:
    """One has an older copy under the path, or nothing, or no store: it has no part in the run. A file with the same map is the
    same store."""
    town = editions.town
    begun = Begun(town, program, tmp_path / "run", town.messages)
    again, none = tmp_path / "again.gpkg", tmp_path / "none.gpkg"
    make_store_of_folder(town.folder, again)
    no_store = tmp_path / "text.gpkg"
    no_store.write_text("text")
    for path, said in (
        (editions.other, "other.gpkg is of another map, "),
        (none, "none.gpkg isn't there: copy the store of the run there"),
        (no_store, "text.gpkg isn't a store of olr-tools regions"),
    ):
        with pytest.raises(ToolError, match=f"^on {gethostname()}: .*{said}"):
            begun.answer([0, 1], replace(begun.job, map=AskedMap(path)))
    assert os.listdir(tmp_path / "run/parts") == []
    begun.answer(begun.groups()[::2], replace(begun.job, map=AskedMap(again)))
    begun.answer(begun.groups())
    assert begun.joined() == lines_of_batch(program, town.folder, "match", town.messages)


def test_a_store_that_has_just_changed(
    town: Town, tmp_path: Path, monkeypatch: pytest.MonkeyPatch
) -> None:
    """It is opened once it hasn't changed for two seconds, and refused if it changes meanwhile."""
    store = tmp_path / "town.gpkg"
    shutil.copy(town.store, store)
    waits: list[float] = []
    monkeypatch.setattr("time.sleep", waits.append)
    with Store.open(town.store) as first:
        digest = first.digest
    with identity.same_store(store, digest) as opened:
        assert opened.digest == digest
    assert len(waits) == 1 and 0 < waits[0] <= 2
    shutil.copy(town.store, tmp_path / "new.gpkg")
    (tmp_path / "new.gpkg").replace(store)
    monkeypatch.setattr("time.sleep", lambda seconds: os.utime(store))
    with pytest.raises(ToolError, match="changed while it was used"):
        with identity.same_store(store, digest):
            pass


@pytest.fixture
def other_program(tmp_path: Path, program: Program) -> Path:
    """Another build of the program."""
    script = tmp_path / "other build"
    script.write_text(
        f'#!/bin/sh\nif [ "$1" = --version ]; then\n    echo olr 99.1\nelse\n    exec {program.path} "$@"\nfi\n'
    )
    script.chmod(0o755)
    return script


def test_builds(other_program: Path, tmp_path: Path, monkeypatch: pytest.MonkeyPatch) -> None:
    digest = sha256(other_program.read_bytes()).hexdigest()
    assert Build.of(other_program) == Build("olr 99.1", digest)
    assert str(Build.of(other_program)) == f"olr 99.1, SHA-256 {digest[:12]}.."
    other_program.write_text("#!/bin/sh\nexit 2\n")
    assert Build.of(other_program).version == ""
    monkeypatch.setattr(identity, "SECONDS_TO_SAY_VERSION", 0.2)
    other_program.write_text("#!/bin/sh\nexec sleep 100\n")
    with pytest.raises(ProgramEnded, match="other build --version took more than 0.2 s"):
        Build.of(other_program)
    with pytest.raises(ToolError, match="none can't be read: No such file"):
        Build.of(tmp_path / "none")
    other_program.chmod(0o644)
    with pytest.raises(ProgramNotFound, match="other build can't be started: Permission denied"):
        Build.of(other_program)


def test_workers_with_two_programs(
    town: Town,
    program: Program,
    other_program: Path,
    tmp_path: Path,
    monkeypatch: pytest.MonkeyPatch,
) -> None:
    """The one of another build has no part in the run."""
    begun = Begun(town, program, tmp_path / "run", town.messages)
    monkeypatch.setenv("OLR_PROGRAM", os.fspath(tmp_path / "none"))
    with pytest.raises(ToolError, match="^on .*: there is no program .*/none: "):
        begun.answer([0])
    for group in begun.groups():
        monkeypatch.setenv("OLR_PROGRAM", os.fspath(other_program))
        if group % 2:
            with pytest.raises(
                ToolError, match="^on .*: .*/other build is another program, olr 99.1, "
            ):
                begun.answer([group])
            assert not begun.has(group)
        monkeypatch.setenv("OLR_PROGRAM", os.fspath(program.path))
        begun.answer([group])
    assert begun.joined() == lines_of_batch(program, town.folder, "match", town.messages)


def test_a_program_that_is_replaced_within_a_group(
    town: Town, program: Program, tmp_path: Path, monkeypatch: pytest.MonkeyPatch
) -> None:
    swap = f"cp {tmp_path}/doing {tmp_path}/new; echo >> {tmp_path}/new; mv {tmp_path}/new {tmp_path}/doing"
    doing = program_that(tmp_path, program, swap)
    monkeypatch.setenv("OLR_PROGRAM", os.fspath(doing.path))
    begun = Begun(town, doing, tmp_path / "run", town.messages)
    with pytest.raises(ToolError, match="^on .*: .*/doing changed while it was used: go on by"):
        begun.answer([3])
    with pytest.raises(ToolError, match="is another program, "):
        begun.answer([3])
    assert os.listdir(tmp_path / "run/parts") == []


def test_resume_with_others(
    editions: Editions,
    program: Program,
    other_program: Path,
    tmp_path: Path,
    monkeypatch: pytest.MonkeyPatch,
    capsys: pytest.CaptureFixture[str],
) -> None:
    """Another program or another edition of the map is refused by name, and the run goes on with those that it began with."""
    town, out, joined = editions.town, tmp_path / "run", tmp_path / "joined"
    begun = Begun(town, program, out, town.messages)
    begun.answer(begun.groups()[:4])
    words = ["run", town.messages, "--out", out, "--per-group", 30, "--join", joined, "--resume"]
    words += OF_PROGRAM

    def resumed(store: Path = town.store) -> tuple[int, str]:
        status = olr_tools([*map(str, words), "--store", os.fspath(store)])
        return status, capsys.readouterr().err

    before = {file: Stamp.of(file) for file in (out / "parts").iterdir()}
    monkeypatch.setenv("OLR_PROGRAM", os.fspath(other_program))
    build = f"({begun.question.program}, and not {Build.of(other_program)})"
    refused = "olr-tools: {} holds a run with other {}: name another folder\n"
    assert resumed() == (1, refused.format(out, f"program {build}"))
    monkeypatch.setenv("OLR_PROGRAM", os.fspath(program.path))
    with Store.open(editions.other) as other:
        which = f"map ({begun.question.store[:12]}.., and not {other.digest[:12]}..)"
    assert resumed(editions.other) == (1, refused.format(out, which))
    assert {file: Stamp.of(file) for file in (out / "parts").iterdir()} == before
    assert resumed() == (0, "")
    assert joined.read_bytes() == lines_of_batch(program, town.folder, "match", town.messages)
    assert all(Stamp.of(file) == stamp for file, stamp in before.items())


def test_resume_with_options_at_their_defaults(
    town: Town, program: Program, tmp_path: Path, capsys: pytest.CaptureFixture[str]
) -> None:
    """They are the same run: numbers, the size of groups, and what files of messages are read by."""
    out, joined = tmp_path / "run", tmp_path / "joined"
    table = tmp_path / "messages.csv"
    rows = town.plain.read_text().splitlines()[:60]
    table.write_text("key,ref\n" + "\n".join(row.replace("\t", ",") for row in rows) + "\n")
    words = ["run", str(table), *OF_PROGRAM, "--store", str(town.store), "--out", str(out)]
    assert olr_tools([*words, "--bearing", "4"]) == 0
    before = {file: Stamp.of(file) for file in (out / "parts").iterdir()}
    capsys.readouterr()
    given = ["--radius", "100", "--class", "7", "--lowest", "0", "--percent", "30", "--slack"]
    given += ["300", "--page", "10", "--per-group", "50", "--format", "csv", "--ref", "ref"]
    assert olr_tools([*words, *given, "--key", "key", "--resume"]) == 0
    assert olr_tools([*words, "--resume", "--join", str(joined)]) == 0
    assert capsys.readouterr().err == ""
    assert {file: Stamp.of(file) for file in (out / "parts").iterdir()} == before
    plain = tmp_path / "plain"
    plain.write_text("\n".join(rows) + "\n")
    assert joined.read_bytes() == lines_of_batch(program, town.folder, "match", plain)
    for name, value in (("--page", "11"), ("--per-group", "49"), ("--class", "6")):
        assert olr_tools([*words, "--resume", name, value]) == 1
        about = "per-group" if name == "--per-group" else "options"
        assert f"holds a run with other {about}: name another folder" in capsys.readouterr().err


def test_messages_that_change_while_they_are_read(
    town: Town,
    tmp_path: Path,
    monkeypatch: pytest.MonkeyPatch,
    capsys: pytest.CaptureFixture[str],
) -> None:
    """Here one is added when all are read, but not yet grouped: there is no run."""
    messages, out = tmp_path / "messages", tmp_path / "run"
    messages.write_bytes(town.plain.read_bytes())

    def read_and_add(*given: Any) -> Iterator[Record]:
        yield from read_records(*given)
        with messages.open("ab") as stream:
            stream.write(b"more\n")

    words = ["run", str(messages), "--store", str(town.store), "--out", str(out)]
    with monkeypatch.context() as patch:
        patch.setattr("olr.commands.run.read_records", read_and_add)
        assert olr_tools(words) == 1
    said = f"olr-tools: {messages} changed while it was read: begin again when it is whole\n"
    assert capsys.readouterr().err == said and not out.exists()
    assert olr_tools(words) == 0
    assert capsys.readouterr().out.startswith(f"{out}: 301 lines of 301 in ")
