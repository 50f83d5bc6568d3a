"""`olr-tools run --map`: the map of a folder, which each worker's process of the program reads whole."""

import os
import pytest
import shutil
from dataclasses import replace
from pathlib import Path

from asking import draw_map
from bad_programs import bad_program, starts
from conftest import Program
from olr.running.answering import GroupsFailed, answer_groups
from olr.running.asked_map import AskedMap
from olr.running.kept import Kept
from runs import Begun, Runs, Town, assert_resumes, likely_words, lines_of_batch

GROUPS = ["--per-group", 20]


@pytest.mark.parametrize("what", ["match", "places"])
def test_all_answers(runs: Runs, what: str) -> None:
    """Those of one batch, also of what has none."""
    words = ["--map", runs.town.folder, *GROUPS, "--join", runs.joined]
    words += [] if what == "match" else [f"--{what}"]
    ended = runs.run(*words, workers=3)
    assert (ended.status, ended.stderr) == (0, "")
    assert runs.joined.read_bytes() == runs.expected(*likely_words(what), what=what)
    assert len(runs.parts()) > 10 and os.listdir(runs.scratch) == []


def test_a_store_by_the_same_option(runs: Runs) -> None:
    words = ["--map", runs.town.store, *GROUPS, "--join", runs.joined]
    assert runs.run_here(*words).status == 0
    assert runs.joined.read_bytes() == runs.expected()


@pytest.fixture
def begun(here: None, town: Town, program: Program, tmp_path: Path) -> Begun:
    """A run of eleven groups on a folder, of which none is answered."""
    folder = tmp_path / "map"
    shutil.copytree(town.folder, folder)
    begun = Begun(town, program, tmp_path / "run", town.messages, along_curve=False)
    asked = AskedMap.of(folder)
    begun.question = replace(begun.question, store=asked.digest())
    begun.job = replace(begun.job, map=asked, question=begun.question)
    return begun


def test_one_process(
    begun: Begun, town: Town, program: Program, tmp_path: Path, monkeypatch: pytest.MonkeyPatch
) -> None:
    """It answers one group after the other, in any order. Without one that is kept there is one for each task."""
    log = bad_program(tmp_path / "logging", program, {})
    monkeypatch.setattr("olr.asking.processes.find_program", lambda _: log)
    kept = Kept()
    for group in (0, 1, 4, 5, 6, 9, 10, 2, 3, 7, 8):
        answer_groups(begun.job, [group], tmp_path, kept)
    kept.end()
    assert starts(log) == 1
    assert begun.joined() == lines_of_batch(program, town.folder, "match", town.messages)
    begun.folder.file_of(3).unlink()
    begun.folder.file_of(4).unlink()
    answer_groups(begun.job, [3, 4], tmp_path)
    assert starts(log) == 2
    assert begun.joined() == lines_of_batch(program, town.folder, "match", town.messages)


def test_records_at_which_the_program_fails(
    begun: Begun, town: Town, program: Program, tmp_path: Path, monkeypatch: pytest.MonkeyPatch
) -> None:
    """They have lines that say so, and the others their answers. The next group has a process that is kept again."""
    group = begun.folder.group(2, begun.grouped.sha256).records()
    texts = {group[4].text().decode(): "is killed", group[9].text().decode(): "broken JSON"}
    bad = bad_program(tmp_path / "bad", program, texts)
    monkeypatch.setattr("olr.asking.processes.find_program", lambda _: bad)
    kept = Kept()
    counts = answer_groups(begun.job, begun.groups(), tmp_path, kept)
    assert counts["ProgramFailed"] == 2
    expected = lines_of_batch(program, town.folder, "match", town.messages).splitlines(True)
    found = begun.joined().splitlines(True)
    others = [number for number, line in enumerate(expected) if found[number] != line]
    assert len(found) == len(expected) and len(others) == 2
    assert all(b'"fault":"ProgramFailed"' in found[number] for number in others)
    kept.end()


def test_a_file_that_changes(begun: Begun, tmp_path: Path) -> None:
    """A group that was answered before it changed has its part, and no later one has: not while the process has read the old file, either."""
    kept = Kept()
    answer_groups(begun.job, [0], tmp_path, kept)
    lines = begun.job.map.path / "lines.csv"
    lines.write_bytes(lines.read_bytes() + b"\n")
    with pytest.raises(GroupsFailed, match="is another one than that of the run$"):
        answer_groups(begun.job, [1], tmp_path, kept)
    lines.unlink()
    with pytest.raises(GroupsFailed, match="lines.csv can't be read: No such file"):
        answer_groups(begun.job, [1], tmp_path, kept)
    kept.end()
    assert [begun.has(group) for group in begun.groups()] == [True] + [False] * 10


def test_a_file_that_changes_while_it_is_asked(begun: Begun, tmp_path: Path) -> None:
    """The lines that were made count for nothing."""

    class Changing(Kept):
        def of(self, files, *others):  # type: ignore[no-untyped-def]
            os.utime(files.bans)
            return super().of(files, *others)

    kept = Changing()
    with pytest.raises(GroupsFailed, match="bans.csv changed while it was used: go on by --resume"):
        answer_groups(begun.job, [1], tmp_path, kept)
    assert not begun.has(1) and kept._processes is None


def test_bans_that_come(begun: Begun, tmp_path: Path) -> None:
    """A map with a file of bans is another one than without."""
    bans = begun.job.map.path / "bans.csv"
    text = bans.read_bytes()
    bans.unlink()
    without = begun.job.map.digest()
    assert without != begun.question.store
    bans.write_bytes(text)
    assert begun.job.map.digest() == begun.question.store


def test_maps_that_are_refused(runs: Runs, tmp_path: Path) -> None:
    """Before anything is written: one that isn't there, and one that the program doesn't read."""
    wrong = draw_map(tmp_path / "wrong")
    (wrong / "nodes.csv").write_text("a,b\n")
    for folder, said in (
        (
            tmp_path / "nowhere",
            f"{tmp_path}/nowhere/nodes.csv can't be read: No such file or directory: name a folder",
        ),
        (wrong, "olr refuses the map: Header nodes"),
    ):
        ended = runs.run_here("--map", folder)
        assert ended.status == 1 and ended.stderr.count("\n") == 1 and said in ended.stderr
        assert not runs.out.exists()


def test_it_goes_on(runs: Runs) -> None:
    """A worker is killed, then the run; the next one goes on, and refuses another map, also a store of the same one."""
    words = ["--map", runs.town.folder, *GROUPS]
    # A worker starts one process for all of its parts.
    killing = runs.killing("os.getppid()", parts=0)
    ended = runs.run(*words, program=killing)
    assert (ended.status, ended.stderr) == (0, "") and runs.flag().exists()
    for part in runs.parts()[::2]:
        (runs.out / "parts" / part).unlink()
    ended = runs.run_here(*GROUPS, "--resume", program=killing)
    assert ended.status == 1 and "holds a run with other map (" in ended.stderr
    assert_resumes(runs, *words, program=killing)
