"""`olr.Map` of a store: the answers of the folder that the store was made of, and what becomes of its scratch files."""

import gc
import os
import pytest
import random
import signal
import subprocess
import sys
import tempfile
from collections.abc import Iterator
from concurrent.futures import ThreadPoolExecutor
from pathlib import Path
from typing import Any

import olr
from asking import as_json, said
from bad_programs import bad_program
from conftest import REFERENCE, TOP, Program
from exact_paths import LineGraph, drawn_path, encode
from olr.arrays import Integers
from olr.client import store_source
from olr.client.store_source import CHUNK
from olr.counts import Counts
from olr.model import road_map
from olr.model.map_folder import write_map
from olr.model.questions import What
from olr.regions.making import make_store_of_folder
from olr.regions.store import Store
from olr.vector.fields import Fields
from olr.vector.importing import import_vector
from olr.vector.options import Options as VectorOptions
from runs import Town
from test_client_failures import children
from test_extras import ALL, run_without
from test_outputs import full_disk
from vector_files import STREETS

WHATS: tuple[What, ...] = ("candidates", "match", "places", "why")
NO_REFERENCE = "CwVGnSN2zhvHCgDX"
EXAMPLES = TOP / "examples"


@pytest.fixture(autouse=True)
def scratch(tmp_path: Path, program: Program, monkeypatch: pytest.MonkeyPatch) -> Iterator[Path]:
    """The folder of scratch files. A test leaves none there, and no process."""
    monkeypatch.setenv("OLR_PROGRAM", os.fspath(program.path))
    folder, before = tmp_path / "scratch", children()
    folder.mkdir()
    monkeypatch.setenv("TMPDIR", os.fspath(folder))
    monkeypatch.setattr(tempfile, "tempdir", None)
    yield folder
    gc.collect()
    assert os.listdir(folder) == []
    assert children() <= before


def plain(answers: Any) -> list[Any]:
    """Answers as the program's JSON, or as the texts of faults."""
    return [one.text if isinstance(one, olr.Fault) else as_json(one) for one in answers]


def references(town: Town, count: int) -> list[str]:
    """References on a town, every ninth of them damaged."""
    texts = [row.partition(b"\t")[2] for row in town.plain.read_bytes().split(b"\n")]
    return [text.decode() for text in texts[:count]]


@pytest.mark.parametrize("what", WHATS)
def test_the_answers_of_the_folder(what: What, town: Town, monkeypatch: pytest.MonkeyPatch) -> None:
    """In several chunks, and where not all regions of a chunk fit one map."""
    texts = references(town, 90)
    with olr.Map(town.folder) as folder:
        expected = plain(folder.answers(what, texts))
    with olr.Map(town.store) as whole:
        assert plain(whole.answers(what, iter(texts))) == expected
    monkeypatch.setattr(store_source, "CHUNK", 40)
    monkeypatch.setattr(road_map, "MOST_LINES", 1500)
    with olr.Map(town.store) as halved:
        found = plain(halved.answers(what, texts))
    too_large = [number for number, one in enumerate(found) if one == "RegionTooLarge"]
    assert len(too_large) < 60 and (too_large or what != "why")
    assert [one for n, one in enumerate(found) if n not in too_large] == [
        one for n, one in enumerate(expected) if n not in too_large
    ]


def test_one_at_a_time(town: Town) -> None:
    with olr.Map.of_folder(town.folder, radius=60) as folder:
        with olr.Map.of_folder(town.store, radius=60) as store:
            assert repr(store) == f"Map('{town.store}', radius=60)"
            for text in references(town, 12):
                for what in WHATS:
                    answers = []
                    for one in (folder, store):
                        try:
                            answers.append(getattr(one, what)(text))
                        except olr.Fault as fault:
                            answers.append(fault)
                    assert plain(answers[:1]) == plain(answers[1:])


def test_pages_and_cursors(town: Town, program: Program) -> None:
    """Cursors are good for another part of the map too, and for the folder; those of the folder aren't, once they name it."""
    text = next(one for one in references(town, 40) if len(pages_of(town.folder, one)) > 3)
    expected = pages_of(town.folder, text)
    assert pages_of(town.store, text) == expected
    others = references(town, 30)[1:8]
    options: dict[str, Any] = {"profile": "program"}
    with olr.Map(town.store, **options) as store, olr.Map(town.folder, **options) as folder:
        pages, before = store.pages(text, page=2), []
        for page in pages:
            before.append(page)
            store.why(others[len(before) % 7])
            assert page.next is None or "@" not in page.next
        assert [as_json(page.matchings) for page in before] == expected
        cursor = before[1].next
        assert cursor is not None
        for one in (store, folder):
            assert one.match(text, page=2, after=cursor).matchings == before[2].matchings
        words = ("match", "--map", town.folder, "--format", "json", "--page", 2, "--", text)
        marked = said(program, *words)["next"]
        assert "@" in marked and folder.match(text, after=marked).matchings
        with pytest.raises(olr.Fault, match="CursorOfOther"):
            store.match(text, after=marked)
        with pytest.raises(olr.Fault, match="BadCursor"):
            store.match(text, after="x")


def pages_of(path: Path, text: str) -> list[Any]:
    """The matchings of all pages of two, or none for what is no reference."""
    with olr.Map(path, profile="program") as asked:
        try:
            return [as_json(page.matchings) for page in asked.pages(text, page=2)]
        except olr.Fault:
            return []


def test_the_streets_of_tempe(tmp_path: Path) -> None:
    """Real roads, by a folder that holds a store alone."""
    made = import_vector(STREETS, VectorOptions(Fields("5", "3", id="ID")), Counts())
    write_map(made.road_map, tmp_path / "tempe", made.about)
    (tmp_path / "behind").mkdir()
    make_store_of_folder(tmp_path / "tempe", tmp_path / "behind/map.gpkg")
    draws = random.Random(5)
    texts: list[str] = []
    network = LineGraph(made.road_map)
    while len(texts) < 15:
        path = drawn_path(network, draws)[:4]
        text = encode(network, path) if len(path) > 1 else None
        texts += [] if text is None else [text]
    with olr.Map(tmp_path / "tempe") as folder, olr.Map(tmp_path / "behind") as store:
        for what in WHATS:
            assert plain(store.answers(what, texts)) == plain(folder.answers(what, texts))


def test_a_chunk_at_a_time(town: Town) -> None:
    """No more references are taken than a chunk has, and fewer of many matchings each."""
    for page, most in ((1, CHUNK), (1000, 16)):
        taken = 0

        def endless() -> Iterator[str]:
            nonlocal taken
            while True:
                taken += 1
                yield NO_REFERENCE

        with olr.Map(town.store) as store:
            answers = store.matches(endless(), page=page)
            assert plain([next(answers)]) == ["BadLength 12"]
            assert taken == most


def test_the_last_region_is_kept(town: Town, monkeypatch: pytest.MonkeyPatch) -> None:
    """It answers what it has the lines for, and what needs none."""
    text, other = references(town, 3)[1:]
    written: list[int] = []
    files_of = Store.files_of

    def counted(store: Store, lines: Integers) -> list[tuple[str, bytes | bytearray]]:
        written.append(len(lines))
        return files_of(store, lines)

    monkeypatch.setattr(Store, "files_of", counted)
    with olr.Map(town.store) as store:
        for _ in range(2):
            store.match(text)
            store.places(text)
            store.candidates(text)
            assert plain(store.matches([NO_REFERENCE])) == ["BadLength 12"]
        assert len(written) == 1
        store.why(text)
        store.match(text)
        assert len(written) == 2 and written[0] < written[1]
        assert plain(store.matches([text, other, text]))
        store.match(other)
        assert len(written) <= 3


def test_a_region_that_is_too_large(town: Town, monkeypatch: pytest.MonkeyPatch) -> None:
    monkeypatch.setattr(road_map, "MOST_LINES", 1)
    text = references(town, 2)[1]
    with olr.Map(town.store) as store:
        with pytest.raises(olr.Fault, match="RegionTooLarge: .* more than 100,000 nodes"):
            store.match(text)
        with pytest.raises(olr.Fault, match="BadLength 12"):
            store.match(NO_REFERENCE)
        assert plain(store.matches([text, NO_REFERENCE])) == ["RegionTooLarge", "BadLength 12"]


def test_a_store_that_is_replaced(town: Town, tmp_path: Path) -> None:
    """By one of the same map, by one of another map, and by nothing."""
    text = references(town, 2)[1]
    file = tmp_path / "some.gpkg"
    make_store_of_folder(town.folder, file)
    with olr.Map(file) as store:
        expected = store.match(text)
        make_store_of_folder(town.folder, file, force=True)
        assert store.match(text) == expected
        make_store_of_folder(EXAMPLES, file, force=True)
        for call in (lambda: store.match(text), lambda: next(store.matches([text])), store.network):
            with pytest.raises(olr.MapRefused, match="some.gpkg has changed since it was opened"):
                call()
        file.unlink()
        with pytest.raises(olr.MapRefused, match="has changed"):
            store.why(text)
        make_store_of_folder(town.folder, file)
        assert store.match(text) == expected


def test_what_is_no_store(tmp_path: Path) -> None:
    (tmp_path / "notes.gpkg").write_text("notes")
    with pytest.raises(olr.ToolError, match="notes.gpkg isn't a store"):
        olr.Map(tmp_path / "notes.gpkg")
    with pytest.raises(olr.ToolError, match="there is no store .*other.gpkg"):
        olr.Map(tmp_path / "other.gpkg")
    with olr.Map(tmp_path) as nothing, pytest.raises(olr.MapRefused, match="OpenFailed nodes"):
        nothing.match(REFERENCE)


def test_no_room_for_scratch_files(town: Town, scratch: Path) -> None:
    text = references(town, 2)[1]
    with olr.Map(town.store) as store:
        with full_disk(), pytest.raises(olr.ToolError) as raised:
            store.match(text)
        said = "scratch files can't be written: File too large: name another folder for scratch files by TMPDIR"
        assert str(raised.value) == said
        assert not list(scratch.iterdir())
        assert store.match(text).matchings is not None


def test_a_reference_at_which_the_program_hangs(
    town: Town, tmp_path: Path, program: Program, monkeypatch: pytest.MonkeyPatch
) -> None:
    """All before it have answers, and the error has its number: here it is in a second lot."""
    monkeypatch.setattr(store_source, "CHUNK", 8)
    texts = references(town, 20)
    bad = bad_program(tmp_path / "bad", program, {texts[13]: "hangs"})
    with olr.Map(town.folder) as folder:
        expected = plain(folder.matches(texts))
    with olr.Map(town.store, program=bad, patience=3) as store:
        answers = store.matches(texts)
        found: list[Any] = []
        with pytest.raises(olr.TimedOut, match="to reference 14, ") as raised:
            found.extend(answers)
        assert (raised.value.number, raised.value.reference) == (14, texts[13])
        with pytest.raises(olr.TimedOut) as alone:
            store.match(texts[13])
        assert (alone.value.number, alone.value.reference) == (None, texts[13])
        assert plain(store.matches(texts[14:])) == expected[14:]


def test_threads(town: Town) -> None:
    texts = references(town, 24)
    with olr.Map(town.folder) as folder:
        expected = plain(folder.matches(texts))
    with olr.Map(town.store) as store, ThreadPoolExecutor(4) as pool:
        ask = lambda text: plain(store.matches([text]))[0]
        assert list(pool.map(ask, texts)) == expected
    with pytest.raises(olr.ToolError, match="this map is closed"):
        store.match(texts[1])
    with pytest.raises(olr.ToolError, match="this map is closed"):
        next(store.matches(texts))


ASKING = """
import olr, sys, time
asked = olr.Map(sys.argv[1])
asked.match(sys.argv[2])
asked.network().having([int(sys.argv[3])])
if len(sys.argv) > 4:
    print("asked", flush=True)
    time.sleep(60)
"""


def test_nothing_is_left_behind(town: Town, scratch: Path) -> None:
    """Of a map that isn't closed, and of one whose process is ended by whatever signal: the fixture looks at the end."""
    text = references(town, 2)[1]
    asked = olr.Map(town.store)
    asked.match(text)
    del asked
    environment = os.environ | {"PYTHONPATH": str(TOP / "python")}
    line = str(olr.Network(town.folder).line_id[0])
    command = [sys.executable, "-c", ASKING, str(town.store), text, line]
    subprocess.run(command, env=environment, check=True)
    for number in (signal.SIGINT, signal.SIGTERM, signal.SIGKILL):
        with subprocess.Popen(
            [*command, "wait"], env=environment, stdout=subprocess.PIPE, stderr=subprocess.PIPE
        ) as python:
            assert python.stdout is not None and python.stdout.readline() == b"asked\n"
            python.send_signal(number)
        assert python.returncode == -number and os.listdir(scratch) == []


def test_a_forked_process_may_not_ask(town: Town) -> None:
    """Nor does it take away what this one has."""
    text, other = references(town, 3)[1:]
    with olr.Map(town.store) as store:
        expected = store.match(text)
        child = os.fork()
        if child == 0:
            try:
                store.match(other)
            except olr.ToolError as error:
                store.close()
                os._exit(7 if "another one here" in str(error) else 1)
            os._exit(0)
        assert os.waitstatus_to_exitcode(os.waitpid(child, 0)[1]) == 7
        assert store.match(text) == expected


def test_a_reference_that_isnt_read(town: Town, monkeypatch: pytest.MonkeyPatch) -> None:
    """If Python took a reference for none, it would have no region: that is an error, and no answer."""
    texts = [text for text in references(town, 9) if text]
    with olr.Map(town.store) as store:
        answers = list(store.matches(texts))
        (good, *_) = (text for text, one in zip(texts, answers) if isinstance(one, olr.Page))
        monkeypatch.setattr(store_source, "read_points", lambda text: None)
        with pytest.raises(olr.ToolError, match="' is a reference that olr-tools can't read"):
            list(store.matches([good]))


def test_numpy_is_enough(town: Town, program: Program) -> None:
    """And without it the error says what to install."""
    script = """
import olr
program, store, text = sys.argv[2:]
try:
    with olr.Map(store, program=program) as asked:
        print(len(asked.match(text).matchings) == 0, asked.places(text).verdict)
except olr.ToolError as error:
    print(error)
"""
    refused = "top not in (*sys.stdlib_module_names, 'olr', 'numpy')"
    words = (program.path, town.store, REFERENCE)
    ended = run_without(refused, script, *words)
    assert (ended.stdout, ended.stderr) == ("True none\n", "")
    assert run_without(ALL, script, *words).stdout == (
        "olr.Map of a store needs the module numpy: on Debian run olr-tools setup (python3-numpy), "
        "elsewhere install the extra olr[scale] of the wheel\n"
    )
