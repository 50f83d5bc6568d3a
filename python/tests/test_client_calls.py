"""How `olr` is called from Python: pages, numbers and their ranges, one or many references, names, and versions of a map."""

import inspect
import numpy as np
import os
import pytest
import shutil
import subprocess
import sys
from collections.abc import Callable
from distributed.protocol.pickle import dumps as dumps_of_dask
from pathlib import Path
from typing import Any

import olr
from asking import as_json, said
from conftest import REFERENCE, TOP, Program
from olr.asking.processes import Processes
from olr.asking.threaded import Process
from olr.content import Content, digest_of
from olr.model.profiles import DEFAULT_PROFILE, tolerances_of
from olr.model.questions import NUMBERS, TOLERANCES, Number, options_for

EXAMPLES = TOP / "examples"
BREAKDOWN = "CwVF+yN2yhpnBAFdAAsaFg=="
"""A reference with four matchings."""
KIOSK = "KwVGnCN20HPDBwFCATFjT5Y="
UNMATCHED = "CwVGnSN2zhtnBgEB/2IjAQ=="
decode: Callable[..., object] = olr.decode
table: Callable[..., object] = olr.to_geodataframe
"""Called with what their types don't admit."""


Call = Callable[[], object]


@pytest.fixture
def folder(tmp_path: Path) -> Path:
    """A copy of the map of the examples."""
    for name in ("nodes.csv", "lines.csv", "bans.csv"):
        shutil.copy(EXAMPLES / name, tmp_path)
    return tmp_path


def test_a_map_in_other_processes(program: Program) -> None:
    """It can't be there, nor what has it, such as what Dask hands to its workers: they open it by its path."""
    with olr.Map(EXAMPLES, program=program.path) as town:
        task = lambda ref: town.places(ref)
        for given in (town, town.asking(radius=50), town.places, task):
            with pytest.raises(TypeError, match="owns processes of olr: open it in each process"):
                dumps_of_dask(given)


def test_pages(program: Program) -> None:
    with olr.Map.of_folder(EXAMPLES, program=program.path, profile="program") as town:
        every = town.match(BREAKDOWN, page=1000)
        assert len(every.matchings) == 4 and every.next is None
        for size in (1, 2, 3, 4):
            pages = list(town.pages(BREAKDOWN, page=size))
            assert [len(page.matchings) for page in pages[:-1]] == [size] * (len(pages) - 1)
            assert sum([tuple(page.matchings) for page in pages], ()) == every.matchings
            assert [page.next is None for page in pages] == [False] * (len(pages) - 1) + [True]
            left = town.pages(BREAKDOWN, page=2, after=every.matchings[size - 1].cursor)
            assert sum([tuple(page.matchings) for page in left], ()) == every.matchings[size:]
        first = town.match(BREAKDOWN, page=1)
        assert first.next is not None
        words = ["match", "--map", EXAMPLES, "--format", "json", "--page", 2, "--after", first.next]
        expected = said(program, *words, BREAKDOWN)
        second = town.match(f" {BREAKDOWN}\n", page=2, after=first.next)
        assert as_json(second) == expected | {"next": expected["next"].partition("@")[0]}
        assert town.match(BREAKDOWN, page=2, after=expected["next"]).matchings == (
            every.matchings[3:]
        )
        assert town.match(BREAKDOWN, page=2, after=second.next).matchings == every.matchings[3:]
        assert list(town.pages(UNMATCHED)) == [olr.Page((), None)]
        assert next(town.pages(BREAKDOWN)) == town.match(BREAKDOWN)
        left = town.pages(BREAKDOWN, page=1)
        next(left)
    with pytest.raises(olr.ToolError, match="closed"):
        next(left)


def test_cursors_that_arent_of_a_matching(program: Program) -> None:
    texts = ["", "x", "-x", "8:1.1 ", "8:1.1\n", "é", "8", "8:1", "08:1.1", "8:" + ".1" * 100]
    marked = "8:1.1@" + "0" * 64
    texts += ["9:9.9", "8:1.1.1", marked, marked + "0", marked.replace("0", "g")]
    with olr.Map.of_folder(EXAMPLES, program=program.path) as town:
        for text in texts:
            words = ["--map", EXAMPLES, "--format", "json", f"--after={text}", BREAKDOWN]
            with pytest.raises(olr.Fault) as raised:
                town.match(BREAKDOWN, after=text)
            assert raised.value.text == said(program, "match", *words), text
        with pytest.raises(olr.Fault, match="BadCursor"):
            town.match(BREAKDOWN, after="8:1.1\0")
        for text in ("", "CwVF"):
            with pytest.raises(olr.Fault) as raised:
                town.match(text, after="8:1.1")
            assert raised.value == next(town.matches([text]))
        for after in (town.match(BREAKDOWN), 8, b"8:1.1"):
            with pytest.raises(TypeError, match="after is a cursor, such as the next of a page"):
                town.pages(BREAKDOWN, after=after)  # type: ignore[arg-type]


def test_names() -> None:
    """Those that are public can be listed, before what they need is imported."""
    code = "import olr, sys; print(*dir(olr)); print(*{'geopandas', 'numpy'} & sys.modules.keys())"
    environment = os.environ | {"PYTHONPATH": str(TOP / "python")}
    command = [sys.executable, "-c", code]
    ended = subprocess.run(command, env=environment, capture_output=True, text=True, check=True)
    names, imported = ended.stdout.splitlines()
    assert set(olr.__all__) <= set(names.split()) and not imported
    assert {"Map", "Network", "ToolError", "decode"} <= set(olr.__all__)
    assert "importlib" not in names
    assert issubclass(olr.Fault, olr.ToolError) and issubclass(olr.MapRefused, olr.ToolError)


def test_what_is_shown_of_maps(monkeypatch: pytest.MonkeyPatch) -> None:
    monkeypatch.chdir(TOP)
    town = olr.Map.of_folder("examples")
    bans = "'examples/nodes.csv', 'examples/lines.csv', 'examples/bans.csv'"
    assert repr(town) == f"Map({bans})"
    town.close()
    assert repr(town) == f"<closed Map({bans})>"
    other = olr.Map("examples/nodes.csv", Path("x.csv"), radius=50, class_=0)
    assert repr(other) == "Map('examples/nodes.csv', 'x.csv', radius=50, class_=0)"
    # By `wc -l`: 21 and 42 lines, of which one is the header.
    assert repr(town.network()) == "<Network of examples: 20 nodes, 41 lines>"


@pytest.mark.parametrize(
    ("call", "words"),
    [
        (lambda town: town.matches(REFERENCE), "matches takes many references, .*: ask match"),
        (lambda town: town.matches(b"CwVF"), "matches takes many references, not one text"),
        (lambda town: town.answers("why", REFERENCE), "answers takes .*, not one text: ask why"),
        (lambda town: town.matches(7), "not iterable"),
        (lambda town: town.match([REFERENCE]), "a reference is a text, not list"),
        (lambda town: town.pages(b"CwVF"), "in base64, not bytes: give data.decode"),
        (lambda town: decode(b"\x0b\x05"), r"base64.b64encode\(data\).decode\(\) if they are"),
        (lambda town: table([], town, keys="m1"), "takes many keys"),
        (lambda town: table(olr.Page(()), town), "takes many answers, not one"),
    ],
)
def test_one_in_place_of_many(call: Callable[[olr.Map], object], words: str) -> None:
    """It is refused by the call, before anything is asked."""
    with olr.Map.of_folder(EXAMPLES, program="none") as town:
        with pytest.raises(TypeError, match=words):
            call(town)


def numbers() -> list[tuple[str, str, Number]]:
    """All numbers: the question that has them, `match` for tolerances, their names and ranges."""
    tolerances = [("match", name, number) for name, number in TOLERANCES.items()]
    return tolerances + [
        (what, name, number) for what in NUMBERS for name, number in NUMBERS[what].items()
    ]


def ask(what: str, name: str, value: Any) -> None:
    """Gives a number to a map that has no program."""
    argument = {f"{name}_" if name == "class" else name: value}
    if name in TOLERANCES:
        olr.Map.of_folder(EXAMPLES, program="none", **argument)
        return
    town = olr.Map.of_folder(EXAMPLES, program="none")
    town.answers(what, [REFERENCE], **argument)  # type: ignore[call-overload]
    with pytest.raises(olr.ProgramNotFound):
        getattr(town, what)(REFERENCE, **argument)


@pytest.mark.parametrize(("what", "name", "number"), numbers())
def test_ranges(what: str, name: str, number: Number, program: Program) -> None:
    """They are those of the program, and are told at once."""
    words = f"{name} is a whole number of {number.unit} from {number.least} to {number.greatest}"
    for value in (number.least, number.greatest):
        ask(what, name, value)
        assert program.run(what, REFERENCE, "--map", EXAMPLES, f"--{name}", value).returncode == 0
    for kind in (np.int64, np.int32, np.uint32):
        ask(what, name, kind(number.greatest))
    for value in (number.least - 1, number.greatest + 1, -7, 2**40):
        with pytest.raises(olr.Fault) as raised:
            ask(what, name, value)
        assert str(raised.value).endswith(f"{words}, not {value}")
        if 0 <= value < 2**32:
            option = f"--{name}={value}"
            told = said(program, what, REFERENCE, "--map", EXAMPLES, option)
            assert raised.value.text == told
    for wrong in ("100", 1.0, True, None, np.float64(1.0), np.bool_(True)):
        with pytest.raises(TypeError) as refused:
            ask(what, name, wrong)
        assert str(refused.value) == f"{words}, not {wrong!r}"


def test_numbers_that_arent_there() -> None:
    maps: list[Callable[..., object]] = [olr.Map, olr.Map.of_folder]
    for call in maps:
        with pytest.raises(TypeError, match="unexpected keyword argument 'radios'"):
            call("x", "y", radios=5) if call is olr.Map else call("x", radios=5)
    town = olr.Map.of_folder(EXAMPLES, program="none")
    with pytest.raises(
        TypeError, match="places has no page: it has apart, within, look, most, order, detail"
    ):
        town.answers("places", [], page=3)
    with pytest.raises(TypeError, match="candidates has no page: it has detail"):
        town.answers("candidates", [], page=3)
    with pytest.raises(TypeError, match="unexpected keyword argument 'page'"):
        town.places(REFERENCE, page=3)  # type: ignore[call-arg]
    with pytest.raises(ValueError, match="'shows' is no question: ask candidates, match"):
        town.answers("shows", [])  # type: ignore[call-overload]


def test_defaults() -> None:
    """What help shows of the calls is that of the table, and of the profile where none is named."""
    calls: list[Callable[..., object]] = [olr.Map.__init__, olr.Map.of_folder]
    assert inspect.signature(olr.Map).parameters.keys() > {"nodes", "radius", "patience"}
    for call in calls:
        parameters = inspect.signature(call).parameters
        for name, number in TOLERANCES.items():
            usual = tolerances_of(DEFAULT_PROFILE)[name]
            assert parameters["class_" if name == "class" else name].default == usual
            assert number.range_text() in (inspect.getdoc(call) or "")
    for what, of_question in NUMBERS.items():
        parameters = inspect.signature(getattr(olr.Map, what)).parameters
        own = {name: number.default for name, number in of_question.items()}
        assert {name: parameters[name].default for name in own} == own
        others = {name: option.default for name, option in options_for(what).items()}
        assert {name: parameters[name].default for name in others} == others
        assert parameters.keys() - own.keys() - others.keys() <= {"self", "ref", "after"}


def test_options() -> None:
    """What isn't one is refused before the program is asked, by each call."""
    town = olr.Map.of_folder(EXAMPLES, program="none")
    for what in NUMBERS:
        for name, option in options_for(what).items():
            wrongs: list[Any] = [1, None, b"total", np.bool_(True), "other"]
            for wrong in wrongs:
                is_word = bool(option.words) and isinstance(wrong, str)
                calls: list[Callable[..., object]] = [town.raw_answer, town.answers]
                for call in calls:
                    error = ValueError if is_word else TypeError
                    with pytest.raises(error, match=f"{name} is .* or .*, not "):
                        call(what, REFERENCE, **{name: wrong})
    with pytest.raises(TypeError, match="why has no detail: it has nearest"):
        town.answers("why", [], detail=True)
    with pytest.raises(TypeError, match="unexpected keyword argument 'order'"):
        town.match(REFERENCE, order="likely")  # type: ignore[call-arg]


def processes_of(town: olr.Map) -> list[Process]:
    """The processes that answer."""
    assert isinstance(town._source, Processes)
    return town._source._there


def test_other_tolerances(program: Program) -> None:
    """A map with others is asked by the same process, each with its own."""
    with olr.Map.of_folder(EXAMPLES, program=program.path, profile="program") as town:
        other = town.asking(profile="program", lowest=2)
        for one, two in zip(town.matches([UNMATCHED] * 300), other.matches([UNMATCHED] * 300)):
            assert isinstance(one, olr.Page) and isinstance(two, olr.Page)
            assert (len(one.matchings), len(two.matchings)) == (0, 1)
        assert (other.asked_with, other.tolerances["lowest"]) == (
            {"profile": "program", "lowest": 2},
            2,
        )
        assert len(processes_of(town)) == 1
        with pytest.raises(olr.Fault, match="BadTolerance lowest"):
            town.asking(lowest=8)
    with pytest.raises(olr.ToolError, match="closed"):
        other.match(UNMATCHED)


def test_a_map_that_changes(folder: Path, program: Program) -> None:
    """Neither answers nor geometries are of another version than the first answer."""
    lines = (folder / "lines.csv").read_text()
    with olr.Map.of_folder(folder, program=program.path) as town:
        pages = town.pages(BREAKDOWN, page=1)
        first, kiosk = next(pages), town.match(KIOSK, page=1)
        (folder / "lines.csv").write_text(lines.replace("7418773 49871296", "7418773 49871297"))
        other = olr.Network.read(folder)
        assert town.match(BREAKDOWN, page=1) == first and next(pages) != first
        with pytest.raises(olr.MapRefused, match="have changed since they were read"):
            town.network()
        refused = "another version than the answer is of: take the network of the Map"
        with pytest.raises(olr.MapRefused, match=refused):
            other.path(first.matchings[0].route)
        for page in (first, kiosk):
            with pytest.raises(olr.MapRefused, match=refused):
                olr.to_pieces([page], other)
        (folder / "lines.csv").write_text(lines)
        network = town.network()
        assert network is town.network()
        for same in (network, olr.Network.read(EXAMPLES)):
            assert len(olr.to_pieces([first, kiosk], same)) > 2
        (folder / "bans.csv").write_text("from,to\n")
        assert town.candidates(KIOSK)
        processes_of(town)[0].fail(olr.ProgramEnded("no more"))
        with pytest.raises(olr.MapRefused, match="have changed"):
            town.candidates(KIOSK)
    with olr.Map.of_folder(folder, program=program.path) as again:
        assert again.match(BREAKDOWN, page=1).matchings


def test_a_map_that_changes_while_it_is_read(folder: Path, program: Program) -> None:
    script = folder / "program"
    change = f"sed -i s/7418773/7418774/ {folder}/lines.csv"
    script.write_text(f'#!/bin/sh\n{change}\nexec {program.path} "$@"\n')
    script.chmod(0o755)
    with olr.Map.of_folder(folder, program=script, profile="program") as town:
        with pytest.raises(olr.MapRefused, match="have changed since they were read"):
            town.match(KIOSK)
        assert town.match(KIOSK).matchings


def test_digests(folder: Path, monkeypatch: pytest.MonkeyPatch) -> None:
    """They are of all that files have in them, and a file that hasn't changed for long isn't read again."""
    nodes, lines = folder / "nodes.csv", folder / "lines.csv"
    first = digest_of(nodes, lines)
    assert first == digest_of(EXAMPLES / "nodes.csv", EXAMPLES / "lines.csv")
    assert len({first, digest_of(lines, nodes), digest_of(nodes), digest_of(nodes, nodes)}) == 4
    assert digest_of(nodes, folder / "none") is None and digest_of(folder) is None
    monkeypatch.setattr("olr.content.SETTLED", 0)
    assert digest_of(nodes, lines) == first
    read = Content.of
    monkeypatch.setattr("olr.content.Content.of", None)
    assert digest_of(nodes, lines) == first
    monkeypatch.setattr("olr.content.Content.of", read)
    new = folder / "new.csv"
    new.write_text(lines.read_text().replace("7418773", "7418774"))
    new.replace(lines)
    assert digest_of(nodes, lines) != first


def test_positions_that_arent_on_a_line() -> None:
    network = olr.Network.read(EXAMPLES)
    calls: list[tuple[int, Call]] = [
        (2436, lambda: network.path([(104, 0, 2436)])),
        (-1, lambda: network.path([(104, -1, 5)])),
    ]
    for at, call in calls:
        words = f"position {at} isn't on line 104 of the map in .*, which is 2435 dm long"
        with pytest.raises(olr.ToolError, match=words):
            call()
