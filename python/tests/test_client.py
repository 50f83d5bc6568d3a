"""`olr.Map` and `olr.decode` answer what the program answers."""

import json
import os
import pickle
import pytest
import tomllib
from collections.abc import Mapping
from pathlib import Path
from typing import Any

import olr
from asking import all_options, as_json, batch_of, draw_map, draw_references, said
from conftest import REFERENCE, TOP, Program, by_default
from olr.asking.processes import AHEAD
from olr.asking.threaded import PIECE_BYTES
from olr.model.questions import LIST, NUMBERS, TOLERANCES, What, all_words

DATA = TOP / "crates/olr_conformance/data"
REFERENCES = 300
KIOSK = "KwVGnCN20HPDBwFCATFjT5Y="
ROADWORKS = "CwVGnSN2zhvHCgDX/tIzAw=="
UNMATCHED = "CwVGnSN2zhtnBgEB/2IjAQ=="
REQUESTS: tuple[What, ...] = ("match", "places", "why", "candidates")


@pytest.fixture(scope="module")
def folder(tmp_path_factory: pytest.TempPathFactory) -> Path:
    """A drawn map, with references on it in `references`."""
    place = draw_map(tmp_path_factory.mktemp("drawn") / "map")
    (place / "references").write_text("\n".join(draw_references(place, REFERENCES)))
    return place


@pytest.fixture(scope="module")
def references(folder: Path) -> list[str]:
    """References on the drawn map."""
    return (folder / "references").read_text().split("\n")


def plain(answer: Any) -> Any:
    """An answer as JSON, or the text of a fault."""
    return answer.text if isinstance(answer, olr.Fault) else as_json(answer)


@pytest.mark.parametrize(
    "what, settings",
    [
        *((what, {}) for what in REQUESTS),
        ("match", {"detail": True}),
        ("candidates", {"detail": True}),
        ("places", {"order": "likely"}),
        ("places", LIST),
        *((what, {"shape": True}) for what in REQUESTS),
    ],
)
def test_many_references_in_one_go(
    what: What,
    settings: Mapping[str, Any],
    folder: Path,
    references: list[str],
    program: Program,
    tmp_path: Path,
) -> None:
    texts = references[: REFERENCES if what == "match" else 150]
    records = tmp_path / "records"
    records.write_text("".join(f"x\t{text}\n" for text in texts), encoding="utf-8")
    words = by_default("--map", folder, *all_words(settings))
    expected = batch_of(program, what, records, words)
    with olr.Map.of_folder(folder, program=program.path) as drawn:
        answers = list(drawn.answers(what, texts, **settings))
    assert len(answers) == len(texts)
    assert [plain(answer) for answer in answers] == expected
    faults = {answer.name for answer in answers if isinstance(answer, olr.Fault)}
    assert {"NotBase64", "Empty", "BadLength"} <= faults


@pytest.mark.parametrize("text", [REFERENCE, ROADWORKS, KIOSK])
@pytest.mark.parametrize("what", NUMBERS)
def test_json_as_it_was(what: What, text: str, program: Program) -> None:
    """Of a line and of a point along a line, byte by byte, with each option and without."""
    options = all_options(what)
    asked: list[dict[str, Any]] = [{}, *({name: options[name]} for name in options), options]
    with olr.Map.of_folder(TOP / "examples", program=program.path) as town:
        for settings in asked:
            raw = town.raw_answer(what, text, **settings)
            (answer,) = town.answers(what, [text], **settings)
            assert not isinstance(answer, olr.Fault)
            made = json.dumps(answer.to_dict(), separators=(",", ":"))
            assert made.encode() == raw and raw.count(b'"parts"') == raw.count(b'"sectors"')
            assert (b'"parts"' in raw) == bool(settings.get("detail"))
            assert (b'"spot"' in raw) == bool(settings.get("shape"))
            assert (b'"cut"' in raw) == (b'"rank"' in raw) == ("order" in settings)


def test_one_at_a_time_and_in_one_go(folder: Path, references: list[str], program: Program) -> None:
    with olr.Map.of_folder(folder, program=program.path) as drawn:
        for text, answer in zip(references[:150], drawn.matches(references[:150], page=3)):
            try:
                alone: Any = drawn.match(text, page=3)
            except olr.Fault as fault:
                alone = fault
            assert alone == answer
    for text in references[:40]:
        words = by_default("match", "--map", folder, "--format", "json", "--page", 3)
        expected = said(program, *words, "--", text)
        with olr.Map.of_folder(folder, program=program.path) as drawn:
            (answer,) = drawn.matches([text], page=3)
        shown = plain(answer)
        if isinstance(shown, dict) and shown["next"] is not None:
            expected["next"] = expected["next"].split("@")[0]
        assert shown == expected


def conformance_questions() -> dict[tuple[str, ...], tuple[dict[str, str], list[str]]]:
    """The questions of the conformance suite, by what and with which options: the files of a map, and references."""
    questions: dict[tuple[str, ...], tuple[dict[str, str], list[str]]] = {}
    for suite in sorted(DATA.glob("*.toml")):
        table = tomllib.loads(suite.read_text(encoding="utf-8"))
        for case in table.get("case", []):
            words = case.get("words", table.get("words", []))
            files = table.get("files", {}) | case.get("files", {})
            if len(words) < 2 or words[0] not in NUMBERS or words[1].startswith("-"):
                continue
            options = words[2:]
            names = ("nodes", "lines", "bans", *TOLERANCES, *NUMBERS[words[0]])
            known = [f"--{name}" for name in names]
            if len(options) % 2 or not set(options[::2]) <= set(known):
                continue
            if {"--nodes", "--lines"} <= set(options) and "status" not in case:
                named = dict(zip(options[::2], options[1::2]))
                read = {
                    name: files.get(named.get(f"--{name}", ""), "")
                    for name in ("nodes", "lines", "bans")
                }
                key = (words[0], *options, *read.values())
                questions.setdefault(key, (read, []))[1].append(words[1])
    return questions


def test_the_conformance_suite(program: Program, tmp_path: Path) -> None:
    asked = 0
    for key, (files, texts) in conformance_questions().items():
        what, options = key[0], dict(zip(key[1:-3:2], key[2:-3:2]))
        for name, text in files.items():
            (tmp_path / name).write_text(text, encoding="utf-8")
        numbers: dict[str, Any] = {
            name[2:]: int(value) for name, value in options.items() if value.isdecimal()
        }
        own = {name: numbers.pop(name) for name in NUMBERS[what] if name in numbers}  # type: ignore[index]
        if "class" in numbers:
            numbers["class_"] = numbers.pop("class")
        nodes, lines = tmp_path / "nodes", tmp_path / "lines"
        bans = tmp_path / "bans" if "--bans" in options else None
        words = [
            word
            for name in options
            for word in (name, tmp_path / name[2:] if name[2:] in files else options[name])
        ]
        with olr.Map(
            nodes, lines, bans, program=program.path, profile="program", **numbers
        ) as drawn:
            for text, answer in zip(texts, drawn.answers(what, texts, **own)):  # type: ignore[call-overload]
                expected = said(program, what, *words, "--format", "json", "--", text)
                shown = plain(answer)
                if isinstance(expected, dict) and isinstance(expected.get("next"), str):
                    expected["next"] = expected["next"].split("@")[0]
                assert shown == expected, (key, text)
                asked += 1
    assert asked > 300


@pytest.mark.parametrize("text", [REFERENCE, KIOSK, ROADWORKS, " " + REFERENCE + "\r\n"])
def test_decode(text: str, program: Program) -> None:
    shown = as_json(olr.decode(text, program=program.path))
    assert shown == said(program, "show", "--format", "json", "--", text)


@pytest.mark.parametrize(
    "text",
    ["", " \n", "CwVF\n/yN2", "a\tb", "-x", "\0", "é", "\ud800", "=" * 345, "A" * 345, "A" * 70_000]
    + [
        "A" * 344,
        " " * 70_000,
        "CwVF/yN2yRpnBAFUAAgbpwYBAf9kK0F",
        "CwVF/yN2yRpnBAFUAAgbpwYBAf9kK0Fa\r",
    ],
)
def test_texts_that_are_hardly_records(text: str, top: Path, program: Program) -> None:
    words = text.replace("\0", "!").encode("utf-8", "replace").decode()
    asked = by_default("match", "--map", top / "examples", "--format", "json")
    expected = said(program, *asked, "--", words)
    with olr.Map.of_folder(top / "examples", program=program.path) as town:
        before, answer, behind = town.matches([REFERENCE, text, KIOSK])
        assert plain(answer) == expected
        assert before == town.match(REFERENCE) and behind == town.match(KIOSK)
    if isinstance(expected, str):
        with pytest.raises(olr.Fault) as raised:
            olr.decode(text, program=program.path)
        assert raised.value.text == expected


def test_names_of_the_answers(top: Path, program: Program) -> None:
    examples = top / "examples"
    with olr.Map(
        examples / "nodes.csv", examples / "lines.csv", program=program.path, profile="program"
    ) as town:
        best = town.match(REFERENCE).matchings[0]
        assert (best.total, best.route[0], best.points[1].line) == (8, (104, 13, 2435), 107)
        assert best.outer is not None and best.outer.length() == 1556 + 2150 + 324 + 1585
        assert best.outer[0].from_ == 879 and best.earliest is None
        kiosk = town.match(KIOSK).matchings[0]
        assert (kiosk.earliest, kiosk.latest, kiosk.outer) == ((701, 2697), (701, 2716), None)
        assert [place.gap for place in town.places(ROADWORKS).places] == [0, 7]
        assert town.places(ROADWORKS, within=6).verdict == "unique"
        reasons = town.why(UNMATCHED, nearest=1)
        assert (reasons.verdict.word, reasons.verdict.at) == ("leg", 1)
        assert (reasons.remedies[0].option, reasons.remedies[0].value) == ("lowest", 2)
        assert pickle.loads(pickle.dumps(best)) == best
        assert hash(town.match(REFERENCE)) == hash(town.match(REFERENCE))
        with pytest.raises(AttributeError):
            best.total = 1  # type: ignore[misc]
    with olr.Map(
        examples / "nodes.csv",
        examples / "lines.csv",
        lowest=2,
        program=program.path,
        profile="program",
    ) as wider:
        assert wider.match(UNMATCHED).matchings[0].total == 12


def test_answers_that_are_lists(top: Path, program: Program) -> None:
    """Of places and of matchings: without any they are false."""
    files = (top / "examples" / name for name in ("nodes.csv", "lines.csv"))
    with olr.Map(*files, program=program.path, profile="program") as town:
        some, none = (town.places(text) for text in (ROADWORKS, UNMATCHED))
        assert some and len(some) == 2 and tuple(some) == some.places
        assert not none and len(none) == 0 and list(none) == []
        page, empty = (town.match(text) for text in (ROADWORKS, UNMATCHED))
        assert page and len(page) == len(page.matchings) > 1
        assert [one.cursor for one in page] == [one.cursor for one in page.matchings]
        assert not empty and len(empty) == 0 and list(empty) == []


def test_more_than_the_pipes_hold(top: Path, program: Program) -> None:
    texts = [f"{number:0300d}" for number in range(PIECE_BYTES // 300)] + [ROADWORKS] * AHEAD * 2
    with olr.Map.of_folder(top / "examples", program=program.path) as town:
        answers = town.answers("why", texts, nearest=64)
        assert sum(isinstance(answer, olr.Fault) for answer in answers) == len(texts) - AHEAD * 2


def test_the_names_of_the_package() -> None:
    for name in olr.__all__:
        assert getattr(olr, name).__name__ == name
    with pytest.raises(AttributeError):
        olr.nonsense


def test_the_environment_names_the_program(
    monkeypatch: pytest.MonkeyPatch, program: Program, tmp_path: Path
) -> None:
    monkeypatch.setenv("OLR_PROGRAM", os.fspath(program.path))
    assert olr.decode(REFERENCE).kind == "line"
    monkeypatch.setenv("OLR_PROGRAM", os.fspath(tmp_path / "none"))
    with pytest.raises(olr.ProgramNotFound, match="that is what OLR_PROGRAM names"):
        olr.decode(REFERENCE)
