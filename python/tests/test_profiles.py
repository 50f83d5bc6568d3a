"""Profiles: which tolerances hold where, what is said of them, and of what fits nowhere. No test depends on the numbers of a profile."""

import json
import os
import pytest
import re
from collections import Counter
from collections.abc import Iterator
from pathlib import Path
from typing import Any

import olr
from asking import batch_of
from conftest import REFERENCE, TOP, Program
from feeds import data_of
from olr.asking.exchange import Asked
from olr.client.map_client import Map
from olr.matching.lacking import Lacking
from olr.model.asked_with import command_text, numbers_text
from olr.model.profiles import FEED, PROFILES, PROGRAM, as_arguments, resolved, tolerances_of
from olr.model.questions import TOLERANCES
from olr.tools import run
from profiled import DEFAULTS, EXAMPLES, LACKING, MESSAGES, UNMATCHED, texts_of, tools, words_of
from runs import Town


@pytest.fixture(autouse=True)
def environment(program: Program, monkeypatch: pytest.MonkeyPatch) -> None:
    """The commands find the program by its environment."""
    monkeypatch.setenv("OLR_PROGRAM", os.fspath(program.path))


# ---- the table


def test_the_table() -> None:
    """`program` has the program's defaults, and all numbers are in their ranges."""
    assert tolerances_of(PROGRAM) == DEFAULTS
    for name in PROFILES:
        found = tolerances_of(name)
        assert list(found) == list(TOLERANCES)
        for tolerance, value in found.items():
            assert TOLERANCES[tolerance].least <= value <= TOLERANCES[tolerance].greatest
    with pytest.raises(ValueError, match="'fed' is no profile: the profiles are program, feed"):
        tolerances_of("fed")


@pytest.mark.parametrize("profile", PROFILES)
def test_the_program_has_the_table(profile: str, program: Program) -> None:
    """The cursor behind a page has the digest of all tolerances."""
    question = ("match", "CwVF+yN2yhpnBAFdAAsaFg==", "--map", TOP / "examples", "--page", 1)
    named = program.run(*question, "--profile", profile).stdout
    assert named.splitlines()[-1].startswith("more ")
    numbers = (f"--{name}={value}" for name, value in tolerances_of(profile).items())
    assert named == program.run(*question, *numbers).stdout


@pytest.mark.parametrize("profile", PROFILES)
@pytest.mark.parametrize(
    "given",
    [{}, {"radius": 5}, {"class_": 2}, {"class": 2}, {"lowest": 7, "slack": 0}, {"percent": 0}],
)
def test_single_tolerances_win(profile: str, given: dict[str, int]) -> None:
    found = resolved(profile, given)
    named = {name.rstrip("_"): value for name, value in given.items()}
    assert found == {**tolerances_of(profile), **named}
    assert as_arguments(found).keys() == {*found} - {"class"} | {"class_"}


def test_the_guide_has_the_table() -> None:
    page = (
        (TOP / "docs/GUIDE.md")
        .read_text(encoding="utf-8")
        .split("## I want to know which tolerances to take")[1]
    )
    head, *rows = [line.strip("| ").split(" | ") for line in re.findall(r"(?m)^\| .*", page)][:3]
    names = [name.strip("`-") for name in head[1:-1]]
    for row in rows:
        profile = row[0].strip("`")
        assert dict(zip(names, map(int, row[1:-1]))) == tolerances_of(profile)
        assert row[-1].replace("`", "") == PROFILES[profile].purpose
    assert [row[0].strip("`") for row in rows] == list(PROFILES)


def test_texts() -> None:
    asked = numbers_text(FEED, {"radius": 33, "class_": 1}, {"page": 3})
    first, *others = asked.split(", ")
    assert first == "radius 33 m" and others[-1] == "page 3 matchings"
    assert others[-2] == "profile feed but for radius and class"
    own = tolerances_of(FEED)
    assert numbers_text(FEED, own, {}).endswith(", profile feed")
    assert f"lowest {own['lowest']}, percent {own['percent']} %" in asked


@pytest.mark.parametrize(
    ("numbers", "words"),
    [
        (DEFAULTS, ""),
        ({}, ""),
        ({**DEFAULTS, "radius": 3, "apart": 750, "within": 5}, " --radius 3 --within 5"),
        ({"page": 7, "nearest": 2}, ""),
    ],
)
def test_commands_of_the_program(numbers: dict[str, int], words: str) -> None:
    """They have what isn't the program's default, of the question."""
    assert command_text("places", " x+/= ", "a b", numbers) == f"olr places x+/= --map 'a b'{words}"
    assert command_text("places", "x", None, numbers) == ""


# ---- commands


@pytest.mark.parametrize("name", ["match", "run", "view", "report", "compare", "calibrate"])
def test_help(name: str, capsys: pytest.CaptureFixture[str]) -> None:
    """What each is, and which one is the default."""
    assert run([name, "--help"]) == 0
    helped = " ".join(capsys.readouterr().out.split())
    about = re.search(r"--profile \[program\|feed\] (.*?) --radius", helped)
    assert about is not None and "[default: feed]" in about[1]
    for tolerance, value in PROFILES[FEED].own.items():
        assert f"{tolerance} {value}" in about[1]
    assert (
        "--radius N Admit lines this far from a point: 1 to 1000 metres, by default that" in helped
    )


def asked_with(name: str, folder: Path, capsys: pytest.CaptureFixture[str], *words: object) -> str:
    """What the summary of a command says that was asked with."""
    given: dict[str, list[object]] = {
        "match": [MESSAGES, "--map", EXAMPLES, "--out", folder / "a.csv"],
        "match --places": [MESSAGES, "--map", EXAMPLES, "--places", "--out", folder / "b.csv"],
        "match --why": [MESSAGES, "--map", EXAMPLES, "--why", "--out", folder / "c.csv"],
        "view": [REFERENCE, "--map", EXAMPLES, "--out", folder / "d.html"],
        "report": [MESSAGES, "--map", EXAMPLES, "--out", folder / "e.html"],
        "compare": [MESSAGES, "--map", EXAMPLES, "--with", EXAMPLES, "--out", folder / "f.csv"],
        "calibrate": ["--map", EXAMPLES, "--references", 10, "--out", folder / "g.json"],
    }
    assert tools([name.split()[0], *given[name], *words]) == 0
    lines = capsys.readouterr().out.splitlines()
    (line,) = [line for line in lines if line.startswith("asked with: ")]
    return line.removeprefix("asked with: ")


@pytest.mark.parametrize(
    "name", ["match", "match --places", "match --why", "view", "report", "compare", "calibrate"]
)
def test_each_command(name: str, tmp_path: Path, capsys: pytest.CaptureFixture[str]) -> None:
    """By default it is the feed's, and single options win."""
    cases: list[tuple[list[object], str, dict[str, int]]] = [
        ([], FEED, {}),
        (["--profile", PROGRAM], PROGRAM, {}),
        (["--radius", 90, "--class", 6], FEED, {"radius": 90, "class": 6}),
        (["--radius", 90, "--profile", PROGRAM], PROGRAM, {"radius": 90}),
    ]
    for number, (words, profile, given) in enumerate(cases):
        shown = asked_with(name, tmp_path / str(number), capsys, *words)
        wanted = numbers_text(profile, given, {})
        assert shown == wanted + (", across 10 m" if name == "compare" else "")
    assert run([*name.split()[:1], "--profile", "fed"]) == 2
    assert "'fed' is not one of 'program', 'feed'" in capsys.readouterr().err


def test_answers_are_those_of_the_profile(tmp_path: Path, program: Program) -> None:
    """By the file that is written: the first total of each message."""
    for profile in PROFILES:
        out = tmp_path / f"{profile}.geojson"
        assert (
            tools(["match", MESSAGES, "--map", EXAMPLES, "--profile", profile, "--out", out]) == 0
        )
        rows = [feature["properties"] for feature in json.loads(out.read_text())["features"]]
        found = {row["key"]: row["total"] for row in rows if row["rank"] in (1, None)}
        words = ["--map", EXAMPLES, *words_of(tolerances_of(profile))]
        pages = [
            [] if isinstance(page, str) else page["matchings"]
            for page in batch_of(program, "match", MESSAGES, words)
        ]
        totals = [page[0]["total"] if page else None for page in pages]
        assert list(found.values()) == totals
    assert (tmp_path / "program.geojson").read_text() != (tmp_path / "feed.geojson").read_text()


def test_runs_ask_the_same_question_by_any_name(
    here: None, town: Town, tmp_path: Path, capsys: pytest.CaptureFixture[str]
) -> None:
    """A run goes on with another profile, if all numbers are the same; and else it doesn't."""
    few = tmp_path / "few"
    few.write_text("".join(town.plain.read_text().splitlines(keepends=True)[:30]))
    words = ["run", few, "--store", town.store, "--out", tmp_path / "out"]
    assert tools(words) == 0
    assert f"asked with: {numbers_text(FEED, {}, {})}\n" in capsys.readouterr().out
    same = words_of(tolerances_of(FEED))
    assert tools([*words, "--resume", "--profile", PROGRAM, *same]) == 0
    assert "profile program but for " in capsys.readouterr().out
    assert tools([*words, "--resume", "--profile", PROGRAM]) == 1
    assert "holds a run with other options" in capsys.readouterr().err


# ---- what fits nowhere


def line_of(out: str) -> list[str]:
    """The line of a summary about what fits nowhere, if there is one."""
    return [line for line in out.splitlines() if line.startswith("fit nowhere")]


def expected_line(program: Program, profile: str, other: str) -> str:
    """That of the messages that mostly fit nowhere, by what `olr batch` says."""
    words = ["--map", EXAMPLES, *words_of(tolerances_of(profile))]
    texts = texts_of(UNMATCHED)
    pages = batch_of(program, "match", UNMATCHED, words)
    lacking = [
        number for number, page in enumerate(pages) if page == {"matchings": [], "next": None}
    ]
    others = ["--map", EXAMPLES, *words_of(tolerances_of(other))]
    found = batch_of(program, "match", UNMATCHED, others)
    helped = [number for number in lacking if found[number]["matchings"]]
    reasons = batch_of(program, "why", UNMATCHED, words)
    first: Counter[str] = Counter()
    for number in lacking:
        options = [it["option"] for it in reasons[number]["remedies"] if it.get("matching")]
        first.update(options[:1])
    assert len(lacking) >= 2 and len(texts) == 4 and first
    ((option, count),) = first.most_common(1)
    return (
        f"fit nowhere: {len(lacking)}; of these {len(helped)} with --profile {other}, {first.total()} with one option changed, "
        f"most often --{option} ({count})"
    )


@pytest.mark.parametrize("name", ["match", "match --places", "report"])
@pytest.mark.parametrize(("profile", "other"), [(FEED, PROGRAM), (PROGRAM, FEED)])
@pytest.mark.parametrize("kept", [1, 1024])
def test_what_would_help(
    name: str,
    profile: str,
    other: str,
    kept: int,
    program: Program,
    tmp_path: Path,
    monkeypatch: pytest.MonkeyPatch,
    capsys: pytest.CaptureFixture[str],
) -> None:
    """Asked one by one, and together."""
    monkeypatch.setattr("olr.matching.lacking.CHUNK", kept)
    monkeypatch.setattr("olr.pages.report.asking.CHUNK", kept)
    out = tmp_path / ("out.html" if name == "report" else "out.csv")
    command, *more = name.split()
    words = [command, UNMATCHED, "--map", EXAMPLES, *more, "--out", out, "--profile", profile]
    assert tools(words) == 0
    wanted = expected_line(program, profile, other)
    assert line_of(capsys.readouterr().out) == [wanted]
    if name == "report":
        helped = re.search(r"(\d+); of these (\d+)", wanted)
        assert helped is not None
        text = f"With --profile {other} {helped[2]} of the {helped[1]} that fit nothing have a matching."
        assert text in data_of(out)["summary"]


def test_the_other_profile_that_is_the_same(
    tmp_path: Path, capsys: pytest.CaptureFixture[str]
) -> None:
    """Where all that differs was given, it isn't asked, nor named."""
    given = [word for name in PROFILES[FEED].own for word in (f"--{name}", 5)]
    words = ["match", UNMATCHED, "--map", EXAMPLES, "--out", tmp_path / "a.csv", *given]
    assert tools(words) == 0
    (line,) = line_of(capsys.readouterr().out)
    assert "; of these " in line and "--profile" not in line


@pytest.mark.parametrize("words", [[], ["--places"]])
def test_nothing_more_is_asked_where_all_fit(
    words: list[str],
    tmp_path: Path,
    monkeypatch: pytest.MonkeyPatch,
    capsys: pytest.CaptureFixture[str],
) -> None:
    asked: list[str] = []
    answers = Map._answers

    def noted(self: Map, question: Asked, *others: Any) -> Any:
        asked.append(question.what)
        return answers(self, question, *others)

    monkeypatch.setattr(Map, "_answers", noted)
    messages = tmp_path / "messages"
    messages.write_text(f"m1\t{REFERENCE}\nm2\tbad\n")
    out = tmp_path / "out.csv"
    assert tools(["match", messages, "--map", EXAMPLES, "--out", out, *words]) == 0
    # For places it is asked first whether the confidence is for these numbers.
    assert sorted(asked) == ["candidates", *(["places"] * 2 if words else ["match"])]
    assert line_of(capsys.readouterr().out) == []


def test_asking_more_that_fails() -> None:
    """What was asked in the first place is answered: so the summary has the count, and why it has no more."""

    class Slow:
        """A map that answers nothing."""

        def answers(self, *given: object, **numbers: object) -> Iterator[object]:
            """No answer."""
            raise olr.TimedOut("olr answered nothing", LACKING)
            yield

    slow: Any = Slow()
    lacking = Lacking(slow, (PROGRAM, {}))
    for _ in range(3):
        lacking.add(LACKING)
    unknown = "what would help isn't known: olr answered nothing"
    assert lacking.line() == f"fit nowhere: 3; {unknown}"
    assert list(lacking.sentences()) == []
