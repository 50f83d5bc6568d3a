"""`olr-tools report`: its counts beside those of `jq` over `olr batch`, its rows, samples, files and errors."""

import json
import os
import pytest
import random
import re
import subprocess
import sys
from collections import Counter
from collections.abc import Mapping
from pathlib import Path
from typing import Any

from confidences import FEED, OF_NONE, write_confidence
from conftest import OF_PROGRAM, REFERENCE, TOP, Program
from exact_paths import LineGraph, drawn_references
from feeds import MARKUP, Feed, data_of, jq, make_feed, tables_of
from olr.confidence.confidence import Range
from olr.confidence.weights import ORDER
from olr.model.map_folder import read_map
from olr.regions.making import make_store_of_folder
from olr.tools import run
from olr.trials.encoder import text_of
from vector_files import STREETS

WITHIN, LOOK = 200, ["--look", "20"]
NUMBERS = ["--within", str(WITHIN), *LOOK]
"""With which the feed has answers of all kinds."""
DIFFERS = Range(0.84, 0.55, 1.16)
MORE_BYTES = 6 << 20


@pytest.fixture(autouse=True)
def environment(program: Program, monkeypatch: pytest.MonkeyPatch) -> None:
    """The command finds the program by its environment."""
    monkeypatch.setenv("OLR_PROGRAM", os.fspath(program.path))


@pytest.fixture(scope="module")
def feed(tmp_path_factory: pytest.TempPathFactory) -> Feed:
    """A feed with references of all kinds."""
    return make_feed(tmp_path_factory.mktemp("feed"), 180)


@pytest.fixture(scope="module")
def data(feed: Feed, program: Program) -> Any:
    """What its page has, by a confidence by which all places of an answer are as probable."""
    with pytest.MonkeyPatch.context() as patch:
        patch.setenv("OLR_PROGRAM", os.fspath(program.path))
        return report(feed, feed.folder.parent / "page.html", *sure(feed), *NUMBERS)


@pytest.fixture(scope="module")
def listed(feed: Feed, program: Program) -> dict[int, Any]:
    """The answers to its references by their records, with all places; None for a fault."""
    return answers(feed, program, "--within", 14_620, "--most", 100, *LOOK)


@pytest.fixture(scope="module")
def shown(feed: Feed, program: Program) -> dict[int, Any]:
    """The same with those places that the program itself shows."""
    return answers(feed, program, *NUMBERS)


def answers(feed: Feed, program: Program, *words: object) -> dict[int, Any]:
    """What the program answers in the likely order."""
    records = jq(program, feed, "places", ".", *words, "--order", "likely", "--detail")
    return {one["record"]: one["answer"] for one in records}


def sure(feed: Feed) -> list[object]:
    """The words that name a confidence, which was made for some feed."""
    file = feed.folder.parent / "sure.json"
    return ["--confidence", write_confidence(file, DIFFERS, FEED)]


def report(feed: Feed, out: Path, *words: object) -> Any:
    """The data of a report's page."""
    given = ["report", feed.messages, "--map", feed.folder, "--out", out, *OF_PROGRAM, *words]
    assert run(list(map(str, given))) == 0
    return data_of(out)


def nonzero(counts: Mapping[str, int]) -> dict[str, int]:
    """Counts but those of 0."""
    return {name: count for name, count in counts.items() if count}


def by_ranges(numbers: list[int], names: list[str]) -> dict[str, int]:
    """Numbers counted by the names of ranges."""
    found = {}
    for name in names:
        ends = [int(part.replace(",", "")) for part in re.findall(r"[\d,]+", name)]
        low, high = ends[0], ends[-1] if "more" not in name else 10**9
        found[name] = sum(low <= number <= high for number in numbers)
    return found


def is_line(places: list[Any]) -> bool:
    """Whether the places are those of a line, not of a point along one."""
    return "outer" in places[0]["matching"]


def grouped(query: str) -> str:
    """A query that counts the texts of another one."""
    return f"[{query}] | group_by(.) | map({{(.[0]): length}}) | add"


def test_verdicts_and_faults(feed: Feed, data: Any, program: Program) -> None:
    verdicts = jq(program, feed, "places", grouped('.[] | .answer.verdict // "refused"'), *NUMBERS)
    faults = jq(program, feed, "places", grouped(".[] | .fault // empty"), *NUMBERS)
    assert set(verdicts) == {"unique", "ambiguous", "open", "none", "refused"}
    assert {"NotBase64", "Empty", "TooManyCandidates 1"} < set(faults)
    tables = tables_of(data)
    assert nonzero(tables["References by verdict"]) == verdicts
    assert tables["Refused references by fault"] == faults
    whole = sum(verdicts.values())
    assert data["summary"][2] == (
        f"{whole} references: {verdicts['unique']} unique, {verdicts['ambiguous']} ambiguous, {verdicts['open']} open, "
        f"{verdicts['none']} fit nothing, {verdicts['refused']} refused."
    )
    meanings = {label: note for label, note, _ in data["sections"][0]["tables"][1]["rows"]}
    assert meanings["NotBase64"] == "the text isn't standard base64"


def test_penalties(feed: Feed, data: Any, program: Program, shown: dict[int, Any]) -> None:
    """Margins are the program's; the others are of the places that are shown, in the likely order."""
    tables = tables_of(data)
    query = '[.[].answer // empty | select(.verdict != "none") | .margin]'
    found = [one["places"] for one in shown.values() if one and one["places"]]
    others = [place for places in found for place in places if place["rank"] > 1]
    for caption, numbers in (
        ("Totals of likeliest places", [places[0]["matching"]["total"] for places in found]),
        ("Gaps of the other places that are shown", [place["gap"] for place in others]),
        ("Margins, the gap of the second best place", jq(program, feed, "places", query, *NUMBERS)),
    ):
        assert len(numbers) > 20
        names = [name for name in tables[caption] if name != "none"]
        expected = by_ranges([one for one in numbers if one is not None], names)
        assert sum(expected.values()) == sum(one is not None for one in numbers)
        if None in numbers:
            expected["none"] = numbers.count(None)
        assert tables[caption] == expected
    assert any(places[0]["rank"] > 1 for places in found)


def test_how_many_are_right(
    feed: Feed,
    data: Any,
    listed: dict[int, Any],
    shown: dict[int, Any],
    tmp_path: Path,
    capsys: pytest.CaptureFixture[str],
) -> None:
    """By this confidence each of `n` places that were found is the right one with a probability of 1 / (n + 0.6)."""
    found = [one for one in listed.values() if one and one["places"]]
    lines = [one["places"] for one in found if is_line(one["places"])]
    probable = [1 / (len(places) + OF_NONE) for places in lines]
    assert len(set(probable)) > 4 and len(found) > len(lines)
    right = sum(probable)
    off = 1.96 * sum(one * (1 - one) for one in probable) ** 0.5
    first = (
        f"about {right:.0f} of {len(lines)} likeliest places are right ({int(right - off)} to {int(right + off) + 1}), "
        "by the trials of sure.json"
    )
    second = "the two maps seem to differ by 0.8 (0.6 to 1.2), 1 as another vendor's"
    assert data["summary"][0] == f"{first[0].upper()}{first[1:]}."
    assert data["summary"][1].startswith(f"{second[0].upper()}{second[1:]}: sure.json says so by")
    bins = {f"{low / 10:g} to below {low / 10 + 0.1:g}": 0 for low in range(8, 0, -1)}
    expected = {"0.9 to 1": 0, **bins, "below 0.1": 0}
    for one in probable:
        expected[list(expected)[9 - int(10 * one)]] += 1
    table = tables_of(data)["Likeliest places by probability"]
    assert table == {**expected, "none": len(found) - len(lines)}
    assert list(table) == [*expected, "none"]
    of_shown = [one for one in shown.values() if one and one["places"]]
    back = sum(one["places"][0]["matching"]["turns_back"] for one in of_shown)
    cut_off = sum(one["cut"] for one in of_shown)
    assert back > 5 and cut_off > 1
    remarks = [
        f"turn back: {back} likeliest places",
        f"cut off: {cut_off} may have more places: give a greater --look",
    ]
    assert data["summary"][3:5] == [f"{line[0].upper()}{line[1:]}." for line in remarks]
    capsys.readouterr()
    report(feed, tmp_path / "page.html", *sure(feed), *NUMBERS, "--rows", 1)
    printed = capsys.readouterr().out.splitlines()
    assert printed[1] == first and printed[2].startswith(second) and printed[-2:] == remarks


def test_the_likeliest_place_counts(tmp_path: Path) -> None:
    """The roadworks' second place is 23.2 points likelier than the first one, as `test_view.py` works out: 696 thirtieths. By this confidence
    200 of them are a binary order: so its probability is 1 / (1 + 2 ** -3.48)."""
    folder = tmp_path / "map"
    folder.mkdir()
    for name in ("nodes.csv", "lines.csv"):
        (folder / name).write_bytes((TOP / "examples" / name).read_bytes())
    messages = tmp_path / "feed.tsv"
    messages.write_text("m3\tCwVGnSN2zhvHCgDX/tIzAw==\n")
    file = write_confidence(tmp_path / "sure.json", behind=ORDER // 200, none=-30 * ORDER)
    found = report(Feed(folder, messages), tmp_path / "page.html", "--confidence", file)
    assert found["summary"][0].startswith("About 1 of 1 likeliest place is right (0 to 1), ")
    tables = tables_of(found)
    assert nonzero(tables["Likeliest places by probability"]) == {"0.9 to 1": 1}
    (row,) = found["rows"]
    assert (row["total"], row["probability"], row["none_of_these"]) == (71, 0.918, 0.0)
    (gap,) = (
        name for name, count in tables["Gaps of the other places that are shown"].items() if count
    )
    assert gap == "5 to 9"


def test_why(feed: Feed, data: Any, program: Program) -> None:
    without = '.[] | .answer // empty | select(.verdict.word != "match")'
    lacking = f"{without} | .points[] | select(.candidates == 0)"
    tables = tables_of(data)

    def asked(query: str) -> Any:
        return jq(program, feed, "why", grouped(query))

    words = asked(f"{without} | .verdict.word")
    assert {"point", "leg", "crowded"} <= set(words)
    assert tables["By the first thing in the way"] == words
    first = asked(f'{without} | [.remedies[] | select(.matching) | .option][0] // "none"')
    named = {
        name.removeprefix("--"): count
        for name, count in nonzero(tables["By the first remedy"]).items()
    }
    assert named == first
    (points,) = asked(f'{lacking} | "all"').values()
    nearest, every = (
        table
        for caption, table in tables.items()
        if f"({points} points; a line may fail several conditions)" in caption
    )
    assert nearest == asked(f"{lacking} | .nearest[0].not[]")
    all_fail = asked(
        f'{lacking} | .nearest as $near | ["radius", "bearing", "class", "end"][] | select(. as $it | $near | all(.not | any(. == $it)))'
    )
    assert every == all_fail
    assert data["summary"][5].startswith(
        f"{points} points of references without a place have no candidate. At {nearest['radius']} of them"
    )
    assert sum(shape["kind"] == "lacking" for shape in data["shapes"]) == points


def test_rows(
    feed: Feed, data: Any, program: Program, listed: dict[int, Any], shown: dict[int, Any]
) -> None:
    """Each record has a row, what isn't unique comes first, and numbers are those of the answer's likeliest place."""
    asked = {one["record"]: one for one in jq(program, feed, "places", ".", *NUMBERS)}
    rows = data["rows"]
    assert sorted(row["record"] for row in rows) == sorted(asked)
    order = ["none", "refused", "ambiguous", "open", "unique"]
    keys = [(order.index(row["verdict"]), row["record"]) for row in rows]
    assert keys == sorted(keys)
    assert data["left_out"] == f"All {len(asked)} references."
    for row, scene in zip(rows, data["scenes"]):
        answer = asked[row["record"]]["answer"]
        assert row["key"] == f"{row['record'] - 1} {MARKUP}"
        if answer is None:
            fault = asked[row["record"]]["fault"]
            assert row["verdict"] == "refused" and row["reason"].startswith(fault)
            assert (scene is None) == (row["cause"] != "TooManyCandidates")
            continue
        assert row["verdict"] == answer["verdict"] == scene["verdict"]["word"]
        assert row["points"] == len(scene["points"])
        if not answer["places"]:
            assert row["cause"] in ("point", "leg", "chain") and row["reason"].endswith(".")
            continue
        places = listed[row["record"]]["places"]
        there = shown[row["record"]]["places"]
        first = there[0]["matching"]
        assert (row["total"], row["margin"]) == (first["total"], answer["margin"])
        entries = [entry for entry in scene["entries"] if entry["members"]]
        cursors = [place["matching"]["cursor"] for place in there]
        assert [entry["cursor"] for entry in entries] == cursors
        assert row.get("turns_back") == ("turns back" if first["turns_back"] else None)
        if not is_line(places):
            assert "probability" not in row and "none_of_these" not in row
            assert not any(entry["probability"] for entry in entries)
            continue
        length = sum(end - start for _, start, end in first["outer"]) / 10
        assert row["length"] == pytest.approx(length)
        whole = len(places) + OF_NONE
        assert row["probability"] == pytest.approx(1 / whole, abs=0.0006)
        assert row["none_of_these"] == pytest.approx(OF_NONE / whole, abs=0.0006)
    assert Counter(row["verdict"] for row in rows if "length" not in row)["unique"] > 0


def test_fewer_rows(feed: Feed, data: Any, tmp_path: Path) -> None:
    """All are counted, and each outcome has a share."""
    small = report(feed, tmp_path / "page.html", *sure(feed), *NUMBERS, "--rows", 40)
    assert small["sections"] == data["sections"] and small["summary"] == data["summary"]
    assert len(small["rows"]) == len(small["scenes"]) == 40
    whole = nonzero(tables_of(data)["References by verdict"])
    shown = Counter(row["verdict"] for row in small["rows"])
    assert set(shown) == set(whole) and shown["open"] == min(whole["open"], shown["unique"])
    assert small["left_out"].startswith(f"40 of {sum(whole.values())} references, drawn at random")
    for word, count in whole.items():
        assert f"{word} {shown[word]} of {count}" in small["left_out"]
    again = report(feed, tmp_path / "page.html", *sure(feed), *NUMBERS, "--rows", 40, "--force")
    assert again["rows"] == small["rows"]


def test_a_store_gives_the_same(feed: Feed, data: Any, tmp_path: Path) -> None:
    store = tmp_path / "map.gpkg"
    make_store_of_folder(feed.folder, store)
    found = report(Feed(store, feed.messages), tmp_path / "page.html", *sure(feed), *NUMBERS)
    for name in ("sections", "summary", "rows", "shapes"):
        assert found[name] == data[name], name
    lines = {line["id"]: line for line in data["lines"]}
    assert all(lines.get(line["id"], line) == line for line in found["lines"])
    for one, other in zip(found["scenes"], data["scenes"]):
        if one is not None:
            assert one["command"] == "" and other["command"].startswith("olr ")
            assert one | {"near": 0, "command": ""} == other | {"near": 0, "command": ""}


def test_real_streets(tmp_path: Path, capsys: pytest.CaptureFixture[str]) -> None:
    """The summary is the one that `match` prints, behind what is expected, and most references are unique."""
    words = ["import", "vector", STREETS, "--class", 5, "--form", 3, "--id", "ID"]
    assert run([*map(str, words), "--out", str(tmp_path / "map")]) == 0
    network = LineGraph(read_map(tmp_path / "map"))
    drawn = drawn_references(network, 60, random.Random(6), turning_back=False)
    messages = tmp_path / "feed.tsv"
    messages.write_text("".join(f"{at}\t{text_of(it)}\n" for at, (_, it) in enumerate(drawn)))
    capsys.readouterr()
    found = report(Feed(tmp_path / "map", messages), tmp_path / "page.html")
    summary = capsys.readouterr().out.splitlines()
    match = ["match", messages, "--map", tmp_path / "map", "--places", "--out", tmp_path / "it.csv"]
    assert run(list(map(str, [*match, *OF_PROGRAM]))) == 0
    assert [line for line in summary[1:] if "turn back" not in line] == (
        capsys.readouterr().out.splitlines()[1:]
    )
    assert summary[0] == f"{tmp_path / 'page.html'}: 60 rows of 60 references"
    assert tables_of(found)["References by verdict"]["unique"] > 40
    assert found["title"] == "feed.tsv on map"
    assert os.fspath(tmp_path) not in (tmp_path / "page.html").read_text(encoding="utf-8")


def test_texts_of_others_are_no_markup(feed: Feed, data: Any) -> None:
    """But in the data, where `<` is written otherwise."""
    text = (feed.folder.parent / "page.html").read_text(encoding="utf-8")
    assert data and MARKUP not in text and "evil" in text
    assert text.count("</script>") == 4
    assert " src=" not in text.split("<script")[0] and "url(" not in text.split("</style>")[0]


def test_other_tolerances_have_no_probabilities(
    feed: Feed, tmp_path: Path, capsys: pytest.CaptureFixture[str]
) -> None:
    found = report(feed, tmp_path / "page.html", "--radius", 90, "--rows", 20)
    assert all("probability" not in row for row in found["rows"])
    assert found["sections"][-1]["tables"] == []
    shipped = json.loads((TOP / "python/olr/confidence/shipped.json").read_text())
    note = f"No probabilities: radius is 90, not {shipped['tolerances']['radius']}; "
    assert found["sections"][-1]["texts"][0].startswith(note)
    assert found["summary"][0].startswith(note) and "references: " in found["summary"][1]
    printed = capsys.readouterr().out.splitlines()
    assert printed[-1].startswith(note.lower()) and "likeliest places are right" not in printed[1]
    words = ["report", feed.messages, "--map", feed.folder, "--out", tmp_path / "other.html"]
    words += [*OF_PROGRAM, "--radius", 90, *sure(feed)]
    assert run(list(map(str, words))) == 1
    assert "says nothing of such answers: radius is 90" in capsys.readouterr().err


def test_maps_that_no_feed_told(feed: Feed, tmp_path: Path) -> None:
    """The file that comes with the package is of none, and neither is one of one's own map alone: the page says how to make one."""
    own = write_confidence(tmp_path / "own.json", DIFFERS)
    shipped = json.loads((TOP / "python/olr/confidence/shipped.json").read_text())
    tolerances = [
        word for name, value in shipped["tolerances"].items() for word in (f"--{name}", value)
    ]
    of_shipped = Range(*(shipped["map_differs"][name] / 1000 for name in Range._fields))
    for words, name, differs in (
        (tolerances, "the confidence that comes with olr-tools", of_shipped),
        ((*OF_PROGRAM, "--confidence", own), "own.json", DIFFERS),
    ):
        out = tmp_path / "page.html"
        given = ["report", feed.messages, "--map", feed.folder, "--out", out, "--force", *words]
        assert run(list(map(str, [*given, "--rows", 20]))) == 0
        summary = data_of(out)["summary"]
        assert summary[0].endswith(f", by the trials of {name}.")
        assert summary[1] == (
            f"How different the two maps are isn't known from this feed: {name} is for maps that differ by "
            f"{differs.value:.1f} ({differs.low:.1f} to {differs.high:.1f}), 1 as another vendor's; "
            "make one for this feed by olr-tools calibrate --map DIR --for FEED."
        )
        assert any("probability" in row for row in data_of(out)["rows"])
        assert name in data_of(out)["sections"][-1]["texts"][0]


@pytest.mark.parametrize(
    ("words", "status", "shown"),
    [
        (["--out", "page.txt"], 1, "page.txt has no suffix that is known: name a file .html"),
        (["--out", "there.html"], 1, "there.html is there"),
        (["--out", "feed.html", "--force"], 1, "feed.html is one of the inputs"),
        (["--out", "page.html", "--rows", "0"], 2, "0 is not in the range x>=1"),
        (["--out", "page.html", "--radius", "0"], 1, "BadTolerance radius"),
        (["--out", "page.html", "--most", "101"], 1, "BadNumber most"),
        (["--out", "page.html", "--within", "-1"], 1, "BadNumber within"),
        (["--out", "page.html", "--tiles", "tiles"], 1, "tiles is no URL of tiles"),
        (
            ["--out", "page.html", "--confidence", "lines.csv"],
            1,
            "lines.csv is no confidence file",
        ),
        (["--out", "page.html", "--ref", "x"], 1, "leave out --ref and --key"),
    ],
)
def test_runs_that_fail(
    tmp_path: Path,
    monkeypatch: pytest.MonkeyPatch,
    capsys: pytest.CaptureFixture[str],
    words: list[str],
    status: int,
    shown: str,
) -> None:
    for name in ("nodes.csv", "lines.csv"):
        (tmp_path / name).write_bytes((TOP / "examples" / name).read_bytes())
    (tmp_path / "feed.html").write_text(f"m1\t{REFERENCE}\n")
    (tmp_path / "there.html").write_text("before")
    monkeypatch.chdir(tmp_path)
    before = sorted(os.listdir())
    assert run(["report", "feed.html", "--map", ".", *words]) == status
    error = capsys.readouterr().err
    assert shown in error and (status == 2 or error.count("\n") == 1)
    assert sorted(os.listdir()) == before and Path("there.html").read_text() == "before"


def test_memory_doesnt_grow_with_the_messages(feed: Feed, tmp_path: Path) -> None:
    """The greatest memory of a report on 300 and on 1,800 messages."""
    lines = feed.messages.read_text(encoding="utf-8").splitlines(keepends=True)
    peaks = []
    for count in (300, 1_800):
        messages = tmp_path / "messages.tsv"
        messages.write_text("".join(lines[at % len(lines)] for at in range(count)))
        words = ["report", messages, "--map", feed.folder, "--out", tmp_path / "page.html"]
        command = [str(TOP / "olr-tools"), *map(str, words), "--rows", "50", "--force"]
        process = subprocess.Popen(command, stdout=subprocess.DEVNULL)
        _, status, usage = os.wait4(process.pid, 0)
        process.returncode = os.waitstatus_to_exitcode(status)
        assert process.returncode == 0
        assert len(data_of(tmp_path / "page.html")["rows"]) == 50
        peaks.append(usage.ru_maxrss * 1024)
    print(f"peaks of {peaks[0] >> 20} and {peaks[1] >> 20} MiB", file=sys.stderr)
    assert peaks[1] < peaks[0] + MORE_BYTES


def test_a_feed_without_a_place(tmp_path: Path, capsys: pytest.CaptureFixture[str]) -> None:
    messages = tmp_path / "feed.jsonl"
    messages.write_text(json.dumps({"key": None, "ref": "no reference"}) + "\n")
    found = report(Feed(TOP / "examples", messages), tmp_path / "page.html", "--format", "jsonl")
    assert [section["title"] for section in found["sections"]] == ["Answers", "Probabilities"]
    assert found["shapes"] == found["lines"] == [] and found["scenes"] == [None]
    assert "refused, NotBase64: 1" in capsys.readouterr().out
