"""JSON in any shape: where its references are, what is said where it isn't clear, what is kept, and how much memory it takes."""

import gzip
import io
import json
import math
import os
import pytest
import threading
import tracemalloc
from collections.abc import Callable
from pathlib import Path
from typing import Any

from conftest import TOP, Program
from olr.errors import ToolError
from olr.messages import looking, walking
from olr.messages.message import Reading
from olr.messages.reading import messages_in, messages_of
from olr.tools import run
from test_extras import run_without
from test_messages import ONE, TWO, give

MESSAGES = [(1, "m1", ONE), (2, "0012", TWO)]
PLACED = [
    {"id": "m1", "speed": 50, "location": {"olr": ONE, "name": "A"}},
    {"id": "0012", "speed": 3.5, "location": {"olr": TWO}},
]
FEATURES: list[dict[str, Any]] = [
    {"type": "Feature", "id": "m1", "geometry": None, "properties": {"olr": ONE, "speed": 50}},
    {
        "geometry": {"coordinates": [1, 2.5]},
        "id": "0012",
        "properties": {"olr": TWO},
        "type": "Feature",
    },
]
COLLECTION: dict[str, Any] = {"type": "FeatureCollection", "features": FEATURES}


def lines(*values: Any, begin: str = "") -> str:
    return "".join(f"{begin}{json.dumps(value)}\n" for value in values)


SHAPES: dict[str, tuple[Any, str, str]] = {
    "array in an object": ({"time": 1, "results": PLACED, "x": {}}, "results[].location.olr", "id"),
    "array deep in objects": ({"a": {"b": {"c": PLACED}}}, "a.b.c[].location.olr", "id"),
    "arrays in an array": (
        {"all": [{"these": PLACED[:1]}, {}, {"these": []}, {"these": PLACED[1:]}]},
        "all[].these[].location.olr",
        "id",
    ),
    "an array alone": (PLACED, "[].location.olr", "id"),
    "arrays of arrays": ([[PLACED[:1]], [[], PLACED[1:]]], "[][][].location.olr", "id"),
    "numbers as names": ({"1": {"2": PLACED}}, "1.2[].location.olr", "id"),
    "names of ijson": ({"item": {"item": PLACED}}, "item.item[].location.olr", "id"),
    "dots in names": ({"a.b": PLACED}, "a.b[].location.olr", "id"),
    "features": (COLLECTION, "features[].properties.olr", "id"),
    "references alone": ({"refs": [ONE, TWO]}, "refs[]", ""),
}
"""Values with the same two references, and the paths of these and of their keys."""


@pytest.fixture
def file(tmp_path: Path) -> Path:
    return tmp_path / "messages"


def records(file: Path, *words: Any, **options: Any) -> list[tuple[int, str | None, str]]:
    return [message[:3] for message in messages_of(file, Reading(*words, **options))]


def refused(file: Path, **options: Any) -> str:
    """What is said of a file, on one line, behind its name."""
    with pytest.raises(ToolError) as raised:
        list(messages_of(file, Reading(**options)))
    said = str(raised.value)
    assert "\n" not in said and said.startswith(str(file))
    return said.removeprefix(str(file)).lstrip(" :")


@pytest.mark.parametrize("name", SHAPES)
def test_shapes(
    file: Path, name: str, monkeypatch: pytest.MonkeyPatch, capfd: pytest.CaptureFixture[str]
) -> None:
    """By their path, and by looking for it, which says it; indented or not, in UTF-16 too."""
    value, ref, key = SHAPES[name]
    expected: list[Any] = [(at, own if key else None, text) for at, own, text in MESSAGES]
    for text in (
        json.dumps(value),
        json.dumps(value, indent=2),
        json.dumps(value, indent="\t") * 2,
    ):
        twice = [*expected, *((at + 2, key, ref) for at, key, ref in expected)]
        for encoding in ("utf-8-sig", "utf-16"):
            file.write_bytes(text.encode(encoding))
            found = twice if text.startswith("{\n\t") or text.startswith("[\n\t") else expected
            assert records(file, ref=ref, key=key or None) == found
        assert capfd.readouterr().err == ""
        for _ in range(2):
            assert records(file, key=key or None) == found
        assert capfd.readouterr().err == f"olr-tools: {file}: read with --ref {quoted(ref)}\n"
        give(monkeypatch, text.encode())
        assert records(Path("-"), key=key or None) == found
        assert (
            capfd.readouterr().err == f"olr-tools: standard input: read with --ref {quoted(ref)}\n"
        )
        assert len(list(messages_in(io.BytesIO(text.encode()), Reading(), "x"))) == len(found)


def quoted(path: str) -> str:
    return f"'{path}'" if "[" in path else path


@pytest.mark.parametrize("begin", ["", "\x1e"])
def test_lines_and_sequences(file: Path, begin: str) -> None:
    file.write_text(lines(*PLACED, begin=begin))
    assert records(file, ref="location.olr", key="id") == MESSAGES
    assert records(file, key="id") == MESSAGES
    file.write_text(lines(*FEATURES, begin=begin))
    for ref in ("olr", "properties.olr", None):
        assert records(file, ref=ref) == MESSAGES
    file.write_text(lines({"these": PLACED}, {}, {"these": PLACED}, begin=begin))
    assert [number for number, *_ in records(file)] == [1, 2, 3, 4]
    file.write_text(lines({"x": 1}, *FEATURES, {"id": 7}, begin=begin))
    assert [number for number, *_ in records(file)] == [1, 2, 3, 4]


def test_sequences(file: Path) -> None:
    """Records may have many lines, and begin more than once."""
    text = "\x1e" + "\n\x1e\x1e".join(json.dumps(one, indent=1) for one in PLACED)
    file.write_text(text)
    assert records(file, ref="location.olr", key="id") == MESSAGES
    file.write_text(f"{text}\x1e" + '{"location":')
    assert refused(file, ref="location.olr").startswith("record 3 isn't JSON: Expecting value")
    file.write_bytes(text.encode() + b"\x1e\xff")
    assert "record 3 isn't UTF-8" in refused(file, ref="location.olr")


def test_collections(file: Path) -> None:
    """A member of the properties by its name alone, and the id as the key, unless there is a key."""
    for expected in ("m1", "k"):
        first = FEATURES[0] if expected == "m1" else {**FEATURES[0], "key": "k"}
        features = [first, FEATURES[1]]
        for indent in (None, 1):
            file.write_text(json.dumps({**COLLECTION, "features": features}, indent=indent))
            assert records(file, ref="olr") == [(1, expected, ONE), MESSAGES[1]]
    file.write_text(json.dumps(COLLECTION).replace("olr", "ref"))
    assert records(file) == MESSAGES
    assert records(file, key="speed") == [(1, "50", ONE), (2, None, TWO)]
    file.write_text(json.dumps({"type": "FeatureCollection", "features": []}))
    assert records(file, ref="olr") == records(file) == []


@pytest.mark.parametrize(
    ("value", "ref", "expected"),
    [
        # A list of references has a record for each of them, and each counts.
        (
            [{"key": 1, "refs": [ONE, TWO]}, {"key": 2, "refs": []}, {"key": 3, "refs": [ONE]}],
            "[].refs",
            [(1, "1", ONE), (2, "1", TWO), (3, "2", ""), (4, "3", ONE)],
        ),
        ([{"key": 1, "refs": [ONE, TWO]}], "[].refs[]", [(1, "1", ONE), (2, "1", TWO)]),
        ([[ONE, TWO], [TWO]], "[][]", [(1, None, ONE), (2, None, TWO), (3, None, TWO)]),
        # What has no reference keeps its number.
        (
            {"a": [{}, {"b": None}, {"b": ONE}]},
            "a[].b",
            [(1, None, ""), (2, None, ""), (3, None, ONE)],
        ),
        ({"a": []}, "a[].b", []),
        ([], "[].b", []),
        ({"a": [{"c": []}]}, "a[].c[].b", []),
        # A name with a dot is before a path; arrays of that name are left out where they are none.
        ([{"b": {"c": TWO}, "b.c": ONE}], "b.c", [(1, None, ONE)]),
        ({"a": [{"c": 1}, {"c": [{"b": ONE}]}]}, "a[].c[].b", [(1, None, ONE)]),
        # Numbers have their JSON, whatever their size.
        (
            [{"b": ONE, "key": 12345678901234567890123}, {"b": ONE, "key": 1.50}],
            "b",
            [(1, "12345678901234567890123", ONE), (2, "1.5", ONE)],
        ),
    ],
)
def test_records(file: Path, value: Any, ref: str, expected: list[Any]) -> None:
    for indent in (None, 1):
        file.write_text(json.dumps(value, indent=indent))
        assert records(file, ref=ref) == expected


def test_names_that_repeat(file: Path) -> None:
    """Of an object the last one counts; all arrays of a name are read."""
    text = f'{{"a":[{{"b":"x","b":"{ONE}"}}],\n"a":[{{"b":"{TWO}"}}]}}'
    file.write_text(text)
    assert records(file, ref="a[].b") == [(1, None, ONE), (2, None, TWO)]


@pytest.mark.parametrize(
    ("text", "options", "said"),
    [
        (
            lines({"a": [{"x": ONE, "y": TWO}, {"x": ONE}]}),
            {},
            "has references in several members: choose one: --ref 'a[].x' (2), --ref 'a[].y' (1)",
        ),
        ('{\n"a": []}', {"ref": "b[].c"}, "has no b[]: say by --ref where references are"),
        ('{\n"a": {"b": 1}}', {"ref": "a[].b"}, "has no a[]: say by --ref where"),
        ('{\n"a": [{"b": 1}]}', {"ref": "a[].c"}, "element 1 has no member c: name it by --ref"),
        ('{\n"a": [1]}', {"ref": "a[].c"}, "element 1 is no object with members"),
        ('{\n"a": [{"b": 1}]}', {"ref": "a[].b"}, "has no reference in its first record, but '1'"),
        ('{\n"a": 1}', {}, "element 1 has no member ref: name it by --ref"),
        (
            '{\n"a": [{"b": 1}]}',
            {"ref": "a[].b", "key": "k"},
            "element 1 has no member k: name it by --key",
        ),
        (f'{{\n"a": [{{"b": "{ONE}"}}\n}}', {"ref": "a[].b"}, "isn't JSON: parse error: "),
        (
            '{\n"a": [NaN]',
            {"ref": "a[].b"},
            "isn't JSON: lexical error: invalid char in json text in lines 1 to 2",
        ),
        ('{\n"a": ' + "9" * 5000, {"ref": "a[].b"}, "has a number of more than 4,300 digits"),
        (
            "[9e" + "9" * 30 + "]",
            {"ref": "a[].b"},
            "isn't JSON: a number has too many digits in line 1",
        ),
        (
            '{\n"a":' * 300,
            {"ref": "a[].b"},
            "has more than 200 arrays and objects within each other",
        ),
        ('{\n"a":' * 300, {"ref": "b"}, "has more than 200 arrays and objects within each other"),
        ("[" * 300, {}, "has more than 200 arrays and objects within each other"),
        (f'{{"ref":"{ONE}","k":"\\ud800"}}\n', {"keep": ("all",)}, "line 1 has half a character"),
    ],
)
def test_what_isnt_clear(file: Path, text: str, options: dict[str, Any], said: str) -> None:
    file.write_text(text)
    assert said in refused(file, **options)


def test_digits_in_two_pieces(file: Path) -> None:
    """A number that Python doesn't read would end the process."""
    for size in (walking.PIECE_BYTES - 2, walking.PIECE_BYTES - 4000):
        file.write_text("[" + " " * size + "1" * 4301 + "]")
        assert refused(file, ref="x") == "has a number of more than 4,300 digits"
    file.write_text("[{" + f'"ref":"{ONE}","key":' + "1" * 4300 + "}]")
    assert records(file) == [(1, "1" * 4300, ONE)]


def test_lines_of_what_isnt_utf_8(file: Path) -> None:
    file.write_bytes(b'{\n"a": [\n{"b": "\xff"}]}')
    assert refused(file, ref="a[].b").startswith("line 3 isn't UTF-8")


def test_the_usual_member_is_taken(file: Path, capfd: pytest.CaptureFixture[str]) -> None:
    """Where references are in `ref`, others aren't looked for, and nothing is said."""
    file.write_text(json.dumps([{"x": TWO}, {"ref": ONE}], indent=1))
    assert records(file) == [(1, None, ""), (2, None, ONE)]
    file.write_text(lines({"x": TWO, "ref": None}, {"x": TWO, "ref": ONE}))
    assert records(file) == [(1, None, ""), (2, None, ONE)]
    assert capfd.readouterr().err == ""
    file.write_text(lines({"x": TWO, "ref": None}, {"x": ONE}))
    assert records(file) == [(1, None, TWO), (2, None, ONE)]


def test_all_of_a_file_is_looked_through(
    file: Path, monkeypatch: pytest.MonkeyPatch, capfd: pytest.CaptureFixture[str]
) -> None:
    """And the first bytes of a stream, which is read from its beginning then."""
    monkeypatch.setattr(looking, "MOST_BYTES", 1000)
    value = {"a": [{"b": ONE}] * 100, "more": "x" * (1 << 18), "c": [{"d": TWO}]}
    file.write_text(json.dumps(value))
    assert "--ref 'a[].b' (100), --ref 'c[].d' (1)" in refused(file)
    with file.open("rb") as stream:
        found = list(messages_in(stream, Reading(), "x"))
    assert len(found) == 100 and capfd.readouterr().err == ""


def test_keys_as_names_are_not_counted_for_ever(file: Path) -> None:
    file.write_text(json.dumps({f"m{number}": {"b": ONE} for number in range(1000)}))
    assert refused(file).count("--ref") == looking.MOST_PATHS + 1


KEPT: list[tuple[str, dict[str, Any], list[dict[str, Any]]]] = [
    (
        json.dumps({"results": PLACED}),
        {
            "ref": "results[].location.olr",
            "key": "id",
            "keep": ("speed", "location.name", "results[].id"),
        },
        [
            {"speed": 50, "location.name": "A", "results[].id": "m1"},
            {"speed": 3.5, "results[].id": "0012"},
        ],
    ),
    (
        json.dumps({"results": PLACED}, indent=1),
        {"ref": "results[].location.olr", "key": "id", "keep": ("all",)},
        [{"speed": 50, "location": {"name": "A"}}, {"speed": 3.5, "location": {}}],
    ),
    (json.dumps(COLLECTION), {"ref": "olr", "keep": ("all",)}, [{"speed": 50}, {}]),
    (lines(*FEATURES), {"keep": ("speed",)}, [{"speed": 50}, {}]),
    (lines({"ref": ONE, "n": None}), {"keep": ("n", "m")}, [{"n": None}]),
    (
        f'[{{"ref":"{ONE}","a":[1,2.5,null,true,"x"],"b":{{"c":1e3}}}}]',
        {"keep": ("all",)},
        [{"a": [1, 2.5, None, True, "x"], "b": {"c": 1000.0}}],
    ),
    (f"ref;a;key;b\n{ONE};1;k;\n", {"keep": ("all",)}, [{"a": "1", "b": ""}]),
    (f"ref;a;;key;\n{ONE};1;2;k;3\n", {"keep": ("all",)}, [{"a": "1"}]),
    (f"ref;a;key;b\n{ONE};1;k\n", {"keep": ("b", "key")}, [{"b": "", "key": "k"}]),
    (f"ref;a\n{ONE};1\n", {}, [{}]),
]


@pytest.mark.parametrize(("text", "options", "expected"), KEPT)
def test_kept(file: Path, text: str, options: dict[str, Any], expected: list[Any]) -> None:
    file.write_text(text)
    found = [dict(message.kept) for message in messages_of(file, Reading(**options))]
    assert found == expected
    for one, other in zip(found, expected):
        assert [(key, type(one[key])) for key in one] == [(key, type(other[key])) for key in other]


def test_a_column_that_isnt_there(file: Path) -> None:
    file.write_text(f"ref;a\n{ONE};1\n")
    assert refused(file, keep=("b",)) == "has no column b: name one by --keep: ref, a"


def test_base64_for_urls(file: Path) -> None:
    of_urls = "CwVF-yN2yhpnBAFdAAsaFg"
    for text in (f"m1\t{of_urls}\n", f"ref\n{of_urls}\n", lines({"ref": of_urls})):
        file.write_text(text)
        assert [one[2] for one in records(file, base64="url")] == ["CwVF+yN2yhpnBAFdAAsaFg=="]
        assert "has base64 for URLs" in refused(file)
    file.write_text(f"{ONE}\n\n x \n")
    assert [one[2] for one in records(file, base64="url")] == [ONE, "x==="]


def test_infinite_numbers(file: Path) -> None:
    file.write_text(f'[{{"ref":"{ONE}","a":1e400}}]')
    assert [message.kept for message in messages_of(file, Reading(keep=("a",)))] == [
        {"a": math.inf}
    ]


def test_elements_as_they_come(file: Path) -> None:
    """They are there before their array has ended: what writes them waits for it."""
    os.mkfifo(file)
    taken = threading.Event()
    seen: list[bool] = []

    def write() -> None:
        with file.open("wb", buffering=0) as stream:
            stream.write(f'{{"a":[\n{{"ref":"{ONE}"}},\n'.encode())
            seen.append(taken.wait(20))
            stream.write(b"{}]}")

    writer = threading.Thread(target=write)
    writer.start()
    found = messages_of(file, Reading(ref="a[].ref"))
    assert next(found)[:3] == (1, None, ONE)
    taken.set()
    writer.join()
    assert seen == [True] and len(list(found)) == 1


@pytest.mark.parametrize("options", [{}, {"ref": "a[].b.ref"}])
@pytest.mark.parametrize("pack", [bytes, gzip.compress])
def test_memory(file: Path, options: dict[str, Any], pack: Callable[[bytes], bytes]) -> None:
    """8 MB of elements take no more than the pieces that are read at once."""
    one = {"b": {"ref": ONE}, "more": [1.5, 2.5], "text": "x" * 10_000}
    file.write_bytes(pack(json.dumps({"a": [one] * 800}).encode()))
    list(messages_of(file, Reading(ref="a[].b.ref", format="json")))
    tracemalloc.start()
    try:
        assert sum(1 for _ in messages_of(file, Reading(**options))) == 800
        assert tracemalloc.get_traced_memory()[1] < 4_500_000
    finally:
        tracemalloc.stop()


def test_an_element_that_is_too_large(file: Path, monkeypatch: pytest.MonkeyPatch) -> None:
    monkeypatch.setattr(walking, "MOST_BYTES", 1 << 18)
    value = {"a": [{"b": ONE, "c": "x" * 1000}] * 1000, "more": "x" * (1 << 20)}
    file.write_text(json.dumps(value, indent=1))
    assert len(records(file)) == 1000
    assert refused(file, ref="b") == (
        "has an element of more than 0 MiB: say by --ref where its records are, such as records[].ref"
    )


def test_json_without_its_module(file: Path) -> None:
    """Lines with the usual member need none."""
    for text, said in (
        (
            json.dumps([{"ref": ONE}]),
            "reading JSON needs the module ijson: on Debian run olr-tools",
        ),
        (lines({"ref": ONE}), "1"),
    ):
        file.write_text(text)
        ended = run_without(
            "top not in (*sys.stdlib_module_names, 'olr')",
            """
import olr
try:
    print(len(list(olr.read_messages(sys.argv[2]))))
except olr.ToolError as error:
    print(error)
""",
            file,
        )
        assert ended.stdout.startswith(said) and ended.stderr == ""


def test_match(
    file: Path, program: Program, monkeypatch: pytest.MonkeyPatch, capfd: pytest.CaptureFixture[str]
) -> None:
    """The path is said once, though the file is read more than once."""
    monkeypatch.setenv("OLR_PROGRAM", os.fspath(program.path))
    file.write_text(json.dumps({"results": PLACED}, indent=1))
    out = file.with_suffix(".geojson")
    words = ["--map", str(TOP / "examples"), "--out", str(out), "--key", "id"]
    assert run(["match", str(file), *words]) == 0
    ended = capfd.readouterr()
    assert ended.err == f"olr-tools: {file}: read with --ref 'results[].location.olr'\n"
    rows = [feature["properties"] for feature in json.loads(out.read_text())["features"]]
    assert [(row["record"], row["key"]) for row in rows] == [(1, "m1"), (2, "0012")]
