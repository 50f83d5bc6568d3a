"""Files of messages: formats, encodings, what isn't clear; the same records for `match`, `view`, `run` and `olr.read_messages`."""

import io
import json
import os
import pytest
import threading
import tracemalloc
from itertools import islice
from pathlib import Path
from typing import Any

import olr
from conftest import TOP, Program
from olr.errors import ToolError
from olr.messages.message import Reading
from olr.messages.reading import messages_of
from olr.running.records import read_records
from olr.tools import run

EXAMPLES = TOP / "examples"
ONE, TWO = "CwVF/yN2yRpnBAFUAAgbpwYBAf9kK0Fa", "CwVGnSN2zhvHCgDX"
RESERVED = "i" + ONE[1:]
"""With the bit of the first byte that the program passes over."""
LINES = f"m1\t{ONE}\n0012\t{TWO}\n"
MESSAGES = [("m1", ONE), ("0012", TWO)]

FORMATS: dict[str, tuple[str, dict[str, Any]]] = {
    "tab": (LINES, {}),
    "comma": (f"ref,key,more\n{ONE},m1,\n{TWO},0012,x\n", {}),
    "semicolon": (
        f'id;more; openlr\nm1;"a;\nb";{ONE}\n0012;;"{TWO}"\n',
        {"ref": "openlr", "key": "id"},
    ),
    "tabs": ("key\tref\n" + LINES, {}),
    "pipe": (f'more|"open, lr"|key\n1,5|{ONE}|m1\n2,5|{TWO}|0012\n', {"ref": "open, lr"}),
    "jsonl": (f'{{"ref":"{ONE}","key":"m1"}}\n{{"x":1,"key":"0012","ref":"{TWO}"}}\n', {}),
    "path": (
        f'{{"a":{{"id":"m1"}},"b.c":"{ONE}"}}\n{{"a":{{"id":"0012"}},"b":{{"c":"{TWO}"}}}}\n',
        {"ref": "b.c", "key": "a.id"},
    ),
    "array": (json.dumps([{"key": key, "ref": ref} for key, ref in MESSAGES], indent=2), {}),
}
"""Files of the same two messages, with the options that they need."""
NAMELESS = ("N/A", "n/a", "#N/A", "null", "None", "NaN", "-", "???", "0", "12", "--- ", "__")
"""What stands in place of a reference."""
ENCODINGS = ("utf-8", "utf-8-sig", "utf-16", "big")


def encoded(text: str, encoding: str) -> bytes:
    """A text in an encoding, UTF-16 with its mark."""
    return ("\ufeff" + text).encode("utf-16-be") if encoding == "big" else text.encode(encoding)


@pytest.fixture
def file(tmp_path: Path) -> Path:
    """A file without a suffix: none matters."""
    return tmp_path / "messages"


@pytest.fixture(autouse=True)
def environment(program: Program, monkeypatch: pytest.MonkeyPatch) -> None:
    """The commands find the program by the environment."""
    monkeypatch.setenv("OLR_PROGRAM", os.fspath(program.path))


def give(monkeypatch: pytest.MonkeyPatch, data: bytes) -> None:
    """Standard input has these bytes."""
    monkeypatch.setattr("sys.stdin", io.TextIOWrapper(io.BytesIO(data)))


@pytest.mark.parametrize("name", FORMATS)
def test_formats_and_encodings(file: Path, name: str, monkeypatch: pytest.MonkeyPatch) -> None:
    text, options = FORMATS[name]
    for encoding in ENCODINGS:
        for end in ("\n", "\r\n"):
            data = encoded(text.replace("\n", end), encoding)
            file.write_bytes(data)
            assert list(olr.read_messages(file, **options)) == MESSAGES
            give(monkeypatch, data)
            assert list(olr.read_messages("-", **options)) == MESSAGES
            records = [
                (record.number, record.data) for record in read_records(file, Reading(**options))
            ]
            assert records == [(1, f"m1\t{ONE}".encode()), (2, f"0012\t{TWO}".encode())]


@pytest.mark.parametrize(
    ("text", "options", "expected"),
    [
        # Empty records are left out: lines are counted, and the records of a table and an array.
        (f"\n{ONE}\n\n\tx\n", {}, [(2, None, ONE), (4, "", "x")]),
        (f"\n\nref\n\n{ONE}\n\n\nx\n", {}, [(1, None, ONE), (2, None, "x")]),
        (f'{{"ref":"{ONE}"}}\n\n{{}}\n', {}, [(1, None, ONE), (3, None, "")]),
        # Cells that aren't there are empty, and so is what is no member.
        (f"ref;key\n{ONE}\n;2;\n", {}, [(1, "", ONE), (2, "2", "")]),
        (
            f'[{{"ref":"{ONE}","key":7}},{{"ref":null,"key":null}}]',
            {},
            [(1, "7", ONE), (2, None, "")],
        ),
        # What isn't a text is its JSON. Blanks and line ends are no base64, and one record each.
        (
            f'[{{"ref":" {ONE}\\n"}},{{"ref":["a\\tb",1],"key":true}}]',
            {},
            [(1, None, ONE), (2, "true", '["a\\tb", 1]')],
        ),
        (f'key,ref\n1," {ONE}\t"\n2,"a\n\tb"\n', {}, [(1, "1", ONE), (2, "2", "a  b")]),
        # A record is no header, whatever its key is.
        (f"ref\t{ONE}\n", {}, [(1, "ref", ONE)]),
        (f"[1]\t{ONE}\n", {}, [(1, "[1]", ONE)]),
        # A header that begins like a reference is one if its column was named.
        (f"Exit_name\n{ONE}\n", {"ref": "Exit_name"}, [(1, None, ONE)]),
        (f"ref\tExit_name\n{ONE}\t7\n", {"key": "Exit_name"}, [(1, "7", ONE)]),
        # A first record that is refused isn't taken for something else.
        (f"1\t{ONE[:-1]}\n2\t{ONE}\n", {}, [(1, "1", ONE[:-1]), (2, "2", ONE)]),
        (f"1\t{TWO}\n", {}, [(1, "1", TWO)]),
        (f"1\t\n2\t{ONE}\n", {}, [(1, "1", ""), (2, "2", ONE)]),
        (f"1\t{RESERVED}\n", {}, [(1, "1", RESERVED)]),
        # So is what can't be the name of a column.
        *((f"1\t{text}\n2\t{ONE}\n", {}, [(1, "1", text), (2, "2", ONE)]) for text in NAMELESS),
        *((f"{text}\n{ONE}\n", {}, [(1, None, text), (2, None, ONE)]) for text in NAMELESS),
        # Spreadsheets for old systems end lines by a carriage return.
        (f"key,ref\rm1,{ONE}\r0012,{TWO}\r", {}, [(1, "m1", ONE), (2, "0012", TWO)]),
        # By --format nothing is looked for.
        ("key\tref\n", {"format": "tab"}, [(1, "key", "ref")]),
        ("key,ref\n1,x\n", {"format": "csv"}, [(1, "1", "x")]),
        ('{"ref":"x"}', {"format": "jsonl"}, [(1, None, "x")]),
        ("", {}, []),
        ("\n\r\n", {}, []),
        ("[]", {}, []),
        ("", {"format": "csv", "ref": "x"}, []),
    ],
)
def test_records(
    file: Path, text: str, options: dict[str, Any], expected: list[tuple[int, Any, str]]
) -> None:
    file.write_text(text, encoding="utf-8", newline="")
    assert [message[:3] for message in messages_of(file, Reading(**options))] == expected


@pytest.mark.parametrize(
    ("text", "options", "said"),
    [
        # A header line taken for a record, or no record at all.
        (
            f"key\topenlr\nm1\t{ONE}\n",
            {},
            "has no column ref: name it by --ref: key, openlr; or say --format tab",
        ),
        (
            f"openlr\n{ONE}\n",
            {},
            "has no column ref: name it by --ref: openlr; or say --format tab",
        ),
        (
            f"id;location\n1;{ONE}\n",
            {},
            "has no column ref: name it by --ref: id, location; or say --format tab",
        ),
        (f"id,openlr\n1,{ONE}\n", {"ref": "x"}, "has no column x: name it by --ref: id, openlr"),
        (f"ref,id\n{ONE},1\n", {"key": "nr"}, "has no column nr: name one by --key: ref, id"),
        (
            f"m1,{ONE}\nm2,{ONE}\n",
            {},
            "has no header: write one above its first line, such as key,ref",
        ),
        (f"{ONE}\tHigh Street\n", {}, "has no header"),
        (f"{ONE},m1\n", {}, "has no header"),
        # No reference among the first hundred.
        (
            "ref;openlr\n1001;x\n1002;y\n",
            {},
            "in its first 2 records, but '1001': name another column by --ref, or say --format csv",
        ),
        (f"1\t{ONE[:-1]}\n" * 100 + f"1\t{ONE}\n", {}, "in its first 100 records"),
        (
            "1\tN/A\n" * 100 + f"1\t{ONE}\n",
            {},
            "in its first 100 records, but 'N/A': if it has columns, name one by --ref, or say --format tab",
        ),
        # Several cells aren't a reference that is missing.
        (f"1\t-\t{ONE}\n", {}, "has no header: write one above its first line"),
        ("1001;5\n", {}, "has no column ref: name it by --ref: 1001, 5"),
        # Base64 for URLs.
        (
            f"1\t{ONE[:-1]}\n2\tCwVF_yN2yRpnBAFUAAgbpwYBAf9kK0Fa\n",
            {},
            "has base64 for URLs in its first 2 records, as 'CwVF_yN2yRpnBAFUAAgbpwYBAf9kK0Fa': say --base64 url, or --format tab if",
        ),
        ("ref\nCwVF-yN2yhpnBAFdAAsaFg\n", {}, "base64 for URLs in its first record, as 'CwVF-yN2y"),
        # Lines that a carriage return alone ends.
        (
            LINES.replace("\n", "\r"),
            {},
            "has carriage returns alone in its first line: if lines end",
        ),
        (
            f'{{"ref":"{ONE}"}}\r{{"ref":"{ONE}"}}\r',
            {},
            "has carriage returns alone in its first line",
        ),
        (
            '{"ref":{"openlr":1}}\n',
            {},
            "in its first record, but '{\"openlr\": 1}': name another member by --ref, or say --format jsonl",
        ),
        ("{}\n{}\n", {}, "line 1 has no member ref: name it by --ref"),
        ("{}\n{}\n", {"format": "jsonl"}, "line 1 has no member ref: name it by --ref"),
        (f'[{{"ref":"{ONE}"}}]', {"key": "id"}, "element 1 has no member id: name it by --key"),
        # Names without columns.
        (LINES, {"ref": "openlr"}, "has no names of columns or members: leave out --ref and --key"),
        (
            LINES,
            {"key": "id", "format": "tab"},
            "has no names of columns or members: leave out --ref and --key",
        ),
        # Tables that aren't clear.
        (f"ref,a;ref\n{ONE},1\n", {}, "has a column ref by commas and by semicolons"),
        (f"ref,ref\n{ONE},1\n", {}, "has 2 columns ref: name one by --ref"),
        (f"name,key,ref\nA 6, exit,m1,{ONE}\n", {}, "line 2 has 4 cells, and the header 3"),
        (f'ref\n\n{ONE}\n"{ONE}\n', {}, "line 4 isn't understood: unexpected end of data"),
        # What isn't JSON.
        ('{\n"ref":1}', {}, "has no reference in its first record, but '1': name another member"),
        (
            '{\n"ref":1}',
            {"format": "jsonl"},
            "line 1 isn't JSON, of one object on each line: Expecting property name",
        ),
        ("[{}", {}, "isn't JSON: parse error: premature EOF in line 1"),
        ("[" * 100_000, {}, "has more than 200 arrays and objects within each other"),
        ("[1]", {}, "element 1 is no object with members"),
        ("{}", {"format": "json"}, "element 1 has no member ref: name it by --ref"),
        ('{"ref":"\\ud800"}', {}, "line 1 has half a character"),
    ],
)
def test_what_isnt_clear(file: Path, text: str, options: dict[str, Any], said: str) -> None:
    file.write_text(text, encoding="utf-8", newline="")
    with pytest.raises(ToolError) as raised:
        list(olr.read_messages(file, **options))
    assert str(raised.value).startswith(str(file)) and said in str(raised.value)
    assert "\n" not in str(raised.value)


@pytest.mark.parametrize(
    ("data", "said"),
    [
        (b"\xe9;ref\n", "isn't UTF-8: convert it, such as by iconv"),
        (b"\xff\n", "isn't UTF-8: convert it"),
        (LINES.encode("utf-16-le"), "isn't UTF-8: convert it, such as by iconv -f UTF-16LE"),
        (f"m1\t{ONE}\n".encode() + b"\xe9\tx\n", "messages: line 2 isn't UTF-8: convert it"),
        (b"key,ref\n1," + ONE.encode() + b"\n\xe9,\n", "messages: line 3 isn't UTF-8: convert it"),
        (f'{{"ref":"{ONE}"}}\n\n'.encode() + b'"\xe9"\n', "line 3 isn't UTF-8: convert it"),
        (f'[{{"ref":"{ONE}"}},\n'.encode() + b'"\xe9"]', "line 2 isn't UTF-8: convert it"),
        (b"\xff\xfea", "isn't UTF-16, as its first bytes say: convert it"),
        (None, "can't be read: No such file"),
    ],
)
def test_files_that_cant_be_read(file: Path, data: bytes | None, said: str) -> None:
    if data is not None:
        file.write_bytes(data)
    with pytest.raises(ToolError, match=said):
        list(olr.read_messages(file))


def test_a_wide_cell(file: Path) -> None:
    """Geometries in WKT have more than the 131,072 letters that Python's csv takes."""
    file.write_text(f'shape,ref\n"{"1 2," * 100_000}",{ONE}\n')
    assert list(olr.read_messages(file)) == [(None, ONE)]


def test_a_line_too_long_of_carriage_returns(file: Path) -> None:
    file.write_text(f"{ONE}\r" * 3000, newline="")
    with pytest.raises(ToolError, match="has carriage returns alone in its first line"):
        list(olr.read_messages(file))


def test_the_hundredth_record_decides(file: Path) -> None:
    file.write_text(f"1\t{ONE[:-1]}\n" * 99 + LINES)
    assert len(list(olr.read_messages(file))) == 101
    file.write_text("{}\n" * 99 + f'{{"ref":"{ONE}"}}\n')
    assert len(list(olr.read_messages(file))) == 100


@pytest.mark.parametrize("name", ["tab", "comma", "jsonl"])
def test_messages_are_read_as_they_come(file: Path, name: str) -> None:
    """They are there before the input has ended: what writes them waits for it."""
    os.mkfifo(file)
    taken = threading.Event()
    seen: list[bool] = []

    def write() -> None:
        with file.open("wb", buffering=0) as stream:
            stream.write(FORMATS[name][0].encode())
            seen.append(taken.wait(20))

    writer = threading.Thread(target=write)
    writer.start()
    messages = olr.read_messages(file)
    assert list(islice(messages, 2)) == MESSAGES
    taken.set()
    writer.join()
    assert seen == [True] and list(messages) == []


@pytest.mark.parametrize("name", ["tab", "comma", "jsonl"])
def test_one_message_is_held(file: Path, name: str) -> None:
    """300 messages of 30 kB take no more than the pieces that are read at once."""
    more = "x" * 30_000
    texts = {
        "tab": [f"{more}\t{ONE}\n"],
        "comma": ["more,ref\n", f"{more},{ONE}\n"],
        "jsonl": [json.dumps({"ref": ONE, "more": more}) + "\n"],
    }
    *head, row = texts[name]
    file.write_text("".join(head) + row * 300)
    tracemalloc.start()
    try:
        assert sum(1 for _ in olr.read_messages(file)) == 300
        assert tracemalloc.get_traced_memory()[1] < 3_000_000
    finally:
        tracemalloc.stop()


def test_records_without_keys_and_texts(file: Path) -> None:
    """Each record has a line of `olr batch`, and a key that would be another one is refused."""
    file.write_text(f'[{{"ref":"{ONE}"}},{{}},{{"ref":"a\\tb"}},{{"key":"k"}}]')
    data = [record.data for record in read_records(file, Reading())]
    assert data == [ONE.encode(), b" ", b"a b", b"k\t"]
    for key in ("a\\tb", "a\\nb"):
        file.write_text(f'[{{"ref":"{ONE}"}},{{"ref":"{ONE}","key":"{key}"}}]')
        with pytest.raises(ToolError, match="key of record 2 has a tab or a line end.* by --key"):
            list(read_records(file, Reading()))


@pytest.mark.parametrize("name", FORMATS)
def test_match(
    name: str,
    tmp_path: Path,
    monkeypatch: pytest.MonkeyPatch,
    capfd: pytest.CaptureFixture[str],
) -> None:
    text, options = FORMATS[name]
    words = [word for option, value in options.items() for word in (f"--{option}", value)]
    give(monkeypatch, encoded(text, "utf-16"))
    out = tmp_path / "out.geojson"
    assert run(["match", "-", "--map", str(EXAMPLES), "--out", str(out), *words]) == 0
    assert capfd.readouterr().out.splitlines()[1:3] == ["matched: 1", "refused, BadLength: 1"]
    rows = [feature["properties"] for feature in json.loads(out.read_text())["features"]]
    assert [(row["record"], row["key"]) for row in rows] == [(1, "m1"), (2, "0012")]


@pytest.mark.parametrize(
    ("words", "said"),
    [
        (["0012"], "BadLength 12"),
        (["--record", "2"], "BadLength 12"),
        (["m1"], None),
        (["m9"], "has no record with the key m9"),
        (["--record", "9"], "has no record 9"),
        (["twice"], "has the key twice in the records 3 and 4: choose one by --record"),
        (["m1", "--ref", "openlr"], "has no column openlr: name it by --ref: key, ref"),
        (["--record", "1", "--key", "id"], "has no column id: name one by --key: key, ref"),
    ],
)
def test_view(
    words: list[str],
    said: str | None,
    file: Path,
    capfd: pytest.CaptureFixture[str],
) -> None:
    file.write_text("key;ref\n" + LINES.replace("\t", ";") + f"twice;{ONE}\n" * 2)
    page = file.with_suffix(".html")
    given = ["view", *words, "--messages", str(file), "--map", str(EXAMPLES)]
    status = run([*given, "--out", str(page)])
    ended = capfd.readouterr()
    if said is None:
        assert (status, ended.err) == (0, "") and ended.out.startswith(f"{page}: unique\n")
        assert ONE in page.read_text()
    else:
        assert (status, ended.err.count("\n")) == (1, 1) and said in ended.err
        assert not page.exists()


@pytest.mark.parametrize(
    "words",
    [
        [],
        ["--messages", "x"],
        [ONE, "--messages", "x", "--record", "1"],
        [ONE, "--record", "1"],
        [ONE, "--ref", "x"],
    ],
)
def test_views_of_nothing(words: list[str], capfd: pytest.CaptureFixture[str]) -> None:
    assert run(["view", *words, "--map", "none", "--out", "none"]) == 2
    assert "--messages" in capfd.readouterr().err


def test_the_client_takes_them(program: Program, file: Path) -> None:
    file.write_text(FORMATS["semicolon"][0])
    messages = list(olr.read_messages(file, ref="openlr", key="id"))
    with olr.Map.of_folder(EXAMPLES, program=program.path) as town:
        answers = list(town.matches(reference for _, reference in messages))
    assert [isinstance(answer, olr.Fault) for answer in answers] == [False, True]
    with pytest.raises(
        ValueError, match="no format: give tab, csv, jsonl, jsonseq, json, xml, gpkg, shp, xlsx"
    ):
        list(olr.read_messages(file, format="yaml"))  # type: ignore[arg-type]
