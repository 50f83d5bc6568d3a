"""Lists on the page that answers by itself: what its scripts read is what `POST /messages` answers."""

import base64
import gzip
import io
import json
import pytest
import random
import re
import zipfile
from collections import Counter
from collections.abc import Callable, Iterator
from itertools import islice
from typing import Any

from alone import Scripts
from browser import Browser
from conftest import TOP
from olr.errors import ToolError
from olr.messages import markup
from olr.messages.message import BASE64, Format, Reading
from olr.messages.reading import messages_in
from olr.serving.listing import MOST_ROWS, NAME, line_of
from olr.serving.limits import Limits
from olr.serving.lists import FORMATS_OF_LISTS, most_bytes
from test_messages_json import FEATURES, PLACED, SHAPES, lines
from xml_records import feed

ONE, TWO = "CwVF/yN2yRpnBAFUAAgbpwYBAf9kK0Fa", "CwVF+yN2yhpnBAFdAAsaFg=="
BLOCK = 4096
"""Bytes that a process of the server reads first."""
CASES_AT_ONCE = 200
FEEDS = [
    *(file for file in (TOP / "examples/feeds").iterdir() if file.suffix != ".md"),
    *(TOP / "python/tests/feeds_xml").iterdir(),
    TOP / "examples/messages.tsv",
]
DECLARED = ["latin1", "iso-8859-1", "us-ascii", "UTF-8", "utf-16", "windows-1252", "cp1252"]
DECLARED += ["koi8-r", "iso-8859-15", "latin2", "big5", "shift_jis", "unknown"]

Case = tuple[bytes, Reading]
Rows = list[dict[str, Any]] | str
"""Rows, or why a list isn't understood."""


def expected(case: Case, said: Callable[[], str]) -> Rows:
    """What the server answers. `said` gives what was said on standard error since it was called last."""
    data, reading = case
    markup.say.cache_clear()
    said()
    stream = io.BufferedReader(io.BytesIO(data), BLOCK)  # type: ignore[arg-type]
    try:
        messages = islice(messages_in(stream, reading, NAME), MOST_ROWS + 1)
        return [json.loads(line_of(message)) for message in messages]
    except ToolError as error:
        return f"{said()}{error}"


def examples() -> Iterator[bytes]:
    """Lists of all formats."""
    for file in sorted(FEEDS):
        yield file.read_bytes()
    for value, _, _ in SHAPES.values():
        yield json.dumps(value).encode()
        yield json.dumps(value, indent=1).encode()
    yield from (lines(*PLACED).encode(), lines(*PLACED, begin="\x1e").encode())
    yield lines(*FEATURES).encode()
    yield f"key,ref\nm1,{ONE}\nm2,{TWO}\n".encode()
    yield f'ref;key;x\r\n{ONE};"a;b""c\nd";1\r\n\r\n{TWO};q\r\n'.encode()
    yield f"id|ref\n1|{ONE.replace('/', '_')}\n".encode()
    yield f"m1\t{ONE}\n\n{TWO}\r\nm3\tbroken\n".encode()
    yield f"\ufeffkey\tref\nm1\t{ONE}\n".encode()
    yield f"key,ref\nä,{ONE}\n".encode("utf-16")
    yield f"key;ref\nä,{ONE};é\n".encode("latin1")
    numbers = [1.5, 10**25, 1e20, 1e-7, 1e16, -0.0, True, None, [1, {"a": [2.0]}], "x\ty"]
    yield json.dumps([{"key": it, "ref": [ONE, TWO]} for it in numbers]).encode()
    yield json.dumps([{"key": "k", "ref": it} for it in numbers]).encode()
    texts = ["", "\n\n", "n/a\n", "12\n", "PAR1", "SQLite format 3\0", "\0\0'\n", "hello\n"]
    texts += ["a,b,c\n1,2,3\n", "ref,ref\n", f"ref;a,ref\n{ONE}", f"{ONE},{TWO}\n", "a\rb"]
    texts += ["<a/>", "<a>", "<a><b></a>", "<!DOCTYPE a><a/>", '<a b="1" b="2"/>', "<a>&x;</a>"]
    yield from (text.encode() for text in texts)
    keys = "<q><LocationID>2</LocationID></q>"
    records = [f"<r>{keys * count}<openlrBinary>{ONE}</openlrBinary></r>" for count in (1, 2, 0)]
    yield f"<d>{''.join(records)}</d>".encode()
    yield b"<a/>\n\xc3"
    yield b"\xff\xfe\x00\xd8"


def readings() -> Iterator[Reading]:
    """What may be said of a list."""
    yield Reading()
    yield Reading(base64="url")
    for format in FORMATS_OF_LISTS:
        yield Reading(format)
    paths = ["results[].location.olr", "features[].properties.olr", "refs[]", "olr"]
    for ref in [None, "ref", "openlrBinary", "@id", *paths, ""]:
        for key in [None, "id", "@id", "LocationID", "situationRecordVersion", ""]:
            if (ref, key) != (None, None):
                yield Reading(None, ref, key)


SIGNS = "\" < > & / { } [ ] , : 0 1 - . e A ' \\ ; | = # x ! -- <!-- --> <![CDATA[ ]]> <? ?> &lt; &#65; &#0; &x;"
MARKS = [sign.encode() for sign in SIGNS.split()]
MARKS += [b"\n", b"\r", b"\t", b" ", b"\0", b"\xff", b"\xc3", b"\xe2\x82\xac", b"\x1e", b"null"]
MARKS += [b"true", b"\\u00e9", b"\\ud83d", b"encoding='latin1'", b"openlr", b"FRC3", b"ref", b"key"]


def damaged(draws: random.Random, data: bytes) -> bytes:
    """A list with some mistakes."""
    made = bytearray(data)
    for _ in range(draws.choice([0, 1, 1, 1, 2])):
        at, kind = draws.randint(0, len(made)), draws.randrange(4)
        if kind == 0:
            del made[at:]
        elif kind == 1:
            del made[at : at + draws.choice([1, 1, 2, 5, 20])]
        else:
            made[at : at + draws.choice([0, 0, 1, 2])] = draws.choice(MARKS)
    return bytes(made)


def is_read(case: Case) -> bool:
    """Whether a list has messages."""
    data, reading = case
    stream = io.BufferedReader(io.BytesIO(data), BLOCK)  # type: ignore[arg-type]
    try:
        return any(True for _ in messages_in(stream, reading, NAME))
    except ToolError:
        return False


def drawn(seed: int, count: int) -> Iterator[Case]:
    """Lists with mistakes, and what is said of them: one of three is understood."""
    draws = random.Random(seed)
    known = [data for data in examples() if not data.startswith(b"\xff\xfe")]
    pairs = [(data, reading) for data in known for reading in readings()]
    read = list(filter(is_read, draws.sample(pairs, len(pairs) // 6)))
    formats: list[Format | None] = [None, None, None, *FORMATS_OF_LISTS]
    refs = [None, None, None, "ref", "olr", "openlrBinary", "@id", "results[].location.olr"]
    keys = [None, None, None, "key", "id", "@id", "LocationID", "longitude"]
    for _ in range(count):
        kind = draws.randrange(4)
        data, reading = draws.choice(read) if kind else (draws.choice(known), Reading())
        if kind == 1:
            data, reading = feed(draws), Reading(key=draws.choice(keys))
        if kind == 0:
            reading = Reading(draws.choice(formats), draws.choice(refs), draws.choice(keys))
        yield damaged(draws, data), reading


def many() -> Iterator[Case]:
    """Lists of many records, with mistakes behind some of them, and ones that pass a limit."""
    one = ONE.encode()
    records = [b"k%d\t%s\n" % (number, one) for number in range(12_000)]
    rows = [b"k%d,%s\r\n" % (number, one) for number in range(12_000)]
    objects = [b'{"key":%d,"ref":"%s"}' % (number, one) for number in range(12_000)]
    situation = b'<situationRecord id="s%d"><openlrBinary>%s</openlrBinary></situationRecord>\n'
    situations = [situation % (number, one) for number in range(12_000)]
    for count in (2000, 12_000):
        yield b"".join([*records[:count], b"\xff\n"]), Reading()
        yield b"".join([b"key,ref\r\n", *rows[:count], b'"']), Reading()
        yield b"[%s,\n]" % b",\n".join(objects[:count]), Reading()
        yield b"<d2LogicalModel>%s</d2>" % b"".join(situations[:count]), Reading()
    two = b'{"id":%d,"a":{"b":"%s","c":"%s"}}'
    yield b"[%s]" % b",\n".join(two % (n, one, one) for n in range(500)), Reading()
    yield b"x" * 70_000 + b"\n" + one, Reading()
    yield b"m\t" + b"A" * 70_000 + b"\r\nm2\t" + one, Reading()
    for size in (200_000, 300_000):
        yield b'{"ref":"%s","x":"%s"}\n' % (one, b"y" * size), Reading()
    for depth in (200, 201, 300):
        yield b"[" * depth + b"]" * depth, Reading("json")
    for format in ("json", "jsonl"):
        yield b'{"ref":1%s}' % (b"0" * 5000), Reading(format)  # type: ignore[arg-type]
    for depth in (500, 501):
        yield b"<a>" * depth + b" " * 70_000, Reading("xml")
    yield b"<a>" * 40_000, Reading("xml")
    yield b"<a><!--%s--></a>" % (b"x\n" * 2_500_000), Reading("xml")
    yield b"<a><ref>%s</ref></a>" % (b"x\n" * 700_000), Reading(ref="ref")
    names = b"".join(b"<b%d/>\n" % number for number in range(70_000))
    yield b"<a>%s</a>" % names, Reading(ref="ref")
    openlr = b"<openlrBinary>%s</openlrBinary>\n" % one * 12_000
    yield b'<d><situationRecord id="1"><k>7</k>%s</situationRecord></d>' % openlr, Reading(key="k")
    yield b"<d><OpenLR><XMLLocationReference>%s</XMLLocationReference></OpenLR></d>" % openlr, Reading()
    rows_of_x = b"<r><x>%s</x></r>\n" % one * 12_000
    yield b"<d><q>%s</q></d>" % rows_of_x, Reading(ref="x", key="k")
    for encoding in DECLARED:
        for id in ("a", "\xe4\x81\xa4"):
            text = (
                f'<?xml version="1.0" encoding="{encoding}"?>\n<f><r id="{id}"><x>{ONE}</x></r></f>'
            )
            yield text.encode("latin1"), Reading(ref="x")


def hostile() -> Iterator[Case]:
    """Lists that are made to take long."""
    yield b" " * 500_000 + b"x\n", Reading("csv")
    yield b"a" + b" " * 500_000 + b"x,ref\n", Reading()
    yield b'{"ref":"' + b" " * 500_000 + b'x"}\n', Reading()
    yield b'"' * 300_000, Reading()
    yield b"ref\n" + b'"' * 300_000, Reading()
    yield b'{"a":"%s"}' % (b"\\u0041" * 50_000), Reading()
    yield b"[\n" + b"{}\n," * 30_000 + b"{}]", Reading()
    yield b"<a>%s</a>" % (b"&amp;" * 50_000), Reading(ref="a")
    yield b'<a b="%s"/>' % (b"&amp;" * 50_000), Reading(ref="@b")
    attributes = b" ".join(b'c%d="1"' % number for number in range(10_000))
    yield b"<a><b %s/></a>" % attributes, Reading(ref="b")
    for begin in (b"<", b"<a ", b"<?", b"<a>&", b"<!DOCTYPE ", b"<a>]", b'<a b="', b"<a></"):
        yield begin + b"a" * 500_000, Reading(ref="x")
    yield b"<a>&#%s;</a>" % (b"1" * 100_000), Reading(ref="a")
    inner = b"<x>%s</x>" % ONE.encode() * 5000
    yield b"<a>" * 200 + inner + b"</a>" * 200, Reading(ref="x", key="u")


@pytest.fixture(scope="module")
def scripts(browser: Browser) -> Browser:
    """The browser with the scripts that read lists."""
    Scripts(browser)
    browser.value(
        """function tried([data, format, ref, key, base64]) {
          const bytes = Uint8Array.from(atob(data), (letter) => letter.charCodeAt(0));
          try {
            return readList(bytes, { format, ref, key, base64 });
          } catch (error) {
            return error instanceof ToolError ? error.message : String(error.stack);
          }
        }
        async function triedPacked([data]) {
          try {
            return readList(await unpackedList(Uint8Array.from(atob(data), (letter) => letter.charCodeAt(0))));
          } catch (error) {
            return error instanceof ToolError ? error.message : String(error.stack);
          }
        } null"""
    )
    return browser


def given(case: Case) -> list[str | None]:
    """A case as the script takes it."""
    data, (format, ref, key, _, base, _) = case
    return [base64.b64encode(data).decode(), format, ref, key, base]


def compare(
    scripts: Browser, cases: list[Case], capsys: pytest.CaptureFixture[str]
) -> Counter[str]:
    """Reads lists by the scripts and by Python, and counts what became of them."""
    counts: Counter[str] = Counter()
    for begin in range(0, len(cases), CASES_AT_ONCE):
        some = cases[begin : begin + CASES_AT_ONCE]
        found = scripts.value(f"{json.dumps(list(map(given, some)))}.map(tried)")
        for case, rows in zip(some, found):
            wanted = expected(case, lambda: capsys.readouterr().err)
            assert rows == wanted, (case[0][:300], case[1])
            counts["refused" if isinstance(rows, str) else "read" if rows else "empty"] += 1
    return counts


def test_examples(scripts: Browser, capsys: pytest.CaptureFixture[str]) -> None:
    cases = [(data, reading) for data in examples() for reading in readings()]
    counts = compare(scripts, cases, capsys)
    assert min(counts["read"], counts["refused"]) > 100, counts


def test_damaged_lists(scripts: Browser, capsys: pytest.CaptureFixture[str]) -> None:
    counts = compare(scripts, list(drawn(1, 500)), capsys)
    assert min(counts["read"], counts["refused"]) > 100, counts


def test_long_lists(scripts: Browser, capsys: pytest.CaptureFixture[str]) -> None:
    """Rows up to the most, where a mistake isn't met any more, and each limit."""
    compare(scripts, list(many()), capsys)


def test_hostile_lists(scripts: Browser, capsys: pytest.CaptureFixture[str]) -> None:
    compare(scripts, list(hostile()), capsys)


def test_values_within_each_other(scripts: Browser) -> None:
    """The server's process has room for so many: a process with less of it would refuse some."""

    def found(reference: str, other: str = "1") -> Any:
        data = f'{{"ref":{reference},"x":{other}}}'.encode()
        return scripts.value(f"tried({json.dumps(given((data, Reading('jsonl'))))})")

    assert found("[" * 494 + "]" * 494)[0]["record"] == 1
    assert found("[" * 495 + "]" * 495) == "the list: line 1 has too many values within each other"
    assert found('"q"', "[" * 983 + "]" * 983)[0]["reference"] == "q"
    assert "maximum recursion depth exceeded" in found('"q"', "[" * 984 + "]" * 984)


def zipped(
    files: dict[str, str], method: int = zipfile.ZIP_DEFLATED, comment: bytes = b""
) -> bytes:
    """A zip of files."""
    made = io.BytesIO()
    with zipfile.ZipFile(made, "w", method) as archive:
        archive.comment = comment
        for name, text in files.items():
            archive.writestr(name, text)
    return made.getvalue()


LIST = f"key,ref\nm1,{ONE}\n"
PACKED = {
    "gzip": gzip.compress(LIST.encode()),
    "UTF-16": gzip.compress(LIST.encode("utf-16")),
    "twice": gzip.compress(gzip.compress(LIST.encode())),
    "zip": zipped({"a.csv": LIST}),
    "stored": zipped({"a.csv": LIST}, zipfile.ZIP_STORED, b"a comment"),
    "one of three": zipped({"a.csv": LIST, "folder/": "", "__MACOSX/a.csv": "x"}),
    "two": zipped({"a.csv": LIST, "b.csv": LIST}),
    "a workbook": zipped({"xl/workbook.xml": ""}),
    "bzip2": zipped({"a.csv": LIST}, zipfile.ZIP_BZIP2),
    "plain": LIST.encode(),
}
DAMAGED = {
    "gzip": gzip.compress(LIST.encode())[:-9],
    "zip": zipped({"a.csv": LIST})[:-30],
    "beginning": b"PK\3\4",
    "no directory": b"PK\3\4" + b"x" * 100,
}
"""By names, since what is packed has the time in it, and all processes that run tests have to find the same ones."""


@pytest.mark.parametrize("data", PACKED.values(), ids=PACKED)
def test_packed_lists(scripts: Browser, capsys: pytest.CaptureFixture[str], data: bytes) -> None:
    case = data, Reading()
    found = scripts.value(f"triedPacked({json.dumps(given(case))})")
    assert found == expected(case, lambda: capsys.readouterr().err)


@pytest.mark.parametrize("data", DAMAGED.values(), ids=DAMAGED)
def test_damaged_packed_lists(scripts: Browser, data: bytes) -> None:
    """A browser says in its own words what is wrong."""
    found = scripts.value(f"triedPacked({json.dumps(given((data, Reading())))})")
    assert re.fullmatch("the list can't be unpacked: .*: copy the file again", found)


def test_refusals(scripts: Browser) -> None:
    """What the server refuses with these words, too."""

    def said(call: str) -> Any:
        return scripts.value(
            f"(() => {{ try {{ {call}; }} catch (error) {{ return error.message; }} }})()"
        )

    assert (
        said("readList(new Uint8Array(0), { format: 'xlsx' })")
        == f"format is one of {', '.join(FORMATS_OF_LISTS)}"
    )
    assert (
        said("readList(new Uint8Array(0), { base64: 'x' })")
        == f"base64 is one of {', '.join(BASE64)}"
    )
    most = most_bytes(Limits())
    assert said(f"requireListSize({most})") is None
    assert (
        said(f"requireListSize({most + 1})")
        == f"a list has {most:,} bytes at most here: olr-tools match reads any file"
    )


def test_what_becomes_too_much(scripts: Browser) -> None:
    data = gzip.compress(bytes(130 << 20), 1)
    found = scripts.value(f"triedPacked({json.dumps(given((data, Reading())))})")
    assert found.startswith("the list becomes more than 128 MiB: ")


@pytest.mark.parametrize("first", ["1f8b08", "425a68", "504b0304", "fd377a585a00", "28b52ffd"])
def test_other_packed_lists_are_refused(scripts: Browser, first: str) -> None:
    found = scripts.value(f"tried({json.dumps(given((bytes.fromhex(first), Reading())))})")
    assert re.fullmatch("the list is packed by [a-z0-9]+: unpack it first", found)
