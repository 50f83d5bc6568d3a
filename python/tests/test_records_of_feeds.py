"""The records of a feed: how bytes that come in pieces are split, and what each record says by itself. That lines are those of the program
itself `test_run_patience.py` sees."""

import json
import pytest
from collections.abc import Iterable

from olr.asking.records import LONG_RECORD, MOST_RECORD_BYTES, Record, Splitter

LONG = b"x" * MOST_RECORD_BYTES


def split(pieces: Iterable[bytes]) -> list[Record]:
    """The records of pieces."""
    splitter = Splitter()
    found = [record for piece in pieces for record in splitter.receive(piece)]
    return found + splitter.end()


@pytest.mark.parametrize("size", [1, 2, 3, 100])
def test_records_in_pieces(size: int) -> None:
    """Empty ones are counted, a carriage return before a line feed goes, and others stay."""
    feed = b"a\tb\n\n\r\nc\r\r\n\td\n e"
    found = split(feed[begin : begin + size] for begin in range(0, len(feed), size))
    assert found == [
        Record(1, b"a\tb"),
        Record(4, b"c\r"),
        Record(5, b"\td"),
        Record(6, b" e"),
    ]
    assert split([feed, b"\n"]) == found and split([feed, b"\r"]) == found


@pytest.mark.parametrize("end", [b"", b"\r"])
@pytest.mark.parametrize(
    "cut", [1, MOST_RECORD_BYTES - 1, MOST_RECORD_BYTES, MOST_RECORD_BYTES + 1]
)
def test_long_records(end: bytes, cut: int) -> None:
    """The longest one is kept, whether or not a carriage return is behind it; one that is longer stands for all such."""
    for data, kept in ((LONG, LONG), (LONG + b"y", LONG_RECORD), (LONG * 3, LONG_RECORD)):
        feed = data + end + b"\nz\n"
        assert split([feed[:cut], feed[cut:]]) == [Record(1, kept), Record(2, b"z")]
        assert split([data[:cut], data[cut:], end]) == [Record(1, kept)]


@pytest.mark.parametrize(
    ("data", "fault", "text", "key"),
    [
        (b"k\tCwVF", None, b"CwVF", "k"),
        (b"CwVF", None, b"CwVF", None),
        (b"k\t \ta", None, b"a", "k"),
        (b"\tCwVF\r", None, b"CwVF", ""),
        (b"\xff\tCwVF", "NotText", b"", None),
        (LONG_RECORD, "LongRecord", b"", None),
        (LONG, None, b"A" * 345, None),
        (b"k\t" + b"A" * 344, None, b"A" * 344, "k"),
        (b"k\t" + b"B" * 345, None, b"A" * 345, "k"),
        (b"k\t\x00", None, b"!", "k"),
    ],
)
def test_what_a_record_says(data: bytes, fault: str | None, text: bytes, key: str | None) -> None:
    record = Record(7, data)
    assert (record.fault(), record.text(), record.key()) == (fault, text, key)
    line = json.loads(record.line(b'{"a":1}', None))
    answer = None if fault else {"a": 1}
    assert line == {"answer": answer, "fault": fault, "key": key, "record": 7}


def test_a_fault_of_the_program() -> None:
    line = Record(3, b'"\xc3\xa9\tx').line(b"null", "NotBase64")
    assert line == b'{"answer":null,"fault":"NotBase64","key":"\\"\xc3\xa9","record":3}\n'


@pytest.mark.parametrize(
    "key",
    ["", "7", "A_1 b.c:d/e-f", "x" * 999, "x" * 1000, 'a"b', "a\\b", "a\x7f", "é", "a\x01", "<"],
)
def test_keys_in_lines(key: str) -> None:
    """As `json` writes them, with nothing escaped that needn't be."""
    data = f"{key}\tCw+/=".encode()
    about = {"answer": {"a": 1}, "fault": None, "key": key, "record": 12}
    line = json.dumps(about, ensure_ascii=False, separators=(",", ":")).encode() + b"\n"
    assert Record(12, data).line(b'{"a":1}', None) == line
