"""What is said to `olr answer` and what it says, without a process: bytes in and out, and why there is no answer."""

import pytest
from pathlib import Path

from olr.asking.exchange import AnswerTooLarge, Asked, Exchange, how_ended, record_about
from olr.errors import MapRefused, ProgramEnded, ProgramNotFound
from olr.model.objects import RawLine

PROGRAM = Path("/there/olr")
LINES = (
    b'{"answer":{"matchings":[],"next":null},"fault":null,"key":"1","record":1}\n'
    b'{"answer":null,"fault":"BadLength 12","key":"2","record":2}\n'
    b'{"answer":{"text":"a\\"},"},"fault":null,"key":"3","record":3}\n'
)
READ = [
    RawLine(b'{"matchings":[],"next":null}', None, "1", 1),
    RawLine(b"null", "BadLength 12", "2", 2),
    RawLine(b'{"text":"a\\"},"}', None, "3", 3),
]


def asked(texts: int, most: int = 1000) -> Exchange:
    """An exchange in which so many records were asked."""
    exchange = Exchange(PROGRAM, most)
    exchange.ask([b"show -- CwVF"] * texts)
    return exchange


def test_records_are_numbered() -> None:
    exchange = Exchange(PROGRAM)
    assert exchange.ask([b"CwVF", b""]) == b"1\tCwVF\n2\t\n"
    assert exchange.ask([]) == b""
    assert exchange.ask(iter([b"x"])) == b"3\tx\n"
    assert (exchange.asked, exchange.answered) == (3, 0)


@pytest.mark.parametrize("size", [1, 7, 64, LINES.index(b"\n"), len(LINES)])
def test_lines_in_pieces(size: int) -> None:
    exchange, found = asked(3), list[RawLine]()
    for begin in range(0, len(LINES), size):
        found += exchange.receive(LINES[begin : begin + size])
        assert exchange.answered == len(found)
    assert found == READ


@pytest.mark.parametrize(
    "line",
    [
        b'{"answer":{},"fault":null,"key":"2","record":1}',
        b'{"answer":{},"fault":null,"key":"1","record":2}',
        b'{"answer":{},"fault":null,"key":null,"record":1}',
        b'{"answer":{},"fault":"Empty","key":"1","record":1}',
        b'{"answer":null,"fault":null,"key":"1","record":1}',
        b'{"answer":[],"fault":null,"key":"1","record":1}',
        b'{"answer":null,"fault":7,"key":"1","record":1}',
        b'{"answer":null,"fault":Empty,"key":"1","record":1}',
        b'{"answer":{},"fault":null,"key":"1","record":1',
        b'{"other":{},"fault":null,"key":"1","record":1}',
        b"",
        b"olr: WriteFailed",
    ],
)
def test_another_line(line: bytes) -> None:
    exchange = asked(2)
    with pytest.raises(ProgramEnded, match="wrote what is no answer to what it was asked: is it"):
        list(exchange.receive(line + b"\n"))
    assert exchange.answered == 0


def test_words_that_the_program_doesnt_know() -> None:
    line = b'{"answer":null,"fault":"Words no --new","key":"1","record":1}\n'
    with pytest.raises(ProgramEnded, match=r"of another version than this package\? \(no --new\)"):
        list(asked(1).receive(line))


def test_good_lines_come_before_a_bad_one() -> None:
    lines = asked(2).receive(LINES.splitlines(keepends=True)[0] + b"oh\n")
    assert next(lines) == READ[0]
    with pytest.raises(ProgramEnded):
        next(lines)


def test_a_line_that_nobody_asked_for() -> None:
    exchange = asked(1)
    first, second, _ = LINES.splitlines(keepends=True)
    assert list(exchange.receive(first)) == READ[:1]
    with pytest.raises(ProgramEnded, match="it isn't the line of record 2, which was asked"):
        list(exchange.receive(second))


def test_a_line_that_is_too_long() -> None:
    """It is told before it ends; a line of just so many bytes is one."""
    first = LINES.splitlines(keepends=True)[0]
    exchange = asked(3, most=len(first) - 1)
    assert list(exchange.receive(first[:-1])) == []
    assert list(exchange.receive(first[-1:])) == READ[:1]
    assert list(exchange.receive(b"x" * (len(first) - 1))) == []
    with pytest.raises(AnswerTooLarge, match=f"more than {len(first) - 1} bytes"):
        list(exchange.receive(b"x"))


@pytest.mark.parametrize(
    ("status", "said", "answered", "error", "words"),
    [
        (1, "olr: Field nodes 1 2\n", 0, MapRefused, "olr refuses the map: Field nodes 1 2"),
        (1, "olr: NoMemory", 0, ProgramEnded, "with status 1 after 0 answers: olr: NoMemory"),
        (1, "olr: Field nodes 1", 3, ProgramEnded, "status 1 after 3 answers: olr: Field nodes 1"),
        (1, "", 2, ProgramEnded, "ended with status 1 after 2 answers: ask again"),
        (2, "no answer", 0, ProgramEnded, "of another version than this package? (no answer)"),
        (2, "", 1, ProgramEnded, "ended with status 2 after 1 answers: ask again"),
        (
            1,
            "setpriv: failed to execute /there/olr: Exec format error",
            0,
            ProgramNotFound,
            "/there/olr can't be started: Exec format error",
        ),
        (1, "oh\nno", 0, ProgramEnded, "after 0 answers: oh: ask again"),
    ],
)
def test_why_it_ended(
    status: int, said: str, answered: int, error: type[Exception], words: str
) -> None:
    exchange = asked(3)
    assert list(exchange.receive(b"".join(LINES.splitlines(keepends=True)[:answered]))) == (
        READ[:answered]
    )
    found = exchange.why_ended(status, said.encode())
    assert isinstance(found, error) and words in str(found)


def test_how_it_ended() -> None:
    assert [how_ended(-9), how_ended(3)] == ["was ended by signal 9", "ended with status 3"]


def test_the_text_of_a_record() -> None:
    """The reference is one word, whatever it has."""
    question = Asked("places", ("--most", "3", "--radius", "75"))
    assert question.about(b" -x -- y ") == b"places --most 3 --radius 75 --  -x -- y "
    assert Asked("match").about(b"", "--after", "8:1.1") == b"match --after 8:1.1 -- "
    assert record_about(["show"], b"\xc3\xa9") == b"show -- \xc3\xa9"
    assert question.numbers() == {"most": 3, "radius": 75}
    assert [Asked("why", ("--nearest", n)).at_once(256) for n in ("0", "64", "70", "9999")] == (
        [256, 256, 234, 16]
    )
