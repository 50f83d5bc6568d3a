"""Lines of `olr batch`: what is one."""

import pytest

from olr.model.objects import RawLine, raw_line

END = b',"key":"k","record":7}'


@pytest.mark.parametrize(
    "line, expected",
    [
        (b'{"answer":{"a":1},"fault":null' + END, RawLine(b'{"a":1}', None, "k", 7)),
        (b'{"answer":null,"fault":"BadLength 3"' + END, RawLine(b"null", "BadLength 3", "k", 7)),
        (b'{"answer":null,"fault":"X","key":null,"record":1}', RawLine(b"null", "X", None, 1)),
    ],
)
def test_what_is_a_line(line: bytes, expected: RawLine) -> None:
    assert raw_line(line) == expected


@pytest.mark.parametrize(
    "line",
    [
        b'{"answer":{"a":1},"fault":"X"' + END,
        b'{"answer":null,"fault":null' + END,
        b'{"answer":null,"fault":7' + END,
        b'{"answer":null,"fault":"X","key":7,"record":1}',
        b'{"answer":null,"fault":"X","key":"k","record":"1"}',
        b'{"answer":null,"fault":"X","key":"k"}',
        b'{"answer":null,"fault":"X"',
        b'{"other":null,"fault":"X"' + END,
        b'{"answer":null}',
        b"",
    ],
)
def test_what_is_no_line(line: bytes) -> None:
    """It has an answer or a fault, and not both."""
    with pytest.raises(ValueError):
        raw_line(line)
