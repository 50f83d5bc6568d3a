"""Questions and references by hand: numbers, cursors, texts of records, and what is read late."""

import numpy as np
import pytest

from conftest import REFERENCE
from olr.model.answers import ReferencePoint
from olr.model.fault import Fault
from olr.model.late import Late
from olr.model.questions import ALL, cursor_of, number_words, record_text
from olr.model.reference import bytes_of, read_reference
from olr.trials.encoder import text_of

LONGEST = 344
"""Letters of a reference at most (docs/specification/reference.md)."""


@pytest.mark.parametrize(
    "text, record",
    [
        (f" \t{REFERENCE}\r\n", REFERENCE.encode()),
        ("a\nb\0c", b"a!b!c"),
        ("x" * LONGEST, b"x" * LONGEST),
        (" " + "x" * LONGEST + "\n", b"x" * LONGEST),
        ("x" * (LONGEST + 1), b"A" * (LONGEST + 1)),
        ("\n" * 400 + "x", b"x"),
        ("é" * (LONGEST // 2), "é".encode() * (LONGEST // 2)),
        ("é" * (LONGEST // 2) + "x", b"A" * (LONGEST + 1)),
    ],
    ids=range(8),
)
def test_texts_of_records(text: str, record: bytes) -> None:
    """A text is one record, whatever it has: what ends a record, or text, is no base64, as what stands for it isn't."""
    assert record_text(text) == record


@pytest.mark.parametrize("name", ALL)
def test_ranges_of_numbers(name: str) -> None:
    """Each has its least and its greatest value, also as one of numpy, and not one more."""
    least, greatest = ALL[name].least, ALL[name].greatest
    for value in (least, greatest):
        assert number_words(name, value) == [f"--{name}", f"{value}"]
        assert number_words(name, np.int32(value)) == [f"--{name}", f"{value}"]  # type: ignore[arg-type]
    for value in (least - 1, greatest + 1):
        with pytest.raises(Fault, match=f"^Bad.*{name} is a whole number"):
            number_words(name, value)
    for other in (True, float(greatest), f"{greatest}", None):
        with pytest.raises(TypeError, match=f"{name} is a whole number"):
            number_words(name, other)  # type: ignore[arg-type]


@pytest.mark.parametrize("text", ["0:1", "12:3.4.5", "7:9@" + "0f" * 32, "1" * 166])
def test_what_looks_like_a_cursor(text: str) -> None:
    assert cursor_of(text) == text


@pytest.mark.parametrize(
    "text", ["", "x", "7:9x", "7:9@" + "0f" * 31, "7:9@" + "0F" * 32, "7:9\n", "-1:2", "1" * 167]
)
def test_what_doesnt_look_like_a_cursor(text: str) -> None:
    with pytest.raises(Fault, match="BadCursor"):
        cursor_of(text)


@pytest.mark.parametrize(
    "text, size",
    [
        (REFERENCE, 24),
        (f"\t {REFERENCE}\r\n", 24),
        ("CwVGnSN2zhvHCgDX/tIzAw==", 16),
        ("CwVGnSN2zhvHCgDX/tIzAx==", 0),
        ("CwVGnSN2zhvHCgDX/tIzAw", 0),
        ("CwVGnSN2 zhvHCgDX/tIzAw==", 0),
        ("CwVGnSN2zhvHCgDX_tIzAw==", 0),
        ("é" * 24, 0),
        ("AAAA" * (LONGEST // 4), LONGEST // 4 * 3),
        ("AAAA" * (LONGEST // 4 + 1), 0),
    ],
)
def test_base64(text: str, size: int) -> None:
    """It is strict: no other letters, and no bits that nothing needs."""
    assert len(bytes_of(text)) == size


@pytest.mark.parametrize("count, is_one", [(2, True), (32, True), (33, False)])
def test_points_of_a_reference(count: int, is_one: bool) -> None:
    """It has 32 at most."""
    points = [ReferencePoint(3, 3, 0, 100 * at, 0, interval=1, lowest=3) for at in range(count - 1)]
    text = text_of([*points, ReferencePoint(3, 3, 0, 100 * count, 0)])
    found = read_reference(text)
    assert (found is not None and len(found.points) == count) == is_one


class Words(Late[str]):
    """Words, of which it is counted how often they are read."""

    __slots__ = ("reads",)

    def _read(self, text: bytes) -> tuple[str, ...]:
        self.reads = getattr(self, "reads", 0) + 1
        return tuple(text.decode().split())


def test_what_is_read_late() -> None:
    """It is read at the first look, and once."""
    words = Words(b"one two")
    assert not hasattr(words, "reads")
    assert len(words) == 2 and words[1] == "two" and list(words) == ["one", "two"]
    assert words == ("one", "two") == tuple(words) and words == Words(["one", "two"], "other")
    assert hash(words) == hash(Words(b"one  two")) and repr(words) == "('one', 'two')"
    assert words.reads == 1
