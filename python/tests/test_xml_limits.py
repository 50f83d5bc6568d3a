"""XML that would take much memory: limits, and how much is held of a long file."""

import pytest
import tracemalloc
from collections.abc import Iterator
from itertools import chain
from typing import Any

from olr.errors import ToolError
from olr.messages import keeping, markup, named_elements, openlr_elements, openlr_references
from olr.messages.elements import messages_of_xml
from olr.messages.message import Reading
from olr.messages.pieces import stream_of
from test_xml import ONE, TWO, hints, read

__all__ = ["hints"]
"""Nothing is said on standard error here either."""


def pieces(start: str, row: str, count: int) -> Iterator[bytes]:
    """A long file."""
    yield start.encode()
    for _ in range(count):
        yield row.encode()


@pytest.mark.parametrize(
    ("limit", "row", "said"),
    [
        ("MOST_TOKEN", "<!-- " + "x" * 50, "begins a tag or a comment of more than 200 bytes"),
        ("MOST_TOKEN", "<a " + "x" * 50, "begins a tag or a comment of more than 200 bytes"),
        ("MOST_DEPTH", "<a><b>", "is within more than 200 elements"),
        ("MOST_DEPTH", "<openlrLast><openlrOffsets><b>", "is within more than 200 elements"),
        ("MOST_TEXT", "<openlrBinary>" + "x" * 50, "is in a text of more than 200 letters"),
    ],
)
def test_what_would_take_memory(
    limit: str, row: str, said: str, monkeypatch: pytest.MonkeyPatch
) -> None:
    monkeypatch.setattr(markup, limit, 200)
    tail = row if limit == "MOST_DEPTH" else "x" * 50
    given = pieces(f"<a id='1'>\n{row}", tail, 1000)
    with pytest.raises(ToolError, match=f"feed: line 2 {said}"):
        list(messages_of_xml(stream_of(given), Reading(), "feed"))


def test_many_references_in_one_element(monkeypatch: pytest.MonkeyPatch) -> None:
    """They go on before it ends, in their order; but not where it has to end first."""
    binaries = "".join(f"<openlrBinary>{text}</openlrBinary>" for text in (ONE, TWO) * 3)
    texts = {
        "known": f"<a id='1'><openlrLinear>{binaries}</openlrLinear></a>",
        "own": f"<OpenLR><BinaryLocationReferences>{binaries}</BinaryLocationReferences></OpenLR>",
        "late": f"<a><b>{binaries}<c/></b></a>",
    }
    for module in (openlr_references, openlr_elements):
        monkeypatch.setattr(module, "MOST_HELD", 4)
    assert [it.reference for it in read(texts["known"])] == [ONE, TWO] * 3
    with pytest.raises(ToolError, match="line 1 has more than 4 references of one location"):
        read(texts["own"])
    monkeypatch.setattr(openlr_elements, "MOST_WAITING", 5)
    with pytest.raises(ToolError, match="line 1 has more than 5 references of one record"):
        read(texts["known"], keep=("x",))
    monkeypatch.setattr(named_elements, "MOST_WAITING", 5)
    with pytest.raises(ToolError, match="line 1 has more than 5 references in one element b"):
        read(texts["late"], ref="openlrBinary", key="id")
    monkeypatch.setattr(named_elements, "MOST_NOTED", 3)
    with pytest.raises(ToolError, match="line 1 is behind 3 elements without a record"):
        read(f"<a>{'<r/>' * 4}<r id='1'>{binaries}</r></a>", ref="openlrBinary")


@pytest.mark.parametrize("options", [{}, {"ref": "openlrBinary"}])
def test_much_to_keep(options: dict[str, Any], monkeypatch: pytest.MonkeyPatch) -> None:
    """A record that has too much is an error, and one without a reference none."""
    monkeypatch.setattr(keeping, "MOST_KEPT", 100)
    much, binary = "<x>123456789</x>" * 11, f"<openlrBinary>{ONE}</openlrBinary>"
    text = f"<a><r id='1'><x>5</x>{binary}</r><s id='2'>{much}</s></a>"
    assert read(text, keep=("all",), **options)[0].kept == {"x": "5"}
    with pytest.raises(ToolError, match="line 1 ends a record with more than"):
        read(f"<a><r id='1'>{binary}{much}</r></a>", keep=("all",), **options)


def test_many_names(monkeypatch: pytest.MonkeyPatch) -> None:
    names = "".join(f"<a{number}/>" for number in range(300))
    with pytest.raises(ToolError, match="feed has no element of DATEX II"):
        read(f"<a>{names}</a>", format="xml")
    for limit in ("MOST_NAMES", "MOST_TEXT"):
        with monkeypatch.context() as patch:
            patch.setattr(markup, limit, 200)
            with pytest.raises(ToolError, match="feed: line 1 has a new name, behind too many"):
                read(f"<a>{names}</a>", format="xml")


def test_references_that_wait() -> None:
    """Of those in element form no text is held, however long it is."""
    point = f"<openlrLocationReferencePoint><openlrLineAttributes><openlrBearing>{'1' * 50_000}"
    point += "</openlrBearing></openlrLineAttributes></openlrLocationReferencePoint>"
    row = f"<openlrLinear><firstDirection>{point}</firstDirection></openlrLinear>"
    given = chain(pieces("<a><situationRecord id='1'>", row, 100), [b"</situationRecord></a>"])
    tracemalloc.start()
    try:
        found = list(messages_of_xml(stream_of(given), Reading(keep=("x",)), "feed"))
        assert len(found) == 100 and found[0].fault == "BadElement openlrLastLocationReferencePoint"
        assert tracemalloc.get_traced_memory()[1] < 2_000_000
    finally:
        tracemalloc.stop()


@pytest.mark.parametrize(
    "options",
    [{}, {"keep": ("all",)}, {"ref": "openlrBinary"}, {"ref": "openlrBinary", "key": "k"}],
)
def test_one_record_is_held(options: dict[str, Any]) -> None:
    """6 MB of records take no more than the pieces that are read at once."""
    inner = f"<k>1</k><x>{'y' * 30_000}</x><openlrBinary>{ONE}</openlrBinary>"
    row = f"<situation id='s'><situationRecord id='1'>{inner}</situationRecord></situation>\n"
    given = pieces("<d2LogicalModel id='f'>", row, 200)
    tracemalloc.start()
    try:
        stream = stream_of(chain(given, [b"</d2LogicalModel>"]))
        found = sum(it.key == "1" for it in messages_of_xml(stream, Reading(**options), "feed"))
        assert found == 200 and tracemalloc.get_traced_memory()[1] < 2_000_000
    finally:
        tracemalloc.stop()
