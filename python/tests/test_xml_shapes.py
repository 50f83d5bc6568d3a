"""XML whose references have the shape of others: they are read without the parser, and as the parser reads them."""

import random
from typing import Any

import pytest

import xml_records
from olr.errors import ToolError
from olr.messages import markup, openlr_shapes
from olr.messages.elements import messages_of_xml
from olr.messages.markup import Walk
from olr.messages.message import Reading
from olr.messages.openlr_elements import KnownElements
from olr.messages.openlr_shapes import ShapedReferences
from olr.messages.pieces import stream_of

POINTS = """<openlrLocationReferencePoint>
    <openlrCoordinates><longitude>{0}</longitude><latitude>48.1</latitude></openlrCoordinates>
    <openlrLineAttributes>
      <openlrFunctionalRoadClass>FRC3</openlrFunctionalRoadClass>
      <openlrFormOfWay>motorway</openlrFormOfWay>
      <openlrBearing>9</openlrBearing>
    </openlrLineAttributes>
    <openlrPathAttributes>
      <openlrLowestFRCToNextLRPoint>FRC3</openlrLowestFRCToNextLRPoint>
      <openlrDistanceToNextLRPoint>500</openlrDistanceToNextLRPoint>
    </openlrPathAttributes>
  </openlrLocationReferencePoint>
  <openlrLastLocationReferencePoint>
    <openlrCoordinates><longitude>{0}</longitude><latitude>48.1</latitude></openlrCoordinates>
    <openlrLineAttributes>
      <openlrFunctionalRoadClass>FRC3</openlrFunctionalRoadClass>
      <openlrFormOfWay>motorway</openlrFormOfWay>
      <openlrBearing>9</openlrBearing>
    </openlrLineAttributes>
  </openlrLastLocationReferencePoint>"""
"""23 line ends before the last line of a reference, as `PLACES` has them."""
PLACES = [f"11.{digit}" for digit in range(1, 8)]
READINGS = [
    *[Reading()] * 3,
    Reading(keep=("all",)),
    Reading(keep=("n", "g")),
    Reading(key="n"),
]


def read(pieces: list[bytes], reading: Reading = Reading()) -> tuple[list[Any], str]:
    """The messages of a feed in pieces, and its error."""
    found: list[Any] = []
    try:
        for message in messages_of_xml(stream_of(pieces), reading, "feed"):
            found.append((*message[:4], dict(message.kept)))
    except ToolError as error:
        return found, str(error)
    return found, ""


def records(inner: str, start: str = "<openlrLinear>", end: str = "</openlrLinear>") -> list[bytes]:
    """A feed with a reference at each of the places, in pieces that have one record each."""
    rows = [f"<r id='{place}'>{start}{inner.format(place)}{end}</r>" for place in PLACES]
    return [piece.encode() for piece in ("<feed>", *rows, "</feed>")]


@pytest.fixture
def parsed(monkeypatch: pytest.MonkeyPatch) -> list[str]:
    """The names of elements that the parser met within references."""
    names: list[str] = []
    start = ShapedReferences.start_reference

    def counted(self: ShapedReferences, name: str, attributes: dict[str, str]) -> None:
        names.append(name)
        start(self, name, attributes)

    monkeypatch.setattr(ShapedReferences, "start_reference", counted)
    return names


def plainly(pieces: list[bytes], reading: Reading = Reading()) -> tuple[list[Any], str]:
    """What the parser alone reads."""
    with pytest.MonkeyPatch.context() as patch:
        patch.setattr(ShapedReferences, "feed", Walk.feed)
        return read(pieces, reading)


def test_drawn_feeds(monkeypatch: pytest.MonkeyPatch) -> None:
    """Messages, errors and hints are those of the parser alone, also of odd and damaged feeds."""
    said: list[str] = []
    monkeypatch.setattr(markup, "say", said.append)
    takes, take = [], ShapedReferences._take

    def counted(self: ShapedReferences, tag: str, text: str, at: int) -> int:
        end = take(self, tag, text, at)
        takes.append(end > at)
        return end

    monkeypatch.setattr(ShapedReferences, "_take", counted)
    for seed in range(300):
        draws = random.Random(seed)
        pieces = xml_records.pieces(draws, xml_records.feed(draws))
        reading = draws.choice(READINGS)
        found = read(pieces, reading), said[:]
        said.clear()
        assert found == (plainly(pieces, reading), said), seed
        said.clear()
    assert sum(takes) > 700 and takes.count(False) > 1000


def test_one_shape(parsed: list[str]) -> None:
    """The parser reads the first reference, and of the second one it is seen that it has the same shape."""
    pieces = records(f"<firstDirection>{POINTS}</firstDirection>")
    found, error = read(pieces)
    assert (found, error) == plainly(pieces) and len(found) == len(PLACES) and not error
    assert len({reference for _, _, reference, *_ in found}) == len(PLACES)
    parsed.clear()
    read(pieces)
    assert parsed.count("openlrLinear") == len(PLACES) and parsed.count("firstDirection") == 2
    parsed.clear()
    read(records(POINTS.replace("<longitude", "<longitude unit='degree>'")))
    assert parsed.count("longitude") == 0 and parsed.count("openlrLocationReferencePoint") == 2
    parsed.clear()
    read(records("<openlrBinary>CwVF{}</openlrBinary>"))
    assert parsed.count("openlrBinary") == 2


def test_lines_behind_a_shape() -> None:
    """An error has its line, though the parser was given fewer."""
    for end, lines in (("\n", 1), ("\r\n", 1)):
        pieces = [piece.replace(b"\n", end.encode()) for piece in records(POINTS)]
        found, error = read([*pieces[:-1], b"\n</x>"])
        lines = POINTS.count("\n") * len(PLACES) + 2
        assert len(found) == len(PLACES) and error.startswith(f"feed: line {lines} isn't XML")


@pytest.mark.parametrize(
    "inner",
    [
        POINTS.replace("<longitude>", "<!-- <n>5</n> --><longitude>"),
        POINTS.replace("<longitude>", "<longitude><![CDATA[]]>"),
        POINTS.replace("<longitude>", "<longitude unit='&lt;'>"),
        POINTS.replace("9</", "9,0</"),
        POINTS.replace("9</", "9<a>5</a></"),
        POINTS.replace("9</", "9</openlrBearing><openlrBearing>5</"),
        f"<openlrLinear>{POINTS}</openlrLinear><openlrLinear>{POINTS}</openlrLinear>",
        POINTS.replace("openlrLast", "openlr"),
        f"<openlrBinary>CwVF</openlrBinary><a>{POINTS}</a>",
        POINTS + " " * openlr_shapes.MOST_LETTERS,
    ],
)
def test_what_only_the_parser_reads(parsed: list[str], inner: str) -> None:
    """What isn't tags and texts alone, a reference with a fault, or more than one of one kind."""
    pieces = records(inner)
    assert read(pieces) == plainly(pieces)
    parsed.clear()
    read(pieces)
    assert parsed.count("openlrLocationReferencePoint") >= len(PLACES)


def test_texts_are_no_more_than_texts() -> None:
    """What would be a text in an element isn't one in a comment, which can't have two dashes."""
    comment = "<!-- <n>{}</n> -->" + POINTS.replace("{0}", "11.1")
    pieces = [piece.replace(b"<n>11.5", b"<n>1--1") for piece in records(comment)]
    assert read(pieces) == plainly(pieces)
    assert "isn't XML" in read(pieces)[1]


def test_what_is_no_element() -> None:
    """A tag in a comment or in CDATA begins nothing."""
    for start, end in (("<!--", "-->"), ("<n><![CDATA[", "]]></n>")):
        pieces = records(POINTS)
        pieces[4] = start.encode() + pieces[4] + end.encode()
        found, error = read(pieces)
        assert (found, error) == plainly(pieces) and len(found) == len(PLACES) - 1 and not error


def test_texts_around_references() -> None:
    """What is said in front of a reference is a part of a text around it that is kept, or of a key."""
    pieces = records("a<firstDirection>b" + POINTS + "</firstDirection>c", "<g>y<openlrLinear>")
    pieces = [piece.replace(b"</r>", b"z</g></r>") for piece in pieces]
    found, _ = read(pieces, Reading(keep=("g",)))
    assert [row[-1] for row in found] == [{"g": "yab z"}] * len(PLACES)
    rows = [piece.decode() for piece in records("a" + POINTS)]
    own = [
        row.replace("<r id", "<OpenLR><LocationID id").replace("</r>", "</LocationID></OpenLR>")
        for row in rows
    ]
    found, _ = read([row.encode() for row in own])
    assert {row[1] for row in found[1:]} == {"a"}
    empty = b"<OpenLR><LocationID>7<openlrLinear>a</openlrLinear>b</LocationID></OpenLR>"
    assert read([empty])[0][0][1] == "7a"


def test_kinds_of_tags() -> None:
    """The kind that a tag says is that of its own references."""
    for kind in ("OpenlrLineLocationReference", "OpenlrPointAlongLine", "OpenlrCircle"):
        pieces = records(POINTS, f"<openlrLinear type='{kind}'>")
        assert read(pieces) == plainly(pieces)
    both = [records(POINTS, f"<openlrLinear type='{kind}'>") for kind in ("x", "pointAlongLine")]
    mixed = [b"<feed>", *(row for rows in zip(*both) for row in rows[:])][1:-1]
    assert read(mixed[1:]) == plainly(mixed[1:])


def test_elements_of_no_shape(parsed: list[str], monkeypatch: pytest.MonkeyPatch) -> None:
    """They are no longer looked for when there were many of them."""
    monkeypatch.setattr(openlr_shapes, "MOST_MISSED", 3)
    missed: list[str] = []
    miss = ShapedReferences._miss

    def counted(self: ShapedReferences, tag: str, *between: str) -> None:
        missed.append(tag)
        miss(self, tag, *between)

    monkeypatch.setattr(ShapedReferences, "_miss", counted)
    read(records(f"<!-- a -->{POINTS}"))
    assert len(missed) == 4
    missed.clear()
    parsed.clear()
    pieces = records(POINTS)
    for at in (4, 6):
        pieces[at] = pieces[at].replace(b"<longitude>", b"<!-- a --><longitude>")
    read(pieces)
    assert len(missed) == 3 and parsed.count("openlrLocationReferencePoint") == 4


def test_what_is_held_of_shapes() -> None:
    """Not more than so many shapes and tags."""
    walk = KnownElements(Reading(), "feed")
    rows = [
        f"<r id='1'><openlrLinear{n % 40}>{'<b/>' * n}<a>5</a></openlrLinear{n % 40}></r>"
        for n in range(openlr_shapes.MOST_SHAPES + 400)
    ]
    with pytest.raises(ToolError, match="has no element of DATEX II"):
        list(walk.messages(stream_of([b"<f>", *map(str.encode, rows), b"</f>"])))
    assert len(walk._shapes) == openlr_shapes.MOST_SHAPES
    assert len(walk._ends) == openlr_shapes.MOST_TAGS
