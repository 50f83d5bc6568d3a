"""Numbers, faults, sentences and commands of a page that answers by itself: the same texts as in Python."""

import math
import pytest
import random
import struct
from typing import Any

from alone import Scripts
from asking import as_json
from browser import Browser
from olr.confidence.confidence import Confidence
from olr.confidence.sentences import differs_text, probability_text
from olr.model.answers import (
    Better,
    MapDiffers,
    Matching,
    Pair,
    PlaceOfReference,
    Places,
    Remedy,
    Why,
    WhyLeg,
    WhyPoint,
)
from olr.model.answers import Verdict as WhyVerdict
from olr.model.asked_with import command_text
from olr.model.fault import Fault
from olr.model.fault_table import ROWS
from olr.model.pieces import Pieces
from olr.model.profiles import FEED, tolerances_of
from olr.model.questions import What
from olr.model.reasons import TEXTS as OF_REASONS
from olr.model.reasons import NO_REASON, Reason, sentence_of
from olr.pages.alone.tables import tables
from olr.pages.view import sentences

Json = dict[str, Any]
TEXTS = """
values.map((value) => [general(value), ...[0, 1, 2].flatMap((digits) => [fixed(value, digits), fixedGrouped(value, digits)])])
"""


@pytest.fixture(scope="module")
def alone(browser: Browser) -> Scripts:
    """The scripts."""
    return Scripts(browser)


def said(alone: Scripts, name: str, *values: Any) -> Any:
    """What a function of the scripts gives for values."""
    return alone.value(f"{name}(...values)", values=values)


def test_numbers_as_texts(alone: Scripts) -> None:
    draw = random.Random(1)
    values = [0.0, -0.0, 0.5, 1.5, 2.5, 0.125, 0.375, 0.25, 1234.5, 999.95, 999999.5, 1e-4, 9.5e-5]
    values += [
        100000.5,
        100001.5,
        1000002.5,
        1e6,
        1e20,
        0.00012345650,
        12.0,
        1e15 + 0.5,
        8.25,
        1e-5,
    ]
    values += [sector * 11.25 for sector in range(33)] + [n * 58.6 for n in range(0, 256, 5)]
    values += [draw.uniform(-1, 1) * 10 ** draw.randint(-6, 12) for _ in range(300)]
    values += [draw.randint(-(10**6), 10**6) / 2 ** draw.randint(0, 5) for _ in range(300)]
    finite = (struct.unpack("<d", draw.randbytes(8))[0] for _ in range(900))
    values += [value for value in finite if math.isfinite(value) and abs(value) < 1e21]
    values += [-value for value in values]
    expected = [
        [f"{value:g}"]
        + [text for digits in range(3) for text in (f"{value:.{digits}f}", f"{value:,.{digits}f}")]
        for value in values
    ]
    assert alone.value(TEXTS, values=values) == expected
    whole = [0, 7, 999, 1000, -1000, 999_999, 1_000_000, -123_456_789, 2**53]
    assert alone.value("values.map(grouped)", values=whole) == [f"{one:,}" for one in whole]


def test_faults(alone: Scripts) -> None:
    """Each line of the table, with words in place of those in capital letters; and lines that no table has."""
    lines = [
        " ".join(["lines" if word == "FILE" else "12" if word.isupper() else word for word in row])
        for row in (line.split(" ") for line in ROWS)
    ]
    lines += ["Unheard of", "BadLength", "BadLength 1 2", "BadCell $&", "OtherKind Road", ""]
    for line in lines:
        fault = Fault(line)
        found = said(alone, "faultOf", line, tables()["faults"])
        assert found == {"text": line, "meaning": fault.meaning, "remedy": fault.remedy}
        assert said(alone, "faultText", found) == str(fault)


def test_sentences_by_hand(alone: Scripts) -> None:
    """What no reference of these maps says."""
    for verdict in ("unique", "ambiguous", "open", "none"):
        for margin in (None, 0, 1234):
            expected = sentences.verdict_text(verdict, margin)
            assert said(alone, "verdictText", verdict, margin) == expected
    for value in (0, 1, 4_999, 5_000, 125_000, 135_000, 990_000, 994_999, 995_000, 1_000_000):
        assert said(alone, "probabilityText", value) == probability_text(value)
    for remedy in (Remedy("bans"), Remedy("radius", "1:1.1", 150), Remedy("class", None, 0)):
        assert said(alone, "remedyText", remedy.__dict__) == sentences.remedy_text(remedy)
    pairs = [
        Pair(1, 2),
        Pair(1, 3, 12345, 678),
        Pair(2, 1, 10, None, 20000, Better(5, 123456)),
        Pair(2, 2, None, None, None, Better(7, 4)),
        Pair(3, 3, 1),
    ]
    leg = WhyLeg(0, 3, 1000, 5, tuple(pairs), 20005)
    for word, at in (("leg", 1), ("chain", 3), ("crowded", 2), ("match", None)):
        why = Why((leg,), (WhyPoint(()),), (), WhyVerdict(word, at))  # type: ignore[arg-type]
        assert said(alone, "whyTexts", as_json(why)) == sentences.why_texts(why)


def test_reasons(alone: Scripts) -> None:
    """Of each kind, by numbers that are rounded up and down; and none."""
    draw = random.Random(4)
    for kind in OF_REASONS:
        for by in (0, 1, 4, 5, 14, 15, 16, 45, 449, 450, 451, 10**6, draw.randrange(10**9)):
            reason = Reason(kind, by, draw.choice([1, 12]))
            found = said(alone, "reasonsText", [vars(reason)], tables())
            assert found == sentence_of([reason])
    assert sentence_of([Reason("lines", 14)]) == NO_REASON != sentence_of([Reason("lines", 15)])
    both = [Reason("turning_back", 1), Reason("shorter", 1000, 3)]
    for reasons in (both[:0], both):
        found = said(alone, "reasonsText", [vars(one) for one in reasons], tables())
        assert found == sentence_of(reasons)
    assert said(alone, "reasonsText", None, tables()) is None is sentence_of(None)


CONFIDENCE = Confidence(tolerances_of(FEED), 750, {}, None, {})
AS_JSON: Json = {"tolerances": CONFIDENCE.tolerances, "apart": 750, "about": {}}


def test_how_maps_differ(alone: Scripts) -> None:
    """As far as the program says it."""
    differs = MapDiffers(2250, 0, 50)
    abouts: list[Json] = [{}, {"feed": {}}, {"feed": {"statistics": 1}, "differ": 2}, {"feed": "x"}]
    for about in [*abouts, {"feed": {"statistics": {}}}, {"feed": None, "differ": None}]:
        found = said(alone, "differsText", vars(differs), {"about": about})
        assert found == differs_text(differs, Confidence({}, 0, {}, None, about))
    assert said(alone, "differsText", None, {"about": {}}) == ""


def texts_of(alone: Scripts, found: Places, numbers: Json) -> list[str]:
    """What is said of how probable places are, in both ways."""
    expected = sentences.probability_texts(found, CONFIDENCE, numbers)
    given = {name: getattr(found, name) for name in ("differs", "none_of_these", "map_differs")}
    given |= {"places": [{"probability": one.probability} for one in found]}
    assert said(alone, "probabilityTexts", given, AS_JSON, numbers) == expected
    return expected


@pytest.mark.parametrize(
    ("none", "probabilities", "shown"),
    [
        (250_000, [500_000, 200_000], True),
        (250_000, [750_000], False),
        (500_000, [495_000], True),
        (500_000, [495_001], False),
        (1_000, [999_000], False),
        (100_000, [], True),
    ],
)
def test_the_rest(alone: Scripts, none: int, probabilities: list[int], shown: bool) -> None:
    """Places that aren't shown have a probability too."""
    matching = Matching("0:1.1", (), (), Pieces(()), 0)
    places = [PlaceOfReference(0, matching, 1, probability=value) for value in probabilities]
    found = Places(1, tuple(places), "unique", none_of_these=none, differs=())
    assert len(texts_of(alone, found, {})) == 1 + shown


def test_why_there_is_no_probability(alone: Scripts) -> None:
    """Of points along lines, and with other numbers than those of the confidence."""
    found = Places(1, (), "unique", differs=())
    assert texts_of(alone, found, {}) == [
        "Probabilities are of lines: a point along a line has none."
    ]
    other = Places(1, (), "unique", differs=("radius", "apart"))
    numbers = {**tolerances_of(FEED), "radius": 80, "apart": 20}
    (text,) = texts_of(alone, other, numbers)
    assert text.startswith("No probabilities: radius is 80, not 75; apart is 20, not 750: make")


def test_commands(alone: Scripts) -> None:
    """Words are quoted as a shell needs it, and what is as the program has it by default isn't there."""
    questions: tuple[What, ...] = ("places", "why", "match", "candidates")
    for question in questions:
        for name in ("town", "it's", "a b", "", "ä", "$(x)", "a/b-c.d", "5%", None):
            numbers = {"radius": 75, "bearing": 4, "apart": 10, "within": 30, "page": 9}
            found = said(alone, "commandText", question, " abc= ", name, numbers, tables())
            assert found == command_text(question, " abc= ", name, numbers)
