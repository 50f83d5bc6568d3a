"""Answers that are asked for with one geometry of each matching: the same answers, with the points of that part. And lists of answers as arrays."""

import pytest
from pathlib import Path

import olr
from asking import draw_map, draw_references
from conftest import REFERENCE
from olr.client.answering import candidates_counted, drawn_answers
from olr.geometry.parts import members_of, polylines_of
from olr.matching.shapes import boxes, wkb
from olr.model.answers import Candidate, Candidates, Matching, PenaltyParts
from olr.model.objects import number_of_candidates, read_drawn
from olr.model.pieces import Spot, Spots
from olr.model.questions import LIST, Setting, What

KIOSK, TWO_PLACES, NO_BASE64 = "KwVGnCN20HPDBwFCATFjT5Y=", "CwVGnSN2zhvHCgDX/tIzAw==", "?"
QUESTIONS: dict[What, dict[str, Setting]] = {"match": {"page": 3}, "places": dict(LIST)}


def matchings_of(answer: object) -> list[Matching]:
    """Those of an answer, or of its places."""
    if isinstance(answer, olr.Page):
        return list(answer)
    return [one.matching for one in answer] if isinstance(answer, olr.Places) else []


@pytest.fixture(scope="module")
def folder(tmp_path_factory: pytest.TempPathFactory) -> Path:
    """A drawn map."""
    return draw_map(tmp_path_factory.mktemp("drawn") / "map")


@pytest.mark.parametrize("part", ["outer", "inner"])
@pytest.mark.parametrize("what", QUESTIONS)
def test_the_same_answers(what: What, part: str, folder: Path) -> None:
    """On a drawn map."""
    with olr.Map(folder) as asked:
        require_the_same(asked, what, part, draw_references(folder, 100))


@pytest.mark.parametrize("part", ["outer", "inner"])
@pytest.mark.parametrize("what", QUESTIONS)
def test_the_same_answers_of_the_example(what: What, part: str, top: Path) -> None:
    """With offsets, a point along a line, and faults."""
    with olr.Map(top / "examples") as asked:
        shapes = require_the_same(asked, what, part, [REFERENCE, NO_BASE64, KIOSK, TWO_PLACES])
    assert any(len(one) == 1 for one in shapes)


def require_the_same(asked: olr.Map, what: What, part: str, refs: list[str]) -> list[Spots]:
    """Answers with one geometry of each matching are those without, and have the points of those with shapes: the answer."""
    settings = QUESTIONS[what]
    drawn = list(drawn_answers(asked, what, refs, part, settings))
    plain, shaped = (
        list(asked.answers(what, refs, shape=shape, **settings)) for shape in (False, True)
    )
    texts = [
        [one.text if isinstance(one, olr.Fault) else one for one in them] for them in (drawn, plain)
    ]
    assert texts[0] == texts[1] and len(drawn) == len(refs)
    found = polylines_of([one.geometry for answer in drawn for one in matchings_of(answer)])
    wanted = [shape_of(one, part) for answer in shaped for one in matchings_of(answer)]
    assert wkb(found) == wkb(polylines_of(wanted))
    there = [[(spot.lon / 1e6, spot.lat / 1e6) for spot in one] for one in wanted]
    assert [list(map(tuple, one)) for one in found.each()] == there
    edges = [[edge for side in zip(*one) for edge in (min(side), max(side))] for one in there]
    assert boxes(found).tolist() == edges
    candidates = asked.answers("candidates", refs)
    numbers = (
        sum(map(len, it.points)) if isinstance(it, Candidates) else None for it in candidates
    )
    assert list(candidates_counted(asked, refs)) == list(numbers)
    return wanted


def shape_of(one: Matching, part: str) -> Spots:
    """Where a part of a matching lies, or the middle of a point along a line."""
    if one.spot is not None:
        return Spots([one.spot.middle])
    assert one.shape is not None
    shape = one.shape.outer if part == "outer" else one.shape.inner
    assert shape is not None
    return shape


def test_a_part_that_is_none() -> None:
    """It has no geometry: so has the inner part of a location that may be nothing."""
    feature = b'{"geometry":null,"properties":{"cursor":"0:1.1","inner":null,"legs":[{"length":1,"penalty":0}]'
    feature += b',"outer":[[7,0,1]],"part":"inner","points":[{"at":0,"line":7,"penalty":0}],"route":[[7,0,1]]'
    text = b'{"features":[%b,"total":0},"type":"Feature"}],"next":null,"type":"FeatureCollection"}'
    page = read_drawn("match", text % feature, None)
    (one,) = page
    assert isinstance(one, Matching) and (one.geometry, one.inner) == (None, None)
    found = polylines_of([one.geometry])
    assert (wkb(found), boxes(found).shape) == ([None], (0, 4))


@pytest.mark.parametrize("text", [b"{}", b'{"features":[{}]}', b'{"matchings":[],"next":null}'])
def test_what_is_no_answer(text: bytes) -> None:
    with pytest.raises(ValueError):
        read_drawn("match", text, None)
    with pytest.raises(ValueError):
        number_of_candidates(text)


def test_lists_that_are_there_twice() -> None:
    """They are there once, wherever they are, and one that is none has nothing."""
    one, other = b"[[1.5,2],[-0.000001,4]]", b"[[7,8.25],[9,0],[1,1]]"
    found = polylines_of([one, None, other, one, b"[[3,4]]", other, b"[]"])
    assert found.sizes.tolist() == [2, 0, 3, 2, 1, 3, 0] and len(found.points) == 6
    assert [it.tolist() for it in found.each()][2:5] == [
        [[7, 8.25], [9, 0], [1, 1]],
        [[1.5, 2], [-0.000001, 4]],
        [[3, 4]],
    ]
    assert boxes(found)[[0, 2, 3]].tolist() == [
        [-0.000001, 1.5, 2, 4],
        [-0.000001, 1.5, 2, 4],
        [3, 3, 4, 4],
    ]


def test_members_by_their_names(top: Path) -> None:
    """Of points as the program writes them and of those that were looked at, with all that can be asked for and with less."""
    with olr.Map(top / "examples") as town:
        kinds = ((False, False), (True, False), (False, True), (True, True))
        pages = [town.match(REFERENCE, detail=detail, shape=shape) for detail, shape in kinds]
    lists = [page.matchings[0].points for page in pages]
    (unread, _), (alone, _) = members_of(lists, ["penalty", "at"]), members_of(lists[2:3], ["at"])
    penalties, places = (
        [getattr(one, name) for it in lists for one in it] for name in ("penalty", "at")
    )
    numbers, counts = members_of([tuple(one) for one in lists], ["penalty", "at"])
    assert unread.tolist() == numbers.tolist() == [penalties, places]
    assert (counts.tolist(), alone.tolist()) == ([3] * 4, [places[6:9]])
    parts = PenaltyParts(1, 2, 3, 4)
    made = Candidate(5, 7, 10, parts, 6, 0, 8, 9, 0, Spot(11, 12))
    numbers, _ = members_of([(made, made)], ["parts.class", "form", "spot", "end"])
    assert numbers.T.tolist() == [[2, 9, 11, 0]] * 2
    nothing: list[tuple[Candidate, ...]] = [(), ()]
    numbers, counts = members_of(nothing, ["at"])
    assert (numbers.shape, counts.tolist()) == ((1, 0), [0, 0])
    numbers, counts = members_of([*nothing, (made,)], ["at"])
    assert (numbers.tolist(), counts.tolist()) == ([[5]], [0, 0, 1])
