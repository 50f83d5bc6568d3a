"""Confidences: how weights are fitted, and files."""

import json
import math
import numpy as np
import os
import pytest
from collections.abc import Callable
from dataclasses import replace
from pathlib import Path
from typing import Any

import olr
from confidences import made_terms
from olr.arrays import Floats
from olr.confidence.calibrating import Chosen, Said, level_of
from olr.confidence.confidence import Confidence, Range
from olr.confidence.contents import text_of
from olr.confidence.feed import statistics_of
from olr.confidence.fitting import (
    NONE,
    Checked,
    Trial,
    fitted,
    shift_of,
    shift_to,
    shifted,
    whole,
)
from olr.confidence.likeness import (
    RIDGE,
    Likeness,
    alike,
    are_outside,
    counting,
    range_of,
)
from olr.confidence.parts import Part, right_places
from olr.confidence.weights import (
    OF_NONE,
    OF_PLACE,
    ORDER,
    WEIGHTS,
    Differences,
    probabilities,
)
from olr.errors import ToolError
from olr.model.profiles import FEED, tolerances_of
from olr.model.questions import TOLERANCES
from test_extras import run_without

USUAL = {name: number.default for name, number in TOLERANCES.items()}
ABOUT = dict.fromkeys(("map", "parts", "program", "references", "right", "seed"), 0)
ONE = float(ORDER)
ORDERS: Floats = np.array([0.04, 0.25, 0.02, 0.005, 4.0, -10.0, -0.75, 0.5, 0.03125])
ROUND = whole(ORDERS * ONE)


def confidence_of(**others: Any) -> Confidence:
    """A confidence for the program's defaults, with weights that are easy to reckon with."""
    made = Confidence(USUAL, 750, ROUND, Range(0.9, 0.6, 1.2), ABOUT)
    return replace(made, **others)


def test_probabilities_by_hand() -> None:
    """Two answers: one with two places, of which the second is 400 thirtieths of a point behind, and one with a place that turns back."""
    differences = Differences(
        np.array([2, 1]),
        np.array([[0, 0, 0, 0, 0], [0, 0, 0, 400, 0], [0, 0, 0, 0, 1.0]]),
        np.array([[1, 0, 6, 32], [1, 1, 0.0, 0]]),
    )
    told = probabilities(ORDERS * ONE, differences)
    one = [1.0, 2**-2, 2 ** (-10 + 3 + 1)]
    other = [2**-4, 2**-10.75]
    assert told.of_place.tolist() == pytest.approx(
        [one[0] / sum(one), one[1] / sum(one), other[0] / sum(other)]
    )
    assert told.of_none.tolist() == pytest.approx([one[2] / sum(one), other[1] / sum(other)])


def test_weights_of_a_file() -> None:
    """They are rounded, and within what is allowed."""
    found = whole(np.array([1.6, -3, 2.0**40, 0, 0, -(2.0**40), -1.4, 2.0**40, 0]))
    assert list(found.values()) == [2, 0, 2**28, 0, 0, -(2**32), -1, 2**32, 0]


def test_the_right_place_of_an_answer() -> None:
    """The first of those that are right. An answer without a place has none."""
    terms = made_terms([3, 1, 0, 2], [2] * 6)
    right = right_places(terms, [False, True, True, False, True, True])
    assert right.tolist() == [1, NONE, 4]


def part_of(count: int, right: int) -> Part:
    """A part with so many answers of one place, of which so many are right."""
    numbers = np.arange(count)
    are_right = np.where(numbers < right, numbers, NONE)
    return Part(0.0, 0.0, made_terms([1] * count, [2] * count), are_right)


def test_what_is_seen_of_answers_without_a_place() -> None:
    """That none has one, and nothing else."""
    terms = made_terms([0, 0, 0], [])
    without, *others = statistics_of(terms, ORDERS * ONE).values()
    assert (without, set(others)) == (1, {0})


def test_the_odds_of_a_part() -> None:
    """Of 7 places 3 are right: with half a place more on each side the odds are 3.5 to 4.5. Without answers they are even."""
    assert part_of(7, 3).seen() == pytest.approx(3 / 7)
    assert part_of(7, 3).odds() == pytest.approx(math.log(3.5 / 4.5))
    assert (part_of(0, 0).seen(), part_of(0, 0).odds()) == (0, 0)


def test_how_far_the_level_is_off() -> None:
    """A half is told of each place. Of a part 60 of 100 are right, which is .1 too many, and .05 would be so by chance; of another one,
    which counts a third of that, 50 of 100. Less than chance is nothing."""
    weights = np.zeros(len(WEIGHTS))
    parts = [part_of(100, 60), part_of(100, 50)]
    found = level_of(parts, Chosen(np.array([3.0, 1.0])), weights)
    assert found == pytest.approx(math.sqrt((3 * (0.1**2 - 0.05**2) - 0.05**2) / 4))
    assert level_of(parts[1:], Chosen(np.ones(1)), weights) == 0


@pytest.mark.parametrize("outside, besides", [([], 0.0), (["mean distance"], 0.1)])
def test_how_far_the_level_of_a_feed_is_off(outside: list[str], besides: float) -> None:
    """What the numbers of parts say counts then: .8 of the first one, .5 of the other one. It is a tenth more for a feed unlike all parts."""
    parts = [part_of(100, 60), part_of(100, 50)]
    said = Said({}, 0.7, np.array([0.8, 0.5]), outside)
    found = level_of(parts, Chosen(np.ones(2), said), np.zeros(len(WEIGHTS)))
    variance = (0.2**2 - 0.8 * 0.2 / 100 - 0.5 * 0.5 / 100) / 2
    assert found == pytest.approx(math.sqrt(variance + besides**2))


def test_they_add_up_to_1_however_large_weights_are() -> None:
    draws = np.random.default_rng(1)
    sizes = draws.integers(1, 9, 50)
    differences = Differences(
        sizes,
        draws.uniform(0, 1000, (int(sizes.sum()), len(OF_PLACE))),
        draws.uniform(0, 10, (50, len(OF_NONE))),
    )
    for scale in (1e4, 1e7, 2.0**32):
        told = probabilities(draws.uniform(0, scale, len(WEIGHTS)), differences)
        sums = np.add.reduceat(told.of_place, differences.starts()) + told.of_none
        assert sums == pytest.approx(1) and (told.of_place >= 0).all()


def drawn_trial(weights: Floats, count: int) -> Trial:
    """Answers whose right places are drawn by weights, in binary orders."""
    draws = np.random.default_rng(2)
    sizes = draws.integers(1, 5, count)
    of_place = draws.gamma(2, 1, (int(sizes.sum()), len(OF_PLACE)))
    of_place *= (10, 1, 20, 120, 0)
    of_place[:, 4] = draws.random(len(of_place)) < 0.1
    of_none = [np.ones(count), draws.integers(0, 4, count)]
    of_none += [draws.gamma(4, 3, count), draws.gamma(8, 15, count)]
    differences = Differences(sizes, of_place, np.stack(of_none, axis=1).astype(np.float64))
    told = probabilities(weights * ONE, differences)
    right = np.full(count, NONE)
    for number, (start, size) in enumerate(zip(differences.starts(), sizes)):
        chances = [*told.of_place[start : start + size], told.of_none[number]]
        drawn = draws.choice(size + 1, p=np.array(chances) / sum(chances))
        right[number] = start + drawn if drawn < size else NONE
    return Trial(differences, right, np.ones(count))


def test_weights_that_answers_were_drawn_by_are_found() -> None:
    found = fitted(drawn_trial(ORDERS, 20_000)) / ONE
    assert found == pytest.approx(ORDERS, rel=0.25, abs=0.02)


def test_a_weight_with_a_wrong_sign_is_0() -> None:
    """Answers that are drawn so that places farther away are right more often."""
    found = fitted(drawn_trial(np.array([-0.05, *ORDERS[1:]]), 4000))
    assert found[0] == 0
    assert [name for name, value in zip(WEIGHTS, found) if value < 0] == ["none", "none_points"]


def test_answers_count_by_their_weights() -> None:
    """Half of the answers are drawn by other weights, and count for nothing."""
    one, other = drawn_trial(ORDERS, 4000), drawn_trial(ORDERS * 0 + 0.3, 4000)
    together = Trial(
        Differences(
            np.concatenate([one.differences.sizes, other.differences.sizes]),
            np.concatenate([one.differences.of_place, other.differences.of_place]),
            np.concatenate([one.differences.of_none, other.differences.of_none]),
        ),
        np.concatenate(
            [
                one.right,
                np.where(other.right < 0, NONE, other.right + len(one.differences.of_place)),
            ]
        ),
        np.concatenate([one.weight, 0 * other.weight]),
    )
    # The means by which columns are centred differ, so that the search ends elsewhere within its tolerance.
    assert fitted(together) == pytest.approx(fitted(one), rel=0.02, abs=1e-3 * ONE)


def test_checked_answers_shift_the_level() -> None:
    """Forty answers of one place that told 0.725; all of them right, or none of them."""
    of_none = np.full((40, 4), (1.0, 0, 0, 0))
    differences = Differences(np.ones(40, int), np.zeros((40, 5)), of_none)
    weights = np.array([0, 0, 0, 0, 0, -1.4 * ONE, 0, 0, 0])
    first = np.ones(40, dtype=np.bool_)
    told = []
    for right in (40, 29, 0):
        checked = Checked(differences, first, np.arange(40) < right)
        again = shifted(weights, shift_of(weights, checked))
        told.append(float(probabilities(again, differences).of_place[0]))
        assert (again[:5] == weights[:5]).all() and (again[6:] == weights[6:]).all()
        # At the optimum what the answers pull is what a normal curve of deviation 3 holds.
        shift = (again[5] - weights[5]) / ONE
        assert shift / 9 == pytest.approx(math.log(2) * (40 * told[-1] - right), abs=0.05)
    assert told[0] > 0.97 and told[1] == pytest.approx(29 / 40, abs=0.01) and told[2] < 0.05


@pytest.mark.parametrize("right, told", [(0.6, 0.6), (0.01, 0.01), (0.0, 0.0), (1.0, 1.0)])
def test_a_level_that_is_wanted(right: float, told: float) -> None:
    """Such a share of likeliest places is told to be right then, as far as the shift may go."""
    differences = Differences(
        np.array([1, 2]), np.zeros((3, 5)), np.array([(1.0, 0, 0, 0), (1, 0, 2, 0)])
    )
    weights = np.array([0, 0, 0, 0, 0, -1.4, 0, 0.7, 0]) * ONE
    first = np.array([True, True, False])
    shift = shift_to(weights, differences, first, right)
    found = probabilities(shifted(weights, shift), differences).of_place[first].mean()
    # Half of the second answer's probability is that of its other place.
    assert found == pytest.approx(min(told, 0.75), abs=2e-3) and abs(shift) <= 12


def test_parts_that_are_alike() -> None:
    """What is known of parts is twice their first number less their second, without an error: so is what is said of a feed."""
    draws = np.random.default_rng(3)
    statistics = draws.normal(size=(60, 4))
    known = 2 * statistics[:, 0] - statistics[:, 1]
    likeness = Likeness(statistics, known)
    assert np.abs(likeness.said - known).max() < 0.6
    said = likeness.said_of(np.array([1.0, -0.5, 0, 0]))
    assert said == pytest.approx(2.5, abs=0.2)
    weights = alike(likeness.said, said, 0.3)
    nearest = np.argmin(np.abs(likeness.said - said))
    assert weights.argmax() == nearest and weights.max() == 1 and (weights >= 0).all()


def test_how_many_parts_count() -> None:
    """Three that count alike are three, and one that counts a third as much as another one makes 16 / 10 of a part."""
    assert counting(np.array([2.0, 2.0, 0, 2.0])) == pytest.approx(3)
    assert counting(np.array([3.0, 1.0])) == pytest.approx(1.6)


@pytest.mark.parametrize("count, least", [(100, 20), (30, 15)])
@pytest.mark.parametrize("wanted", [0.0, 50.0])
def test_enough_parts_count(count: int, least: int, wanted: float) -> None:
    """Even if all but one are far from what is wanted, or all of them are; of few parts half."""
    said = np.append(np.linspace(5.0, 9.0, count - 1), 0.0)
    weights = alike(said, wanted, 0.01)
    assert least <= counting(weights) < 2 * least
    assert weights.argmax() == np.argmin(np.abs(said - wanted))
    # Where many are near, the width is what was given.
    assert alike(np.zeros(count), 0.3, 0.3).tolist() == [1.0] * count


def test_a_feed_that_is_unlike_all_parts() -> None:
    """The first number is usual; the second is greater than any, but not far; the third is far below, and the fourth far above."""
    of_parts = np.repeat([[-1.0], [1.0]], 20, axis=0) * np.ones(4)
    found = are_outside(np.array([0.5, 2.0, -3.1, 4.0]), of_parts)
    assert found.tolist() == [False, False, True, True]


def test_what_is_said_of_a_part_is_said_without_it() -> None:
    """As a regression says it that hasn't that part, with the same scales."""
    draws = np.random.default_rng(4)
    statistics, known = draws.normal(size=(12, 3)), draws.normal(size=12)
    said, middle = Likeness(statistics, known).said, known.mean()
    scaled = (statistics - statistics.mean(axis=0)) / statistics.std(axis=0)
    for part in range(12):
        others = np.delete(scaled, part, axis=0)
        square = others.T @ others + RIDGE * np.eye(3)
        slopes = np.linalg.solve(square, others.T @ (np.delete(known, part) - middle))
        assert said[part] == pytest.approx(scaled[part] @ slopes + middle)


def test_a_range() -> None:
    """The mean of weighted numbers, and between which 95 percent of them lie."""
    values = np.arange(100.0)
    assert range_of(values, np.ones(100)) == Range(49.5, 2.0, 97.0)
    assert range_of(values, (values == 7).astype(float)) == Range(7, 7, 7)


def test_a_mean_lies_within_its_interval() -> None:
    """Also where nearly all numbers are one, and so both ends of what has 95 percent of them."""
    assert range_of(np.array([0.0, 1.0]), np.array([99.0, 1.0])) == Range(0.01, 0, 0.01)
    assert range_of(np.array([0.0, 1.0]), np.array([1.0, 99.0])) == Range(0.99, 0.99, 1)


def test_a_file_is_read_as_it_was_written(tmp_path: Path) -> None:
    file = tmp_path / "confidence.json"
    for made in (confidence_of(), confidence_of(map_differs=None, level=0.05)):
        file.write_text(text_of(made))
        found = Confidence.of_file(file)
        assert (found.file, found) == (file, made) and text_of(found) == text_of(made)
    content = json.loads(file.read_text())
    assert content["version"] == 3 and content["weights"] == ROUND
    assert content["units"] == {name: weight.unit for name, weight in WEIGHTS.items()}


def test_how_different_maps_are_in_a_file() -> None:
    """It is in whole thousandths."""
    content = json.loads(text_of(confidence_of()))
    assert content["map_differs"] == {"value": 900, "low": 600, "high": 1200}


def changed(change: Callable[[Any], Any]) -> str:
    """A file of which something was changed."""
    content = json.loads(text_of(confidence_of()))
    change(content)
    return json.dumps(content)


@pytest.mark.parametrize(
    ("text", "reason"),
    [
        ("", "Expecting value"),
        ("[]", "TypeError"),
        ("[" * 100_000, "RecursionError"),
        (changed(lambda it: it.pop("apart")), "KeyError: 'apart'"),
        (changed(lambda it: it.update(weights=None)), "TypeError"),
        (changed(lambda it: it.update(about=7)), "TypeError"),
        (changed(lambda it: it.update(level="high")), "could not convert"),
    ],
)
def test_what_is_no_file(text: str, reason: str, tmp_path: Path) -> None:
    """Python reads what it shows. The numbers are the program's to refuse."""
    file = tmp_path / "file.json"
    file.write_text(text)
    with pytest.raises(ToolError) as raised:
        Confidence.of_file(file)
    assert str(raised.value).startswith(f"{file} is no confidence file, as olr-tools calibrate")
    assert reason in str(raised.value)
    with pytest.raises(ToolError, match="can't be read: No such file"):
        Confidence.of_file(tmp_path / "none.json")


def test_a_path_of_a_confidence(tmp_path: Path) -> None:
    """It is that of its file, or of a scratch file for one that has none, which is there as long as it is."""
    file = tmp_path / "confidence.json"
    file.write_text(text_of(confidence_of()))
    assert os.fspath(Confidence.of_file(file)) == str(file)
    other = replace(Confidence.of_file(file), level=0.5)
    scratch = Path(os.fspath(other))
    assert Confidence.of_file(scratch) == other and os.fspath(other) == str(scratch) != str(file)
    del other
    assert not scratch.exists()


def test_the_one_that_comes_with_the_package() -> None:
    """It is for the profile feed, says that maps differ somewhat, in a wide interval, and has the signs that it should."""
    shipped = Confidence.default()
    assert shipped is olr.Confidence.default()
    assert (shipped.tolerances, shipped.apart) == (tolerances_of(FEED), 750)
    differs = shipped.map_differs
    assert differs is not None and 0.5 < differs.value < 1
    assert differs.high - differs.low > 0.3
    for name, weight in WEIGHTS.items():
        assert weight.least <= shipped.weights[name] <= weight.greatest


def test_what_works_without_scipy() -> None:
    """A confidence is read by Python alone: only calibrate needs scipy."""
    others = "top not in (*sys.stdlib_module_names, 'olr')"
    ended = run_without(others, "import olr; print(len(olr.Confidence.default().weights))")
    assert (ended.returncode, ended.stdout) == (0, f"{len(WEIGHTS)}\n"), ended.stderr
