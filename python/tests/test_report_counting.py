"""What `olr-tools report` counts by: sums of probabilities, ranges, and samples."""

import pytest
from collections import Counter

import olr
from olr.confidence.expected import Expected
from olr.messages.message import Message
from olr.pages.report.counting import EDGES, Histogram
from olr.pages.report.sample import Sample, equal_shares


@pytest.mark.parametrize(
    ("probabilities", "text"),
    [
        ([0.75] * 400, "about 300 of 400 likeliest places are right (283 to 317)"),
        ([1.0] * 3000, "about 3,000 of 3,000 likeliest places are right (3,000 to 3,000)"),
        ([0.5], "about 0 of 1 likeliest place is right (0 to 1)"),
        ([], "about 0 of 0 likeliest places are right (0 to 0)"),
    ],
)
def test_sums_of_probabilities(probabilities: list[float], text: str) -> None:
    """Of 400 places the standard deviation is the root of 400 * 0.75 * 0.25, which is 8.66: 1.96 of them are 17."""
    expected = Expected()
    for one in probabilities:
        expected.add(one)
    assert expected.text() == text


def test_a_level_that_may_be_off() -> None:
    """Of 400 places 0.05 are 20, and with 8.66 by chance a deviation of 21.8: 1.96 of them are 42.7."""
    expected = Expected()
    for _ in range(400):
        expected.add(0.75)
    assert expected.text(0.05) == "about 300 of 400 likeliest places are right (257 to 343)"


def test_ranges() -> None:
    histogram = Histogram()
    for points in (0, 1, 4, 5, 29, 30, 999, 1000, 14_620):
        histogram.add(points)
    assert histogram.rows() == [
        ("0", 1), ("1 to 4", 2), ("5 to 9", 1), ("10 to 19", 0), ("20 to 29", 1), ("30 to 49", 1),
        ("50 to 99", 0), ("100 to 199", 0), ("200 to 499", 0), ("500 to 999", 1), ("1,000 or more", 2),
    ]  # fmt: skip
    assert len(EDGES) == 11 and Histogram().rows() == []


@pytest.mark.parametrize(
    ("sizes", "most", "shares"),
    [
        ({"a": 3, "b": 100, "c": 9}, 30, {"a": 3, "c": 9, "b": 18}),
        ({"a": 3, "b": 4}, 30, {"a": 3, "b": 4}),
        ({"a": 50, "b": 50, "c": 50}, 10, {"a": 3, "b": 3, "c": 4}),
        ({"a": 1, "b": 1, "c": 1}, 2, {"a": 0, "b": 1, "c": 1}),
        ({}, 2, {}),
    ],
)
def test_equal_shares(sizes: dict[str, int], most: int, shares: dict[str, int]) -> None:
    assert equal_shares(sizes, most) == shares


def test_each_message_is_as_likely_in_a_sample() -> None:
    """Of 1,000 messages of one outcome 500 are kept: of each fifth about 100, where the standard deviation is below 9."""
    sample = Sample(500)
    for record in range(1, 1001):
        sample.add(Message(record, None, "x"), olr.Fault("NotBase64"))
    records = [drawn.message.record for drawn in sample.chosen()]
    assert len(set(records)) == 500 and records == sorted(records)
    fifths = Counter((record - 1) // 200 for record in records)
    assert all(65 < fifths[number] < 135 for number in range(5))
