"""GeoJSON of `olr-tools serve`, with a made-up map: when it is wanted, and that all of it is of one version of the map."""

import asyncio
import pytest
from collections.abc import Mapping
from io import BytesIO
from pathlib import Path
from typing import cast

from fake_pool import run_within, turns
from olr.asking.files import Version
from olr.errors import MapRefused
from olr.serving.features import Features, is_wanted
from olr.serving.limits import Limits
from olr.serving.makers import Makers
from olr.serving.process import Answer
from olr.serving.queries import Question, asked_of
from olr.serving.rooms import Room
from olr.serving.served import Served
from olr.serving.tasks import MapVersion, Task

GEOJSON = "application/geo+json"


@pytest.mark.parametrize(
    "accept",
    [
        GEOJSON,
        "Application/GEO+JSON",
        f"{GEOJSON};q=0.001",
        f"{GEOJSON}; Q=1.000",
        f"{GEOJSON};charset=utf-8;q=0.5",
        f"{GEOJSON}, application/json",
        f"application/json;q=0.9,{GEOJSON}",
        f"{GEOJSON};q=0.5, application/json;q=0.5",
        f"{GEOJSON}, */*",
        f"text/html, {GEOJSON};q=0.4, */*;q=0.3",
        f"*/*;q=0, {GEOJSON}",
        "application/json;q=0, */*",
        "application/json;q=0.2, application/*;q=0.3",
        f"{GEOJSON};q=nonsense",
    ],
)
def test_geojson_is_wanted(accept: str) -> None:
    assert is_wanted(accept)


@pytest.mark.parametrize(
    "accept",
    [
        "",
        "application/json",
        "*/*",
        "application/*",
        "text/html,application/xhtml+xml,application/xml;q=0.9,*/*;q=0.8",
        f"{GEOJSON};q=0",
        f"{GEOJSON}; q=0.000, */*",
        f"{GEOJSON};q=0, */*;q=0",
        f"{GEOJSON};q=0.5, application/json",
        f"{GEOJSON};q=0.5, */*",
        "application/json;q=0.5, application/*;q=0, */*",
        "application/geo+jsonp",
        "x/application/geo+json",
    ],
)
def test_json_is_wanted(accept: str) -> None:
    assert not is_wanted(accept)


class FakeMap:
    """A map whose answers are of other versions."""

    def __init__(self, versions: Mapping[str, str], network: str) -> None:
        """The digest of the version of each kind of answers, and that of the network."""
        self.versions, self.asked = versions, 0
        self.digest = network

    async def answer(self, question: Question) -> Answer:
        """An answer in which there is nothing."""
        self.asked += 1
        empty = {"match": b'{"matchings":[],"next":null}', "candidates": b'{"points":[]}'}
        what = question.asked.what
        return Answer(empty[what], None, Version(self.versions[what], None))

    def files(self) -> tuple[Path, ...]:
        """None that is read."""
        return ()


class FakeMakers(Makers):
    """Makes nothing, of the version that is there."""

    def __init__(self, digest: str) -> None:
        super().__init__(Limits())
        self.digest = digest

    async def made(self, map: MapVersion, task: Task) -> BytesIO:
        """An empty answer. Raises `MapRefused` for another version."""
        if map.version.network != self.digest:
            raise MapRefused("another version of the map is there")
        return BytesIO()


def features_of(served: FakeMap) -> Features:
    """What makes GeoJSON of a map."""
    return Features(cast(Served, served), FakeMakers(served.digest), Room(5, 1))


@pytest.mark.parametrize(("page", "most"), [(100, 3), (101, 1)])
def test_large_ones_are_made_one_at_a_time(page: int, most: int) -> None:
    """From the question on."""
    there = greatest = 0

    class Counting(FakeMap):
        async def answer(self, question: Question) -> Answer:
            nonlocal there, greatest
            there += 1
            greatest = max(greatest, there)
            await turns()
            there -= 1
            return await super().answer(question)

    async def run() -> None:
        features = features_of(Counting({"match": "a", "candidates": "a"}, "a"))
        question = Question(asked_of("match", {"page": str(page)}, 10_000), b"x", None)
        asked = [features.of(question) for _ in range(3)]
        await asyncio.gather(*asked)
        assert greatest == most

    run_within(run())


@pytest.mark.parametrize("other", ["match", "candidates", "network"])
def test_answers_of_another_version(other: str) -> None:
    """They are asked once more, and then refused."""
    digests = {
        what: "old" if what == other else "new" for what in ("match", "candidates", "network")
    }
    fake = FakeMap(digests, digests["network"])
    question = Question(asked_of("match", {}, 10_000), b"x", None)

    async def run() -> None:
        features = features_of(fake)
        await features.of(question)

    with pytest.raises(MapRefused, match="another version of the map"):
        run_within(run())
    assert fake.asked == 4
