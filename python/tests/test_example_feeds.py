"""The example feeds hold messages of the town, whatever their format: their references are those of examples/messages.tsv to the byte."""

import pytest
from typing import Any

import olr
from conftest import TOP

FEEDS = TOP / "examples/feeds"
TOWN = dict(olr.read_messages(TOP / "examples/messages.tsv"))


@pytest.mark.parametrize(
    ("name", "options", "keys"),
    [
        ("situations.xml", {}, ["m1", "m3"]),
        ("locations.xml", {}, ["m2", "m3"]),
        ("incidents.json", {"key": "id"}, ["m1", "m3"]),
        ("events.geojson", {}, ["m2", "m3"]),
        ("detectors.csv", {"ref": "openlr", "key": "id"}, ["m1", "m2", "m3"]),
    ],
)
def test_messages(name: str, options: dict[str, Any], keys: list[str]) -> None:
    found = list(olr.read_messages(FEEDS / name, **options))
    assert found == [(key, TOWN[key]) for key in keys]
    assert f"[{name}]({name})" in (FEEDS / "README.md").read_text()
