"""A feed with references of all kinds on a drawn map, and what a report's page has of it."""

import base64
import json
import re
import subprocess
from dataclasses import replace
from pathlib import Path
from typing import Any, NamedTuple

from asking import draw_map, draw_references
from conftest import Program
from olr.model.map_folder import read_map, write_csv
from olr.model.road_map import Line, Node, Position

CROWDED = "CwAAAAAAABtoAQBkAAAbGA=="
"""Two points at longitudes 0 and 0.001, between which more than 64 lines lie."""
MARKUP = "</script><b id=evil>&amp;"


class Feed(NamedTuple):
    """A map, and a file of messages."""

    folder: Path
    messages: Path


def make_feed(place: Path, count: int) -> Feed:
    """A feed on a map that lacks a corner and each twelfth of the other lines of the one that it was drawn on. Keys hold markup. It has so
    many references as drawn, and a quarter more of other kinds."""
    whole = read_map(draw_map(place / "whole", 600, 1200))
    lons = sorted(node.position.lon for node in whole.nodes)
    lats = sorted(node.position.lat for node in whole.nodes)
    corner = Position(lons[len(lons) // 4], lats[len(lats) // 3])
    cut = {
        node.id
        for node in whole.nodes
        if node.position.lon < corner.lon and node.position.lat < corner.lat
    }
    lines = [
        line
        for number, line in enumerate(whole.lines)
        if number % 12 and not {line.start, line.end} & cut
    ]
    nodes = [*whole.nodes, Node(1, Position(0, 0)), Node(2, Position(1000, 0))]
    for number in range(1, 71):
        shape = (Position(500, number),)
        lines.append(Line(number, 1, 2, number % 8, 3, 1113, shape))
    folder = place / "lacking"
    folder.mkdir()
    write_csv(replace(whole, nodes=nodes, lines=lines, bans=()), folder)
    texts = draw_references(place / "whole", count)
    texts += [point_along_line(text) for text in texts[1 : count // 4] if len(text) == 24] + [
        CROWDED
    ]
    messages = place / "feed.tsv"
    messages.write_text("".join(f"{at} {MARKUP}\t{text}\n" for at, text in enumerate(texts)))
    return Feed(folder, messages)


def point_along_line(text: str) -> str:
    """The reference of two points without offsets as one to a point along a line."""
    return base64.b64encode(b"\x2b" + base64.b64decode(text)[1:]).decode()


def data_of(page: Path) -> Any:
    """The data of a page."""
    text = page.read_text(encoding="utf-8")
    found = re.search(r'<script id="data" type="application/json">(.*?)</script>', text, re.DOTALL)
    assert found is not None
    return json.loads(found[1])


def tables_of(data: Any) -> dict[str, dict[str, int]]:
    """The tables of a report by their captions: what is counted, and how often."""
    return {
        table["caption"]: {label: count for label, _, count in table["rows"]}
        for section in data["sections"]
        for table in section["tables"]
    }


def jq(program: Program, feed: Feed, question: str, query: str, *options: object) -> Any:
    """What `jq` makes of the answers of `olr batch`, all of them as one list."""
    words = ["batch", question, "--map", feed.folder, "--input", feed.messages, *options]
    ended = program.run(*words)
    made = subprocess.run(
        ["jq", "--slurp", "--compact-output", query],
        input=ended.stdout,
        capture_output=True,
        text=True,
        check=True,
    )
    return json.loads(made.stdout)
