"""Where the lines of a map came from, as a page has it: what the columns `sources` and `names` of its features need."""

import json
from collections.abc import Iterable

from olr.model.sources import Sources

SOURCES = "sources.json"
"""What the page calls it."""


def sources_text(sources: Sources, lines: Iterable[int]) -> str:
    """The JSON of a list with each source, its name, and those of these lines that came from it. Raises `ToolError` if the sources can't be
    read."""
    roads: dict[tuple[str, str], list[int]] = {}
    for line in lines:
        origin = sources.get(line)
        if origin is not None:
            roads.setdefault((origin.source, origin.name), []).append(line)
    found = [[*road, its_lines] for road, its_lines in roads.items()]
    return json.dumps(found, separators=(",", ":"))
