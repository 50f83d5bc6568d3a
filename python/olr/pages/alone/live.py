"""Pages that answer by themselves, made for references that were asked already: of `view --live` and `report --live`."""

import html
from collections.abc import Mapping, Sequence
from importlib import resources
from pathlib import Path
from typing import Any, NamedTuple
from urllib.parse import quote

from olr.client.map_client import Map
from olr.messages.message import Message
from olr.model.asked_with import Asking
from olr.model.profiles import DEFAULT_PROFILE, PROFILE, others_than, resolved
from olr.model.questions import NUMBERS
from olr.pages.alone.making import carried_of
from olr.pages.alone.page import Opened, html_of, packed, policy_of
from olr.pages.alone.part import Part, part_for

LIST = "?list=all"
"""The address of the page that answers, with the list of all references of a report."""
UNESCAPED = "/!*'()"
"""What address.js doesn't escape."""
NAMES = ("record", "key", "reference", "own")
"""What a list has of each message, as list.js keeps it."""
NOTE = (
    "This page has {lines:,} of the {all_lines:,} lines of the map: all that the answers about {what} depend on, with any tolerances, so they "
    "are those of the whole map. It answers nothing about other references."
)
TWO = """<!DOCTYPE html>
<html lang="en">
<head>
<meta charset="utf-8">
<meta http-equiv="Content-Security-Policy" content="{policy}">
<meta name="viewport" content="width=device-width, initial-scale=1">
<title>{title}</title>
<link rel="icon" href="data:,">
</head>
<body>
<noscript>This page is drawn by its scripts, and they don't run here, as in the preview of a mail: save the file, and open it in a
browser.</noscript>
<p id="unable" hidden>This page can't be drawn in this browser: open it in a current Firefox, Chrome or Edge.</p>
<script id="packed" type="text/plain">{packed}</script>
<script>{script}</script>
</body>
</html>
"""


class Making(NamedTuple):
    """Of what a page is made."""

    folder: Path
    """That of the map, or its store."""
    confidence: Path | None
    """The file by which places have probabilities; None for the one that comes with the package."""
    tiles: str | None


class Live(NamedTuple):
    """A page that answers, and what it carries of the map."""

    page: str
    part: Part

    def line(self, size: int, references: int) -> str:
        """What a summary says of a file of so many bytes that has it, which was made for so many references."""
        lines, all_lines = self.part.lines, self.part.all_lines
        some = f"all {lines:,}" if lines == all_lines else f"{lines:,} of {all_lines:,}"
        has = f"it answers by itself: {size / 1e6:.1f} MB, with {some} lines of the map"
        room = self.part.references
        return has if room == references else f"{has}, for {room:,} of {references:,} rows"


def page_for_reference(asked: Map, making: Making, asking: Asking, message: Message) -> Live:
    """The page that opens with the reference of a message, of which a map was asked so. A record of 0 is none. Raises `ToolError` as
    `part_for` and `carried_of`."""
    part = part_for(asked, [message.reference])
    return _page(making, part, {"open": address_of(asking, message)}, "its reference")


def page_for_list(asked: Map, making: Making, messages: Sequence[Message]) -> Live:
    """The page that has a list of messages if its address has no reference. Those for which there is no room aren't in the list. Raises as
    `page_for_reference`."""
    part = part_for(asked, [one.reference for one in messages])
    there = messages[: part.references]
    left = len(messages) - len(there)
    note = f"{left:,} others of the report aren't here: there is no room for the map near them."
    rows = [(one.record, one.key, one.reference, one.fault) for one in there]
    kept: dict[str, object] = {
        "map": None,
        "options": {},
        "state": "asking",
        "note": note if left else "",
    }
    start = {"list": kept | {"names": NAMES, "rows": rows}} if rows else {}
    return _page(making, part, start, f"its {len(there):,} references")


def address_of(asking: Asking, message: Message | None) -> str:
    """The query of the address at which the page shows a reference, or its list, asked with these numbers: as address.js has it."""
    others = others_than(asking.profile, resolved(asking.profile, asking.given))
    of_message = {} if message is None else _of_message(message)
    pairs: dict[str, object] = {
        **of_message,
        **({} if asking.profile == DEFAULT_PROFILE else {PROFILE: asking.profile}),
        **others,
        **{
            name: value
            for name, value in asking.numbers.items()
            if value != NUMBERS[asking.question][name].default
        },
    }
    words = [f"{name}={quote(str(value), UNESCAPED)}" for name, value in pairs.items()]
    return "&".join([LIST, *words]) if message is None else f"?{'&'.join(words)}"


def add_addresses(
    rows: Sequence[dict[str, Any]], messages: Sequence[Message], asking: Asking, live: Live
) -> None:
    """Adds to rows about messages where each can be asked again, as far as it has a reference for which there is room."""
    for row, message in zip(rows[: live.part.references], messages):
        if message.reference.strip():
            row["live"] = address_of(asking, message)


def two_pages(title: str, report: str, live: Live, tiles: str | None) -> str:
    """A file with two pages: the report, and at an address with a question the one that answers."""
    files = {"report.html": report.encode(), "asking.html": live.page.encode()}
    script = "".join(_script(name) for name in ("packing.js", "choosing.js"))
    values = {"policy": policy_of(tiles), "title": html.escape(title)}
    return TWO.format(**values, packed=packed(files), script=script)


def _page(making: Making, part: Part, start: Mapping[str, Any], what: str) -> Live:
    """The page of a part of a map, which was made for what is called so."""
    is_whole = part.points is None
    note = "" if is_whole else NOTE.format(lines=part.lines, all_lines=part.all_lines, what=what)
    opened = Opened(start, part.points, note)
    carried = carried_of(making.folder, part.version, part.files, making.confidence)
    return Live(html_of(carried._replace(tiles=making.tiles, opened=opened)), part)


def _of_message(message: Message) -> dict[str, object]:
    """What an address says of a message."""
    found = {"ref": message.reference.strip(), "key": message.key, "record": message.record}
    return {name: value for name, value in found.items() if value}


def _script(name: str) -> str:
    return resources.files("olr.pages.alone").joinpath(name).read_text(encoding="utf-8")
