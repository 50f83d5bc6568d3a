"""Where OpenLR references lie on a road map: the program `olr` from Python, and tools around it.

To begin, install the modules of others: on Debian by `olr-tools setup`, elsewhere as the extra `geo` of the wheel. A map is a folder, which
`olr-tools import` makes; `examples` is one, which lies in `share/doc/olr` below `sys.prefix`. Then

>>> import olr
>>> with olr.Map("examples") as town:
...     town.places("CwVF/yN2yRpnBAFUAAgbpwYBAf9kK0Fa")
...
<Places: unique, 1 place, total 12>

and for a table of pandas `olr.locate(frame, "ref", "examples")`. From here go on with `help(olr.Map)`, whose answers are `Places`, `Page`,
`Candidates` and `Why`; `help(olr.locate)`; `olr.view(reference, "examples")`, which is a page on the map; `olr.decode`, what a reference says
without a map; `olr.read_messages` and `olr.read_feed`, a file of references; and `help(olr.ToolError)`, what may go wrong. In the repository
python/examples/first.md is a first session, notebook.md one with tables, and docs/GUIDE.md has all tasks.

`olr.Network` has a map as geometries, `olr.to_geodataframe` and `olr.to_pieces` make tables of answers, `olr.answers` reads what `olr-tools
run` wrote, and `olr.Confidence` is the file by which the program says how probable places are. All names are imported when they are first used. `olr.Map`,
`olr.Confidence`, `olr.decode`, `olr.read_messages`, `olr.read_feed` and answers need Python alone.

| package | subject |
|---|---|
| `model` | what the tools speak of: maps and their files, references, questions, answers |
| `asking` | how the program is asked |
| `physical` | references in degrees and metres, and their binary form |
| `client` | `olr.Map`: the program as objects |
| `regions` | maps of any size, and the part of one that a reference needs |
| `geometry` | `olr.Network`: maps and answers as geometries |
| `messages` | `olr.read_messages` and `olr.read_feed`: files of messages, in all formats |
| `osm`, `vector`, `importing` | maps from OpenStreetMap files and from other vector files; what both have in common |
| `checking` | what is wrong with a map's files, and what a map should be looked at for |
| `confidence` | `olr.Confidence`: by what the program says how probable places are, made by trials |
| `trials` | references whose true path is known, and maps that differ as those of two makers do |
| `matching` | answers as rows, tables and files with geometries |
| `comparing` | what changes for references with another map |
| `running` | any number of references on a map of any size, by many processes |
| `pages` | the pages of `view`, `report` and `compare`, and what all pages share |
| `serving` | answers by HTTP, and their page |
| `commands` | the commands of `olr-tools`; `tools` has their names |

The modules beside them serve all of these: `outputs` (files that are written whole or not at all), `content` (what files have in them, by
digests), `curve` and `sphere` (places along a space-filling curve, and in metres), `arrays`, `counts`, `reservoir` (some of many
things), `progress`, `errors`, `streams` (standard output and standard error of commands), `sources` (where lines came from, for users),
`extras` and `setup` (the modules of others that are needed), `version`. docs/ARCHITECTURE.md says which package may lean on which.
"""

import importlib.util
from typing import TYPE_CHECKING, Any

if TYPE_CHECKING:
    from olr.asking.once import decode
    from olr.client.map_client import Map
    from olr.client.written import answers
    from olr.confidence.confidence import Confidence
    from olr.errors import MapRefused, ProgramEnded, ProgramNotFound, TimedOut, ToolError
    from olr.geometry.network import Network
    from olr.matching.geodataframe import to_geodataframe, to_pieces
    from olr.matching.locating import locate
    from olr.messages.message import Message
    from olr.messages.reading import read_feed, read_messages
    from olr.model.answers import Candidates, Matching, Page, Places, Reference, Why
    from olr.model.fault import Fault
    from olr.model.legs_and_lines import Legs, Lines
    from olr.model.pieces import Piece, Place
    from olr.pages.view.showing import view

    __version__: str

__all__ = [
    "Candidates",
    "Confidence",
    "Fault",
    "Legs",
    "Lines",
    "Map",
    "MapRefused",
    "Matching",
    "Message",
    "Network",
    "Page",
    "Piece",
    "Place",
    "Places",
    "ProgramEnded",
    "ProgramNotFound",
    "Reference",
    "TimedOut",
    "ToolError",
    "Why",
    "answers",
    "decode",
    "locate",
    "read_feed",
    "read_messages",
    "to_geodataframe",
    "to_pieces",
    "view",
]
_MODULES = {
    "olr.asking.once": ("decode",),
    "olr.client.map_client": ("Map",),
    "olr.client.written": ("answers",),
    "olr.confidence.confidence": ("Confidence",),
    "olr.errors": ("MapRefused", "ProgramEnded", "ProgramNotFound", "TimedOut", "ToolError"),
    "olr.messages.message": ("Message",),
    "olr.messages.reading": ("read_feed", "read_messages"),
    "olr.model.answers": ("Candidates", "Matching", "Page", "Places", "Reference", "Why"),
    "olr.model.fault": ("Fault",),
    "olr.model.legs_and_lines": ("Legs", "Lines"),
    "olr.model.pieces": ("Piece", "Place"),
}
_OF_GEOMETRIES = {
    "olr.geometry.network": ("Network",),
    "olr.matching.geodataframe": ("to_geodataframe", "to_pieces"),
    "olr.matching.locating": ("locate",),
    "olr.pages.view.showing": ("view",),
}
"""These need modules of others."""
_MODULE_OF = {
    name: module for module, names in (_MODULES | _OF_GEOMETRIES).items() for name in names
}


def __getattr__(name: str) -> Any:
    """A public name, from its module, or the version."""
    if name == "__version__":
        return importlib.import_module("olr.version").VERSION
    if name not in _MODULE_OF:
        raise AttributeError(f"module olr has no {name}")
    return getattr(importlib.import_module(_MODULE_OF[name]), name)


def __dir__() -> list[str]:
    """The public names, before they are imported too. Those that lack modules of others are left out: `help` would fail at them."""
    from olr.setup import EXTRAS

    lacking: set[str] = set()
    if not all(map(importlib.util.find_spec, EXTRAS["geo"])):
        lacking.update(*_OF_GEOMETRIES.values())
    own = (name for name in globals() if name.startswith("__"))
    return sorted({*__all__, "__version__", *own} - lacking)
