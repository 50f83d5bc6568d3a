"""What is said where a module is missing: by the commands and public names that need it. It needs Python alone.

`olr.Map`, `olr.decode`, `olr.read_messages`, `olr.read_feed` and answers need no module of others. What needs a module that isn't there says so by `lacking`, with
Debian's package and the extra that have it.
"""

from collections.abc import Iterator
from contextlib import contextmanager

from olr.errors import MissingModule
from olr.setup import ALWAYS, EXTRAS, MODULES

COMMANDS = {
    "calibrate": ("maps", "Find by trials how probable places are, on a map of one's own."),
    "check": ("maps", "Find what is wrong with a map."),
    "compare": ("geo", "Say what changes for references with another map."),
    "import osm": ("maps", "Make a map from an OpenStreetMap file."),
    "import vector": ("maps", "Make a map from a GeoPackage, Shapefile or GeoJSON file."),
    "match": ("geo", "Match a file of references, and write geometries."),
    "page": ("geo", "Write a page that answers by itself, without a server."),
    "regions": ("scale", "Make a store of a map of any size."),
    "report": ("geo", "Say what is wrong with a feed, or with a map, as a page."),
    "run": ("scale", "Match any number of references, on many machines."),
    "serve": ("serve", "Answer questions about references, by HTTP."),
    "u-turns": ("maps", "Add bans on turning back to a map."),
    "view": ("geo", "Show a reference on a map, as a page."),
}
"""The commands of `olr-tools`, each with its extra and its short help. `olr.commands` has a module for each, by its words."""

COMES_WITH = {"dask": "distributed", "markupsafe": "jinja2", "pandas": "geopandas"}
"""Modules that come with another one, which alone is named."""


def lacking(user: str, missing: ModuleNotFoundError, extra: str | None = None) -> MissingModule:
    """What is said where `user`, a command or a public name, lacks a module. `extra` is the one of the user; by default it is that
    of the command. Raises `missing` itself if it is no module of others."""
    module = (missing.name or "olr").partition(".")[0]
    if module == "olr":
        raise missing
    module = COMES_WITH.get(module, module)
    of_command, _ = COMMANDS.get(user, ("maps", ""))
    wanted = extra or of_command
    if module not in (*ALWAYS, *EXTRAS[wanted]):
        wanted = next((name for name, brought in EXTRAS.items() if module in brought), wanted)
    text = f"install the extra olr[{wanted}] of the wheel"
    if module in MODULES:
        text = f"on Debian run olr-tools setup ({MODULES[module]}), elsewhere {text}"
    return MissingModule(f"{user} needs the module {module}: {text}", name=module)


@contextmanager
def needed_by(user: str, extra: str) -> Iterator[None]:
    """Imports for a public name of the package. Raises `MissingModule` if a module isn't installed."""
    try:
        yield
    except ModuleNotFoundError as missing:
        raise lacking(user, missing, extra) from missing
