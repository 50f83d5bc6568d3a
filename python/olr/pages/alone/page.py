"""The file of a page that answers by itself: serve's page, the program, a map, and what its scripts have of Python's tables."""

import base64
import gzip
import hashlib
import html
import json
import re
from collections.abc import Mapping, Sequence
from importlib import resources
from typing import Any, NamedTuple

from olr.model.box import Box
from olr.model.profiles import DEFAULT_PROFILE, PROFILES, tolerances_of
from olr.model.questions import NUMBERS, TOLERANCES, Number, options_for
from olr.pages.alone.module import MODULE
from olr.pages.alone.tables import tables
from olr.pages.html import data_text, filled, leaflet, licences, origin_of
from olr.pages.page_data import page_data

OWN = ("packing.js", "opening.js", "asking.js", "licences.js")
"""Scripts of the page that come before those of the server's page."""
SHARED = (
    "packing.js",
    "questions.js",
    "numbers.js",
    "formats.js",
    "exact_json.js",
    "pieces.js",
    "sources.js",
    "faults.js",
    "asked_with.js",
    "sentences.js",
    "rows.js",
    "surroundings.js",
    "notes.js",
    "scene.js",
    "list_kept.js",
    "list_texts.js",
    "list_packed.js",
    "list_csv.js",
    "list_tokens.js",
    "list_json.js",
    "list_members.js",
    "list_markup.js",
    "list_elements.js",
    "list_documents.js",
    "list_xml.js",
    "openlr_words.js",
    "openlr_writing.js",
    "openlr_references.js",
    "openlr_xml.js",
    "lists.js",
    "features.js",
)
"""Scripts that make of the program's answers what the server makes of them, in an order in which they can be read."""
WORKER = (*SHARED, "olr.js", "program.js", "part.js", "worker.js")
"""Scripts of its worker."""
MOST_LIST, MOST_ROWS = 16 << 20, 10_000
"""Bytes of a list, and messages of one that are shown, as on a server."""
STYLE = re.compile(r'<link rel="stylesheet" href="assets/([a-z.-]+)">\n')
SCRIPT = re.compile(r'<script src="assets/([a-z.-]+)" defer></script>\n')
OF_SERVER = {
    "<title>olr-tools serve</title>": "<title>A map that answers</title>",
    '    <a href="docs" class="small">addresses and faults</a>\n': "",
    "a colleague who opens it sees the same.": "a colleague who puts its end, from the ? on, behind that of a copy sees the same.",
    'href="assets/licences.txt"': 'href="#licences"',
}
"""What the server's page has that this one can't have, and what stands in its place."""
ABOUT_SERVER = {
    "The answer broke off: the server has ended, or a process took too long.": "The answer broke off: the program was begun again.",
    "The server can't be reached: it has ended, or the connection is broken.": "The answer broke off: the program was begun again.",
}
"""Likewise, of its scripts."""
UNABLE = """  <noscript><p class="problem">This page answers by its scripts, and they don't run here, as in the preview of a mail: save the file, and open it
    in a browser.</p></noscript>
  <p id="unable" class="problem">The program in this page doesn't start in this browser: open it in a current Firefox, Chrome or Edge. It needs
    WebAssembly, and room for the map.</p>
"""
"""What is seen where a page can't answer."""
ABOUT = """      <h2>What this page is</h2>
      <p>It has the program olr in it, as a WebAssembly module, and the map {name}{cut}.
        Nothing that you enter leaves it, and it needs no network. The program is built from one that is proved:
        what was done to it since is tested, not proved.</p>
      {edge}<p class="small">Module {module}, map {map}.</p>
      <details id="licences" class="small"><summary>Licences of all that this page carries</summary><pre></pre></details>
"""
EDGE = """<p>The map ends at the edges of that box: near them, and beyond, a reference may have other answers than on the whole map, or
        none.</p>
      """
"""What the page of a cut map says besides."""


class Opened(NamedTuple):
    """What a page has besides that was made for some references."""

    start: Mapping[str, Any]
    """What it shows first: `open` is the query of an address, `list` a list as kept.js keeps one."""
    points: Sequence[str] | None
    """As those of a part of the map."""
    note: str
    """What it says of that, always to be seen."""


class Carried(NamedTuple):
    """What a page carries."""

    name: str
    """Of the map, as its reader sees it."""
    digest: Mapping[str, str | None]
    """Of its files."""
    files: Mapping[str, bytes]
    """Those of the map, what `sources.py` says of its lines, `olr.wasm`, and that of a confidence."""
    tiles: str | None = None
    """A URL of tiles with `{z}`, `{x}` and `{y}`: the page loads nothing else."""
    box: Box | None = None
    """To which the map was cut."""
    folder: str | None = None
    """The name of the map's folder in commands; None if the program doesn't read the map."""
    opened: Opened | None = None


def html_of(carried: Carried) -> str:
    """The page. Raises `ToolError` if Leaflet isn't installed."""
    opened = carried.opened or Opened({}, None, "")
    data = page_data(NUMBERS["places"], MOST_LIST, MOST_ROWS, carried.tiles) | {
        **opened.start,
        "title": carried.name,
        "map": {
            "name": carried.name,
            "folder": carried.folder,
            "shown": carried.name + cut_text(carried.box),
            "digest": carried.digest,
            "points": opened.points,
        },
        "questions": _questions(),
        "tables": tables(),
    }
    text = filled(_asset("index.html"), {"data": data_text(data)})
    text = STYLE.sub(lambda found: f"<style>{_asset(found[1])}</style>\n", text)
    names = SCRIPT.findall(text)
    scripts = [*map(_own, OWN), *(_replaced(_asset(name), ABOUT_SERVER) for name in names)]
    behind = [
        f'<script id="packed" type="text/plain">{packed(carried.files)}</script>',
        f'<script id="packed-licences" type="text/plain">{packed({"licences": licences().encode()})}</script>',
        f'<script id="worker" type="text/plain">{_inline("".join(map(_own, WORKER)))}</script>',
        *(f"<script>{_inline(script)}</script>" for script in scripts),
    ]
    policy = f'<meta http-equiv="Content-Security-Policy" content="{policy_of(carried.tiles)}">'
    text = _replaced(text, OF_SERVER).replace("</header>", f"{UNABLE}</header>", 1)
    text = text.replace("    </section>\n", f"{_about(carried)}    </section>\n", 1)
    text = text.replace("</header>", f"{_note(opened.note)}</header>", 1)
    text = SCRIPT.sub("", text).replace("<head>\n", f"<head>\n{policy}\n", 1)
    return text.replace("</body>", "\n".join([*behind, "</body>"]))


def cut_text(box: Box | None) -> str:
    """What is said behind the name of a map that was cut to a box."""
    return "" if box is None else f", cut to the box {box.text()}"


def policy_of(tiles: str | None) -> str:
    """Nothing is loaded from outside but images of `tiles`, if that is given, and nothing is sent there. Raises `ToolError` if it isn't the
    URL of tiles."""
    images = "data:" if tiles is None else f"data: {origin_of(tiles)}"
    return (
        "default-src 'none'; script-src 'unsafe-inline' 'wasm-unsafe-eval'; worker-src blob:; style-src 'unsafe-inline'; "
        f"img-src {images}; base-uri 'none'; form-action 'none'"
    )


def packed(files: Mapping[str, bytes]) -> str:
    """Files as a text: a line of JSON with the name and size of each, and then their bytes, packed by gzip, in base64."""
    head = json.dumps([{"name": name, "size": len(content)} for name, content in files.items()])
    content = b"".join([head.encode(), b"\n", *files.values()])
    return base64.b64encode(gzip.compress(content, mtime=0)).decode()


def _note(text: str) -> str:
    """A note below the fields."""
    return f'  <p id="part" class="small">{html.escape(text)}</p>\n' if text else ""


def _about(carried: Carried) -> str:
    """What the page says of itself."""
    module = hashlib.sha256(carried.files[MODULE]).hexdigest()
    values = {
        "name": carried.name,
        "cut": cut_text(carried.box),
        "module": module,
        "map": carried.digest["network"] or "",
    }
    edge = "" if carried.box is None else EDGE
    return ABOUT.format(edge=edge, **{name: html.escape(it) for name, it in values.items()})


def _questions() -> dict[str, Any]:
    """The numbers of questions, the words of their other options, the tolerances of profiles, and the profile where none is named."""
    return {
        "tolerances": _rows(TOLERANCES),
        "numbers": {what: _rows(numbers) for what, numbers in NUMBERS.items()},
        "options": {
            what: {name: option.words for name, option in options_for(what).items()}
            for what in NUMBERS
        },
        "profiles": {name: tolerances_of(name) for name in PROFILES},
        "profile": DEFAULT_PROFILE,
    }


def _rows(numbers: Mapping[str, Number]) -> dict[str, Any]:
    return {name: number._asdict() for name, number in numbers.items()}


def _replaced(text: str, others: Mapping[str, str]) -> str:
    """A text with others in place of some of its parts."""
    for old, new in others.items():
        text = text.replace(old, new)
    return text


def _inline(script: str) -> str:
    """A script as it may stand in an element."""
    return script.replace("</script", "<\\/script")


def _own(name: str) -> str:
    return resources.files("olr.pages.alone").joinpath(name).read_text(encoding="utf-8")


def _asset(name: str) -> str:
    """A file of the server's page."""
    if name == "leaflet.js":
        return leaflet("leaflet.min.js")
    if name == "leaflet.css":
        return re.sub(r"url\([^)]*\)", "none", leaflet(name))
    shared = resources.files("olr.pages").joinpath(name)
    own = resources.files("olr.serving").joinpath("assets", name)
    return (shared if shared.is_file() else own).read_text(encoding="utf-8")
