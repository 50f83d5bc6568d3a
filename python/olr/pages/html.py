"""Pages of one file each: a template, Leaflet, styles, scripts and data."""

import html
import json
import re
from collections.abc import Iterable, Mapping, Sequence
from importlib import resources
from jinja2 import Environment, StrictUndefined
from markupsafe import Markup
from pathlib import Path
from typing import Any, NamedTuple
from urllib.parse import urlsplit

from olr.errors import ToolError
from olr.outputs import require_free_file
from olr.version import TOP

LEAFLET = (Path(__file__).with_name("leaflet"), Path("/usr/share/javascript/leaflet"))
"""Where Leaflet is looked for: it came with this package, as in a wheel, or Debian's package libjs-leaflet has it there."""
HOST = re.compile(r"([A-Za-z0-9._{}-]+|\[[0-9A-Fa-f:.]+\])(:[0-9]{1,5})?")
"""The host of tiles, with a port: nothing else may stand in the policy of a page."""
SHARED = "olr.pages"
FROM_PAGE = ("policy", "title", "licences", "leaflet_css", "leaflet_js", "data")
"""What a page that makes others puts into their templates."""
LICENCES = Path(__file__).with_name("licences")
"""The texts of licences, which came with this package, as in a wheel. The repository has them at its top."""
SUFFIXES = (".html", ".htm")
BASE = "base.css"
"""Styles of all pages: colours, light and dark, and the focus."""
STYLES = {"picture": "picture.css"}
"""Of components; the others have those of `shared.css`."""


class Template(NamedTuple):
    """What a page is made of."""

    package: str
    """The one that has its `page.html`, `page.css` and `page.js`."""
    components: Sequence[str] = ()
    """Of this package: `bars`, `map`, `picture`, `scenes`, `table`. The page has the styles of each."""


def require_html(file: Path) -> None:
    """Raises `ToolError` if a file has no suffix of a page."""
    if file.suffix.lower() not in SUFFIXES:
        raise ToolError(f"{file} has no suffix that is known: name a file .html")


def require_page(file: Path, force: bool, inputs: Iterable[Path]) -> None:
    """Raises `ToolError` as `require_html` and `require_free_file`."""
    require_html(file)
    require_free_file(file, force, inputs)


def html_of(
    template: Template, title: str, data: Mapping[str, Any], tiles: str | None = None
) -> str:
    """A page of HTML with data, which its script finds in the element `data`, and there `tiles` too. It loads nothing, but for the images
    of `tiles` if that is given: a URL with `{z}`, `{x}` and `{y}`. Raises `ToolError` if Leaflet isn't installed, or the URL isn't one.
    """
    images = "data:" if tiles is None else f"data: {origin_of(tiles)}"
    policy = f"default-src 'none'; script-src 'unsafe-inline'; style-src 'unsafe-inline'; img-src {images}"
    values = {
        "policy": policy,
        "title": title,
        "licences": licences(),
        "leaflet_css": re.sub(r"url\([^)]*\)", "none", leaflet("leaflet.css")),
        "leaflet_js": leaflet("leaflet.min.js").replace("</script", "<\\/script"),
        "data": data_text({**data, "tiles": tiles}),
    }
    return _page(template, values)


def data_text(data: Mapping[str, Any]) -> str:
    """Data as JSON that may stand in an element of a page."""
    text = json.dumps(data, separators=(",", ":"), ensure_ascii=False)
    return text.replace("<", "\\u003c").replace("\u2028", "\\u2028")


def unfilled(template: Template) -> str:
    """A page with its own styles and scripts, but with the marks `@POLICY@`, `@TITLE@`, `@LICENCES@`, `@LEAFLET_CSS@`, `@LEAFLET_JS@` and
    `@DATA@`: for a page that makes others."""
    return _page(template, {name: f"@{name.upper()}@" for name in FROM_PAGE})


def _page(template: Template, values: Mapping[str, str]) -> str:
    """A page with values and what depends on nothing else: its styles and scripts."""
    styles = dict.fromkeys(STYLES.get(name, "shared.css") for name in template.components)
    scripts = [_file(SHARED, f"{name}.js") for name in template.components]
    own = {
        "css": "".join(
            [
                *(_file(SHARED, name) for name in (BASE, *styles)),
                _file(template.package, "page.css"),
            ]
        ),
        "js": "".join([*scripts, _file(template.package, "page.js")]),
    }
    return filled(_file(template.package, "page.html"), own | values)


def filled(text: str, values: Mapping[str, Any]) -> str:
    """The text of a template of jinja2 with values, which are escaped where it doesn't call them safe. Raises `UndefinedError` where one
    is missing."""
    return TEMPLATES.from_string(text).render(values)


def _escaped(value: object) -> object:
    """What stands for a value: jinja2 has other references for quotes than Python's `html`."""
    return value if hasattr(value, "__html__") else Markup(html.escape(str(value)))


TEMPLATES = Environment(
    autoescape=True, finalize=_escaped, keep_trailing_newline=True, undefined=StrictUndefined
)


def _file(package: str, name: str) -> str:
    """A file of a package."""
    return resources.files(package).joinpath(name).read_text(encoding="utf-8")


def licences() -> str:
    """What says whose all is that a page may carry, and the licences of it: the texts that go along with each release. Raises
    `ToolError` if they are missing."""
    folder = LICENCES if LICENCES.is_dir() else TOP
    try:
        return "\n\n".join((folder / name).read_text("utf-8") for name in ("NOTICE", "LICENSE"))
    except OSError as error:
        raise ToolError(
            f"a page needs the texts of licences, and there is no {error.filename}: install a release of olr-tools"
        ) from error


def leaflet(name: str) -> str:
    """A file of Leaflet: `leaflet.css` or `leaflet.min.js`. Raises `ToolError` if it isn't installed."""
    files = [folder / name for folder in LEAFLET]
    try:
        text = next(filter(Path.is_file, files), files[-1]).read_text(encoding="utf-8")
    except OSError as error:
        raise ToolError(
            "a page needs Leaflet: on Debian run olr-tools setup (libjs-leaflet)"
        ) from error
    return re.sub(r"(?m)^//# sourceMappingURL=.*$", "", text)


def origin_of(tiles: str) -> str:
    """The origin of the URL of tiles, with a star for a part of its name that varies."""
    parts = urlsplit(tiles)
    is_right = parts.scheme in ("http", "https") and HOST.fullmatch(parts.netloc)
    if not is_right or "{z}" not in tiles:
        raise ToolError(
            f"{tiles} is no URL of tiles: one looks like https://tiles.example/{{z}}/{{x}}/{{y}}.png"
        )
    return f"{parts.scheme}://{parts.netloc.replace('{s}', '*')}"
