"""Links of pages that are given out: those that lead to a file which isn't given out with them become words."""

import posixpath
import re
from collections.abc import Container, Iterable

from release.files import Entry

LINK = re.compile(r"(?<!!)\[([^]]*)\]\(([^)\s]+)\)")
"""A link on a page: its text, and where it leads. A picture isn't one."""

FENCED = re.compile(r"(?ms)^```.*?^```$")
"""A block of code, in which nothing is a link."""


def with_living_links(entries: Iterable[Entry]) -> list[Entry]:
    """Files that are given out together, by their paths in the repository. Their pages lead to one another, and name what isn't
    among them as a file of the repository."""
    all_of_them = list(entries)
    names = {entry.path for entry in all_of_them}
    names |= {parent for name in names for parent in _folders(name)}
    return [
        entry._replace(content=living(entry.path, entry.content.decode(), names).encode())
        if entry.path.endswith(".md")
        else entry
        for entry in all_of_them
    ]


def living(page: str, text: str, names: Container[str]) -> str:
    """The text of a page, by its path in the repository, with links to these files and folders alone."""

    def replaced(link: re.Match[str]) -> str:
        shown, target = link[1], link[2]
        file = target.partition("#")[0]
        path = posixpath.normpath(posixpath.join(posixpath.dirname(page), file))
        if not file or re.match(r"\w+:", target) or path in names:
            return link[0]
        return shown if shown.strip("`") == path else f"{shown} (`{path}` of the repository)"

    parts = re.split(r"(?ms)(^```.*?^```$)", text)
    return "".join(part if FENCED.fullmatch(part) else LINK.sub(replaced, part) for part in parts)


def _folders(name: str) -> list[str]:
    """The folders in which a file lies."""
    parts = name.split("/")
    return ["/".join(parts[:count]) for count in range(1, len(parts))]
