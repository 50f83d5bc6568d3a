"""Pages of the archive, of the package and of the wheel: each link leads to a file that is there, and none is lost that could stay."""

import posixpath
import pytest
import re
from collections.abc import Iterator

from release.files import Entry
from release.links import living, with_living_links
from release.program_files import documents
from release.state import State
from release.wheel import description
from test_documents import anchors_of

ARCHIVE = ("LICENSE", "NOTICE")
PACKED = (("archive", ARCHIVE), ("package", ()))
"""What is given out, with its files besides those that all have."""


def links_of(text: str) -> list[str]:
    """Where the links and pictures of a page lead, within what is given out."""
    plain = re.sub(r"(?ms)^```.*?^```$", "", text)
    found = re.findall(r"\]\(([^)\s]+)\)", plain)
    return [target for target in found if not re.match(r"\w+:", target)]


def dead_links(entries: list[Entry]) -> Iterator[str]:
    """Links that lead to no file or folder among these, or to no heading of a page."""
    files = {entry.path: entry.content for entry in entries}
    for name in (name for name in files if name.endswith(".md")):
        for target in links_of(files[name].decode()):
            file, _, anchor = target.partition("#")
            path = posixpath.normpath(posixpath.join(posixpath.dirname(name), file))
            path = path if file else name
            if path not in files and not any(one.startswith(f"{path}/") for one in files):
                yield f"{name}: {target}"
            elif anchor and anchor not in anchors_of(files[path].decode()):
                yield f"{name}: {target}"


@pytest.mark.parametrize("more", [more for _, more in PACKED], ids=[name for name, _ in PACKED])
def test_links_lead_to_what_is_given_out(more: tuple[str, ...]) -> None:
    given = documents(State(), *more)
    names = {entry.path for entry in given}
    assert {"README.md", "CONTRIBUTING.md", "docs/GUIDE.md", "examples/nodes.csv"} <= names
    assert "python/examples/first.md" in names
    assert sum(len(links_of(one.content.decode())) for one in given if one.path == "README.md") > 15
    assert [*dead_links(given)] == []


def test_the_readme_says_what_a_release_lacks() -> None:
    """It shows commands of the repository: what isn't in the archive is named at its top."""
    given = {entry.path: entry.content for entry in documents(State(), *ARCHIVE)}
    page = given["README.md"].decode()
    commands = set(re.findall(r"(?m)^\$ \./([\w-]+)", page)) - {"olr"}
    top = page.partition("\n\n`olr` finds where")[0]
    assert len(commands) >= 2 and [it for it in commands if f"`./{it}`" not in top] == []
    assert not any(entry.startswith("docs/api/") for entry in given)
    assert "(`docs/api/index.rst` of the repository)" in given["docs/README.md"].decode()


def test_dead_links_are_found() -> None:
    pages = [Entry("a.md", b"[x](b.md#no) [y](c.md) [z](b.md#one)"), Entry("b.md", b"# One\n")]
    assert [*dead_links(pages)] == ["a.md: b.md#no", "a.md: c.md"]


def test_the_description_of_the_wheel_has_no_links_into_the_repository() -> None:
    text = description(State()).decode()
    assert links_of(text) == []
    assert "share/doc/olr" in text and "## Test" not in text


def test_a_link_becomes_words() -> None:
    page = "[all](../GUIDE.md#a), [docs/x.md](x.md), [`docs/x.md`](x.md), [there](y.md), [out](https://a.b)\n"
    there = {"docs/y.md"}
    assert living("docs/p.md", page, there) == (
        "all (`GUIDE.md` of the repository), docs/x.md, `docs/x.md`, [there](y.md), [out](https://a.b)\n"
    )
    code = "```\n[a](b.md)\n```\n![p](p.png)\n[here](#here)\n"
    assert living("p.md", code, there) == code


def test_folders_are_there_with_their_files() -> None:
    pages = [Entry("p.md", b"[f](a/b), [g](a/c)"), Entry("a/b/x", b"\xff")]
    assert with_living_links(pages)[0].content == b"[f](a/b), g (`a/c` of the repository)"
