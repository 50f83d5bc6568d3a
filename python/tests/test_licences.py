"""The licence, and that what is bundled is named with its own, in pages too."""

import base64
import gzip
import os
import pytest
import re
import shutil
import tomllib
from collections.abc import Mapping
from pathlib import Path

from conftest import REFERENCE, TOP, Tools
from release.notice import OF_DEBIAN, works

DEBIAN = Path("/usr/share/common-licenses/Apache-2.0")
PACKED = re.compile(r'<script id="[a-z-]+" type="text/plain">([A-Za-z0-9+/=]+)</script>')
"""Files that a page unpacks."""


def below(root: str) -> set[str]:
    """A crate, and the crates and the libraries of the toolchain that `crates.txt` names below it."""
    rows = re.findall(r"(?m)^(\w+)[ \w]*:(.*)$", (TOP / "crates.txt").read_text(encoding="utf-8"))
    return reached([root], dict(rows))


def reached(left: list[str], needs: Mapping[str, str]) -> set[str]:
    """Some names, and all that they need."""
    seen = set[str]()
    while left:
        name = left.pop()
        if name not in seen:
            seen.add(name)
            left += needs.get(name, "").split()
    return seen


def test_the_licence_is_debians_text() -> None:
    assert (TOP / "LICENSE").read_bytes() == DEBIAN.read_bytes()


def test_each_library_is_named() -> None:
    notice = (TOP / "NOTICE").read_text(encoding="utf-8")
    used = {name for name in below("olr") | below("olr_page") if not name.startswith("olr")}
    assert len(used) >= 10 and used <= works(notice).keys()
    for text in ("Permission is hereby granted", "UNICODE LICENSE V3", "Redistributions in binary"):
        assert text in notice


@pytest.mark.skipif(shutil.which("rt") is None, reason="there is no toolchain here")
def test_they_are_those_of_the_toolchain() -> None:
    """All that its libraries need but the standard library, under licences that it has too, and of versions that their pages name."""
    kit = Path(os.path.realpath(shutil.which("rt") or "")).parents[1]
    needs = {
        file.parent.stem: " ".join(re.findall(r"(?m)^dep (\w+)$", file.read_text(errors="replace")))
        for file in kit.glob("rlibs/*.rlib/format")
    }
    listed = works((TOP / "NOTICE").read_text(encoding="utf-8"))
    used = [name for name in below("olr") | below("olr_page") if not name.startswith("olr")]
    libraries = reached(used, needs) - reached(["std"], needs)
    assert listed.keys() - OF_DEBIAN == libraries
    notice = " ".join((TOP / "NOTICE").read_text(encoding="utf-8").split())
    for name in libraries:
        folder = kit / "rattle" / name
        page = " ".join(folder.joinpath("README.md").read_text(encoding="utf-8").split())
        assert f" {listed[name].version}" in page
        texts = [
            file.read_text(encoding="utf-8").split()
            for file in folder.glob("LICENSE*")
            if "Apache" not in file.read_text(encoding="utf-8")
        ]
        assert [
            text for text in map(" ".join, texts) if text[text.index("Permission") :] not in notice
        ] == []
        lines = re.findall(
            r"(?m)^Copyright \(c\).*$",
            "\n".join(file.read_text(encoding="utf-8") for file in folder.glob("LICENSE*")),
        )
        assert set(lines) == set(listed[name].authors.split("\n")) - {""}


def test_the_wheel_takes_them() -> None:
    """By the names that they have beside pyproject.toml where a wheel is made."""
    project = tomllib.loads((TOP / "python/pyproject.toml").read_text(encoding="utf-8"))
    assert project["project"]["license"] == {"text": "Apache-2.0"}
    assert project["tool"]["setuptools"]["license-files"] == ["LICENSE", "NOTICE", "LGPL-2.1"]


def readable(page: str) -> str:
    """A page, and what is packed into it."""
    packed = (gzip.decompress(base64.b64decode(text)) for text in PACKED.findall(page))
    return "\n".join([page, *(readable(it.decode(errors="replace")) for it in packed)])


@pytest.mark.parametrize(
    "words",
    [
        "page --out page.html",
        f"view {REFERENCE} --out page.html",
        f"view {REFERENCE} --live --out page.html",
        "report messages.tsv --out page.html",
        "report messages.tsv --live --out page.html",
        "compare messages.tsv --with . --page page.html --out compared.csv",
    ],
)
def test_a_page_has_the_licences_of_what_it_carries(
    tools: Tools, tmp_path: Path, monkeypatch: pytest.MonkeyPatch, words: str
) -> None:
    for file in (TOP / "examples").glob("*.?s*"):
        shutil.copy(file, tmp_path)
    monkeypatch.chdir(tmp_path)
    said = tools.run(*words.split(), "--map", ".")
    assert said.returncode == 0, said.stderr
    page = readable(Path("page.html").read_text(encoding="utf-8"))
    for name in ("NOTICE", "LICENSE"):
        lines = (TOP / name).read_text(encoding="utf-8").splitlines()
        assert [line for line in lines if line not in page] == []
        assert "\n".join(lines) in page
