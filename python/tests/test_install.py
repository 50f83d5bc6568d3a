"""docs/INSTALL.md: its blocks are for a shell, and what it says of extras and versions is what the wheel has."""

import pytest
import re
import subprocess
import tomllib

from conftest import TOP
from olr.setup import EXTRAS

PAGE = (TOP / "docs/INSTALL.md").read_text(encoding="utf-8")
PROJECT = tomllib.loads((TOP / "python/pyproject.toml").read_text(encoding="utf-8"))["project"]
SCRIPTS = {
    "apt": "try-install",
    "pipx": "try-install",
    "A virtual environment": "try-install",
    "The archive": "try-install",
    "A container": "try-containers",
    "The repository": "try-install",
}
"""The ways, each with the script of .ci/ that tries it."""


def block(title: str) -> str:
    """The block of a section, as the scripts that run it have it."""
    command = [str(TOP / ".ci/install-block"), title]
    return subprocess.run(command, capture_output=True, text=True, check=True).stdout


@pytest.mark.parametrize("way", SCRIPTS)
def test_a_block_can_be_copied_whole(way: str) -> None:
    text = block(way)
    assert text and text in PAGE
    assert not re.search(r"(?m)^\$ |sudo", text)
    ended = subprocess.run(["bash", "-n"], input=text, capture_output=True, text=True)
    assert (ended.returncode, ended.stderr) == (0, "")


def test_each_section_with_a_block_is_a_way_that_is_tried() -> None:
    assert PAGE.count("```sh\n") == len(SCRIPTS)
    for way, name in SCRIPTS.items():
        script = (TOP / ".ci" / name).read_text(encoding="utf-8")
        assert re.search(rf'block"? "?{way}\b', script), way


def test_no_page_asks_an_index_for_olr() -> None:
    """There the name may be somebody else's."""
    for page in (TOP / "README.md", *TOP.glob("docs/*.md"), *TOP.glob("python/*.md")):
        text = page.read_text(encoding="utf-8").replace("no page says `pip install olr`", "")
        assert not re.search(r"pipx? install ['\"]?olr\b", text), page


def test_the_extras() -> None:
    listed = re.findall(r"(?m)^\| `(\w+)` \| ", PAGE.partition("| extra |")[2])
    assert sorted(listed[: len(EXTRAS)]) == sorted(EXTRAS)
    for way in ("pipx", "A virtual environment"):
        assert f".whl)[{','.join(sorted(EXTRAS))}]" in block(way)


def test_the_least_versions_are_the_first_ones_that_were_tried() -> None:
    """Those of Debian 12, as the page has them."""
    tried = dict(re.findall(r"(?m)^\| `(\w+)`.* \| (\d[\d.]*)(?:, [\d.]+)? \| \d.* \|$", PAGE))
    needs = {need for extra in PROJECT["optional-dependencies"].values() for need in extra}
    least = dict(need.split(">=") for need in needs)
    assert least.keys() == tried.keys() - {"pandas"}
    for name, version in least.items():
        assert f"{tried[name]}.".startswith(f"{version}."), name


def test_what_wasnt_tried_isnt_promised() -> None:
    """The classifiers name the Pythons of Debian 12 and 13 alone, and so does the page."""
    named = [one for one in PROJECT["classifiers"] if re.search(r":: 3\.\d", one)]
    assert named == [f"Programming Language :: Python :: {one}" for one in ("3.11", "3.13")]
    assert re.search(r"(?m)^\| Python \| 3\.11\.\d+ \| 3\.13\.\d+ \|$", PAGE)
    assert "urls" not in PROJECT
