"""What the pages show of commands and of Python is what is printed, and their links lead somewhere."""

import doctest
import os
import pytest
import re
import shlex
import subprocess
from collections.abc import Callable
from contextlib import redirect_stderr, redirect_stdout
from functools import partial
from io import StringIO
from pathlib import Path

import picture
from conftest import TOP, Program
from olr.tools import run

PYTHON_PAGES = {
    "README.md": 3,
    "docs/FROM_PYTHON.md": 5,
    "docs/GUIDE.md": 5,
    "python/README.md": 3,
    "python/examples/first.md": 5,
    "python/examples/notebook.md": 15,
}
"""Pages that show Python, and how many lines of it there are at least."""

COMMAND_PAGES = {
    "README.md": 8,
    "docs/FAULTS.md": 2,
    "docs/GUIDE.md": 25,
    "examples/README.md": 20,
    "examples/WHY.md": 6,
}
"""Pages that show commands, and how many of them run at least."""

NOT_RUN = {
    "./olr-tools setup": "it installs Debian packages, as root",
    "./preview ": "it needs the toolchain",
    "./olr --how": "what it says depends on what is built",
    "./olr --prove": "it needs the toolchain, and half an hour",
    "./test": "it takes a quarter of an hour and more; this test is a part of it",
}
"""Commands on the pages that no test runs, by their beginnings, with the reason. The pages show no output of them."""


TOOLS = re.compile(r"(\./olr-tools (?!run )[^|<>$&;*?~#(){}`!\n]*)(?:\| ((?:head|grep) .*))?")
"""A command of `olr-tools` that needs no shell, and what reads it."""

SCRIPT = re.compile(r"(?s)/usr/bin/python3 -c '([^']*)'")
"""A command that runs a script of Python. What either imports is there already: it takes half a second of a new process."""


class Shell:
    """A folder that looks like the top of the repository with a built program, and what commands printed there."""

    def __init__(self, folder: Path, program: Program) -> None:
        self.folder = folder
        self._program = program
        self._printed: dict[str, str] = {}
        for name in ("examples", "olr-tools"):
            (folder / name).symlink_to(TOP / name)
        script = folder / "olr"
        script.write_text(f'#!/bin/sh\nexec {shlex.quote(str(program.path))} "$@"\n')
        script.chmod(0o755)

    def printed(self, command: str) -> str:
        """What a command prints on both outputs. One that stands on several pages is run once: it may write a file."""
        if command not in self._printed:
            plain = command.replace("\\\n", " ")
            script = SCRIPT.fullmatch(command)
            tools = TOOLS.fullmatch(plain)
            if script is not None:
                status, text = self._ran_here(partial(_run_script, script[1]))
            elif tools is not None:
                words = shlex.split(tools[1])[1:]
                status, text = self._ran_here(lambda: run(words), tools[2])
            else:
                status, text = self._ran(command)
            fault = re.search(r"(?m)^olr: \w+", text)
            assert (status == 0) != bool(fault), (command, text)
            self._printed[command] = text
        return self._printed[command]

    def _ran(self, command: str, given: str = "") -> tuple[int, str]:
        """The status of a command that is given a text, and what it printed."""
        ended = subprocess.run(
            ["bash", "-c", command],
            cwd=self.folder,
            input=given,
            stdout=subprocess.PIPE,
            stderr=subprocess.STDOUT,
            text=True,
            check=False,
            timeout=600,
            env=os.environ | {"OLR_PROGRAM": str(self._program.path)},
        )
        return ended.returncode, ended.stdout

    def _ran_here(self, work: Callable[[], int], reader: str | None = None) -> tuple[int, str]:
        """The same of what needs no shell, and of the command that reads it, if there is one."""
        with pytest.MonkeyPatch.context() as patch, StringIO() as text, StringIO() as read:
            patch.chdir(self.folder)
            patch.setenv("OLR_PROGRAM", os.fspath(self._program.path))
            with redirect_stdout(read if reader else text), redirect_stderr(text):
                status = work()
            if reader is None:
                return status, text.getvalue()
            status, found = self._ran(reader, read.getvalue())
            return status, text.getvalue() + found


def _run_script(script: str) -> int:
    """Runs a script of Python. Its status is always 0: an error fails the test."""
    exec(compile(script, "script", "exec"), {"__name__": "__main__"})
    return 0


@pytest.fixture(scope="module")
def shell(program: Program, tmp_path_factory: pytest.TempPathFactory) -> Shell:
    """A shell for all pages."""
    return Shell(tmp_path_factory.mktemp("top"), program)


def commands(name: str) -> list[tuple[str, str]]:
    """The commands that a page shows, each with what it prints."""
    blocks = re.findall(r"(?ms)^```\n(\$ .*?)^```$", read(name))
    items = re.split(r"(?m)^\$ ", "".join(blocks))[1:]
    assert len(items) == len(re.findall(r"(?m)^\$ ", read(name))), "a command stands in no block"
    return [parted(item.splitlines(keepends=True)) for item in items]


def parted(lines: list[str]) -> tuple[str, str]:
    """A command, and the lines that it prints. It goes on behind `\\` and `|` at the end of a line, and while a quote is open."""
    for end in range(1, len(lines) + 1):
        command = "".join(lines[:end])
        try:
            shlex.split(command)
        except ValueError:
            continue
        if not command.endswith(("\\\n", "|\n")):
            return command.rstrip("\n"), "".join(lines[end:])
    raise AssertionError(f"a command has no end: {lines[0]}")


class AsNumpy1(doctest.OutputChecker):
    """Compares what is printed with a page, which shows 45 where numpy 2 prints np.int64(45)."""

    def check_output(self, want: str, got: str, optionflags: int) -> bool:
        """Whether it is the same."""
        return super().check_output(want, re.sub(r"np\.\w+\(([^()]*)\)", r"\1", got), optionflags)


@pytest.mark.parametrize("name", PYTHON_PAGES)
def test_python(
    name: str, program: Program, tmp_path: Path, monkeypatch: pytest.MonkeyPatch
) -> None:
    Shell(tmp_path, program)
    monkeypatch.setenv("OLR_PROGRAM", os.fspath(program.path))
    monkeypatch.chdir(tmp_path)
    page = (TOP / name).read_text(encoding="utf-8")
    text = re.sub(r"(?m)^```.*$", "", page)
    example = doctest.DocTestParser().get_doctest(text, {}, name, name, 0)
    assert len(example.examples) >= PYTHON_PAGES[name]
    runner = doctest.DocTestRunner(AsNumpy1())
    shown: list[str] = []
    runner.run(example, out=shown.append)
    assert runner.failures == 0, "".join(shown)


@pytest.mark.parametrize("name", COMMAND_PAGES)
def test_commands(name: str, shell: Shell) -> None:
    """Each prints what the page shows, where `...` stands for anything."""
    ran = 0
    for command, shown in commands(name):
        if command.startswith(tuple(NOT_RUN)):
            assert shown == "", f"nothing checks what {command} prints"
            continue
        pattern = re.escape(shown).replace(re.escape("..."), ".*?")
        assert re.fullmatch(pattern, shell.printed(command), re.DOTALL), (
            command,
            shell.printed(command),
        )
        ran += 1
    assert ran >= COMMAND_PAGES[name]


def test_each_command_that_isnt_run_is_on_a_page() -> None:
    shown = [command for name in COMMAND_PAGES for command, _ in commands(name)]
    for beginning in NOT_RUN:
        assert any(command.startswith(beginning) for command in shown), beginning


def test_no_other_page_shows_commands_or_python() -> None:
    """But docs/CHECK.md, which `test_check_page.py` runs."""
    pages = pages_of_the_tree()
    shown = {name for name in pages if re.search(r"(?m)^\$ ", read(name))}
    assert shown == {*COMMAND_PAGES, "docs/CHECK.md"}
    assert {name for name in pages if re.search(r"(?m)^>>> ", read(name))} == PYTHON_PAGES.keys()


def test_the_readme_is_short() -> None:
    lines = read("README.md").splitlines()
    assert len(lines) <= 150
    assert max(map(len, lines)) <= 100


def test_the_picture_is_of_the_readmes_page(
    program: Program, tmp_path: Path, monkeypatch: pytest.MonkeyPatch
) -> None:
    """It is shown, is small, and can be drawn again. Pixels aren't compared: fonts differ."""
    assert "](docs/page.png)" in read("README.md")
    assert picture.PICTURE.stat().st_size < 150_000
    monkeypatch.setenv("OLR_PROGRAM", os.fspath(program.path))
    picture.draw(tmp_path / "drawn.png")
    for file in (picture.PICTURE, tmp_path / "drawn.png"):
        data = file.read_bytes()
        assert data[:8] == b"\x89PNG\r\n\x1a\n" and len(data) > 20_000
        size = (int.from_bytes(data[16:20], "big"), int.from_bytes(data[20:24], "big"))
        assert size == picture.SIZE


def pages_of_the_tree() -> list[str]:
    """The pages of the repository, but those of what was made."""
    found = []
    for folder, folders, files in os.walk(TOP):
        folders[:] = sorted({*folders} - {"out", "dist", ".git", ".pytest_cache", ".mypy_cache"})
        names = (Path(folder, name) for name in files if name.endswith(".md"))
        found += [str(page.relative_to(TOP)) for page in names]
    return sorted(found)


def read(name: str) -> str:
    """The text of a page."""
    return (TOP / name).read_text(encoding="utf-8")


def anchors(name: str) -> set[str]:
    """The anchors of the headings of a page in the repository."""
    return anchors_of(read(name))


def anchors_of(page: str) -> set[str]:
    """The anchors of the headings of a page."""
    text = re.sub(r"(?ms)^```.*?^```$", "", page)
    found: dict[str, int] = {}
    for title in re.findall(r"(?m)^#+ (.+)$", text):
        plain = re.sub(r"\[([^]]*)\]\([^)]*\)", r"\1", title).lower()
        name_of = re.sub(r"[^\w\- ]", "", plain).replace(" ", "-")
        found[name_of] = found.get(name_of, -1) + 1
    return {
        f"{it}-{more}" if more else it for it, last in found.items() for more in range(last + 1)
    }


def test_files_that_pages_name_are_there() -> None:
    """But for those that are built, and for names that stand for any."""
    folders = r"(?:\.ci|attacks|bench|crates|docs|examples|python|released)"
    named = {
        (name, path)
        for name in pages_of_the_tree()
        for path in re.findall(rf"`({folders}/[\w./-]+)`", read(name))
        if "/out/" not in path and not re.search("[A-Z]{4}", path)
    }
    assert len(named) > 100
    assert not [one for one in named if not (TOP / one[1]).exists()]


def test_security_names_the_files_of_messages() -> None:
    """Each format, and each command that reads them, as docs/MESSAGES.md has them."""
    page = (TOP / "docs/MESSAGES.md").read_text(encoding="utf-8")
    formats = set(re.findall(r"(?m)^\| (\w+)[\w ]* \| .* \| `\w+` \|$", page))
    commands = set(re.findall(r"`(?:\./olr-tools )?(\w+)`", page.partition(" in Python,")[0]))
    security = (TOP / "SECURITY.md").read_text(encoding="utf-8")
    (row,) = re.findall(r"(?m)^\| files of messages.*$", security)
    assert len(formats) >= 7 and [it for it in formats if it not in row] == []
    assert (
        len(commands) >= 6
        and [it for it in commands if f"`{it}`" not in row.replace("olr-tools ", "")] == []
    )


def test_links_lead_somewhere() -> None:
    checked = 0
    for name in pages_of_the_tree():
        text = re.sub(r"(?ms)^```.*?^```$", "", read(name))
        for target in re.findall(r"\]\(([^)\s]+)\)", text):
            if re.match(r"\w+:", target):
                continue
            file, _, anchor = target.partition("#")
            path = Path(os.path.normpath(Path(name).parent / file)) if file else Path(name)
            assert (TOP / path).exists(), f"{name}: {target}"
            if anchor:
                assert anchor in anchors(str(path)), f"{name}: {target}"
            checked += 1
    assert checked > 200
