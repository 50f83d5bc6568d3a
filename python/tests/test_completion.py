"""Completion of `olr` and `olr-tools` in bash, zsh and fish: it offers what the helps have."""

import os
import pytest
import shutil
import subprocess
from collections.abc import Callable
from pathlib import Path

from conftest import TOP, Program
from helps import every_help, names_in, options_in
from olr.extras import COMMANDS as OF_TOOLS
from release.completion import SHELLS, of_program, of_tools
from release.words import faults_of

BASH = """source "$1"; shift; COMP_WORDS=("$@"); COMP_CWORD=$(($# - 1))
"$(complete -p "$1" | sed 's/.* -F \\([^ ]*\\) .*/\\1/')" "$1"; printf '%s\\n' "${COMPREPLY[@]}" """

ZSH = """file=$1; shift; words=("$@"); CURRENT=$#
_describe() { print -rl -- "${(@)${(P@)${@[-1]}}/(#b)([^\\\\\\\\]):*/$match[1]}" }
compadd() { [[ ${@[-2]} == -a ]] && print -rl -- "${(P@)${@[-1]}}" || { shift; print -rl -- "$@" } }
_files() { [[ $1 == -/ ]] && print -rl -- *(/N) || print -rl -- *(N) }
_message() { }
answer() { source "$file" }
setopt extendedglob; answer"""
"""Those of its functions that add completions print them here, whatever was begun."""

FISH = """source $argv[1]; complete -C (string join ' ' -- $argv[2..-1]) | string split -f 1 \\t; true"""

SCRIPTS = {
    "bash": ["bash", "--norc", "-c", BASH, "bash"],
    "zsh": ["zsh", "-f", "-c", ZSH, "zsh"],
    "fish": ["fish", "--no-config", "-c", FISH],
}

Offered = Callable[..., set[str]]


@pytest.fixture(params=SHELLS)
def shell(request: pytest.FixtureRequest) -> str:
    """A shell that is installed."""
    name = str(request.param)
    if shutil.which(name) is None:
        pytest.skip(f"{name} isn't installed")
    return name


@pytest.fixture(scope="module")
def scripts(program: Program, tmp_path_factory: pytest.TempPathFactory) -> Path:
    """A folder with the scripts of both commands, and the commands."""
    folder = tmp_path_factory.mktemp("completion")
    for command, texts in (("olr", of_program(program.path)), ("olr-tools", of_tools())):
        for name, text in texts.items():
            (folder / f"{command}.{name}").write_bytes(text)
    (folder / "olr").symlink_to(program.path)
    (folder / "olr-tools").symlink_to(TOP / "olr-tools")
    (folder / "work/town").mkdir(parents=True)
    (folder / "work/nodes.csv").touch()
    return folder


@pytest.fixture
def offered(scripts: Path, shell: str) -> Offered:
    """What a shell offers for the last of some words, in a folder with a folder `town` and a file `nodes.csv`."""

    def ask(*words: str) -> set[str]:
        command = [*SCRIPTS[shell], str(scripts / f"{words[0]}.{shell}"), *words]
        path = f"{scripts}:{os.environ['PATH']}"
        ended = subprocess.run(
            command,
            cwd=scripts / "work",
            capture_output=True,
            text=True,
            timeout=600,
            env=os.environ | {"PATH": path, "HOME": str(scripts)},
        )
        assert (ended.returncode, ended.stderr) == (0, "")
        found = {line.rstrip("/") for line in ended.stdout.split("\n") if line}
        return {word for word in found if word.startswith(words[-1])}

    return ask


def test_syntax(scripts: Path, shell: str) -> None:
    for command in ("olr", "olr-tools"):
        ended = subprocess.run(
            [shell, "-n", scripts / f"{command}.{shell}"], capture_output=True, text=True
        )
        assert (ended.returncode, ended.stderr) == (0, "")


def test_olr_offers_what_its_helps_have(program: Program, offered: Offered) -> None:
    tried, faults = 0, faults_of(program.path)
    for command, text in every_help(program):
        options, names = options_in(text), names_in(text)
        assert "--help" in options
        found = offered("olr", *command, "") | offered("olr", *command, "--")
        assert found - set(faults if command == ("explain",) else []) == options | names
        assert offered("olr", *command, "--h") >= {"--help"}
        tried += 1
    assert tried >= 15


def test_names_of_faults(offered: Offered) -> None:
    assert offered("olr", "explain", "OtherK") == {"OtherKind"}
    assert {"Header", "WriteFailed", "--help"} <= offered("olr", "explain", "")


def test_values_of_olr(offered: Offered) -> None:
    assert offered("olr", "match", "REF", "--nodes", "") == {"town", "nodes.csv"}
    assert offered("olr", "match", "REF", "--map", "") == {"town"}
    assert offered("olr", "match", "REF", "--format", "j") == {"json"}
    assert offered("olr", "match", "REF", "--radius", "") == set()
    assert offered("olr", "legs", "REF", "--format", "") == {"json", "geojson"}
    assert offered("olr", "lines", "--box", "") == set()
    assert offered("olr", "match", "REF", "--radius", "5", "--ra") == {"--radius"}
    assert offered("olr", "batch", "why", "--input", "n") == {"nodes.csv"}
    assert offered("olr", "show", "*", "--f") == {"--format"}


def test_names_behind_help(offered: Offered) -> None:
    assert offered("olr", "help", "wh") == {"why"}
    assert offered("olr", "help", "batch", "wh") == {"why"}
    assert offered("olr", "batch", "help", "ma") == {"match"}


def test_olr_tools_offers_its_words(offered: Offered) -> None:
    """A call takes half a second, so there are few."""
    first = {words.partition(" ")[0] for words in OF_TOOLS} | {"setup"}
    assert offered("olr-tools", "") == first
    assert offered("olr-tools", "match", "--profile", "") == {"feed", "program"}


def test_olr_tools_says_nothing_where_it_cant_answer(offered: Offered) -> None:
    assert offered("olr-tools", "nothing", "--x") == set()
