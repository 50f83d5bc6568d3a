"""What needs Python alone, and what is said where a module is missing."""

import tomllib

import ast
import click
import importlib
import pytest
import re
import subprocess
import sys
from collections.abc import Iterator
from functools import cache
from pathlib import Path

import olr
from conftest import REFERENCE, TOP, Program
from olr import tools as command_line
from olr.errors import MissingModule, ToolError
from olr.extras import COMES_WITH, COMMANDS, needed_by
from olr.setup import ALWAYS, EXTRAS, MODULES

PACKAGE = TOP / "python"
LATE = {"regions": {"osmium", "pyproj"}, "run": {"fiona"}}
"""Modules that a command needs for some files only, which its extra doesn't bring: OpenStreetMap files, and files of geometries."""

REFUSING = """
import sys
from importlib.abc import MetaPathFinder

class Refusing(MetaPathFinder):
    def __init__(self, finder):
        self.finder = finder

    def find_spec(self, name, path=None, target=None):
        top = name.partition(".")[0]
        return None if {refused} else self.finder.find_spec(name, path, target)

sys.meta_path[:] = map(Refusing, sys.meta_path)
sys.path.append(sys.argv[1])
"""
"""Lets an interpreter import this package, and refuses others."""
ALL = "top not in (*sys.stdlib_module_names, 'olr') and not top.startswith('_sysconfigdata_')"
ALL_BUT_CLICK = "top not in (*sys.stdlib_module_names, 'olr', 'click')"


def run_without(refused: str, script: str, *words: object) -> subprocess.CompletedProcess[str]:
    """Runs a script with modules refused: `refused` is a condition on `top`, the first part of a module's name."""
    text = REFUSING.format(refused=refused) + script
    command = ["/usr/bin/python3", "-I", "-c", text, PACKAGE, *words]
    return subprocess.run(
        list(map(str, command)), capture_output=True, text=True, check=False, timeout=600
    )


def test_answers_need_python_alone(program: Program) -> None:
    ended = run_without(
        ALL,
        """
import olr, pydoc
assert "olr.Network" in pydoc.render_doc(olr) and "Network" not in dir(olr)
program, examples, text = sys.argv[2:]
print(olr.decode(text, program=program).kind)
with olr.Map.of_folder(examples, program=program, profile="program") as town:
    print(town.match(text).matchings[0].total, town.places(text).verdict, town.why(text).verdict)
    print(len(town.candidates(text).points), len(list(town.pages(text))))
    print(town.match(text).to_dict()["next"], "<table>" in town.places(text)._repr_html_())
    for key, reference in olr.read_messages(examples + "/messages.tsv"):
        answer = next(iter(town.matches([reference])))
        print(key, answer.name if isinstance(answer, olr.Fault) else len(answer.matchings))
""",
        program.path,
        TOP / "examples",
        REFERENCE,
    )
    assert ended.stderr == ""
    assert ended.stdout.splitlines() == [
        "line",
        "8 unique Verdict(word='match', at=None)",
        "3 1",
        "None True",
        *["m1 1", "m2 4", "m3 1", "m4 0", "m5 BadLength"],
    ]


MODULE_OF = {
    "Network": "numpy",
    "locate": "geopandas",
    "to_geodataframe": "geopandas",
    "view": "jinja2",
}


@pytest.mark.parametrize("name", MODULE_OF)
def test_a_name_that_lacks_a_module_says_so(name: str) -> None:
    ended = run_without(
        ALL,
        f"""
import olr
try:
    olr.{name}
except ImportError as error:
    print(error.name, isinstance(error, olr.ToolError), error)
""",
    )
    module = MODULE_OF[name]
    assert ended.stdout == (
        f"{module} True olr.{name} needs the module {module}: on Debian run olr-tools setup "
        f"(python3-{module}), elsewhere install the extra olr[geo] of the wheel\n"
    )


@pytest.mark.parametrize("words", [["--help"], ["--version"], ["import", "--help"]])
def test_click_alone_has_help(words: list[str]) -> None:
    ended = run_without(ALL_BUT_CLICK, "from olr.tools import run; run(sys.argv[2:])", *words)
    assert (ended.returncode, ended.stderr) == (0, "") and ended.stdout


def test_a_module_that_is_needed_later_is_named(tmp_path: Path) -> None:
    """`regions` needs osmium for some files only."""
    ended = run_without(
        "top == 'osmium'",
        "from olr.tools import run; sys.exit(run(sys.argv[2:]))",
        *["regions", TOP / "examples/town.osm", "--out", tmp_path / "town.gpkg"],
    )
    assert ended.returncode == 1 and ended.stderr == (
        "olr-tools: regions needs the module osmium: on Debian run olr-tools setup (python3-pyosmium), "
        "elsewhere install the extra olr[maps] of the wheel\n"
    )
    assert not list(tmp_path.iterdir())


def test_a_module_of_the_package_that_is_missing_is_no_users_fault() -> None:
    with pytest.raises(ModuleNotFoundError) as caught, needed_by("some name", "geo"):
        importlib.import_module("olr.nothing")
    assert not isinstance(caught.value, ToolError)


def test_a_module_that_comes_with_another_one() -> None:
    with pytest.raises(
        MissingModule, match=r"the module geopandas: .*python3-geopandas.*olr\[geo\]"
    ):
        with needed_by("some name", "geo"):
            raise ModuleNotFoundError("No module named 'pandas'", name="pandas.core")
    with pytest.raises(MissingModule, match=r"tornado: install the extra olr\[scale\]"):
        with needed_by("some name", "scale"):
            raise ModuleNotFoundError("No module named 'tornado'", name="tornado")


def test_pyproject_has_the_extras() -> None:
    project = tomllib.loads((PACKAGE / "pyproject.toml").read_text(encoding="utf-8"))["project"]
    assert project["dependencies"] == []
    found = {
        extra: {re.split("[<>=]", requirement)[0] for requirement in requirements}
        for extra, requirements in project["optional-dependencies"].items()
    }
    assert found == {extra: {*ALWAYS, *modules} for extra, modules in EXTRAS.items()}
    assert {name for modules in found.values() for name in modules} == MODULES.keys()
    one_of = {
        requirement
        for requirements in project["optional-dependencies"].values()
        for requirement in requirements
    }
    assert len(one_of) == len(MODULES), "two extras ask for other versions of a module"
    assert project["license"] == {"text": "Apache-2.0"}
    assert all({"name"} == author.keys() for author in project["authors"]), "no addresses"


def test_each_command_has_a_module() -> None:
    """And each module of a command is one of these."""
    modules = {module for _, (module, _) in modules_of(command_line.tools)}
    paths = PACKAGE.joinpath("olr/commands").glob("*.py")
    there = {f"olr.commands.{path.stem}" for path in paths if "\ndef command(" in path.read_text()}
    assert modules == there and len(modules) == len(COMMANDS)


def test_the_page_of_the_package_has_the_extras() -> None:
    """Each, with the commands that need it."""
    page = (PACKAGE / "README.md").read_text(encoding="utf-8")
    rows = dict(re.findall(r"(?m)^\| `(\w+)` \| (.*) \|$", page))
    assert rows.keys() == EXTRAS.keys()
    words = {command: command.split()[0] for command in COMMANDS}
    named = {extra: re.findall(r"`(?:olr-tools )?([\w-]+)`", row) for extra, row in rows.items()}
    assert [it for it, (extra, _) in COMMANDS.items() if words[it] not in named[extra]] == []


def test_each_command_has_its_modules_by_its_extra() -> None:
    for name, (module, _) in modules_of(command_line.tools):
        wanted = {COMES_WITH.get(it, it) for it in imported_by(module)}
        brought = {*ALWAYS, *EXTRAS[COMMANDS[name][0]], *LATE.get(name, ())}
        assert wanted <= brought, name
        assert wanted - {"click"} or name == "u-turns"


def modules_of(group: click.Group, *words: str) -> Iterator[tuple[str, tuple[str, str]]]:
    """The modules of all commands that are imported late, by the words that call them."""
    assert isinstance(group, command_line.LateGroup)
    for name, found in group.modules.items():
        yield " ".join([*words, name]), found
    for name, command in group.commands.items():
        if isinstance(command, click.Group):
            yield from modules_of(command, *words, name)


def imported_by(module: str) -> set[str]:
    """The modules of others that a module of this package imports, and those of this package that it needs."""
    seen: set[str] = set()
    found: set[str] = set()
    left = [module]
    while left:
        name = left.pop()
        path = PACKAGE / (name.replace(".", "/") + ".py")
        if name in seen or not path.is_file():
            continue
        seen.add(name)
        names = names_of(path)
        left += [it for it in names if it.startswith("olr.")]
        found |= {it.partition(".")[0] for it in names}
    return found - sys.stdlib_module_names - {"olr"}


@cache
def names_of(path: Path) -> frozenset[str]:
    """What a module imports at its head, also under a condition, but for types alone. Most modules are needed by several commands."""
    names = set[str]()
    tree = ast.parse(path.read_text(encoding="utf-8"))
    blocks = [block for block in tree.body if "TYPE_CHECKING" not in ast.dump(block)]
    for node in blocks + [it for block in blocks for it in getattr(block, "body", [])]:
        if isinstance(node, ast.Import):
            names.update(alias.name for alias in node.names)
        if isinstance(node, ast.ImportFrom):
            names.add(node.module or "")
    return frozenset(names)


def test_messages_name_no_script_of_the_repository() -> None:
    """But those that say that it is in a repository."""
    for path in PACKAGE.glob("olr/**/*.py"):
        for node in ast.walk(ast.parse(path.read_text(encoding="utf-8"))):
            if isinstance(node, ast.Constant) and isinstance(node.value, str):
                if "./olr" in node.value:
                    assert "in its repository" in node.value, f"{path}: {node.value}"


def test_public_names_are_all_there() -> None:
    assert all(getattr(olr, name) is not None for name in olr.__all__)
