"""The layers of the package: no module leans on one of a layer above its own, and no packages lean on each other in a circle."""

import ast
import pytest
from collections.abc import Iterator
from functools import cache
from graphlib import CycleError, TopologicalSorter
from pathlib import Path

PACKAGE = Path(__file__).resolve().parents[1] / "olr"
LAYERS = (
    "arrays content counts curve errors extras outputs processors progress reservoir setup signals sphere streams temporary version model",
    "asking physical",
    "checking client comparing confidence geometry importing matching messages osm regions running trials vector",
    "pages commands serving tools",
)
"""The packages and modules of `olr`, the lowest layer first. `olr` itself is above all: it names what is public, and imports it late."""
LAYER_OF = {name: layer for layer, names in enumerate(LAYERS) for name in names.split()}
FACES = ("__init__", "__main__", "sources")
"""Modules that only hand on what others have, for users."""


def modules() -> list[tuple[str, ...]]:
    """All modules but the faces, by their names below `olr`."""
    paths = (path.relative_to(PACKAGE).with_suffix("") for path in PACKAGE.rglob("*.py"))
    return sorted(path.parts for path in paths if path.parts[0] not in FACES)


@cache
def imported(module: tuple[str, ...]) -> frozenset[tuple[str, ...]]:
    """What a module imports of `olr`, at its head or within, by the names below `olr`."""
    return frozenset(_imported(module))


def _imported(module: tuple[str, ...]) -> Iterator[tuple[str, ...]]:
    """The same, one by one."""
    for node in ast.walk(ast.parse(PACKAGE.joinpath(*module).with_suffix(".py").read_text())):
        names = [alias.name for alias in node.names] if isinstance(node, ast.Import) else []
        if isinstance(node, ast.ImportFrom):
            assert not node.level, f"{'.'.join(module)}: imports are absolute"
            whole = (PACKAGE.parent / (node.module or "").replace(".", "/")).is_dir()
            names = [
                f"{node.module}.{alias.name}" if whole else f"{node.module}" for alias in node.names
            ]
        for name in names:
            head, *below = name.split(".")
            if head == "olr":
                yield tuple(below) or ("olr",)


def test_each_package_has_a_layer() -> None:
    assert {module[0] for module in modules()} == set(LAYER_OF)


def test_no_module_leans_on_a_layer_above() -> None:
    above = [
        f"{'.'.join(module)} on {'.'.join(other)}"
        for module in modules()
        for other in imported(module)
        if LAYER_OF.get(other[0], len(LAYERS)) > LAYER_OF[module[0]]
    ]
    assert not above


def test_no_circle_of_packages() -> None:
    leans: dict[tuple[str, ...], set[tuple[str, ...]]] = {}
    for module in modules():
        own = module[:-1] or module
        others = {other[:-1] if len(other) > 1 else other for other in imported(module)}
        leans.setdefault(own, set()).update(others - {own})
    try:
        TopologicalSorter(leans).prepare()
    except CycleError as circle:
        pytest.fail(f"packages lean on each other: {circle.args[1]}")
