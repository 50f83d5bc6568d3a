"""Each public name, and each public method of what it gives, says what it does, with an example that runs."""

import doctest
import inspect
import os
import pytest
import re
from collections.abc import Iterator
from pathlib import Path
from typing import Any

import olr
from bad_programs import bad_program
from conftest import TOP, Program
from olr.pages.view.showing import View


def documented() -> Iterator[tuple[str, Any]]:
    """The package, its public names, and the public methods that the package has written, by their names."""
    yield "olr", olr
    for found in [*(getattr(olr, name) for name in olr.__all__), View]:
        yield found.__name__, found
        for kind in found.__mro__ if inspect.isclass(found) else ():
            for name, value in vars(kind).items():
                is_method = callable(getattr(value, "__func__", value))
                if is_method and not name.startswith("_") and kind.__module__.startswith("olr"):
                    yield f"{found.__name__}.{name}", getattr(found, name)


ALL = dict(documented())


@pytest.mark.parametrize("name", ALL)
def test_the_example_of(
    name: str, program: Program, tmp_path: Path, monkeypatch: pytest.MonkeyPatch
) -> None:
    (tmp_path / "examples").symlink_to(TOP / "examples")
    path = program.path
    if name == "TimedOut":
        path = bad_program(tmp_path / "hangs", program, {"CwVF+yN2yhpnBAFdAAsaFg==": "hangs"})
    monkeypatch.setenv("OLR_PROGRAM", os.fspath(path))
    monkeypatch.chdir(tmp_path)
    text = inspect.getdoc(ALL[name]) or ""
    example = doctest.DocTestParser().get_doctest(text, {}, name, name, 0)
    assert example.examples, f"{name} has no example"
    runner = doctest.DocTestRunner(optionflags=doctest.ELLIPSIS)
    shown: list[str] = []
    runner.run(example, out=shown.append)
    assert runner.failures == 0, "".join(shown)


def test_the_api_reference_has_all_names() -> None:
    """Those of the package, each once. That it can be made is tried beside these tests."""
    text = (TOP / "docs/api/index.rst").read_text()
    names = re.findall(r"^\.\. auto\w+:: olr\.(\w+)$", text, re.MULTILINE)
    assert sorted(names) == sorted(olr.__all__)


def test_help_begins_with_what_to_do_first() -> None:
    """How it is installed, and then three lines that run, before all else."""
    text = inspect.getdoc(olr) or ""
    first, second, *_ = text.partition("\n\n")[2].split("\n\n")
    assert "install" in first and second.startswith(">>> import olr\n>>> with olr.Map(")
    assert {"Places.to_dict", "Network.path", "View.save", "locate", "view"} <= ALL.keys()
