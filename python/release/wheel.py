"""The wheel: the package, the program in it and beside it, and Leaflet with its licence."""

import json
import os
import subprocess
import sys
import tempfile
import zipfile
from collections.abc import Sequence
from pathlib import Path

from olr.errors import ToolError
from release.bill import Given, bill
from release.files import Entry, write_folder
from release.links import living
from release.machines import Machine
from release.program_files import (
    licence_of_library,
    module_of_pages,
    program_entry,
    shared_of_program,
    shared_of_tools,
    static_program,
)
from release.state import State

LEAFLET = Path("/usr/share/javascript/leaflet")
LEAFLET_LICENCE = Path("/usr/share/doc/libjs-leaflet/copyright")


def wheel_name(state: State, machine: Machine) -> str:
    """The name of its file."""
    return f"olr-{state.version}-py3-none-{machine.tag}.whl"


def wheel(state: State, machine: Machine) -> bytes:
    """The wheel for a machine, as setuptools make it. Raises `ToolError` where they or Leaflet aren't installed."""
    with tempfile.TemporaryDirectory() as place:
        write_folder(Path(place), _sources(state, machine), state.seconds)
        _build(Path(place, "python"), machine, state.seconds)
        return Path(place, "python/dist", wheel_name(state, machine)).read_bytes()


def metadata(packed: Path) -> list[Entry]:
    """What a wheel says of its distribution, for other packages of the same files: its metadata and commands."""
    with zipfile.ZipFile(packed) as members:
        folder = next(name for name in members.namelist() if name.endswith(".dist-info/METADATA"))
        names = [folder, folder.replace("METADATA", "entry_points.txt")]
        return [Entry(name, members.read(name)) for name in names]


def package_files(state: State) -> list[Entry]:
    """The files of the package `olr`, below the folder `olr`, the module of the program for pages, and the texts of licences."""
    names = state.names("python/olr")
    modules = (Entry(f"olr/bin/{name}", it) for name, it in module_of_pages(state).items())
    texts = (
        Entry(f"olr/pages/licences/{name}", state.read(name)) for name in ("LICENSE", "NOTICE")
    )
    files = (Entry(name.removeprefix("python/"), state.read(name)) for name in names)
    return [*files, *modules, *texts]


def given(state: State, machine: Machine) -> Given:
    """What the wheel for a machine has in it."""
    programs = static_program(state, machine) | module_of_pages(state)
    return Given(wheel_name(state, machine), programs, has_tools=True, has_leaflet=True)


def _sources(state: State, machine: Machine) -> list[Entry]:
    """A tree like that of the repository, of what setuptools read, with the program and Leaflet in the package."""
    shared = [*shared_of_program(state), *shared_of_tools(state)]
    materials = bill(state, wheel_name(state, machine), [given(state, machine)])
    return [
        Entry("python/pyproject.toml", _project(state, shared)),
        Entry("python/README.md", description(state)),
        *(entry.below("python") for entry in shared),
        *(Entry(f"python/{name}", state.read(name)) for name in ("LICENSE", "NOTICE")),
        Entry("python/LGPL-2.1", licence_of_library()),
        # (what lies in this folder comes into the one of the wheel's metadata)
        Entry("python/olr.egg-info/sboms/olr.spdx.json", materials),
        *(entry.below("python") for entry in package_files(state)),
        program_entry(state.static_program(machine)).below("python/olr/bin"),
        *(entry.below("python/olr/pages/leaflet") for entry in _leaflet()),
    ]


def _project(state: State, shared: Sequence[Entry]) -> bytes:
    """What setuptools read of the package, with the version of the release and the files below `share`. Raises `ToolError` if
    pyproject.toml has another form."""
    text = state.read("python/pyproject.toml").decode()
    of_version = (
        'dynamic = ["version"]',
        '[tool.setuptools.dynamic]\nversion = { attr = "olr.version.VERSION" }',
    )
    of_data = '[tool.setuptools.data-files]\nbin = ["olr/bin/olr"]'
    for part in (*of_version, of_data):
        if text.count(part) != 1:
            raise ToolError(f"python/pyproject.toml lacks {part!r}")
    folders: dict[str, list[str]] = {}
    for entry in shared:
        folders.setdefault(entry.path.rpartition("/")[0], []).append(entry.path)
    rows = [f"{json.dumps(folder)} = {json.dumps(paths)}" for folder, paths in folders.items()]
    text = text.replace(of_version[0], f'version = "{state.version}"').replace(of_version[1], "")
    return text.replace(of_data, "\n".join([of_data, *rows])).encode()


def description(state: State) -> bytes:
    """What the wheel says of itself: what the package's page has of its use. No other page can be reached from there."""
    page = state.read("python/README.md").decode()
    return living("python/README.md", page.partition("\n## In the repository\n")[0], ()).encode()


def _leaflet() -> list[Entry]:
    """What a page has of Leaflet, and its licence."""
    files = [LEAFLET / "leaflet.css", LEAFLET / "leaflet.min.js", LEAFLET_LICENCE]
    try:
        return [Entry(file.name, file.read_bytes()) for file in files]
    except OSError as error:
        raise ToolError(
            f"{error.filename} is missing: install Debian's package libjs-leaflet"
        ) from error


def _build(project: Path, machine: Machine, seconds: int) -> None:
    """Makes the wheel of a project in its folder `dist`."""
    words = ["bdist_wheel", "--quiet", "--plat-name", machine.tag, "--dist-dir", "dist"]
    command = [sys.executable, "-c", "from setuptools import setup; setup()", *words]
    environment = os.environ | {"SOURCE_DATE_EPOCH": str(seconds), "PYTHONPATH": ""}
    ended = subprocess.run(
        command, cwd=project, env=environment, capture_output=True, text=True, umask=0o022
    )
    if ended.returncode != 0:
        last = ended.stderr.strip().split("\n")[-1]
        raise ToolError(
            f"no wheel could be made: {last} (it needs Debian's packages python3-setuptools and python3-wheel)"
        )
