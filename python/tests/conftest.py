"""What the tests share: the program `olr`, the command `olr-tools`, and imports of drawings.

The program is the one that the environment variable OLR_PROGRAM names, else the built one.
"""

import gc
import os
import pytest
import subprocess
from collections.abc import Callable, Iterator
from contextlib import redirect_stderr, redirect_stdout
from io import BytesIO, TextIOWrapper
from pathlib import Path
from typing import TYPE_CHECKING, NamedTuple

from browser import ONE_THREAD, Browser
from drawing import Drawing
from forked import template
from olr.asking.program import SHIPPED
from olr.counts import Counts
from olr.model.map_folder import write_map
from olr.model.profiles import DEFAULT_PROFILE, tolerances_of
from olr.model.road_map import Line, RoadMap
from olr.osm.importing import Options, import_osm
from olr.tools import run

if TYPE_CHECKING:
    from runs import Runs, Town

# The processes that tests start keep what they compile.
os.environ.pop("PYTHONDONTWRITEBYTECODE", None)
TOP = Path(__file__).resolve().parents[2]
pytest_plugins = ("page_of_server", "page_of_file")
"""Modules with fixtures of their own."""
REFERENCE = "CwVF/yN2yRpnBAFUAAgbpwYBAf9kK0Fa"
"""Some reference: to ask whether a map can be read."""


OF_PROGRAM = ("--profile", "program")
"""Words of `olr-tools` for the program's own tolerances: where what it writes is compared with what the program says, or was drawn for them."""
ASKED_WITH_PROGRAM = "asked with: radius 100 m, bearing 4 sectors, class 7, lowest 0, percent 30 %, slack 300 dm, profile program"
"""What a summary says then."""


def by_default(*words: object) -> list[str]:
    """Words of the program `olr`, and the tolerances of the default profile that they don't name, with the confidence of the package where they are of
    likely places: by these it says what all that Python asks says."""
    given = list(map(str, words))
    tolerances = tolerances_of(DEFAULT_PROFILE)
    usual: dict[str, object] = {f"--{name}": value for name, value in tolerances.items()}
    usual |= {"--confidence": SHIPPED} if "likely" in given else {}
    return given + [
        word for name, value in usual.items() if name not in given for word in (name, str(value))
    ]


def pytest_configure() -> None:
    """Nothing was collected yet, so it is small."""
    template.start()


def pytest_unconfigure() -> None:
    """It ends before this process does."""
    template.end()


def pytest_collection() -> None:
    """Modules and tests aren't garbage: nothing is looked for while they come."""
    gc.disable()


def pytest_collection_finish() -> None:
    """They stay to the end, so no later collection of garbage goes through them."""
    gc.freeze()
    gc.enable()


class Program:
    """The program `olr`."""

    def __init__(self, path: Path) -> None:
        self.path = path

    def run(self, *words: object) -> subprocess.CompletedProcess[str]:
        """Runs it on words, and gives its status and texts."""
        command = [str(self.path), *map(str, words)]
        return subprocess.run(command, capture_output=True, text=True, check=False, timeout=600)

    def fault(self, folder: Path) -> str:
        """The fault with which it refuses the map of a folder, or an empty text if it reads the map."""
        ended = self.run("candidates", REFERENCE, "--map", folder)
        return ended.stderr.strip().removeprefix("olr: ")


class Result(NamedTuple):
    """A map that was imported, and what was counted."""

    road_map: RoadMap
    counts: Counts

    def routes(self) -> set[tuple[int, int]]:
        """The ends of the lines."""
        return {(line.start, line.end) for line in self.road_map.lines}

    def line(self, id: int) -> Line:
        """The line with an id."""
        return next(line for line in self.road_map.lines if line.id == id)

    def bans(self) -> set[tuple[int, int]]:
        """The lines of the bans."""
        return {(ban.first, ban.second) for ban in self.road_map.bans}


Import = Callable[..., Result]


@pytest.fixture(scope="session")
def program() -> Program:
    """The program `olr` to test with."""
    path = Path(os.environ.get("OLR_PROGRAM", TOP / "crates/olr/out/olr"))
    if not path.is_file():
        pytest.fail(f"there is no program {path}: build it by ./olr, or set OLR_PROGRAM")
    return Program(path)


@pytest.fixture(scope="session")
def top() -> Path:
    """The folder of the repository."""
    return TOP


@pytest.fixture
def imported(tmp_path: Path, program: Program) -> Import:
    """Imports a drawing, with bans on turning back only if asked for, and sees that the program reads the map."""

    def run(drawing: Drawing, options: Options = Options(u_turns="allowed")) -> Result:
        counts = Counts()
        made = import_osm(drawing.write(tmp_path / "drawn.osm"), options, counts)
        folder = tmp_path / "map"
        write_map(made.road_map, folder, made.about, force=True)
        assert program.fault(folder) == ""
        return Result(made.road_map, counts)

    return run


class Tools:
    """The command `olr-tools`. A process of its own spends half a second on imports, so only what is of processes is run in one."""

    def run(self, *words: object) -> subprocess.CompletedProcess[str]:
        """Runs it on words in this process, and gives its status and texts, as of a pipe."""
        given = list(map(str, words))
        out, errors = (TextIOWrapper(BytesIO(), "utf-8", newline="\n") for _ in range(2))
        with redirect_stdout(out), redirect_stderr(errors):
            status = run(given)
        for stream in (out, errors):
            stream.seek(0)
        return subprocess.CompletedProcess(given, status, out.read(), errors.read())

    def start(self, *words: object) -> subprocess.CompletedProcess[str]:
        """The same, in a process of its own."""
        command = [str(TOP / "olr-tools"), *map(str, words)]
        return subprocess.run(command, capture_output=True, text=True, check=False, timeout=600)


@pytest.fixture(scope="session")
def tools() -> Tools:
    """The command `olr-tools`."""
    return Tools()


@pytest.fixture(scope="session")
def chromium() -> Iterator[Browser]:
    """A browser for all tests: it takes a second to start and to end."""
    with Browser(ONE_THREAD) as started:
        yield started


@pytest.fixture(scope="module")
def browser(chromium: Browser) -> Iterator[Browser]:
    """The browser with a page for all tests of a file."""
    with chromium.afresh():
        yield chromium


@pytest.fixture(scope="session")
def town(tmp_path_factory: pytest.TempPathFactory) -> "Town":
    """A drawn map as a store, with messages."""
    from runs import make_town

    return make_town(tmp_path_factory.mktemp("town"))


@pytest.fixture
def runs(town: "Town", program: Program, tmp_path: Path) -> Iterator["Runs"]:
    """Runs of `olr-tools run` in that town. None of their processes outlives the test."""
    from runs import Runs

    found = Runs(town, program, tmp_path)
    yield found
    found.end_all()


@pytest.fixture
def here(tmp_path: Path, program: Program, monkeypatch: pytest.MonkeyPatch) -> None:
    """Groups are answered in this process, without workers, also by the command `run`."""
    from runs import answer_in_this_process

    answer_in_this_process(monkeypatch, tmp_path / "scratch", program.path)
