"""Standard output and standard error that don't take what a command says, errors of the system, and names that can't be: a line for each,
and no file is lost."""

import errno
import io
import os
import pytest
import shutil
import subprocess
import sys
from collections.abc import Iterator
from contextlib import redirect_stderr, redirect_stdout
from pathlib import Path

from conftest import REFERENCE, TOP, Program
from olr import tools as command_line
from olr.tools import run
from test_tools import commands

EXAMPLES = TOP / "examples"
MESSAGES = EXAMPLES / "messages.tsv"
MAP = ("--map", EXAMPLES)
FULL = "olr-tools: standard output: No space left on device\n"
CLOSED = "olr-tools: standard output: Bad file descriptor\n"
LONG = "x" * 300
TOO_LONG = os.strerror(errno.ENAMETOOLONG)


class Broken(io.StringIO):
    """A stream that takes nothing: a write has an error, or, if it keeps what is written, a flush."""

    def __init__(self, number: int = errno.ENOSPC, keeps: bool = False) -> None:
        super().__init__()
        self.number, self.keeps = number, keeps
        self.kept = ""

    def write(self, text: str) -> int:
        if not self.keeps:
            raise OSError(self.number, os.strerror(self.number))
        self.kept += text
        return len(text)

    def flush(self) -> None:
        # As a stream of the system: what it keeps can't be handed over.
        if self.kept:
            raise OSError(self.number, os.strerror(self.number))


@pytest.fixture(autouse=True)
def environment(program: Program, monkeypatch: pytest.MonkeyPatch) -> None:
    """The commands find the program by its environment."""
    monkeypatch.setenv("OLR_PROGRAM", os.fspath(program.path))


def olr_tools(*words: object) -> int:
    """Runs the command line in this process, and answers its status."""
    return run(list(map(str, words)))


def contents(path: Path) -> object:
    """What a file has in it, or each file of a folder."""
    if path.is_dir():
        return {one.name: contents(one) for one in path.iterdir()}
    return path.read_bytes()


@pytest.mark.parametrize(
    ("number", "said"),
    [
        (errno.ENOSPC, FULL),
        (errno.EBADF, CLOSED),
        (errno.EIO, "olr-tools: standard output: Input/output error\n"),
        (errno.EPIPE, ""),
    ],
)
@pytest.mark.parametrize("keeps", [False, True])
@pytest.mark.parametrize("words", [["--version"], ["--help"], ["check", EXAMPLES], ["setup"]])
def test_standard_output_that_takes_nothing(
    words: list[object],
    keeps: bool,
    number: int,
    said: str,
    capsys: pytest.CaptureFixture[str],
    monkeypatch: pytest.MonkeyPatch,
) -> None:
    """Python has nothing left to hand over at its end: it would complain, and change the status."""
    monkeypatch.setattr("olr.setup.missing_packages", lambda tests: [])
    stream = Broken(number, keeps)
    with redirect_stdout(stream):
        assert olr_tools(*words) == 1
        assert sys.stdout is stream
    assert capsys.readouterr() == ("", said)
    assert stream.closed == keeps


def test_help_that_cant_be_printed(capsys: pytest.CaptureFixture[str]) -> None:
    for words, _ in commands(command_line.tools):
        with redirect_stdout(Broken()):
            assert olr_tools(*words, "--help") == 1
        assert capsys.readouterr() == ("", FULL), words


@pytest.mark.parametrize(
    ("words", "names"),
    [
        (["match", MESSAGES, *MAP, "--out", "out.csv", "--pieces", "more.csv"], "out.csv more.csv"),
        (["report", MESSAGES, *MAP, "--out", "out.html"], "out.html"),
        (["view", REFERENCE, *MAP, "--out", "out.html"], "out.html"),
        (
            [
                *["compare", MESSAGES, *MAP, "--with", EXAMPLES],
                *["--out", "out.csv", "--page", "out.html"],
            ],
            "out.csv out.html",
        ),
        (["import", "osm", EXAMPLES / "town.osm", "--out", "map"], "map"),
        (["regions", EXAMPLES, "--out", "out.gpkg"], "out.gpkg"),
        (["u-turns", "drawn"], "drawn"),
    ],
)
def test_files_are_whole_where_the_summary_is_lost(
    words: list[object],
    names: str,
    tmp_path: Path,
    monkeypatch: pytest.MonkeyPatch,
    capsys: pytest.CaptureFixture[str],
) -> None:
    there: list[object] = []
    for name, stream, status in (("lost", Broken(), 1), ("said", io.StringIO(), 0)):
        folder = tmp_path / name
        (folder / "drawn").mkdir(parents=True)
        for file in ("nodes.csv", "lines.csv"):
            shutil.copy(EXAMPLES / file, folder / "drawn")
        monkeypatch.chdir(folder)
        capsys.readouterr()
        with redirect_stdout(stream):
            assert olr_tools(*words) == status
        there.append([contents(folder / one) for one in names.split()])
        if status:
            said = capsys.readouterr().err.splitlines()
            assert [line for line in said if "left out: " not in line] == [FULL.strip()]
    assert there[0] == there[1]


@pytest.mark.parametrize("keeps", [False, True])
@pytest.mark.parametrize(
    ("words", "status"),
    [
        (["import", "osm", EXAMPLES / "town.osm", "--out", "map"], 0),
        (["check", "none"], 1),
        (["view", REFERENCE, "--map", "none", "--out", "page.html"], 1),
        (["nonsense"], 2),
    ],
)
def test_what_standard_error_doesnt_take_is_lost(
    words: list[object],
    status: int,
    keeps: bool,
    tmp_path: Path,
    monkeypatch: pytest.MonkeyPatch,
    capsys: pytest.CaptureFixture[str],
) -> None:
    monkeypatch.chdir(tmp_path)
    stream = Broken(keeps=keeps)
    with redirect_stderr(stream):
        assert olr_tools(*words) == status
    printed = capsys.readouterr()
    assert printed.err == ""
    assert printed.out.startswith("map: 19 nodes, 39 lines, ") == (status == 0)
    assert stream.closed == bool(stream.kept)


@pytest.mark.parametrize(
    ("error", "said"),
    [
        (OSError(errno.ENOTDIR, "Not a directory", "a/b"), "a/b: Not a directory"),
        (OSError(errno.EMFILE, "Too many open files"), "Too many open files"),
        (OSError(errno.ENOENT, "No such file or directory", ""), "No such file or directory"),
        (OSError(errno.ENOENT, "No such file or directory", "a\nb"), r"a\nb: No such file or"),
        (OSError("only words"), "only words"),
        (TimeoutError(), "TimeoutError"),
        # Of another pipe than standard output.
        (OSError(errno.EPIPE, "Broken pipe"), "Broken pipe"),
        (ConnectionResetError(errno.ECONNRESET, "Connection reset by peer"), "Connection reset"),
    ],
)
def test_an_error_of_the_system_is_one_line(
    error: OSError, said: str, monkeypatch: pytest.MonkeyPatch, capsys: pytest.CaptureFixture[str]
) -> None:
    def fail(tests: bool) -> int:
        raise error

    monkeypatch.setattr("olr.setup.set_up", fail)
    assert olr_tools("setup") == 1
    printed = capsys.readouterr()
    assert (printed.out, printed.err.count("\n")) == ("", 1)
    assert printed.err.startswith(f"olr-tools: {said}")


@pytest.mark.parametrize(
    "words",
    [
        ["check", LONG],
        ["match", LONG, *MAP, "--out", "out.csv"],
        ["match", MESSAGES, "--map", LONG, "--out", "out.csv"],
        ["match", MESSAGES, *MAP, "--out", f"{LONG}.csv"],
        ["match", MESSAGES, *MAP, "--out", "out.csv", "--pieces", f"{LONG}.csv"],
        ["match", MESSAGES, *MAP, "--places", "--out", "out.csv", "--confidence", LONG],
        ["report", LONG, *MAP, "--out", "out.html"],
        ["report", MESSAGES, "--map", LONG, "--out", "out.html"],
        ["report", MESSAGES, *MAP, "--out", f"{LONG}.html"],
        ["view", REFERENCE, "--map", LONG, "--out", "out.html"],
        ["view", REFERENCE, *MAP, "--out", f"{LONG}.html"],
        ["view", REFERENCE, *MAP, "--messages", LONG, "--out", "out.html"],
        ["compare", MESSAGES, "--map", LONG, "--with", EXAMPLES, "--out", "out.csv"],
        ["compare", MESSAGES, *MAP, "--with", LONG, "--out", "out.csv"],
        [
            "compare",
            MESSAGES,
            *MAP,
            "--with",
            EXAMPLES,
            "--out",
            "out.csv",
            "--page",
            f"{LONG}.html",
        ],
        ["import", "osm", LONG, "--out", "map"],
        ["import", "osm", EXAMPLES / "town.osm", "--out", LONG],
        ["import", "osm", EXAMPLES / "town.osm", "--out", "map", "--tags", LONG],
        ["import", "vector", LONG, "--class", "0", "--form", "3", "--out", "map"],
        ["regions", LONG, "--out", "out.gpkg"],
        ["regions", EXAMPLES, "--out", LONG],
        ["run", MESSAGES, "--store", LONG, "--out", "out"],
        ["u-turns", LONG],
        ["calibrate", "--map", LONG, "--out", "out.json"],
        ["calibrate", *MAP, "--out", LONG],
    ],
    ids=lambda words: " ".join(word[:12] for word in map(str, words) if str(EXAMPLES) not in word),
)
def test_a_name_that_is_too_long(
    words: list[object],
    tmp_path: Path,
    monkeypatch: pytest.MonkeyPatch,
    capsys: pytest.CaptureFixture[str],
) -> None:
    monkeypatch.chdir(tmp_path)
    assert olr_tools(*words) == 1
    said = capsys.readouterr()
    if words[0] == "check":
        # What it finds is its output.
        assert TOO_LONG in said.out + said.err
        assert said.err.count("\n") <= 1
    else:
        assert said.out == "" and said.err.count("\n") == 1
        assert said.err.startswith("olr-tools: ") and LONG in said.err
        assert TOO_LONG in said.err or "isn't a store" in said.err
    assert not list(tmp_path.iterdir())


def test_standard_input_that_is_closed(
    tmp_path: Path, monkeypatch: pytest.MonkeyPatch, capsys: pytest.CaptureFixture[str]
) -> None:
    monkeypatch.setattr("sys.stdin", None)
    assert olr_tools("match", "-", *MAP, "--out", tmp_path / "out.csv") == 1
    assert capsys.readouterr() == ("", "olr-tools: standard input is closed: name a file\n")


@pytest.fixture
def closed_pipe() -> Iterator[int]:
    """A pipe that nobody reads."""
    read, write = os.pipe()
    os.close(read)
    yield write
    os.close(write)


def shell(line: str, folder: Path, **streams: int) -> subprocess.CompletedProcess[str]:
    """Runs a line of a shell, in which `olr-tools` is the command and `examples` the folder of that name."""
    words = line.replace("olr-tools", str(TOP / "olr-tools")).replace("examples", str(EXAMPLES))
    pipes = {"stdout": subprocess.PIPE, "stderr": subprocess.PIPE} | streams
    return subprocess.run(["sh", "-c", words], cwd=folder, text=True, timeout=600, **pipes)  # type: ignore[call-overload, no-any-return]


@pytest.mark.parametrize(
    ("line", "status", "out", "err"),
    [
        # What has its modules at once: other commands are tested above.
        ("olr-tools --version >/dev/full", 1, "", FULL),
        ("olr-tools check examples >&-", 1, "", CLOSED),
        ("PYTHONIOENCODING=ascii olr-tools --version >/dev/full", 1, "", FULL),
        # What is said doesn't go to standard output in place of standard error.
        ("olr-tools nonsense 2>&-", 2, "", ""),
        ("olr-tools nonsense 2>/dev/full", 2, "", ""),
        ("olr-tools serve --map examples --port 0 --workers 1 >/dev/full", 1, "", FULL),
        (
            f"olr-tools serve --map {LONG} --port 0 <&-",
            1,
            "",
            f"olr-tools: {LONG} can't be read: {TOO_LONG}\n",
        ),
    ],
    ids=lambda value: value[:30] if isinstance(value, str) else value,
)
def test_streams_of_a_process(line: str, status: int, out: str, err: str, tmp_path: Path) -> None:
    ended = shell(line, tmp_path)
    assert (ended.returncode, ended.stdout, ended.stderr) == (status, out, err)


def test_a_pipe_that_nobody_reads(closed_pipe: int, tmp_path: Path) -> None:
    ended = shell("olr-tools import osm examples/town.osm --out map", tmp_path, stdout=closed_pipe)
    assert ended.returncode == 1
    assert all(line.startswith("left out: ") for line in ended.stderr.splitlines())
    assert (tmp_path / "map" / "lines.csv").is_file()


def test_no_file_gets_the_number_of_a_stream(tmp_path: Path) -> None:
    """What a library or the program prints doesn't go into a file, and the program's pipes are none of these streams."""
    ended = shell(
        "olr-tools match examples/messages.tsv --map examples --out out.gpkg <&- >&- 2>&-", tmp_path
    )
    assert ended.returncode == 1
    with redirect_stdout(io.StringIO()):
        assert olr_tools("match", MESSAGES, *MAP, "--out", tmp_path / "same.gpkg") == 0
    sizes = [(tmp_path / name).stat().st_size for name in ("out.gpkg", "same.gpkg")]
    assert sizes[0] == sizes[1]


def test_help_without_click_that_cant_be_printed(tmp_path: Path) -> None:
    program = f"import sys; sys.path.append({str(TOP / 'python')!r}); from olr.__main__ import main; main()"
    ended = shell(f'/usr/bin/python3 -I -S -c "{program}" --help >/dev/full', tmp_path)
    assert (ended.returncode, ended.stderr) == (1, FULL)
