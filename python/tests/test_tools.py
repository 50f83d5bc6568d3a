"""The command line: status, texts, and what is left behind."""

import bz2
import click
import errno
import os
import pytest
import subprocess
from collections.abc import Iterator
from importlib.metadata import PackageNotFoundError
from pathlib import Path

from conftest import TOP, Tools
from olr import setup
from olr import tools as command_line

STREET = """<osm version="0.6">
<node id="{node}" lat="0" lon="0"/><node id="2" lat="0" lon="0.001"/>
<way id="{way}"><nd ref="{node}"/><nd ref="2"/><tag k="highway" v="residential"/></way></osm>
"""


def osm(node: int = 1, way: int = 1) -> bytes:
    """A file with one street."""
    return STREET.format(node=node, way=way).encode()


@pytest.mark.parametrize(
    "name, content, words",
    [
        ("none.osm", None, "isn't a file"),
        (
            "some.txt",
            b"no map",
            "can't be read as OpenStreetMap data: Could not detect file format",
        ),
        ("empty.osm", b"", "can't be read as OpenStreetMap data: XML parsing error"),
        ("other.osm", b"<html/>", "can't be read as OpenStreetMap data: Unknown top-level element"),
        ("cut.osm", osm()[:90], "can't be read as OpenStreetMap data: XML parsing error"),
        (
            "cut.osm.bz2",
            bz2.compress(osm())[:60],
            "can't be read as OpenStreetMap data: bzip2 error",
        ),
        ("no.osm.bz2", b"no map", "can't be read as OpenStreetMap data: bzip2 error"),
        ("no.osm.pbf", b"no map", "can't be read as OpenStreetMap data: PBF error"),
        ("id.osm", osm().replace(b'id="2"', b'id="2x"'), "OpenStreetMap data: illegal id"),
        ("lon.osm", osm().replace(b"0.001", b"0,001"), "characters after coordinate: ',001'"),
        ("bare.osm", b'<osm version="0.6"></osm>', "has no roads"),
        ("new.osm", osm(way=-1), "way -1: an id below 1 is of an object that isn't uploaded"),
        ("new.osm", osm(node=-1), "node -1: an id below 1 is of an object that isn't uploaded"),
        ("big.osm", osm(way=900_719_925_474), "way 900719925474: the greatest id"),
        ("big.osm", osm(node=2**53 + 1), "node 9007199254740993: the greatest id"),
    ],
)
def test_malformed_files(
    tools: Tools, tmp_path: Path, name: str, content: bytes | None, words: str
) -> None:
    file = tmp_path / "in" / name
    file.parent.mkdir()
    if content is not None:
        file.write_bytes(content)
    ended = tools.run("import", "osm", file, "--out", tmp_path / "map")
    assert ended.returncode == 1
    assert words in ended.stderr
    assert ended.stderr.startswith("olr-tools: ")
    assert ended.stderr.count("\n") == 1
    assert ended.stdout == ""
    assert os.listdir(tmp_path) == ["in"]


@pytest.mark.parametrize(
    "box", ["1,2,3", "a,b,c,d", "2,0,1,1", "0,2,1,1", "0,0,181,1", "nan,0,1,1", "0,0,1,1,2"]
)
def test_boxes_that_are_none(tools: Tools, tmp_path: Path, box: str) -> None:
    ended = tools.run("import", "osm", "x.osm", "--out", tmp_path / "map", "--bbox", box)
    assert ended.returncode == 2
    assert "Invalid value for '--bbox'" in ended.stderr


def test_a_box_in_degrees(tools: Tools, top: Path, tmp_path: Path) -> None:
    words = ["import", "osm", top / "examples/town.osm", "--out", tmp_path / "map"]
    ended = tools.run(*words, "--bbox", "7.4,49.86,7.4125,49.88")
    assert (ended.returncode, ended.stdout.split(":")[1]) == (
        0,
        " 2 nodes, 2 lines, 0 bans (0 of turn restrictions, 0 of U-turns)\n",
    )


def test_a_folder_that_isnt_empty_is_refused_before_reading(tools: Tools, tmp_path: Path) -> None:
    (tmp_path / "file").touch()
    ended = tools.start("import", "osm", "none.osm", "--out", tmp_path)
    assert ended.returncode == 1
    assert ended.stderr == (
        f"olr-tools: {tmp_path} isn't empty: name another folder, or replace its map by --force\n"
    )


def test_a_folder_that_cant_be_entered(
    tmp_path: Path, monkeypatch: pytest.MonkeyPatch, capsys: pytest.CaptureFixture[str]
) -> None:
    """Root can enter each, so the answer of the system is set here."""

    def stat(path: Path, *, follow_symlinks: bool = True) -> os.stat_result:
        if path.parts[0] == "shut":
            raise PermissionError(errno.EACCES, os.strerror(errno.EACCES), os.fspath(path))
        return os.stat(path, follow_symlinks=follow_symlinks)

    monkeypatch.setattr(Path, "stat", stat)
    assert command_line.run(["import", "osm", "shut/a.osm", "--out", str(tmp_path / "map")]) == 1
    assert capsys.readouterr() == ("", f"olr-tools: shut/a.osm: {os.strerror(errno.EACCES)}\n")


def test_no_progress_bar_in_a_pipe(tools: Tools, top: Path, tmp_path: Path) -> None:
    ended = tools.start("import", "osm", top / "examples/town.osm", "--out", tmp_path / "map")
    assert "\r" not in ended.stdout + ended.stderr
    assert "\x1b" not in ended.stdout + ended.stderr
    assert ended.stderr == (
        "left out: service roads (--service takes them in): 1\n"
        "left out: ways that are closed to motor vehicles: 1\n"
        "left out: ways that are not roads: highway=footway: 1\n"
    )


def test_the_same_input_gives_the_same_files(tools: Tools, top: Path, tmp_path: Path) -> None:
    """Two processes have other orders of their sets."""
    for name in ("one", "two"):
        tools.start("import", "osm", top / "examples/town.osm", "--out", tmp_path / name)
    files = sorted(os.listdir(tmp_path / "one"))
    assert files == ["bans.csv", "ids.csv", "import.json", "lines.csv", "nodes.csv"]
    for file in files:
        assert (tmp_path / "one" / file).read_bytes() == (tmp_path / "two" / file).read_bytes()


def test_help_names_the_commands(tools: Tools) -> None:
    ended = tools.start("--help")
    assert ended.returncode == 0
    for name in ("check", "import", "match", "setup", "u-turns", "view"):
        assert f"  {name} " in ended.stdout


def commands(group: click.Group, *words: str) -> Iterator[tuple[list[str], click.Command]]:
    """All commands of a group, with the words that call them."""
    context = click.Context(group)
    for name in group.list_commands(context):
        command = group.get_command(context, name)
        assert command is not None
        yield [*words, name], command
        if isinstance(command, click.Group):
            yield from commands(command, *words, name)


def test_h_is_help_for_each_command(capsys: pytest.CaptureFixture[str]) -> None:
    found: list[list[str]] = [[]]
    found += [words for words, _ in commands(command_line.tools)]
    assert len(found) >= 10
    for words in found:
        shown = []
        for option in ("-h", "--help"):
            assert command_line.run([*words, option]) == 0
            shown.append(capsys.readouterr().out)
        assert shown[0].startswith(" ".join(["Usage: olr-tools", *words]))
        assert shown[0] == shown[1]


def test_each_option_is_explained_by_itself() -> None:
    """Its help says what it is of, and what is done without it."""
    found = 0
    for words, command in commands(command_line.tools):
        for option in command.params:
            if isinstance(option, click.Option):
                found += 1
                about = f"{' '.join(words)} {option.opts[0]}: {option.help}"
                assert option.help and option.help.endswith("."), about
                assert option.help.split()[0] not in ("Of", "That", "Its", "Their"), about
                default = option.show_default or "y default" in option.help
                assert default != option.required, about
    assert found > 60


def test_no_two_options_of_a_command_are_one() -> None:
    """Two that take a value for one name would each be the other."""
    for words, command in commands(command_line.tools):
        names = [one.name for one in command.params if not getattr(one, "is_flag", False)]
        assert len(set(names)) == len(names), words


@pytest.mark.parametrize(
    ("name", "option", "words"),
    [
        ("import osm", "--bbox", "in degrees: W and E from -180 to 180, S and N from -90 to 90"),
        ("import vector", "--tolerance", "0 to 20 metres. [default: 0.5; 0<=x<=20]"),
        ("import vector", "--class", "or a number from 0 to 7 for all roads"),
        ("import vector", "--id", "from 1 to 900,719,925,473"),
        ("check", "--most", "0 or more. [default: 10; x>=0]"),
        ("match", "--radius", "from a point: 1 to 1000 metres, by default that of the profile."),
        ("match", "--page", "Without --places and --why, list so many of each reference: 1 to"),
        ("match", "--key", "By default key, if there is one."),
        ("run", "--page", "Without --places, --why and --candidates, list so many of each"),
        (
            "run",
            "--slack",
            "by so much again: 0 to 10000 decimetres, by default that of the profile.",
        ),
        ("run", "--workers", "has on this machine: 1 or more. By default one for each processor."),
        ("run", "--format", "By default it is detected by the first line."),
        ("view", "--record", "1 or more. By default the message is found by its key, REF."),
    ],
)
def test_help_has_ranges_and_units(
    name: str, option: str, words: str, capsys: pytest.CaptureFixture[str]
) -> None:
    assert command_line.run([*name.split(), "-h"]) == 0
    shown = " ".join(capsys.readouterr().out.split())
    assert words in shown.split(f" {option} ")[-1]


def test_words_that_arent_understood(tools: Tools) -> None:
    assert tools.start("nonsense").returncode == 2
    assert tools.run("import", "osm", "x.osm").returncode == 2


def test_a_missing_module_is_named(
    monkeypatch: pytest.MonkeyPatch, capsys: pytest.CaptureFixture[str]
) -> None:
    def lacking(name: str) -> None:
        raise ModuleNotFoundError("No module named 'osmium'", name="osmium")

    monkeypatch.setattr("olr.tools.importlib.import_module", lacking)
    assert command_line.run(["import", "osm", "x.osm", "--out", "map"]) == 1
    assert capsys.readouterr().err == (
        "olr-tools: import osm needs the module osmium: on Debian run olr-tools setup (python3-pyosmium), elsewhere "
        "install the extra olr[maps] of the wheel\n"
    )
    assert command_line.run(["import", "--help"]) == 0


def test_python_alone_has_setup_and_help() -> None:
    """An interpreter without any module."""
    command = ["/usr/bin/python3", "-I", "-S", "-c"]
    program = f"import sys; sys.path.append({str(TOP / 'python')!r}); from olr.__main__ import main; main()"
    for words in (["--help"], ["setup", "-h"]):
        helped = subprocess.run(
            [*command, program, *words],
            capture_output=True,
            text=True,
            check=False,
            env={"PATH": "/nowhere"},  # There is no apt-get.
        )
        assert (helped.returncode, helped.stderr) == (0, "")
        assert helped.stdout.startswith("Usage: olr-tools COMMAND")
        assert "olr-tools setup" in helped.stdout
    other = subprocess.run(
        [*command, program, "check"], capture_output=True, text=True, check=False
    )
    assert other.returncode == 1
    assert other.stderr == (
        "olr-tools: check needs the module click: on Debian run olr-tools setup (python3-click), elsewhere "
        "install the extra olr[maps] of the wheel\n"
    )


def test_setup_without_the_right_prints_the_line_alone(
    monkeypatch: pytest.MonkeyPatch, capsys: pytest.CaptureFixture[str]
) -> None:
    monkeypatch.setattr(setup, "missing_packages", lambda tests: ["python3-click", "python3-rich"])
    monkeypatch.setattr("olr.setup.os.geteuid", lambda: 1000)
    monkeypatch.setattr("olr.setup.shutil.which", lambda name: f"/usr/bin/{name}")
    monkeypatch.setattr("olr.setup.subprocess.run", never)
    assert setup.set_up() == 1
    printed = capsys.readouterr()
    assert printed.out == "apt-get install -y --no-install-recommends python3-click python3-rich\n"
    assert printed.err == "olr-tools: this line is for root on Debian: put sudo before it\n"


def test_a_wheel_brings_its_own_leaflet(monkeypatch: pytest.MonkeyPatch, tmp_path: Path) -> None:
    monkeypatch.setattr(setup, "__file__", str(tmp_path / "setup.py"))
    monkeypatch.setattr("olr.setup.os.path.exists", lambda file: False)
    assert "libjs-leaflet" in setup.missing_packages()
    (tmp_path / "pages/leaflet").mkdir(parents=True)
    (tmp_path / "pages/leaflet/leaflet.min.js").touch()
    assert "libjs-leaflet" not in setup.missing_packages()


def test_setup_elsewhere_names_a_virtual_environment(
    monkeypatch: pytest.MonkeyPatch, capsys: pytest.CaptureFixture[str]
) -> None:
    monkeypatch.setattr(setup, "missing_packages", lambda tests: ["python3-click"])
    monkeypatch.setattr("olr.setup.shutil.which", lambda name: None)
    assert setup.set_up() == 1
    printed = capsys.readouterr()
    assert printed.out == ""
    assert printed.err == (
        "olr-tools: there is no apt-get, so this isn't Debian: install the wheel and its extras in a virtual environment\n"
    )


def never(*_: object, **__: object) -> None:
    raise AssertionError("setup ran a command")


@pytest.mark.parametrize("is_installed", [False, True])
def test_setup_in_a_virtual_environment_names_pip(
    is_installed: bool, monkeypatch: pytest.MonkeyPatch, capsys: pytest.CaptureFixture[str]
) -> None:
    """Also for root: Debian's packages would be of no use there, and pip may not install without being asked."""

    def version(name: str) -> str:
        if not is_installed:
            raise PackageNotFoundError(name)
        return "1.1.0"

    def found(module: str) -> object:
        return None if module in ("osmium", "uvicorn") else module

    monkeypatch.setattr("olr.setup.sys.prefix", "environment")
    monkeypatch.setattr("olr.setup.sys.executable", "environment/bin/python")
    monkeypatch.setattr("olr.setup.os.geteuid", lambda: 0)
    monkeypatch.setattr("importlib.metadata.version", version)
    monkeypatch.setattr("olr.setup.importlib.util.find_spec", found)
    monkeypatch.setattr("olr.setup.subprocess.run", never)
    assert setup.set_up() == 1
    printed = capsys.readouterr()
    package = "olr" if is_installed else TOP / "python"
    command = f"environment/bin/python -m pip install '{package}[maps,serve]'\n"
    assert printed.out == command
    assert printed.err == (
        "olr-tools: this Python is a virtual environment, in which pip installs what is missing, by this line\n"
    )


def test_setup_prints_before_it_installs(
    monkeypatch: pytest.MonkeyPatch, capsys: pytest.CaptureFixture[str]
) -> None:
    ran: list[str] = []

    def run(command: list[str], **_: object) -> subprocess.CompletedProcess[str]:
        assert capsys.readouterr().out.startswith("apt-get ")
        ran.append(command[3])
        return subprocess.CompletedProcess(command, 100 if ran == ["install"] else 0)

    missing = iter([["python3-click"], []])
    monkeypatch.setattr(setup, "missing_packages", lambda tests: next(missing))
    monkeypatch.setattr("olr.setup.os.geteuid", lambda: 0)
    monkeypatch.setattr("olr.setup.shutil.which", lambda name: f"/usr/bin/{name}")
    monkeypatch.setattr("olr.setup.subprocess.run", run)
    assert setup.set_up() == 0
    assert ran == ["install", "update", "install"]
