"""`check` and the program find the same maps faulty, and the program's fault is the first of `check`."""

import tomllib

import pytest
import random
from pathlib import Path
from typing import Any

from conftest import TOP, Program
from drawn_maps import damage, draw_files
from olr.checking.files import LIMITS, check_files

DATA = TOP / "crates/olr_conformance/data"
SUITES = ("node-faults", "line-faults", "headers", "bans", "maps")
DRAWS = 400


def write(folder: Path, files: dict[str, bytes]) -> None:
    """Writes the files of a map, and nothing else, to a folder."""
    for old in folder.iterdir():
        old.unlink()
    for name, text in files.items():
        (folder / name).write_bytes(text)


def first_fault(folder: Path) -> str:
    """The first fault of `check`, as the program prints it; an empty text if there is none."""
    faults, _ = check_files(folder, 10)
    assert bool(faults.kept) == bool(faults.total())
    return faults.kept[0].program_text() if faults.kept else ""


def conformance_cases() -> list[Any]:
    """Each case with the files of a map, and its fault if that is one of the map alone."""
    cases = []
    for suite in SUITES:
        table = tomllib.loads((DATA / f"{suite}.toml").read_text(encoding="utf-8"))
        for case in table["case"]:
            files = table["files"] | case.get("files", {})
            expected = None if "words" in case else case.get("fault", "").removeprefix("olr: ")
            cases.append(pytest.param(files, expected, id=f"{suite}: {case['name']}"))
    return cases


@pytest.mark.parametrize(("files", "expected"), conformance_cases())
def test_conformance_suite(
    files: dict[str, str], expected: str | None, tmp_path: Path, program: Program
) -> None:
    write(tmp_path, {f"{name}.csv": text.encode() for name, text in files.items()})
    fault = first_fault(tmp_path)
    assert fault == program.fault(tmp_path)
    assert expected is None or fault == expected


def test_damaged_maps(tmp_path: Path, program: Program) -> None:
    faulty = 0
    for seed in range(DRAWS):
        draw = random.Random(seed)
        files = damage(draw, draw_files(draw))
        write(tmp_path, files)
        fault = first_fault(tmp_path)
        assert fault == program.fault(tmp_path), f"seed {seed}: {files}"
        faulty += bool(fault)
    assert DRAWS // 4 < faulty < DRAWS


NODES = b"id,lon,lat\n1,0,0\n2,1000,0\n"
MANY = b"".join(b"%d,%d,5\n" % (n, n) for n in range(3, 20_000))


@pytest.mark.parametrize(
    ("nodes", "fault"),
    [
        pytest.param(NODES + b'3,"' + b"9," * 200_000 + b'",0\n', "Field nodes 3 2", id="long"),
        pytest.param(NODES + b'3,"' + b"9,0\n4,5" * 50_000, "Shape nodes 3", id="open quote"),
        pytest.param(NODES + b"0" * 1_000_000 + b"3,1,1\n", "Field nodes 3 1", id="many digits"),
        pytest.param(b"\xef\xbb\xbf", "Header nodes", id="a byte order mark alone"),
        pytest.param(b"\xef\xbb\xbf\n\r\n" + NODES, "", id="empty lines before the header"),
        pytest.param(b"\xef\xbb\xbf" * 2 + NODES, "Header nodes", id="two byte order marks"),
        pytest.param(b"\xef\xbb" + NODES, "Header nodes", id="a part of a byte order mark"),
        pytest.param(b"\n\r\r\n", "Header nodes", id="empty lines alone"),
        pytest.param(NODES + MANY + b"x,1,1", "Field nodes 20000 1", id="ends of lines by LF"),
        pytest.param(NODES + b'"3\n",1,1\n', "Field nodes 3 1", id="an end of a line in quotes"),
        pytest.param(NODES + b'3,1,1\n"', "Shape nodes 4", id="a quote alone"),
        pytest.param(NODES + b'3,1"2,1\n', "Field nodes 3 2", id="a quote within a field"),
        pytest.param(NODES + b'"3"3,1,1\n', "", id="text behind a closing quote"),
        pytest.param(b'"id"x,lon,lat\n', "Header nodes", id="text behind a quoted name"),
        pytest.param(NODES.decode().encode("utf-16"), "Header nodes", id="UTF-16"),
        pytest.param(NODES + b"3,5,1\x0b\n", "Field nodes 3 3", id="a vertical tab"),
        pytest.param(NODES + b"3,5,1\x85\n", "Field nodes 3 3", id="a next line of Latin-1"),
    ],
)
def test_texts_of_csv(nodes: bytes, fault: str, tmp_path: Path, program: Program) -> None:
    """Quotes, marks and ends of lines, each with LF, CR LF and CR."""
    for end in (b"\n", b"\r\n", b"\r"):
        lines = b"id,from,to,class,form,length,shape\n7,1,2,3,3,1113,\n".replace(b"\n", end)
        write(tmp_path, {"nodes.csv": nodes.replace(b"\n", end), "lines.csv": lines})
        assert first_fault(tmp_path) == program.fault(tmp_path) == fault


@pytest.mark.parametrize("file", ["nodes", "lines", "bans"])
@pytest.mark.parametrize("more", [0, 1])
def test_limits(
    file: str, more: int, tmp_path: Path, program: Program, monkeypatch: pytest.MonkeyPatch
) -> None:
    """The program says at its limits what `check` says at lesser ones, which are quicker to reach."""
    assert LIMITS == {"nodes": 100_000, "lines": 200_000, "bans": 200_000}
    expected = f"TooMany {file}" if more else ""
    write_counts(tmp_path, {"nodes": 448, "lines": 448, "bans": 0} | {file: LIMITS[file] + more})
    assert program.fault(tmp_path) == expected
    for name in LIMITS:
        monkeypatch.setitem(LIMITS, name, 1000)
    write_counts(tmp_path, {"nodes": 448, "lines": 448, "bans": 0} | {file: LIMITS[file] + more})
    assert first_fault(tmp_path) == expected


def write_counts(folder: Path, count: dict[str, int]) -> None:
    """Writes a map with so many records of each file. It has no other fault."""
    nodes = "".join(f"{n},{n},0\n" for n in range(1, count["nodes"] + 1))
    lines = "".join(f"{n},1,1,3,3,5,0 {n}\n" for n in range(1, count["lines"] + 1))
    bans = "".join(f"{1 + n % 448},{1 + n // 448}\n" for n in range(count["bans"]))
    files = {
        "nodes.csv": b"id,lon,lat\n" + nodes.encode(),
        "lines.csv": b"id,from,to,class,form,length,shape\n" + lines.encode(),
        "bans.csv": b"from,to\n" + bans.encode(),
    }
    write(folder, files)


def test_files_that_cannot_be_read(tmp_path: Path, program: Program) -> None:
    assert first_fault(tmp_path) == program.fault(tmp_path) == "OpenFailed nodes"
    (tmp_path / "nodes.csv").mkdir()
    assert first_fault(tmp_path) == program.fault(tmp_path) == "OpenFailed lines"
    (tmp_path / "lines.csv").write_text("id,from,to,class,form,length,shape\n")
    assert first_fault(tmp_path) == program.fault(tmp_path) == "ReadFailed nodes"
    (tmp_path / "nodes.csv").rmdir()
    (tmp_path / "nodes.csv").write_text("id,lon,lat\n")
    assert first_fault(tmp_path) == program.fault(tmp_path) == ""
    (tmp_path / "nodes.csv").write_text("no header\n")
    (tmp_path / "lines.csv").unlink()
    assert first_fault(tmp_path) == program.fault(tmp_path) == "OpenFailed lines"
    (tmp_path / "lines.csv").write_text("id,from,to,class,form,length,shape\n")
    (tmp_path / "nodes.csv").write_text("id,lon,lat\n")
    (tmp_path / "bans.csv").mkdir()
    assert first_fault(tmp_path) == program.fault(tmp_path) == "ReadFailed bans"
