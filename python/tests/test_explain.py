"""`olr explain`: what it prints of each fault is the row of docs/FAULTS.md and of the table that Python shows."""

import pytest
import re
from typing import NamedTuple

from conftest import TOP, Program
from olr.model.fault_table import ROWS


class Row(NamedTuple):
    """A row of the page, as plain text."""

    meaning: str
    cause: str
    remedy: str


def page() -> str:
    """The page without the marks of links and of weight."""
    text = (TOP / "docs/FAULTS.md").read_text(encoding="utf-8")
    return re.sub(r"\[([^]]*)\]\([^)]*\)", r"\1", text).replace("**", "")


def page_rows() -> dict[str, Row]:
    """The rows of the page by their faults."""
    rows = {}
    for line in page().splitlines():
        cells = line.strip("| ").split(" | ")
        name = re.fullmatch(r"`([A-Z][^`]*)`( \(status 2\))?", cells[0])
        if name and len(cells) == 4:
            rows[name.group(1)] = Row(*cells[1:])
    return rows


def blocks(text: str) -> dict[str, dict[str, str]]:
    """What `explain` printed of faults: of each the texts by their labels."""
    found: dict[str, dict[str, str]] = {}
    for line in text.splitlines():
        label, colon, rest = line.partition(": ")
        if colon:
            found[list(found)[-1]][label] = rest
        else:
            found[line] = {}
    return found


def printed(program: Program, *words: str) -> str:
    """What the program prints."""
    ended = program.run(*words)
    assert (ended.returncode, ended.stderr) == (0, "")
    return ended.stdout


def refused(program: Program, *words: str) -> str:
    """What it says of words that it doesn't understand."""
    ended = program.run(*words)
    assert (ended.returncode, ended.stdout) == (2, "")
    return ended.stderr


@pytest.mark.parametrize("fault", ROWS)
def test_each_fault(program: Program, fault: str) -> None:
    row = page_rows()[fault]
    assert (row.meaning, row.remedy) == ROWS[fault]
    told = blocks(printed(program, "explain", *fault.split(" ")))
    where = told[fault].pop("where", "")
    assert told == {
        fault: {"meaning": row.meaning, "usual cause": row.cause, "what to do": row.remedy}
    }
    flat = " ".join(page().split())
    assert all(part in flat for part in where.split("; ")), where


def test_the_list(program: Program) -> None:
    rows = page_rows()
    assert list(rows) == list(ROWS)
    wanted = "".join(f"{fault}: {row.meaning}\n" for fault, row in rows.items())
    assert printed(program, "explain") == wanted


def test_values_are_named_where_the_meaning_doesnt(program: Program) -> None:
    for fault in ROWS:
        told = printed(program, "explain", *fault.split(" ")).partition("\n")[2]
        for word in filter(str.isupper, fault.split(" ")[1:]):
            assert word in re.findall(r"\w+", told), fault


@pytest.mark.parametrize(
    "words",
    [
        ("Field", "lines", "1", "6"),
        ("Field lines 1 6",),
        ("olr: Field lines 1 6",),
        ("olr:", "Field", "lines 1", "6"),
        (" olr: Field lines 1 6\n",),
        ("Field",),
        ("field",),
    ],
)
def test_a_line_is_explained_as_its_name(program: Program, words: tuple[str, ...]) -> None:
    assert list(blocks(printed(program, "explain", *words))) == ["Field FILE N C"]


@pytest.mark.parametrize(
    ("words", "faults"),
    [
        (("OtherKind",), ["OtherKind Area", "OtherKind GeoCoordinate"]),
        (("OtherKind", "Area"), ["OtherKind Area"]),
        (("olr: OtherKind GeoCoordinate",), ["OtherKind GeoCoordinate"]),
    ],
)
def test_faults_of_one_name(program: Program, words: tuple[str, ...], faults: list[str]) -> None:
    assert list(blocks(printed(program, "explain", *words))) == faults


@pytest.mark.parametrize(
    ("words", "hint"),
    [
        (("Heade",), "a similar name exists: 'Header'"),
        (("OpenFail", "nodes"), "a similar name exists: 'OpenFailed'"),
        (("OtherKind", "Circle"), "a similar name exists: 'OtherKind'"),
        (("xyz",), "'olr explain' lists all faults"),
    ],
)
def test_no_such_fault(program: Program, words: tuple[str, ...], hint: str) -> None:
    told = refused(program, "explain", *words)
    assert f"there is no fault '{' '.join(words)}'" in told and hint in told
    assert "Usage: olr explain" in told


def test_help_and_each_mistake_name_it(program: Program) -> None:
    assert "olr explain" in printed(program, "--help")
    mistakes: list[list[str]] = [[], ["match"], ["mach"], ["show", "--x"], ["batch", "why"]]
    for words in mistakes:
        assert "olr explain" in refused(program, *words), words


REFERENCE = "CwVF/yN2yRpnBAFUAAgbpwYBAf9kK0Fa"


@pytest.mark.parametrize(
    ("words", "hint"),
    [
        (["match", REFERENCE], "<--map <FOLDER>|--nodes <FILE>>"),
        (["batch", "why"], "<--map <FOLDER>|--nodes <FILE>>"),
        (["match", REFERENCE, "--nodes", "n"], "--lines <FILE>"),
        (["match", REFERENCE, "--lines", "n"], "<--map <FOLDER>|--nodes <FILE>>"),
        ([REFERENCE], f"'olr show {REFERENCE}'"),
        ([REFERENCE, "--map", "x"], f"'olr match {REFERENCE} --map FOLDER'"),
        (["KwRbWyNG9VpsCQCb/jubVEQ="], "'olr show KwRbWyNG9VpsCQCb/jubVEQ='"),
    ],
)
def test_what_is_missing_is_named(program: Program, words: list[str], hint: str) -> None:
    assert hint in refused(program, *words)


@pytest.mark.parametrize("value", ["-5", "5.5", "5000000000", "x", "", "-0", "1e3"])
@pytest.mark.parametrize(
    ("words", "name"),
    [
        (["match", REFERENCE], "radius"),
        (["match", REFERENCE], "page"),
        (["places", REFERENCE], "apart"),
        (["why", REFERENCE], "nearest"),
        (["batch", "candidates"], "slack"),
        (["batch", "places"], "look"),
    ],
)
def test_a_number_has_its_range(program: Program, words: list[str], name: str, value: str) -> None:
    command = [word for word in words if word != REFERENCE]
    help_text = printed(program, *command, "--help")
    row = re.search(rf"--{name} <N> +(.*)", help_text)
    assert row
    for given in ([f"--{name}={value}"], [f"--{name}", value])[: 2 if value else 1]:
        told = refused(program, *words, "--map", "x", *given)
        assert row.group(1) in told and f"'--{name} <N>'" in told
        assert f"Usage: olr {' '.join(command)} " in told
