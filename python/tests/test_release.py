"""What `./release` gives out: completion and man page beside the program's help, versions, and of which program it is.

`.ci/release-check` makes all of it, unpacks it and tries it.
"""

import hashlib
import os
import pytest
import re
import shutil
import subprocess
from itertools import pairwise
from packaging.version import Version
from pathlib import Path

import olr
import release
from conftest import TOP, Program, Tools
from helps import every_help, names_in, options_in
from olr.__main__ import _without_click
from olr.commands.limits import PASSED
from olr.errors import ToolError
from olr.extras import COMMANDS
from release.archive import archive
from release.files import Entry, write_folder
from release.machines import MACHINES, X86_64
from release.program_files import filled, manual
from olr.version import Section, _installed, sections, version
from release.state import State


def test_the_man_page_has_all_of_the_help(program: Program) -> None:
    page = manual(State(), program.path).decode().replace("\\", "")
    radius = "How far a line may lie from its point, in metres: 1 to 1000. By default 100."
    assert f'.TP\n.BI --radius " N"\n{radius}\n.TP\n.BI --bearing " N"\n' in page
    assert "@" not in page
    told = 0
    for _, text in every_help(program):
        for option in options_in(text):
            assert re.search(rf"(?m)^\.BR?I? .*{option}\b", page), option
        for name in names_in(text):
            assert f"\n.B {name}\n" in page
        whole = " ".join(text.split())
        assert not re.search("[a-z][A-Z][a-z]", whole), "a name of the code in a help"
        for explained, default in re.findall(r"--[a-z]+ <N> ([^<]*?) \[default: (\d+)\]", whole):
            assert f"{explained}. By default {default}.\n" in page
            told += 1
    assert told >= 6 * 9 + 2 * (1 + 4 + 1) + 2


def test_the_man_page_of_the_tools_has_each_command() -> None:
    page = filled(State(), "olr-tools.1").decode().replace("\\", "")
    assert [name for name in (*COMMANDS, "setup") if f".TP\n.B {name}\n" not in page] == []
    statuses = page.partition(".SH EXIT STATUS\n")[2].partition(".SH ")[0]
    assert re.findall(r"\b[0-9]\b", statuses) == ["0", "1", "2", str(PASSED)]


def test_one_version(program: Program, tools: Tools) -> None:
    """The program has the number of the newest section, and says so where that isn't released yet."""
    newest = sections((TOP / "CHANGELOG.md").read_text(encoding="utf-8"))[0]
    assert olr.__version__ == newest.version
    assert tools.start("--version").stdout == f"olr-tools, version {olr.__version__}\n"
    said = newest.number if newest.is_released else f"{newest.number}.dev"
    assert program.run("--version").stdout == f"olr {said}\n"


def test_the_version_needs_no_modules(tools: Tools, capsys: pytest.CaptureFixture[str]) -> None:
    assert _without_click(["--version"], ModuleNotFoundError("click")) == 0
    assert capsys.readouterr().out == tools.run("--version").stdout


@pytest.fixture
def tree(tmp_path: Path) -> Path:
    """A tree with sources, a built and a released program, which is of these sources."""
    (tmp_path / "crates/olr/out").mkdir(parents=True)
    (tmp_path / "crates/olr/src").mkdir()
    (tmp_path / "released").mkdir()
    (tmp_path / "crates.txt").write_text("olr:\n")
    (tmp_path / "crates/olr/src/main.rt").write_text("//\n")
    (tmp_path / "CHANGELOG.md").write_text(UNRELEASED)
    shutil.copytree(TOP / ".ci", tmp_path / ".ci")
    shutil.copy(TOP / "olr", tmp_path)
    for name in ("released", "crates/olr/out"):
        (tmp_path / name / "olr").write_text(f"#!/bin/sh\necho {name}\n")
        (tmp_path / name / "olr").chmod(0o755)
    digest = printed(tmp_path, ".ci/digest")
    programs = {name: sha256(tmp_path / name / "olr") for name in ("released", "crates/olr/out")}
    (tmp_path / "crates/olr/out/sources").write_text(f"{digest} {programs['crates/olr/out']}\n")
    said = f"# x\nprogram {programs['released']}\nsources {digest}\n"
    (tmp_path / "released/RELEASE").write_text(said)
    return tmp_path


def printed(tree: Path, *words: str) -> str:
    """What a script of a tree prints, without the end of its last line."""
    command = [str(tree / words[0]), *words[1:]]
    return subprocess.run(command, capture_output=True, text=True, check=True).stdout.rstrip("\n")


def sha256(file: Path) -> str:
    """The SHA-256 of a file."""
    return hashlib.sha256(file.read_bytes()).hexdigest()


def test_the_released_program_is_given_out(tree: Path) -> None:
    assert State(tree).program == tree / "released/olr"


@pytest.mark.parametrize("text", ["", "\n", "program\nsources \n"])
def test_not_one_of_which_nothing_is_said(tree: Path, text: str) -> None:
    (tree / "released/RELEASE").write_text(text)
    assert State(tree).program == tree / "crates/olr/out/olr"


def test_else_the_built_one(tree: Path) -> None:
    with (tree / "released/olr").open("a") as file:
        file.write("# another\n")
    assert State(tree).program == tree / "crates/olr/out/olr"
    shutil.rmtree(tree / "released")
    assert State(tree).program == tree / "crates/olr/out/olr"


def test_none_of_other_sources(tree: Path) -> None:
    source = tree / "crates/olr/src/main.rt"
    source.write_text("// another\n")
    os.utime(source, (0, 0))
    with pytest.raises(ToolError, match="no program was proved of these sources: run ./olr --prov"):
        State(tree).program


LINKERS = {"machines/out": "gcc 11, libc 1", "released": "gcc 12, libc 2"}
"""What linked the programs of a folder."""


def keep_static_programs(tree: Path, folder: str) -> None:
    """Puts programs for machines into a folder of a tree, which says that they are of its sources."""
    (tree / folder).mkdir(parents=True, exist_ok=True)
    for name in ("link", "runtime.c"):
        shutil.copy(TOP / "machines" / name, tree / "machines")
    said = [f"machines {printed(tree, '.ci/machines', '--sources')}", f"linked {LINKERS[folder]}"]
    for machine in MACHINES:
        files = [tree / folder / f"olr-{machine.name}{suffix}" for suffix in ("", ".o")]
        for file in files:
            file.write_text(f"{folder} {file.name}")
        said.append(" ".join([machine.name, *map(sha256, files)]))
    with (tree / folder / "RELEASE").open("a") as release:
        release.writelines(f"{line}\n" for line in said)


def test_programs_for_machines(tree: Path) -> None:
    """The released ones, else those that were made here of these sources."""
    (tree / "machines").mkdir()
    keep_static_programs(tree, "machines/out")
    for machine in MACHINES:
        assert State(tree).static_program(machine) == tree / f"machines/out/olr-{machine.name}"
    keep_static_programs(tree, "released")
    for machine in MACHINES:
        assert State(tree).static_program(machine) == tree / f"released/olr-{machine.name}"
    assert State(tree).program == tree / "released/olr"
    for suffix in ("", ".o"):
        file = tree / f"released/olr-x86_64{suffix}"
        file.write_text(f"other {file.name}")
        assert State(tree).static_program(X86_64).parent == tree / "machines/out"
        linkers = [State(tree).linked_by(machine) for machine in MACHINES]
        assert linkers == [["gcc 11", "libc 1"], ["gcc 12", "libc 2"]]
        file.write_text(f"released {file.name}")
        assert State(tree).static_program(X86_64).parent == tree / "released"
    said = tree / "released/RELEASE"
    said.write_text(said.read_text().replace("linked ", "other "))
    with pytest.raises(ToolError, match="released/RELEASE doesn't say what linked its programs"):
        State(tree).linked_by(X86_64)
    with (tree / "machines/runtime.c").open("a") as source:
        source.write("//\n")
    with pytest.raises(ToolError, match="x86_64 was made of these sources: run .ci/machines first"):
        State(tree).static_program(X86_64)


def keep_module(tree: Path, folder: str) -> Path:
    """Puts a module for pages into a folder of a tree, which says that it is of its sources. Answers the module."""
    for name in ("olr_page/src/lib.rt", "../web/heap.c", f"../{folder}/olr.wasm"):
        file = tree / "crates" / name
        file.parent.mkdir(parents=True, exist_ok=True)
        file.write_text(f"// {name}\n")
    (tree / "crates.txt").write_text("olr:\nolr_page staticlib:\n")
    module = tree / folder / "olr.wasm"
    sources = printed(tree, ".ci/wasm", "--sources")
    (tree / folder / "MODULE").write_text(f"module {sha256(module)}\nsources {sources}\n")
    return module


OF_PAGE = ["crates/olr_page/src/lib.rt", "crates/olr_page/proofs/Lib.antt", "web/heap.c"]
"""Some of what the module is made from."""


@pytest.mark.parametrize("source", OF_PAGE)
def test_the_module(tree: Path, source: str) -> None:
    """The released one, else the one that was made here of these sources."""
    with pytest.raises(ToolError, match="no module for pages was made|no crate olr_page"):
        State(tree).module
    made = keep_module(tree, "web/out")
    assert State(tree).module == made
    released = keep_module(tree, "released")
    assert State(tree).module == released
    for module in (released, made):
        module.write_text("another\n")
    with pytest.raises(ToolError, match="no module for pages was made .*: run .ci/wasm first"):
        State(tree).module
    keep_module(tree, "released")
    (tree / source).parent.mkdir(exist_ok=True)
    (tree / source).write_text("// another\n")
    with pytest.raises(ToolError, match="no module for pages was made .*: run .ci/wasm first"):
        State(tree).module


def keep_all(tree: Path) -> None:
    """Puts all that is given out into the folder `released` of a tree, and into those where it is made."""
    for made in ("web/out", "released"):
        keep_module(tree, made)
    said = tree / "released/RELEASE"
    text = re.sub("(?m)^sources .*", f"sources {printed(tree, '.ci/digest')}", said.read_text())
    said.write_text(text)
    (tree / "machines").mkdir()
    for made in ("machines/out", "released"):
        keep_static_programs(tree, made)


RELEASED = ["olr", "olr-x86_64", "olr-x86_64.o", "olr-aarch64", "olr-aarch64.o", "olr.wasm"]


@pytest.mark.parametrize("name", RELEASED)
def test_other_bytes_than_said_are_refused(tree: Path, name: str) -> None:
    """Whether something else could be given out or not."""
    State(tree).check_released()
    keep_all(tree)
    State(tree).check_released()
    content = bytearray((tree / "released" / name).read_bytes())
    content[3] ^= 1
    (tree / "released" / name).write_bytes(content)
    with pytest.raises(ToolError, match=f"released/{name} has other bytes .*git checkout released"):
        State(tree).check_released()
    (tree / "released" / name).unlink()
    with pytest.raises(ToolError, match=f"released/{name} has other bytes"):
        State(tree).check_released()


def test_a_release_is_of_what_is_kept(tree: Path) -> None:
    """What was made here is given out until the newest section has a date."""
    keep_all(tree)
    (tree / "CHANGELOG.md").write_text(UNRELEASED.replace("unreleased", "2026-12-24"))
    state = State(tree)
    given = [state.program, state.module, *map(state.static_program, MACHINES)]
    assert {path.parent for path in given} == {tree / "released"}
    for file in ("RELEASE", "MODULE"):
        said = tree / "released" / file
        said.write_text(re.sub("(?m)^(sources|machines) .", r"\1 x", said.read_text()))
    state.check_released()
    refusal = "CHANGELOG.md says that 1.1.0 is released, and released/ has no .* run .ci/"
    with pytest.raises(ToolError, match=f"{refusal}keep-released first"):
        State(tree).program
    with pytest.raises(ToolError, match=f"{refusal}wasm --keep first"):
        State(tree).module
    with pytest.raises(ToolError, match=f"{refusal}machines --keep first"):
        State(tree).static_program(X86_64)
    (tree / "CHANGELOG.md").write_text(UNRELEASED)
    made = [State(tree).module, *map(State(tree).static_program, MACHINES)]
    assert {path.parent.name for path in made} == {"out"}


def test_the_table_of_modules() -> None:
    """Its page names each module, and each kind of file, for all machines."""
    page = release.__doc__ or ""
    modules = {path.stem for path in Path(release.__path__[0]).glob("[!_]*.py")}
    assert set(re.findall(r"(?m)^\| `(\w+)` \|", page)) == modules
    assert not any(word in page for machine in MACHINES for word in machine)


def test_a_date_that_is_none(tree: Path, monkeypatch: pytest.MonkeyPatch) -> None:
    monkeypatch.setenv("SOURCE_DATE_EPOCH", "today")
    with pytest.raises(ToolError, match="SOURCE_DATE_EPOCH is today: it has to be a number of sec"):
        State(tree).seconds
    monkeypatch.setenv("SOURCE_DATE_EPOCH", "86400")
    assert State(tree).seconds == 86400


def git(tree: Path, *words: str) -> str:
    """What git prints in a tree."""
    who = ["-c", "user.name=One", "-c", "user.email=one@example.org"]
    command = ["git", "-C", str(tree), *who, *words]
    return subprocess.run(command, capture_output=True, text=True, check=True).stdout.strip()


def test_the_commit_and_its_changes(tree: Path) -> None:
    with pytest.raises(ToolError, match="git -C .* rev-parse|git -C .* diff"):
        State(tree).commit
    git(tree, "init", "--quiet")
    git(tree, "add", "crates.txt")
    git(tree, "commit", "--quiet", "--date=@86400", "-m", "one")
    assert State(tree).commit == git(tree, "rev-parse", "HEAD")
    assert State(tree).names("crates", "crates.txt") == ["crates.txt"]
    (tree / "crates.txt").write_text("olr: olr\n")
    assert State(tree).commit == git(tree, "rev-parse", "HEAD") + ", with changes"
    with pytest.raises(ToolError, match="there is no .* to release: No such file"):
        archive(State(tree), X86_64)


def committed(tree: Path, changes: str) -> str:
    """Commits a tree with a CHANGELOG.md. Answers the first digits of the commit."""
    (tree / "CHANGELOG.md").write_text(changes)
    git(tree, "init", "--quiet")
    git(tree, "add", "CHANGELOG.md", "crates.txt")
    git(tree, "commit", "--quiet", "--allow-empty", "-m", "one")
    return git(tree, "rev-parse", "HEAD")[:8]


UNRELEASED = "# Changelog\n\n## 1.1.0, unreleased\n\n- One.\n\n## 1.0.0, 2026-11-27\n"


def test_an_unreleased_section_gives_a_development_version(tree: Path) -> None:
    """It has another one for each commit, and for changes that aren't committed."""
    first = committed(tree, UNRELEASED)
    assert State(tree).version == f"1.1.0.dev1+g{first}"
    assert State(tree).debian_version == f"1.1.0~dev1+g{first}"
    second = committed(tree, UNRELEASED)
    assert State(tree).version == f"1.1.0.dev2+g{second}"
    found = set()
    for content in (b"olr: olr\n", b"olr: \xff\n"):
        (tree / "crates.txt").write_bytes(content)
        found.add(State(tree).version)
        assert State(tree).version == State(tree).version
    assert len(found) == 2
    for one in found:
        assert re.fullmatch(rf"1\.1\.0\.dev2\+g{second}\.changed\.[0-9a-f]{{8}}", one)


def test_a_date_makes_it_a_release(tree: Path) -> None:
    released = UNRELEASED.replace("unreleased", "2026-12-24")
    committed(tree, released)
    assert State(tree).version == State(tree).debian_version == "1.1.0"
    (tree / "crates.txt").write_text("olr: olr\n")
    assert re.fullmatch(r"1\.1\.0\+changed\.[0-9a-f]{8}", State(tree).version)


def test_versions_rise(tree: Path) -> None:
    """By the rules of dpkg and of pip."""
    rising = ["1.0.0"]
    for _ in range(11):
        committed(tree, UNRELEASED)
        rising.append(State(tree).debian_version)
    rising.append("1.1.0")
    for earlier, later in pairwise(rising):
        subprocess.run(["dpkg", "--compare-versions", earlier, "lt", later], check=True)
    versions = [Version(one.replace("~", ".")) for one in rising]
    assert sorted(set(versions)) == versions


def test_a_clone_without_earlier_commits_is_refused(tree: Path, tmp_path: Path) -> None:
    committed(tree, UNRELEASED)
    committed(tree, UNRELEASED)
    git(tree, "clone", "--quiet", "--depth=1", f"file://{tree}", str(tmp_path / "shallow"))
    with pytest.raises(ToolError, match="run git fetch --unshallow"):
        State(tmp_path / "shallow").version


@pytest.mark.parametrize("title", ["", "## Unreleased", "## 1.1, unreleased", "## 1.1.0, soon"])
def test_changes_that_name_no_version(tree: Path, title: str) -> None:
    """An older section isn't taken for the newest one."""
    committed(tree, f"# Changelog\n\n{title}\n" + ("\n## 1.0.0, 2026-11-27\n" if title else ""))
    with pytest.raises(ToolError, match="CHANGELOG.md names no version: "):
        State(tree).version


def test_a_release_is_of_a_program_with_its_number(tree: Path) -> None:
    """While it isn't one, the program may have the number before."""
    committed(tree, UNRELEASED)
    State(tree).check_number()
    committed(tree, UNRELEASED.replace("unreleased", "2026-12-24"))
    with pytest.raises(ToolError, match="1.1.0 is released, and the program is released"):
        State(tree).check_number()


def test_the_version_of_a_repository_and_of_an_installed_package(tmp_path: Path) -> None:
    """A CHANGELOG.md of another project isn't read."""
    (tmp_path / "CHANGELOG.md").write_text(UNRELEASED)
    assert version(tmp_path) == _installed()
    (tmp_path / "crates/olr_words").mkdir(parents=True)
    assert version(tmp_path) == "1.1.0.dev0"
    for broken in ("", "# Changelog\n", "## Unreleased\n\n## 1.0.0, 2026-11-27\n"):
        (tmp_path / "CHANGELOG.md").write_text(broken)
        assert version(tmp_path) == ""
    assert Section("1.1.0", True).version == "1.1.0"


def test_files_have_one_date_and_fixed_rights(tmp_path: Path) -> None:
    entries = [Entry("a/b/program", b"1", is_run=True), Entry("a/text", b"2")]
    before = os.umask(0o077)
    try:
        write_folder(tmp_path / "made", entries, 86400)
    finally:
        os.umask(before)
    found = {path: path.stat() for path in (tmp_path / "made").rglob("*")}
    assert {state.st_mtime for state in found.values()} == {86400}
    rights = {path.name: oct(state.st_mode & 0o777) for path, state in found.items()}
    assert rights == {"a": "0o755", "b": "0o755", "program": "0o755", "text": "0o644"}
