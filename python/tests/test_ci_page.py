"""docs/CI.md: its workflows do what the page says, and its table of the summary is what is written."""

import fnmatch
import importlib
import json
import os
import pytest
import re
import shlex
import shutil
import subprocess
from pathlib import Path
from typing import Any

from conftest import TOP, Program
from olr.commands.limits import PASSED
from olr.tools import run
from release.debian import Package
from release.machines import MACHINES
from release.state import State

PAGE = (TOP / "docs/CI.md").read_text(encoding="utf-8")
WORKFLOWS = re.findall(r"(?ms)^```yaml\n(.*?)^```$", PAGE)
LIMITS = "--fail-lost 10 --fail-moved 25"
PACKAGES = [("olr-tools", "all"), *(("olr", machine.debian) for machine in MACHINES)]
"""What packages a release has: their names and architectures."""


@pytest.fixture(autouse=True)
def repository(program: Program, tmp_path: Path, monkeypatch: pytest.MonkeyPatch) -> None:
    """A folder as the page says: the next map is the town without Mill Road, and 2 of its 5 references lose their place."""
    monkeypatch.setenv("OLR_PROGRAM", os.fspath(program.path))
    monkeypatch.chdir(tmp_path)
    for name in ("today", "next"):
        folder = tmp_path / "maps" / name
        folder.mkdir(parents=True)
        for file in ("nodes.csv", "lines.csv"):
            shutil.copy(TOP / "examples" / file, folder)
    lines = tmp_path / "maps/next/lines.csv"
    kept = [it for it in lines.read_text().splitlines() if not it.startswith(("501,", "502,"))]
    lines.write_text("\n".join(kept) + "\n")
    shutil.copy(TOP / "examples/messages.tsv", "references.tsv")


def all_commands(workflow: str) -> list[str]:
    """The commands of a workflow."""
    content: Any = importlib.import_module("yaml").safe_load(workflow)
    (job,) = content["jobs"].values() if "jobs" in content else content.values()
    texts = job.get("script") or [step["run"] for step in job["steps"] if "run" in step]
    lines = "\n".join(texts).replace("\\\n", " ").splitlines()
    return [line for line in lines if line.strip()]


def commands(workflow: str) -> list[str]:
    """The commands of a workflow behind those that install."""
    return [line for line in all_commands(workflow) if not line.startswith("apt-get ")]


def ended(command: str) -> int:
    """The status of a command."""
    words = shlex.split(command)
    if words[0] == "olr-tools":
        return run(words[1:])
    return subprocess.run(words, stdout=subprocess.DEVNULL, check=False, timeout=600).returncode


@pytest.mark.parametrize("workflow", WORKFLOWS, ids=["GitHub", "GitLab"])
def test_workflows(workflow: str) -> None:
    """Each step succeeds. With fewer that may be lost the second one has the status of limits, and what it keeps is there."""
    check, compare, references = commands(workflow)
    assert [ended(it) for it in (check, compare, references)] == [0, 0, 0]
    kept = {"changes.csv", "changes.html", "changes.json"}
    assert kept < {*os.listdir()}
    for file in kept:
        os.remove(file)
    assert LIMITS in compare
    assert ended(compare.replace(LIMITS, "--fail-lost 1")) == PASSED
    assert kept < {*os.listdir()}
    assert f"\n| {PASSED} | |" in PAGE


def test_a_map_that_came_apart_and_a_file_without_references() -> None:
    """The first step fails for the one, and the last one for the other."""
    check, compare, references = commands(WORKFLOWS[0])
    with open("maps/next/nodes.csv", "a") as nodes, open("maps/next/lines.csv", "a") as lines:
        nodes.write("901,7300000,49800000\n902,7301000,49800000\n")
        lines.write("990,901,902,3,3,719,\n")
    assert ended(check) == PASSED
    Path("references.tsv").write_text("")
    assert [ended(compare), ended(references)] == [0, 1]


def test_both_workflows_run_the_same() -> None:
    one, other = (list(map(shlex.split, commands(it))) for it in WORKFLOWS)
    assert one == other


@pytest.mark.parametrize("workflow", WORKFLOWS, ids=["GitHub", "GitLab"])
def test_what_is_installed(workflow: str) -> None:
    """Of a release's packages the one of the tools, and the program's for one machine: apt refuses two of them."""
    made = {
        f"./packages/{Package(name, architecture, 'science', [], '', []).file_name(State())}"
        for name, architecture in PACKAGES
    }
    (line,) = [it for it in all_commands(workflow) if it.startswith("apt-get install ")]
    installed = {file for word in shlex.split(line) for file in fnmatch.filter(made, word)}
    assert sorted(re.sub("_.*_", "_", Path(file).name) for file in installed) == [
        "olr-tools_all.deb",
        "olr_amd64.deb",
    ]


def test_members_of_the_summary() -> None:
    assert ended(commands(WORKFLOWS[0])[1]) == 0
    table = PAGE.partition("## The summary")[2].partition("\n## ")[0]
    named = re.findall(r"(?m)^\| ((?:`[a-z_]+`(?:, )?)+) \|", table)
    members = re.findall("`([a-z_]+)`", " ".join(named))
    assert sorted(members) == list(json.loads(Path("changes.json").read_text()))
