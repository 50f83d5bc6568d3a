"""What docs/CHECK.md shows is what `check` prints."""

import pytest
from pathlib import Path

from olr.tools import run

NODES = """id,lon,lat
3,7415720,49871269
5,7419079,91000000
5,7420445,49871386
"""
LINES = """id,from,to,class,form,length,shape
104,3,5,3,2,2435,7418773 49871296
107,5,3,3,3,21.5,7420445 49871386
108,3,5,3,3,2150,7420445 49871386
109,3,8,3,3,2150,7420445 49871386
"""


def example(page: Path, command: str) -> list[str]:
    """The lines behind a command of the page."""
    text = page.read_text(encoding="utf-8")
    return text.split(f"$ {command}\n")[1].split("\n```")[0].split("\n")


def test_faults(top: Path, tmp_path: Path, capsys: pytest.CaptureFixture[str]) -> None:
    (tmp_path / "nodes.csv").write_text(NODES)
    (tmp_path / "lines.csv").write_text(LINES)
    assert run(["check", str(tmp_path)]) == 1
    shown = capsys.readouterr().out.splitlines()
    assert shown == example(top / "docs/CHECK.md", "./olr-tools check broken")


def test_the_examples(top: Path, capsys: pytest.CaptureFixture[str]) -> None:
    assert run(["check", str(top / "examples")]) == 0
    shown = capsys.readouterr().out.splitlines()
    page = example(top / "docs/CHECK.md", "./olr-tools check examples")
    assert [line for line in page if line != "..."] == [line for line in shown if line in page]
    assert all(line in page or line.startswith(("class", "form")) for line in shown)
