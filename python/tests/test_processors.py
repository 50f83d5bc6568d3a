"""How many processors a process takes there to be."""

import os
import pytest
from pathlib import Path

from olr import processors as module
from olr.processors import processors


@pytest.mark.parametrize(
    ("quota", "count"),
    [
        ("max 100000", 4),
        ("800000 100000", 4),
        ("200000 100000", 2),
        ("150000 100000", 2),
        ("10000 100000", 1),
        ("0 100000", 1),
        ("100000 0", 4),
        ("", 4),
        (None, 4),
    ],
)
def test_a_share_of_four(
    tmp_path: Path, monkeypatch: pytest.MonkeyPatch, quota: str | None, count: int
) -> None:
    """As a container has it: whole processors, rounded up, and at least one. What isn't understood says nothing."""
    file = tmp_path / "cpu.max"
    if quota is not None:
        file.write_text(f"{quota}\n")
    monkeypatch.setattr(module, "QUOTA", file)
    monkeypatch.setattr(os, "sched_getaffinity", lambda _: {0, 2, 3, 5})
    assert processors() == count
