"""The changes that `mutate.py` plants are still in the package."""

from functools import cache
from pathlib import Path

from mutate import read_changes

PACKAGE = Path(__file__).resolve().parents[1] / "olr"


@cache
def source(file: str) -> str:
    """The text of a file of the package."""
    return (PACKAGE / file).read_text()


def test_they_can_be_made() -> None:
    """A text that isn't there any more would try nothing."""
    changes = read_changes([])
    assert len(changes) > 600
    assert [it.place() for it in changes if source(it.file).count(it.text) != 1] == []
