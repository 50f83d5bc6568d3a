"""How a command ends where a limit that it was given is passed."""

from collections.abc import Sequence

from olr.streams import complain

PASSED = 3
"""The status then: all that was asked for is written. A failure has 1, and words that aren't understood 2."""


def end_by(passed: Sequence[str]) -> None:
    """Says which limits are passed, one a line. Raises `SystemExit` if there is one."""
    for line in passed:
        complain(line)
    if passed:
        raise SystemExit(PASSED)
