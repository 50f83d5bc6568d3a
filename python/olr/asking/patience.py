"""How long the program is waited for."""

from numbers import Real

PATIENCE = 60.0
"""Seconds, if nothing else is asked for."""
MOST_PATIENCE = 1_000_000


def require_patience(seconds: float | None) -> float | None:
    """A patience. Raises `TypeError` and `ValueError` for what is none."""
    wanted = f"patience is a number of seconds above 0, {MOST_PATIENCE:,} at most, or None to wait for ever, not {seconds!r}"
    if seconds is None:
        return None
    if isinstance(seconds, bool) or not isinstance(seconds, Real):
        raise TypeError(wanted)
    if not 0 < seconds <= MOST_PATIENCE:
        raise ValueError(wanted)
    return float(seconds)
