"""Where the lines of a map came from, for users: see `olr.model.sources`."""

from olr.model.sources import Sources

__all__ = ["Sources"]
