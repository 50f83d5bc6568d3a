"""What was asked about a reference, with which numbers: all that a region depends on besides the reference and the map."""

from collections.abc import Mapping
from dataclasses import dataclass, fields

from olr.model.questions import NEAR, NUMBERS, TOLERANCES


@dataclass(frozen=True)
class Options:
    """The numbers of a run of `olr batch` on which a region depends, with the program's defaults."""

    radius: int = TOLERANCES["radius"].default
    """In metres."""
    percent: int = TOLERANCES["percent"].default
    slack: int = TOLERANCES["slack"].default
    """In decimetres."""
    nearest: int = NUMBERS["why"]["nearest"].default
    """Lines near each point, of `why`."""
    near: int = NEAR.default
    """By how many thousandths of its length another path of a leg may be longer, of `legs`."""

    @classmethod
    def of(cls, numbers: Mapping[str, int]) -> "Options":
        """Those among numbers by name: others, such as `bearing` or `page`, change no region."""
        names = {field.name for field in fields(cls)}
        return cls(**{name: value for name, value in numbers.items() if name in names})
