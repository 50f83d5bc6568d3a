"""The machines for which the program is given out."""

from typing import NamedTuple


class Machine(NamedTuple):
    """One of them."""

    name: str
    """As `uname -m` has it."""
    debian: str
    """As Debian has it."""

    @property
    def tag(self) -> str:
        """What a wheel needs that has a program for it: the program needs no C library, and was tried where there is one no older than this."""
        return f"manylinux_2_31_{self.name}"


X86_64 = Machine("x86_64", "amd64")
MACHINES = (X86_64, Machine("aarch64", "arm64"))
