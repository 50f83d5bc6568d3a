"""The works of others that are given out, as the file NOTICE lists them."""

import re
from typing import NamedTuple

ROW = re.compile(r"(?m)^  (\S.*?)(?: (\d[\d.]*))? {2,}(\S.*?)(?: {2,}(\S.*))?((?:\n {20,}\S.*)*)$")
"""A work: its name, its version, its licence, and lines about its authors."""

OF_DEBIAN = {"GNU C Library", "libgcc", "Leaflet"}
"""Works that aren't libraries of the toolchain."""

EXPRESSIONS = {
    "Apache-2.0 and MIT": "Apache-2.0 AND MIT",
    "BSD-2-Clause": "BSD-2-Clause",
    "GPL-3 or later with the GCC Runtime Library Exception": "GPL-3.0-or-later WITH GCC-exception-3.1",
    "LGPL-2.1 or later": "LGPL-2.1-or-later",
    "MIT": "MIT",
    "MIT or Apache-2.0": "MIT OR Apache-2.0",
    "the toolchain's own": "NOASSERTION",
}
"""The licences as SPDX writes them."""


class Work(NamedTuple):
    """A work of others."""

    name: str
    version: str
    """That of the Rust crate that it follows; an empty text for other works, whose versions NOTICE doesn't have."""
    licence: str
    """As SPDX writes it."""
    authors: str
    """Their lines of copyright; an empty text if there are none."""


def works(notice: str) -> dict[str, Work]:
    """All works by their names. Raises `KeyError` for a licence that has no expression here."""
    found = {}
    for name, version, licence, first, more in ROW.findall(notice):
        lines = [line.strip() for line in [first, *more.split("\n")] if line.strip()]
        authors = "\n".join(line for line in lines if not line.startswith("("))
        found[name] = Work(name, version, EXPRESSIONS[licence], authors)
    return found
