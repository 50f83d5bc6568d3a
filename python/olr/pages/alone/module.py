"""Where the program is as a WebAssembly module: `olr.wasm`."""

from pathlib import Path

from olr.asking.program import PACKAGE
from olr.errors import ToolError

MODULE = "olr.wasm"
PLACES = (PACKAGE / "bin" / MODULE, PACKAGE.parents[1] / "released" / MODULE)
"""It came with this package, as in a wheel, or lies in the repository that this package lies in."""


def find_module() -> Path:
    """The module. Raises `ToolError` if there is none."""
    for path in PLACES:
        if path.is_file():
            return path
    raise ToolError(
        f"there is no {MODULE}: a page that answers by itself needs a release that has it"
    )
