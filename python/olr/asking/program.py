"""Where the program `olr` is."""

import os
import platform
import shutil
from pathlib import Path

from olr.errors import ProgramNotFound

VARIABLE = "OLR_PROGRAM"
PACKAGE = Path(__file__).resolve().parents[1]
OWN = PACKAGE / "bin/olr"
"""The program that came with this package, as in a wheel, if one did."""
SHIPPED = PACKAGE / "confidence/shipped.json"
"""The file of a confidence that comes with this package: by it the program says how probable places are, if no other one is given."""
PathLike = str | os.PathLike[str]


def released_name(machine: str) -> str:
    """The released program for a machine, in the repository. That for another one than x86-64 is linked statically."""
    return "released/olr" if machine == "x86_64" else f"released/olr-{machine}"


OF_REPOSITORY = tuple(
    PACKAGE.parents[1] / name for name in ("crates/olr/out/olr", released_name(platform.machine()))
)
"""The built and the released program of the repository that this package lies in, if it lies in one."""


def find_program(given: PathLike | None = None) -> Path:
    """The program: the given one; else the one that the environment variable OLR_PROGRAM names; else the one that came with this
    package; else of the built and the released one of the repository that this package lies in the newer one; else `olr` on
    the path of commands. Raises `ProgramNotFound`.
    """
    if given is not None:
        return _file(
            Path(given), "name the program: crates/olr/out/olr of its repository, once it is built"
        )
    named = os.environ.get(VARIABLE)
    if named:
        return _file(Path(named), f"that is what {VARIABLE} names: set it to the program")
    if OWN.is_file():
        return OWN
    found = [path for path in OF_REPOSITORY if path.is_file()]
    if found:
        return max(found, key=lambda path: path.stat().st_mtime)
    on_path = shutil.which("olr")
    if on_path is None:
        raise ProgramNotFound(
            "there is no program olr: install its package, build it by ./olr --prove in its repository, "
            f"or set {VARIABLE} to it"
        )
    return Path(on_path)


def _file(path: Path, remedy: str) -> Path:
    """A path, if there is a file."""
    if not os.path.isfile(path):
        raise ProgramNotFound(f"there is no program {path}: {remedy}")
    return path.absolute()
