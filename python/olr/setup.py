"""What the package needs besides Python: modules, by the extras of the wheel that bring them, and what `olr-tools setup` installs, Debian's
packages of those that are missing. It needs Python alone.

`python3 -m olr.setup` ends with status 0 if the interpreter has all modules; the script `olr-tools` chooses one by it.
"""

import importlib.util
import os
import shlex
import shutil
import subprocess
import sys
from itertools import chain
from pathlib import Path

ALWAYS = ("click", "rich")
"""Modules that each command needs, so that each extra brings them."""

EXTRAS = {
    "feeds": ("fiona", "ijson", "numpy", "openpyxl", "zstandard"),
    "maps": ("fiona", "ijson", "numpy", "osmium", "pyproj", "scipy"),
    "geo": ("fiona", "geopandas", "ijson", "jinja2", "numpy", "shapely"),
    "scale": ("distributed", "ijson", "numpy"),
    "serve": (
        "httptools",
        "ijson",
        "jinja2",
        "numpy",
        "prometheus_client",
        "starlette",
        "uvicorn",
        "uvloop",
    ),
}
"""The extras, each with the modules that it brings besides."""

OTHER_NAMES = {"osmium": "python3-pyosmium"}
MODULES = {
    name: OTHER_NAMES.get(name, f"python3-{name.replace('_', '-')}")
    for name in sorted({*ALWAYS, *chain(*EXTRAS.values())})
}
"""Modules that the tools need, with Debian's packages: these have their names."""

FILES = {"/usr/share/javascript/leaflet/leaflet.min.js": "libjs-leaflet"}
"""Files that the tools read, with Debian's packages."""

TEST_MODULES = {
    "black": "black",
    "jsonschema": "python3-jsonschema",
    "mypy": "mypy",
    "osmnx": "python3-osmnx",
    "pytest": "python3-pytest",
    "sphinx": "python3-sphinx",
    "xdist": "python3-pytest-xdist",
}
"""Modules that the tests need besides."""

TEST_FILES = {
    "/usr/bin/chromium-headless-shell": "chromium-headless-shell",
    "/usr/bin/fish": "fish",
    "/usr/bin/ogrinfo": "gdal-bin",
    "/usr/bin/pyflakes3": "pyflakes3",
    "/usr/bin/jq": "jq",
    "/usr/bin/mount": "mount",
    "/usr/bin/zsh": "zsh",
    "/usr/sbin/nginx": "nginx-light",
    "/usr/share/doc/python-osmnx-doc": "python-osmnx-doc",
    "/usr/lib/python3/dist-packages/libpysal": "python3-libpysal",
    "/usr/share/openapi-specification": "openapi-specification",
}
"""Files that the tests read or run, with Debian's packages."""


def missing_packages(tests: bool = False) -> list[str]:
    """Debian's packages of what this interpreter lacks, in the order of their names."""
    files = FILES | TEST_FILES if tests else FILES
    missing = {name for file, name in files.items() if not _is_there(file)}
    return sorted(missing.union(_missing_modules(MODULES | TEST_MODULES if tests else MODULES)))


def _is_there(file: str) -> bool:
    """Whether a file is there. A wheel brings its own Leaflet."""
    own = Path(__file__).with_name("pages") / "leaflet" / Path(file).name
    return os.path.exists(file) or (file in FILES and own.exists())


def _missing_modules(wanted: dict[str, str]) -> list[str]:
    """Debian's packages of the modules that this interpreter lacks."""
    return [name for module, name in wanted.items() if importlib.util.find_spec(module) is None]


def set_up(tests: bool = False) -> int:
    """Installs what is missing, and prints the commands for it first. Without the right to install it prints them alone, and in a
    virtual environment the command of pip: Debian's packages belong to Debian's own Python.

    Answers the status: 0 if nothing is missing any more, else 1.
    """
    if sys.prefix != sys.base_prefix and _missing_modules(MODULES):
        print(shlex.join(_with_pip()), flush=True)
        print(
            "olr-tools: this Python is a virtual environment, in which pip installs what is missing, by this line",
            file=sys.stderr,
        )
        return 1
    packages = missing_packages(tests)
    if not packages:
        print("olr-tools: nothing is missing")
        return 0
    install = ["apt-get", "install", "-y", "--no-install-recommends", *packages]
    if shutil.which("apt-get") is None:
        print(
            "olr-tools: there is no apt-get, so this isn't Debian: install the wheel and its extras in a virtual environment",
            file=sys.stderr,
        )
        return 1
    if os.geteuid() != 0:
        print(shlex.join(install), flush=True)
        print("olr-tools: this line is for root on Debian: put sudo before it", file=sys.stderr)
        return 1
    if not _succeeds(install) and not (_succeeds(["apt-get", "update"]) and _succeeds(install)):
        print("olr-tools: apt-get failed", file=sys.stderr)
        return 1
    importlib.invalidate_caches()
    left = missing_packages(tests)
    if left:
        print(
            f"olr-tools: {sys.executable} has no use of {', '.join(left)}: run Debian's /usr/bin/python3, "
            "or install the extras of the wheel",
            file=sys.stderr,
        )
        return 1
    return 0


def _with_pip() -> list[str]:
    """The command by which pip installs what this interpreter lacks: the extras, of the package that is installed, or of the one
    that lies in a repository."""
    lacking = (name for name, brought in EXTRAS.items() if _lacks(*ALWAYS, *brought))
    # It takes a tenth of the time in which a command starts.
    from importlib import metadata

    try:
        metadata.version("olr")
        package = "olr"
    except metadata.PackageNotFoundError:
        package = str(Path(__file__).resolve().parents[1])
    return [sys.executable, "-m", "pip", "install", f"{package}[{','.join(sorted(lacking))}]"]


def _lacks(*modules: str) -> bool:
    """Whether this interpreter lacks one of these modules."""
    return any(importlib.util.find_spec(module) is None for module in modules)


def _succeeds(command: list[str]) -> bool:
    """Prints a command of apt-get, and answers whether it succeeds. It waits up to five minutes while another one installs."""
    print(shlex.join(command), flush=True)
    waiting = [command[0], "-o", "DPkg::Lock::Timeout=300", *command[1:]]
    environment = os.environ | {"DEBIAN_FRONTEND": "noninteractive"}
    return subprocess.run(waiting, env=environment, check=False).returncode == 0


if __name__ == "__main__":
    sys.exit(1 if _missing_modules(MODULES) else 0)
