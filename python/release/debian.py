"""What all Debian packages have: control files, licence, changes, and how dpkg-deb packs them."""

import hashlib
import os
import subprocess
import tempfile
from collections.abc import Mapping, Sequence
from dataclasses import dataclass, field
from pathlib import Path

from olr.errors import ToolError
from release.files import Entry, compressed, write_folder
from release.program_files import filled
from release.state import State

MAINTAINER = "The olr developers <maintainers@users.noreply.cirgudav.example>"


@dataclass(frozen=True)
class Package:
    """A Debian package: what its control file says, its files by their paths from the root, and its scripts."""

    name: str
    architecture: str
    section: str
    depends: Sequence[str]
    description: str
    entries: Sequence[Entry]
    scripts: Mapping[str, bytes] = field(default_factory=dict)

    def file_name(self, state: State) -> str:
        """The name of its file."""
        return f"{self.name}_{state.debian_version}_{self.architecture}.deb"


def packed(package: Package, state: State) -> bytes:
    """A package, as dpkg-deb packs it. Raises `ToolError` where that isn't there or fails."""
    entries = [*package.entries, *_documents(package, state)]
    control = [
        Entry("control", _control(package, state, entries)),
        Entry("md5sums", _md5sums(entries)),
        *(Entry(name, script, is_run=True) for name, script in package.scripts.items()),
    ]
    with tempfile.TemporaryDirectory() as place:
        folder, file = Path(place, "root"), Path(place, "made.deb")
        folder.mkdir()
        inside = [*entries, *(entry.below("DEBIAN") for entry in control)]
        write_folder(folder, inside, state.seconds)
        _pack(folder, file, state.seconds)
        return file.read_bytes()


def _pack(folder: Path, file: Path, seconds: int) -> None:
    """Packs a folder. One thread, because the bytes depend on their number."""
    command = ["dpkg-deb", "--root-owner-group", "-Zxz", "--threads-max=1", "--build"]
    environment = os.environ | {"SOURCE_DATE_EPOCH": str(seconds)}
    try:
        ended = subprocess.run(
            [*command, folder, file], env=environment, capture_output=True, text=True
        )
    except FileNotFoundError as error:
        raise ToolError("there is no command dpkg-deb: packages are made on Debian") from error
    if ended.returncode != 0:
        raise ToolError(f"dpkg-deb: {ended.stderr.strip()}")


def _documents(package: Package, state: State) -> list[Entry]:
    """What each package says of its licence and of its changes."""
    changes = filled(
        state,
        "changelog",
        NAME=package.name,
        MAINTAINER=MAINTAINER,
        DEBIAN_VERSION=state.debian_version,
    )
    folder = f"usr/share/doc/{package.name}"
    return [
        Entry(f"{folder}/changelog.gz", compressed(changes)),
        Entry(f"{folder}/copyright", filled(state, "copyright")),
        Entry(f"{folder}/NOTICE", state.read("NOTICE")),
        Entry(f"{folder}/COMMIT", f"{state.commit}\n".encode()),
    ]


def _control(package: Package, state: State, entries: Sequence[Entry]) -> bytes:
    """The control file."""
    kibibytes = sum(-(-len(entry.content) // 1024) for entry in entries)
    depends = f"Depends: {', '.join(package.depends)}\n" if package.depends else ""
    return f"""\
Package: {package.name}
Version: {state.debian_version}
Architecture: {package.architecture}
Maintainer: {MAINTAINER}
Installed-Size: {kibibytes}
{depends}Section: {package.section}
Priority: optional
Description: {package.description}
""".encode()


def _md5sums(entries: Sequence[Entry]) -> bytes:
    """The checksums of its files, as dpkg reads them."""
    lines = (
        f"{hashlib.md5(entry.content).hexdigest()}  {entry.path}\n" for entry in sorted(entries)
    )
    return "".join(lines).encode()
