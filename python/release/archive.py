"""The archive: the program and what goes with it, in one folder that may lie anywhere."""

import io
import tarfile
from collections.abc import Sequence

from release.bill import Given, bill
from release.completion import of_program
from release.files import RUN, Entry, compressed
from release.machines import Machine
from release.program_files import (
    documents,
    linking_entries,
    manual,
    program_entry,
    static_program,
)
from release.state import State


def archive_name(state: State, machine: Machine) -> str:
    """The name of its folder."""
    return f"olr-{state.version}-linux-{machine.name}"


def archive(state: State, machine: Machine) -> bytes:
    """The archive for a machine, as tar and gzip pack it. Raises `ToolError` where a file is missing."""
    name = archive_name(state, machine)
    entries = [
        *documents(state, "LICENSE", "NOTICE"),
        program_entry(state.static_program(machine)),
        Entry("olr.spdx.json", bill(state, name, [given(state, machine)])),
        *linking_entries(state, machine),
        Entry("COMMIT", f"{state.commit}\n".encode()),
        Entry("olr.1", manual(state, state.program)),
        *(Entry(f"olr.{shell}", text) for shell, text in of_program(state.program).items()),
    ]
    return compressed(_tar(name, sorted(entries), state.seconds))


def given(state: State, machine: Machine) -> Given:
    """What the archive for a machine has in it."""
    return Given(archive_name(state, machine), static_program(state, machine))


def _tar(name: str, entries: Sequence[Entry], seconds: int) -> bytes:
    """Files in a folder, as tar packs them."""
    packed = io.BytesIO()
    with tarfile.open(fileobj=packed, mode="w", format=tarfile.GNU_FORMAT) as tar:
        made: set[str] = set()
        for entry in (entry.below(name) for entry in entries):
            parts = entry.path.split("/")
            for folder in ("/".join(parts[:count]) for count in range(1, len(parts))):
                if folder not in made:
                    made.add(folder)
                    tar.addfile(_member(folder, RUN, seconds, tarfile.DIRTYPE))
            member = _member(entry.path, entry.mode, seconds, tarfile.REGTYPE)
            member.size = len(entry.content)
            tar.addfile(member, io.BytesIO(entry.content))
    return packed.getvalue()


def _member(name: str, mode: int, seconds: int, kind: bytes) -> tarfile.TarInfo:
    """A member of an archive, of root."""
    member = tarfile.TarInfo(name)
    member.mode, member.mtime, member.type = mode, seconds, kind
    member.uname = member.gname = "root"
    return member
