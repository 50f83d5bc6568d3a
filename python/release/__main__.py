"""The script `release`: makes all that is given out, and says of which program."""

import argparse
import hashlib
import sys
from pathlib import Path

from olr.errors import ToolError
from olr.outputs import write_whole
from release import archive, debian_packages, wheel
from release.bill import Given, bill
from release.debian import packed
from release.debian_packages import program_package, tools_package
from release.machines import MACHINES
from release.state import State

SUFFIXES = (".deb", ".gz", ".json", ".whl")
"""Of what is given out."""


def make(folder: Path) -> None:
    """Makes all files in a folder, in place of those of an earlier release. Raises `ToolError`."""
    state = State()
    state.check_released()
    state.check_number()
    print(f"olr {state.version} of commit {state.commit}", flush=True)
    for program in (state.program, *map(state.static_program, MACHINES)):
        print(f"a program is {program.relative_to(state.top)}", flush=True)
    print(f"the module is {state.module.relative_to(state.top)}", flush=True)
    made: dict[str, bytes] = {}
    told: list[Given] = []

    def keep(name: str, content: bytes) -> Path:
        write_whole(folder / name, content, force=True)
        made[name] = content
        print(f"{folder / name}: {len(content):,} bytes", flush=True)
        return folder / name

    def keep_given(given: Given, content: bytes) -> Path:
        told.append(given._replace(content=content))
        return keep(given.name, content)

    for machine in MACHINES:
        given = archive.given(state, machine)
        name = f"{given.name}.tar.gz"
        keep_given(given._replace(name=name), archive.archive(state, machine))
        kept = keep_given(wheel.given(state, machine), wheel.wheel(state, machine))
        package = program_package(state, machine)
        keep_given(debian_packages.given(state, package, machine), packed(package, state))
    tools = tools_package(state, wheel.metadata(kept))
    keep_given(debian_packages.given(state, tools, None), packed(tools, state))
    keep(f"olr-{state.version}.spdx.json", bill(state, f"olr-{state.version}", told))
    sums = (f"{hashlib.sha256(made[name]).hexdigest()}  {name}\n" for name in sorted(made))
    keep("SHA256SUMS", "".join(sums).encode())
    for earlier in folder.glob("olr[-_]*"):
        if earlier.name not in made and earlier.suffix in SUFFIXES:
            earlier.unlink()


def main() -> int:
    """Reads the words. Answers the status."""
    parser = argparse.ArgumentParser(
        prog="release", description="Make what is given out of this repository."
    )
    parser.add_argument(
        "--out", metavar="FOLDER", default="dist", type=Path, help="where to [default: dist]"
    )
    try:
        make(parser.parse_args().out)
    except ToolError as error:
        print(f"release: {error}", file=sys.stderr)
        return 1
    return 0


if __name__ == "__main__":
    sys.exit(main())
