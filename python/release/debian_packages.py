"""The Debian packages: the program, one for each machine, and the tools, which depend on it."""

import re
from collections.abc import Sequence

from olr.setup import FILES, MODULES
from release.bill import DYNAMIC, Given
from release.debian import Package
from release.files import Entry
from release.filling import TEXTS
from release.machines import X86_64, Machine
from release.program_files import (
    module_of_pages,
    program_entry,
    shared_of_program,
    shared_of_tools,
    static_program,
)
from release.state import State
from release.wheel import package_files

PROGRAM_DESCRIPTION = """\
lists all ways in which an OpenLR reference fits a road map
 OpenLR location references are short texts by which traffic messages say
 where on a road network something is. olr lists all ways in which a
 reference fits a map, best first, says whether they are one place, or why
 there is none. That its list is complete and correct is proved."""
TOOLS_DESCRIPTION = """\
tools around olr, a program that finds OpenLR references on maps
 The command olr-tools makes maps of OpenStreetMap and vector files, checks
 maps, matches files of messages on one machine or many, and draws
 references as pages. The Python package olr has the answers of the program
 olr as objects. It was tried with the packages of Debian 12 and of 13."""


def program_package(state: State, machine: Machine) -> Package:
    """The package `olr` for a machine. That for x86-64 has the program that is linked with the C library of the system, whose fixes reach it."""
    is_static = machine != X86_64
    program = program_entry(state.static_program(machine) if is_static else state.program)
    return Package(
        name="olr",
        architecture=machine.debian,
        section="science",
        depends=[] if is_static else [f"libc6 (>= {_glibc(program.content)})"],
        description=PROGRAM_DESCRIPTION,
        entries=[
            program.below("usr/bin"),
            Entry("usr/share/lintian/overrides/olr", (TEXTS / "lintian").read_bytes()),
            *(entry.below("usr") for entry in shared_of_program(state)),
        ],
    )


def given(state: State, package: Package, machine: Machine | None) -> Given:
    """What a package has in it, that of the program for a machine, or that of the tools."""
    name = package.file_name(state)
    if machine is None:
        return Given(name, module_of_pages(state), has_tools=True)
    if machine == X86_64:
        return Given(name, {DYNAMIC: state.program.read_bytes()})
    return Given(name, static_program(state, machine))


def tools_package(state: State, metadata: Sequence[Entry]) -> Package:
    """The package `olr-tools`, with the metadata of the wheel."""
    scripts = {name: (TEXTS / name).read_bytes() for name in ("postinst", "prerm")}
    modules = [*package_files(state), *metadata]
    return Package(
        name="olr-tools",
        architecture="all",
        section="science",
        depends=[
            f"olr (= {state.debian_version})",
            "python3 (>= 3.11)",
            *sorted({*MODULES.values(), *FILES.values()}),
        ],
        description=TOOLS_DESCRIPTION,
        entries=[
            Entry("usr/bin/olr-tools", (TEXTS / "olr-tools").read_bytes(), is_run=True),
            *(entry.below("usr") for entry in shared_of_tools(state)),
            *(entry.below("usr/lib/python3/dist-packages") for entry in modules),
        ],
        scripts=scripts,
    )


def _glibc(program: bytes) -> str:
    """The version of the C library whose symbols the program asks for."""
    found = re.findall(rb"GLIBC_([0-9]+)\.([0-9]+)", program)
    return "{}.{}".format(*max((int(first), int(second)) for first, second in found))
