"""What goes with the program: its man page, its completion, examples and documents."""

import time
from collections.abc import Iterable
from pathlib import Path

from olr.errors import ToolError
from release import completion
from release.files import Entry, compressed
from release.filling import text_of
from release.links import with_living_links
from release.machines import Machine
from release.state import State
from release.words import Option, commands_of, numbers_of

PAGES = ("CHANGELOG.md", "CONTRIBUTING.md", "README.md", "SECURITY.md")
FOLDERS = ("containers", "docs", "examples", "python/examples")
"""What is given out for reading."""
SOURCES = "docs/api/"
"""What of it isn't: the API reference is made of the modules of the repository."""
LIBRARY_LICENCE = Path("/usr/share/common-licenses/LGPL-2.1")


def program_entry(program: Path) -> Entry:
    """A program."""
    return Entry("olr", program.read_bytes(), is_run=True)


def static_program(state: State, machine: Machine) -> dict[str, bytes]:
    """The program for a machine that is linked statically, by its name in `released`."""
    return {f"olr-{machine.name}": state.static_program(machine).read_bytes()}


def module_of_pages(state: State) -> dict[str, bytes]:
    """The program of pages, by its name."""
    return {"olr.wasm": state.module.read_bytes()}


def linking_entries(state: State, machine: Machine) -> list[Entry]:
    """What links the program of a machine anew: its object, what is linked with it, and what is said of that. Raises `ToolError`."""
    names = {"link": True, "runtime.c": False}
    of_machines = (Entry(it, state.read(f"machines/{it}"), run) for it, run in names.items())
    program = state.static_program(machine)
    linked = "\n    ".join(state.linked_by(machine))
    return [
        *(entry.below("relink") for entry in of_machines),
        Entry("relink/README.md", text_of("relink.md", LINKED=linked)),
        Entry("relink/LGPL-2.1", licence_of_library()),
        Entry("relink/olr.o", program.with_name(f"{program.name}.o").read_bytes()),
    ]


def licence_of_library() -> bytes:
    """The licence of the C library, as Debian has it. Raises `ToolError`."""
    try:
        return LIBRARY_LICENCE.read_bytes()
    except OSError as error:
        raise ToolError(f"{LIBRARY_LICENCE} is missing: Debian's base-files has it") from error


def manual(state: State, program: Path) -> bytes:
    """The man page of a program: its numbers are those of its help."""
    options = {" ".join(it.words): numbers_of(it) for it in commands_of(program)}
    tolerances = options["candidates"]
    values = {"TOLERANCES": _items(tolerances)}
    for question in ("match", "places", "why", "legs", "lines"):
        own = (number for number in options[question] if number not in tolerances)
        values[f"NUMBERS_OF_{question.upper()}"] = _items(own)
    return filled(state, "olr.1", **values)


def _items(numbers: Iterable[Option]) -> str:
    """What the man page says of some numbers."""
    return "\n".join(
        f'.TP\n.BI \\-\\-{number.name.lstrip("-")} " N"\n{number.purpose}. By default {number.default}.'
        for number in numbers
    )


def documents(state: State, *more: str) -> list[Entry]:
    """The pages, the examples, and other files of the repository. Their links lead to one another."""
    names = (*PAGES, *more, *state.names(*FOLDERS))
    given = [name for name in names if not name.startswith(SOURCES)]
    return with_living_links(Entry(name, _read(state, name)) for name in given)


def _read(state: State, name: str) -> bytes:
    """A file of the repository. Its first page says at its top what isn't given out."""
    content = state.read(name)
    if name != "README.md":
        return content
    title, _, rest = content.partition(b"\n\n")
    return b"\n\n".join([title, text_of("README.md").strip(), rest])


def shared_of_program(state: State) -> list[Entry]:
    """What goes with the program, where Debian has it below `/usr`: man page, completion, documents and examples."""
    return [
        Entry("share/man/man1/olr.1.gz", compressed(manual(state, state.program))),
        *completion.entries("olr", completion.of_program(state.program)),
        *(entry.below("share/doc/olr") for entry in documents(state)),
    ]


def shared_of_tools(state: State) -> list[Entry]:
    """What goes with the tools, where Debian has it below `/usr`: man page and completion."""
    return [
        Entry("share/man/man1/olr-tools.1.gz", compressed(filled(state, "olr-tools.1"))),
        *completion.entries("olr-tools", completion.of_tools()),
    ]


def filled(state: State, name: str, **values: str) -> bytes:
    """A text, in which names between @ stand for values, those of the release among them."""
    date = time.strftime("%Y-%m-%d", time.gmtime(state.seconds))
    mail_date = time.strftime("%a, %d %b %Y %H:%M:%S +0000", time.gmtime(state.seconds))
    given = {"DATE": date, "MAIL_DATE": mail_date, "VERSION": state.version}
    return text_of(name, **given, **values)
