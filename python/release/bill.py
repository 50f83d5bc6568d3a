"""The bill of materials, in SPDX 2.3 as JSON: of what the files that are given out consist, with versions, licences and digests."""

import hashlib
import json
import re
import time
import tomllib
import uuid
from collections.abc import Mapping, Sequence
from typing import Any, NamedTuple
from urllib.parse import quote

from olr.setup import MODULES
from release.machines import MACHINES, Machine
from release.notice import OF_DEBIAN, works
from release.state import State

OURS, DEBIAN = "Organization: The olr developers", "Organization: Debian"
AUTHORS = "Copyright 2026 The olr developers"
UNKNOWN = "NOASSERTION"
DYNAMIC, MODULE = "olr", "olr.wasm"
"""The program that is linked with the C library of its machine, and that of pages. The others are named for their machines."""
LINKED = {
    "x86_64": {"GNU C Library": "libc6-dev", "libgcc": "gcc-12"},
    "aarch64": {"GNU C Library": "libc6-dev-arm64-cross", "libgcc": "gcc-12-aarch64-linux-gnu"},
}
"""What the program for a machine is linked with statically, and Debian's packages that brought it."""
LEAFLET = "libjs-leaflet"
START = "It has the start files of the GNU C Library and of gcc in it, and a division of libgcc."
FOLLOWS = "A library of the toolchain {}. Its version is that of the Rust crate which it follows."
Json = dict[str, Any]


class Given(NamedTuple):
    """A file that is given out, with the programs in it by their names in `released`. Without a content it is the one that has the bill
    in it."""

    name: str
    programs: Mapping[str, bytes]
    has_tools: bool = False
    has_leaflet: bool = False
    content: bytes | None = None


def bill(state: State, name: str, given: Sequence[Given]) -> bytes:
    """The bill of some files. The same files of one commit have the same bytes: its date is that of the commit, its address a digest.
    Raises `ToolError` where what it tells can't be read."""
    made = _Bill(state)
    for one in given:
        made.relate("DOCUMENT", "DESCRIBES", made.given(one))
    document = {
        "spdxVersion": "SPDX-2.3",
        "dataLicense": "CC0-1.0",
        "SPDXID": "SPDXRef-DOCUMENT",
        "name": name,
        "creationInfo": {
            "created": time.strftime("%Y-%m-%dT%H:%M:%SZ", time.gmtime(state.seconds)),
            "creators": [OURS, f"Tool: olr-release-{state.version}"],
        },
        "packages": list(made.packages.values()),
        "files": list(made.files.values()),
        "relationships": made.relations,
    }
    address = uuid.uuid5(uuid.NAMESPACE_OID, json.dumps(document)).urn
    text = json.dumps(document | {"documentNamespace": address}, indent=1, ensure_ascii=False)
    return f"{text}\n".encode()


class _Bill:
    """The elements of a bill, by their names. What adds one adds what it needs too, and answers its name; it is added once."""

    def __init__(self, state: State) -> None:
        self.packages: dict[str, Json] = {}
        self.files: dict[str, Json] = {}
        self.relations: list[Json] = []
        self._state = state
        self._works = works(state.read("NOTICE").decode())
        crates = re.findall(r"(?m)^(\w+)(?: \w+)?:(.*)$", state.read("crates.txt").decode())
        self._needs = {name: needs.split() for name, needs in crates}

    def relate(self, one: str, how: str, *others: str) -> None:
        """Adds how an element stands to others."""
        for other in others:
            relation = {
                "spdxElementId": f"SPDXRef-{one}",
                "relationshipType": how,
                "relatedSpdxElement": f"SPDXRef-{other}",
            }
            self.relations.append(relation)

    def given(self, given: Given) -> str:
        """A file that is given out."""
        more: Json = {}
        if given.content is not None:
            more = {"packageFileName": given.name, "checksums": _checksums(given.content)}
        one = self._ours(f"Given-{given.name}", given.name, **more, licenseConcluded=UNKNOWN)
        for name, content in given.programs.items():
            self.relate(one, "CONTAINS", self._program(name, content))
        if given.has_tools:
            version = self._state.installed(LEAFLET)
            leaflet = self._of_debian("Leaflet", LEAFLET, version)
            self.relate(one, "CONTAINS" if given.has_leaflet else "DEPENDS_ON", leaflet)
            self.relate(one, "DEPENDS_ON", *self._modules())
        return one

    def _program(self, name: str, content: bytes) -> str:
        """A program, with what it is linked with."""
        one = _element(f"Program-{name}")
        if one in self.files:
            return one
        self.files[one] = {
            "SPDXID": f"SPDXRef-{one}",
            "fileName": f"./{name}",
            "fileTypes": ["BINARY"],
            "checksums": _checksums(content),
            "licenseConcluded": UNKNOWN,
            "copyrightText": UNKNOWN,
            **({"comment": START} if name == DYNAMIC else {}),
        }
        libraries = [work for work in self._works if work not in OF_DEBIAN]
        self.relate(one, "STATIC_LINK", self._crate("olr_page" if name == MODULE else "olr"))
        self.relate(one, "STATIC_LINK", *map(self._library, libraries), self._standard_library())
        for machine in MACHINES:
            if name == f"olr-{machine.name}":
                self.relate(one, "STATIC_LINK", *self._linked(machine))
        if name == DYNAMIC:
            library = self._work("libc", "GNU C Library", "", UNKNOWN)
            self.relate(one, "DYNAMIC_LINK", library)
        return one

    def _linked(self, machine: Machine) -> list[str]:
        """What the program for a machine is linked with besides its own."""
        versions = dict(it.split(" ") for it in self._state.linked_by(machine))
        return [
            self._of_debian(work, package, versions[package])
            for work, package in LINKED[machine.name].items()
        ]

    def _of_debian(self, work: str, package: str, version: str) -> str:
        """A work that a package of Debian brought."""
        names = _names(f"pkg:deb/debian/{package}@{quote(version)}")
        return self._work(package, work, version, DEBIAN, externalRefs=names)

    def _crate(self, name: str) -> str:
        """A crate of this repository, with those below it."""
        one = _element(f"Crate-{name}")
        if one not in self.packages:
            self._ours(one, name)
            for below in self._needs[name]:
                add = self._crate if below in self._needs else self._library
                self.relate(one, "DEPENDS_ON", add(below))
        return one

    def _library(self, name: str) -> str:
        """A library of the toolchain."""
        said = FOLLOWS.format(self._state.toolchain)
        version = self._works[name].version
        return self._work(name, name, version, UNKNOWN, **({"sourceInfo": said} if version else {}))

    def _standard_library(self) -> str:
        """That of the toolchain, with the tables that are in it."""
        one = _element("Library-std")
        if one not in self.packages:
            self._package(one, "std", self._state.toolchain, UNKNOWN, UNKNOWN, UNKNOWN)
            name, authors = "Unicode Character Database", "Copyright © 1991-2023 Unicode, Inc."
            tables = self._package("Library-ucd", name, "", "Unicode-3.0", UNKNOWN, authors)
            self.relate(one, "CONTAINS", tables)
        return one

    def _modules(self) -> list[str]:
        """The Python modules that the tools need, with the versions that the wheel asks for."""
        project = tomllib.loads(self._state.read("python/pyproject.toml").decode())["project"]
        texts = {text for extra in project["optional-dependencies"].values() for text in extra}
        found = []
        for text in sorted(texts):
            name, version = re.fullmatch(r"([\w-]+)(.*)", text).groups()  # type: ignore[union-attr]
            names = _names(f"pkg:pypi/{name.replace('_', '-')}", f"pkg:deb/debian/{MODULES[name]}")
            more = {"externalRefs": names, "sourceInfo": "The version is a range."}
            found.append(
                self._package(f"Python-{name}", name, version, UNKNOWN, UNKNOWN, UNKNOWN, **more)
            )
        return found

    def _ours(self, element: str, name: str, **more: object) -> str:
        """A package of this repository."""
        version = self._state.version
        return self._package(element, name, version, "Apache-2.0", OURS, AUTHORS, **more)

    def _work(self, element: str, name: str, version: str, supplier: str, **more: object) -> str:
        """A package of others that NOTICE lists."""
        work = self._works[name]
        authors = work.authors or UNKNOWN
        return self._package(
            f"Library-{element}", name, version, work.licence, supplier, authors, **more
        )

    def _package(
        self,
        element: str,
        name: str,
        version: str,
        licence: str,
        supplier: str,
        authors: str,
        **more: object,
    ) -> str:
        """A package, as SPDX calls all that has a version and a licence."""
        one = _element(element)
        of_version = {"versionInfo": version} if version else {}
        self.packages[one] = {
            "SPDXID": f"SPDXRef-{one}",
            "name": name,
            **of_version,
            "supplier": supplier,
            "downloadLocation": UNKNOWN,
            "filesAnalyzed": False,
            "licenseConcluded": "MIT" if licence.startswith("MIT OR ") else licence,
            "licenseDeclared": licence,
            "copyrightText": authors,
            **more,
        }
        return one


def _element(name: str) -> str:
    """The name of an element, in the letters that it may have."""
    return re.sub("[^A-Za-z0-9.-]", "-", name)


def _names(*locators: str) -> list[Json]:
    """Names in registries, as URLs of packages."""
    what = {"referenceCategory": "PACKAGE-MANAGER", "referenceType": "purl"}
    return [{**what, "referenceLocator": locator} for locator in locators]


def _checksums(content: bytes) -> list[Json]:
    """The digests of a file. The format asks for the first of a file, the second is the one to compare."""
    return [
        {"algorithm": "SHA1", "checksumValue": hashlib.sha1(content).hexdigest()},
        {"algorithm": "SHA256", "checksumValue": hashlib.sha256(content).hexdigest()},
    ]
