"""The bill of materials of a release: what SPDX 2.3 asks of one, and that it names all that is given out."""

import hashlib
import json
import pytest
import re
from collections import Counter
from typing import Any

from conftest import TOP
from release.bill import LINKED, Given, bill
from release.machines import MACHINES, Machine
from release.notice import OF_DEBIAN, works
from release.state import State
from test_licences import below

PACKAGES = [it for linked in LINKED.values() for it in linked.values()]
PROGRAMS = {name: name.encode() for name in ("olr", "olr.wasm", "olr-x86_64", "olr-aarch64")}
GIVEN = [
    Given("olr.deb", {"olr": b"olr"}, content=b"deb"),
    Given("tools.deb", {"olr.wasm": b"olr.wasm"}, has_tools=True, content=b"tools"),
    Given(
        "olr.whl",
        {name: it for name, it in PROGRAMS.items() if name != "olr"},
        has_tools=True,
        has_leaflet=True,
        content=b"wheel",
    ),
]
LICENCE = r"NOASSERTION|[A-Za-z]+-?[A-Z0-9.]*[\w.-]*( (OR|AND|WITH) [A-Za-z]+[\w.-]*)?"


class Tree(State):
    """The tree, with programs that may be older than its sources."""

    toolchain = "a-toolchain 1"

    def linked_by(self, machine: Machine) -> list[str]:
        return [f"{package} 12-1" for package in PACKAGES]


def made(given: list[Given] = GIVEN) -> Any:
    return json.loads(bill(Tree(), "olr-1", given))


@pytest.fixture(scope="module")
def told() -> Any:
    return made()


def related(told: Any, one: str, how: str) -> set[str]:
    """What an element is related to so, without the beginning of its name."""
    prefix = "SPDXRef-"
    return {
        relation["relatedSpdxElement"].removeprefix(prefix)
        for relation in told["relationships"]
        if relation["spdxElementId"] == prefix + one and relation["relationshipType"] == how
    }


def test_what_the_format_asks_for(told: Any) -> None:
    """Chapters 6 to 11 of the specification: fields that have to be there, and what they may hold."""
    assert told["spdxVersion"] == "SPDX-2.3" and told["dataLicense"] == "CC0-1.0"
    assert told["SPDXID"] == "SPDXRef-DOCUMENT" and told["name"] == "olr-1"
    assert re.fullmatch(
        r"urn:uuid:[0-9a-f]{8}(-[0-9a-f]{4}){3}-[0-9a-f]{12}", told["documentNamespace"]
    )
    assert re.fullmatch(r"\d{4}-\d\d-\d\dT\d\d:\d\d:\d\dZ", told["creationInfo"]["created"])
    for creator in told["creationInfo"]["creators"]:
        assert re.fullmatch(r"(Organization: .+|Tool: \S+-\S+)", creator)
    for one in told["packages"]:
        assert one["name"] and one["downloadLocation"] == "NOASSERTION"
        assert one["filesAnalyzed"] is False
        assert re.fullmatch("NOASSERTION|Organization: .+", one["supplier"])
        for name in ("licenseConcluded", "licenseDeclared"):
            assert re.fullmatch(LICENCE, one[name])
        assert one["copyrightText"] and one.get("versionInfo", "1")
        for reference in one.get("externalRefs", ()):
            assert reference["referenceCategory"] == "PACKAGE-MANAGER"
            assert reference["referenceType"] == "purl"
            assert re.fullmatch(
                r"pkg:(pypi|deb/debian)/[a-z0-9.-]+(@[\w.%~-]+)?", reference["referenceLocator"]
            )
    for one in told["files"]:
        assert one["fileName"].startswith("./")
        assert [it["algorithm"] for it in one["checksums"]] == ["SHA1", "SHA256"]


def test_names_and_relations(told: Any) -> None:
    elements = [told, *told["packages"], *told["files"]]
    names = Counter(one["SPDXID"] for one in elements)
    assert set(names.values()) == {1}
    assert all(re.fullmatch(r"SPDXRef-[A-Za-z0-9.-]+", name) for name in names)
    relations = Counter(tuple(relation.values()) for relation in told["relationships"])
    assert set(relations.values()) == {1}
    for one, how, other in relations:
        assert one in names and other in names
        assert how in ("CONTAINS", "DEPENDS_ON", "DESCRIBES", "DYNAMIC_LINK", "STATIC_LINK")
    reached, left = set(), ["SPDXRef-DOCUMENT"]
    while left:
        one = left.pop()
        reached.add(one)
        left += [it[2] for it in relations if it[0] == one and it[2] not in reached]
    assert reached == names.keys()


def test_it_has_the_digests_of_what_is_given_out(told: Any) -> None:
    assert related(told, "DOCUMENT", "DESCRIBES") == {f"Given-{it.name}" for it in GIVEN}
    packages = {it["packageFileName"]: it for it in told["packages"] if "packageFileName" in it}
    files = {it["fileName"]: it for it in told["files"]}
    contents = {it.name: it.content or b"" for it in GIVEN}
    contents |= {f"./{name}": content for name, content in PROGRAMS.items()}
    assert packages.keys() | files.keys() == contents.keys()
    for name, one in (packages | files).items():
        for digest in one["checksums"]:
            content = hashlib.new(digest["algorithm"], contents[name]).hexdigest()
            assert digest["checksumValue"] == content


def test_it_names_all_crates_and_libraries(told: Any) -> None:
    """Those of the program and of pages, with what NOTICE says of them."""
    packages = {one["SPDXID"]: one for one in told["packages"]}
    named = {name: one["name"] for name, one in packages.items()}
    crates = {it for name, it in named.items() if name.startswith("SPDXRef-Crate-")}
    libraries = {it for name, it in named.items() if name.startswith("SPDXRef-Library-")}
    listed = works((TOP / "NOTICE").read_text(encoding="utf-8"))
    used = below("olr") | below("olr_page")
    assert crates == {name for name in used if name.startswith("olr")}
    assert libraries == {*listed, "std", "Unicode Character Database"}
    for work in listed.values():
        for one in packages.values():
            if one["name"] == work.name:
                assert one["licenseDeclared"] == work.licence
                assert one["copyrightText"] == (work.authors or "NOASSERTION")
                assert one.get("versionInfo", "") in (work.version or one.get("versionInfo", ""))
    own = {f"Library-{it.replace('_', '-')}" for it in listed if it not in OF_DEBIAN} | {
        "Library-std"
    }
    for program in PROGRAMS:
        linked = related(told, f"Program-{program.replace('_', '-')}", "STATIC_LINK")
        root = "Crate-olr-page" if program == "olr.wasm" else "Crate-olr"
        machine = program.removeprefix("olr-")
        of_debian = {f"Library-{it}" for it in LINKED.get(machine, {}).values()}
        assert linked == own | {root} | of_debian
    assert related(told, "Program-olr", "DYNAMIC_LINK") == {"Library-libc"}
    assert {packages[f"SPDXRef-Library-{it}"]["versionInfo"] for it in PACKAGES} == {"12-1"}


def test_the_tools(told: Any) -> None:
    """What they depend on, and whether Leaflet is in them."""
    assert related(told, "Given-olr.whl", "CONTAINS") >= {"Library-libjs-leaflet"}
    assert related(told, "Given-tools.deb", "DEPENDS_ON") >= {
        "Library-libjs-leaflet",
        "Python-click",
    }
    assert related(told, "Given-olr.deb", "DEPENDS_ON") == set()
    packages = {one["SPDXID"]: one for one in told["packages"]}
    fiona = packages["SPDXRef-Python-fiona"]
    assert fiona["versionInfo"] == ">=1.9"
    locators = [it["referenceLocator"] for it in fiona["externalRefs"]]
    assert locators == ["pkg:pypi/fiona", "pkg:deb/debian/python3-fiona"]
    osmium = packages["SPDXRef-Python-osmium"]["externalRefs"][1]
    assert osmium["referenceLocator"] == "pkg:deb/debian/python3-pyosmium"


def test_the_same_bytes(monkeypatch: pytest.MonkeyPatch) -> None:
    """Whenever they are made; of other files it is another bill."""
    monkeypatch.setenv("SOURCE_DATE_EPOCH", "86400")
    first = bill(Tree(), "olr-1", GIVEN)
    assert first == bill(Tree(), "olr-1", GIVEN)
    assert b'"created": "1970-01-02T00:00:00Z"' in first
    others = [GIVEN[0]._replace(content=b"other"), *GIVEN[1:]]
    assert made(others)["documentNamespace"] != json.loads(first)["documentNamespace"]


def test_the_bill_within_a_file() -> None:
    """It has no digest of what it lies in."""
    (machine, *_) = MACHINES
    within = made([Given("olr-1-linux", {f"olr-{machine.name}": b"1"})])
    assert not any("checksums" in one for one in within["packages"])
    assert len(within["files"]) == 1
    assert not any(one["SPDXID"].startswith("SPDXRef-Python") for one in within["packages"])
