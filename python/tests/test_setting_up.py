"""What `./test` needs of Debian: the packages of its parts, and who installs them. Stubs stand for what Debian has."""

import os
import pytest
import subprocess
from pathlib import Path

from conftest import TOP
from olr.setup import FILES, MODULES, TEST_FILES, TEST_MODULES

DEAR = {"gcc-aarch64-linux-gnu", "libc6-dev-arm64-cross", "lintian", "qemu-user-static"}
"""Packages that only the gate needs, and the part `release`."""


def listed(*parts: str) -> set[str]:
    """The packages that parts need."""
    command = [str(TOP / ".ci/require"), "--list", *parts]
    return set(subprocess.run(command, capture_output=True, text=True, check=True).stdout.split())


def test_the_packages_are_those_that_the_tools_name() -> None:
    tools = {*MODULES.values(), *FILES.values(), "python3"}
    assert listed("python") == tools | {*TEST_MODULES.values(), *TEST_FILES.values(), "git"}
    assert listed("packages") > tools
    assert listed("release") == listed("packages") | DEAR
    assert listed("proof") == set()


class Machine:
    """A Debian without any package of these, as ./test sees it."""

    def __init__(self, folder: Path, user: int) -> None:
        self.asked = folder / "asked"
        """What apt-get was asked for."""
        self._path = f"{folder}:/usr/bin:/bin"
        stubs = {
            "id": f"echo {user}",
            "dpkg-query": "exit 1",
            "apt-get": f'echo "$@" >>{self.asked}',
        }
        for name, text in stubs.items():
            (folder / name).write_text(f"#!/bin/sh\n{text}\n", encoding="utf-8")
            (folder / name).chmod(0o755)

    def test(self, *parts: str) -> "subprocess.CompletedProcess[str]":
        """What ./test does there."""
        room = {"PATH": self._path, "HOME": os.environ.get("HOME", "/")}
        return subprocess.run([str(TOP / "test"), *parts], env=room, capture_output=True, text=True)


@pytest.mark.parametrize(
    "asked, parts",
    [
        ((), ("cases", "scripts", "python", "packages")),
        (("scripts",), ("scripts",)),
        (("cases", "release"), ("cases", "release")),
    ],
)
def test_somebody_who_isnt_root(
    tmp_path: Path, asked: tuple[str, ...], parts: tuple[str, ...]
) -> None:
    """The one line for root has all that the parts need, and no more. Nothing is run."""
    machine = Machine(tmp_path, 1000)
    ended = machine.test(*asked)
    line = ended.stdout.removeprefix("apt-get update && ")
    assert ended.returncode == 1 and line.count("\n") == 1 and not machine.asked.exists()
    words = line.split()
    assert words[:4] == ["apt-get", "install", "-y", "--no-install-recommends"]
    assert words[4:] == sorted(listed(*parts))


def test_root(tmp_path: Path) -> None:
    """What is missing is installed first, and then the parts run."""
    machine = Machine(tmp_path, 0)
    ended = machine.test("cases")
    assert machine.asked.read_text(encoding="utf-8").endswith(
        "install -y --no-install-recommends python3\n"
    )
    assert ended.stdout.startswith("apt-get install -y --no-install-recommends python3\n")
    last = ended.stdout.splitlines()[-1]
    assert last.endswith(" passed, 0 failed") and not last.startswith("0 ")
