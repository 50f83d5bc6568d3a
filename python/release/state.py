"""The tree that is released: its commit, its version, its programs and its files."""

import hashlib
import os
import subprocess
from functools import cached_property
from pathlib import Path

from olr.errors import ToolError
from olr.version import Section, sections
from release.machines import MACHINES, Machine

TOP = Path(__file__).resolve().parents[2]


class State:
    """The tree as it is. Raises `ToolError` where something of it is missing."""

    def __init__(self, top: Path = TOP) -> None:
        self.top = top

    @cached_property
    def version(self) -> str:
        """The version of all that is released, as PEP 440 has it.

        It is the number of the newest section of CHANGELOG.md. If that has no date, it is a development version before that
        number, `2.0.0.dev2301+ga3c4ddc6`: with the number of commits, so that later ones are greater, and the name of the last
        one. Where files were changed since the commit, a digest of the changes is added: other files have another version.
        """
        number, is_released = self._section
        if is_released:
            local = []
        else:
            number = f"{number}.dev{self._commits}"
            local = [f"g{self._git('rev-parse', 'HEAD')[:8]}"]
        if self._changes:
            digest = hashlib.sha256(self._changes.encode(errors="surrogateescape")).hexdigest()
            local.append(f"changed.{digest[:8]}")
        return "+".join([number, ".".join(local)] if local else [number])

    @property
    def debian_version(self) -> str:
        """The version as Debian's packages have it, by which dpkg sorts it as pip does."""
        return self.version.replace(".dev", "~dev")

    @cached_property
    def _section(self) -> Section:
        """The newest section of CHANGELOG.md. Raises `ToolError` if there is none."""
        try:
            return sections(self.read("CHANGELOG.md").decode())[0]
        except (ValueError, IndexError) as error:
            raise ToolError(f"CHANGELOG.md names no version: {error}") from error

    @cached_property
    def _commits(self) -> int:
        """How many commits there are up to this one. Raises `ToolError` where git has only the last ones."""
        if self._git("rev-parse", "--is-shallow-repository") == "true":
            raise ToolError(
                "this clone lacks earlier commits, by whose number the version is known: run git fetch --unshallow"
            )
        return int(self._git("rev-list", "--count", "HEAD"))

    @cached_property
    def _changes(self) -> str:
        """What was changed since the commit, in files that are part of the repository. An empty text, if nothing was."""
        return self._git("diff", "--binary", "--no-ext-diff", "--no-color", "HEAD")

    @cached_property
    def commit(self) -> str:
        """The commit, in hexadecimal digits, and a remark if files were changed since."""
        return self._git("rev-parse", "HEAD") + (", with changes" if self._changes else "")

    @cached_property
    def seconds(self) -> int:
        """The date of all files: that of the commit, in seconds since 1970, or the one that SOURCE_DATE_EPOCH names."""
        given = os.environ.get("SOURCE_DATE_EPOCH") or self._git("log", "-1", "--format=%ct")
        if not given.isdecimal():
            raise ToolError(f"SOURCE_DATE_EPOCH is {given}: it has to be a number of seconds")
        return int(given)

    def check_number(self) -> None:
        """Raises `ToolError` if the newest section of CHANGELOG.md has a date, and the program another number."""
        number, is_released = self._section
        said = self._run(str(self.program), "--version").removeprefix("olr ")
        if is_released and said != number:
            raise ToolError(
                f"CHANGELOG.md says that {number} is released, and the program is {said}"
            )

    def check_released(self) -> None:
        """Raises `ToolError` if a file of `released/` has other bytes than RELEASE or MODULE says there."""
        release = self._said_of("released")
        said = [("olr", release.get("program", ""), "keep-released")]
        for machine in MACHINES:
            for suffix, digest in zip(("", ".o"), release.get(machine.name, "").split()):
                said.append((f"olr-{machine.name}{suffix}", digest, "machines --keep"))
        said.append(
            ("olr.wasm", self._said_of("released", "MODULE").get("module", ""), "wasm --keep")
        )
        for name, digest, script in said:
            if digest and digest != _digest(self.top / "released" / name):
                raise ToolError(
                    f"released/{name} has other bytes than is said of it there: run git checkout released, or .ci/{script} to make it anew"
                )

    @cached_property
    def program(self) -> Path:
        """The proved program: the released one, if it is of these sources, else the built one, if that is. Raises `ToolError`."""
        if self._is_released():
            return self.top / "released/olr"
        built = self.top / "crates/olr/out/olr"
        if self._may_be_made_here and (
            self._run(str(self.top / "olr"), "--how").split("\n")[0] == f"program: {built}"
        ):
            return built
        raise self._lack("program", "proved", "./olr --prove", ".ci/keep-released")

    def _is_released(self) -> bool:
        """Whether the released program is of the sources of this tree."""
        said = self._said_of("released")
        return (said.get("program"), said.get("sources")) == (
            _digest(self.top / "released/olr"),
            self._run(str(self.top / ".ci/digest")),
        )

    def static_program(self, machine: Machine) -> Path:
        """The program that is linked statically for a machine: the released one, if it is of these sources, else the one that was
        made here. Its object lies beside it, with `.o` behind its name. Raises `ToolError` if there is neither.
        """
        for folder in self._folders("machines/out"):
            said = self._said_of(folder)
            program = self.top / folder / f"olr-{machine.name}"
            digests = f"{_digest(program)} {_digest(Path(f'{program}.o'))}"
            if (said.get("machines"), said.get(machine.name)) == (self._of_machines, digests):
                return program
        what = f"program for {machine.name}"
        raise self._lack(what, "made", ".ci/machines", ".ci/machines --keep")

    @cached_property
    def module(self) -> Path:
        """The program as a module for pages: the released one, if it is of these sources, else the one that was made here. Raises
        `ToolError` if there is neither.
        """
        sources = self._run(str(self.top / ".ci/wasm"), "--sources")
        for folder in self._folders("web/out"):
            said = self._said_of(folder, "MODULE")
            module = self.top / folder / "olr.wasm"
            if (said.get("sources"), said.get("module")) == (sources, _digest(module)):
                return module
        raise self._lack("module for pages", "made", ".ci/wasm", ".ci/wasm --keep")

    @property
    def _may_be_made_here(self) -> bool:
        """Whether programs may be given out that aren't in `released/`: while the newest section of CHANGELOG.md has no date."""
        return not self._section.is_released

    def _folders(self, made: str) -> tuple[str, ...]:
        """Where programs may be, those that come first being better: `released/`, and where they are made."""
        return ("released", made) if self._may_be_made_here else ("released",)

    def _lack(self, what: str, done: str, made_by: str, kept_by: str) -> ToolError:
        """That there is none of these sources to give out, and what to run."""
        if self._may_be_made_here:
            return ToolError(f"no {what} was {done} of these sources: run {made_by} first")
        released = f"CHANGELOG.md says that {self._section.number} is released"
        return ToolError(
            f"{released}, and released/ has no {what} of these sources: run {kept_by} first"
        )

    def linked_by(self, machine: Machine) -> list[str]:
        """The packages that linked the program for a machine, each with its version. Raises `ToolError` if nothing says which."""
        folder = self.static_program(machine).parent.relative_to(self.top)
        said = self._said_of(str(folder)).get("linked")
        if not said:
            raise ToolError(f"{folder}/RELEASE doesn't say what linked its programs")
        return said.split(", ")

    @cached_property
    def toolchain(self) -> str:
        """The toolchain that built the program."""
        released = self._said_of("released").get("toolchain") if self._is_released() else None
        return released or self._run("rt", "version")

    def installed(self, package: str) -> str:
        """The version of a package of Debian. Raises `ToolError` if it isn't installed."""
        return self._run("dpkg-query", "-W", "-f", "${Version}", package)

    @cached_property
    def _of_machines(self) -> str:
        """The digest of what these programs come from."""
        return self._run(str(self.top / ".ci/machines"), "--sources")

    def _said_of(self, folder: str, file: str = "RELEASE") -> dict[str, str]:
        """What a folder says of its programs, by names. Nothing if there is none."""
        try:
            lines = (self.top / folder / file).read_text(encoding="utf-8").split("\n")
        except OSError:
            return {}
        return dict(line.partition(" ")[::2] for line in lines)

    def read(self, name: str) -> bytes:
        """The content of a file of the repository."""
        try:
            return (self.top / name).read_bytes()
        except OSError as error:
            raise ToolError(f"there is no {name} to release: {error.strerror}") from error

    def names(self, *folders: str) -> list[str]:
        """The files in folders of the repository that are part of it, in the order of their names."""
        return sorted(self._git("ls-files", "--", *folders).split("\n"))

    def _git(self, *words: str) -> str:
        """What git prints."""
        return self._run("git", "-C", str(self.top), *words)

    def _run(self, *command: str) -> str:
        """What a command prints, without the end of its last line."""
        try:
            ended = subprocess.run(
                command, capture_output=True, text=True, errors="surrogateescape", check=True
            )
        except FileNotFoundError as error:
            raise ToolError(f"there is no command {command[0]}") from error
        except subprocess.CalledProcessError as error:
            raise ToolError(f"{' '.join(command)}: {error.stderr.strip()}") from error
        return ended.stdout.rstrip("\n")


def _digest(file: Path) -> str:
    """The SHA-256 of a file. An empty text if it can't be read."""
    try:
        return hashlib.sha256(file.read_bytes()).hexdigest()
    except OSError:
        return ""
