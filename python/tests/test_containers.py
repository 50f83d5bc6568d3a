"""containers/: the files take what a release has, from nowhere else, run as somebody who isn't root, and ask the server what it answers."""

import json
import pytest
import re
import subprocess
import sys
from collections.abc import Iterator
from contextlib import contextmanager
from fnmatch import fnmatch
from http.server import BaseHTTPRequestHandler, HTTPServer
from threading import Thread

from conftest import TOP
from olr.commands.serve import command as serve
from olr.serving import openapi
from olr.serving.limits import Limits
from release.debian import Package
from release.machines import MACHINES, X86_64
from release.program_files import documents, linking_entries
from release.state import State

NAMES = sorted(path.name for path in (TOP / "containers").glob("*.Containerfile"))
PORT = "8000"


def instructions(name: str) -> list[tuple[str, str]]:
    """The instructions of a file, each with its words, a blank in place of each end of a line that goes on."""
    text = (TOP / "containers" / name).read_text(encoding="utf-8")
    lines = re.sub(r"(?m)^#.*\n", "", text).replace("\\\n", " ").splitlines()
    return [(line.partition(" ")[0], line.partition(" ")[2]) for line in lines if line]


def words_of(name: str, instruction: str) -> str:
    """The words of an instruction that a file has once."""
    (found,) = [words for one, words in instructions(name) if one == instruction]
    return found


def health_check() -> list[str]:
    """The command of the health check."""
    words: list[str] = json.loads(
        words_of("tools.Containerfile", "HEALTHCHECK").partition("CMD ")[2]
    )
    return words


def test_there_are_two() -> None:
    assert NAMES == ["olr.Containerfile", "tools.Containerfile"]


@pytest.mark.parametrize("name", NAMES)
def test_nothing_comes_from_an_address(name: str) -> None:
    """But Debian's packages, by apt-get."""
    given = instructions(name)
    assert "ADD" not in dict(given)
    assert not re.search(r"https?://(?!127\.0\.0\.1)|curl|wget|pip ", str(given))


@pytest.mark.parametrize("name", NAMES)
def test_the_user_isnt_root(name: str) -> None:
    """It is a number, for in an image from scratch there are no names."""
    number, group = words_of(name, "USER").split(":")
    assert int(number) > 0 and int(group) > 0
    assert [one for one, _ in instructions(name)].index("USER") > [
        one for one, _ in instructions(name)
    ].index("COPY")


def test_the_packages_are_those_of_a_release() -> None:
    *patterns, _ = words_of("tools.Containerfile", "COPY").split()
    named = [("olr", machine.debian) for machine in MACHINES] + [("olr-tools", "all")]
    made = [
        Package(name, architecture, "science", [], "", []).file_name(State())
        for name, architecture in named
    ]
    found = [[fnmatch(file, pattern) for pattern in patterns] for file in made]
    assert found == [[True, False], [True, False], [False, True]]


def test_the_archive_has_what_the_image_of_olr_takes() -> None:
    """And both files, for whoever has no repository."""
    linking = linking_entries(State(), X86_64)
    given = {it.path for it in (*documents(State(), "LICENSE", "NOTICE"), *linking)} | {"olr"}
    *taken, _ = words_of("olr.Containerfile", "COPY").split()
    assert {"LICENSE", "NOTICE", "relink/LGPL-2.1"} < {*taken}
    assert {*taken, *(f"containers/{name}" for name in NAMES)} <= given
    assert json.loads(words_of("olr.Containerfile", "ENTRYPOINT")) == ["/olr"]


def test_the_server_understands_its_words() -> None:
    first, *words = json.loads(words_of("tools.Containerfile", "CMD"))
    assert first == "serve"
    given = serve.make_context(first, words).params
    assert (given["maps"], given["host"], str(given["port"])) == (("/map",), "0.0.0.0", PORT)
    assert words_of("tools.Containerfile", "EXPOSE") == PORT


@contextmanager
def answering(status: int) -> Iterator[tuple[str, list[str]]]:
    """A server that gives each request a status: its port, and what it was asked for."""
    asked: list[str] = []

    class Handler(BaseHTTPRequestHandler):
        def do_GET(self) -> None:
            asked.append(self.path)
            self.send_response(status)
            self.end_headers()

        def log_message(self, *_: object) -> None:
            """Nothing is printed."""

    with HTTPServer(("127.0.0.1", 0), Handler) as server:
        thread = Thread(target=server.serve_forever, args=(0.01,))
        thread.start()
        try:
            yield str(server.server_port), asked
        finally:
            server.shutdown()
            thread.join()


@pytest.mark.parametrize(("status", "is_healthy"), [(200, True), (503, False)])
def test_the_health_check(status: int, is_healthy: bool) -> None:
    program, *words = health_check()
    assert program == "python3" and PORT in words[-1]
    with answering(status) as (port, asked):
        command = [sys.executable, *words[:-1], words[-1].replace(PORT, port)]
        # (a proxy that isn't there, which podman hands on from whoever runs it)
        ended = subprocess.run(command, env={"http_proxy": "http://127.0.0.1:9"}, timeout=600)
    assert (ended.returncode == 0, asked) == (is_healthy, ["/ready"])
    assert asked[0] in openapi.document(Limits())["paths"]
