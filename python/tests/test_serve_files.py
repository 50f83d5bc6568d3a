"""How many files `olr-tools serve` may open."""

import pytest
import socket
from functools import partial
from pathlib import Path

from conftest import REFERENCE, TOP, Program
from servers import Begin, path_of, serving, started

EXAMPLES = TOP / "examples"


def limited(files: int) -> Begin:
    """What starts a server that may open so many files."""
    return partial(started, before=("/usr/bin/prlimit", f"--nofile={files}"))


def test_few_files_for_several_maps(program: Program, tmp_path: Path) -> None:
    """Each has as many processes."""
    with pytest.raises(AssertionError, match="needs 160 with 4 processes"):
        with serving(
            program.path,
            f"a={EXAMPLES}",
            tmp_path / "log",
            "--map",
            f"b={EXAMPLES}",
            begin=limited(158),
        ):
            pass


@pytest.mark.parametrize("files, said", [(148, "needs 152"), (172, "there are 24 connections")])
def test_few_files(files: int, said: str, program: Program, tmp_path: Path) -> None:
    """It says how many connections that leaves, and answers on them; with too few it doesn't start."""
    if files < 152:
        with pytest.raises(AssertionError, match=said):
            with serving(program.path, EXAMPLES, tmp_path / "log", begin=limited(files)):
                pass
        assert (tmp_path / "log").read_text().count("\n") == 1
        return
    with serving(program.path, EXAMPLES, tmp_path / "log", begin=limited(files)) as server:
        assert said in server.log() and server.log().count("\n") == 1
        silent = list[socket.socket]()
        stream = b"CwVG\n" * 100
        for _ in range(10):
            silent += (socket.create_connection(("127.0.0.1", server.port)) for _ in range(8))
            assert server.get(path_of("match", REFERENCE)).status == 200
            reply = server.get("/batch/match", "POST", stream, Content_Type="text/plain")
            assert reply.status == 200 and reply.body.count(b"\n") == 100
            assert server.get(path_of("show", REFERENCE)).status == 200
        for connection in silent:
            connection.close()
