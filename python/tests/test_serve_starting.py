"""`olr-tools serve` that doesn't start, or is told something while it starts."""

import asyncio
import os
import pytest
import shutil
import socket
from pathlib import Path

from asking import draw_map
from conftest import Program, Tools
from servers import forked, path_of, serving

GOOD = "CwVF/yN2yRpnBAFUAAgbpwYBAf9kK0Fa"


@pytest.fixture(scope="module")
def drawn(tmp_path_factory: pytest.TempPathFactory) -> Path:
    """A drawn map."""
    return draw_map(tmp_path_factory.mktemp("drawn"))


def test_a_map_that_is_refused_at_the_start(program: Program, drawn: Path, tmp_path: Path) -> None:
    folder = Path(shutil.copytree(drawn, tmp_path / "map"))
    (folder / "nodes.csv").write_text("id,lon,lat\nx,1,2\n")
    log = tmp_path / "log"
    assert refusal_of(program, folder, log).startswith("olr-tools: olr refuses the map: ")
    said = refusal_of(program, tmp_path / "none", log)
    assert f"OpenFailed nodes: {tmp_path}/none/nodes.csv can't be read: No such file" in said
    with socket.create_server(("127.0.0.1", 0)) as taken:
        said = refusal_of(program, drawn, log, taken.getsockname()[1])
    assert "can't be listened to" in said


def test_a_signal_while_the_map_is_read(program: Program, drawn: Path, tmp_path: Path) -> None:
    """SIGHUP ends no server that starts."""
    file = tmp_path / "program"
    file.write_text(
        f"""#!/bin/sh
if [ "$1" = answer ] && mkdir "$0.told" 2>/dev/null; then kill -HUP $PPID; sleep 0.3; fi
exec {program.path} "$@"
"""
    )
    file.chmod(0o755)
    with serving(file, drawn, tmp_path / "log") as server:
        assert (tmp_path / "program.told").exists()
        assert server.get(path_of("match", GOOD)).status in (200, 422)


def test_it_leaves_the_event_loops_of_its_process_alone(tools: Tools, tmp_path: Path) -> None:
    before = asyncio.get_event_loop_policy()
    assert tools.run("serve", "--map", tmp_path / "none").returncode == 1
    assert asyncio.get_event_loop_policy() is before


def refusal_of(program: Program, folder: Path, log: Path, port: int = 0) -> str:
    """The line that a server says which doesn't start."""
    words = ["serve", "--map", str(folder), "--port", str(port)]
    with forked(words, os.environ | {"OLR_PROGRAM": str(program.path)}, log) as process:
        assert process.stdout is not None and process.stdout.read() == ""
        assert process.wait() == 1
    (line,) = log.read_text().splitlines()
    return line
