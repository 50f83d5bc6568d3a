"""What `serve.py` and `soak.py` share: a server in a process of its own, and what is asked of it."""

import asyncio
import contextlib
import json
import os
import signal
import subprocess
import sys
from pathlib import Path
from urllib.parse import quote

PACKAGE = Path(__file__).resolve().parents[1] / "python"
PYTHON = "/usr/bin/python3"


@contextlib.contextmanager
def serving(program, folder, workers, *options):
    """A server on the map of a folder: its process, and its port."""
    environment = dict(os.environ, OLR_PROGRAM=str(program), PYTHONPATH=str(PACKAGE))
    words = ["serve", "--map", folder, "--port", 0, "--workers", workers, *options]
    command = [PYTHON, "-m", "olr", *map(str, words)]
    signal.signal(signal.SIGTERM, lambda *_: sys.exit(1))  # so that a script that is told to end ends the server
    with subprocess.Popen(command, stdout=subprocess.PIPE, env=environment, text=True) as process:
        try:
            url = process.stdout.readline().strip()
            if not url:
                sys.exit("the server didn't start")
            yield process, int(url.rstrip("/").rpartition(":")[2])
        finally:
            process.terminate()
            process.wait()


def records_of(file):
    """The references of a file of records."""
    return [line.rpartition("\t")[2] for line in Path(file).read_text().splitlines()]


def expected_of(program, folder, what, texts):
    """What `olr batch` answers to each reference: its JSON, or None where there is a fault."""
    records = "".join(f"k\t{text}\n" for text in texts).encode()
    command = [str(program), "batch", what, "--map", str(folder)]
    ended = subprocess.run(command, input=records, stdout=subprocess.PIPE, check=True)
    found = []
    for line in ended.stdout.splitlines():
        answer = line[len(b'{"answer":') : line.rindex(b',"fault":')]
        found.append(None if json.loads(line)["fault"] else answer)
    return found


def path_of(what, text):
    """The path and query of a question, asked as `olr` asks by itself, with which it is compared; a scene as the page asks."""
    return f"/{what}?ref={quote(text, safe='')}" + ("" if what == "scene" else "&profile=program")


class Client:
    """A connection that stays open."""

    def __init__(self, port, address="127.0.0.1"):
        """From an address of this machine."""
        self._port, self._address = port, address
        self._reader = self._writer = None

    async def get(self, path):
        """The status and the body of an answer; 0 where the connection was closed."""
        try:
            if self._writer is None:
                self._reader, self._writer = await asyncio.open_connection(
                    "127.0.0.1", self._port, local_addr=(self._address, 0), limit=1 << 20
                )
            self._writer.write(f"GET {path} HTTP/1.1\r\nHost: 127.0.0.1:{self._port}\r\n\r\n".encode())
            head = await self._reader.readuntil(b"\r\n\r\n")
            length = int(head.lower().partition(b"content-length:")[2].partition(b"\r\n")[0])
            return int(head[9:12]), await self._reader.readexactly(length)
        except (OSError, asyncio.IncompleteReadError):
            self.close()
            return 0, b""

    def close(self):
        """Closes it."""
        if self._writer is not None:
            self._writer.close()
        self._writer = None


def kib_of(process, name):
    """A figure of the memory of a process, such as VmHWM, in KiB; 0 if it has ended."""
    try:
        text = Path(f"/proc/{process}/status").read_text()
    except OSError:
        return 0
    found = text.partition(f"{name}:")[2].split()
    return int(found[0]) if found else 0


def shared_kib_of(process):
    """The memory of a process in KiB, where what several share is divided among them; 0 if it has ended."""
    try:
        text = Path(f"/proc/{process}/smaps_rollup").read_text()
    except OSError:
        return 0
    found = text.partition("\nPss:")[2].split()
    return int(found[0]) if found else 0


def command_of(process):
    """The words of a process; none if it has ended."""
    try:
        return Path(f"/proc/{process}/cmdline").read_bytes()
    except OSError:
        return b""


def all_of(process):
    """A process, and all that it or those have started."""
    return [process, *(one for child in children_of(process) for one in all_of(child))]


def children_of(parent):
    """The processes that one has started."""
    try:
        return [int(one) for one in Path(f"/proc/{parent}/task/{parent}/children").read_text().split()]
    except OSError:
        return []
