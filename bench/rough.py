"""What `soak.py` sends a server besides questions: streams, large answers, and clients that are slow or leave."""

import asyncio
import contextlib
import hashlib
import http.client
import signal
import socket
import subprocess

from served import path_of

LARGE = "radius=400&percent=100&slack=10000&page=1000"
HEAVY = (("places", ""), ("scene", ""), ("match", f"&{LARGE}"), ("places", "&radius=300&percent=100&slack=10000&look=10000&most=100"))
SLOW = 100
"""Connections on each of which a body comes too slowly."""
UNREAD = 4
"""Connections on each of which a large answer is taken too slowly."""
ESTABLISHED = b"\x01"
"""The state of a connection of which no side is closed, as Linux has it."""


def is_open(connection):
    """Whether a connection wasn't closed by the other side. What came before can be read all the same."""
    return connection.getsockopt(socket.IPPROTO_TCP, socket.TCP_INFO, 1) == ESTABLISHED


class Rough:
    """Clients of one server. Each kind has an address of its own."""

    def __init__(self, port, counts, is_over):
        """`counts` gives the counter of the minute that runs."""
        self._port, self._counts, self._is_over = port, counts, is_over

    def _note(self, name):
        self._counts()[name] += 1

    async def stream(self, body, expected):
        """Sends a file of records again and again. What comes has to be what `olr batch` says, or the beginning of it where the process was killed; 503
        if that was before it."""
        headers = {"Content-Type": "text/plain"}
        while not self._is_over.is_set():
            status, answer, is_whole = await asyncio.to_thread(self._ask, 2, "POST", "/batch/match?profile=program", body, headers)
            if status != 200:
                self._note(f"streams {status}")
                continue
            self._note("streams" if is_whole else "cut")
            self._counts()["stream differs"] += not (answer == expected if is_whole else expected.startswith(answer))

    async def large(self, text, headers):
        """Asks for a page of a thousand matchings again and again. All of these answers have to be the same."""
        path, first = f"{path_of('match', text)}&{LARGE}", None
        while not self._is_over.is_set():
            status, answer, is_whole = await asyncio.to_thread(self._ask, 3, "GET", path, None, headers)
            self._note(f"large {status}" if is_whole else "large cut")
            if status == 200 and is_whole:
                digest = hashlib.sha256(answer).digest()
                first = first or digest
                self._counts()["large differs"] += digest != first

    def _ask(self, address, method, path, body, headers):
        """The status, what came, and whether all of it did."""
        connection = http.client.HTTPConnection("127.0.0.1", self._port, timeout=120, source_address=(f"127.0.0.{address}", 0))
        with contextlib.closing(connection):
            try:
                connection.request(method, path, body, headers)
                response = connection.getresponse()
                return response.status, response.read(), True
            except http.client.IncompleteRead as broken:
                return response.status, broken.partial, False
            except (OSError, http.client.HTTPException):
                return 0, b"", False

    async def leave(self, draws, texts):
        """Asks what takes long, and leaves before it is answered."""
        while not self._is_over.is_set():
            what, options = draws.choice(HEAVY)
            with contextlib.suppress(OSError):
                _, writer = await self._open(4)
                writer.write(self._head("GET", f"{path_of(what, draws.choice(texts))}{options}"))
                await asyncio.sleep(draws.random() / 2)
                writer.close()
            self._note("left")

    async def slow_body(self, draws):
        """Sends a body of which a byte comes now and then, until the server has enough of it."""
        while not self._is_over.is_set():
            await asyncio.sleep(10 * draws.random())
            with contextlib.suppress(OSError):
                reader, writer = await self._open(5)
                path = draws.choice(("/messages", "/batch/match", "/rows"))
                writer.write(self._head("POST", path, "Content-Type: text/plain", "Content-Length: 100000"))
                while not self._is_over.is_set() and not reader.at_eof():
                    writer.write(b"C")
                    with contextlib.suppress(TimeoutError):
                        await asyncio.wait_for(reader.read(1024), 2)
                writer.close()
            self._note("slow bodies")

    async def slow_reading(self, text):
        """Asks for a large answer, and hardly takes it."""
        loop = asyncio.get_running_loop()
        while not self._is_over.is_set():
            with contextlib.suppress(OSError), socket.socket() as connection:
                connection.setsockopt(socket.SOL_SOCKET, socket.SO_RCVBUF, 4096)
                connection.setblocking(False)
                connection.bind(("127.0.0.6", 0))
                await loop.sock_connect(connection, ("127.0.0.1", self._port))
                await loop.sock_sendall(connection, self._head("GET", f"{path_of('match', text)}&{LARGE}"))
                while not self._is_over.is_set() and is_open(connection) and await loop.sock_recv(connection, 64):
                    await asyncio.sleep(1)
            self._note("slow readings")
            await asyncio.sleep(1)

    async def renew(self, server, every):
        """Lets the server read its map anew now and then."""
        while not self._is_over.is_set():
            await asyncio.sleep(every)
            server.send_signal(signal.SIGHUP)
            self._note("renewed")

    async def _open(self, address):
        return await asyncio.open_connection("127.0.0.1", self._port, local_addr=(f"127.0.0.{address}", 0), limit=1 << 12)

    def _head(self, method, path, *fields):
        lines = [f"{method} {path} HTTP/1.1", f"Host: 127.0.0.1:{self._port}", *fields]
        return "".join(f"{line}\r\n" for line in [*lines, ""]).encode()

    def tasks(self, server, chosen, texts, draws):
        """All of them at work."""
        body = "".join(f"k\t{text}\n" for text in texts).encode()
        command = [chosen.program, "batch", "match", "--map", chosen.map]
        expected = subprocess.run(command, input=body, stdout=subprocess.PIPE, check=True).stdout
        large = chosen.large.read_text().strip()
        work = [
            self.stream(body, expected),
            self.large(large, {}),
            self.large(large, {"Accept": "application/geo+json"}),
            *(self.leave(draws, texts) for _ in range(4)),
            *(self.slow_body(draws) for _ in range(SLOW)),
            *(self.slow_reading(large) for _ in range(UNREAD)),
            self.renew(server, 25),
        ]
        return [asyncio.create_task(one) for one in work]
