"""`POST /messages` of `olr-tools serve` without a server: bodies, and the process that reads them."""

import asyncio
import json
import pytest
import subprocess
from collections.abc import Iterator
from starlette.requests import Request
from starlette.types import Scope
from typing import Any

from conftest import REFERENCE
from fake_pool import run_within
from olr.serving.limits import MIB, Limits
from olr.serving.listing import MOST_ROWS
from olr.serving.lists import MOST_COMING, Lists, most_bytes, reading_of
from olr.serving.problems import Problem
from olr.serving.runs import python_command


def test_bytes_of_a_list() -> None:
    """Sixteen MiB, or the limit of all bodies if that is less."""
    assert most_bytes(Limits()) == 16 * MIB and most_bytes(Limits(body=5)) == 5

    async def run(size: int) -> int:
        pieces: Iterator[bytes] = iter([b"x" * 4, b"y" * (size - 4)])

        async def receive() -> Any:
            piece = next(pieces)
            return {"type": "http.request", "body": piece, "more_body": piece.startswith(b"x")}

        scope: dict[str, Any] = {"type": "http", "method": "POST", "headers": []}
        scope |= {"query_string": b"format=tab", "is_gone": lambda: False}
        try:
            return (await Lists(Limits(body=10)).answer(Request(scope, receive))).status_code
        except Problem as problem:
            return problem.status

    assert run_within(run(11)) == 413
    assert run_within(run(10)) == 200


def test_lists_that_come_slowly() -> None:
    """One client has some of them at once, and none of them keeps others waiting."""

    async def run() -> None:
        lists = Lists(Limits())

        async def ask(client: str, never: bool) -> int:
            async def receive() -> Any:
                if never:
                    await asyncio.Event().wait()
                return {"type": "http.request", "body": b"", "more_body": False}

            scope: Scope = {"type": "http", "method": "POST", "headers": []}
            scope |= {"query_string": b"format=tab", "client": (client, 0), "is_gone": bool}
            try:
                return (await lists.answer(Request(scope, receive))).status_code
            except Problem as problem:
                return problem.status

        slow = [asyncio.create_task(ask("slow", True)) for _ in range(MOST_COMING // 4)]
        await asyncio.sleep(0)
        assert await ask("slow", False) == 503
        assert await ask("other", False) == 200
        for one in slow:
            one.cancel()
        await asyncio.wait(slow)
        assert await ask("slow", False) == 200

    run_within(run())


def read_list(body: bytes, format: str | None = None) -> tuple[int, bytes, bytes]:
    """The status of a process that reads a list, its lines, and what it says."""
    command = python_command("olr.serving.listing", json.dumps([format, None, None]))
    ended = subprocess.run(command, input=body, capture_output=True, check=False, timeout=600)
    return ended.returncode, ended.stdout, ended.stderr


def test_messages_of_a_list() -> None:
    """One more than are shown says that there are more."""
    for count, lines in ((MOST_ROWS, MOST_ROWS), (MOST_ROWS + 5, MOST_ROWS + 1)):
        status, text, said = read_list(f"k\t{REFERENCE}\n".encode() * count)
        found = text.splitlines()
        assert (status, said, len(found)) == (0, b"", lines)
        assert json.loads(found[-1]) == {
            "record": lines,
            "key": "k",
            "reference": REFERENCE,
            "fault": None,
        }


def test_a_list_of_too_many_values() -> None:
    """It takes no more memory than it may: four times as much as its bytes."""
    status, text, said = read_list(b'{"ref":[' + b"[]," * 5_500_000 + b"[]]}", "jsonl")
    assert (status, text) == (1, b"") and said.startswith(b"the list has more values than are read")


def test_options_of_a_list() -> None:
    assert reading_of({"format": "csv", "ref": "a"})[:2] == ("csv", "a")
    assert reading_of({}).base64 == "plain" and reading_of({"base64": "url"}).base64 == "url"
    for options in ({"format": "gpkg"}, {"column": "a"}, {"base64": ""}):
        with pytest.raises(Problem) as caught:
            reading_of(options)
        assert caught.value.status == 400
