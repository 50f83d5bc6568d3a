#!/usr/bin/env python3
"""Gives `batch` and `answer` records at their limits, and a client that writes a record and waits for its line.

    attacks/records.py [--program PATH..]

Lengths: records of up to 65,536 bytes have an answer or the fault of their text, of one byte more `LongRecord`, with and without a carriage return
and a last line feed; keys of any bytes of UTF-8 are given back; of two references every byte takes every value, and each fault comes as often as it
has to; a record of millions of bytes takes no memory of its own. Memory: 100,000 records need no more address space than 1,000, but for one step by
which the C library's heap grows. Flow: each line comes before the next record is written, from records written whole, in parts, and two at once. All
of them ask for matchings; memory and flow are tried for places too, and with 20,000 records for why there is no matching, with tolerances that leave
none, and for `answer` with records that ask for each of these. It needs Linux.
"""

import base64
import collections
import fcntl
import json
import pathlib
import resource
import select
import subprocess
import sys
import termios

from limits import MIB, least_to_answer, least_to_begin
from trials import bound, in_own_folder, main

TOWN = b"CwVGnSN2zhvHCgDX/tIzAw=="
MAP = ["--nodes", "town.nodes", "--lines", "town.lines", "--bans", "town.bans"]
MATCH, PLACES = ["batch", "match", *MAP], ["batch", "places", *MAP, "--apart", "0"]
WHY = ["batch", "why", *MAP, "--bearing", "0", "--nearest", "1"]
ANSWER = ["answer", *MAP]
QUESTIONS = [b"match -- ", b"why --bearing 0 --nearest 1 -- ", b"show -- ", b"places --apart 0 -- ", b"candidates -- ", b"match --page 1 --radius 50 -- "]
LONGEST = 65_536  # bytes of a record
# By how many bytes glibc's heap grows at once. What is free in it lies otherwise after many records than after few, so it may have to grow once more.
HEAP_STEP = 132 << 10
GIVEN = "given.records"
PAUSE = 0.05  # seconds between two looks at a process that hasn't written a line yet


def objects_of(found):
    """The objects in the lines of an output."""
    return [json.loads(line) for line in found[1].splitlines()]


def answer_to(trial, data, limits=(), words=MATCH):
    """What the program does with these records on its standard input."""
    (trial.folder / GIVEN).write_bytes(data)
    trial.given = GIVEN
    return trial.run(words, limits)


def lengths(trial):
    """Gives a record of each length around the greatest one, with each end, and looks at its fault."""
    for size in range(LONGEST - 2, LONGEST + 3):
        fault = "TooLong" if size <= LONGEST else "LongRecord"
        for end in (b"", b"\n", b"\r\n"):
            for before in (b"", TOWN + b"\n"):
                found = answer_to(trial, before + size * b"C" + end)
                wanted = [None, fault] if before else [fault]
                trial.expect([one["fault"] for one in objects_of(found)] == wanted, f"a record of {size} bytes, ended by {end}", found)
        # (this one isn't ended by the line feed of a CR LF, so the CR is its last byte)
        found = answer_to(trial, (size - 1) * b"C" + b"\r\r\n")
        fault = "TooLong" if size <= LONGEST else "LongRecord"
        trial.expect([one["fault"] for one in objects_of(found)] == [fault], f"a record of {size} bytes, of which the last one is CR", found)


def keys(trial):
    """Gives the longest keys of characters that JSON escapes in every way, and looks whether they come back."""
    room = LONGEST - 1 - len(TOWN)
    for character in ("k", "\u0001", "\u001f", "\"", "\\", "/", "\r", "\u007f", "\u00e9", "\u2028", "\uffff", "\U0001f6a7", "\0"):
        key = character * (room // len(character.encode()))
        found = answer_to(trial, key.encode() + b"\t" + TOWN + b"\n" + TOWN)
        trial.expect([one["key"] for one in objects_of(found)] == [key, None], f"a key of {len(key)} times {character!r}", found)
        whole = answer_to(trial, TOWN)
        same = [{**one, "key": None, "record": 1} for one in objects_of(found)] == 2 * objects_of(whole)
        trial.expect(same and found[0] == whole[0] == 0, f"the answer behind a key of {character!r}", found)


# Two references, and how often each fault comes where each byte of one takes all 256 values in turn: counts of another program, which goes through the
# table of refusals from the top. Two values of the status byte make the line a point along a line, which never has as many bytes.
TURNED = {
    "CwRbWyNG9RpsCQCb/jsbtAT/6/+jK1lE": {None: 5620, "BadVersion": 224, "OtherKind": 28, "OffsetFlags": 128, "OutOfRange": 142, "BadLength": 2},
    "KwRbWyNG9VpsCQCb/jubVEQ=": {None: 3830, "BadVersion": 224, "OtherKind": 28, "OffsetFlags": 128, "OutOfRange": 142},
}


def turned(trial, text):
    """Gives a reference with each byte turned into all others, and counts the faults."""
    whole = base64.b64decode(text)
    texts = [base64.b64encode(whole[:at] + bytes([value]) + whole[at + 1 :]) for at in range(len(whole)) for value in range(256)]
    found = answer_to(trial, b"\n".join(texts), words=["batch", "candidates", *MAP])
    faults = collections.Counter(one["fault"] and one["fault"].split()[0] for one in objects_of(found))
    trial.expect(found[0] == 0 and faults == TURNED[text], f"{text} with each byte turned: {dict(faults)}", found)


def passed_over(trial, mebibytes):
    """Gives records of many MiB within little more address space than the other record takes."""
    few = answer_to(trial, TOWN)
    trial.need(few[0] == 0 and few[1], "one record", few)

    def run(limit):
        return trial.run(MATCH, [(resource.RLIMIT_AS, limit)])

    enough = least_to_answer(run, few, least_to_begin(run))
    found = answer_to(trial, mebibytes * MIB * b"C" + b"\n" + TOWN + b"\n" + mebibytes * MIB * b"\xff", [(resource.RLIMIT_AS, enough)])
    faults = [one["fault"] for one in objects_of(found)]
    trial.expect(found[0] == 0 and faults == ["LongRecord", None, "LongRecord"], f"records of {mebibytes} MiB in {enough} bytes", found)
    trial.summary = f"records of {mebibytes} MiB within {enough} bytes of address space"


def lasting(trial, count, words):
    """Gives many records within the address space that a hundredth of them takes."""
    kinds = [b"key\t" + TOWN, b"", b"*", TOWN[:-4] + b"AA==", b"\xff", 300 * b"C", b"a\tb\tc", b"\t", *8 * [b"-"]]
    if words == ANSWER:
        kinds = [b"key\t" + QUESTIONS[0] + TOWN, b"", *(question + text for question in QUESTIONS for text in (TOWN, b"*")), b"\xff", b"match --all -- -"]
    few = answer_to(trial, b"\n".join(kinds[number % len(kinds)] for number in range(count // 100)), words=words)
    trial.need(few[0] == 0 and few[1], f"{count // 100} records", few)

    def run(limit):
        return trial.run(words, [(resource.RLIMIT_AS, limit)])

    enough = least_to_answer(run, few, least_to_begin(run)) + HEAP_STEP
    found = answer_to(trial, b"\n".join(kinds[number % len(kinds)] for number in range(count)), [(resource.RLIMIT_AS, enough)], words)
    lines = found[1].splitlines(keepends=True)
    numbers = [json.loads(line)["record"] for line in lines]
    trial.expect(found[0] == 0 and numbers == [n + 1 for n in range(count) if n % len(kinds) != 1], f"{count} records: their numbers", found)
    trial.expect(found[1].startswith(few[1]) and b"NoMemory" not in found[1], f"{count} records: the first {count // 100}", found)
    trial.summary = f"{' '.join(words[: words.index('--nodes')])}: {count} records within {enough} bytes of address space, as {count // 100}"


def next_line(process):
    """The next line that a process writes, or none where it waits for more input, or has ended, without having written one."""
    while not select.select([process.stdout], [], [], PAUSE)[0]:
        if has_read_all(process) and not select.select([process.stdout], [], [], 0)[0]:
            return b""
    return process.stdout.readline()


def has_read_all(process):
    """Whether a process sleeps and has left no byte of its input: what it can sleep for is more of that."""
    unread = fcntl.ioctl(process.stdin, termios.FIONREAD, bytes(4))
    state = pathlib.Path(f"/proc/{process.pid}/stat").read_text().rpartition(") ")[2][0]
    return state == "S" and int.from_bytes(unread, sys.byteorder) == 0


def flow(trial, words, text):
    """Writes records, of which one has this text, and waits for their lines."""
    how = {"cwd": trial.folder, "stdin": subprocess.PIPE, "stdout": subprocess.PIPE, "stderr": subprocess.PIPE, "bufsize": 0}
    with subprocess.Popen([trial.program, *words], **how) as process:
        number = 0
        try:
            bound(process)
            for parts in ([text + b"\n"], [b"a key", b"\t" + text[:5], text[5:], b"\n"], [b"*\n*\n"], [b"\n" + text + b"\r\n\n*\n"], [(LONGEST + 1) * b"C", b"\n"]):
                for part in parts:
                    process.stdin.write(part)
                for record in b"".join(parts).splitlines():
                    number += 1
                    line = next_line(process) if record else b""
                    holds = not record or (line.endswith(b"\n") and json.loads(line)["record"] == number)
                    trial.need(holds, f"the line of record {number}, before more is written", (None, line, b""))
            process.stdin.write(text)
            rest, errors = process.communicate()
            trial.expect(json.loads(rest)["record"] == number + 1, "the line of a last record without a line feed", (process.returncode, rest, errors))
        finally:
            process.kill()
    trial.expect((process.returncode, errors) == (0, b""), "the end of the input", (process.returncode, b"", errors))


def make_cases(folder):
    """The cases."""
    counts = ((100_000, MATCH), (100_000, PLACES), (20_000, WHY), (20_000, ANSWER))
    flows = (*((words, TOWN) for words in (MATCH, PLACES, WHY)), *((ANSWER, question + TOWN) for question in QUESTIONS[:3]))
    return [(lengths,), (keys,), *((turned, text) for text in TURNED), (passed_over, 6), *((lasting, *case) for case in counts), *((flow, *case) for case in flows)]


if __name__ == "__main__":
    main(__doc__, "olr", in_own_folder, make_cases)
