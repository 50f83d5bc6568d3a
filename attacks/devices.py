#!/usr/bin/env python3
"""Lets the devices under the built program fail, one call after the other, and move few bytes a call.

    attacks/devices.py [--program PATH..]

runs `show`, `candidates`, `match`, `places` and `why`, these but the first two as text and as JSON, `match` with a page and all pages, with two files
and with three; and `batch` and `answer` on the records of a file and of the standard input. In each case every read fails in turn, a whole one or one
of 64 bytes, once or from then on: the answer has to be ReadFailed with the name of the file that was read, and nothing written, but the lines of the
records that ended before. A read may also give no byte too early, as a shorter file: what is answered then has to be what the program answers to that
shorter file. Every write fails in turn or takes no byte, a whole one or one of 7 bytes, once or from then on: WriteFailed, and what was written is a
beginning of the output. A read or a write that a signal interrupts is made again: the output is the same. So it is with reads and writes of 1 and of
7 bytes. It needs `cc`, Linux and glibc.

The system has no call that flushes the standard output; crates/olr_tests has sinks whose flush fails.
"""

import errno
import pathlib
import tempfile

from trials import Trial, build, main, write_town

# The files by the descriptor, and their names in a fault.
RECORDS = "town.records"
FILES_READ = {0: RECORDS, 3: "town.nodes", 4: "town.lines", 5: "town.bans", 6: RECORDS}
NAMES = {0: "input", 3: "nodes", 4: "lines", 5: "bans", 6: "input"}
# A confidence is read behind the files of the map.
CONFIDENCE = "town.confidence"
TOWN = "CwVGnSN2zhvHCgDX/tIzAw=="
# Eight records, of which the last one has no line feed: each has a line.
INPUT = f"one\t{TOWN}\n{TOWN}\r\nbroken\t*\n".encode() + b"\xff\n" + f"\t{TOWN}\nmatch -- {TOWN}\n\tshow {TOWN}\nlast\t{TOWN}".encode()
FILES = ["--nodes", "town.nodes", "--lines", "town.lines", "--bans", "town.bans"]
JSON = ["--format", "json"]
ALL = ["--page", "1", "--all", "--bearing", "12"]
CASES = [
    ["show", TOWN],
    ["candidates", TOWN, *FILES],
    ["match", TOWN, *FILES],
    ["match", TOWN, *FILES, *JSON],
    ["match", TOWN, *FILES, *ALL],
    ["match", TOWN, *FILES, *ALL, *JSON],
    ["match", TOWN, *FILES[:4], *ALL],
    ["match", TOWN, *FILES[:4], *ALL, *JSON],
    ["batch", "match", *FILES],
    ["batch", "candidates", *FILES, "--input", RECORDS],
    ["places", TOWN, *FILES],
    ["places", TOWN, *FILES[:4], "--bearing", "12", *JSON],
    ["places", TOWN, *FILES, "--order", "likely", *JSON, "--confidence", CONFIDENCE],
    ["batch", "places", *FILES],
    ["why", TOWN, *FILES, "--bearing", "0", "--nearest", "1"],
    ["why", TOWN, *FILES[:4], "--percent", "0", "--slack", "0", "--nearest", "0", *JSON],
    ["batch", "why", *FILES, "--bearing", "0", "--nearest", "0", "--input", RECORDS],
    ["answer", *FILES],
    ["answer", *FILES, "--input", RECORDS],
]
# The most bytes of a narrow read.
WIDTH = 64
# How calls fail: at most how many bytes a call moves, 0 for all; the error, 0 for no byte moved; and whether it stays.
FAILING_READS = [
    (0, errno.EIO, 0),
    (0, errno.EAGAIN, 1),
    (0, errno.EINTR, 0),  # the program makes it again, so it doesn't stay
    (WIDTH, errno.EIO, 1),
    (WIDTH, errno.EAGAIN, 0),
    (WIDTH, errno.EINTR, 0),
]
FAILING_WRITES = [
    (0, errno.ENOSPC, 0),
    (0, errno.EPIPE, 1),
    (0, errno.EINTR, 0),
    (0, 0, 0),
    (7, errno.ENOSPC, 1),
    (7, errno.EPIPE, 0),
    (7, errno.EINTR, 0),
    (7, 0, 1),
]
# No case has as many calls.
MOST = 10_000


def how(width, error):
    """How a call fails, in words."""
    return f"{'fails with ' + errno.errorcode[error] if error else 'moves no byte'}, at most {width or 'all'} bytes a call"


def of_descriptor(words, descriptor):
    """The file that a run reads by a descriptor, and its name in a fault."""
    if descriptor == 6 and CONFIDENCE in words:
        return CONFIDENCE, "confidence"
    return FILES_READ[descriptor], NAMES[descriptor]


def lines_before(wanted, name, reads, width):
    """What is written of an answer before a read of a file fails, after so many reads of this width: the lines of the records that ended. The last
    one has ended where a read gave no byte."""
    if name != "input":
        return b""
    given = reads * (width or len(INPUT))
    ended = INPUT[:given].count(b"\n") + (given >= len(INPUT) + (width or len(INPUT)))
    return b"".join(wanted[1].splitlines(keepends=True)[:ended])


def fail_reads(trial, library, words, wanted):
    """Lets each read fail in turn, and gives how many there are."""
    reads = 0
    for width, error, stays in FAILING_READS:
        for call in range(1, MOST):
            found, notes = trial.run_over(library, words, fail_read=call, error=error, width=width, stays=stays)
            failed = [letter for letter in notes if letter.isupper() and letter != "W"]
            if not failed:
                break
            reads = max(reads, call)
            descriptor = ord(failed[0]) - ord("A")
            name = of_descriptor(words, descriptor)[1] if descriptor in NAMES else "what is no input"
            written = lines_before(wanted, name, notes.count(str(descriptor)), width)
            refused = (1, written, f"olr: ReadFailed {name}\n".encode())
            holds = found == (wanted if error == errno.EINTR else refused)
            trial.expect(holds, f"{' '.join(words)}: read {call}, of {name}, {how(width, error)}", found)
    return reads


def fail_writes(trial, library, words, wanted):
    """Lets each write fail in turn, or take no byte, and gives how many there are."""
    writes = 0
    for width, error, stays in FAILING_WRITES:
        for call in range(1, MOST):
            found, notes = trial.run_over(library, words, fail_write=call, error=error, width=width, stays=stays)
            if "W" not in notes:
                break
            writes = max(writes, call)
            refused = found[0] == 1 and found[2] == b"olr: WriteFailed\n" and wanted[1].startswith(found[1]) and found[1] != wanted[1]
            holds = found == wanted if error == errno.EINTR else refused
            trial.expect(holds, f"{' '.join(words)}: write {call} {how(width, error)}", found)
    return writes


def short_reads(trial, library, words):
    """Ends a file at each read, which gives no byte then: the answer is the one to the shorter file."""
    for call in range(1, MOST):
        found, notes = trial.run_over(library, words, fail_read=call, error=0, stays=1, width=WIDTH)
        if not any(letter.isupper() for letter in notes):
            break
        with tempfile.TemporaryDirectory() as folder:
            files = {descriptor: of_descriptor(words, descriptor)[0] for descriptor in FILES_READ}
            for name in set(files.values()):
                data = (trial.folder / name).read_bytes()
                reads = sum(notes.count(str(descriptor)) for descriptor, read in files.items() if read == name)
                (pathlib.Path(folder) / name).write_bytes(data[: WIDTH * reads])
            shorter = Trial(trial.program, folder)
            shorter.given = RECORDS
            wanted = shorter.run(words)
        trial.expect(found == wanted, f"{' '.join(words)}: read {call} and all behind it end the file", found)


def try_case(trial, library, words):
    """Lets each call of a case fail."""
    trial.given = RECORDS
    wanted, _ = trial.run_over(library, words)
    trial.need(wanted[0] == 0 and wanted[1] and not wanted[2], f"{' '.join(words)}: devices that don't fail", wanted)
    for width in (1, 7):
        found, _ = trial.run_over(library, words, width=width)
        trial.expect(found == wanted, f"{' '.join(words)}: {width} bytes a call", found)
    reads = fail_reads(trial, library, words, wanted)
    writes = fail_writes(trial, library, words, wanted)
    files = sum(word.startswith("town.") for word in words)
    if reads < files or writes == 0:
        trial.fail(f"{' '.join(words)}: {reads} reads of {files} files and {writes} writes were seen")
    if reads:
        short_reads(trial, library, words)
    trial.summary = f"{' '.join(words)}: {reads} reads and {writes} writes failed in turn"


def make_cases(folder):
    """Writes the files of a small town and the records into a folder, and gives the cases."""
    write_town(folder)
    (pathlib.Path(folder) / RECORDS).write_bytes(INPUT)
    library = build(folder, "devices.c")
    return [(library, words) for words in CASES]


if __name__ == "__main__":
    main(__doc__, "olr", try_case, make_cases)
