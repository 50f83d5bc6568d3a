#!/usr/bin/env python3
"""Takes from the built program what a system may take: memory, room for the output, files, and the streams themselves; and gives it maps and words of
the greatest size, and one past it.

    attacks/limits.py [--program PATH..]

Address space: `match`, `places` and `why` on a map, with every limit of so many steps up to what suffices, have to give the same bytes or NoMemory,
with nothing written, in text and in JSON, with and without bans. A small stack has to suffice. All pages of a list that has no end in practice have
to end with NoMemory and nothing written; `places` that look at ten times as many matchings may take little more. Output: a full device, a closed
stream, a pipe whose reader has gone, and a limit on the size of the file have to give WriteFailed, and what was written is a beginning of the output.
Files: a folder, an empty device, a device without an end, and a process that may open no more files each have to give their fault. Sizes: files of as
many records as there may be have to give the known answer, of one record more TooMany, and a path may pass all nodes; words of as many bytes and as many words as the system hands
over have to give their fault. It needs Linux. """

import os
import pathlib
import resource
import signal
import subprocess
import sys
import tempfile

from trials import NO_MEMORY, TOP, main, write_town

MIB = 1 << 20
STEP = 1 << 16
PAGE = 1 << 12
STACK = 1 << 18
MOST_MEMORY = 1 << 28  # bytes; no run of a sweep needs as much
WRITE_FAILED = b"olr: WriteFailed\n"
TOWN = "CwVGnSN2zhvHCgDX/tIzAw=="
JSON_PAGES = ("--format", "json", "--all", "--page", "1")

# A reference, its line on a small map, and what is printed or its beginning, as docs/specification/ has them.
LINE = "CwAAAAAAABtoAQBkAAAbGA=="
NODES = ["id,lon,lat", "1,0,0", "2,1000,0"]
LINES = ["id,from,to,class,form,length,shape", "7,1,2,3,3,1113,"]
CANDIDATES = b"point 1 candidates 1\n1 line 7 at 0 penalty 0"
MATCHING = (
    b"matching 0:1.1\npoint 1 line 7 at 0 penalty 0\npoint 2 line 7 at 1113 penalty 0\nleg 1 length 1113 penalty 0\n"
    b"route 7@0-1113\nouter 7@0-1113\ninner 7@0-1113\nend\n"
)
PLACE = b"place 1 matching 0:1.1 gap 0 members 1\nouter 7@0-1113\nlooked 1\nmargin none\nverdict unique\nend\n"
WHY = (
    b"point 1 candidates 1\nnear line 7 distance 0 at 0 sector 8 class 3 form 3 penalty 0\n"
    b"point 2 candidates 1\nnear line 7 distance 0 at 1113 sector 24 class 3 form 3 penalty 0\n"
    b"leg 1 class 3 from 110 to 1823 admits 1 of 1\nverdict match\nend\n"
)
MATCHING_JSON = (
    b'{"matchings":[{"cursor":"0:1.1","inner":[[7,0,1113]],"legs":[{"length":1113,"penalty":0}],"outer":[[7,0,1113]],'
    b'"points":[{"at":0,"line":7,"penalty":0},{"at":1113,"line":7,"penalty":0}],"route":[[7,0,1113]],"total":0}],"next":null}\n'
)
GREATEST_ID = 2**53
MOST_NODES, MOST_LINES, MOST_BANS = 100_000, 200_000, 200_000
# The most bytes of a word that Linux hands to a program.
LONGEST_WORD = 131_071


def map_words(*words):
    """The words for the map of a small town."""
    return ["match", TOWN, "--nodes", "town.nodes", "--lines", "town.lines", *words]


def generated_words(folder, name, command="match"):
    """The words for a map that a script of bench/ made, and its reference."""
    reference = (pathlib.Path(folder) / name / "reference.txt").read_text().strip()
    return [command, reference, "--nodes", f"{name}/nodes.csv", "--lines", f"{name}/lines.csv"]


def begins(found):
    """Whether a program begins: with too little address space the kernel or the loader ends it before."""
    return isinstance(found[0], int) and found[0] not in (127, -signal.SIGKILL, -signal.SIGSEGV)


def least_to_begin(run):
    """The least address space, in pages, with which a program begins, or None."""
    for high in range(MIB, MOST_MEMORY, STEP):
        if begins(run(high)):
            return next(limit for limit in range(high - STEP, high + 1, PAGE) if begins(run(limit)))
    return None


def least_to_answer(run, wanted, low):
    """The least address space above another one, in steps of 64 KiB, with which a program gives an answer, or None."""
    high = low + STEP
    while run(high) != wanted:
        low, high = high, high + (high - low) * 2
        if high > MOST_MEMORY:
            return None
    while high - low > STEP:
        middle = (low + high) // 2
        low, high = (low, middle) if run(middle) == wanted else (middle, high)
    return high


def sweep(trial, name, words, steps):
    """Makes a run with each limit on the address space from what the start takes to what suffices."""

    def run(limit):
        return trial.run(words, [(resource.RLIMIT_AS, limit)])

    wanted = trial.run(words)
    trial.need(wanted[0] == 0 and wanted[1] and not wanted[2], f"{name} with ample memory", wanted)
    low = least_to_begin(run)
    high = low and least_to_answer(run, wanted, low)
    trial.need(high, f"{name} with up to {MOST_MEMORY} bytes", run(MOST_MEMORY))
    refused = 0
    for step in range(steps + 1):
        limit = low + (high - low) * step // steps
        found = run(limit)
        refused += found == NO_MEMORY
        # The stack grows within the address space. Where it can't, the system ends the program, which has written nothing.
        is_stack = limit < low + STACK and found == (-signal.SIGSEGV, b"", b"")
        trial.expect(is_stack or found in (wanted, NO_MEMORY), f"{name} with {limit} bytes", found)
    if refused == 0:
        trial.fail(f"{name}: no limit refused memory")
    trial.summary = f"{name}: {steps + 1} limits from {low} to {high} bytes, {refused} times NoMemory, else the same {len(wanted[1])} bytes"


def endless(trial, words, mebibytes):
    """Asks for all pages of a list without an end in practice, under a limit on memory."""
    found = trial.run([*words, "--all"], [(resource.RLIMIT_AS, mebibytes * MIB)])
    trial.expect(found == NO_MEMORY, f"all pages of a list without an end with {mebibytes} MiB: {words[-2:]}", found)


def held(trial, words, look, room):
    """Looks at ten times as many matchings within little more address space."""
    found = trial.run([*words, "--look", str(look)])
    trial.need(found[0] == 0 and f"\nlooked {look}\n".encode() in found[1], f"places by {look} matchings", found)

    def run(limit):
        return trial.run([*words, "--look", str(look)], [(resource.RLIMIT_AS, limit)])

    enough = least_to_answer(run, found, least_to_begin(run))
    trial.need(enough, f"places by {look} matchings with up to {MOST_MEMORY} bytes", found)
    found = trial.run([*words, "--look", str(10 * look)], [(resource.RLIMIT_AS, enough + room)])
    trial.expect(found[0] == 0 and f"\nlooked {10 * look}\n".encode() in found[1], f"places by {10 * look} matchings with {enough + room} bytes", found)
    trial.summary = f"places by {look} matchings within {enough} bytes of address space, by {10 * look} within {room} more"


def stack(trial, words):
    """Gives a small stack. The program doesn't claim how much it needs."""
    wanted = trial.run(words)
    trial.need(wanted[0] == 0 and wanted[1], "as much stack as a process has", wanted)
    found = trial.run(words, [(resource.RLIMIT_STACK, STACK)])
    trial.expect(found == wanted, f"{STACK} bytes of stack", found)


def outputs(trial, words):
    """Gives outputs that take nothing, or not all."""
    wanted = trial.run(words)
    trial.need(wanted[0] == 0 and wanted[1] and not wanted[2], "an output that takes all", wanted)
    with open("/dev/full", "wb") as full:
        found = trial.run(words, output=full)
    trial.expect(found[0] == 1 and found[2] == WRITE_FAILED, "a full device", found)
    reader, writer = os.pipe()
    os.close(reader)
    found = trial.run(words, output=writer)
    os.close(writer)
    trial.expect((found[0] == 1 and found[2] == WRITE_FAILED) or found[0] == -signal.SIGPIPE, "a pipe without a reader", found)
    found = by_shell(trial, 'exec "$0" "$@" >&-', words)
    trial.expect(found[0] == 1 and found[2] == WRITE_FAILED, "a closed output", found)
    found = by_shell(trial, 'exec "$0" "$@" 2>&-', words)
    trial.expect(found == wanted, "a closed stream for errors", found)
    whole = wanted[1]
    for size in sorted({0, 1, len(whole) // 2, len(whole) - 1, len(whole)}):
        with tempfile.TemporaryFile() as limited:
            found = by_shell(trial, 'trap "" XFSZ; exec "$0" "$@"', words, limits=[(resource.RLIMIT_FSIZE, size)], output=limited)
            limited.seek(0)
            written = limited.read()
        ended = (0, b"") if size == len(whole) else (1, WRITE_FAILED)
        trial.expect((found[0], found[2]) == ended and written == whole[:size], f"{size} bytes of room, {len(written)} written", found)
    trial.summary = f"outputs that take nothing or not all of {len(whole)} bytes: WriteFailed, and a beginning of the output"


def by_shell(trial, line, words, **how):
    """A run that a line of the shell begins, which has the program as `$0` and the words as `$@`."""
    return trial.run(["-c", line, trial.program, *words], executable="/bin/sh", **how)


def texts(trial):
    """Gives outputs that don't take a text of help or the line of a fault: the status stays, or is that of a failure."""
    with open("/dev/full", "wb") as full:
        found = trial.run(["match", "--help"], output=full)
        trial.expect(found[0] == 1, "help into a full device", found)
        found = trial.run(["show", "*"], stderr=full)
        trial.expect(found[:2] == (1, b""), "a fault into a full device", found)
    found = by_shell(trial, 'exec "$0" "$@" 2>&-', ["show", "*"])
    trial.expect(found == (1, b"", b""), "a fault into a closed stream", found)


def files(trial, words):
    """Gives files that aren't files, and too few of them."""
    for option in ("nodes", "lines", "bans"):
        for path, faults in (
            ("/", [f"ReadFailed {option}", f"OpenFailed {option}"]),
            ("/dev/null", [f"Header {option}"]),
            ("/dev/zero", ["NoMemory", f"Header {option}"]),
            ("/proc/self/mem", [f"ReadFailed {option}"]),
            ("/nowhere", [f"OpenFailed {option}"]),
            ("", [f"OpenFailed {option}"]),
            ("x" * 5000, [f"OpenFailed {option}"]),
        ):
            changed = list(words)
            changed[changed.index(f"--{option}") + 1] = path
            found = trial.run(changed, [(resource.RLIMIT_AS, 256 * MIB)])
            lines = [f"olr: {fault}\n".encode() for fault in faults]
            trial.expect(found[:2] == (1, b"") and found[2] in lines, f"{path[:20]} as {option}", found)
    for number, file in ((3, "nodes"), (4, "lines"), (5, "bans")):
        found = trial.run(words, [(resource.RLIMIT_NOFILE, number)])
        starts = number > 3 or found[0] != 127  # the loader may need a descriptor itself
        trial.expect(not starts or found == (1, b"", f"olr: OpenFailed {file}\n".encode()), f"{number} open files", found)
    trial.summary = "files that aren't files, and too few of them: each has its fault"


def full(trial, words, wanted):
    """Gives files of the greatest size, of which the answer or its beginning is known."""
    paths = {"--nodes": "full.nodes", "--lines": "full.lines", "--bans": "full.bans"}
    found = trial.run([words[0], LINE, *(word for pair in paths.items() for word in pair), *words[1:]])
    trial.expect(found[0] == 0 and found[1].startswith(wanted) and not found[2], f"files of the greatest size: {' '.join(words)}", found)


def past(trial, name):
    """Gives files of the greatest size, of which one has a record more."""
    paths = {f"--{file}": f"{'past' if file == name else 'full'}.{file}" for file in ("nodes", "lines", "bans")}
    for words in (["match"], ["match", *JSON_PAGES], ["candidates"], ["places"], ["why"]):
        found = trial.run([words[0], LINE, *(word for pair in paths.items() for word in pair), *words[1:]])
        trial.expect(found == (1, b"", f"olr: TooMany {name}\n".encode()), f"a record too many in the {name}: {' '.join(words)}", found)


def chain(trial):
    """Asks for a path that passes all nodes there may be."""
    # From (0, 0) to (100000, 0), which is 12 cm behind the last node.
    found = trial.run(["match", "CwAAAAAAABtoqicQAAAbGA==", "--nodes", "chain.nodes", "--lines", "chain.lines", "--radius", "1", "--page", "1"])
    route = " ".join(f"{number}@0-1" for number in range(1, MOST_NODES))
    wanted = (
        f"matching 12:1.1\npoint 1 line 1 at 0 penalty 0\npoint 2 line {MOST_NODES - 1} at 1 penalty 12\n"
        f"leg 1 length {MOST_NODES - 1} penalty 0\nroute {route}\nouter {route}\ninner {route}\nmore 12:1.1@"
    )
    trial.expect(found[0] == 0 and found[1].startswith(wanted.encode()), "a path that passes all nodes", (found[0], found[1][:300], found[2]))
    trial.summary = f"a path that passes {MOST_NODES:,} nodes"


def long_words(trial):
    """Gives words of the greatest size and in great number."""
    word = "A" * LONGEST_WORD
    for words, status, line in (
        (["show", word], 1, b"olr: TooLong\n"),
        (["match", LINE, "--nodes", word, "--lines", "town.lines"], 1, b"olr: OpenFailed nodes\n"),
        (map_words("--after", word), 1, b"olr: BadCursor\n"),
        (map_words("--page", word), 2, b"error: "),
        ([word], 2, b"error: "),
        (["show"] + ["A"] * 60_000, 2, b"error: "),
    ):
        found = trial.run(words)
        what = f"words of up to {len(word)} bytes: {' '.join(words)[:60]}"
        trial.expect(found[:2] == (status, b"") and found[2].startswith(line) and (status == 2 or found[2] == line), what, found)
    trial.summary = "the longest and the most words: each has its fault"


def write_full(folder):
    """Writes files of as many records as there may be, with the greatest ids, lengths and shapes, and files of one record more."""
    far = [f"{number},{number},80000000" for number in range(3, MOST_NODES)] + [f"{GREATEST_ID},180000000,80000000"]
    shape = ";".join(f"{number} -80000000" for number in range(64))
    there = [f"{number},3,4,7,7,10000000," for number in range(8, 508)]
    back = [f"{number},4,3,7,7,10000000," for number in range(508, 908)]
    rest = [f"{number},3,4,7,7,10000000,{shape if number % 1000 == 0 else ''}" for number in range(908, MOST_LINES + 6)]
    rest.append(f"{GREATEST_ID},{GREATEST_ID},{MOST_NODES - 1},0,0,1,")
    bans = [f"{first},{second}" for first in range(8, 508) for second in range(508, 908)]
    records = {
        "nodes": (NODES + far, f"{MOST_NODES + 1},0,1", MOST_NODES),
        "lines": (LINES + there + back + rest, f"{MOST_LINES + 7},3,4,7,7,1,", MOST_LINES),
        "bans": (["from,to"] + bans, "508,8", MOST_BANS),
    }
    for name, (rows, further, most) in records.items():
        assert len(rows) == most + 1
        (pathlib.Path(folder) / f"full.{name}").write_text("\n".join([*rows, ""]))
        (pathlib.Path(folder) / f"past.{name}").write_text("\n".join([*rows, further, ""]))


def write_chain(folder):
    """Writes a map of as many nodes as there may be: they lie in a row, 1 microdegree apart, and a line of 1 dm goes from each to the next."""
    nodes = [NODES[0], *(f"{number},{number - 1},0" for number in range(1, MOST_NODES + 1))]
    lines = [LINES[0], *(f"{number},{number},{number + 1},3,3,1," for number in range(1, MOST_NODES))]
    for name, rows in (("nodes", nodes), ("lines", lines)):
        (pathlib.Path(folder) / f"chain.{name}").write_text("\n".join([*rows, ""]))


def make_cases(folder):
    """Writes the maps into a folder, and gives the cases, those first that take long. What cases share is written here, since they run side by side."""
    write_town(folder)
    write_full(folder)
    write_chain(folder)
    for script, *words in (
        ("generate_dense.py", "--out", f"{folder}/dense", "--points", "32"),
        ("generate_dense.py", "--out", f"{folder}/short"),
        ("generate_map.py", "--out", f"{folder}/large", "--nodes", "5000", "--lines", "10000"),
        ("generate_bans.py", "--map", f"{folder}/large", "--bans", "1000"),
    ):
        subprocess.run([sys.executable, TOP / "bench" / script, *words], check=True, stdout=subprocess.DEVNULL)
    dense, large, town = generated_words(folder, "dense"), generated_words(folder, "large"), map_words("--bans", "town.bans")
    places = [*generated_words(folder, "dense", "places"), "--most", "100", "--apart", "8000"]
    why = [*generated_words(folder, "large", "why"), "--radius", "1000", "--nearest", "64"]
    return [
        *((endless, [*dense, "--format", form], mebibytes) for mebibytes in (256, 64) for form in ("text", "json")),
        (sweep, "a page of 1000 of 63^31 matchings", [*dense, "--page", "1000"], 100),
        (sweep, "such a page as JSON", [*dense, "--page", "1000", "--format", "json"], 100),
        (sweep, "a map of 10,000 lines", large, 100),
        (sweep, "such a map, with bans, as JSON", [*large, "--bans", "large/bans.csv", *JSON_PAGES, "--bearing", "16"], 100),
        (sweep, "a small map", town, 25),
        (sweep, "places by 1000 of 63^31 matchings", places, 100),
        (sweep, "such places as JSON", [*places, "--format", "json"], 100),
        (sweep, "why on a map of 10,000 lines, with bans, as JSON", [*why, "--bans", "large/bans.csv", "--format", "json"], 50),
        (held, [*generated_words(folder, "short", "places"), "--apart", "30000", "--within", "14620"], 20_000, 2 * MIB),
        (stack, [*dense, "--page", "1000"]),
        (stack, [*dense, "--page", "1000", "--format", "json"]),
        (stack, town),
        (stack, [*town, "--format", "json"]),
        (stack, places),
        (stack, [*places, "--format", "json"]),
        (stack, why),
        (outputs, map_words()),
        (outputs, map_words(*JSON_PAGES)),
        (outputs, ["show", TOWN]),
        (outputs, ["candidates", *town[1:]]),
        (outputs, ["places", *town[1:]]),
        (outputs, ["places", *town[1:], "--format", "json"]),
        (outputs, ["why", *town[1:], "--bearing", "0"]),
        (texts,),
        (files, town),
        (full, ["match"], MATCHING),
        (full, ["match", *JSON_PAGES], MATCHING_JSON),
        (full, ["candidates"], CANDIDATES),
        (full, ["places"], PLACE),
        (full, ["why", "--nearest", "1"], WHY),
        *((past, name) for name in ("nodes", "lines", "bans")),
        (chain,),
        (long_words,),
    ]


def try_case(trial, function, *arguments):
    """Tries a case."""
    function(trial, *arguments)


if __name__ == "__main__":
    main(__doc__, "olr", try_case, make_cases)
