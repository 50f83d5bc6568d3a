#!/usr/bin/env python3
"""Refuses each allocation of runs of `olr` in turn, and compares what the program does with its answer when memory suffices.

    attacks/refused_memory.py [--program PATH..]

Each case is run with ample memory first, and has to give the status and output below. Then, for each of its allocations, it is run with this one
refused, and once more with this one and all behind it refused. Each of these runs has to give the same bytes and status again, or `NoMemory`: status
1, its line on the standard error, and nothing on the standard output. It needs `cc`, Linux and glibc.
"""

import json
import pathlib

from trials import NO_MEMORY, build, main, write_town

LINE = "CwAAAAAAABtoAQBkAAAbGA=="
THREE = "CwAAAAAAABtoAAAyAAAbaAAAMgAAGxg="
POINT = "KwAAAAAAAFtoAQBkAABbWEA="
EXAMPLE = "CwRbWyNG9RpsCQCb/jsbtAT/6/+jK1lE"
TOWN = "CwVGnSN2zhvHCgDX/tIzAw=="
FIRST = "0:1.1@4a35932b9e9aca4b3ea1d544318be7d42d37471e2fc4bd91ae5ceba203973afa"
HEADER = "id,from,to,class,form,length,shape\n"

FILES = {
    "one.nodes": "id,lon,lat\n1,0,0\n2,1000,0\n",
    "one.lines": HEADER + "7,1,2,3,3,1113,\n",
    "four.nodes": "id,lon,lat\n1,0,0\n2,0,5\n3,500,0\n4,1000,0\n5,1000,-5\n",
    "four.lines": HEADER + "11,1,3,3,3,557,\n12,2,3,3,3,557,\n13,3,4,3,3,557,\n14,3,5,3,3,557,\n",
    "two.nodes": "id,lon,lat\n1,-1000,0\n2,2000,0\n",
    "two.lines": HEADER + "7,1,2,3,3,3340,\n8,2,1,3,3,3340,\n",
    "bans": "from,to\n12,14\n",
    "zero.lines": HEADER + "7,1,2,3,3,0,\n",
    "shape.lines": HEADER + "7,1,2,3,3,1113,500 0;500 0\n",
    "unknown.lines": HEADER + "7,9,2,3,3,1113,\n",
    "short.lines": HEADER + "7,1,2,3,3,1113\n",
    "class.lines": HEADER + "7,1,2,8,3,1113,\n",
    "empty": "",
    "lon.nodes": "id,lon,lat\n1,0,0\n2,180000001,0\n",
    "twice.nodes": "id,lon,lat\n1,0,0\n1,1000,0\n",
    "many.nodes": "id,lon,lat\n" + "".join(f"{number},{number},0\n" for number in range(1, 100_002)),
    "twice.lines": HEADER + "7,1,2,3,3,1113,\n8,1,2,3,3,1113,\n7,1,2,3,3,1113,\n",
    "crowd.lines": HEADER + "".join(f"{number},1,2,3,3,1113,\n" for number in range(1, 66)),
    "pairs.bans": "from;to\n",
    "short.bans": "from,to\n12\n",
    "zero.bans": "from,to\n12,0\n",
    "twice.bans": "from,to\n12,14\n11,13\n12,14\n",
    "unknown.bans": "from,to\n12,15\n",
    "apart.bans": "from,to\n13,12\n",
    "quoted.nodes": 'id,"lon",lat\r\n\r\n1,"0",0\r\n"2",1000,"0"',
    "all.bans": "from,to\n11,13\n11,14\n12,13\n12,14\n",
    "low.lines": HEADER + "7,1,2,5,3,1113,\n",
    "spread.nodes": "id,lon,lat\n1,0,0\n2,1000,0\n3,0,400\n4,1000,400\n",
    "spread.lines": HEADER + "".join(f"{number},{'1,2' if number <= 60 else '3,4'},3,3,1113,\n" for number in range(1, 71)),
}


def on(name, *words):
    """The words for a map of files of this name."""
    return ["--nodes", f"{name}.nodes", "--lines", f"{name}.lines", *words]


# The greatest values of tolerances: no greater ones are tried.
WIDE = ("--lowest", "7", "--bearing", "16", "--slack", "10000", "--percent", "100")
# The words of each case, the status, and how the output, or else the line on the standard error, begins.
CASES = [
    (["show", EXAMPLE], 0, "line 3 points\n1 6126820 49608518 "),
    (["show", POINT], 0, "point-along-line 2 points\n"),
    (["show", "*"], 1, "olr: NotBase64\n"),
    (["candidates", LINE, *on("two", "--bearing", "16")], 0, "point 1 candidates 2\n1 line 7 at 1113 penalty 0"),
    (["match", LINE, *on("four", "--radius", "10", "--page", "2")], 0, "matching 0:1.1\npoint 1 line 11 at 0 penalty 0\n"),
    (["match", LINE, *on("four", "--radius", "10", "--page", "2", "--all")], 0, "matching 0:1.1\npoint 1 line 11 at 0 penalty 0\n"),
    (["match", LINE, *on("four", "--radius", "10", "--page", "2", "--all", "--format", "json")], 0, '{"matchings":[{"cursor":"0:1.1",'),
    (["match", LINE, *on("four", "--radius", "10", "--bans", "bans")], 0, "matching 0:1.1\npoint 1 line 11 at 0 penalty 0\n"),
    (["match", LINE, *on("four", "--radius", "10", "--after", "5:1.2")], 0, "matching 5:2.1\n"),
    (["match", LINE, *on("four", "--radius", "10", "--after", "6:1.2")], 1, "olr: CursorNotHere\n"),
    (["match", LINE, *on("four", "--after", "0:1.1@" + 64 * "0")], 1, "olr: CursorOfOther\n"),
    (["match", THREE, *on("one", "--all")], 0, "matching 0:1.1.1\npoint 1 line 7 at 0 penalty 0\npoint 2 line 7 at 556 penalty 0\n"),
    (["match", POINT, *on("one")], 0, "matching 0:1.1\n"),
    (["match", TOWN, *on("town", "--bans", "town.bans", "--page", "1", "--bearing", "16")], 0, "matching 64:1.2\n"),
    (["match", LINE, "--nodes", "one.nodes", "--lines", "zero.lines"], 1, "olr: ZeroLength 1\n"),
    (["match", LINE, "--nodes", "one.nodes", "--lines", "shape.lines"], 1, "olr: Degenerate 1\n"),
    (["match", LINE, "--nodes", "one.nodes", "--lines", "unknown.lines"], 1, "olr: UnknownNode 1\n"),
    (["match", LINE, "--nodes", "one.nodes", "--lines", "short.lines"], 1, "olr: Shape lines 1\n"),
    (["match", LINE, "--nodes", "one.nodes", "--lines", "class.lines"], 1, "olr: Field lines 1 4\n"),
    (["match", LINE, "--nodes", "empty", "--lines", "one.lines"], 1, "olr: Header nodes\n"),
    (["candidates", LINE, *on("two", "--bans", "town.bans")], 1, "olr: UnknownLine 1\n"),
    (["candidates", TOWN, *on("town", "--bans", "town.bans")], 0, "point 1 candidates 2\n"),
    (["candidates", LINE, "--nodes", "one.nodes", "--lines", "crowd.lines"], 1, "olr: TooManyCandidates 1\n"),
    (["match", LINE, "--nodes", "one.nodes", "--lines", "crowd.lines"], 1, "olr: TooManyCandidates 1\n"),
    (["match", LINE, "--nodes", "quoted.nodes", "--lines", "one.lines"], 0, "matching 0:1.1\n"),
    (["match", LINE, *on("four", "--radius", "10", "--bans", "bans", "--page", "1", "--all")], 0, "matching 0:1.1\npoint 1 line 11 at 0 penalty 0\n"),
    (["match", LINE, *on("four", "--radius", "10", "--bans", "bans", "--page", "1", "--all", "--format", "json")], 0, '{"matchings":[{"cursor":"0:1.1",'),
    (["match", LINE, *on("four", "--radius", "10", "--page", "1", "--format", "json", "--after", FIRST)], 0, '{"matchings":[{"cursor":"5:1.2",'),
    (["match", POINT, *on("one", "--format", "json")], 0, '{"matchings":[{"cursor":"0:1.1","earliest":[7,'),
    (["match", TOWN, *on("town", "--format", "json", "--all")], 0, '{"matchings":[{"cursor":"64:1.2",'),
    (["match", LINE, *on("one", "--lowest", "1", "--radius", "1", "--bearing", "0", "--format", "json", "--slack", "0", "--percent", "0")], 0, '{"matchings":['),
    (["match", LINE, *on("four", "--after", "0:1")], 1, "olr: BadCursor\n"),
    (["match", LINE, "--nodes", "lon.nodes", "--lines", "one.lines"], 1, "olr: Field nodes 2 2\n"),
    (["match", LINE, "--nodes", "twice.nodes", "--lines", "one.lines"], 1, "olr: Duplicate nodes 2\n"),
    (["match", LINE, "--nodes", "many.nodes", "--lines", "one.lines"], 1, "olr: TooMany nodes\n"),
    (["match", LINE, "--nodes", "one.lines", "--lines", "one.lines"], 1, "olr: Header nodes\n"),
    (["match", LINE, "--nodes", "one.nodes", "--lines", "twice.lines"], 1, "olr: Duplicate lines 3\n"),
    (["match", LINE, "--nodes", "one.nodes", "--lines", "empty"], 1, "olr: Header lines\n"),
    (["match", LINE, *on("four", "--bans", "pairs.bans")], 1, "olr: Header bans\n"),
    (["match", LINE, *on("four", "--bans", "short.bans")], 1, "olr: Shape bans 1\n"),
    (["match", LINE, *on("four", "--bans", "zero.bans")], 1, "olr: Field bans 1 2\n"),
    (["match", LINE, *on("four", "--bans", "twice.bans")], 1, "olr: Duplicate bans 3\n"),
    (["match", LINE, *on("four", "--bans", "unknown.bans")], 1, "olr: UnknownLine 1\n"),
    (["match", LINE, *on("four", "--bans", "apart.bans")], 1, "olr: NotAdjacent 1\n"),
    (["match", LINE, "--nodes", "one.nodes", "--lines", "nowhere"], 1, "olr: OpenFailed lines\n"),
    (["match", LINE, *on("one", "--radius", "0")], 1, "olr: BadTolerance radius\n"),
    (["match", LINE, *on("one", "--page", "0")], 1, "olr: BadPage 0\n"),
    (["match", LINE, *on("one", "--all", "--after", "0:1.1")], 2, "olr: AfterWithAll\n"),
    (["match", LINE, *on("one", "--radius", "x")], 2, "error: "),
    (["places", LINE, *on("four", "--radius", "10")], 0, "place 1 matching 0:1.1 gap 0 members 3\nouter 11@0-557 13@0-557\nplace 2 matching 10:2.2 "),
    (["places", LINE, *on("four", "--radius", "10", "--within", "9", "--format", "json")], 0, '{"looked":4,"margin":10,"next":null,"places":[{"gap":0,'),
    (["places", LINE, *on("four", "--radius", "10", "--bans", "bans", "--apart", "0", "--most", "2")], 0, "place 1 matching 0:1.1 gap 0 members 1\n"),
    (["places", POINT, *on("one", "--look", "1")], 0, "place 1 matching 0:1.1 gap 0 members 1\nearliest 7@278\nlatest 7@283\nlooked 1\n"),
    (["places", TOWN, *on("town", "--apart", "0", "--most", "1", "--format", "json")], 0, '{"looked":1,"margin":null,"next":"64:1.2","places":['),
    (["candidates", LINE, *on("one", "--detail")], 0, "point 1 candidates 1\n1 line 7 at 0 penalty 0 = distance 0 bearing 0 class 0 form 0\n"),
    (["match", LINE, *on("one", "--detail", "--format", "json")], 0, '{"matchings":[{"cost":0,"cursor":"0:1.1","inner":[[7,0,1113]],'),
    (["places", LINE, *on("four", "--radius", "10", "--order", "likely")], 0, "place 1 matching 0:1.1 gap 0 members 3 rank 1 cost 0\n"),
    (["places", TOWN, *on("town", "--order", "likely", "--detail", "--format", "json")], 0, '{"cut":false,"looked":2,"margin":7,"next":null,"places":[{"cost":798,'),
    (["candidates", LINE, *on("one", "--shape", "--format", "json")], 0, '{"points":[[{"at":0,"line":7,"penalty":0,"spot":[0,0]}],'),
    (["candidates", LINE, *on("one", "--detail", "--format", "geojson")], 0, '{"features":[{"geometry":{"coordinates":[0,0],"type":"Point"},"properties":{"at":0,'),
    (["match", POINT, *on("one", "--shape", "--format", "json")], 0, '{"matchings":[{"cursor":"0:1.1","earliest":[7,278],"latest":[7,283],'),
    (["match", LINE, *on("four", "--radius", "10", "--page", "2", "--all", "--format", "geojson")], 0, '{"features":[{"geometry":{"coordinates":[[0,0],[0.0005,0],'),
    (["match", POINT, *on("one", "--shape", "--detail", "--format", "geojson")], 0, '{"features":[{"geometry":{"coordinates":[0.000252,0],"type":"Point"},'),
    (["places", TOWN, *on("town", "--order", "likely", "--format", "geojson", "--confidence", "town.confidence")], 0, '{"cut":false,"differs":[],"features":[{'),
    (["places", TOWN, *on("town", "--order", "likely", "--format", "json", "--confidence", "one.nodes")], 1, "olr: BadConfidence\n"),
    (["places", TOWN, *on("town", "--order", "likely", "--shape", "--format", "geojson", "--part", "inner")], 0, '{"cut":false,"features":[{"geometry":{"coordinates":[['),
    (["why", LINE, *on("one", "--nearest", "1", "--shape", "--format", "json")], 0, '{"legs":[{"admits":1,"class":3,"from":110,"of":1,"pairs":[],"to":1823}],"points":[{'),
    (["match", LINE, *on("one", "--shape")], 2, "error: "),
    (["places", LINE, "--nodes", "one.nodes", "--lines", "crowd.lines"], 1, "olr: TooManyCandidates 1\n"),
    (["places", LINE, *on("one", "--most", "0")], 1, "olr: BadNumber most\n"),
    (["why", LINE, *on("four", "--bans", "all.bans", "--radius", "10", *WIDE)], 0, "point 1 candidates 2\nnear line 11 distance 0 at 0 sector 8 "),
    (["why", LINE, "--nodes", "one.nodes", "--lines", "low.lines", "--format", "json"], 0, '{"legs":[{"admits":0,"class":3,"from":110,"of":1,"pairs":[{"better":'),
    (["why", LINE, *on("spread", "--nearest", "0", "--format", "json")], 0, '{"legs":[],"points":[{"candidates":null,"nearest":[]},'),
    (["match", "--help"], 0, ""),
]
# Batches of six records, and six records for `answer`: the words, and the fault of each record with ample memory.
INPUT, QUESTIONS = "batch.records", "answer.records"
LONG = 65_537
BATCHES = [
    (["batch", "match", *on("town", "--bans", "town.bans", "--input", INPUT)], [None, None, "NotBase64", "NotText", "LongRecord", None]),
    (["batch", "candidates", *on("town")], [None, None, "NotBase64", "NotText", "LongRecord", None]),
    (["batch", "places", *on("town", "--apart", "0", "--shape")], [None, None, "NotBase64", "NotText", "LongRecord", None]),
    (["batch", "why", *on("four", "--bans", "bans", "--nearest", "1")], [None, None, "NotBase64", "NotText", "LongRecord", None]),
    (["answer", *on("town", "--bans", "town.bans")], [None, None, "NotBase64", "NotText", "LongRecord", None]),
]


def records(one, two, broken, last):
    """Six records with these texts."""
    return f"one\t{one}\n{two}\r\nbroken\t{broken}\n".encode() + b"\xff\n" + LONG * b"A" + f"\n\u00e9\t{last}".encode()


RECORDS = {
    INPUT: records(TOWN, TOWN, "*", TOWN),
    QUESTIONS: records(f"why --bearing 0 -- {TOWN}", f"why --bearing 0 -- {TOWN}", "show -- *", f"places --apart=0 --format geojson {TOWN}"),
}
# No case has as many allocations.
MOST = 100_000


def refusals(run):
    """What was refused and what came of it, for each run in which something was."""
    for allocation in range(1, MOST):
        for last, what in ((allocation, "refused"), (MOST, "and all behind it refused")):
            found, notes = run(allocation, last)
            if not notes:
                return
            yield f"allocation {allocation} {what}", found


def without_memory(line):
    """The line of a record, with NoMemory in place of its answer."""
    record = json.loads(line)
    return json.dumps({**record, "answer": None, "fault": "NoMemory"}, ensure_ascii=False, separators=(",", ":")).encode() + b"\n"


def refused_records(found, wanted, faults_of_words):
    """How many records have NoMemory in place of their answer, or None where another line differs: also where that of a fault does, but for
    one that is found behind the words of a record, which take memory."""
    lines, wanted_lines = (one[1].splitlines(keepends=True) for one in (found, wanted))
    if (found[0], found[2], len(lines)) != (0, b"", len(wanted_lines)):
        return None
    other = [(line, same) for line, same in zip(lines, wanted_lines) if line != same]
    is_refused = [line == without_memory(same) and json.loads(same)["fault"] in faults_of_words for line, same in other]
    return len(other) if all(is_refused) else None


def try_batch(trial, library, words, faults):
    """Refuses each allocation of a run over records."""

    def run(first, last):
        return trial.run_over(library, words, refuse_from=first, refuse_to=last)

    name, trial.given = " ".join(words), INPUT if words[0] == "batch" else QUESTIONS
    wanted, _ = run(0, 0)
    lines = [json.loads(line) for line in wanted[1].splitlines()]
    numbers = [line["record"] for line in lines]
    trial.need(wanted[0] == 0 and [line["fault"] for line in lines] == faults, f"{name}: with ample memory", wanted)
    trial.need(numbers == [1, 2, 3, 4, 5, 6] and [line["key"] for line in lines][::5] == ["one", "\u00e9"], f"{name}: with ample memory", wanted)
    ended = one = 0
    for what, found in refusals(run):
        count = refused_records(found, wanted, (None,) if words[0] == "batch" else (None, "NotBase64"))
        ended, one = ended + (found == NO_MEMORY), one + (count == 1)
        trial.expect(found == NO_MEMORY or (count is not None and (count <= 1 or "all behind" in what)), f"{name}: {what}", found)
    if ended == 0 or one == 0:
        trial.fail(f"{name}: the run ended {ended} times with NoMemory, and {one} times one record had it")
    trial.summary = f"{name}: {ended} times NoMemory before any record, {one} times in one record's line"


def try_request(trial, library, words, status, beginning):
    """Refuses each allocation of a request."""

    def run(first, last):
        return trial.run_over(library, words, refuse_from=first, refuse_to=last)

    name = " ".join(words)
    wanted, _ = run(0, 0)
    text = wanted[1] if status == 0 else wanted[2]
    trial.need(wanted[0] == status and text.startswith(beginning.encode()), f"{name}: with ample memory", wanted)
    runs = no_memory = same = 0
    for what, found in refusals(run):
        runs, no_memory, same = runs + 1, no_memory + (found == NO_MEMORY), same + (found == wanted)
        trial.expect(found in (wanted, NO_MEMORY), f"{name}: {what}", found)
    if runs == 0 or runs > MOST:
        trial.fail(f"{name}: memory was refused in {runs} runs")
    trial.summary = f"{name}: {no_memory} times NoMemory, {same} times the same bytes"


def make_cases(folder):
    """Writes the files of all cases into a folder, and gives the cases."""
    write_town(folder)
    for name, text in FILES.items():
        (pathlib.Path(folder) / name).write_text(text)
    library = build(folder, "refuse.c")
    for name, data in RECORDS.items():
        (pathlib.Path(folder) / name).write_bytes(data)
    return [*((try_request, library, *case) for case in CASES), *((try_batch, library, *case) for case in BATCHES)]


def try_case(trial, function, *arguments):
    """Tries a case."""
    function(trial, *arguments)


if __name__ == "__main__":
    main(__doc__, "olr", try_case, make_cases)
