#!/usr/bin/env python3
"""Runs the built program on mutated command lines, references and files, and tests every answer.

    attacks/fuzz.py --program crates/olr/out/olr [--other PATH] [--runs 50000] [--seed 1] [--jobs 2] [--keep FOLDER]

A case is one of the conformance suite (which takes Python 3.11) or a drawn map with a reference along its lines, with no change to six.
If its output ends with a cursor, the case is often run once more behind this cursor, as it is or changed. Some cases ask for places in
place of matchings, some why there are none, and some are made a batch, with records like its reference. What an answer to `why` says
would help is tried: the first matching has to be the one that it names.

A run has to answer within a time and a limit of memory, with status 0 and nothing on the standard error; or with status 1, one fault line
and no output; or with status 2 and no output. With another program of the same command line (--other), both have to give the same status,
output and fault line; only the texts of help and of the parser may differ. Now and then the records of a map that was accepted are
shuffled, and the output has to stay the same.

The last lines say how many runs gave which status, so that one sees how far the mutations reached. The status is 0 if nothing was found.
With --keep what was found is written there, a folder each, with as few records and words as show it.
"""

import argparse
import collections
import json
import multiprocessing
import os
import pathlib
import random
import re
import resource
import signal
import subprocess
import sys
import tempfile

import drawn
import mutations

TOP = pathlib.Path(__file__).resolve().parent.parent
SUITE = TOP / "crates" / "olr_conformance" / "data"
MIB = 1 << 20
MOST_OUTPUT = 64 * MIB
NO_MEMORY = (1, b"", b"olr: NoMemory\n")
FILE = "(nodes|lines|bans)"
FAULTS = f"""TooLong|NotBase64|Empty|BadVersion [0-7]|OtherKind (Area|GeoCoordinate)|PoiWithAccess|BadLength \\d+|TooManyPoints \\d+
|OffsetFlags|OutOfRange \\d+|Header {FILE}|TooMany {FILE}|Shape {FILE} \\d+|Field {FILE} \\d+ \\d+|Duplicate {FILE} \\d+|UnknownNode \\d+
|ZeroLength \\d+|Degenerate \\d+|UnknownLine \\d+|NotAdjacent \\d+|ReadFailed {FILE}|OpenFailed ({FILE}|input)|NoMemory|WriteFailed|BadCursor
|CursorOfOther|CursorNotHere|TooManyCandidates \\d+|BadTolerance [a-z]+|BadPage \\d+
|BadNumber (apart|within|look|most|nearest)"""
FAULT_LINE = re.compile(("olr: (" + FAULTS.replace("\n", "") + ")\n").encode())


def suite_cases():
    """The words and files of the cases of the conformance suite."""
    import tomllib

    cases = []
    for path in sorted(SUITE.glob("*.toml")):
        with open(path, "rb") as file:
            suite = tomllib.load(file)
        for case in suite["case"]:
            words = case.get("words", suite.get("words", []))
            files = {**suite.get("files", {}), **case.get("files", {})}
            files = {name: text.encode() for name, text in files.items()}
            if words and "\0" not in "".join(words) and sum(map(len, files.values())) < 20_000:
                cases.append((words, files))
    return cases


def may_be_endless(words):
    """Whether a run may have no end in practice: it asks for all pages, or looks at a hundred thousand matchings or more."""
    return "--all" in words or re.search(r"--look[ =]\+?0*[1-9]\d{5}", " ".join(words)) is not None


def is_plain(name):
    return re.fullmatch(r"[\w.-]+", name) is not None


class Runner:
    """Runs programs in a folder, each within a time."""

    def __init__(self, folder, seconds):
        self.folder, self.seconds, self.written = pathlib.Path(folder), seconds, {}

    def write(self, files):
        for name in [name for name in self.written if name not in files]:
            (self.folder / name).unlink()
            del self.written[name]
        for name, data in files.items():
            if is_plain(name) and self.written.get(name) != data:
                (self.folder / name).write_bytes(data)
                self.written[name] = data

    def run(self, program, words):
        """The status, output and errors; a status of "time" if it took too long, and below 0 if a signal ended it. All pages of a list
        may be more than can be made, written or kept: that is the status "endless"."""
        is_long = may_be_endless(words)
        seconds = min(self.seconds, 5) if is_long else self.seconds
        with open(self.folder / ".output", "w+b") as output, open(self.folder / ".errors", "w+b") as errors:
            how = {"cwd": self.folder, "stdout": output, "stderr": errors, "timeout": seconds}
            given = self.folder / mutations.RECORDS if mutations.RECORDS in self.written else os.devnull
            try:
                with open(given, "rb") as records:
                    status = subprocess.run([program, *words], stdin=records, **how).returncode
            except subprocess.TimeoutExpired:
                status = "time"
            if status in ("time", -signal.SIGXFSZ):
                return "endless" if is_long else status, b"", b""
            output.seek(0)
            errors.seek(0)
            found = status, output.read(), errors.read()
        return ("endless", b"", b"") if is_long and found == NO_MEMORY else found


def is_help(found):
    return found[0] == 0 and found[1] and not found[1].startswith((b"line ", b"point", b"matching ", b"place ", b"looked ", b"end\n", b"{"))


def flaw_of(found, may_be_empty):
    """What is wrong with an answer by itself, or None."""
    status, output, errors = found
    if status == "endless":
        return None
    if status == 0:
        ends = output.endswith(b"\n") or (may_be_empty and not output)
        return "errors at status 0" if errors else None if ends else "the output has no end"
    if status == 1:
        if output:
            return "an output at status 1"
        return None if FAULT_LINE.fullmatch(errors) else "no fault line"
    if status == 2:
        return "an output at status 2" if output else None if errors else "nothing on the standard error"
    return f"status {status}"


def difference_of(found, other):
    """What two programs answer differently, or None."""
    if "endless" in (found[0], other[0]):
        return None
    if {found[0], other[0]} <= {0, 2} and (is_help(found) or is_help(other)):
        return None  # which words ask for help is the parser's
    if found[0] != other[0]:
        return f"status {found[0]} and {other[0]}"
    if found[0] == 2:
        return None
    if found[1] != other[1]:
        return "other output"
    return None if found[2] == other[2] else "other fault line"


def verdict_of(output):
    """The word of the verdict in an answer to `why`, or None."""
    found = re.search(rb'(?:\nverdict |"word":")(crowded|point|leg|chain|match)\b', output)
    return found and found.group(1).decode()


def remedies_of(output):
    """The remedies in an answer to `why`: the name of each, its value, and the cursor of its matching, None where there is none."""
    if output.startswith(b"{"):
        return [(one["option"], one["value"], one["matching"]) for one in json.loads(output)["remedies"]]
    rows = re.findall(r"^try (?:--(\w+) (\d+)|without-bans) (?:matching (\S+)|end)$", output.decode(), re.MULTILINE)
    return [(name or "without-bans", value or None, cursor or None) for name, value, cursor in rows]


class Fuzzer:
    def __init__(self, chosen, seed, folder):
        self.chosen, self.draws = chosen, random.Random(seed)
        self.runner = Runner(folder, chosen.most_seconds)
        self.cases = suite_cases()
        self.counts, self.found = collections.Counter(), []

    def flaw(self, words, files):
        """What is wrong with the program's answer to a case, or None; and the answer."""
        self.runner.write(files)
        found = self.runner.run(self.chosen.program, words)
        flaw = flaw_of(found, "batch" in words)
        if not flaw and self.chosen.other:
            flaw = difference_of(found, self.runner.run(self.chosen.other, words))
        return flaw, found

    def shuffled_flaw(self, words, files, found):
        """What changes if the records of the files are shuffled: nothing may."""
        other = dict(files)
        for option in ("--nodes", "--lines", "--bans"):
            name = mutations.file_named(words, option)
            if name in other and not re.search(rb'["\r]', other[name]):
                header, *records = [line for line in other[name].split(b"\n") if line]
                self.draws.shuffle(records)
                other[name] = b"\n".join([header, *records])
        self.runner.write(other)
        return None if self.runner.run(self.chosen.program, words) == found else "another answer to shuffled records"

    def remedy_flaw(self, words, files, found):
        """What is wrong with a remedy of an answer to `why`: the first matching with it has to be the one that is named."""
        remedies = remedies_of(found[1])
        if not remedies:
            return None
        option, value, matching = self.draws.choice(remedies)
        changed = mutations.with_remedy(words, option, value)
        if changed is None:
            return None
        self.counts["remedies"] += 1
        self.runner.write(files)
        first = self.runner.run(self.chosen.program, changed)
        beginning = f"matching {matching}\n" if matching else "end\n"
        return None if first[0] == 0 and first[1].startswith(beginning.encode()) else f"another first matching with {option} {value}"

    def count(self, found):
        status, output, errors = found
        self.counts[f"status {status}"] += 1
        if status == 1:
            self.counts["fault " + " ".join(errors.decode(errors="replace").split()[1:2])] += 1
        if status == 0:
            kind = "help" if is_help(found) else "show" if output.startswith((b"line ", b"point-along")) else None
            kind = kind or (f"why, {verdict_of(output)}" if output.startswith((b"point 1 ", b'{"legs"')) and verdict_of(output) else None)
            kind = kind or ("candidates" if output.startswith(b"point ") else "batch" if output.startswith(b'{"answer"') else None)
            kind = kind or ("places" if output.startswith((b"place ", b"looked ", b'{"looked"')) else None)
            empty = output in (b"end\n", b'{"matchings":[],"next":null}\n')
            self.counts["output " + (kind or ("no matching" if empty else "matchings"))] += 1

    def case(self):
        words, files = drawn.drawn_case(self.draws) if self.draws.random() < 0.5 else self.draws.choice(self.cases)
        if words[:1] in (["match"], ["candidates"]) and len(words) > 1:
            how = self.draws.random()
            if how < 0.25 and words[0] == "match":
                words = mutations.as_places(words, self.draws)
            elif how > 0.75:
                words = mutations.as_why(words, self.draws)
        for _ in range(self.draws.choice([0, 1, 1, 1, 2, 2, 3, 6])):
            words, files = mutations.mutated(words, files, self.draws)
        if words[:1] in (["match"], ["candidates"], ["places"], ["why"]) and len(words) > 1 and self.draws.random() < 0.2:
            words, files = mutations.as_batch(words, files, self.draws)
        return [word.replace("\0", "") for word in words], files

    def next_case(self, words, found):
        """The same case behind the cursor at the end of its output, or None."""
        last = re.search(rb'(?:more |"next":")([0-9:.@a-f]+)"?}?\n$', found[1])
        if found[0] != 0 or not last or self.draws.random() < 0.3:
            return None
        cursor = last.group(1).decode()
        if self.draws.random() < 0.4:
            cursor = mutations.change_cursor(cursor, self.draws).replace("\0", "")
        if words[:1] == ["places"]:
            words = mutations.as_match(words)
        return mutations.with_option([word for word in words if word != "--all"], "--after", cursor)

    def step(self):
        """One case, and perhaps the pages behind it. Answers how many runs these were."""
        words, files = self.case()
        for runs in range(1, 6):
            flaw, found = self.flaw(words, files)
            self.count(found)
            if not flaw and found[0] == 0 and self.draws.random() < 0.05:
                flaw = self.shuffled_flaw(words, files, found)
                self.counts["shuffled"] += 1
            if not flaw and found[0] == 0 and words[:1] == ["why"] and self.draws.random() < 0.5:
                flaw = self.remedy_flaw(words, files, found)
            if flaw:
                self.keep(flaw, words, files)
            words = self.next_case(words, found)
            if words is None or flaw:
                return runs
        return runs

    def keep(self, flaw, words, files):
        if flaw.startswith(("another answer", "another first matching")):
            self.found.append((flaw, words, files))
            return
        self.found.append((flaw, *self.reduced(flaw, words, files)))

    def reduced(self, flaw, words, files):
        """The same flaw with fewer records and words, as far as leaving out one after the other shows it."""
        files = {name: data for name, data in files.items() if name in (*words, mutations.RECORDS) and is_plain(name)}
        for name in list(files):
            lines, at = files[name].split(b"\n"), 0
            while at < len(lines):
                fewer = {**files, name: b"\n".join(lines[:at] + lines[at + 1 :])}
                if self.flaw(words, fewer)[0] == flaw:
                    files = fewer
                    del lines[at]
                else:
                    at += 1
        at = 0
        while at < len(words):
            if self.flaw(words[:at] + words[at + 1 :], files)[0] == flaw:
                words = words[:at] + words[at + 1 :]
            else:
                at += 1
        return words, files


def work(chosen, seed, runs):
    """The counts and what was found, of so many runs."""
    limit = chosen.most_mebibytes * MIB
    resource.setrlimit(resource.RLIMIT_AS, (limit, limit))
    resource.setrlimit(resource.RLIMIT_FSIZE, (MOST_OUTPUT, MOST_OUTPUT))
    resource.setrlimit(resource.RLIMIT_CORE, (0, 0))
    with tempfile.TemporaryDirectory() as folder:
        fuzzer = Fuzzer(chosen, seed, folder)
        done = 0
        while done < runs:
            done += fuzzer.step()
        return done, fuzzer.counts, fuzzer.found


def kept(folder, number, flaw, words, files):
    place = pathlib.Path(folder) / str(number)
    place.mkdir(parents=True, exist_ok=True)
    (place / "words.json").write_text(json.dumps({"flaw": flaw, "words": words}, ensure_ascii=False, indent=1) + "\n")
    for name, data in files.items():
        (place / name).write_bytes(data)


def report(results, chosen):
    """Prints what all workers counted and found. The status."""
    counts, found = collections.Counter(), []
    for _, some_counts, some_found in results:
        counts.update(some_counts)
        found += some_found
    print(f"{sum(done for done, _, _ in results)} runs, seed {chosen.seed}" + (", beside another program" if chosen.other else ""))
    for name, count in sorted(counts.items(), key=lambda item: (item[0].split()[0] != "status", item[0].split()[0], -item[1])):
        print(f"{count:8} {name}")
    for number, (flaw, words, files) in enumerate(found, 1):
        print(f"FOUND {flaw}: {' '.join(words)!r}")
        if chosen.keep:
            kept(chosen.keep, number, flaw, words, files)
    print(f"{len(found)} answers were wrong")
    return 1 if found else 0


def main():
    parser = argparse.ArgumentParser(description=__doc__, formatter_class=argparse.RawDescriptionHelpFormatter)
    parser.add_argument("--program", required=True, help="the built program")
    parser.add_argument("--other", help="another program with the same command line")
    parser.add_argument("--runs", type=int, default=50_000)
    parser.add_argument("--seed", type=int, default=1)
    parser.add_argument("--jobs", type=int, default=2, help="how many run at once")
    parser.add_argument("--most-seconds", type=int, default=20, help="a run that takes longer is a finding")
    parser.add_argument("--most-mebibytes", type=int, default=1024, help="the address space of a run")
    parser.add_argument("--keep", help="a folder for the cases of what was found")
    chosen = parser.parse_args()
    chosen.program = os.path.abspath(chosen.program)
    chosen.other = chosen.other and os.path.abspath(chosen.other)
    parts = [(chosen, chosen.seed * 1000 + part, chosen.runs // chosen.jobs) for part in range(chosen.jobs)]
    with multiprocessing.Pool(chosen.jobs) as pool:
        return report(pool.starmap(work, parts), chosen)


if __name__ == "__main__":
    sys.exit(main())
