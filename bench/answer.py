#!/usr/bin/env python3
"""Measures one process of `answer`: questions that come again, memory, and instructions beside `batch`.

    bench/answer.py --program crates/olr/out/olr --map /tmp/full --input /tmp/full/messages.txt [--only again pages memory instructions]

`again`: each request of some references with numbers that no record had before, and then the same records again: the median milliseconds of a
processor that a record takes, the first time and the second. `pages`: the same of pages behind cursors, without a mark and with one, which is
compared with the fingerprint of the map. `memory`: the peak (VmHWM) of `batch` over all references, for each request, and of `answer` over as many records, which
ask for these by turns and bring numbers of their own. `instructions`: those of `batch` and of `answer` over all references, as
`valgrind --tool=callgrind` counts them, also beyond those of an empty input, which reads the map; the outputs have to be equal bytes.
"""

import argparse
import itertools
import json
import os
import pathlib
import re
import statistics
import subprocess
import sys
import tempfile
import threading

from compare import equal_bytes, table

REQUESTS = ("candidates", "match", "places", "why")


class Process:
    """One process of a program, which reads records from a pipe."""

    def __init__(self, program, words):
        self.running = subprocess.Popen([program, *words], stdin=subprocess.PIPE, stdout=subprocess.PIPE)

    def __enter__(self):
        return self

    def __exit__(self, *_):
        self.running.stdin.close()
        self.running.stdout.close()
        if self.running.wait() != 0:
            sys.exit(f"{' '.join(self.running.args)} ended with status {self.running.returncode}")

    def ask(self, text):
        """The line of a record, and the milliseconds of a processor that it took, up to where the process waits for the next one."""
        before = self.spent()
        self.running.stdin.write(text.encode() + b"\n")
        self.running.stdin.flush()
        line = self.running.stdout.readline()
        return json.loads(line), (self.spent() - before) / 1e6

    def spent(self):
        """The nanoseconds of a processor that it took until it waits."""
        folder = pathlib.Path(f"/proc/{self.running.pid}")
        while (folder / "stat").read_text().rpartition(") ")[2][0] != "S":
            pass
        return int((folder / "schedstat").read_text().split()[0])

    def peak(self, texts):
        """The peak of memory in MiB once all these records are answered."""
        data = "".join(text + "\n" for text in texts).encode()
        writer = threading.Thread(target=lambda: (self.running.stdin.write(data), self.running.stdin.flush()))
        writer.start()
        for _ in texts:
            self.running.stdout.readline()
        writer.join()
        with open(f"/proc/{self.running.pid}/status") as status:
            return int(re.search(r"VmHWM:\s*(\d+) kB", status.read()).group(1)) / 1024


def row_of(name, process, texts):
    """A row of a table: the medians of records that are new and of the same again, and that of the ratios."""
    new, again = ([process.ask(text) for text in texts] for _ in range(2))
    for text, (first, _), (second, _) in zip(texts, new, again):
        if first["fault"] or first["answer"] != second["answer"]:
            sys.exit(f"{text} has the answers {first} and {second}")
    pairs = [(first, second) for (_, first), (_, second) in zip(new, again)]
    medians = [statistics.median(times) for times in zip(*pairs)]
    return [name, str(len(pairs)), *(f"{median:.3f}" for median in medians), f"{statistics.median(first / second for first, second in pairs):.2f}"]


def again(chosen, texts):
    """Each request of each reference, with a radius and a slack that no other record has."""
    rows = [["numbers that are new", "records", "new ms", "again ms", "ratio"]]
    numbers = itertools.count()
    with Process(chosen.program, ["answer", "--map", chosen.map]) as process:
        process.ask("show -- " + texts[0])
        for request in REQUESTS:
            asked = [f"{request} --radius {70 + number % 60} --slack {100 + number} -- {text}" for text, number in zip(texts, numbers)]
            rows.append(row_of(request, process, asked))
    table(rows)


def pages(chosen, texts):
    """A page of ten matchings behind the first one of each reference that has more."""
    rows = [["cursor", "records", "new ms", "again ms", "ratio"]]
    plain, marked = [], []
    with Process(chosen.program, ["answer", "--map", chosen.map]) as process:
        for text in texts:
            cursor = process.ask(f"match --page 1 -- {text}")[0]["answer"]["next"]
            if cursor is not None:
                alone = [chosen.program, "match", text, "--map", chosen.map, "--page", "1", "--format", "json"]
                mark = json.loads(subprocess.run(alone, capture_output=True, check=True).stdout)["next"]
                plain.append(f"match --after {cursor} -- {text}")
                marked.append(f"match --after {mark} -- {text}")
        rows += [row_of("without a mark", process, plain), row_of("with a mark", process, marked)]
    table(rows)


def memory(chosen, texts):
    """Batches of each request, and all requests by turns."""
    rows = [["asked", "records", "peak MiB"]]
    mixed = [f"{request} --slack {200 + number % 200} -- {text}" for number, (text, request) in enumerate(zip(texts, itertools.cycle(REQUESTS)))]
    batches = [(["batch", request], texts) for request in REQUESTS]
    few = [(["batch", "match"], texts[:1]), (["answer"], mixed[:1])]
    for words, records in [*few, *batches, (["answer"], mixed)]:
        with Process(chosen.program, [*words, "--map", chosen.map]) as process:
            rows.append([" ".join(words), str(len(records)), f"{process.peak(records):.1f}"])
    table(rows)


def counted(program, words, given, output):
    """The instructions of a run over an input, whose output goes into a file."""
    command = ["valgrind", "--tool=callgrind", "--callgrind-out-file=/dev/null", program, *words]
    with open(given, "rb") as records, open(output, "wb") as written:
        errors = subprocess.run(command, stdin=records, stdout=written, stderr=subprocess.PIPE, check=True).stderr
    return int(re.search(rb"Collected : (\d+)", errors).group(1))


def instructions(chosen, texts):
    """Both over the references, and over an empty input."""
    rows = [["asked", "records", "batch, millions", "answer", "ratio", "beyond reading: batch", "answer", "ratio"]]
    with tempfile.TemporaryDirectory() as folder:
        for request in chosen.requests:
            found = {}
            for name, before in (("batch", ""), ("answer", f"{request} -- ")):
                given, output = os.path.join(folder, "given"), os.path.join(folder, name)
                with open(given, "w") as file:
                    file.writelines(f"{before}{text}\n" for text in texts)
                words = [*([name, request] if name == "batch" else [name]), "--map", chosen.map]
                empty = counted(chosen.program, words, os.devnull, os.devnull)
                found[name] = counted(chosen.program, words, given, output), empty
            if not equal_bytes(os.path.join(folder, "batch"), os.path.join(folder, "answer")):
                sys.exit(f"{request}: the outputs aren't equal bytes")
            row = [request, str(len(texts))]
            for counts in ([whole for whole, _ in found.values()], [whole - empty for whole, empty in found.values()]):
                row += [*(f"{count / 1e6:.1f}" for count in counts), f"{counts[1] / counts[0]:.3f}"]
            rows.append(row)
    table(rows)


def main():
    parts = {"again": again, "pages": pages, "memory": memory, "instructions": instructions}
    parser = argparse.ArgumentParser(description=__doc__, formatter_class=argparse.RawDescriptionHelpFormatter)
    parser.add_argument("--program", required=True, metavar="PATH")
    parser.add_argument("--map", required=True, metavar="FOLDER")
    parser.add_argument("--input", required=True, metavar="FILE", help="references, one a line, behind a tab or alone")
    parser.add_argument("--only", nargs="+", choices=parts, default=list(parts), help="what to measure (default: all)")
    parser.add_argument("--questions", type=int, default=200, help="how many of the references are asked for one by one (default 200)")
    parser.add_argument("--requests", nargs="+", choices=REQUESTS, default=["match"], help="of whose instructions (default match)")
    chosen = parser.parse_args()
    chosen.program = os.path.abspath(chosen.program)
    with open(chosen.input) as file:
        texts = [line.rstrip("\n").rpartition("\t")[2] for line in file]
    for name in chosen.only:
        parts[name](chosen, texts[: chosen.questions] if name in ("again", "pages") else texts)
        print(flush=True)


if __name__ == "__main__":
    main()
