#!/usr/bin/env python3
"""Runs a command, the gate for instance, and prints the processor minutes that it took, by crate and by what they went to.

    bench/gate_minutes.py -- bash .ci/run

`proof` is the check of a crate, `tests` that of its tests, `edits` those of its must-fail edits with the check that these
begin with, `builds` what the compilers make of a proved program. `scripts` are those of attacks/ and the stored runs,
`Python` is .ci/python, and `rest` is all else, as running the tests.

It looks at the processes twice a second and adds up what each one used, so a process loses at most its last half second.
The command's own output passes through; its status is the script's.
"""
import argparse
import os
import resource
import subprocess
import sys
import threading
import time

TICKS = os.sysconf("SC_CLK_TCK")
KINDS = ("proof", "tests", "edits", "builds")
SCRIPTS = {b"attacks/": "scripts", b".ci/stored-runs": "scripts", b".ci/python": "Python"}


def read(path):
    try:
        with open(path, "rb") as file:
            return file.read()
    except OSError:
        return b""


class Process:
    """A process as it is now: its parent, what tells it from a later one of its number, its words, and the seconds that it
    and its ended children took."""

    def __init__(self, pid):
        # (the fields behind the name, as proc(5) has them: the parent is field 1, the ticks are 11 to 14, the start is 19)
        fields = read(f"/proc/{pid}/stat").rpartition(b")")[2].split()
        if not fields:
            raise ProcessLookupError(pid)
        self.parent, self.key = int(fields[1]), (pid, fields[19])
        self.own, self.all = (sum(map(int, fields[11:end])) / TICKS for end in (13, 15))
        self.words = read(f"/proc/{pid}/cmdline").split(b"\0")

    def proof(self):
        """The crate that this process proves or builds, and the kind, or None."""
        if not self.words[0].endswith(b"/rattle") or b"--crate-name" not in self.words:
            return None
        crate = self.words[self.words.index(b"--crate-name") + 1].decode()
        try:
            folder = os.readlink(f"/proc/{self.key[0]}/cwd")
        except OSError:
            return None
        if "/rt-edit-" in folder:
            return crate, "edits"
        if b"--crate-checked" in self.words:
            return crate, "builds"
        return crate, "tests" if b"--test" in self.words else "proof"

    def script(self):
        """What kind of script this process is, or None."""
        return next((kind for name, kind in SCRIPTS.items() for word in self.words if name in word), None)


def processes():
    found = {}
    for pid in filter(str.isdigit, os.listdir("/proc")):
        try:
            found[int(pid)] = Process(int(pid))
        except ProcessLookupError:
            pass
    return found


def add_times(top, used):
    """Notes what each process below another one used: used[what, process] is in seconds."""
    now, of_scripts = processes(), {}
    for pid, process in now.items():
        above, at = [], pid
        while at != top and at in now:
            above.append(now[at])
            at = now[at].parent
        if at != top:
            continue
        # (of a script the outermost process counts, with all below it)
        script = next((it for it in reversed(above) if it.script()), None)
        if script:
            key = ("", script.script()), script.key
            of_scripts[key] = of_scripts.get(key, 0.0) + process.all
        elif process.proof():
            key = process.proof(), process.key
            used[key] = max(used.get(key, 0.0), process.own)
    for key, taken in of_scripts.items():
        used[key] = max(used.get(key, 0.0), taken)


def watch(top, used, is_over):
    while not is_over.wait(0.5):
        add_times(top, used)


def print_table(used, total):
    table = {}
    for ((crate, kind), _), taken in used.items():
        row = table.setdefault(crate, {})
        row[kind] = row.get(kind, 0.0) + taken / 60
    scripts = table.pop("", {})
    whole = {kind: sum(row.get(kind, 0.0) for row in table.values()) for kind in KINDS}
    print(f"\n| | {' | '.join(KINDS)} | all |\n|---|{'---|' * (len(KINDS) + 1)}")
    for name, row in [*((f"`{crate}`", row) for crate, row in sorted(table.items())), ("all crates", whole)]:
        cells = [f"{row.get(kind, 0.0):.1f}" for kind in KINDS] + [f"{sum(row.values()):.1f}"]
        print(f"| {name} | {' | '.join(cells)} |")
    blank = "| " * len(KINDS)
    rest = total - sum(whole.values()) - sum(scripts.values())
    for name, taken in [*sorted(scripts.items()), ("rest", rest), ("all", total)]:
        print(f"| {name} {blank}| {taken:.1f} |")


def main():
    parser = argparse.ArgumentParser(description=__doc__, formatter_class=argparse.RawDescriptionHelpFormatter)
    parser.add_argument("command", nargs="+", help="the command, after --")
    words = parser.parse_args().command
    used, is_over, began = {}, threading.Event(), time.time()
    gate = subprocess.Popen(words)
    watcher = threading.Thread(target=watch, args=(gate.pid, used, is_over))
    watcher.start()
    try:
        status = gate.wait()
    finally:
        is_over.set()
        watcher.join()
    children = resource.getrusage(resource.RUSAGE_CHILDREN)
    print_table(used, (children.ru_utime + children.ru_stime) / 60)
    print(f"\n{(time.time() - began) / 60:.1f} minutes on {len(os.sched_getaffinity(0))} processors")
    return status


sys.exit(main())
