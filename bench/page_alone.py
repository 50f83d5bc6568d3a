#!/usr/bin/env python3
"""Times the page that `olr-tools page` writes of a map, in headless Chromium.

    bench/page_alone.py [--map FOLDER] [--input FILE] [--answers 20] [--runs 3]

Each run opens the page of the map anew, in a browser of its own, and prints a row:

| column | meaning |
|---|---|
| MB | the size of the page |
| open s | from the call for its file until the program in it is ready |
| first s | from the first reference that is sent until the picture of its answer is there: the page waits 0.07 s of these, as where keys are held down |
| match s, scene s | the median of so many answers (--answers) of its worker: `match` is the program's own, `scene` all that a picture and its panel have |
| MiB | the most memory that the process of the page had, of which an empty page has some 90 |

The references are those of the input, one after the other, and the first one is asked again where they are fewer. Without an input there is README's
alone. Each of them has to be answered. Scripts and their garbage have threads of their own, as in a browser with windows; in the tests they have one.

It needs what ./olr-tools setup installs, and Chromium.
"""

import argparse
import json
import os
import statistics
import subprocess
import sys
import tempfile
import time
from itertools import cycle, islice
from pathlib import Path

from served import all_of, command_of, kib_of, records_of

TOP = Path(__file__).resolve().parents[1]
sys.path.insert(0, str(TOP / "python/tests"))

from browser import Browser  # noqa: E402

REFERENCE = "CwVF/yN2yRpnBAFUAAgbpwYBAf9kK0Fa"
LONGEST = 120_000
UNTIL = "new Promise((done, fail) => { setTimeout(() => fail(new Error('it took too long')), %d); const look = () => (%s ? done(1) : setTimeout(look, 2)); look(); })"
SENT = "document.querySelector('#ref').value = %s; document.querySelector('#ask').requestSubmit(); %s"
TIMED = """(async () => {
  const begin = performance.now();
  const response = await fetch(`%s?${new URLSearchParams({ ref: %s }).toString().replaceAll("+", "%%2B")}`);
  const text = await response.text();
  if (!response.ok) throw new Error(text);
  return performance.now() - begin;
})()"""
WITH_THREADS = "--js-flags="


def until(browser, expression):
    """Waits in the page until something is so."""
    browser.value(UNTIL % (LONGEST, expression))


def seconds_of(work):
    """What a piece of work takes."""
    begin = time.perf_counter()
    work()
    return time.perf_counter() - begin


def first_answer(browser, text):
    """Sends a reference as its reader does, and waits for the picture."""
    drawn = UNTIL % (LONGEST, "['ready', 'failed'].includes(document.body.dataset.state)")
    browser.value(SENT % (json.dumps(text), drawn))
    assert browser.value("document.body.dataset.state") == "ready", browser.value("document.querySelector('#problem').innerText")


def median_of(browser, what, texts):
    """The seconds that an answer takes to each of some references: their median."""
    return statistics.median(browser.value(TIMED % (what, json.dumps(text))) for text in texts) / 1000


def peak_kib():
    """The most memory of a process that draws pages, of all that this one has started."""
    return max(kib_of(process, "VmHWM") for process in all_of(os.getpid()) if b"--type=renderer" in command_of(process))


def measure(page, texts, count):
    """The figures of a run."""
    with Browser(WITH_THREADS) as browser:
        opening = seconds_of(lambda: (browser.open(page), until(browser, "['ready', 'failed'].includes(document.body.dataset.program)")))
        assert browser.value("document.body.dataset.program") == "ready", browser.errors
        first = seconds_of(lambda: first_answer(browser, texts[0]))
        medians = [median_of(browser, what, islice(cycle(texts), count)) for what in ("match", "scene")]
        return opening, first, *medians, peak_kib() / 1024


def main():
    """Prints a row for each run."""
    parser = argparse.ArgumentParser(description=__doc__, formatter_class=argparse.RawDescriptionHelpFormatter)
    parser.add_argument("--map", default=TOP / "examples")
    parser.add_argument("--input")
    parser.add_argument("--answers", type=int, default=20)
    parser.add_argument("--runs", type=int, default=3)
    chosen = parser.parse_args()
    texts = records_of(chosen.input) if chosen.input else [REFERENCE]
    print("| MB | open s | first s | match s | scene s | MiB |\n|---|---|---|---|---|---|")
    with tempfile.TemporaryDirectory(prefix="page.") as folder:
        page = Path(folder, "app.html")
        subprocess.run([TOP / "olr-tools", "page", "--map", chosen.map, "--out", page], check=True, stdout=subprocess.DEVNULL)
        for _ in range(chosen.runs):
            *seconds, memory = measure(page, texts, chosen.answers)
            times = " | ".join(f"{one:.3f}" for one in seconds)
            print(f"| {page.stat().st_size / 1e6:.1f} | {times} | {memory:.0f} |", flush=True)


if __name__ == "__main__":
    main()
