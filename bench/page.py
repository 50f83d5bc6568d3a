#!/usr/bin/env python3
"""Times the table of the page of `olr-tools serve` with 10,000 rows, in headless Chromium.

    bench/page.py --program PATH [--map FOLDER] [--input FILE] [--rows 10000]

The list is that of the records of the input, again and again, each with a key of its own. Sorting by a column, a letter that is typed into the search, a choice, and a
step down by a key are timed by `performance.now()`, from before the event until the page is laid out: the longest of five.

It needs what ./olr-tools setup installs, and Chromium.
"""

import argparse
import json
import sys
import time
from pathlib import Path

from served import records_of, serving

TOP = Path(__file__).resolve().parents[1]
sys.path[:0] = [str(TOP / "python"), str(TOP / "python/tests")]

from browser import Browser  # noqa: E402

ROWS = "document.querySelector('#rows')"
TIMED = f"(() => {{ const begin = performance.now(); %s; {ROWS}.querySelector('.frame').scrollHeight; {ROWS}.getBoundingClientRect(); return performance.now() - begin; }})()"
HEADING = "document.querySelectorAll('#rows thead button')[%d].click()"
TYPED = "(() => { const field = document.querySelector('#rows input'); field.value = '%s'; field.dispatchEvent(new Event('input')); })()"
CHOSEN = "(() => { const field = document.querySelector('#rows select'); field.selectedIndex = %d; field.dispatchEvent(new Event('change')); })()"
DOWN = "document.querySelector('#rows tbody [tabindex=\"0\"]').dispatchEvent(new KeyboardEvent('keydown', {key: 'ArrowDown', bubbles: true}))"
EVENTS = {
    "sort by record": [HEADING % 0] * 5,
    "sort by key": [HEADING % 1] * 5,
    "sort by probability": [HEADING % 3] * 5,
    "sort by reference": [HEADING % 9] * 5,
    "a letter in the search": [TYPED % text for text in ("k", "k1", "k12", "k1", "")],
    "a verdict": [CHOSEN % at for at in (1, 0, 1, 0, 1)] + [CHOSEN % 0],
    "down": [DOWN] * 5,
}


def wait(browser, expression):
    """Waits until something is so."""
    while not browser.value(expression):
        time.sleep(0.1)


def main():
    """Prints a line for each event."""
    parser = argparse.ArgumentParser(description=__doc__, formatter_class=argparse.RawDescriptionHelpFormatter)
    parser.add_argument("--program", required=True)
    parser.add_argument("--map", default=TOP / "examples")
    parser.add_argument("--input", default=TOP / "examples/messages.tsv")
    parser.add_argument("--rows", type=int, default=10_000)
    chosen = parser.parse_args()
    texts = records_of(chosen.input)
    text = "".join(f"k{number}\t{texts[number % len(texts)]}\n" for number in range(chosen.rows))
    with serving(chosen.program, chosen.map, 2) as (_, port), Browser() as browser:
        browser.visit(f"http://127.0.0.1:{port}/")
        browser.value(f"document.querySelector('#list-text').value = {json.dumps(text)}")
        begin = time.perf_counter()
        browser.value("document.querySelector('#list-form').requestSubmit()")
        wait(browser, "document.querySelector('#list').dataset.state === 'done'")
        print(f"read and answered: {time.perf_counter() - begin:.1f} s")
        print(f"rows in the document: {browser.value('document.querySelectorAll(`#rows tbody tr`).length'):,}")
        for name, events in EVENTS.items():
            print(f"{name}: {max(browser.value(TIMED % event) for event in events):,.0f} ms")


if __name__ == "__main__":
    main()
