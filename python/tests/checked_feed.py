"""A feed on the streets of Tempe of which somebody checks answers, for the tests of `olr-tools report --check`."""

import csv
import random
from itertools import islice
from pathlib import Path

from feeds import MARKUP
from olr.model.map_folder import read_map
from olr.tools import run
from olr.trials.encoder import text_of
from olr.trials.graph import Graph
from olr.trials.paths import Paths
from olr.trials.roads import Roads
from vector_files import write_tempe

KEYS = ["k,1", 'k"2', "k\t3", "k\t4,", " k5 ", MARKUP, "key", "ü"]
"""Of messages: the file of checked answers quotes some of them."""
READ = ["--ref", "code", "--key", "id"]


def make_place(folder: Path) -> Path:
    """A folder with the streets of Tempe and a feed of 91 messages on them, of which 27 can be checked."""
    road_map = read_map(write_tempe(folder / "tempe"))
    paths = Paths(road_map).drawn(Graph(road_map, Roads(road_map)), random.Random(9))
    texts = [text_of(one.points) for one in islice(paths, 90)]
    keys = [*KEYS, *(f"k{at}" for at in range(8, 28)), "k27", "two\nlines", *[""] * 60]
    with (folder / "feed.csv").open("w", newline="", encoding="utf-8") as stream:
        rows = [(key, text, f"street {at} <b>") for at, (key, text) in enumerate(zip(keys, texts))]
        csv.writer(stream).writerows([("id", "code", "what"), *rows, ("x", "?", "nothing")])
    return folder


def check(place: Path, out: Path, *words: object) -> int:
    """Runs the command, and answers its status."""
    given = ["report", place / "feed.csv", "--map", place / "tempe", *READ, "--out", out, *words]
    return run(list(map(str, given)))
