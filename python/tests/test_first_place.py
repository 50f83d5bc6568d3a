"""References to known paths on real streets: their first place is the true path, by the bans that imports make."""

import json
import random
from dataclasses import replace
from pathlib import Path

from conftest import Program
from exact_paths import COVERED, LineGraph, drawn_references, share_covered
from olr.counts import Counts
from olr.model.map_folder import write_map
from olr.trials.encoder import text_of
from olr.vector.fields import Fields
from olr.vector.importing import import_vector
from olr.vector.options import Options
from vector_files import STREETS

REFERENCES = 250


def test_the_first_place_is_the_true_path(program: Program, tmp_path: Path) -> None:
    """The sender's paths are the shortest ones of traffic that turns back nowhere, on the same streets."""
    made = import_vector(STREETS, Options(Fields("5", "3", id="ID")), Counts())
    write_map(made.road_map, tmp_path / "map", made.about)
    network = LineGraph(replace(made.road_map, bans=()), turning_back=False)
    drawn = drawn_references(network, REFERENCES, random.Random(1), turning_back=False)
    records = tmp_path / "records"
    records.write_text("".join(f"{text_of(points)}\n" for _, points in drawn))
    ended = program.run("batch", "places", "--map", tmp_path / "map", "--input", records)
    answers = [json.loads(line)["answer"] for line in ended.stdout.splitlines()]
    assert len(answers) == REFERENCES
    right = sum(
        share_covered(network, path, answer["places"][0]["matching"]["outer"]) >= COVERED
        for (path, _), answer in zip(drawn, answers)
        if answer["places"]
    )
    print(f"the first place of {right} of {REFERENCES} is the true path")
    assert right >= 225
