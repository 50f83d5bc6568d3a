"""What tests of the client share: answers as the program's JSON, and references on a drawn map."""

import csv
import dataclasses
import json
import random
import subprocess
import tempfile
from collections.abc import Sequence
from functools import cache
from pathlib import Path
from typing import Any

from conftest import TOP, Program, Tools
from olr.model.answers import PlaceOfReference, Places
from olr.model.late import Late
from olr.model.questions import LIST, What, options_for

OF_LIKELY = ("probability", "reasons", "none_of_these", "map_differs", "differs")
"""Members of answers in the likely order, which may be null there."""
ASKED_FOR: dict[str, Any] = {**LIST, "shape": True}
"""A value of each option that isn't its default, and of some numbers."""


def all_options(what: What) -> dict[str, Any]:
    """All options of a question, none at its default."""
    return {name: ASKED_FOR[name] for name in options_for(what)}


@cache
def fields_of(kind: type) -> tuple[tuple[str, str, bool], ...]:
    """The fields of a dataclass, each with its name in JSON, and whether it is there only if it was asked for. Others have none."""
    if not dataclasses.is_dataclass(kind):
        return ()
    return tuple(
        (field.name, field.name.rstrip("_"), bool(field.metadata))
        for field in dataclasses.fields(kind)
    )


def as_json(answer: Any) -> Any:
    """An answer as the program's JSON has it."""
    if isinstance(answer, (int, str, type(None))):
        return answer
    if isinstance(answer, (Late, tuple)):
        return [as_json(item) for item in answer]
    kind: Any = type(answer)
    found = {
        name: getattr(answer, field)
        for field, name, is_asked_for in fields_of(kind)
        if not is_asked_for or getattr(answer, field) is not None
    }
    if "earliest" in found:
        absent = ("earliest", "latest") if found["earliest"] is None else ("outer", "inner")
        found = {name: value for name, value in found.items() if name not in absent}
    if isinstance(answer, Places) and answer.differs is None:
        found = {name: it for name, it in found.items() if name not in OF_LIKELY}
    if isinstance(answer, PlaceOfReference) and "probability" not in vars(answer):
        found = {name: it for name, it in found.items() if name not in OF_LIKELY}
    if found.get("kind") == "line":
        found = {name: found[name] for name in found if name not in ("orientation", "side")}
    if found.get("kind") == "point-along-line":
        found.pop("negative")
    return {name: as_json(value) for name, value in found.items()}


def draw_map(folder: Path, nodes: int = 1500, lines: int = 3000) -> Path:
    """Draws a map into a folder, the same one each time."""
    folder.mkdir(parents=True, exist_ok=True)
    for name, content in _drawn_files(nodes, lines):
        (folder / name).write_bytes(content)
    return folder


@cache
def _drawn_files(nodes: int, lines: int) -> tuple[tuple[str, bytes], ...]:
    """The files of a drawn map of that size, with their names. They are drawn once."""
    script = TOP / "bench/generate_map.py"
    size = ["--nodes", str(nodes), "--lines", str(lines)]
    with tempfile.TemporaryDirectory() as folder:
        command = ["/usr/bin/python3", str(script), *size, "--out", folder]
        subprocess.run(command, check=True, stdout=subprocess.DEVNULL)
        return tuple((file.name, file.read_bytes()) for file in Path(folder).iterdir())


def draw_references(folder: Path, count: int) -> list[str]:
    """References on a map, the same ones each time; every ninth is damaged."""
    files = ((folder / name).read_bytes() for name in ("nodes.csv", "lines.csv"))
    return list(_drawn_references(*files, count))


@cache
def _drawn_references(nodes: bytes, lines: bytes, count: int) -> tuple[str, ...]:
    """References on a map of these files. They are drawn once."""
    script = TOP / "bench/generate_messages.py"
    with tempfile.TemporaryDirectory() as folder:
        Path(folder, "nodes.csv").write_bytes(nodes)
        Path(folder, "lines.csv").write_bytes(lines)
        command = ["/usr/bin/python3", str(script), "--map", folder, "--count", str(count)]
        ended = subprocess.run(command, check=True, capture_output=True, text=True)
    draw = random.Random(3)
    texts = [line.split("\t")[1] for line in ended.stdout.splitlines()]
    for number in range(0, count, 9):
        text = texts[number]
        cut = draw.randrange(len(text))
        texts[number] = draw.choice([text[:cut], text + text, text[:cut] + "é" + text[cut:], " "])
    return tuple(texts)


def said(program: Program, *words: object) -> Any:
    """What the program answers: its JSON, or the text of its fault."""
    ended = program.run(*words)
    assert (ended.returncode == 0) == (ended.stderr == ""), ended.stderr
    return json.loads(ended.stdout) if ended.returncode == 0 else ended.stderr[5:].rstrip("\n")


def batch_of(program: Program, what: str, records: Path, options: Sequence[object]) -> list[Any]:
    """What `olr batch` answers: for each record its answer, or the text of its fault."""
    ended = program.run("batch", what, *options, "--input", records)
    lines = [json.loads(line) for line in ended.stdout.splitlines()]
    return [line["answer"] if line["fault"] is None else line["fault"] for line in lines]


def likeliest_of(tools: Tools, file: Path, folder: Path, *words: object) -> list[dict[str, str]]:
    """The rows that `olr-tools match --places` writes of the likeliest places, or of references without one."""
    out = file.with_suffix(".likeliest.csv")
    words = ("match", file, "--map", folder, "--places", "--out", out, "--force", *words)
    ended = tools.run(*words)
    assert (ended.returncode, ended.stderr) == (0, "")
    with out.open(encoding="utf-8", newline="") as stream:
        return [row for row in csv.DictReader(stream) if row["likely"] in ("1", "")]
