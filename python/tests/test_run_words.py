"""Words of `olr-tools run` that are refused before anything is read."""

import pytest
from click.testing import CliRunner
from pathlib import Path

from olr.commands.run import command


@pytest.mark.parametrize("second", ["--geometries", "--pieces"])
@pytest.mark.parametrize("name", ["rows.csv", "link.csv"])
def test_one_file_of_two_options(second: str, name: str, tmp_path: Path) -> None:
    """Also if it has another name there."""
    (tmp_path / "rows.csv").touch()
    (tmp_path / "link.csv").symlink_to("rows.csv")
    words = ["messages", "--store", "store", "--out", f"{tmp_path}/run"]
    words += ["--join", f"{tmp_path}/rows.csv", second, f"{tmp_path}/{name}"]
    ended = CliRunner().invoke(command, words)
    assert ended.exit_code == 2
    assert "--join, --geometries and --pieces name one file: name several" in ended.output


@pytest.mark.parametrize(
    ("words", "said"),
    [
        ([], "name the map: --map DIR, or --store STORE for a store"),
        (["--map", ".", "--store", "store"], "--map and --store name two maps: name one"),
        (["--map", ".", "--scheduler", "tcp://x:1"], "--scheduler is for a store, of which each"),
    ],
)
def test_a_map_that_isnt_named(words: list[str], said: str, tmp_path: Path) -> None:
    ended = CliRunner().invoke(command, ["messages", "--out", f"{tmp_path}/run", *words])
    assert ended.exit_code == 2 and said in ended.output
