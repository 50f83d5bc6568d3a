"""Tables of tags."""

import pytest
from pathlib import Path

from olr.errors import ToolError
from olr.osm.tags import read_tag_table


@pytest.fixture
def table(top: Path) -> str:
    """The text of the table in the package."""
    return (top / "python/olr/osm/tags.toml").read_text(encoding="utf-8")


@pytest.mark.parametrize(
    "old, new, words",
    [
        ("[highway]", "highway", "Expected '='"),
        ("[highway]", "[highways]", "[highways] isn't known"),
        (
            "class = 6, form = 3",
            "class = 8, form = 3",
            "residential has 8 in place of a number from 0 to 7",
        ),
        (
            "class = 6, form = 3",
            'class = "6", form = 3',
            "residential has '6' in place of a number",
        ),
        (
            "class = 6, form = 3",
            "class = true, form = 3",
            "residential has True in place of a number",
        ),
        ("class = 6, form = 3", "form = 3", "residential lacks the field class"),
        (
            "class = 6, form = 3",
            "class = 6, form = 3, oneway = true",
            "has a field oneway that isn't known",
        ),
        (
            "form = 1, one_way = true",
            "form = 1, one_way = 1",
            "motorway has 1 in place of true or false",
        ),
        ("{ class = 6, form = 3 }", "6", "residential isn't a row"),
        ('both = ["no", "false", "0"]', "both = 3", "[one_way] both isn't a list of texts"),
        ('both = ["no", "false", "0"]', "", "it lacks 'both'"),
    ],
)
def test_faults_of_a_table_are_named(
    table: str, tmp_path: Path, old: str, new: str, words: str
) -> None:
    assert old in table
    file = tmp_path / "table.toml"
    file.write_text(table.replace(old, new, 1), encoding="utf-8")
    with pytest.raises(ToolError) as raised:
        read_tag_table(file)
    assert str(raised.value).startswith(f"{file} is no table of tags: ")
    assert words in str(raised.value)
    assert "\n" not in str(raised.value)


def test_capitals_of_a_table_dont_matter(table: str, tmp_path: Path) -> None:
    file = tmp_path / "table.toml"
    file.write_text(table.replace('"private"', '"Private "').replace('"yes"', '"YES"'))
    read = read_tag_table(file)
    assert read.closed == read_tag_table().closed
    assert read.one_way == read_tag_table().one_way


def test_a_table_that_isnt_there(tmp_path: Path) -> None:
    with pytest.raises(ToolError, match="can't be read: No such file or directory"):
        read_tag_table(tmp_path / "none.toml")


def test_a_table_that_isnt_text(tmp_path: Path) -> None:
    (tmp_path / "table.toml").write_bytes(b"\xff\xfe")
    with pytest.raises(ToolError, match="is no table of tags"):
        read_tag_table(tmp_path / "table.toml")


def test_the_page_lists_the_table(top: Path) -> None:
    """Each value of the table is in docs/IMPORT.md, with its class and form."""
    page = (top / "docs/IMPORT.md").read_text(encoding="utf-8")
    table = read_tag_table()
    for name, highway in table.highways.items():
        form = str(highway.form)
        if highway.one_way_form is not None:
            form += f", one-way {highway.one_way_form}"
        assert f"| `{name}` | {highway.road_class} | {form} |" in page
    for name in table.closed | table.closed_highways:
        assert f"`{name}`" in page
