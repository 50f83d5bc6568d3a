"""Folders that are made for a file: all of them, and none that is left where it can't be written."""

import pytest
from pathlib import Path

from olr.errors import ToolError
from olr.outputs import folders_made, whole_file, write_whole


def test_a_file_in_new_folders(tmp_path: Path) -> None:
    write_whole(tmp_path / "a/b/c/file", b"x")
    assert (tmp_path / "a/b/c/file").read_bytes() == b"x"
    assert [one.name for one in (tmp_path / "a/b/c").iterdir()] == ["file"]


def test_a_file_that_cant_be_written(tmp_path: Path) -> None:
    """All folders that were made for it are deleted, and those that were there stay."""
    (tmp_path / "there").mkdir()
    with pytest.raises(ToolError, match="can't be written"):
        with whole_file(tmp_path / "there/a/b/c/file"):
            raise OSError("no room")
    assert list(tmp_path.rglob("*")) == [tmp_path / "there"]


def test_folders_that_others_use_meanwhile(tmp_path: Path) -> None:
    """What isn't empty stays."""
    with pytest.raises(KeyboardInterrupt):
        with folders_made(tmp_path / "a/b/c"):
            (tmp_path / "a/mine").write_bytes(b"x")
            raise KeyboardInterrupt
    assert sorted(tmp_path.rglob("*")) == [tmp_path / "a", tmp_path / "a/mine"]


def test_a_link(tmp_path: Path) -> None:
    """It is followed: the file that it leads to is replaced, in its own folder."""
    (tmp_path / "there").mkdir()
    (tmp_path / "there/file").write_bytes(b"old")
    (tmp_path / "link").symlink_to("there/file")
    write_whole(tmp_path / "link", b"new", force=True)
    assert (tmp_path / "link").is_symlink() and (tmp_path / "there/file").read_bytes() == b"new"


def test_an_input_under_another_name(tmp_path: Path) -> None:
    """It isn't replaced."""
    (tmp_path / "file").write_bytes(b"old")
    (tmp_path / "other").hardlink_to(tmp_path / "file")
    with pytest.raises(ToolError, match="is one of the inputs: name another file"):
        write_whole(tmp_path / "other", b"new", force=True, inputs=[tmp_path / "file"])
    assert (tmp_path / "file").read_bytes() == b"old"
