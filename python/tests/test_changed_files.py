"""Files that change while they are used, and by what it is seen: digests that are kept, and stores that are read for a long time."""

import hashlib
import os
import pytest
import shutil
from pathlib import Path

from olr.content import Stamp, digest_of, sha256_of
from olr.errors import MapRefused, ToolError
from olr.regions.current import CurrentStore
from olr.regions.making import make_store_of_folder
from stores import LINES, all_lines, folder_of

NOW = 1_700_000_000_000_000_000
"""A moment, in nanoseconds."""
SECOND = 1_000_000_000


@pytest.fixture
def now(monkeypatch: pytest.MonkeyPatch) -> None:
    """It is that moment."""
    monkeypatch.setattr("olr.content.time.time_ns", lambda: NOW)


@pytest.fixture(scope="module")
def stores(tmp_path_factory: pytest.TempPathFactory) -> Path:
    """A folder with the stores of two maps, and the first one once more."""
    folder = tmp_path_factory.mktemp("stores")
    for name, lines in (("one", LINES), ("same", LINES), ("other", LINES.replace("1113", "1114"))):
        make_store_of_folder(folder_of(folder / name, lines=lines), folder / f"{name}.gpkg")
    return folder


@pytest.fixture
def store(stores: Path, tmp_path: Path) -> Path:
    """A copy of the first one."""
    return Path(shutil.copy(stores / "one.gpkg", tmp_path / "store.gpkg"))


def replace(store: Path, other: Path) -> None:
    """Puts a copy of another store in the place of one."""
    Path(shutil.copy(other, store.with_name("new"))).replace(store)


def stamp(**changes: int) -> Stamp:
    """The stamp of some file that changed long ago, but for what is given."""
    return Stamp(1, 2, 3, NOW - 10**12, NOW - 10**12)._replace(**changes)


@pytest.mark.usefixtures("now")
@pytest.mark.parametrize(
    "age, left",
    [(0, 2 * SECOND), (SECOND, SECOND), (2 * SECOND - 1, 1), (2 * SECOND, 0), (10**12, 0)],
)
def test_how_long_a_stamp_is_unsettled(age: int, left: int) -> None:
    """Two seconds: file systems may have clocks as coarse as that."""
    assert stamp(changed=NOW - age).unsettled() == left


@pytest.mark.usefixtures("now")
def test_a_stamp_of_the_future() -> None:
    """It may be so for a long time, but isn't waited for longer than another one."""
    assert stamp(changed=NOW + 10**15).unsettled() == 2 * SECOND


@pytest.mark.usefixtures("now")
def test_a_file_that_changes_within_its_stamp(
    tmp_path: Path, monkeypatch: pytest.MonkeyPatch
) -> None:
    """It is read again while its stamp is unsettled, and once afterwards."""
    file = tmp_path / "file"
    for changed, is_read_again in ((NOW - SECOND, True), (NOW - 3 * SECOND, False)):
        monkeypatch.setattr(Stamp, "of", lambda _: stamp(changed=changed))
        file.write_bytes(b"one")
        assert sha256_of(file) == hashlib.sha256(b"one").hexdigest()
        file.write_bytes(b"two")
        expected = b"two" if is_read_again else b"one"
        assert sha256_of(file) == hashlib.sha256(expected).hexdigest()


def test_a_file_that_changes_behind_its_time(tmp_path: Path) -> None:
    """Its length, and the time that a program may set, are as before; the file system's own time isn't."""
    file = tmp_path / "file"
    file.write_bytes(b"one")
    before = Stamp.of(file)
    times = file.stat()
    while True:
        file.write_bytes(b"two")
        os.utime(file, ns=(times.st_atime_ns, times.st_mtime_ns))
        if file.stat().st_ctime_ns != times.st_ctime_ns:
            break
    after = Stamp.of(file)
    assert after != before and after._replace(changed=before.changed) == before


def test_the_digest_of_several_files(tmp_path: Path) -> None:
    """It is of all of them in their order; there is none if one can't be read."""
    one, other = tmp_path / "one", tmp_path / "other"
    one.write_bytes(b"1")
    other.write_bytes(b"2")
    texts = [hashlib.sha256(it).hexdigest() for it in (b"1", b"2")]
    assert digest_of(one, other) == hashlib.sha256("".join(texts).encode()).hexdigest()
    assert digest_of(other, one) == hashlib.sha256("".join(texts[::-1]).encode()).hexdigest()
    assert digest_of(one, tmp_path / "none") is None


def test_another_file_of_the_name(tmp_path: Path) -> None:
    """It is seen, whatever times it has."""
    file, other = tmp_path / "file", tmp_path / "other"
    file.write_bytes(b"one")
    before = Stamp.of(file)
    shutil.copy2(file, other)
    other.replace(file)
    assert Stamp.of(file)._replace(changed=before.changed, inode=before.inode) == before
    assert Stamp.of(file).inode != before.inode


def test_a_store_that_changes_while_it_is_read(store: Path, stores: Path) -> None:
    """What was read is of no use, also if the file has the same map."""
    for other in ("other.gpkg", "same.gpkg"):
        replace(store, stores / "one.gpkg")
        current = CurrentStore(store)
        with pytest.raises(MapRefused, match="has changed since it was opened"):
            with current.reading() as opened:
                assert len(all_lines(opened)) == 2
                replace(store, stores / other)
        current.close()


def test_an_error_of_a_store_that_changes(store: Path) -> None:
    """The change is the reason."""
    current = CurrentStore(store)
    with pytest.raises(MapRefused, match="has changed since it was opened"):
        with current.reading():
            store.unlink()
            raise ToolError("disk I/O error")
    current.close()


def test_a_store_that_was_replaced(store: Path, stores: Path) -> None:
    """A file of the same map may take its place between two readings; one of another map may not."""
    current = CurrentStore(store)
    replace(store, stores / "same.gpkg")
    with current.reading() as opened:
        assert len(all_lines(opened)) == 2
    replace(store, stores / "other.gpkg")
    with pytest.raises(MapRefused, match="has changed since it was opened"):
        with current.reading():
            raise AssertionError("it is another map")
    current.close()
