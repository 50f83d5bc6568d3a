"""Packed vector files: what GDAL opens of them, which reads zip and gzip without unpacking them to the disk."""

import fiona
import zipfile
import zlib
from collections.abc import Iterator
from contextlib import contextmanager
from gzip import BadGzipFile
from pathlib import Path, PurePosixPath

from olr.errors import ToolError, readable
from olr.importing.packed import GZIP, ZIP, open_unpacked, packed_error, packing_of

PIECE = 1 << 20
"""So many bytes are read at a time."""
GEODATABASE = ".gdb"
"""The suffix of a folder of files that are one."""
LAYERS = (".gpkg", ".geojson", ".json", ".fgb", ".gml", ".kml")
"""Of the files of an archive, the suffixes of those that have layers, where there are others too, such as a licence."""
NO_FILES_BESIDE = {"CPL_VSIL_GZIP_WRITE_PROPERTIES": "NO"}
"""GDAL would write the size of what is in a file beside it."""
DAMAGED = (BadGzipFile, EOFError, zlib.error, zipfile.BadZipFile, NotImplementedError, RuntimeError)
"""What reading a packed file raises if it can't be unpacked."""


@contextmanager
def opened_by_gdal(file: Path) -> Iterator[str]:
    """The name by which GDAL opens a file. Raises `ToolError` if it has to be unpacked first, or is damaged."""
    packing = None if file.is_dir() else packing_of(file)
    with fiona.Env(**NO_FILES_BESIDE):
        if packing is None:
            yield str(file)
        elif packing == GZIP:
            _require_whole_gzip(file)
            yield f"/vsigzip/{file.resolve()}"
        elif packing == ZIP:
            yield f"/vsizip/{{{file.resolve()}}}{_place_in_archive(file)}"
        else:
            raise packed_error(file, packing)


def _require_whole_gzip(file: Path) -> None:
    """Raises `ToolError` if a file is damaged: GDAL doesn't compare its checksum."""
    with _unpacking(file), open_unpacked(file) as stream:
        while stream.read(PIECE):
            pass


def _place_in_archive(file: Path) -> str:
    """Where an archive has its layers, as GDAL has it behind the archive's name: in a folder with Shapefiles or a geodatabase, or in a
    file. Raises `ToolError` if that can't be known, or if the archive is damaged."""
    with _unpacking(file), zipfile.ZipFile(file) as archive:
        if (damaged := archive.testzip()) is not None:
            raise zipfile.BadZipFile(f"bad checksum of {damaged}")
        names = [one.filename for one in archive.infolist() if not one.is_dir()]
    paths = [PurePosixPath(name) for name in names if not name.startswith("__MACOSX/")]
    folders = {path.parent for path in paths if _is_of_folder(path)}
    layers = {path for path in paths if path.suffix.lower() in LAYERS}
    found = folders or layers or set(paths)
    if len(found) != 1:
        raise packed_error(file, ZIP)
    place = str(found.pop())
    return "" if place == "." else f"/{place}"


def _is_of_folder(path: PurePosixPath) -> bool:
    """Whether a file of an archive belongs to a folder that GDAL opens as a whole."""
    return path.suffix.lower() == ".shp" or path.parent.suffix.lower() == GEODATABASE


@contextmanager
def _unpacking(file: Path) -> Iterator[None]:
    """Raises `ToolError` where a file can't be read or unpacked."""
    with readable(file):
        try:
            yield
        except DAMAGED as error:
            raise ToolError(f"{file} can't be unpacked: {error}: copy the file again") from error
