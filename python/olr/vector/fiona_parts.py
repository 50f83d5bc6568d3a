"""What isn't public in fiona and is used here all the same: all of it, and why. A later version may take it away.

It was tried with fiona 1.9 (Debian 12) and 1.10 (Debian 13).
"""

from fiona._err import CPLE_BaseError
from fiona.errors import FionaError, UnsupportedGeometryTypeError

READ_ERRORS = (FionaError, UnsupportedGeometryTypeError, CPLE_BaseError, UnicodeDecodeError)
"""What reading a file raises. Some errors of GDAL come as they are, and their class has no public name."""

LOG_OF_GDAL = "fiona._env"
"""The log that has what GDAL says while records are read: where it leaves one out, nothing is raised."""
