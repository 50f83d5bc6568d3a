"""How Sphinx makes the API reference of the package `olr`: sphinx-build -W -b html docs/api FOLDER"""

import sys
from pathlib import Path

sys.path.insert(0, str(Path(__file__).resolve().parents[2] / "python"))

from olr.version import VERSION  # noqa: E402

project, author, copyright = "olr", "the authors of olr", "the authors of olr"
version = release = VERSION
extensions = ["sphinx.ext.autodoc", "sphinx.ext.doctest"]
default_role = "code"
autodoc_member_order = "bysource"
autodoc_typehints = "signature"
html_theme = "alabaster"
html_show_sourcelink = False
html_copy_source = False
