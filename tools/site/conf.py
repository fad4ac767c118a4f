"""Sphinx's settings for the site that tools/site/build makes."""
import ctypes
import importlib
import pathlib
import sys
from typing import Any
from unittest.mock import MagicMock, patch

TOP = pathlib.Path(__file__).resolve().parents[2]
sys.path.insert(0, str(TOP / "python" / "src"))

project = "pfs"
version = release = (TOP / "VERSION").read_text().strip()
copyright = "the pfs developers"
extensions = ["myst_parser", "sphinx.ext.autodoc", "sphinx.ext.autosummary", "numpydoc"]
autosummary_generate = False
root_doc = "index"
html_theme = "alabaster"
html_theme_options = {"description": "Permutation flow shop scheduling with machine-checked proofs",
                      "page_width": "1100px", "sidebar_width": "260px", "fixed_sidebar": True}
html_sidebars = {"**": ["about.html", "searchbox.html", "localtoc.html", "navigation.html"]}
html_static_path = ["site.css"]
html_css_files = ["site.css"]
highlight_language = "none"
html_copy_source = False
html_show_sourcelink = False
myst_heading_anchors = 4
numpydoc_show_class_members = False
autodoc_typehints = "none"
autodoc_default_options = {"members": True}
autodoc_member_order = "bysource"


def no_library(path: str) -> Any:
    """What stands for the library, which docstrings don't need."""
    library = MagicMock()
    library.pfs_version.return_value = version.encode()
    return library


importlib.import_module("numpy")  # which loads libraries that it does need
with patch.object(ctypes, "CDLL", no_library):
    package = importlib.import_module("pfs")
    for name in package.__all__:  # which are imported at their first use
        getattr(package, name)
