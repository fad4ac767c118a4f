"""Packages that only a part of this one needs."""
import importlib
from typing import Any


def optional(module: str, what: str) -> Any:
    """Import such a package, or raise an error that says how to install it."""
    try:
        return importlib.import_module(module)
    except ImportError:
        extra = {"openpyxl": "workbooks", "flask": "web", "waitress": "web"}.get(module, "charts")
        raise ImportError(f"{what} needs {module} (Debian: python3-{module}; pip install 'pfs[{extra}]')") from None
