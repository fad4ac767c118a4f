"""Experiments: plans of runs, their CSVs and reports. `pfs-experiments` is the command line."""
from __future__ import annotations

from collections.abc import Iterable, Sequence
from typing import Any, TypeAlias

from pfs.base.faults import Refused
from pfs.base.names import printable

plain = printable
# What a command line says.
Options: TypeAlias = Any


class ExperimentError(Refused):
    """A plan, a CSV or a program is invalid."""


def listed(names: Sequence[str], most: int = 10) -> str:
    """Returns the first names of a list, with two points after them if there are more."""
    return ", ".join([*names[:most], *([".."] if len(names) > most else [])])


def csv_text(rows: Iterable[Sequence[object]]) -> str:
    """Returns rows as a CSV."""
    from pfs.base.cells import csv_writer
    lines: list[str] = []
    csv_writer(lines, ()).writerows(rows)
    return "".join(lines)
