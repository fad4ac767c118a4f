"""Names of jobs and machines."""
from __future__ import annotations

import re
import sys
from collections.abc import Iterable
from typing import Any

# Characters that move the cursor of a terminal, end a line or change its direction, or aren't allowed in XML.
UNSHOWN = re.compile("[\0-\x1f\x7f-\x9f\u2028-\u202e\u2066-\u2069\ud800-\udfff\ufffe\uffff]")
# Those that aren't allowed in XML.
NOT_IN_XML = re.compile("[\0-\x08\x0b\x0c\x0e-\x1f\ud800-\udfff\ufffe\uffff]")


def shown(name: str, unshown: re.Pattern[str] = UNSHOWN) -> str:
    """Return a name as charts and terminals show it, with escapes for control characters.

    >>> print(shown("saw 2\\x1b[2J\\n"))
    saw 2\\x1b[2J\\n
    """
    return unshown.sub(lambda found: found[0].encode("unicode_escape").decode(), name)


def printable(text: str) -> str:
    """Return a text with escapes for all that isn't printable."""
    return "".join(sign if sign.isprintable() else sign.encode("unicode_escape").decode() for sign in text)


def names_of(names: Iterable[str] | None, count: int, what: str) -> tuple[str, ...] | None:
    """Return `count` distinct names, or None."""
    if names is None:
        return None
    if isinstance(names, str):
        raise TypeError(f"{what} must be a list of names, not {names!r}")
    own = tuple(names)
    for at, name in enumerate(own):
        if not isinstance(name, str):
            raise TypeError(f"{what}: {name!r} at place {at} isn't a str")
    if len(own) != count:
        raise ValueError(f"{what} has {len(own)} names, but {count} are needed")
    if len(set(own)) != count:
        twice = next(name for name in own if own.count(name) > 1)
        raise ValueError(f"{what}: {twice!r} occurs twice")
    return own


def is_frame(given: Any) -> bool:
    """Whether an argument is a pandas DataFrame. pandas isn't imported for it."""
    pandas = sys.modules.get("pandas")
    return pandas is not None and isinstance(given, pandas.DataFrame)


def frame_names(frame: Any, axis: str) -> list[str] | None:
    """Return the names of the rows (`index`) or `columns` of a frame, or None if they just count from 0."""
    labels = getattr(frame, axis).tolist()
    return None if labels == list(range(len(labels))) else [str(label) for label in labels]
