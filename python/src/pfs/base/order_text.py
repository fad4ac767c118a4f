"""Orders as people write them. Audits, `pfs.parse_order`, `pfs-plan --order` and the runs of experiments, to whose
machines it is copied, read orders with it alone. It needs nothing but Python."""
from __future__ import annotations

import re
from collections.abc import Iterable, Mapping, Set
from typing import Any

# What stands before a list, as in `π = (3, 1, 2)`, and the list, perhaps in brackets.
NAMED = re.compile(r"\s*[^\W\d]\w*[*']?\s*[=:]")
LIST = re.compile(r"\[([^\[\](){}]*)\]|\(([^\[\](){}]*)\)|\{([^\[\](){}]*)\}|([^\[\](){}]*)")
# A dash between two jobs, as in 3-1-2 and 3 - 1 - 2, or an arrow. That of -1 or of job-3 is no such dash.
DASH = re.compile(r"(?<=[0-9])[-\u2013](?=\w)|(?<=\s)[-\u2013](?=\s)|->|\u2192")
# A job's number, perhaps with letters before it and zeros after a point. Three zeros may be thousands.
JOB = re.compile(r"((?:[^\W\d_]+[_.-]?)?)([0-9]{1,9})(?:\.(?!000\Z)0*)?")


def words_in(text: str) -> list[str]:
    """Return the words of a list. Where one is missing between commas or semicolons, it is empty.

    >>> words_in(" π = (J3; J1, J2)"), words_in("3-1-2"), words_in("3,,2")
    (['J3', 'J1', 'J2'], ['3', '1', '2'], ['3', '', '2'])
    """
    named = NAMED.match(text)
    match = LIST.fullmatch(text[named.end() if named else 0:].strip())
    inside = DASH.sub(" ", match[match.lastindex or 0]).strip() if match else ""
    parts = re.split("[,;]", inside[:-1] if inside.endswith((",", ";")) else inside)
    return [word for part in parts for word in part.split() or [""]]


def numbers_in(given: Any) -> list[int] | str:
    """Return the numbers of the jobs of an order, a text or a list, or why it can't be read.

    >>> numbers_in("[3, 1, 2]"), numbers_in("J3 J1 J2"), numbers_in([3.0, 1.0, 2.0]), numbers_in("3 x")
    ([3, 1, 2], [3, 1, 2], [3, 1, 2], "'x' at place 2 isn't the number of a job")
    """
    is_list = isinstance(given, Iterable) and not isinstance(given, (str, bytes, Set, Mapping))
    words = [str(job) for job in given] if is_list else words_in(given) if isinstance(given, str) else []
    if not any(words):
        is_text = isinstance(given, str) and given.strip()
        return f"{given[:40]!r} isn't a list of jobs" if is_text else "there is no order"
    found = [JOB.fullmatch(word) for word in words]
    for place, (word, match) in enumerate(zip(words, found), 1):
        if match is None or (found[0] is not None and match[1] != found[0][1]):
            return (f"{word[:20]!r} at place {place} isn't the number of a job" if len(words) > 1 else
                    f"{str(given)[:40]!r} isn't a list of jobs")
    return [int(match[2]) for match in found if match]
