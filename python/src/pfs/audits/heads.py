"""What the columns of a published table say: which line is the head, and which columns belong together."""
from __future__ import annotations

import re
from collections import Counter
from collections.abc import Iterable, Mapping, Sequence
from itertools import takewhile
from typing import Any, NamedTuple

# What a column may say, and the words for it. A makespan, an order and an RPD are those of a method.
ROLES = {"instance": "instance instances problem problems instanz instanzen testinstance",
         "makespan": "makespan makespans cmax gesamtdauer fertigstellungszeit",
         "order": "order sequence permutation schedule reihenfolge sequenz auftragsfolge π",
         "method": "method algorithm heuristic methode algorithmus heuristik verfahren", "block": "block",
         "rpd": "rpd arpd gap deviation abweichung", "reference": "reference ref referenz bks",
         "jobs": "n jobs aufträge", "machines": "m machines maschinen", "number": "no nr number nummer"}
MEANING = {word: role for role, words in ROLES.items() for word in words.split()}
OF_A_METHOD, OF_A_NAME = ("makespan", "order", "rpd"), ("jobs", "machines", "number")
NEEDED = {"instance": "instance (or problem)", "makespan": "makespan (or Cmax)",
          "order": "order (or sequence, permutation, Reihenfolge)"}
# A makespan where no other column says one, else the reference. What may be a makespan or an order.
UPPER, EITHER = ("ub", "upperbound", "bestknown"), ("solution", "lösung", "loesung")
# Words that belong to no method.
EMPTY = set("a beste bester bestes best final found h job known min name of s sec the time units value values".split())
# How many rows decide what a solution is.
MOST_SEEN = 20
# The head of the column of a place, as `3`, `p3`, `Job 3` or `π(3)`.
PLACE = re.compile(r"([^0-9]*?)([0-9]{1,4})\)?")
WORD = re.compile(r"[^\W\d_]+|[0-9]+|#")
CAMEL = re.compile(r"(?<=[a-zäöü])(?=[A-ZÄÖÜ])")
NUMBER = re.compile(r"[0-9]+(?:\.0*)?")


class Column(NamedTuple):
    """The place of a column, what it says, and whose it is, if its name says that."""

    at: int
    role: str
    whose: str = ""


class Columns(NamedTuple):
    """The columns of a method by their roles, the method's name or an empty text, and the columns with a job each."""

    places: dict[str, int]
    method: str
    jobs: list[int]


def meaning(name: str) -> tuple[str, str]:
    """Return what a column with this name says, or an empty text, and the words that say whose it is.

    >>> meaning("Cmax (s)"), meaning("Job sequence"), meaning("IG Makespan"), meaning("C_{max}"), meaning("seconds")
    (('makespan', ''), ('order', ''), ('makespan', 'IG'), ('makespan', ''), ('', 'seconds'))
    """
    text = re.sub(r"(?i)\bC[\s_\\{]*max\b", "Cmax", name)
    letters = re.sub(r"[\W\d_]", "", text.casefold())
    for role, words in (("upper", UPPER), ("either", EITHER), ("", ())):
        if letters in words or letters.removeprefix("best") in words:
            return role, ""
    plain = letters.removeprefix("best").removesuffix("name")
    words_of = [plain] if plain in MEANING else WORD.findall(CAMEL.sub(" ", text))
    roles = {MEANING[word.casefold()] for word in words_of if word.casefold() in MEANING}
    roles = roles - {*OF_A_NAME} or roles
    rest = [word for word in words_of if word.casefold() not in EMPTY and word.casefold() not in MEANING]
    return roles.pop() if len(roles) == 1 else "", " ".join(rest)


def places_in(head: Sequence[str]) -> list[int]:
    """Return the columns with a job for each place: two or more whose names count up from 0 or 1, or those without a
    name after an order's.

    >>> places_in(["instance", "Cmax", "p1", "p2", "p3"]), places_in(["Cmax", "Sequence", "", "", "RPD"])
    ([2, 3, 4], [1, 2, 3])
    """
    for at, name in enumerate(head):
        first = PLACE.fullmatch(name.strip())
        if first and int(first[2]) <= 1:
            alike = ((match[1], int(match[2])) == (first[1], int(first[2]) + turn) if match else False
                     for turn, match in enumerate(PLACE.fullmatch(other.strip()) for other in head[at:]))
            run = [at + turn for turn, _ in enumerate(takewhile(bool, alike))]
            if len(run) > 1:
                return run
        if meaning(name)[0] == "order":
            blanks = [*takewhile(lambda place: not head[place].strip(), range(at + 1, len(head)))]
            return [at, *blanks] if blanks else []
    return []


def columns_in(head: Sequence[str], above: Sequence[str], rows: Sequence[Sequence[Any]],
               named: Mapping[str, str]) -> list[Columns]:
    """Return the columns of each method of a table, by the names in its head and in the line above, and by its first
    rows. `named` has the names of columns by their roles. A `LookupError` says which columns say the same, or what a
    table lacks."""
    own = {plainly(name): role for role, name in named.items()}
    jobs = [] if "order" in named else places_in(head)
    found = [Column(jobs[0], "order")] if jobs else []
    for at, name in enumerate(head):
        role, whose = (own[plainly(name)], "") if plainly(name) in own else meaning(name)
        if role and at not in jobs and (role not in named or plainly(name) in own):
            found.append(Column(at, role, whose))
    has = {column.role for column in found}
    found = [made for column in found if (made := decided(column, has, rows)).role]
    if len({(column.role, column.whose) for column in found}) < len(found) and above:
        groups: list[str] = []
        for at in range(len(head)):
            groups.append(above[at].strip() if at < len(above) and above[at].strip() else groups[-1] if groups else "")
        found = [column._replace(whose=f"{groups[column.at]} {column.whose}".strip())
                 if column.role in OF_A_METHOD else column for column in found]
    places: dict[tuple[str, str], int] = {}
    for column in found:
        other = places.setdefault((column.role, column.whose), column.at)
        if other != column.at and column.role in (*NEEDED, "method", "block"):
            raise LookupError(f"the columns {head[other]!r} and {head[column.at]!r} both say the {column.role}")
    if lack := lacking(head, {column.role for column in found}):
        raise LookupError(lack)
    methods = methods_of(places, jobs)
    if not methods:
        texts = (", ".join(repr(head[at]) for (role, _), at in places.items() if role == each)
                 for each in ("makespan", "order"))
        raise LookupError("the makespans of {} have no common word with the orders of {}".format(*texts))
    return methods


def decided(column: Column, has: Iterable[str], rows: Sequence[Sequence[Any]]) -> Column:
    """Return a column that may say one or the other with what it says."""
    if column.role == "upper":
        return column._replace(role="reference" if "makespan" in has else "makespan")
    if column.role == "either":
        cells = [str(row[column.at]).strip() for row in rows[:MOST_SEEN] if column.at < len(row)]
        are_numbers = Counter(NUMBER.fullmatch(cell) is not None for cell in cells if cell)
        role = "makespan" if are_numbers[True] > are_numbers[False] else "order"
        return column._replace(role="" if role in has else role)
    return column


def methods_of(places: Mapping[tuple[str, str], int], jobs: list[int]) -> list[Columns]:
    """Return the columns of each method: of those whose makespan and order have the same words, or of the only one."""
    by_role: dict[str, dict[str, int]] = {}
    for (role, whose), at in places.items():
        by_role.setdefault(role, {})[whose] = at
    shared = {role: texts.get("", next(iter(texts.values()))) for role, texts in by_role.items()
              if role not in OF_A_METHOD}
    spans, orders, rpds = (by_role.get(role, {}) for role in OF_A_METHOD)
    both = [whose for whose in spans if whose in orders]
    if not both and len(spans) == len(orders) == 1:
        both = [*spans]
        orders = {both[0]: next(iter(orders.values()))}
    made = [Columns(shared | {"makespan": spans[whose], "order": orders[whose]},
                    whose if len(both) > 1 else "", jobs) for whose in both]
    for columns, whose in zip(made, both):
        if rpds and (whose in rpds or len(made) == len(rpds) == 1):
            columns.places["rpd"] = rpds.get(whose, next(iter(rpds.values())))
    return made


def lacking(head: Sequence[str], roles: Iterable[str]) -> str:
    """Return which columns a table lacks, and which it has, or an empty text."""
    has = {*roles} | ({"instance"} if {*OF_A_NAME} <= {*roles} else set())
    missing = [text for role, text in NEEDED.items() if role not in has]
    there = ", ".join(repr(name[:40]) for name in head[:20] if name)
    return f"no column {', '.join(missing)}" + (f", but {there}" if there else "") if missing else ""


def plainly(name: str) -> str:
    return " ".join(name.casefold().split())
