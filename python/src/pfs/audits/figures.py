"""RPDs and means of published tables, recomputed. The RPD of a makespan is its excess over a reference, in percent."""
from __future__ import annotations

import math
import re
from collections import defaultdict
from collections.abc import Mapping

from pfs.audits.supplements import Given

FIGURE = re.compile(r"([+-]?[0-9]{1,15})(?:[.,]([0-9]{1,18}))?\s*%?")
NAMES = {"makespan": "the mean", "rpd": "the mean RPD", "reference": "the mean reference"}


class Figure:
    """A number as written, which stands for all that are rounded to it, or cut to it."""

    def __init__(self, text: str) -> None:
        match = FIGURE.fullmatch(text.strip())
        self.text, self.decimals = text.strip(), len(match[2] or "") if match else 0
        self.value = float(f"{match[1]}.{match[2] or 0}") if match else math.nan

    def is_near(self, value: float) -> bool:
        return abs(self.value - value) <= 0.5000001 * 10.0 ** -min(self.decimals, 9)

    def fits(self, value: float) -> bool:
        """Whether it is the number in percent, or as a share of 1, which a spreadsheet shows in percent."""
        return self.is_near(value) or self.is_near(value / 100) and self.decimals > 3


class Figures:
    """The numbers of each table's rows so far: as stated, and as computed."""

    def __init__(self) -> None:
        self.seen: dict[int, dict[str, list[tuple[float, float]]]] = defaultdict(lambda: defaultdict(list))
        self.parts: dict[int, dict[str, int]] = defaultdict(dict)

    def fault(self, given: Given, stated: int, figures: tuple[str, str], upper: int) -> str:
        """Return what is wrong with the RPD of a row, or an empty text. Its reference is that of the table, or else the
        best known makespan."""
        rpd, reference = Figure(figures[0]), Figure(figures[1])
        seen = self.seen[id(given)]
        seen["makespan"].append((stated, stated))
        if not math.isnan(reference.value):
            seen["reference"].append((reference.value, reference.value))
        least = reference.value if reference.value > 0 else upper
        if math.isnan(rpd.value) or not least:
            return ""
        value = 100 * (stated - least) / least
        seen["rpd"].append((rpd.value, value))
        digits = max(rpd.decimals, 2)
        return "" if rpd.fits(value) else f"RPD against {least:g}: states {rpd.text}, is {value:.{digits}f}"

    def faults_of_means(self, given: Given, texts: Mapping[str, str]) -> list[tuple[str, str]]:
        """Return the columns whose mean is wrong: neither that of all rows above nor of those since the last one."""
        found = []
        for role, name in NAMES.items():
            stated, seen = Figure(texts.get(role, "")), self.seen[id(given)][role]
            since = self.parts[id(given)].get(role, 0)
            self.parts[id(given)][role] = len(seen)
            lists = [rows for rows in (seen[since:], seen) if rows]
            means = [sum(row[kind] for row in rows) / len(rows) for rows in lists for kind in (1, 0)]
            if means and not math.isnan(stated.value) and not any(map(stated.fits, means)):
                found.append((role, f"{name}: states {stated.text}, is {means[0]:.{max(stated.decimals, 2)}f}"))
        return found
