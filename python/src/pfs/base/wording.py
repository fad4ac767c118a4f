"""What messages about tables call the arguments of the package: the options of a command line, or the controls of the
page for planners."""
from __future__ import annotations

import re

# Each argument with its option and its control.
WORDS = {
    "decimal": ("--decimal point or --decimal comma", "Decimal sign, above the table"),
    "allow_totals": ("--allow-totals", "the tick for sums, above the table"),
    "unit": ("--unit", "Unit of the times, above the table"),
    "machines": ("--machines", "the ticks above the columns"),
    "jobs": ("--jobs", "Column of the jobs, above the table"),
    "quantity": ("--quantity", "Column of quantities, above the table"),
    "setup": ("--setup", "Columns of set-ups, above the table"),
    "sheet": ("--sheet", "Sheet, above the table"),
    "decimals": ("--decimals", "Decimals, above the table"),
    "begin": ("--begin", '"Work begins"'),
    "shift": ("--shift", '"Shifts"'),
    "days": ("--days", '"Days"'),
    "closed": ("--closed", '"Holidays"'),
    "rest": ("--rest", '"Plan the rest"'),
    "now": ("--now", '"Now"'),
    "down": ("--down", '"down until"'),
}
ARGUMENT = re.compile(f"`({'|'.join(WORDS)})`")


def as_options(text: str) -> str:
    """A message with options in place of arguments.

    >>> as_options("round it (`decimals`)"), as_controls("round it (`decimals`)")
    ('round it (--decimals)', 'round it (Decimals, above the table)')
    """
    return ARGUMENT.sub(lambda found: WORDS[found[1]][0], text)


def as_controls(text: str) -> str:
    """A message with controls in place of arguments."""
    return ARGUMENT.sub(lambda found: WORDS[found[1]][1], text)
