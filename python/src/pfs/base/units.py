"""Units of time, times with decimals, and whole numbers."""
from __future__ import annotations

import re
from collections.abc import Callable

# Units of time, in which machines may be named too, and how many seconds each has. Other words in brackets, as in
# "drill (left)", belong to the machine's name.
UNITS_OF_TIME = {unit: seconds for seconds, units in {
    1: "s sec secs second seconds sek sekunde sekunden seconde secondes segundo segundos secondo secondi",
    60: "min mins mn minute minutes minuten minuto minutos minuti h:mm",
    3_600: "h hr hrs hour hours std stunde stunden heure heures hora horas ora ore uur uren",
    86_400: "d day days tag tage jour jours día días dia dias giorno giorni dag dagen",
}.items() for unit in units.split()}
# The unit of times that are written as hours and minutes, such as 1:30, and counted in minutes.
CLOCK = "h:mm"


def seconds_in(unit: str) -> int | None:
    """Return the seconds in a unit of time, or None if it isn't one.

    >>> seconds_in("Min."), seconds_in("Zeit in h"), seconds_in("pieces")
    (60, 3600, None)
    """
    word = unit.casefold().rpartition(" in ")[2].strip().rstrip(".")
    return UNITS_OF_TIME.get(CLOCK if word == "hh:mm" else word)


def amount(time: int, decimals: int, unit: str) -> str:
    """Return a time with its decimals, or as hours and minutes, as text.

    >>> amount(125, 1, "h"), amount(5, 2, ""), amount(-5, 2, ""), amount(0, 1, ""), amount(90, 0, "h:mm")
    ('12.5', '0.05', '-0.05', '0.0', '1:30')
    """
    if unit == CLOCK:
        return f"{time // 60}:{time % 60:02}"
    if decimals == 0:
        return str(time)
    whole, part = divmod(abs(time), 10**decimals)
    return f"{'-' if time < 0 else ''}{whole}.{part:0{decimals}d}"


def whole(least: int, most: int) -> Callable[[str], int]:
    """What reads integers from `least` to `most`."""

    def read(text: str) -> int:
        if not re.fullmatch("[0-9]{1,30}", text) or not least <= int(text) <= most:
            raise ValueError(f"{text!r} is not a whole number from {least:,} to {most:,}")
        return int(text)

    return read
