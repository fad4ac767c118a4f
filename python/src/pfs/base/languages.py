"""The words of schedules and charts, which the shop floor reads, in English or another language."""
from __future__ import annotations

import importlib.resources
import os
from collections.abc import Callable
from typing import TypeAlias

from pfs.base.faults import TableFault, raise_all

# What returns a text in a language.
Say: TypeAlias = "Callable[[str], str]"
ENGLISH: Say = str
GERMAN = "words.de.txt"
# The most bytes of a file with words.
MOST_WORDS = 100_000


def words_of(language: str | os.PathLike[str]) -> Say:
    """Return what says the words of a language: ``"en"``, ``"de"``, or that of a file in UTF-8 like `words.de.txt`.
    Each of its lines has an English text, ``=``, and what to write instead. Texts that it lacks stay English."""
    if language == "en":
        return ENGLISH
    texts = texts_in(importlib.resources.files("pfs").joinpath(GERMAN).read_bytes(), GERMAN, None)
    if language != "de":
        try:
            with open(os.fspath(language), "rb") as file:
                texts = texts_in(file.read(MOST_WORDS), os.fspath(language), texts)
        except FileNotFoundError:
            raise ValueError(f"language must be 'en', 'de' or a file with words, not {os.fspath(language)!r}") from None
    return lambda text: texts.get(text, text)


def texts_in(content: bytes, path: str, known: dict[str, str] | None) -> dict[str, str]:
    """The texts of a file by the English ones, which are among the known ones. All faults are raised at once."""
    texts: dict[str, str] = {}
    faults: list[TableFault] = []
    for number, line in enumerate(content.decode("utf-8-sig", "surrogateescape").splitlines(), 1):
        english, sign, text = (part.strip() for part in line.partition("="))
        if not line.strip() or line.startswith("#"):
            continue
        fault = (f"isn't an English text, `=` and a text: {line!r}" if not sign or not text else
                 f"isn't printable text in UTF-8: {text!r}" if not text.isprintable() else
                 f"has {english!r} again" if english in texts else
                 f"has {english!r}, which no schedule or chart says" if known is not None and english not in known
                 else "")
        if fault:
            faults.append(TableFault(path, number, 0, fault))
        else:
            texts[english] = text
    raise_all(faults)
    return texts
