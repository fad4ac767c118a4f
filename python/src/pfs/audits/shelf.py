"""Instances by the names that tables give them."""
from __future__ import annotations

import contextlib
import os
import pathlib
from collections import defaultdict
from collections.abc import Iterable, Mapping
from typing import TypeAlias

from pfs.base.benchmarks import key_of, sized, taillard_number, taillard_rows
from pfs.base.faults import Fault
from pfs.binding import library as c
from pfs.files.instances import read, read_all, taillard
from pfs.shops.instance import Instance

LAYOUTS = (*c.LAYOUTS, "matrix")

Shops: TypeAlias = "str | os.PathLike[str] | Mapping[str, Instance] | Iterable[Instance]"


class Shelf:
    """Instances by their names. A name of different instances is unclear."""

    def __init__(self, shops: Shops, layout: str | None) -> None:
        # Of each name the instances, with their files.
        self.found: dict[str, list[tuple[Instance, str]]] = {}
        # The same by the numbers of jobs and machines and the number of the instance that a name gives.
        self.by_size: dict[tuple[int, int, int], dict[str, list[tuple[Instance, str]]]] = defaultdict(dict)
        # Why a file isn't an instance.
        self.unread: dict[str, str] = {}
        if isinstance(shops, (str, os.PathLike)):
            self.add_folder(pathlib.Path(shops), layout)
            return
        named = shops.items() if isinstance(shops, Mapping) else ((getattr(shop, "name", ""), shop) for shop in shops)
        for name, shop in named:
            if not isinstance(shop, Instance) or not isinstance(name, str):
                raise TypeError(f"shops must be instances by their names, not {shop!r} by {name!r}")
            if not key_of(name):
                raise ValueError(f"{shop!r} has no name")
            self.add(shop, name)

    def add(self, shop: Instance, *names: str, file: str = "") -> None:
        """Add an instance with names. The same times again are the same instance."""
        for key in {*map(key_of, names)}:
            known = self.found.setdefault(key, [])
            if (size := sized(key)) and size[1:3] == (shop.jobs, shop.machines):
                self.by_size[size[1:]][size[0]] = known
            if not any((one.times.shape == shop.times.shape) and (one.times == shop.times).all() for one, _ in known):
                known.append((shop, file))

    def add_folder(self, folder: pathlib.Path, layout: str | None) -> None:
        if not folder.is_dir():
            raise ValueError(f"{folder} is not a folder")
        for path in sorted(folder.rglob("*")):
            if not path.is_file():
                continue
            try:
                shops = shops_in(path, [layout] if layout else LAYOUTS)
            except (Fault, OSError) as error:
                self.unread[key_of(path.name)] = str(error)
                continue
            for block, shop in enumerate(shops, 1):
                file = [path.name] if len(shops) == 1 else []
                title = [shop.name] if shop.name != f"{path.name} {block}" else []
                known = known_instance(shop)
                self.add(known or shop, f"{path.name}:{block}", *file, *title, *([known.name] if known else []),
                         file=str(path.relative_to(folder)))

    def get(self, name: str, block: str) -> Instance:
        """Return the instance of this name. A `LookupError` says why there is none."""
        key = key_of(name, block)
        known = self.found.get(key) or self.of_size(key)
        number = taillard_number(key)
        if not known and number:
            self.add(taillard(number), key)
            known = self.found[key]
        if len(known) > 1:
            files = ", ".join(file for _, file in known if file)
            raise LookupError(f"{name[:40]!r} is the name of {len(known)} different instances"
                              + (f": {files}" if files else ""))
        if not known:
            blocks = sum(other.startswith(f"{key}:") for other in self.found)
            why = f": its file has {blocks} blocks, so write {name}:1 or a column `block`" if blocks else ""
            why = f": {self.unread[key.partition(':')[0]]}" if key.partition(":")[0] in self.unread else why
            raise LookupError(f"no instance {f'{name}:{block}'[:40] if block else name[:40]!r}{why}")
        return known[0][0]

    def of_size(self, key: str) -> list[tuple[Instance, str]]:
        """Return the instances with a number among those of their size: of the benchmark that the name begins with, of
        any if it has none, or else of Taillard's."""
        benchmark, *size = sized(key) or ("", 0, 0, 0)
        lists = self.by_size.get((size[0], size[1], size[2]), {})
        known = [each for other, same in lists.items() if benchmark in ("", other) for each in same]
        own = [number for number, row in enumerate(taillard_rows(), 1) if [*row[1:3]] == size[:2]]
        if not known and benchmark in ("", "ta", "tai") and 0 < size[2] <= len(own):
            return [(taillard(own[size[2] - 1]), "")]
        return [each for at, each in enumerate(known) if not any(each[0] is other for other, _ in known[:at])]

    def find(self, name: str) -> Instance | None:
        """Return the instance of this name, if it is clear."""
        with contextlib.suppress(LookupError):
            return self.get(name, "")
        return None


def shops_in(path: pathlib.Path, layouts: Iterable[str]) -> list[Instance]:
    """Return the instances of a file in the first layout that it follows; no file follows two."""
    faults: list[Exception] = []
    for layout in layouts:
        try:
            return [read(path, layout)] if layout == "matrix" else read_all(path, layout)
        except Fault as fault:
            faults.append(fault)
    raise faults[0]


def known_instance(shop: Instance) -> Instance | None:
    """Return Taillard's instance with these times, with its name and best known makespan."""
    for number, (_, jobs, machines, seed, *_) in enumerate(taillard_rows(), 1):
        if (jobs, machines, seed) == (shop.jobs, shop.machines, shop.seed):
            known = taillard(number)
            return known if (known.times == shop.times).all() else None
    return None
