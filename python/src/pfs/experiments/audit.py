"""Audits of published orders."""
from __future__ import annotations

import contextlib
import math
import os
import pathlib
from collections.abc import Iterable, Mapping
from typing import Any

from pfs.audits.audit import Audited, Row as AuditedRow, Unclear, audited_of, rows_of, understood
from pfs.audits.heads import ROLES
from pfs.audits.shelf import Shelf
from pfs.audits.supplements import sheet_of
from pfs.base.benchmarks import Best, best_in
from pfs.base.cells import text_cell
from pfs.base.faults import Fault, cell_name
from pfs.experiments import ExperimentError, Options, csv_text, folders, plain
from pfs.experiments.plan import Row
from pfs.experiments.run import path_cell
from pfs.files.instances import read, read_order
from pfs.shops.instance import Instance, taillard_name


def verdicts(table: Any, shops: Any, layout: str | None = None, first: int | None = None,
             columns: Mapping[str, str] | None = None) -> tuple[list[Audited], list[str]]:
    """Returns the verdict on each order of a table, and what is left out of it."""
    try:
        return audited_of(table, shops, layout, first, columns)
    except ValueError as error:
        raise ExperimentError(str(error)) from None


def columns_of(options: Iterable[str]) -> dict[str, str]:
    """Returns the names of columns by their roles, of options ROLE=NAME."""
    found: dict[str, str] = {}
    for role, is_pair, name in (option.partition("=") for option in options):
        if role not in ROLES or not is_pair or not name.strip() or found.setdefault(role, name) != name:
            raise ExperimentError(f"--column {role}{is_pair}{name}: write ROLE=NAME once for a role: "
                                  f"{', '.join(ROLES)}")
    return found


def audit(args: Options) -> int:
    """Audits a table of published orders. Prints each one that is wrong, unclear or below the reference, what is left
    out, and the numbers of orders; a CSV has the verdict on each. A dry run only prints how the table is read."""
    read = {args.table, *(args.instances.rglob("*") if args.instances else ())}
    folders.check_output(args.csv, [*read, *(pathlib.Path(args.table).rglob("*") if os.path.isdir(args.table) else ())])
    columns = columns_of(args.column)
    if args.dry_run:
        return print_understood(args, columns)
    found, left_out = verdicts(args.table, args.instances or (), args.layout, args.first, columns)
    if args.csv:
        rows = [[text_cell(cell) if isinstance(cell, str) else cell for cell in row] for row in found]
        folders.write_text(args.csv, csv_text([["line", *Audited._fields[1:]], *rows]))
    if args.best:
        keep_best(args, columns, found)
    for row in found:
        if row.why:
            sheet, name = f"{sheet_of(row.sheet)}, " if row.sheet else "", f"{row.instance} {row.method}".strip()
            print(plain(f"{sheet}line {row.row}{', ' if name else ''}{name}: {row.verdict}: {row.why}"))
    for text in left_out:
        print(plain(text))
    figures = sum(row.verdict in ("wrong RPD", "wrong mean") for row in found)
    orders = [row for row in found if row.verdict not in ("mean", "wrong mean")]
    valid, unclear = [row for row in orders if row.valid], sum(row.verdict == "unclear" for row in orders)
    optimal, wrong = sum(row.makespan == row.bound for row in valid), len(orders) - len(valid) - unclear
    print(plain(f"{args.table}: {len(orders) - unclear} orders audited, {len(valid)} valid ({optimal} optimal), "
                f"{wrong} wrong")
          + (f"; {unclear} row{'s are' if unclear > 1 else ' is'} unclear, and not audited" if unclear else "")
          + (f"; {figures} RPD{'s or means are' if figures > 1 else ' or mean is'} wrong" if figures else ""))
    return 1 if wrong or figures else 2 if unclear else 0


def keep_best(args: Options, columns: Mapping[str, str], found: list[Audited]) -> None:
    """Puts each valid order that is shorter than the one of its instance into a table of Taillard's instances, and
    prints it. Its bound stays; who proves it optimal adds the nodes."""
    try:
        best = {row.instance: row for row in best_in(pathlib.Path(args.best).read_text("utf-8"))}
        shelf, tables, _ = understood(args.table, args.instances or (), args.layout, columns)
    except ValueError as error:
        raise ExperimentError(f"{args.best}: {error}") from None
    valid = {(row.sheet, row.row) for row in found if row.valid}
    rows = [row for given in tables for row in rows_of(given, shelf)
            if isinstance(row, AuditedRow) and (given.sheet, row.at) in valid]
    for row in rows:
        known = best.get(taillard_name(row.shop))
        if known is None:
            continue
        jobs = [number - min(row.numbers) for number in row.numbers]
        makespan = row.shop.makespan(jobs)
        if makespan < int(known.makespan):
            best[known.instance] = Best(known.instance, str(makespan), known.bound, "", text_cell(row.method), "", "",
                                        " ".join(str(job + 1) for job in jobs))
            print(plain(f"{args.best}: {known.instance}: {makespan}, not {known.makespan}"))
    folders.write_text(args.best, csv_text([Best._fields, *best.values()]))


def print_understood(args: Options, columns: Mapping[str, str]) -> int:
    """Prints which columns and instances an audit would read."""
    try:
        shelf, tables, left_out = understood(args.table, args.instances or (), args.layout, columns)
    except ValueError as error:
        raise ExperimentError(str(error)) from None
    names: dict[str, str] = {}
    for given in tables:
        rows = [*rows_of(given, shelf)]
        where = f"{sheet_of(given.sheet)}, " if given.sheet else ""
        own = given.columns.jobs
        said = [f"{role} in column{f's {letters(own[0])} to {letters(own[-1])}' if is_own else f' {letters(at)}'} "
                f"{given.head[at]!r}" for role, at in given.columns.places.items()
                for is_own in [role == "order" and bool(own)]]
        head = [f"names in line {given.line}", *[f"method {given.columns.method}"] * bool(given.columns.method), *said]
        print(plain(f"{where}{len(rows)} row{'s' * (len(rows) > 1)}: "
                    + (", ".join(head) if given.line else "an order of the instance that the file names")))
        for row in rows:
            if isinstance(row, (AuditedRow, Unclear)) and row.shop:
                shop = row.shop
                names[row.instance] = f"{shop.name or row.instance}, {shop.jobs} jobs on {shop.machines} machines"
            elif isinstance(row, Unclear):
                faults = (text for role, text in row.faults if role in ("instance", "number"))
                names.setdefault(row.instance, next(faults))
    for name, text in names.items():
        print(plain(f"instance {name!r}: {text}"))
    for text in left_out:
        print(plain(text))
    return 0


def letters(column: int) -> str:
    return cell_name(1, column + 1)[:-1]


# The CSVs of a report

def shops_of(path: str) -> dict[str, Instance]:
    """Returns the instances in the folder next to the CSV of an experiment, by their names there; none if the folder is
    missing, damaged or of another version."""
    with contextlib.suppress(ExperimentError, OSError, Fault):
        experiment = folders.started(path)
        runs = {path_cell(run["instance"]): run for run in experiment.runs if run["jobs"]}
        return {name: read(experiment.folder / experiment.stage / run["file"], run["layout"], int(run["block"]))
                for name, run in runs.items()}
    return {}


def orders_of(rows: list[Row]) -> tuple[list[str], list[float]]:
    """Returns the order of each row of CSVs that has one and whose instance is at hand, next to one of the CSVs or as
    one of Taillard's; an empty text for the others. And the bound of each such instance, which is NaN for the others. A
    wrong order is an error. Rows have the columns `path` and `line`, and no makespan if the run failed."""
    own = {path: shops_of(path) for path in dict.fromkeys(row["path"] for row in rows)}
    shelf, shops, orders, table = Shelf((), None), dict[str, Instance](), [""] * len(rows), []
    bounds = [math.nan] * len(rows)
    for name, shop in (each for found in own.values() for each in found.items()):
        shelf.add(shop, name)
    for at, row in enumerate(rows):
        found = own[row["path"]].get(row["instance"]) or shelf.find(row["instance"])
        orders[at] = order_of(row["path"], row["order"]) if found and row["makespan"] else ""
        if found and orders[at]:
            if float(row["makespan"]) % 1:
                raise ExperimentError(f"{row['path']}: line {row['line']}, {row['instance']}: the makespan of an order "
                                      "is whole")
            shops[str(at)] = found
            table.append({"instance": str(at), "method": f"{row['path']} {row['method']}", "order": orders[at],
                          "makespan": row["makespan"]})
    for each in verdicts(table, shops)[0]:
        bounds[int(each.instance)] = each.bound or 0
        if not each.valid:
            row = rows[int(each.instance)]
            raise ExperimentError(f"{row['path']}: line {row['line']}, {row['instance']}: {each.verdict}: {each.why}")
    return orders, bounds


def order_of(path: str, cell: str) -> str:
    """Returns an order of a CSV: a list, or that of an order file, which is empty if the file is gone."""
    file = pathlib.Path(path).parent / cell
    if "/" not in cell:
        return cell
    try:
        return " ".join(str(job + 1) for job in read_order(file).order.tolist()) if file.exists() else ""
    except Fault as fault:
        raise ExperimentError(f"{path}: {fault}") from None
