"""The report of CSVs of experiments or of other programs: its tables and plots, most of them of relative percentage
deviations (RPD). Runs that failed are only counted."""
from __future__ import annotations

import functools
import itertools
import math
import os
import pathlib
import re
import sys
import textwrap
from collections.abc import Callable
from typing import Any, TypeAlias

import matplotlib
import numpy as np
import pandas as pd
from matplotlib.figure import Figure
from matplotlib.ticker import NullLocator

from pfs.base.atomic import atomic_write
from pfs.base.benchmarks import canonical, taillard_rows
from pfs.base.cells import text_cell
from pfs.base.version import VERSION
from pfs.experiments import ExperimentError, Options, csv_text, listed, plain, statistics
from pfs.experiments.folders import check_output, folder_of, write_text
from pfs.experiments.plan import MOST_MAKESPAN, Row, reference_for, reference_of, rows_of
from pfs.experiments.run import path_cell, proofs_of
from pfs.experiments.statistics import SETTING, SIZE, setting_names, size_name
from pfs.schedules.drawing import picture_of

# The tables that are written as CSV.
TABLES = ("table", "instances", "best", "comparison", "ranks", "sizes")
GROUP = ["method", *SIZE, "rounds", "take", "passes", "time_factor"]
# The greatest value of each column of numbers, and the least of those that may be below 0. The first ones are whole.
GREATEST = {"jobs": 10 ** 6, "machines": 10 ** 6, "rounds": 10 ** 9, "take": 10 ** 6, "passes": 10 ** 6,
            **dict.fromkeys(("bound", "proved_bound", "reference"), MOST_MAKESPAN), "cells": 2 ** 64 - 1,
            "makespan": MOST_MAKESPAN, "seconds": 1e12, "time_factor": 1e12, "gap_percent": 1e20, "rpd": 1e20}
LEAST, WHOLE = {"gap_percent": -100, "rpd": -100}, list(GREATEST)[:9]
NUMBER = r" *-?[0-9]+(?:\.[0-9]*)?(?:[eE][+-]?[0-9]{1,3})? *"
# The decimals of the columns of tables.
DECIMALS = {"mean_seconds": "{:.4f}", "mean_rank": "{:.2f}", "critical_difference": "{:.2f}", "time_factor": "{:g}",
            "p": "{:.4g}", "p_holm": "{:.4g}",
            **dict.fromkeys(("makespan", "best", "mean", "deviation"), "{:.15g}")}
LATEX = {"\\": r"\textbackslash{}", "~": r"\textasciitilde{}", "^": r"\textasciicircum{}", "×": r"$\times$",
         "<": r"\textless{}", ">": r"\textgreater{}", "|": r"\textbar{}", '"': "''",
         **{sign: f"\\{sign}" for sign in "&%$#_{}"}}

# The same runs give the same bytes on every machine. The fonts of a PDF are TrueType. No name is shown as a formula.
SETTINGS = {"svg.fonttype": "none", "svg.hashsalt": "pfs", "pdf.fonttype": 42, "axes.grid": True, "grid.alpha": 0.3,
            "axes.spines.top": False, "axes.spines.right": False, "font.size": 9, "text.parse_math": False,
            **dict.fromkeys(("axes.titlesize", "figure.labelsize"), 9), "figure.titlesize": 10,
            **dict.fromkeys(("legend.fontsize", "legend.title_fontsize"), 8), "legend.frameon": False,
            "legend.handlelength": 3, "legend.columnspacing": 1, "legend.borderaxespad": 0}
# The approximate width and height of a letter in inches, and the most letters of a name in a picture.
WIDE, HIGH, LONGEST = 0.077, 0.17, 40
# Shorter times can't be measured.
LEAST_SECONDS = 1e-9
# A trajectory, and the points of the line that is the mean of several.
WAY = re.compile(r"[0-9]{1,9}(?:\.[0-9]{1,9})?:[0-9]{1,18}(?: [0-9]{1,9}(?:\.[0-9]{1,9})?:[0-9]{1,18})*")
WAY_POINTS = 300

# The share of the time of a run after which a first order is late.
LATE = 0.05

# Figures, axes and colours of matplotlib, which has no types.
Axis: TypeAlias = Any


def report(args: Options) -> int:
    """Writes the tables and the plots."""
    if len({*map(os.path.realpath, args.csv)}) < len(args.csv):
        raise ExperimentError("a CSV is named twice, and its runs would count twice")
    for name in TABLES:
        check_output(args.folder / f"{name}.csv", [*args.csv, args.reference], "folder")
    means = [path for path in args.csv if "rpd" in (columns := rows_of(path, [])[0]) and "instance" not in columns]
    if len(means) == len(args.csv):
        raise ExperimentError("published means are columns beside the runs of another CSV")
    runs, note, basis = read([path for path in args.csv if path not in means], args.reference)
    done = runs.dropna(subset=["makespan"])
    note += late_starts(done)
    shared, lacking = in_common(done[done["rpd"].notna()])
    compared = statistics.compared(done)
    args.folder.mkdir(parents=True, exist_ok=True)
    texts = [write_table(args.folder / "table", table_of(runs), note)]
    if done.empty:
        print("pfs-experiments report: no run succeeded: nothing to plot", file=sys.stderr)
        return 1
    best = pd.concat([done[done["order"] != ""], proved_orders(done)]).sort_values(["instance", "makespan"],
                                                                                  kind="stable")
    best = best.drop_duplicates("instance")
    for name, table in (("instances", by_instance(done)), ("best", best[["instance", "method", "makespan", "order"]])):
        if len(table):
            write_text(args.folder / f"{name}.csv", csv_of(cells_of(table)))
    ranks = statistics.ranked(shared) if len(shared) else shared
    for name, table, text in (("comparison", compared, statistics.NOTE), ("ranks", ranks, statistics.RANKS)):
        if len(table):
            texts.append(write_table(args.folder / name, table, text))
    if len(shared):
        write_sizes(shared, [*map(published, means)], args.folder, lacking, basis)
    elif lacking:
        print(f"pfs-experiments report: no table of sizes: {plain(lacking)}", file=sys.stderr)
    plot(done, shared, args.folder, args.format, args.width, args.dpi, not args.no_title)
    print("".join(texts), end="")
    return 0


# Reading

def proved_orders(done: pd.DataFrame) -> pd.DataFrame:
    """Returns the orders that `prove` has found next to the CSVs, audited, as runs of their own."""
    rows = [{"instance": instance, "path": path, "line": "", "method": f"proved by pfs {VERSION}",
             "makespan": str(proof["makespan"]), "order": f"{folder_of(path).name}/{proof['order']}", "given": name}
            for path, name, instance in dict.fromkeys(zip(done["path"], done["given"], done["instance"]))
            for proof in [proofs_by(path).get(name, {})] if proof.get("order")]
    orders, _ = orders_of([row | {"instance": row["given"]} for row in rows]) if rows else ([], [])
    return pd.DataFrame([row | {"order": order, "makespan": float(row["makespan"])} for row, order in zip(rows, orders)
                         if order])


def read(paths: list[str], reference_path: str | None) -> tuple[pd.DataFrame, str, str]:
    """Returns the runs of all CSVs with their RPD, a note on their reference, and which it is. Unknown values of a
    setting are -1, other ones NaN. The size of an instance may come from any of the CSVs."""
    stems = [pathlib.Path(path).stem for path in paths]
    runs = pd.concat([read_one(path, path if stems.count(stem) > 1 else stem) for path, stem in zip(paths, stems)],
                     ignore_index=True)
    runs["order"], runs["own_bound"] = orders_of(runs["row"].tolist())
    runs["audited"] = runs["order"] != ""
    lasts = runs["instance"].map(canonical)
    if len(paths) > 1 and runs["instance"].groupby([runs["method"], lasts]).nunique().max() == 1:
        runs["instance"] = lasts
    runs[SIZE] = runs[SIZE].fillna(runs.groupby("instance")[SIZE].transform("first"))
    taillards = taillards_of(runs)
    runs[SIZE] = runs[SIZE].fillna(taillards[SIZE])
    proofs = [proofs_by(path).get(name, {}) for path, name in zip(runs["path"], runs["given"])]
    runs["proved"] = [float(proof.get("bound", "nan")) for proof in proofs]
    runs["optimum"] = runs["proved"].where([proof.get("bound") == proof.get("makespan") for proof in proofs])
    check_bounds(runs, taillards["bound"])
    runs["optimal"] = runs["makespan"] == runs[["own_bound", "proved"]].max(axis=1)
    runs["reference"], basis = references(runs, taillards["best"], reference_path)
    rpds = 100 * (runs["makespan"] - runs["reference"]) / runs["reference"]
    runs["rpd"] = rpds.mask(runs["makespan"] == runs["reference"], 0).replace(float("inf"), float("nan"))
    lost = runs[runs["makespan"].notna() & runs["reference"].isna()]
    names = list(map(markdown, lost["instance"].unique()))
    note = markdown(basis).replace(r"\`", "`")
    if names:
        note += f"\n{len(lost)} runs of {len(names)} instances have no reference, and no RPD: {listed(names)}."
    below = runs[runs["makespan"] < runs["reference"]].groupby("instance")[["makespan", "reference"]].min()
    if len(below):
        names = [f"{markdown(name)} {span:.15g} ({reference:.0f})" for name, span, reference in below.itertuples()]
        note += f"\nBelow the reference: {listed(names)}."
    return runs.fillna(dict.fromkeys(GROUP, -1)), note, basis


def late_starts(done: pd.DataFrame) -> str:
    """Returns a sentence on each method whose first order comes after `LATE` of the time of a run, in the median."""
    runs = done[done["way"].notna() & (done["time_factor"] > 0)]
    limits = runs["jobs"] * runs["machines"] / 2 * runs["time_factor"] / 1000
    shares = runs["way"].map(lambda way: way[0][0]) / limits
    late = shares.groupby(runs["method"]).median()
    return "".join(f"\nThe first order of {markdown(name)} comes after {100 * share:.0f} % of the time: its start "
                   "counts as search." for name, share in late[late > LATE].items())


def orders_of(rows: list[Row]) -> tuple[list[str], list[float]]:
    """Returns the audited orders and the bounds of rows; none without the library."""
    try:
        from pfs.experiments.audit import orders_of
    except ImportError:
        return [""] * len(rows), [float("nan")] * len(rows)
    return orders_of(rows)


@functools.cache
def proofs_by(path: str) -> dict[str, Any]:
    """Returns what `prove` has proved next to a CSV, by the instances' names in it."""
    return {path_cell(name): {**proof} for name, proof in proofs_of(folder_of(path)).items()}


def published(path: str) -> pd.DataFrame:
    """Returns published means of the RPD, with a row for each size and a column for each method."""
    read = pd.DataFrame({"method": "", **row} for row in rows_of(path, [*SIZE, "rpd"]))
    means = read[["method"]].replace("", pathlib.Path(path).stem).join(numbers_in(read, [*SIZE, "rpd"], path))
    return means.pivot_table(index=SIZE, columns="method", values="rpd")


def read_one(path: str, name: str) -> pd.DataFrame:
    """Reads the runs of a CSV. The results of a run that failed are unknown."""
    usual = {"method": "", "seed": "", "status": "ok", "order": "", "trajectory": "", **dict.fromkeys(GREATEST, "")}
    read = pd.DataFrame({**usual, **row, "path": path, "line": str(line)}
                        for line, row in enumerate(rows_of(path, ["instance", "makespan"]), 2))
    read.loc[read["status"].ne("ok") | read["makespan"].eq(""), ["makespan", "cells", "gap_percent", "seconds"]] = ""
    runs = read[["instance", "seed", "path"]].assign(given=read["instance"], method=read["method"].replace("", name),
                                                     row=read.to_dict("records"))
    runs = runs.join(numbers_in(read, list(GREATEST), path))
    runs["way"] = [way_of(*row) for row in zip(read["trajectory"], runs["makespan"], read["line"], read["path"])]
    runs.loc[runs["time_factor"].notna(), "rounds"] = float("nan")
    return runs


def way_of(text: str, makespan: float, line: str, path: str) -> list[tuple[float, float]] | None:
    """Returns the seconds and makespans of a trajectory, each later and shorter, up to the makespan of the run."""
    if not text or makespan != makespan:
        return None
    pairs = [tuple(map(float, point.split(":"))) for point in text.split(" ")] if WAY.fullmatch(text) else []
    if not pairs or pairs[-1][1] != makespan or any(
            second[0] < first[0] or second[1] >= first[1] for first, second in itertools.pairwise(pairs)):
        raise ExperimentError(f"{path}: line {line}: the trajectory must be SECONDS:MAKESPAN for each better makespan, "
                              "up to that of the run")
    return [(seconds, makespan) for seconds, makespan in pairs]


def numbers_in(read: pd.DataFrame, columns: list[str], path: str) -> pd.DataFrame:
    """Returns the numbers of these columns. Empty cells are unknown."""
    found = {}
    for column in columns:
        given = read[column][read[column] != ""]
        found[column] = values = given.where(given.str.fullmatch(NUMBER)).astype(float)
        least, most = LEAST.get(column, 0), GREATEST[column]
        for text in given[~values.between(least, most) | ((column in WHOLE) & (values % 1 != 0))]:
            raise ExperimentError(f"{path}: {text[:40]!r} is not a number of the column {column}, from {least:g} to "
                                  f"{most:g}")
    return pd.DataFrame(found, index=read.index)


def taillards_of(runs: pd.DataFrame) -> pd.DataFrame:
    """Returns what is known of each run's instance if it is one of Taillard's, by its name and its size."""
    table = pd.DataFrame(taillard_rows(), columns=["name", *SIZE, "seed", "bound", "best"])
    own = table.set_index("name").reindex(runs["instance"].map(canonical)).set_index(runs.index)
    return own.where((runs[SIZE].isna() | (runs[SIZE] == own[SIZE])).all(axis=1))


def check_bounds(runs: pd.DataFrame, taillards: pd.Series) -> None:
    """Rejects a makespan below the bound that a CSV has for its instance, or that of Taillard's instance."""
    stated = runs[["bound", "proved_bound", "proved"]].max(axis=1).groupby(runs["instance"]).transform("max")
    bounds = pd.concat([stated, taillards], axis=1).max(axis=1)
    for _, run in runs[runs["makespan"] < bounds].iterrows():
        raise ExperimentError(f"{run['method']}: the makespan {run['makespan']:.0f} of {run['instance']} is below the "
                              f"bound {bounds[run.name]:.0f}: no order has it")


def in_common(done: pd.DataFrame) -> tuple[pd.DataFrame, str]:
    """Returns the runs of the instances and seeds that all settings have, and a sentence on what settings lack."""
    shared, lacking = statistics.common(done)
    settings = list(dict.fromkeys(done[SETTING].itertuples(index=False, name=None)))
    parts = [f"{name} lacks runs of {listed(lacking[setting])}"
             for setting, name in zip(settings, setting_names(settings)) if setting in lacking]
    return shared, f"Compared are the instances and seeds that all have: {'; '.join(parts)}." if parts else ""


def references(runs: pd.DataFrame, taillards: pd.Series, path: str | None) -> tuple[pd.Series, str]:
    """Returns the reference of each run, and a sentence that says which it is. If no instance has one, it is the best
    makespan of the runs; else the others have none, as the best of few runs would make these look good."""
    done = runs[runs["makespan"].notna()]
    stated = reference_of(path) if path else {}
    kinds = pd.DataFrame({
        f"the optimum that pfs {VERSION} has proved": done.groupby("instance")["optimum"].transform("first"),
        f"the makespan in {path}": done["instance"].map({name: found[0] for name in done["instance"].unique()
                                                         for found in [reference_for(stated, name)] if found}),
        "the makespan in the column `reference`": done.groupby("instance")["reference"].transform("first"),
        "the best known makespan of Taillard's instance": taillards[done.index]}, dtype=float)
    # An optimum, or else the least that is known.
    found = kinds.iloc[:, 0].fillna(kinds.iloc[:, 1:].min(axis=1))
    used = (kinds.eq(found, axis=0) & (kinds.eq(found, axis=0).cumsum(axis=1) == 1)).any()
    used.iloc[1] |= path is not None
    if not used.any():
        best_of_runs = done.groupby("instance")["makespan"].transform("min")
        return best_of_runs.reindex(runs.index), "RPD: relative to the best makespan of any of these runs."
    return found.reindex(runs.index), f"RPD: relative to {', or else '.join(kinds.columns[used])}."


# Tables

def table_of(runs: pd.DataFrame) -> pd.DataFrame:
    """Returns the table by method, size and setting."""
    table = runs.groupby(GROUP).agg(
        runs=("makespan", "count"), failed=("makespan", lambda spans: spans.isna().sum()), audited=("audited", "sum"),
        mean_rpd_percent=("rpd", "mean"), greatest_rpd_percent=("rpd", "max"), mean_gap_percent=("gap_percent", "mean"),
        greatest_gap_percent=("gap_percent", "max"), mean_seconds=("seconds", "mean"), optimal=("optimal", "sum"))
    return table.drop(columns=[] if runs["proved"].notna().any() else "optimal").reset_index()


def by_instance(done: pd.DataFrame) -> pd.DataFrame:
    """Returns the table by instance and setting."""
    return done.groupby(["instance", *GROUP]).agg(
        runs=("makespan", "count"), best=("makespan", "min"), mean=("makespan", "mean"), deviation=("makespan", "std"),
        mean_rpd_percent=("rpd", "mean")).reset_index()


def write_sizes(shared: pd.DataFrame, published: list[pd.DataFrame], folder: pathlib.Path, lacking: str,
                basis: str) -> None:
    """Writes the mean RPD, a row for each size and a column for each setting, and means of the columns that have all
    sizes. Where there are several seeds, it is the mean of their means, with the standard deviation of these."""
    by_seed = shared.pivot_table(index=[*SIZE, "seed"], columns=SETTING, values="rpd").groupby(level=SIZE)
    means, spread = by_seed.mean(), by_seed.std()
    means, spread = (each.set_axis(setting_names(list(means.columns)), axis=1) for each in (means, spread))
    for each in published:
        means = means.join(each, rsuffix=" (published)")
    heads = ["jobs×machines", *means.columns]
    last = ["mean", *(cell("rpd", value) for value in means.mean(skipna=False))]
    write_text(folder / "sizes.csv", csv_of([heads, *([size_name(size), *(cell("rpd", value) for value in row)]
                                                      for size, row in zip(means.index, means.to_numpy())), last]))
    rows = [[size_name(size), *(with_spread(means.at[size, name], spread[name].get(size, float("nan"))
                                            if name in spread else float("nan")) for name in means.columns)]
            for size in means.index] + [last]
    note = sizes_note(shared, published, lacking, basis)
    write_text(folder / "sizes.md", markdown_of([heads, *rows], markdown(note)))
    lines = [" & ".join(row) + r" \\" for row in [map(stacked, heads), *(map(latex, row) for row in rows)]]
    write_text(folder / "sizes.tex", "\n".join([
        r"% \usepackage{booktabs}", rf"\begin{{tabular}}{{l{'r' * (len(heads) - 1)}}}", r"\toprule", lines[0],
        r"\midrule", *lines[1:-1], r"\midrule", lines[-1], r"\bottomrule", r"\end{tabular}",
        rf"{{\par\footnotesize {latex(note)}\par}}", ""]))


def with_spread(mean: float, spread: float) -> str:
    """Returns a mean with its standard deviation, if there is one.

    >>> with_spread(0.4834, 0.0376), with_spread(0.5, float("nan"))
    ('0.483 ± 0.038', '0.500')
    """
    return cell("rpd", mean) + (f" ± {cell('rpd', spread)}" if spread == spread else "")


def sizes_note(shared: pd.DataFrame, published: list[pd.DataFrame], lacking: str, basis: str) -> str:
    """Returns what the table of sizes is of."""
    counts = shared.groupby(SIZE)["instance"].nunique()
    instances = (f"{counts.iloc[0]} instances of each size" if counts.nunique() == 1 else
                 "instances: " + ", ".join(f"{size_name(size)} {count}" for size, count in counts.items()))
    seeds = shared.loc[shared["rounds"] != 0, "seed"].nunique()
    factors = sorted({*shared["time_factor"]} - {-1})
    made = [instances, f"{seeds} seeds: the mean of their means ± its standard deviation" if seeds > 1 else "1 seed",
            *([f"time factor {', '.join(f'{factor:g}' for factor in factors)}"] if factors else []), f"pfs {VERSION}"]
    stated = sorted(set(shared.loc[~shared["audited"], "method"]).union(*published))
    text = f"Mean RPD, %, {basis.removeprefix('RPD: ').replace('`', '')} {'; '.join(made).capitalize()}."
    return " ".join([text, *filter(None, [lacking]),
                     *([f"Not audited, only stated: {', '.join(stated)}."] if stated else [])])


def write_table(path: pathlib.Path, table: pd.DataFrame, note: str) -> str:
    """Writes a table as CSV and as Markdown, and returns the latter. There the names of the columns are words."""
    columns, *rows = cells_of(table)
    write_text(path.with_suffix(".csv"), csv_of([columns, *rows]))
    heads = [column.replace("_percent", ", %").replace("mean_seconds", "mean time, s").replace("_", " ")
             for column in columns]
    text = markdown_of([heads, *rows], note)
    write_text(path.with_suffix(".md"), text)
    return text


def cells_of(table: pd.DataFrame) -> list[list[str]]:
    """Returns the names of the columns and the rows. Time factors are left out if no run has one."""
    table = table.drop(columns=[column for column in table if column.endswith("time_factor") and
                                (table[column] == -1).all()])
    return [[*table], *([cell(*pair) for pair in row.items()] for row in table.to_dict("records"))]


def cell(column: str, value: Any) -> str:
    if isinstance(value, str):
        return value
    if value is None or value != value or (value == -1 and column.removeprefix("other_") in GROUP):
        return ""
    usual = "{:.3f}" if "percent" in column or column in ("rpd", "vargha_delaney_a") else "{:.0f}"
    return DECIMALS.get(column.removeprefix("other_"), usual).format(value + 0.0)


def csv_of(rows: list[list[str]]) -> str:
    return csv_text([each if re.fullmatch(r"-?[0-9.]+(?:e[+-]?[0-9]+)?", each) else text_cell(each)
                     for each in row] for row in rows)


def markdown(text: str) -> str:
    """Returns a text on one line, escaped for Markdown."""
    text = re.sub(r"([\\`*\[\]<>|~&])", r"\\\1", plain(text))
    return re.sub(r"(?<![^\W_])_|_(?![^\W_])", r"\\_", text)


def markdown_of(rows: list[list[str]], note: str) -> str:
    """Returns a table with a note below it."""
    lines = [f"| {' | '.join(map(markdown, row))} |\n" for row in rows]
    lines.insert(1, f"| {' | '.join(['---:'] * len(rows[0]))} |\n")
    return "".join(lines) + f"\n{note}\n"


def latex(text: str) -> str:
    return "".join(LATEX.get(sign, sign) for sign in plain(text))


def stacked(head: str) -> str:
    """Returns the head of a column for LaTeX, with the parts of a name one below the other."""
    return rf"\shortstack[r]{{{latex(head)}}}".replace(", ", r"\\") if ", " in head else latex(head)


# Plots. One is left out if no run has its values

def plot(done: pd.DataFrame, shared: pd.DataFrame, folder: pathlib.Path, ending: str, width: float | None, dpi: float,
         titles: bool) -> None:
    """Draws the plots of the runs that succeeded, of which those of the RPD are compared on what all settings have."""
    matplotlib.rcdefaults()  # no matplotlibrc of the current folder
    matplotlib.rcParams.update(SETTINGS)
    done, shared = (runs.assign(method=runs["method"].map(shown)) for runs in (done, shared))
    figures = {"gap": by_rounds(done, "gap_percent", "gap to the lower bound, %", "Gap to the bound", width),
               "rpd": by_rounds(shared, "rpd", "RPD, %", "Relative percentage deviation", width),
               "seconds": by_seconds(shared, width), "time": cell_times(done, width),
               "differences": differences(shared, width), "ranks": ranks(shared, width),
               "profile": profile(shared, width), **along(shared, width)}
    for name, figure in figures.items():
        if figure is not None:
            if not titles:
                figure.suptitle("")
            atomic_write(folder / f"{name}.{ending}", picture_of(figure, ending, dpi))


def shown(name: str) -> str:
    """Returns a name as a picture shows it. Matplotlib leaves names that begin with an underscore out of a legend."""
    name = plain(name)
    return ("\u200b" if name.startswith("_") else "") + (name if len(name) <= LONGEST else f"{name[:LONGEST - 2]}..")


def colour(part: float) -> Any:
    return matplotlib.colormaps["viridis"](0.8 * part)


def wrapped(text: str, inches: float) -> str:
    """Returns a text broken into lines that fit."""
    return textwrap.fill(text, max(12, int(inches / (1.12 * WIDE))))


# Lines in panels

def panels(points: pd.DataFrame, styles: dict[str, dict[str, Any]], columns: int, width: float | None, x: str, y: str,
           title: str, legend: str) -> Figure:
    """Draws a line through the points of each label, perhaps with a band, in panels of equal scale, in rows of at most
    `columns`, and a legend of the labels below them. The values begin at 0 if none is less."""
    titles = points["panel"].unique()
    columns = min(columns, len(titles))
    width = width or max(6.5, 4.2 * columns)
    columns = max(1, min(columns, int(width / 2.2)))
    rows = -(-len(titles) // columns)
    in_legend = max(1, min(len(styles), int((width - 0.2) / (0.75 + WIDE * max(map(len, styles))))))
    heights = [min(3.6, max(2.0, 0.75 * width / columns))] * rows + [HIGH * (1.5 + -(-len(styles) // in_legend))]
    figure = Figure(figsize=(width, sum(heights) + 0.5), layout="constrained")
    grid = figure.add_gridspec(rows + 1, columns, height_ratios=heights)
    axes: dict[str, Axis] = {}
    for at, panel in enumerate(titles):
        first = axes.get(titles[0])
        axis = axes[panel] = figure.add_subplot(grid[at // columns, at % columns], sharex=first, sharey=first)
        axis.set_title(wrapped(panel, width / columns - 0.6))
        axis.tick_params(labelleft=at % columns == 0, labelbottom=at + columns >= len(titles))
    lines = {}
    for (panel, label), line in points.groupby(["panel", "label"], sort=False):
        lines[label], = axes[panel].plot(line["x"], line["y"], label=label, clip_on=False, zorder=3, **styles[label])
        if "low" in line:
            axes[panel].fill_between(line["x"], line["low"], line["high"], alpha=0.2, linewidth=0,
                                     color=styles[label]["color"])
    if points.filter(["y", "low"]).min().min() >= 0:
        axes[titles[0]].set_ylim(bottom=0)
    below = figure.add_subplot(grid[rows, :])
    below.set_axis_off()
    below.set_title(x, pad=2)
    figure.supylabel(y)
    figure.suptitle(wrapped(title, width - 0.4))
    below.legend(lines.values(), lines.keys(), title=legend, loc="upper center", ncol=in_legend)
    return figure


def scale(axis: Axis, least: float, most: float, form: Callable[[float], str], kind: str, **options: float) -> None:
    """Scales the horizontal axis of all panels, without marks between those that have a number."""
    axis.set_xscale(kind, **options)
    axis.set_xlim(least, most)
    axis.xaxis.set_minor_locator(NullLocator())
    axis.xaxis.set_major_formatter(lambda value, _: form(value))


def by_rounds(done: pd.DataFrame, value: str, name: str, title: str, width: float | None) -> Figure | None:
    """Draws a panel for each method, number of passes and take, with a line for each size, the mean of the seeds, and a
    band from the least to the greatest of them. Runs of 0 rounds are the same for all takes and passes."""
    runs = done[done[value].notna() & (done[["rounds", "take", "passes"]] >= 0).all(axis=1)]
    if runs.empty:
        return None
    levels = ["method", "passes", "take", *SIZE, "rounds"]
    zeros, later = runs[runs["rounds"] == 0].drop(columns=["take", "passes"]), runs[runs["rounds"] > 0]
    runs = pd.concat([later, zeros.merge(runs[levels[:5]].drop_duplicates())])
    jobs, machines, rounds = (sorted(set(runs[column])) for column in levels[3:])
    takes, names = runs["take"].nunique(), kind_names(runs)
    seeds = runs.groupby([*levels, "seed"])[value].mean()
    points = seeds.groupby(levels).agg(y="mean", low="min", high="max").reset_index()
    points = points.assign(x=points["rounds"], label=points[SIZE].apply(size_name, axis=1), panel=[
        names[method, take, passes] for method, passes, take in points[levels[:3]].itertuples(index=False)])
    styles = {size_name(size): {"color": colour(jobs.index(size[0]) / max(1, len(jobs) - 1)), "marker": "o",
                                "markersize": 3, "linestyle": ("-", "--", ":", "-.")[machines.index(size[1]) % 4]}
              for size in points.groupby(SIZE).groups}
    figure = panels(points, styles, takes if takes > 1 else 3, width, "rounds of iterated greedy", name,
                    f"{title}: mean, and range over the seeds", "jobs×machines")
    ends = rounds[0], max(rounds[-1], rounds[0] + 1)
    if rounds[-1] > 20:  # logarithmically, with 0 before the rest
        scale(figure.axes[0], *ends, "{:,.0f}".format, "symlog", linthresh=next(filter(None, rounds)), linscale=0.4)
    else:
        scale(figure.axes[0], *ends, "{:,.0f}".format, "linear")
    return figure


def kind_names(runs: pd.DataFrame) -> dict[tuple[Any, ...], str]:
    """Returns the name of each method with its take and passes, as tables name settings."""
    kinds = list(runs.groupby(["method", "take", "passes"]).groups)
    return dict(zip(kinds, setting_names([(method, -1, take, passes, -1) for method, take, passes in kinds])))


def by_seconds(done: pd.DataFrame, width: float | None) -> Figure | None:
    """Draws the mean RPD by the mean seconds: a panel for each size, a line for each method, take and passes, a point
    for each number of rounds or time factor."""
    runs = done[done["rpd"].notna() & (done["seconds"] >= LEAST_SECONDS)]
    if runs.empty:
        return None
    kind = ["method", "take", "passes"]
    names = kind_names(runs)
    points = runs.groupby([*SIZE, *kind, "rounds", "time_factor"])[["seconds", "rpd"]].mean().reset_index()
    points = points.sort_values([*SIZE, *kind, "seconds"])
    points = points.assign(x=points["seconds"], y=points["rpd"], panel=points[SIZE].apply(size_name, axis=1),
                           label=[names[key] for key in points[kind].itertuples(index=False, name=None)])
    styles = {label: {"color": colour(at / max(1, len(names) - 1)), "marker": "os^Dv"[at % 5], "fillstyle": "none",
                      "markersize": 4} for at, label in enumerate(names.values())}
    return by_time(panels(points, styles, 3, width, "processor time, s", "RPD, %",
                          "Mean relative percentage deviation by time", "method"), points)


def by_time(figure: Figure, points: pd.DataFrame) -> Figure:
    """Scales the horizontal axis of all panels for these times."""
    least, most = (math.log10(points["x"].agg(end)) for end in ("min", "max"))
    scale(figure.axes[0], 10.0 ** math.floor(least), 10.0 ** max(math.ceil(most), math.floor(least) + 1),
          "{:,g}".format, "log")
    return figure


def along(shared: pd.DataFrame, width: float | None) -> dict[str, Figure]:
    """Draws the mean RPD while the runs of each setting search, from when all have an order, and the share of them that
    has reached the target, which for each size is the median RPD at the end of all runs; by processor time."""
    runs = shared[shared["way"].notna() & shared["rpd"].notna() & (shared["reference"] > 0)]
    means, shares = list[pd.DataFrame](), list[pd.DataFrame]()
    settings = list(runs.groupby(SETTING).groups)
    names = dict(zip(settings, setting_names(settings)))
    for size, group in runs.groupby(SIZE):
        target, panel = group["rpd"].median(), size_name(size)
        for setting, own in group.groupby(SETTING):
            ways = [(np.array(way)[:, 0], 100 * (np.array(way)[:, 1] - reference) / reference)
                    for way, reference in zip(own["way"], own["reference"])]
            end = np.nanmax([own["seconds"].max(), *(times[-1] for times, _ in ways)])
            label = {"label": names[setting]}
            means.append(mean_way(ways, end).assign(panel=panel, **label))
            shares.append(reached(ways, target + 1e-9, end).assign(panel=f"{panel}: RPD of at most {target:.3f} %",
                                                                   **label))
    styles = line_styles([*names.values()])
    found = {}
    for file, parts, y, title in (
            ("trajectory", means, "mean RPD, %", "Mean relative percentage deviation during the search"),
            ("target", shares, "share of the runs", "Time to target: runs that have reached it")):
        if parts:
            points = pd.concat(parts)
            found[file] = by_time(panels(points, styles, 3, width, "processor time, s", y, title, "setting"), points)
    return found


def profile(shared: pd.DataFrame, width: float | None) -> Figure | None:
    """Draws the performance profiles of the settings of the same rounds or time factor."""
    points = statistics.profiles(shared)
    if points.empty:
        return None
    figure = panels(points, line_styles(list(points["label"].unique())), 3, width,
                    "mean makespan above the shortest, %", "share of the instances", "Performance profile",
                    "setting")
    scale(figure.axes[0], 0, points["x"].max(), "{:g}".format, "linear")
    return figure


def line_styles(names: list[str]) -> dict[str, dict[str, Any]]:
    """Returns the steps by which each of these settings is drawn."""
    return {name: {"color": colour(at / max(1, len(names) - 1)), "linestyle": ("-", "--", "-.", ":")[at % 4],
                   "drawstyle": "steps-post"} for at, name in enumerate(names)}


def mean_way(ways: list[tuple[Any, Any]], end: float) -> pd.DataFrame:
    """Returns the mean of trajectories from when all have begun."""
    start = max(LEAST_SECONDS, *(times[0] for times, _ in ways))
    x = np.geomspace(start, max(end, start), WAY_POINTS)
    return pd.DataFrame({"x": x, "y": np.mean([values[np.searchsorted(times, x, "right") - 1]
                                               for times, values in ways], axis=0)})


def reached(ways: list[tuple[Any, Any]], target: float, end: float) -> pd.DataFrame:
    """Returns the share of trajectories that have reached the target, from the first time of any."""
    at = sorted(times[values <= target][0] for times, values in ways if (values <= target).any())
    x = np.maximum([min(times[0] for times, _ in ways), *at, end], LEAST_SECONDS)
    return pd.DataFrame({"x": x, "y": [*(count / len(ways) for count in range(len(at) + 1)), len(at) / len(ways)]})


# Values side by side

def of_labels(labels: list[str], width: float | None, title: str, y: str) -> tuple[Figure, Axis]:
    """Returns a figure with one axis that has these labels side by side, rotated if they don't fit otherwise."""
    longest = max(len(line) for label in labels for line in label.split("\n"))
    width = width or max(6.5, 1 + 0.6 * len(labels))
    upright = (width - 1) / len(labels) < WIDE * longest + 0.1
    figure = Figure(figsize=(width, 3.6 + (WIDE * longest if upright else 0)), layout="constrained")
    figure.suptitle(wrapped(title, width - 0.4))
    axis = figure.subplots()
    axis.set_xticks(range(1, len(labels) + 1), labels, rotation=90 if upright else 0)
    axis.set_ylabel(y)
    return figure, axis


def cell_times(done: pd.DataFrame, width: float | None) -> Figure | None:
    """Draws a box for each size, of the runs with the most rounds, on which the start of the process has the least
    effect."""
    runs = done[(done["cells"] > 0) & done["seconds"].notna() & (done[SIZE] >= 0).all(axis=1)]
    if runs.empty:
        return None
    most, several = runs["rounds"].max(), runs["method"].nunique() > 1
    runs = runs[runs["rounds"] == most].assign(area=runs["jobs"] * runs["machines"],
                                               ns=1e9 * runs["seconds"] / runs["cells"])
    boxes = list(runs.groupby(["area", *SIZE, "method"])["ns"])
    labels = [size_name(key[1:3]) + f"\n{key[3]}" * several for key, _ in boxes]
    of = f" at {most:,.0f} rounds, with the start of the process" if most >= 0 else " of searches by time"
    figure, axis = of_labels(labels, width, f"Time per cell{of}: median, quartiles, minimum and maximum",
                             "processor time per table cell, ns")
    axis.boxplot([times for _, times in boxes], labels=labels, whis=(0, 100), widths=0.5)
    axis.set_ylim(bottom=0)
    axis.set_xlabel("jobs×machines")
    return figure


def differences(shared: pd.DataFrame, width: float | None) -> Figure | None:
    """Draws the mean difference in RPD of each setting to the first one that it is compared with, and its confidence
    interval of 95 % by Student's t-distribution. A panel has a size, and the settings of the same rounds or time
    factor."""
    found = statistics.differences(shared)
    if found.empty:
        return None
    labels = list(dict.fromkeys(found["setting"].map(shown)))
    titles = list(dict.fromkeys(found["panel"]))
    width = width or 6.5
    labels_at = {label: at for at, label in enumerate(reversed(labels))}
    lines = [wrapped(label, 0.4 * width) for label in labels_at]
    columns = min(len(titles), 3, int(width / 2))
    rows = -(-len(titles) // columns)
    high = 0.7 + HIGH * sum(text.count("\n") + 1.5 for text in lines)
    figure = Figure(figsize=(width, 0.8 + rows * high), layout="constrained")
    axes = figure.subplots(rows, columns, sharex=True, sharey=True, squeeze=False).flatten()
    for at, (axis, title) in enumerate(zip(axes, titles)):
        own = found[found["panel"] == title]
        axis.axvline(0, color="black", linewidth=1)
        axis.errorbar(own["mean"], own["setting"].map(shown).map(labels_at), xerr=own["half"], fmt="o", capsize=4,
                      color=colour(0.3), ecolor="black")
        axis.set_title(wrapped(title, 0.6 * width / columns))
        axis.set_yticks(range(len(lines)), lines, fontsize=8)
        axis.set_ylim(-0.5, len(lines) - 0.5)
        axis.locator_params(axis="x", nbins=4)
        axis.tick_params(labelbottom=at + columns >= len(titles))
    for axis in axes[len(titles):]:
        axis.set_axis_off()
    first = shown(found["first"].iloc[0])
    figure.supxlabel(wrapped(f"RPD minus that of {first}, %" if found["first"].nunique() == 1 else
                             "RPD minus that of the first setting, %", width - 0.4))
    figure.suptitle(wrapped("Mean differences by instance, with confidence intervals of 95 %",
                            width - 0.4))
    return figure


def ranks(shared: pd.DataFrame, width: float | None) -> Figure | None:
    """Draws the average rank of each setting, a panel for each group of three or more that can be compared, the
    critical difference, and a bar next to each longest run of settings that don't differ by it."""
    found = statistics.ranked(shared)
    if found.empty:
        return None
    width, groups = width or 6.5, [own for _, own in found.groupby("group")]
    settings = [list(own[SETTING].itertuples(index=False, name=None)) for own in groups]
    lines = [[wrapped(shown(name), 0.4 * width) for name in setting_names(each)] for each in settings]
    heights = [0.7 + HIGH * sum(text.count("\n") + 1.5 for text in texts) for texts in lines]
    figure = Figure(figsize=(width, 0.8 + sum(heights)), layout="constrained")
    axes = figure.subplots(len(groups), squeeze=False, height_ratios=heights)[:, 0]
    for axis, own, each, texts in zip(axes, groups, settings, lines):
        means, critical = own["mean_rank"].tolist(), own["critical_difference"].iloc[0]
        axis.plot(means, range(len(own)), "o", color=colour(0.3), zorder=3)
        bars = statistics.alike(means, critical)
        for at, (first, last) in enumerate(bars):
            axis.plot([len(own) + 0.15 * (1 + at)] * 2, [first - 0.2, last + 0.2], color="black", linewidth=3,
                      solid_capstyle="butt", clip_on=False)
        axis.errorbar([1 + critical / 2], [-0.8], xerr=[critical / 2], color="black", capsize=3)
        axis.set_xlim(0.9, len(own) + 0.15 * (len(bars) + 1))
        axis.set_ylim(len(own) - 0.5, -1.2)
        axis.set_yticks([-0.8, *range(len(own))], [f"critical difference {critical:.2f}", *texts], fontsize=8)
        axis.set_xticks(range(1, len(own) + 1))
        axis.set_title(wrapped(statistics.group_name(each, own["instances"].iloc[0]), 0.5 * width))
    figure.supxlabel("average rank, 1 is the shortest")
    figure.suptitle(wrapped("Average ranks, with bars next to settings that don't differ at the level of 5 %",
                            width - 0.4))
    return figure
