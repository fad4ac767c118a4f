"""The comparison of methods and of settings in a report, on the instances and seeds that all of them have."""
from __future__ import annotations

import itertools
import math
from typing import Any

import numpy as np
import pandas as pd
import scipy.stats

SIZE = ["jobs", "machines"]
SETTING = ["method", "rounds", "take", "passes", "time_factor"]
# How the values of a setting are named, where a method's settings differ in them.
FORMS = ("{:,.0f} rounds", "take {:,.0f}", "passes {:.0f}", "time factor {:g}")
# The exact test is for at most this number of pairs; for more, SciPy's normal approximation is used.
MOST_EXACT = 50
# The rounds and the time factor of a setting that tells neither.
UNKNOWN = (-1, -1)
NOTE = ("Compared are settings of the same rounds or time factor, on the instances and seeds that both have. Won, "
        "tied, lost: the numbers of instances on which the first setting's mean makespan is less than, equal to or "
        "greater than the other's. p: Wilcoxon's signed-rank test, two-sided, of the differences in RPD that are not "
        "0, exact up to 50 pairs. p holm: p with Holm's correction for all rows. Median difference: the median of the "
        "first setting's RPD minus the other's. Vargha-Delaney A: the probability that a run of the first setting is "
        "shorter than one of the other on the same instance, as a mean over the instances; ties count half.")

RANKS = ("Average ranks of the settings of the same rounds or time factor, which are a group, on the instances that "
         "all have: the shortest mean makespan has rank 1, and equal ones the mean of their ranks. Critical "
         "difference: two settings whose average ranks differ by less don't differ at the level of 5 %, by "
         "Nemenyi's test. p: Friedman's test.")


def common(runs: pd.DataFrame) -> tuple[pd.DataFrame, dict[Any, list[str]]]:
    """Returns the runs of the instances and seeds that all settings have, and by setting the instances of which it
    lacks a run that another one has. A run without a seed, such as NEH's, is for all seeds."""
    settings = list(runs[SETTING].itertuples(index=False, name=None))
    pairs = [(instance, seed if seed and setting[1] != 0 else None)
             for setting, instance, seed in zip(settings, runs["instance"], runs["seed"])]
    made: dict[Any, set[tuple[str, str | None]]] = {}
    for setting, pair in zip(settings, pairs):
        made.setdefault(setting, set()).add(pair)
    due = set(pairs) - {(instance, None) for instance, seed in pairs if seed is not None}
    lacking = {setting: {(instance, seed) for instance, seed in due if not own & {(instance, seed), (instance, None)}}
               for setting, own in made.items()}
    shared = due.difference(*lacking.values())
    instances = {instance for instance, _ in shared}
    kept = [pair in shared or (pair[1] is None and pair[0] in instances) for pair in pairs]
    return runs.loc[kept], {setting: sorted({name for name, _ in own}) for setting, own in lacking.items() if own}


def setting_names(settings: list[tuple[Any, ...]]) -> list[str]:
    """Returns a short name of each setting: the method, and the values in which the method's settings differ."""
    names = []
    for method, *values in settings:
        others = [other[1:] for other in settings if other[0] == method]
        parts = [form.format(value) for at, (value, form) in enumerate(zip(values, FORMS))
                 if value != -1 and len({other[at] for other in others}) > 1]
        names.append(", ".join([method, *parts]))
    return names


def size_name(size: tuple[float, ...]) -> str:
    return "unknown" if -1 in size else "{:.0f}×{:.0f}".format(*size)


def compared(done: pd.DataFrame) -> pd.DataFrame:
    """Returns a row for each pair of settings that can be compared and have a common instance and seed."""
    rows = []
    for (one, first), (other, second) in itertools.combinations(done.groupby(SETTING), 2):
        # Of the same rounds or time factor, or of two methods of which one has neither.
        budgets = [budget_of(one), budget_of(other)]
        if budgets[0] == budgets[1] or (one[0] != other[0] and UNKNOWN in budgets):
            runs, _ = common(pd.concat([first, second]))
            both = by_instance(runs, one).join(by_instance(runs, other), rsuffix="_other")
            names = [*SETTING, *(f"other_{column}" for column in SETTING)]
            rows += [dict(zip(names, one + other)) | comparison_of(both)] if len(both) else []
    table = pd.DataFrame(rows)
    if rows:
        table.insert(table.columns.get_loc("pairs") + 1, "p_holm", holm(table["p"]))
    return table


def ranked(shared: pd.DataFrame) -> pd.DataFrame:
    """Returns the average rank of each of three or more settings that can be compared, by their mean makespans, and the
    p-value of Friedman's test. A setting without rounds and time factor is in every group."""
    table = shared.pivot_table(index="instance", columns=SETTING, values="makespan").round(9)
    groups = [table[group] for group in comparable(table).values()]
    rows = []
    for number, group in enumerate((each for each in groups if len(each) > 1 and each.shape[1] > 2), 1):
        all_tied = (group.nunique(axis=1) == 1).all()
        p = 1.0 if all_tied else scipy.stats.friedmanchisquare(*group.to_numpy().T).pvalue
        critical = critical_difference(group.shape[1], len(group))
        rows += [{"group": number, **dict(zip(SETTING, setting)), "instances": len(group), "mean_rank": rank, "p": p,
                  "critical_difference": critical}
                 for setting, rank in group.rank(axis=1).mean().sort_values(kind="stable").items()]
    return pd.DataFrame(rows)


def critical_difference(settings: int, instances: int) -> float:
    """Returns the difference of two average ranks from which on they differ at the level of 5 %, by Nemenyi's test
    (Demšar 2006).

    >>> round(critical_difference(4, 14), 3)
    1.253
    """
    quantile = float(scipy.stats.studentized_range.ppf(0.95, settings, math.inf))
    return quantile * math.sqrt(settings * (settings + 1) / (12 * instances))


def alike(ranks: list[float], difference: float) -> list[tuple[int, int]]:
    """Returns the first and the last of each longest run of ascending ranks that differ by less than this.

    >>> alike([1.2, 1.5, 2.9, 3.4, 4.0], 1.5), alike([1, 3], 1.5)
    ([(0, 1), (1, 2), (2, 4)], [])
    """
    ends = [max(at for at, rank in enumerate(ranks) if rank - first < difference) for first in ranks]
    return [(at, end) for at, end in enumerate(ends) if end > at and (at == 0 or ends[at - 1] < end)]


def profiles(shared: pd.DataFrame) -> pd.DataFrame:
    """Returns the performance profile (Dolan and Moré 2002) of each setting among those that can be compared: the share
    of the instances on which its mean makespan is at most `x` percent above the shortest one of these settings."""
    table, points = shared.pivot_table(index="instance", columns=SETTING, values="makespan").round(9), []
    for settings in comparable(table).values():
        group = table[settings].dropna()
        shortest = group.min(axis=1)
        above = (100 * group.sub(shortest, axis=0).div(shortest, axis=0)).where(group.ne(shortest, axis=0), 0)
        for setting, name in zip(settings, setting_names(settings)) if min(group.shape) > 1 else ():
            x = np.array([0, *np.sort(above[setting]), max(above.to_numpy().max(), 0.1)])
            y = [(above[setting] <= limit).mean() for limit in x]
            points.append(pd.DataFrame({"panel": group_name(settings, len(group)), "label": name, "x": x, "y": y}))
    return pd.concat(points) if points else pd.DataFrame()


def group_name(settings: list[Any], instances: int) -> str:
    """Returns what a group of settings is compared on."""
    budgets = {*map(budget_of, settings)} - {UNKNOWN}
    return ", ".join([*map(budget_name, budgets), f"{instances} instances"])


def paired(shared: pd.DataFrame) -> pd.DataFrame:
    """Returns the mean RPD of each setting for each size, instance and seed. That of a setting without a seed, such as
    NEH's, is for all seeds."""
    pair = shared["seed"].where(shared["rounds"] != 0, "")
    table = shared.assign(pair=pair).pivot_table(index=[*SIZE, "instance", "pair"], columns=SETTING, values="rpd")
    table = table.fillna(table.groupby(level="instance").transform("mean")[[
        setting for setting in table if table[setting].dropna().index.get_level_values("pair").isin([""]).all()]])
    return table.dropna()


def differences(shared: pd.DataFrame) -> pd.DataFrame:
    """Returns, for each size and each group of settings that can be compared, the mean over the instances of the
    difference in mean RPD of each setting to the first one, and half the confidence interval of 95 %."""
    if shared["rpd"].isna().all():
        return pd.DataFrame()
    table, rows = paired(shared), []
    names = dict(zip(table, setting_names(list(table))))
    groups = comparable(table)
    for size, own in table.groupby(level=SIZE):
        for budget, group in groups.items():
            panel = ", ".join([size_name(size), *([budget_name(budget)] if len(groups) > 1 else [])])
            for setting in group[1:]:
                # Seeds of an instance aren't independent.
                each = (own[setting] - own[group[0]]).groupby(level="instance").mean()
                half = scipy.stats.t.ppf(0.975, len(each) - 1) * each.std() / len(each) ** 0.5 if len(each) > 1 else 0
                rows.append({"panel": panel, "first": names[group[0]], "setting": names[setting], "mean": each.mean(),
                             "half": half})
    return pd.DataFrame(rows)


def comparable(table: pd.DataFrame) -> dict[Any, list[Any]]:
    """Returns the settings of each rounds or time factor, with those that have neither in each group."""
    budgets = sorted({*map(budget_of, table)} - {UNKNOWN}) or [UNKNOWN]
    return {budget: [setting for setting in table if budget_of(setting) in (budget, UNKNOWN)] for budget in budgets}


def budget_name(budget: tuple[float, float]) -> str:
    return FORMS[0].format(budget[0]) if budget[0] >= 0 else FORMS[3].format(budget[1])


def budget_of(setting: tuple[Any, ...]) -> tuple[float, float]:
    """Returns the rounds and the time factor of a setting."""
    return setting[1], setting[4]


def by_instance(runs: pd.DataFrame, setting: tuple[Any, ...]) -> pd.DataFrame:
    """Returns the means of a setting and its makespans by instance. Equal means may differ by a rounding."""
    own = runs[(runs[SETTING] == setting).all(axis=1)].groupby("instance")
    return own.agg(makespan=("makespan", "mean"), rpd=("rpd", "mean"), spans=("makespan", list)).round(9)


def comparison_of(both: pd.DataFrame) -> dict[str, Any]:
    """Compares two settings on the instances that both have."""
    signs = np.sign(both["makespan"] - both["makespan_other"])
    row: dict[str, Any] = {"instances": len(both), "won": (signs < 0).sum(), "tied": (signs == 0).sum(),
                           "lost": (signs > 0).sum(), "p": None, "pairs": 0, "median_difference_percent": None,
                           "vargha_delaney_a": np.mean([*map(superiority, both["spans"], both["spans_other"])])}
    differences = (both["rpd"] - both["rpd_other"]).dropna().round(9)
    if differences.empty:
        return row
    return row | {"p": probability(differences[differences != 0]), "pairs": int((differences != 0).sum()),
                  "median_difference_percent": differences.median()}


def superiority(ones: list[float], others: list[float]) -> float:
    """Returns Vargha and Delaney's A of the makespans of two settings on an instance. Less is better."""
    first, second = np.array(ones)[:, None], np.array(others)
    return float((first < second).mean() + (first == second).mean() / 2)


def probability(differences: pd.Series) -> float:
    """Returns the p-value of Wilcoxon's signed-rank test of differences that are not 0. The exact one is the share of
    all choices of signs whose sum of ranks is at least as far from the middle. Twice a rank is a whole number, also
    where equal differences have the mean of their ranks."""
    if len(differences) > MOST_EXACT:
        return float(scipy.stats.wilcoxon(differences, method="approx").pvalue)
    ranks = (2 * differences.abs().rank()).astype(int)
    counts = np.ones(1)
    for rank in ranks:
        counts = np.append(counts, np.zeros(rank)) + np.append(np.zeros(rank), counts)
    distances = abs(np.arange(len(counts)) - ranks.sum() / 2)
    return float(counts[distances >= abs(ranks[differences > 0].sum() - ranks.sum() / 2)].sum() / 2 ** len(ranks))


def holm(probabilities: pd.Series) -> pd.Series:
    """Returns the probabilities with Holm's correction."""
    least_first = probabilities.astype(float).dropna().sort_values(kind="stable")
    return (least_first * range(len(least_first), 0, -1)).cummax().clip(upper=1)
