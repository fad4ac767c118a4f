"""Functions of the package, each by itself: on both sides of a limit, twice, and with an error half-way."""
import datetime
import io
import json
import os
import pathlib
import re
import subprocess
import types
import zipfile
from itertools import pairwise
from typing import Any
from unittest import mock

import numpy as np
import pfs
import pytest
from support.commands import ended
from pfs.base import checkout, workbooks as _workbooks
from pfs.base.faults import Refused
from pfs.base.units import seconds_in
from pfs.base.version import VERSION
from pfs.commands import cli as _cli, gantt as _gantt
from pfs.commands.main import plan_words, words
from pfs.experiments import ExperimentError, folders, plan, run
from pfs.experiments.__main__ import command_line
from pfs.files import tables as _tables
from pfs.schedules import drawing as _drawing
from pfs.schedules.calendar import DAYS
from pfs.web.__main__ import words as web_words
from support import plainly
from support.needs import require_module
from support.tools import TOP


def test_a_text_is_written_or_its_stream_is_closed_for_good() -> None:
    text = io.StringIO()
    assert _cli.written(text, "a") and _cli.written(text, "b") and text.getvalue() == "ab"
    assert not _cli.written(None, "a")
    with open("/dev/full", "w") as full:
        before = os.listdir("/proc/self/fd")
        assert not _cli.written(full, "a") and _cli.written(full, "b")
        assert os.listdir("/proc/self/fd") == before, "a descriptor is left"


@pytest.mark.parametrize(("error", "status", "said"), [
    (KeyboardInterrupt(), 130, ""), (Refused("a\nb \x1b"), 2, "p: a b \\x1b!\n"),
    (_cli.Misused("m"), 3, "p: m!\n"), (OSError(2, "gone", "f"), 4, "p: f: gone!\n"),
    (OSError(2, "gone", "f", None, "to"), 4, "p: to: gone!\n"),
    (OSError(2, "gone"), 4, "p: gone!\n"), (OSError("o"), 4, "p: o!\n"), (MemoryError(), 4, "p: no memory!\n"),
    (ImportError("i"), 4, "p: i!\n")])
def test_errors_of_a_program(error: BaseException, status: int, said: str, capsys: pytest.CaptureFixture[str]) -> None:
    assert _cli.run("p", mock.Mock(side_effect=error), lambda text: f"{text}!") == status
    assert capsys.readouterr() == ("", said)


def test_the_help_has_no_word_that_is_nowhere_else() -> None:
    """In the pages, the manuals and the tests: no word is cut or misspelled. Texts of options also end with two words
    that are there one after the other, or go on, default all, in TOML, and source, in inches, or no titles. Each
    option has a text, and is in the manual page."""
    pages = [*TOP.glob("*.md"), *(path for folder in ("docs", "share", "python", "experiments", "tests")
                                  for ending in ("md", "1", "py") for path in (TOP / folder).rglob(f"*.{ending}")
                                  if path.suffix != ".py" or folder == "tests")]
    pairs = {pair for page in pages for pair in pairwise(re.findall("[a-z0-9]+", page.read_text().lower()))}
    known = {word for pair in pairs for word in pair}
    for name, parser in {"python3 -m pfs": words(), "pfs-plan": plan_words(), "pfs-gantt": _gantt.words(),
                         "pfs-web": web_words(), "pfs-experiments": command_line()}.items():
        assert parser.format_usage().startswith(f"usage: {name} "), "the name of a program"
        if name in ("pfs-plan", "pfs-web"):
            page = (TOP / "python" / f"{name}.1").read_text().replace("Ar SIGN", "Ar DECIMAL")
            due = {each.option_strings[-1][1:]: "" if each.nargs == 0 else each.metavar or each.dest.upper()
                   for each in parser._actions[1:] if each.option_strings}
            for macro in ("It", "Op")[:1 + (name == "pfs-web")]:
                assert dict(re.findall(rf"^\.{macro} Fl (-[\w-]+)(?: Ar (\S+))?$", page, re.MULTILINE)) == due, name
        commands: dict[str, Any] = next((each.choices for each in parser._actions
                                         if isinstance(each.choices, dict)), {})
        for each in (parser, *commands.values()):
            assert {*re.findall(r"[a-z]{2,}", re.sub("-\n *", "-", each.format_help()).lower())} <= known, each.prog
            assert [it.dest for it in each._actions if it.option_strings and not it.help] == [], each.prog
            ends = (re.findall("[a-z0-9]+", (action.help or "").lower())[-2:] for action in each._actions)
            assert {(*end,) for end in ends if len(end) == 2} <= pairs, each.prog
    shown = " ".join(parser.format_help().split())
    assert [each for each in commands.values() if each.description not in shown or each.description[-1] != "."] == []
    assert [parser.parse_known_args([name, "p", "c", "--ret"])[1] for name in ("run", "slurm")] == [["--ret"]] * 2


def test_the_version_of_a_checkout_names_the_commit(tmp_path: pathlib.Path, monkeypatch: pytest.MonkeyPatch) -> None:
    module = tmp_path / "python" / "src" / "pfs" / "base" / "checkout.py"
    module.parent.mkdir(parents=True)
    module.write_text("")
    monkeypatch.setattr(checkout, "__file__", str(module))
    assert checkout.version() == VERSION

    def git(*words: str) -> str:
        return subprocess.run(["git", "-C", tmp_path, "-c", "user.name=a", "-c", "user.email=a@b", *words], check=True,
                              capture_output=True, text=True).stdout.strip()

    git("init", "-q")
    git("add", "-A")
    git("commit", "-qm", "one")
    git("tag", "v9")
    assert checkout.version() == f"{VERSION}, commit {git('rev-parse', '--short', 'HEAD')}"
    module.write_text("# changed")
    assert checkout.version().endswith(" with changes")
    monkeypatch.setenv("PATH", "")
    assert checkout.version() == VERSION


@pytest.mark.parametrize(("program", "said"), [
    (None, "pfs is not on the path: pass it with --pfs"), ("/etc/passwd", "/etc/passwd is not a program"),
    ("/usr", "/usr is not a program"),
    ("/bin/true", "/bin/true is not pfs: `/bin/true generate 1 1 1` must print an instance")])
def test_what_is_not_pfs(program: str | None, said: str) -> None:
    with pytest.raises(ExperimentError) as caught:
        folders.find_pfs(program)
    assert str(caught.value) == said


@pytest.mark.parametrize(("text", "said"), [
    ("a\n", "runs.csv: no rows"), ("a\n1,2\n", "runs.csv: a row has more cells than the first line"),
    ("b\n1\n", "runs.csv: no column a"), ("a,a\n1,2\n", "runs.csv: two columns are named 'a'")])
def test_a_csv_without_the_rows_that_are_needed(tmp_path: pathlib.Path, text: str, said: str) -> None:
    path = tmp_path / "runs.csv"
    path.write_text(text)
    with pytest.raises(ExperimentError) as caught:
        plan.rows_of(path, ["a"])
    assert str(caught.value) == f"{tmp_path}/{said}"


IN_ASCII = """
import pathlib, pfs
from pfs.commands.main import printed
from pfs.experiments.plan import rows_of
from pfs.web import plans
name = chr(0xe4)
given = {"shop": {"jobs": [name], "machines": ["b"], "times": [[1]]}, "order": [name]}
assert name in plans.told(given, ".")["chart"] and plans.file(given | {"kind": "txt"}, ".").decode() == name + chr(10)
pathlib.Path("runs").write_bytes(f"instance,b\\n{name},2".encode())
assert rows_of("runs", ["b"])[0]["instance"] == name
printed(name)
"""


def test_files_are_the_same_in_each_locale(tmp_path: pathlib.Path) -> None:
    """Of texts that the locale can't print, escapes are printed."""
    done = plainly.python("-c", IN_ASCII, cwd=tmp_path, LC_ALL="C", PYTHONCOERCECLOCALE="0", PYTHONUTF8="0")
    assert (done.stdout, done.returncode) == ("\\xe4", 0), done.stderr


# Runs of experiments

def test_ten_kinds_of_errors_are_reported(capsys: pytest.CaptureFixture[str]) -> None:
    rows = [{"instance": "i", "seed": str(at), "status": f"{'x' * at} {at}"} for at in range(1, 11)]
    run.report_errors([*rows, {"status": "ok"}, {"instance": "j", "seed": "9", "status": "x 7"}])
    lines = [f"i (seed {at}) failed: {'x' * at} {at}\n" for at in range(2, 11)]
    assert capsys.readouterr().err == "".join(["i (seed 1) and 1 more failed: x 1\n", *lines])
    run.report_errors([*rows, {"instance": "i", "status": "y"}])
    assert capsys.readouterr().err == "".join(["i (seed 1) failed: x 1\n", *lines, "1 more kinds of errors\n"])


@pytest.mark.parametrize(("status", "done", "retried"), [
    (None, False, False), ("ok", True, True), ("solve: exit 1", True, False), ("solve: signal 9", False, False)])
def test_which_runs_are_made_again(status: str | None, done: bool, retried: bool) -> None:
    assert (run.is_done(status, retry=False), run.is_done(status, retry=True)) == (done, retried)
    assert run.result_of(b"") is run.result_of(b"\n") is None


def test_runs_that_were_lost_come_last(tmp_path: pathlib.Path, monkeypatch: pytest.MonkeyPatch) -> None:
    """What is done isn't made again, and results and the log of the start before are gone."""
    for name in ("results", "slurm"):
        (tmp_path / name).mkdir()
    listed = [dict.fromkeys(folders.RUN, "") | {"number": str(number)} for number in range(1, 6)]
    done = b"o\n4,1,1,1,1.000000,ok,,,\n"
    (tmp_path / "results" / "4").write_bytes(b"%d\n%b" % (len(done), done))
    (tmp_path / "results" / "2").write_bytes(b"torn")
    (tmp_path / "joblog").write_text("Seq\n1\t:\t1\t2\t0\t0\t137\t9\tpfs-x/one 1 3\n")
    monkeypatch.setattr(run, "prepare", lambda *_: folders.Experiment(tmp_path, "x", listed, {}))
    given: Any = types.SimpleNamespace(plan="p", csv="c", pfs=None, retry=False)
    _, left = run.begin(given, "sh", "dash")
    assert (tmp_path / "left").read_text() == "2\n3\n5\n1\n" and [each["number"] for each in left] == [*"2351"]
    assert not (tmp_path / "joblog").exists() and not (tmp_path / "results" / "2").exists()
    with pytest.raises(FileNotFoundError, match=r"^none-such is not installed \(Debian: a-package\)$"):
        run.begin(given, "none-such", "a-package")


# Tables and workbooks

SKIPS = "write 0 where a job skips a machine"
NO_MACHINE = "leave the column out if it is no machine, or say which columns are machines (`machines`)"
DAYS_OF_24 = "a cell with the format of a time has a number of days: format it as a number, and write the time again"
HOURS = "other times of the table are numbers: write all of them like this, or none"
UNGROUPED = "leave out thousands separators"
EITHER = f"{UNGROUPED}, or say which decimal sign the table has (`decimal`)"
UNIT = "write the unit in brackets into the first cell of the table"


@pytest.mark.parametrize(("cell", "hint"), [
    *((cell, SKIPS) for cell in ("-", "\u2012", "\u2013", "\u2015", "n/a", "N/A", "na", "NA", "n.a.", "N.A")),
    *((cell, "the formula has an error") for cell in ("#DIV/0!", "#N/A", "#NAME?")),
    ("24:00", DAYS_OF_24), ("96:00", DAYS_OF_24), ("1200:00", DAYS_OF_24), ("23:00", HOURS), ("12:30", HOURS),
    ("1:30:15", "write hours and minutes, as 1:30, or a number"), ("1 h 30", "write hours and minutes as 1:30"),
    ("2h05", "write hours and minutes as 1:30"), ("1'000", UNGROUPED), ("12 000,5", UNGROUPED),
    ("12 345 678", UNGROUPED), ("1\u2019000", UNGROUPED), ("1\u02bc000", UNGROUPED), ("1.000,5", EITHER),
    ("1,000.5", EITHER), ("3 min.", UNIT), ("3,5 h", UNIT), ("oak", NO_MACHINE), ("4.12.", NO_MACHINE),
    ("4/12/2026 8:00", NO_MACHINE), ("5abc55", NO_MACHINE), ("3x3", ""), ("-3", ""), ("5.", "")])
def test_what_to_write_instead_of_what_is_no_time(tmp_path: pathlib.Path, cell: str, hint: str) -> None:
    """Of a column that was named as a machine, it is a job that skips it."""
    (tmp_path / "times").write_text(f"job;saw;drill\na;1;5\nb;2,5;{cell}\nc;3;7\n")
    for machines in (None, ["drill", "saw"]):
        with pytest.raises(pfs.TableFault) as fault:
            pfs.read_csv(tmp_path / "times", machines=machines)
        due = SKIPS if machines and hint == NO_MACHINE else hint
        assert fault.value.text == f"{cell!r} isn't a time{f': {due}' if due else ''}"


TOTALS = ("Total,SUBTOTAL,Grand total,Summe,Summen,Sum,sums,Zwischensumme,Gesamt,Gesamtzeit,Somme,Suma,Totale,"
          "Totaal,\u03a3,Mean,means,Average,avg,Durchschnitt,Mittel,Mittelwert,Moyenne,Media,Promedio,Gemiddelde,"
          "\u00d8").split(",")
QUANTITIES = ("Menge Anzahl St\u00fcck Stueck St\u00fcckzahl Stk. Quantity Qty Pieces pcs Quantit\u00e9 Qt\u00e9 "
              "Cantidad Aantal").split()
CAPACITIES = ("Kapazit\u00e4t,KAPAZITAET [h],verf\u00fcgbar,Verfuegbare,Verf\u00fcgbarkeit (min),Auslastung %,"
              "Auslastung:,Capacity,capacity h,Available,Availability,Utilization,utilisation [%],Kapazit\u00e4t Std."
              ).split(",")
OF_EXPORTS = ("Losgr\u00f6\u00dfe,LOSGROESSE,Los,Lot,lot size,Lot-Size [pcs],batch size,Auftragsmenge,Sollmenge,"
              "Restmenge (Stk),R\u00fcsten,R\u00fcstzeit,Ruestzeit [min],R\u00fcst.,Setup,set-up,Set up time,Prio,"
              "Priorit\u00e4t,priority,Kst,KST.,Kostenstelle,cost center,KW,Kalenderwoche,Week,Pos,Pos.,Position,"
              "Termin,Liefertermin,Endtermin,due,Due date").split(",")
MACHINES = "Los 1,Pos 7,KW 49,Dues,Lotte,Prior,Setups 2,Terminal,Capacity test,Polierstation,R\u00fcttler".split(",")
JOBS = ("Job Jobs job# Order Orders Workorder WO Work-Order Auftrag Auftr\u00e4ge Fertigungsauftrag Auftrags-Nr. FA OF "
        "Ordre Ordres Commande Pedido Pedidos Ordine Ordini Part Parts Lot Lots Los Teil Teile Artikel Item Items Pos "
        "Position ID Nr. No. N\u00b0 Number Nummer Num\u00e9ro Job_ID Pos:").split()


def test_words_of_sums_and_jobs(tmp_path: pathlib.Path) -> None:
    """In five languages: what has no times, and what says that numbers below are names."""
    path = tmp_path / "times"
    for names, is_row in ((TOTALS, True), (TOTALS, False), (QUANTITIES, False)):
        for name in names:
            path.write_text(f"job;saw;{'drill' if is_row else name}\na;1;2\n{name if is_row else 'b'};7;9\n")
            with pytest.raises(pfs.TableFault, match="looks like a sum"):
                pfs.read_csv(path)
            path.write_text(f"job;saw;{'drill' if is_row else f'x{name}'}\na;1;2\nx{name if is_row else ''};7;9\n")
            assert pfs.read_csv(path).jobs == 2, name
    for names, said, is_row in ((CAPACITIES, "looks like no job: leave it out, or allow", True),
                                (CAPACITIES + OF_EXPORTS, "looks like no machine: leave the column out", False)):
        for name in names:
            path.write_text(f"job;saw;{'drill' if is_row else name}\na;1;2\n{name if is_row else 'b'};7;9\n")
            with pytest.raises(pfs.TableFault, match=said):
                pfs.read_csv(path)
            shop = pfs.read_csv(path, allow_totals=is_row, machines=None if is_row else [name])
            assert shop.times.tolist() == ([[1, 2], [7, 9]] if is_row else [[2], [9]])
    for name in MACHINES:
        path.write_text(f"job;saw;{name}\na;1;2\n{name};7;9\n")
        assert pfs.read_csv(path).machine_names == ("saw", name)
    for name in JOBS:
        path.write_text(f"{name};1;2\n7;1;2\n8;7;9\n")
        assert pfs.read_csv(path).job_names == ("7", "8"), name
        path.write_text(f"x{name};1;2\n7;1;2\n8;7;9\n")
        with pytest.raises(pfs.TableFault, match="are numbers, as if"):
            pfs.read_csv(path)


UNITS = {1: "s sec SEC. secs second seconds sek Sekunde sekunden seconde secondes segundo segundos secondo secondi",
         60: "min Min. mins mn minute minutes Minuten minuto minutos minuti h:mm HH:MM",
         3600: "h hr hrs hour hours Std. stunde Stunden heure heures hora horas ora ore uur uren",
         86400: "d day days Tag Tage jour jours d\u00eda d\u00edas dia dias giorno giorni dag dagen"}


def test_words_of_units() -> None:
    for seconds, names in UNITS.items():
        for name in names.split():
            texts = name, f" {name.upper()} ", f"Zeit in {name}", f"Zeit in{name}", f"{name}x"
            assert [*map(seconds_in, texts)] == [seconds, seconds, seconds, None, None], name


@pytest.mark.parametrize(("rows", "found"), [
    ([], []), (["job,saw"], []), (["job,saw,drill"], []), (["job,saw,drill", "a,1,2"], ["saw", "drill"]),
    (["job,saw,note", "a,1,x", "b,2,"], ["saw"]), (["job,saw,note", "a,1,x", "b,2,3"], ["saw"]),
    (["job,saw,note", "a,1,x", "b,2,3", "c,1,4"], ["saw", "note"]),
    (["job,saw,Qty,drill", "a,1,2,3"], ["saw", "drill"]),
    (["job,saw,,drill", "a,1,2,3", "b"], ["saw", "drill"]), (["job,saw,7,drill", "a,1:30,2,3"], ["saw", "drill"]),
    (["title", "job,saw,drill", "a,1,2"], ["saw", "drill"]), (["job,7,saw", "a,1,2"], []),
    (["Plan,x,y", "job,saw,drill,paint", "a,1,2,3"], ["saw", "drill", "paint"]),
    (["job,saw,drill", "no,b,c", "a,1,2", "d,1,2", "e,3,4"], ["saw", "drill"]),
    ([*["t,x,y"] * 4, "job,a,b,c", *["j,1,2,3"] * 9], ["a", "b", "c"]),
    ([*["t,x,y"] * 5, "job,a,b,c", *["j,1,2,3"] * 9], ["x", "y"])])
def test_columns_that_are_likely_machines(rows: list[str], found: list[str]) -> None:
    assert _tables.likely_machines([(line, row.split(",")) for line, row in enumerate(rows, 1)]) == found


def archive_of(**parts: bytes) -> zipfile.ZipFile:
    content = io.BytesIO()
    with zipfile.ZipFile(content, "w") as archive:
        for name, text in parts.items():
            archive.writestr(name.replace("_", "."), text)
    return zipfile.ZipFile(content)


@pytest.mark.parametrize(("parts", "why"), [
    ({"a_xml": b"<" * 10}, ""), ({"a_xml": b"<" * 11}, "its part a.xml is too large"),
    ({"a_png": b"\x89" + b"<" * 11}, ""),
    ({"A_XML": b"<" * 11}, "its part A.XML is too large"), ({"a_rels": b"<" * 11}, "its part a.rels is too large"),
    ({"styles_xml": b"<" * 8}, ""), ({"styles_xml": b"<" * 9}, "its part styles.xml is too large"),
    ({"worksheets/a_xml": b"<c/>" * 5 + b"<" * 45}, ""), ({"worksheets/a_xml": b"<c/>" * 6}, "it has too many cells"),
    ({"worksheets/a_xml": b"<c/>" * 5 + b"<" * 46}, "its part worksheets/a.xml is too large"),
    ({"worksheets/a_xml": (b"<row><x:c/>" + b"<c >" * 3) * 2}, ""),
    ({"worksheets/a_xml": (b"<row><x:c/>" + b"<c >" * 3) * 2 + b"<row>"}, "it has too many cells"),
    ({"worksheets/a_xml": b"<x:col/>" * 5 + b"<row>" * 5}, ""),
    ({"worksheets/a_xml": b"<col/>" * 6}, "it has too many cells"),
    ({"worksheets/a_xml": b"<row/>" * 7}, ""), ({"worksheets/a_xml": b"<row/>" * 8}, "it has too many cells"),
    ({"worksheets/a_xml": b"<x:row/>" + b"<c>" * 5, "worksheets/b_xml": b"<c>" * 4}, ""),
    ({"worksheets/a_xml": b"<x:row/>" + b"<c>" * 5, "worksheets/b_xml": b"<c>" * 5}, "it has too many cells"),
    ({"worksheets/a_bin": b"<c/>" * 6}, "it has too many cells"),
    ({"a_bin": b" " + b"<" * 11}, "its part a.bin is too large"),
    ({"worksheets/a_xml": ("<c/>" * 6).encode("utf-16")}, "it has too many cells"),
    ({"worksheets/a_xml": ("<c/>" * 6).encode("utf-16-be")}, "it has too many cells"),
    ({"worksheets/a_xml": ("\ufeff" + "<c/>" * 6).encode()}, "it has too many cells"),
    ({"a_xml": b'<?xml version="1.0" encoding="utf-8"?><a>'}, ""), ({"a_xml": b"<?xml encoding='Windows-1252'?>"}, ""),
    ({"a_xml": b'\xef\xbb\xbf<?xml encoding = "cp037"?>'}, "its part a.xml is too large"),
    ({"a_xml": b"<a><!DOCTYPE a>"}, "its part a.xml is too large"),
    ({"a_xml": b"<" + b" " * 39 + b"<"}, ""), ({"a_xml": b"<" + b" " * 80}, "its part a.xml is too large"),
    *(({"a_xml": first + begin + b">" * count + end}, why) for begin, most, end in ((b"<!--", 33, b"-->"),
      (b"<?", 36, b"?>")) for first in (b"", begin + end)
      for count, why in ((most, ""), (most + 1, "its part a.xml is too large"))),
    ({"a_xml": b" " * 400}, ""), ({"a_xml": b" " * 401}, "its parts are too large"),
    ({"worksheets_xml": b"<" * 11}, "its part worksheets.xml is too large"),
    ({"mimetype": b""}, "it is of LibreOffice's own format")])
def test_the_largest_parts_of_workbooks(parts: dict[str, bytes], why: str, monkeypatch: pytest.MonkeyPatch) -> None:
    for name, most in (("MOST_TAGS", 10), ("MOST_STYLES", 8), ("MOST_IN_ROW", 5), ("MOST_CELLS", 10), ("MOST_ROWS", 7),
                       ("LONGEST", 40), ("MOST_UNPACKED", 400)):
        monkeypatch.setattr(_workbooks, name, most)
    if why:
        with pytest.raises(ValueError, match=f"^{re.escape(why)}$"):
            _workbooks.check_parts(archive_of(**parts))
    else:
        _workbooks.check_parts(archive_of(**parts))


def test_instances_of_one_name_and_other_sizes_are_two() -> None:
    """Also if each time of the smaller one is in the larger one. The same times again are one instance."""
    rows = [{"instance": "a", "makespan": 1, "order": [1]}]
    one_by_one, other = (pfs.Instance([[1] * count], name="a") for count in (1, 2))
    assert pfs.audit(rows, [one_by_one, pfs.Instance([[1]], name="A")])[0].valid
    for shops in ([one_by_one, other], [other, one_by_one], [one_by_one, pfs.Instance([[2]], name="a")]):
        assert pfs.audit(rows, shops)[0].why == "column 'instance': 'a' is the name of 2 different instances"


# Charts

def chart_of(jobs: int, machines: int, **more: Any) -> _drawing.Chart:
    """A chart in which each operation takes one unit."""
    starts = np.add.outer(np.arange(jobs), np.arange(machines))
    return _drawing.Chart([*range(1, jobs + 1)], starts, starts + 1, [*map(str, range(jobs))],
                          [*map(str, range(machines))], **more)


def test_names_of_machines_never_touch() -> None:
    """All machines have a name as long as a row is high enough for it, and else each second or fifth one."""
    figures = pytest.importorskip("matplotlib.figure")
    for machines, step in ((66, 1), (67, 2), (133, 2), (134, 5), (200, 5)):
        axis = figures.Figure().subplots()
        _drawing.draw_scales(axis, chart_of(1, machines))
        shown = [str(at - 1) for at in range(step, machines + 1, step)]
        assert [label.get_text() for label in axis.get_yticklabels()] == shown, machines
        assert [*axis.get_yticks()] == [int(name) + 1 for name in shown]


def test_more_jobs_than_pixels_of_a_row_are_an_image() -> None:
    assert [chart_of(jobs, 1, dpi=100).is_image for jobs in (1050, 1051)] == [False, True]


def test_a_page_has_what_its_script_reads(tmp_path: pathlib.Path) -> None:
    """And nothing else: each field of the data by its name, with dates and without."""
    script = TOP.joinpath("python/src/pfs/chart.html").read_text()
    calendar = pfs.Calendar("2026-11-30T12:00", shifts="06:00-14:00", closed="2026-12-02")
    made = pfs.Instance([[300, 30], [20, 500]], unit="min").schedule([1, 0])
    for given in (None, calendar):
        made.plot(tmp_path / "chart.html", critical=True, bound=540, calendar=given)
        data = json.loads(re.findall(r'id="data">(.*?)</script>', (tmp_path / "chart.html").read_text())[0])
        assert data.keys() == {*re.findall(r"\btable\.(\w+)", script)}
        assert given or (data["dates"], data["breaks"], data["steps"]) == (None, [], [])
    named = {*re.findall(r"\btable\.dates\.(\w+)", script)}
    for fields in re.findall(r"const \{([^}]*)\} = table\.dates", script):
        named |= {*fields.split(", ")}
    assert data["dates"].keys() == named
    said = {*re.findall(r'\bsay\("([^"]+)"\)', script), "job", "machine", "start", "end"}
    assert data["words"] == {text: text for text in {*said, *(day.title() for day in DAYS)}}


@pytest.mark.parametrize(("width", "size", "marks", "letters"), [
    (2, 9, 5, 20), (6, 9, 5, 72), (6.1, 11, "auto", 60), (12, 11, "auto", 129)])
def test_narrow_pictures_have_smaller_titles_and_fewer_marks(width: float, size: int, marks: int | str,
                                                             letters: int) -> None:
    """And these have lines of as many letters."""
    pytest.importorskip("matplotlib")
    for more in (0, 1):
        chart = chart_of(30, 2, width=width, title=f"a {'b' * (letters - 2 + more)}")
        axis = _drawing.draw(chart).axes[0]
        assert axis.title.get_fontsize() == size and axis.xaxis.get_major_locator()._nbins == marks
        assert axis.title.get_text().count("\n") == more


# The server for planners, and calendar files

def served(monkeypatch: pytest.MonkeyPatch, *words: str) -> tuple[Any, Any]:
    """What the program gives its application and the server."""
    for module in ("flask", "waitress"):
        require_module(module)
    from pfs.web import __main__ as web
    made, server = mock.Mock(), mock.Mock()
    for name, value in (("signal.signal", mock.Mock()), ("logging.basicConfig", mock.Mock()),
                        ("pfs.web.app.made", made), ("waitress.create_server", server)):
        monkeypatch.setattr(name, value)
    assert web.serve(web.words().parse_args(["--no-browser", *words])) == 0
    server.return_value.run.assert_called_once_with()
    return made.call_args.args[:3], server.call_args.kwargs


def test_the_names_and_the_proxy_of_a_server(tmp_path: pathlib.Path, monkeypatch: pytest.MonkeyPatch,
                                             capsys: pytest.CaptureFixture[str]) -> None:
    (names, token, searches), options = served(monkeypatch)
    assert names == {"127.0.0.1:8470", "localhost:8470"} and len(token) == 32
    assert capsys.readouterr().out == f"http://127.0.0.1:8470/#{token}\n"
    assert (options["host"], options["port"], "trusted_proxy" in options) == ("127.0.0.1", 8470, False)
    assert searches.slots == max(1, len(os.sched_getaffinity(0)) - 1)
    path = tmp_path / "token"
    path.write_text(f"\n {'a' * 200} ")
    path.chmod(0o660)
    monkeypatch.setattr("os.sched_getaffinity", lambda _: {0})
    (names, token, searches), options = served(
        monkeypatch, "--host", "0.0.0.0", "--name", "Plan.example", "--name", "b", "--token-file", str(path), "--port",
        "65535", "--proxy")
    own = ("plan.example", "b", "127.0.0.1", "localhost")
    assert names == {*own[:2], *(f"{name}:65535" for name in own)} and token == "a" * 200 and searches.slots == 1
    assert capsys.readouterr().out == f"http://Plan.example:65535/# and the token in {path}\n"
    assert (options["host"], options["trusted_proxy"], options["trusted_proxy_headers"]) == (
        "0.0.0.0", "127.0.0.1", {"x-forwarded-for"})


@pytest.mark.parametrize("text", ["a" * 19, "a" * 201, "a" * 20 + "\u00e4", "a" * 20 + " a"])
def test_tokens_that_are_rejected(text: str, tmp_path: pathlib.Path) -> None:
    from pfs.web import __main__ as web
    path = tmp_path / "token"
    path.write_text(text)
    path.chmod(0o600)
    with pytest.raises(_cli.Misused, match="token: a token has 20 to 200 letters, digits, - and _$"):
        web.token_in(str(path))
    path.write_text("aZ09_-" * 4)
    assert web.token_in(str(path)) == "aZ09_-" * 4 and web.token_in(None) != web.token_in(None)
    for mode in (0o604, 0o602, 0o601):
        path.chmod(mode)
        with pytest.raises(_cli.Misused, match="other users can read the token"):
            web.token_in(str(path))


EVENT = """BEGIN:VEVENT
UID:-@pfs
DTSTAMP:-
DTSTART:{}
DTEND:{}
SUMMARY:oak\\; 2
LOCATION:saw\\, left
TRANSP:TRANSPARENT
END:VEVENT
"""
EVENTS = ("BEGIN:VCALENDAR\nVERSION:2.0\nPRODID:-//pfs//plan//EN\nX-WR-CALNAME:saw\\, left\n"
          f"{EVENT.format('20261130T130000', '20261130T140000')}{EVENT.format('20261201T060000', '20261201T070000')}"
          "END:VCALENDAR\n")


def test_a_calendar_file_is_this_text(tmp_path: pathlib.Path) -> None:
    """With the time at which it was written, in UTC. The names of events stay, and are those of no other file, machine,
    job or shift."""
    calendar, seen = pfs.Calendar("2026-11-30T13:00", shifts="06:00-14:00"), list[str]()
    shop = pfs.Instance([[2, 0], [0, 1]], job_names=["oak; 2", "b"], machine_names=["saw, left", "Saw, left"], unit="h")
    for name in ("a.b.ics", "a.b.ics", "other.ics"):
        before = datetime.datetime.now(datetime.timezone.utc).replace(microsecond=0, tzinfo=None)
        one, other = shop.schedule([0, 1]).to_ics(tmp_path / name, calendar)
        after = datetime.datetime.now(datetime.timezone.utc).replace(tzinfo=None)
        text = pathlib.Path(one).read_bytes().decode()
        assert re.sub("(?m)^(UID|DTSTAMP):[0-9a-fTZ]+", r"\1:-", text) == EVENTS.replace("\n", "\r\n")
        stamps = re.findall(r"DTSTAMP:(\d{8}T\d{6})Z\r", text)
        assert len(stamps) == 2 and before <= datetime.datetime.strptime(stamps[0], "%Y%m%dT%H%M%S") <= after
        seen += re.findall(r"UID:([0-9a-f]{24})@pfs\r", text + pathlib.Path(other).read_bytes().decode())
    assert [pathlib.Path(path).name for path in (one, other)] == ["other-saw, left.ics", "other-Saw, left (2).ics"]
    assert seen[:3] == seen[3:6] and len({*seen}) == 6 and len(seen) == 9


def events(path: pathlib.Path) -> list[tuple[str, str, datetime.datetime, datetime.datetime]]:
    """The events of a calendar file, as python3-icalendar reads them."""
    require_module("icalendar")
    import icalendar
    content = path.read_bytes()
    assert all(len(line) <= 75 for line in content.split(b"\r\n"))
    read: Any = icalendar.Calendar.from_ical(content)
    return [(str(event["SUMMARY"]), str(event["UID"]), event["DTSTART"].dt, event["DTEND"].dt)
            for event in read.walk("VEVENT")]


def test_each_machine_has_a_calendar(tmp_path: pathlib.Path) -> None:
    """Work goes on in the next shift, and what takes no time isn't an event."""
    names = ["chair, red; \u00e4" + "\u00e4" * 60, "table\\2"]
    shop = pfs.Instance([[300, 0], [250, 400]], job_names=names, machine_names=["saw/1", "drill"], unit="min")
    calendar = pfs.Calendar("2026-11-30T06:00", shifts="06:00-14:00")
    paths = shop.schedule([1, 0]).to_ics(tmp_path / "plan.ics", calendar)
    assert paths == [str(tmp_path / "plan-saw-1.ics"), str(tmp_path / "plan-drill.ics")]
    saw, drill = (events(pathlib.Path(path)) for path in paths)
    day = datetime.datetime(2026, 11, 30)
    hours = [tuple((moment - day) / datetime.timedelta(minutes=1) for moment in event[2:]) for event in [*saw, *drill]]
    assert hours == [(360, 610), (610, 840), (1800, 1870), (610, 840), (1800, 1970)]
    assert [event[0] for event in [*saw, *drill]] == [names[at] for at in (1, 0, 0, 1, 1)]
    assert all(event[2].tzinfo is None for event in saw) and len({event[1] for event in [*saw, *drill]}) == 5
    # Imported again, events replace the earlier ones.
    shop.schedule([0, 1]).to_ics(tmp_path / "plan.ics", calendar)
    assert {event[:2] for event in events(tmp_path / "plan-saw-1.ics")} & {event[:2] for event in saw}


@pytest.mark.parametrize(("key", "what"), {
    "blocks": "a list of whole numbers from 1 to 1,000", "rounds": "a list of whole numbers from 0 to 1,000,000",
    "takes": "a list of whole numbers from 1 to 5,000", "passes": "a list of whole numbers from 0 to 100",
    "seeds": "a list of whole numbers from 0 to 18,446,744,073,709,551,615",
    "time_factors": "a list of numbers from 0.001 to 10,000", "repetitions": "a whole number from 1",
    "layout": '"taillard" or "orlib"', "reference": "the path of a CSV", "search": '"solve" or "iterated-greedy"',
    "partial": "a whole number from 0 to 100", "ties": '"first" or "idle"', "temperature": "a number from 0 to 1,000",
    "command": "a command", "anytime": "true or false", "method": "a name without control characters"}.items())
def test_what_a_value_of_a_plan_must_be(key: str, what: str) -> None:
    with pytest.raises(ExperimentError, match=f"^p: {key} must be {re.escape(what)}$"):
        plan.method_of("p", {key: {}})


# Times of a piece

PIECES = "job;qty;set-up;saw [min{}];drill\nA;10;15;2,5;0\nB;20;0;1,5;4\nC;5;30;2;0,25\n"


def pieces(folder: pathlib.Path, *options: str, text: str = PIECES.format("")) -> tuple[int, list[list[int]], int, str]:
    """The status, the times that are planned with their decimals, and the errors."""
    (folder / "times.csv").write_text(text)
    status, _, got = ended(["plan", "times.csv", "--unit", "min", "--rest", "rest.csv", *options], folder)
    shop = pfs.read_csv(folder / "rest.csv") if status == 0 else pfs.Instance([[0]])
    return status, shop.times.tolist(), shop.decimals, got


def test_quantities_and_set_ups(tmp_path: pathlib.Path) -> None:
    """By hand. A time of 0 stays 0."""
    both = ["--quantity", "qty", "--setup", "set-up"]
    assert pieces(tmp_path, *both) == (0, [[4000, 0], [3000, 8000], [4000, 3125]], 2, "")
    assert pieces(tmp_path, *both[:2], "--machines", "drill,saw") == (
        0, [[0, 2500], [8000, 3000], [125, 1000]], 2, "times.csv: columns that are left out: set-up\n")
    assert pieces(tmp_path, *both[:3], "SAW=set-up")[:3] == (0, [[4000, 0], [3000, 8000], [4000, 125]], 2)
    assert pieces(tmp_path, *both[:3], "saw=set-up", "--setup", "drill=set-up")[:2] == pieces(tmp_path, *both)[:2]
    assert pieces(tmp_path, *both[2:], "--machines", "saw")[:3] == (0, [[175], [15], [320]], 1)
    # The names above those of the machines, as exports have them.
    text = "job;qty;a piece takes\n;;saw;drill\nA;3;2;0\nB;1;1;5\n"
    assert pieces(tmp_path, *both[:2], "--machines", "saw,drill", text=text) == (0, [[6, 0], [1, 5]], 0, "")
    text = "job;qty;note=;saw=x\nA;3;2;5\n"
    assert pieces(tmp_path, *both[:2], "--setup", "note=", "--machines", "saw=x", text=text)[:2] == (0, [[17]])
    text = "job [h:mm];qty;saw\nA;3;1:30\n"
    (tmp_path / "times.csv").write_text(text)
    assert "makespan 4:30 h" in ended(["plan", "times.csv", *both[:2]], tmp_path)[1]


@pytest.mark.parametrize("unit", ["/Stk", "/pc", " je St\u00fcck", " per piece", "/St.", " pro Teil", "/ each"])
def test_times_of_a_piece_need_a_quantity(tmp_path: pathlib.Path, unit: str) -> None:
    text = PIECES.format(unit).replace("drill", f"drill [min{unit}]")
    machines = ["--machines", "saw,drill"]
    said = (f"pfs: times.csv: cell D1: 'saw [min{unit}]' says that times are those of a piece: say which column has "
            "the quantities (--quantity), or leave these words out\n")
    status, _, _, got = pieces(tmp_path, *machines, text=text)
    assert status == 2 and got.startswith(said) and "cell E1" in got
    status, times, decimals, _ = pieces(tmp_path, *machines, "--quantity", "qty", text=text)
    assert (status, times, decimals) == (0, [[2500, 0], [3000, 8000], [1000, 125]], 2)
    for text in (f"job;saw{unit};drill\nA;1;2\n", f"times{unit}\njob;saw;drill\nA;1;2\n",
                 f"job [min{unit}];saw\nA;1\n"):
        assert "says that times are those of a piece" in pieces(tmp_path, text=text)[3]
    for heads in ("saw [min/d];drill", "piece;perpiece", "saw/stack;drill per partition"):
        assert pieces(tmp_path, text=f"job;{heads}\nA;1;2\n")[::3] == (0, "")


@pytest.mark.parametrize(("quantity", "said"), [
    ("", "the quantity is missing: write how many pieces there are"),
    *((each, f"{each!r} isn't a whole number of pieces, from 1 to 999,999,999")
      for each in ("0", "2,5", "-1", "x", "1000000000", "1.000"))])
def test_quantities_that_are_none(tmp_path: pathlib.Path, quantity: str, said: str) -> None:
    text = PIECES.format("").replace("B;20", f"B;{quantity}")
    status, _, _, got = pieces(tmp_path, "--quantity", "qty", "--setup", "set-up", text=text)
    assert (status, got) == (2, f"pfs: times.csv: cell B3, column 'qty': {said}\n")


def test_other_faults_of_pieces(tmp_path: pathlib.Path) -> None:
    for options, said in (
            (["--quantity", "none"], "line 1, no column is named 'none': this row has qty, set-up, saw [min], drill "
             "(--quantity)"), (["--setup", "saw=none"], "no column is named 'none'"),
            (["--setup", "none=qty"], "no column is named 'none'"), (["--setup", "=qty"], "no column is named ''")):
        status, _, _, got = pieces(tmp_path, *options)
        assert status == 2 and said in got, got
    most = PIECES.format("").replace("B;20;0;1,5", "B;999999999;0;999999999")
    assert "the time is above 1,000,000,000" in pieces(tmp_path, "--quantity", "qty", "--setup", "set-up", text=most)[3]
    text = PIECES.format("").replace("A;10;15", "A;10;")
    assert "cell C2, column 'set-up': the time is missing" in pieces(
        tmp_path, "--quantity", "qty", "--setup", "set-up", text=text)[3]


def test_jobs_that_are_not_in_the_first_column(tmp_path: pathlib.Path) -> None:
    """Titles above and columns to the left are left out, and one of these may be a machine that is named."""
    text = "Week 49;;;\nplant;site;order [min];saw;drill\n1000;B;FA-1;3;2\n1000;B;FA-2;1;5\n"
    (tmp_path / "times.csv").write_text(text)
    for name in ("order", "order [min]", "ORDER"):
        status, printed, got = ended(["plan", "times.csv", "--jobs", name, "--rounds", "0"], tmp_path)
        assert (status, got) == (0, "times.csv: columns that are left out: plant, site\n")
        assert "makespan 8 min" in printed and "\n1 FA-2\n2 FA-1\n" in printed
    shop = pfs.read_csv(tmp_path / "times.csv", jobs="order", machines=["drill"])
    assert (shop.job_names, shop.machine_names, shop.unit) == (("FA-1", "FA-2"), ("drill",), "min")
    assert shop.times.tolist() == [[2], [5]]
    for options, said in ((["--jobs", "none"], "line 1, no column is named 'none' (--jobs)"),
                        (["--jobs", "plant"], "cell A4: the job '1000' is in A3 too"),
                        (["--jobs", "order", "--machines", "lathe"], "no column is named 'lathe'")):
        status, _, got = ended(["plan", "times.csv", *options], tmp_path)
        assert status == 2 and said in got, got
    (tmp_path / "times.csv").write_text("order [h];order;qty;qty;saw\na;1;2;3;4\n")
    assert pfs.read_csv(tmp_path / "times.csv", jobs="order", machines=["saw"]).job_names == ("1",), "the whole name"
    with pytest.raises(pfs.TableFault) as fault:
        pfs.read_csv(tmp_path / "times.csv", jobs="ORDER", machines=["saw"], quantity="qty")
    assert [(each.column, each.text.partition(":")[0]) for each in (fault.value, *fault.value.others)] == [
        (2, "the column 'ORDER' may be this column or A1"), (4, "the column 'qty' may be this column or C1")]
    (tmp_path / "times.csv").write_text(text.replace("FA-2;1", ";x"))
    got = ended(["plan", "times.csv", "--jobs", "order"], tmp_path)[2]
    assert "cell C4: the job has no name" in got and "cell D4, column 'saw': 'x' isn't a time" in got
