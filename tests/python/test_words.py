"""Schedules and charts in other languages."""
import importlib.resources
import pathlib
import re

import pfs
import pytest
from pfs.base import languages as _words
from pfs.schedules import chart, report
from pfs.schedules.chart import PAGE_WORDS
from support.browser import PEN, looked_at, scripted
from support.commands import ended
from support.needs import tool
from support.tools import output_of

openpyxl = pytest.importorskip("openpyxl")
TABLE = "job [min];saw;drill\ntable;300;200\nchair;250;400\n"
DATES = ["--begin", "2026-11-30T06:00", "--shift", "06:00-14:00"]


def test_each_text_is_in_the_table_and_each_of_the_table_is_said() -> None:
    german = _words.texts_in((importlib.resources.files("pfs") / _words.GERMAN).read_bytes(), "", None)
    top = pathlib.Path(pfs.__file__).parent
    page, *sources = (path.read_text("utf-8") for path in (top / "chart.html", *top.rglob("*.py")))
    said = set(re.findall(r"say\([\"']([^\"']+)[\"']\)", "".join([page, *sources])))
    said |= {" ".join(text.split()) for text in re.findall("{{=([^}]+)}}", page)}
    said |= {*report.OPERATIONS, *report.MARKS, *report.JOBS, *report.PLACES, *report.MACHINES, *PAGE_WORDS,
             "units of the instance", "date and time", "date and time, in shifts only"}
    assert said == german.keys()


@pytest.fixture
def folder(tmp_path: pathlib.Path) -> pathlib.Path:
    (tmp_path / "times.csv").write_text(TABLE)
    return tmp_path


@pytest.mark.parametrize("name", ["plan.csv", "plan.XLSX"])
def test_a_german_schedule_is_an_order(folder: pathlib.Path, name: str) -> None:
    plan = ended(["plan", "times.csv", *DATES, "--schedule", name, "--language", "de"], folder)
    assert plan[0] == 0
    words = ["plan", "times.csv", *DATES, "--order", name, "--compare", name]
    status, printed, said = ended(words, folder)
    assert (status, printed) == plan[:2] and f"{name}: makespan" in said and "moved" not in said
    if name.endswith(".csv"):
        assert (folder / name).read_text("utf-8-sig").startswith("Auftrag;Maschine;Beginn;Ende\n")
    else:
        book = openpyxl.load_workbook(folder / name)
        assert book.sheetnames == ["Plan", "Maschinen", "Aufträge", "saw", "drill"]
        assert [cell.value for cell in book["saw"][1]] == ["Platz", "Auftrag", "Beginn", "Ende"]
        assert book["saw"]["C2"].is_date
        assert book["Maschinen"]["C1"].value == "Auslastung %"


def test_a_language_of_a_file(folder: pathlib.Path) -> None:
    """With a head that has the separator. What the file lacks stays English."""
    (folder / "fr.txt").write_text("\ufeff# français\njob = commande; n°\n\nend=fin = arrêt\n", "utf-8")
    words = ["plan", "times.csv", "--language", "fr.txt"]
    assert ended([*words, "--schedule", "plan.csv"], folder)[0] == 0
    assert (folder / "plan.csv").read_text("utf-8-sig").startswith('"commande; n°";machine;start;fin = arrêt\n')
    assert ended([*words, "--order", "plan.csv", "--compare", "plan.csv"], folder)[0] == 0
    assert ended(["plan", "times.csv", "--order", "plan.csv"], folder)[0] == 2, "in none of the languages"


def test_names_outside_ascii_are_in_all_that_is_written(folder: pathlib.Path) -> None:
    """In the order that is printed, CSV, a workbook, calendars, pictures, a page and in Jupyter, as in the table."""
    names = ["Säge", "Łódź", "Tür", "Øre"]
    (folder / "times.csv").write_text("job [min];{};{}\n{};300;200\n{};250;400\n".format(*names), "utf-8")
    status, printed, _ = ended(["plan", "times.csv"], folder)
    assert status == 0 and {*names[2:]} <= {*printed.split()}
    plan = pfs.read_csv(folder / "times.csv").schedule([0, 1])
    for ending in ("csv", "xlsx", "svg", "pdf", "html"):
        getattr(plan, {"csv": "to_csv", "xlsx": "to_xlsx"}.get(ending, "plot"))(folder / f"plan.{ending}")
    events = plan.to_ics(folder / "plan.ics", pfs.Calendar("2026-11-30T06:00"))
    assert [pathlib.Path(path).name for path in events] == [f"plan-{name}.ics" for name in names[:2]]
    book = openpyxl.load_workbook(folder / "plan.xlsx")
    written = {"workbook": repr([[*sheet.values] for sheet in book]), "Jupyter": str(plan._repr_svg_()),
               "PDF": output_of([tool("pdftotext"), "plan.pdf", "-"], folder),
               **{ending: (folder / f"plan.{ending}").read_text("utf-8") for ending in ("csv", "svg", "html")},
               "ICS": "".join(pathlib.Path(path).read_text("utf-8") for path in events)}
    assert {where: [name for name in names if name not in text] for where, text in written.items()} == dict.fromkeys(
        written, [])


def test_all_faults_of_a_language(folder: pathlib.Path) -> None:
    (folder / "fr.txt").write_bytes("job\njob = a\njob = b\nend =\nwort = mot\nstart = d\xe9but\n".encode("latin-1"))
    status, printed, said = ended(["plan", "times.csv", "--language", "fr.txt", "--schedule", "plan.csv"], folder)
    assert (status, printed, len(said.splitlines())) == (2, "", 5)
    for line, text in enumerate(("'job'", "'job' again", "'end ='", "'wort', which no schedule", "in UTF-8")):
        assert said.splitlines()[line].startswith(f"pfs: fr.txt: line {(1, 3, 4, 5, 6)[line]}, ") and text in said
    assert not (folder / "plan.csv").exists()
    got = ended(["plan", "times.csv", "--language", "none"], folder)
    assert got == (3, "", "pfs: --language must be 'en', 'de' or a file with words, not 'none'\n")
    with pytest.raises(TypeError):
        pfs.Instance([[1]]).schedule([0]).to_csv(language=0)  # type: ignore[arg-type]  # no number of an open file


def test_charts_in_german(folder: pathlib.Path) -> None:
    pytest.importorskip("matplotlib")
    assert ended(["plan", "times.csv", *DATES, "--language", "de", "--chart", "plan.svg", "--chart", "plan.html"],
                 folder)[0] == 0
    drawn, page = ((folder / name).read_text("utf-8") for name in ("plan.svg", "plan.html"))
    title = "2 Aufträge auf 2 Maschinen: Gesamtdauer 850 min, Ende Di 2026-12-01 12:10, Schranke 850 (gestrichelt)"
    for text in (title, "Mo 2026-11-30", "Datum und Uhrzeit, nur Schichten", ">frei<", ">Maschine<"):
        assert text in drawn
    for text in (title, '<html lang="de">', "<caption>Maschine saw<", ">Platz<", "Auftrag suchen:", '"a page a day":'):
        assert text in page
    assert "&lt;b&gt;" in chart.filled(dict.fromkeys(("title", "data", "lists"), ""), lambda text: "<b>" + text)


def test_a_german_page(chromium: str, folder: pathlib.Path) -> None:
    assert ended(["plan", "times.csv", *DATES, "--language", "de", "--chart", "plan.html"], folder)[0] == 0
    seen = looked_at(chromium, scripted(folder / "plan.html", PEN + """
const box = canvas.getBoundingClientRect();
point({clientX: box.left + left + 5, clientY: box.top + TOP + 5});
field.value = "a"; field.dispatchEvent(new Event("input"));
tell({tip: tip.textContent, found: byId("found").textContent,
        list: document.querySelector("#jobs caption").textContent, head: document.querySelector("#jobs th").textContent,
        days: [...print.options].map(option => option.textContent), weekdays: WEEKDAYS[0]});
"""), folder)
    assert seen["tip"].split("\n")[0].startswith("Auftrag ") and seen["tip"].split("\n")[3].startswith("Ende 2026-")
    assert (seen["found"], seen["head"], seen["weekdays"]) == ("2 Aufträge gefunden", "Maschine", "So")
    assert seen["list"].startswith("Auftrag ") and "eine Seite je Tag" in seen["days"]
