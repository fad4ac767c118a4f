"""The server of the page for planners, by Flask's client: who may send requests, the responses, limits, and searches.
tests/python/test_web_server.py starts it, and test_web_page.py looks at the page."""
import base64
import copy
import datetime
import functools
import hashlib
import io
import itertools
import json
import operator
import os
import pathlib
import random
import re
import resource
import struct
import sys
import tempfile
import time
import weakref
import zipfile
from collections import Counter
from collections.abc import Callable, Collection, Iterator
from typing import Any
from unittest import mock

import pfs
import pytest
from hypothesis import given
from hypothesis import strategies as st
from support.needs import require_module
from support.tools import run_main, wait_until

for module in ("flask", "waitress", "openpyxl"):
    require_module(module)
from flask.testing import FlaskClient
from pfs.commands.main import main, plan_words
from pfs.files import tables as _tables
from pfs.web import app, apart, plans, searches
from werkzeug.test import TestResponse

TOKEN, HOST = "A-token_of_24_characters", "127.0.0.1:8470"
TABLE = "job [h];saw;drill;paint\ntable;3;2,5;4\nchair;2;5;1,5\nshelf;4;1;2\nbox;1;1;6\n"
SHOP: dict[str, Any] = {"jobs": ["table", "chair", "shelf", "box"], "machines": ["saw", "drill", "paint"],
        "unit": "h", "decimals": 1, "times": [[30, 25, 40], [20, 50, 15], [40, 10, 20], [10, 10, 60]]}
ORDER = ["box", "table", "chair", "shelf"]
DATES = {"begin": "2026-11-30T06:00", "shifts": "06:00-14:00\nfri:06:00-12:00", "days": "mon-fri", "closed": ""}
PLAN: dict[str, Any] = {"shop": SHOP, "order": ORDER, "held": 0, "calendar": DATES, "title": "Week 49"}


def client_of(found: searches.Searches) -> FlaskClient:
    return app.made({HOST, "planning.example"}, TOKEN, found).test_client()


def client_here(found: searches.Searches) -> FlaskClient:
    """Of a server that makes in this process what it makes apart, so that it is quick."""
    def make(call: apart.Call, given: dict[str, Any]) -> Any:
        with tempfile.TemporaryDirectory() as folder:
            return call(given, folder)

    with mock.patch.object(app, "Apart", lambda: make):
        return client_of(found)


@pytest.fixture(scope="module")
def client() -> FlaskClient:
    return client_here(searches.Searches(2))


def asked(client: FlaskClient, path: str, body: Any = None, method: str = "POST", **headers: str) -> TestResponse:
    sent = {"Host": HOST, "X-Pfs-Token": TOKEN, **{name.replace("_", "-"): text for name, text in headers.items()}}
    sent = {name: text for name, text in sent.items() if text != "none"}
    more: dict[str, Any] = {"data": json.dumps(body), "content_type": "application/json"} if method == "POST" else {}
    return client.open(path, method=method, headers=sent, **more)


def answer(client: FlaskClient, path: str, body: Any = None, method: str = "POST") -> Any:
    got = asked(client, path, body, method)
    assert got.status_code == 200, got.text
    return got.json


def refused(client: FlaskClient, path: str, body: Any) -> tuple[int, str]:
    got = asked(client, path, body)
    return got.status_code, (got.json or {}).get("error", "")


def content(data: bytes | str) -> str:
    return base64.b64encode(data.encode() if isinstance(data, str) else data).decode()


def read(client: FlaskClient, data: bytes | str, **options: Any) -> Any:
    return answer(client, "/api/read", {"content": content(data), "name": "times.csv", "options": options})


# Who may ask

CALLS = [("POST", "/api/read", {"rows": []}), ("POST", "/api/order", PLAN), ("POST", "/api/plan", PLAN),
         ("POST", "/api/rest", PLAN), ("POST", "/api/file", PLAN), ("POST", "/api/search", PLAN),
         ("GET", "/api/search/a", None), ("DELETE", "/api/search/a", None)]
NO_TOKEN = 403, "The token is missing or wrong: ask for the whole address of the page."
NO_NAME, NO_PAGE = (421, "The server has another name: see --name."), (403, "Pages of other sites may not ask.")
STRANGERS = {
    "no token": ({"X_Pfs_Token": "none"}, NO_TOKEN), "another token": ({"X_Pfs_Token": TOKEN[:-1]}, NO_TOKEN),
    "a letter of another script": ({"X_Pfs_Token": "\u00e4"}, NO_TOKEN),
    "another name, which leads here": ({"Host": "evil.example:8470"}, NO_NAME),
    "another port": ({"Host": "127.0.0.1:80"}, NO_NAME),
    "a page of another site": ({"Origin": "http://evil.example"}, NO_PAGE),
    "a page at another port": ({"Origin": "http://127.0.0.1:9000"}, NO_PAGE), "a file": ({"Origin": "null"}, NO_PAGE),
    "a frame of another site": ({"Sec_Fetch_Site": "cross-site"}, NO_PAGE),
    "another host of this site": ({"Sec_Fetch_Site": "same-site"}, NO_PAGE),
}


@pytest.mark.parametrize("who", STRANGERS)
@pytest.mark.parametrize("call", CALLS, ids=lambda call: " ".join(call[:2]))
def test_a_stranger_computes_reads_and_ends_nothing(who: str, call: tuple[str, str, Any],
                                                    monkeypatch: pytest.MonkeyPatch) -> None:
    def never(*_: Any) -> None:
        pytest.fail("the request was answered")

    for kind, names in ((searches.Searches, ("add", "told", "end")), (apart.Apart, ("__call__",))):
        for name in names:
            monkeypatch.setattr(kind, name, never)
    (headers, due), (method, path, body) = STRANGERS[who], call
    # A response needs the application, which the client holds.
    client = client_of(searches.Searches(1))
    got = asked(client, path, body, method, **headers)
    assert (got.status_code, got.json) == (due[0], {"error": due[1]})


def test_what_is_refused_is_in_the_log(client: FlaskClient, caplog: pytest.LogCaptureFixture) -> None:
    """Without the token, the name of a search, and lines of its own."""
    caplog.set_level("INFO")
    asked(client, f"/api/search/{TOKEN}", method="GET", X_Pfs_Token="wrong")
    asked(client, "/api/read%0Aa", {}, Host="evil.example")
    asked(client, "/api/read", {})
    assert caplog.messages == ["refused: 403 GET /api/search 127.0.0.1", r"refused: 421 POST /api/read\na 127.0.0.1"]


def test_the_own_page_may_ask(client: FlaskClient) -> None:
    """Also where a proxy for TLS passes the name on."""
    for host, origin in ((HOST, f"http://{HOST}"), (HOST.upper(), f"http://{HOST}"),
                         ("planning.example", "https://planning.example")):
        got = asked(client, "/api/read", {"rows": []}, Host=host, Origin=origin, Sec_Fetch_Site="same-origin")
        assert got.status_code == 200
    assert asked(client, "/", method="GET", Sec_Fetch_Site="cross-site", X_Pfs_Token="").status_code == 200


@pytest.mark.parametrize("path", ["/", "/static/page.js", "/static/document.js", "/static/page.css",
                                  "/api/search/a", "/nothing"])
def test_each_answer_forbids_what_the_page_does_not_need(client: FlaskClient, path: str) -> None:
    got = asked(client, path, method="GET")
    assert got.status_code == (404 if path in ("/api/search/a", "/nothing") else 200)
    headers = got.headers
    policy = dict(part.strip().split(" ", 1) for part in headers["Content-Security-Policy"].split(";"))
    due = {**dict.fromkeys(("default-src", "frame-ancestors", "form-action", "base-uri"), "'none'"),
           "connect-src": "'self'"}
    assert {name: policy[name] for name in due} == due
    for name in ("script-src", "style-src"):
        assert re.fullmatch("'sha256-[A-Za-z0-9+/]{43}=' 'self'", policy[name])
    assert (headers["X-Content-Type-Options"], headers["Referrer-Policy"], headers["Cache-Control"]) \
        == ("nosniff", "no-referrer", "no-store")
    assert {headers[f"Cross-Origin-{name}-Policy"] for name in ("Opener", "Resource")} == {"same-origin"}
    assert "Access-Control-Allow-Origin" not in headers and "Set-Cookie" not in headers


@pytest.mark.parametrize("path", ["/../app.py", "/app.py", "/__init__.py", "/%2e%2e/_cli.py", "//etc/passwd",
                                  "/static/../app.py", "/static/%2e%2e/app.py", "/static//etc/passwd"])
def test_only_the_files_of_the_page_are_served(client: FlaskClient, path: str) -> None:
    assert asked(client, path, method="GET").status_code in (308, 404)


def test_the_page_asks_for_nothing_from_elsewhere_and_makes_no_html_of_texts() -> None:
    for path in pathlib.Path(app.__file__).with_name("static").iterdir():
        text = path.read_text("utf-8")
        assert re.findall(r"(?:https?:)?//(?!/)[\w.-]+\.\w", re.sub(r"^\s*// .*$", "", text, flags=re.MULTILINE)) == []
        never = r"innerHTML|outerHTML|insertAdjacent|document\.write|\beval\b|new Function|\bon\w+=[\"']"
        assert re.findall(never, text) == []
        assert re.findall(r"srcdoc = (.*);", text) == ["told.chart"] * (path.name == "result.js"), "it has a policy"


# What isn't a request

# What is asked, and what isn't as in a plan.
WRONG: list[tuple[str, Any]] = [
    ("read", {}), ("read", {"rows": [[1]]}), ("read", {"rows": [[0, ["a"]]]}), ("read", {"rows": [[2**20 + 1, ["a"]]]}),
    ("read", {"rows": [[1, ["a"]], [1, ["b"]]]}), ("read", {"rows": [[1, ["\ud800"]]]}), ("read", {"content": "%%%"}),
    ("read", {"rows": [], "options": {"delimiter": "|"}}), ("read", {"rows": [], "options": {"texts": [[1, 1, 1]]}}),
    ("plan", {"shop": None}), ("plan", {"order": None}), ("plan", {"shop": {**SHOP, "decimals": -1}}),
    ("plan", {"shop": {**SHOP, "decimals": 10}}), ("plan", {"held": 5}), ("plan", {"least": 2**53 + 1}), ("file", {}),
    ("file", {"kind": "../../etc/cron.d/x"}), ("search", {"seconds": -1}), ("search", {"held": 5}),
    ("search", {"seed": 2**53 + 1}), ("plan", {"claimed": -1}), ("plan", {"kept": [ORDER]}), ("plan", {"kept": [{}]}),
    ("plan", {"kept": [{"order": [1]}]}), ("read", {"rows": [], "options": {"setup": "a"}})]


@pytest.mark.parametrize(("path", "more"), WRONG)
def test_another_form_is_refused(path: str, more: Any, client: FlaskClient) -> None:
    assert refused(client, f"/api/{path}", {**PLAN, **more}) \
        == (400, "the request has another form than those of this server's page")


AT = {"at": "2026-12-01T10:00"}
TELLS: list[tuple[str, Any, str]] = [
    ("plan", {"shop": {**SHOP, "jobs": ["a", "a", "b", "c"]}}, "'a' occurs twice"),
    ("plan", {"calendar": {**DATES, "shifts": "6 to 14"}}, "is not a shift"),
    ("plan", {"calendar": {**DATES, "begin": ""}}, '"Shifts" needs "Work begins"'),
    ("plan", {"calendar": {**DATES, "closed": "2026-12-24," * 2_000}}, "too long"),
    ("file", {"calendar": {}, "kind": "zip"}, 'a calendar needs "Work begins"'),
    ("rest", {**AT, "calendar": {}}, '"Now" needs "Work'),
    ("rest", {"at": "2026-11-29T10:00"}, 'is before "Work begins"'), ("rest", {"at": "2027-11-29T10:00"}, "finished"),
    ("rest", {**AT, "down": {"x": "2026-12-02T10:00"}}, "\"down until\": 'x' isn't"),
    ("rest", {**AT, "down": {"saw": "2026-12-01T09:00"}}, "'saw' is up"),
    ("read", {"rows": [], "options": {"decimal": "x"}}, "decimal must")]


@pytest.mark.parametrize(("path", "more", "said"), TELLS)
def test_what_a_planner_can_change_is_told(path: str, more: Any, said: str, client: FlaskClient) -> None:
    status, error = refused(client, f"/api/{path}", {**PLAN, **more})
    assert status == 422 and said in error


def test_a_table_has_a_greatest_number_of_times(client: FlaskClient) -> None:
    """With one more it is rejected; with that number its names are missing."""
    for count, said in ((plans.MOST_TIMES + 1, f"more than {plans.MOST_TIMES:,} times"), (plans.MOST_TIMES, "times")):
        status, error = refused(client, "/api/search", {"shop": {**SHOP, "times": [[1] * count]}})
        assert status == 422 and said in error and ("more than 400,000" in error) == (count > plans.MOST_TIMES)


def test_other_kinds_of_requests_are_refused(client: FlaskClient) -> None:
    own = {"Host": HOST, "X-Pfs-Token": TOKEN}
    for sent, kind, status, said in (
            *((b"{}", kind, 415, "Send JSON.") for kind in ("application/x-www-form-urlencoded", "text/plain")),
            *((each, "application/json", 400, "") for each in (
                b"{", b"[" * 100_000, b"\xff", b'{"held":' + b"9" * 5_000 + b"}", b" " * 8_388_608)),
            (b" " * 8_388_609, "application/json", 413, "The request is too large.")):
        got = client.post("/api/plan", data=sent, content_type=kind, headers=own)
        assert got.status_code == status and got.json and got.json["error"].endswith(said)
    assert [client.get(f"/api/{path}", headers=own).status_code for path in ("plan", "search")] == [405, 405]


@pytest.mark.parametrize(("error", "status", "said"), [
    (MemoryError(), 503, "the server has too little memory for this"), (ImportError("a"), 422, "a"),
    (KeyError("a"), 500, "the server failed; its log says why")])
def test_what_is_said_of_errors(error: Exception, status: int, said: str, caplog: pytest.LogCaptureFixture) -> None:
    assert app.failed(error) == ({"error": said}, status)
    assert ("a request failed\nKeyError: 'a'\n" in caplog.text) == (status == 500)


def leaves(value: Any, path: tuple[Any, ...] = ()) -> Iterator[tuple[Any, ...]]:
    """Where the values of a request are."""
    yield path
    items = value.items() if isinstance(value, dict) else enumerate(value) if isinstance(value, list) else ()
    for key, each in items:
        yield from leaves(each, (*path, key))


VALUES: list[Any] = [None, True, -1, 0, 2**70, 1e400, 0.5, "", "\ud800", "a" * 300, [], [[]], {}, [None], {"a": 1}]
OPTIONS: dict[str, Any] = {"unit": "h", "decimal": ",", "totals": True, "machines": ["saw"], "delimiter": ";",
                           "decimals": 1, "texts": [[2, 2]]}
REQUESTS: list[tuple[str, dict[str, Any]]] = [
    ("/api/read", {"rows": [[1, ["job", "saw"]], [2, ["a", "1"]]], "options": OPTIONS}),
    ("/api/read", {"content": content(TABLE), "name": "x", "options": {"unit": "h", "sheet": "a"}}),
    ("/api/plan", {**PLAN, "kept": [ORDER], "least": 1, "digest": "a", "language": "de"}),
    ("/api/order", {"shop": SHOP, "content": content("box")}), ("/api/file", {**PLAN, "kind": "csv"}),
    ("/api/search", {"shop": SHOP, "order": ORDER, "held": 0, "seconds": 0, "seed": 1}),
    ("/api/rest", {**PLAN, "at": "2026-12-01T10:00", "down": {"saw": "2026-12-01T12:00"}})]


@pytest.mark.seconds(5)
@pytest.mark.parametrize(("path", "body"), REQUESTS)
def test_no_value_at_any_place_is_a_fault_of_the_server(path: str, body: dict[str, Any]) -> None:
    """One of another kind is of another form, as is half of a letter; null stands for what is missing."""
    found = searches.Searches(1)
    client = client_here(found)
    for place, value in itertools.product(leaves(body), VALUES):
        changed: Any = {"": copy.deepcopy(body)}
        way: list[Any] = ["", *place]
        at = functools.reduce(operator.getitem, way[:-1], changed)
        is_other = value == "\ud800" or type(value) not in (type(None), type(at[way[-1]]))
        at[way[-1]] = value
        status, error = refused(client, path, changed[""])
        assert status in ([400] if is_other else [200, 400, 422, 429, 503]), f"{place}: {value!r}: {error}"
    found.end_all()


# Tables

HEAD, ONE, TWO = [1, ["job", "saw", "drill"]], [2, ["a", "1", "2"]], [3, ["b", "3", "4"]]
AS_READ: dict[str, Any] = {"faults": [], "more": 0, "suggested": [], "rounded": "", "digest": mock.ANY, "shop": {
    "jobs": ["a", "b"], "machines": ["saw", "drill"], "unit": "", "decimals": 0, "times": [[1, 2], [3, 4]]}}


@pytest.mark.parametrize(("rows", "options", "shop", "rounded"), [
    ([HEAD, ONE, TWO], {}, {}, ""), ([HEAD, ONE, TWO], {"unit": "min"}, {"unit": "min"}, ""),
    ([HEAD, ONE, TWO], {"machines": ["drill"]}, {"machines": ["drill"], "times": [[2], [4]]}, ""),
    ([HEAD, ONE, [3, ["sum", "3", "4"]]], {"totals": True}, {"jobs": ["a", "sum"]}, ""),
    ([HEAD, ONE, [3, ["b", "3", "4.000"]]], {"decimal": ",", "delimiter": "\t"}, {"times": [[1, 2], [3, 4000]]}, ""),
    ([HEAD, ONE, [3, ["b", "3", "4.000"]]], {"decimal": "", "texts": None}, {}, ""),
    ([HEAD, ONE, [3, ["b", "3", "4.25"]]], {"decimals": 1}, {"decimals": 1, "times": [[10, 20], [30, 43]]},
     "1 time rounded to 1 decimal, by 0.05 at most (C3: 4.25)"),
    ([[2, HEAD[1]], [4, ONE[1]], [9, TWO[1]]], {"delimiter": ";"}, {}, "")])
def test_rows_are_read_with_options(rows: Any, options: Any, shop: Any, rounded: str, client: FlaskClient) -> None:
    assert answer(client, "/api/read", {"rows": rows, "options": options}) \
        == {**AS_READ, "shop": {**AS_READ["shop"], **shop}, "rounded": rounded}


def test_columns_of_jobs_quantities_and_set_ups_are_chosen(client: FlaskClient) -> None:
    """And the order of the machines. A job that skips a machine has no set-up there."""
    rows = [[1, ["plant", "order", "pieces", "set-up", "saw [min/pc]", "drill [min/pc]"]],
            [2, ["1000", "a", "2", "1", "3", "0"]], [3, ["1000", "b", "3", "2", "0", "2"]]]
    options = {"jobs": "order", "quantity": "pieces", "setup": ["saw=set-up"]}
    for machines, times in ((["drill", "saw"], [[0, 7], [6, 0]]), ([], [[7, 0], [0, 6]])):
        got = answer(client, "/api/read", {"rows": rows, "options": {**options, "machines": machines}})
        assert got["faults"] == [] and got["shop"]["times"] == times and got["shop"]["jobs"] == ["a", "b"]
        assert got["shop"]["machines"] == (machines or ["saw", "drill"])
    got = answer(client, "/api/read", {"rows": rows, "options": {**options, "quantity": ""}})
    assert "say which column has the quantities (Column of quantities, above the table)" in str(got["faults"])


@pytest.mark.parametrize("code", ["utf-8", "cp1252"])
def test_a_file_is_read_with_its_rows(code: str, client: FlaskClient) -> None:
    table = TABLE.replace("box", "K\u00fcche")
    assert read(client, table.encode(code)) == {
        **AS_READ, "shop": {**SHOP, "jobs": [*SHOP["jobs"][:3], "K\u00fcche"]}, "delimiter": ";", "texts": None,
        "computed": None, "sheets": [], "sheet": None, "isOther": code == "cp1252", "own": {}, "hidden": [0, 0],
        "rows": [[line, row.split(";")] for line, row in enumerate(table.splitlines(), 1)]}


def test_faults_name_their_cells_and_controls(client: FlaskClient) -> None:
    got = read(client, "Plan 49;;;\n\nOrder;Qty;saw;drill\nA;4;1.000;2\nB;5;;n/a\nB;6;1;3\n")
    places = {(each["line"], each["column"]): each["text"] for each in got["faults"]}
    assert set(places) == {(3, 2), (4, 3), (5, 3), (5, 4), (6, 1)}
    assert "the tick for sums, above the table" in places[3, 2] and "Decimal sign, above the table" in places[4, 3]
    assert "`" not in "".join(places.values()) and got["suggested"] == ["saw", "drill"] and "shop" not in got


def workbook(sheets: dict[str, list[list[Any]]], hidden: Collection[str] = ()) -> bytes:
    import openpyxl
    book, out = openpyxl.Workbook(), io.BytesIO()
    book.remove(book.active)
    for name, rows in sheets.items():
        for row in rows:
            book[name].append(row) if name in book.sheetnames else book.create_sheet(name).append(row)
        for letter in hidden:
            book[name].column_dimensions[letter].hidden = book[name].row_dimensions[ord(letter) - 64].hidden = True
    book.save(out)
    return out.getvalue()


OPTIONS = {"jobs": ["saw", "order", "job"], "quantity": ["Paint", "pieces"],
           "setup": ["drill", "saw=drill", "oven=saw"], "unit": ["h", "min"], "decimal": ["comma"],
           "machines": ["saw,drill", "paint, saw", '"drill"', "oven"],
           "decimals": [0, 1], "allow-totals": [None], "begin": ["2026-11-30 06:00", datetime.datetime(2026, 12, 1)],
           "shift": ["06:00-14:00", "06:00-08:00,09:00-10:00", "fri:06:00-12:00", "6-14"], "days": ["mon-fri", "tue"],
           "closed": ["2026-12-01", "2026-12-02..2026-12-03"], "sheet": ["KW 49", "KW 50"], "schedule": ["x.csv"],
           "seconds": [2], "nothing": [1]}


FORMULA = 0.8333333333


def with_formulas(book: bytes) -> bytes:
    """A workbook in which formulas computed these numbers, as a spreadsheet saves it."""
    out = io.BytesIO()
    with zipfile.ZipFile(io.BytesIO(book)) as own, zipfile.ZipFile(out, "w") as other:
        for name in own.namelist():
            other.writestr(name, own.read(name).replace(b"<v>%r</v>" % FORMULA, b"<f>50/60</f><v>%r</v>" % FORMULA))
    return out.getvalue()


def test_what_a_formula_computed_is_rounded_until_another_number_is_typed(client: FlaskClient) -> None:
    """As by the terminal, also when its rows come back with other options. A number that was typed stays exact."""
    rows: list[list[Any]] = [["job", "saw", "drill"], ["a", FORMULA, 0], ["b", 0.5, FORMULA]]
    got = read(client, with_formulas(workbook({"a": [["job [h]", *rows[0][1:]], *rows[1:]]})))
    assert got["shop"]["times"] == [[8333, 0], [5000, 8333]] and got["computed"] == [[2, 2], [3, 3]]
    assert got["rounded"] == "2 times of formulas rounded to 4 decimals, by 3.3e-05 at most (B2: 0.833333333)"
    got = read(client, with_formulas(workbook({"a": rows})))
    assert (got["rounded"], got["shop"]["decimals"]) == ("", 9)
    for unit, texts, times in (("min", [], [83, 83]), ("d", [], [83_333, 83_333]),
                               ("d", [[2, 2]], [833_333_333, 833_330_000])):
        options = {"delimiter": ",", "texts": texts, "computed": got["computed"], "unit": unit}
        shop = answer(client, "/api/read", {"rows": got["rows"], "options": options})["shop"]
        assert [shop["times"][0][0], shop["times"][1][1]] == times


@pytest.mark.seconds(60)
def test_a_workbook_is_planned_as_by_the_terminal(client: FlaskClient, tmp_path: pathlib.Path) -> None:
    """Its sheet `pfs`, units, sums, quantities, formulas, blanks and what is hidden count: the same plan, or the same
    faults."""
    choose, done = random.Random(3), Counter[str]()
    for number in range(100):
        names = sorted({*choose.sample([*OPTIONS], choose.randint(0, 3)), *["begin"] * (number % 2)})
        rows = [[name, choose.choice(OPTIONS[name])] for name in names]
        cells: list[Any] = [1, 2.5, 3, 12] + ["1,5"] * choose.randint(0, 1) + ["-"] * (number % 9 == 0)
        cells += [FORMULA] * choose.randint(0, 2) + [None] * (number % 7 == 0)
        head = ["job [h]" if number % 3 else "job", "saw", "drill", "paint", *["total"] * (number % 5 == 0)]
        head += ["pieces"] * choose.randint(0, 1)
        table: list[list[Any]] = [["Plan 49"], []] * choose.randint(0, 1)
        table.append(head)
        table += [[job, *(choose.choice(cells[:4:3] if name == "pieces" else cells) for name in head[1:])]
                  for job in ("table", "box", "shelf", *["sum"] * (number % 11 == 0))]
        other: list[list[Any]] = [["job [min]", "saw", "drill"], ["a", 4, 2], ["b", 1, 3]]
        sheets = {"KW 48": other, "KW 49": table}
        book = with_formulas(workbook({"PFS" if number % 2 else "pfs": [["# options"], *rows],
                                       **dict(choose.sample([*sheets.items()], choose.randint(1, 2)))},
                                      {choose.choice("BCD") for _ in range(number % 4)}))
        (tmp_path / "table.xlsx").write_bytes(book)
        due = run_main(lambda: main(sys.argv[1:], plan_words()), ["pfs-plan", "table.xlsx", "--rounds", "1"], tmp_path)
        got = asked(client, "/api/read", {"content": content(book), "name": "table.xlsx", "options": {}})
        said, found = f"{rows} {table} {due} {got.text}", json.loads(got.text)
        if got.status_code != 200 or found["faults"]:
            done["refused"] += 1
            cells = [f"cell {'ABCDEF'[each['column'] - 1]}{each['line']}" if each["column"] else f"line {each['line']}"
                     for each in found.get("faults", [])]
            # The terminal looks at the dates first.
            assert due.status and (
                "needs --begin" in due.stderr or found.get("error", "") in due.stderr
                and re.findall(r" (cell [A-F]\d+|line \d+)\b", due.stderr) == cells), said
            continue
        again = {**found["own"].get("typed", {}), **{name: found[name] for name in ("delimiter", "texts", "computed")}}
        assert answer(client, "/api/read", {"rows": found["rows"], "options": again})["shop"] == found["shop"], said
        notes = [found["rounded"], *(f"{count} hidden {what}" for count, what in zip(found["hidden"], ("row", "column"))
                                     if count)]
        assert due.status or all(note in due.stderr for note in notes), said
        assert due.status or ("rounded" in due.stderr, "hidden" in due.stderr) == (
            bool(found["rounded"]), found["hidden"] != [0, 0]), said
        done["rounded"] += bool(found["rounded"])
        makespan, *_ = lines = due.stdout.splitlines() or [""]
        calendar, shop = found["own"].get("calendar", {}), found["shop"]
        order = [line.partition(" ")[2] for line in lines if re.match(r"\d+ ", line)]
        told = asked(client, "/api/plan", {"shop": shop, "calendar": calendar, "order": order or shop["jobs"]})
        if told.status_code != 200:
            done["without dates"] += 1
            assert due.status, said
            continue
        end = "".join(line for line in lines if line.startswith("end "))
        plan = json.loads(told.text)
        assert due.status == 0 and f"makespan {plan['makespan']}" == makespan, said
        assert sorted(order) == sorted(shop["jobs"]) and f"end {plan['end']}" == (end or "end "), said
        done["dates" if end else "plan"] += 1
        assert found["own"].get("unused", []) == [name for name in names if name == "seconds"], said
        assert not {"pfs", "PFS"} & {*found["sheets"]}
    assert min(done[each] for each in ("refused", "without dates", "plan", "dates", "rounded")) > 2, done


def test_hidden_rows_and_columns_are_counted(client: FlaskClient) -> None:
    import openpyxl
    book, out = openpyxl.Workbook(), io.BytesIO()
    for row in (["job", "saw", "drill"], ["a", 1, 2], ["b", 3, 4], ["c", 5, 6]):
        book.active.append(row)
    book.active.row_dimensions[2].hidden = book.active.row_dimensions[3].hidden = True
    book.active.column_dimensions["C"].hidden = True
    book.save(out)
    got = read(client, out.getvalue())
    assert (got["hidden"], got["shop"]["times"]) == ([2, 1], [[1, 2], [3, 4], [5, 6]])


def test_a_sheet_is_chosen_and_decimals_are_rounded(client: FlaskClient) -> None:
    book = workbook({"KW 48": [["job [h]", "saw"], ["a", 1]], "KW 49": [["job [h]", "saw"], ["b", 50 / 60]]})
    got = read(client, book)
    assert (got["sheets"], got["sheet"], got["shop"]["jobs"]) == (["KW 48", "KW 49"], "KW 48", ["a"])
    got = read(client, book, sheet="KW 49", decimals=2)
    assert got["shop"]["times"] == [[83]] and "rounded to 2 decimals" in got["rounded"]
    assert read(client, book, sheet="KW 50")["sheet"] == "KW 48"


def test_texts_of_a_workbook_need_a_decimal_sign(client: FlaskClient) -> None:
    """Also when its rows come back with the places of its texts. Its numbers have a point."""
    got = read(client, workbook({"table": [["job", "saw", "drill"], ["1.250", 1.125, 2.5], ["b", "1.500", 750]]}))
    assert [(each["line"], each["column"]) for each in got["faults"]] == [(3, 2)] and got["texts"] == [[2, 1], [3, 2]]
    for decimal, text in ((None, None), (".", 1_500), (",", 1_500_000)):
        options = {"delimiter": got["delimiter"], "texts": got["texts"], "decimal": decimal}
        again = answer(client, "/api/read", {"rows": got["rows"], "options": options})
        assert again["faults"] == (got["faults"] if decimal is None else [])
        assert again.get("shop", {}).get("times") == (text and [[1_125, 2_500], [text, 750_000]])


BROKEN = {
    "an archive of nothing": b"PK\x03\x04" + bytes(100), "an old workbook": b"\xd0\xcf\x11\xe0" + bytes(500),
    "nothing": b"", "zeros": bytes(1_000), "half a letter of UTF-16": b"\xff\xfe\x00",
    "a picture": b"\x89PNG\r\n\x1a\n" + random.Random(1).randbytes(2_000), "a quote": b'"' * 4_001,
    "a cut workbook": workbook({"a": [["job", "saw"], ["b", 1]]})[:-40],
}


@pytest.mark.parametrize("what", BROKEN)
def test_a_broken_file_is_refused_with_words(client: FlaskClient, what: str) -> None:
    got = asked(client, "/api/read", {"content": content(BROKEN[what]), "name": "times.xlsx"})
    assert got.json and got.json["error" if got.status_code == 422 else "faults"] and got.status_code in (200, 422)


def test_a_bomb_is_refused_within_seconds(client: FlaskClient) -> None:
    """An archive of 300 MB of blanks, and a name that took hours to look at."""
    out = io.BytesIO()
    with zipfile.ZipFile(out, "w", zipfile.ZIP_DEFLATED) as archive:
        archive.writestr("xl/worksheets/sheet1.xml", b" " * 300 * 2**20)
    begun = time.monotonic()
    for data in (out.getvalue(), b"workorders" * 40 + b"x;saw\na;1\n"):
        got = asked(client, "/api/read", {"content": content(data), "name": "x"})
        assert got.status_code in (200, 422)
    assert time.monotonic() - begun < 20


def test_so_many_rows_are_read_and_so_many_faults_listed(client: FlaskClient) -> None:
    head, row = b"job;saw\n", b"a;1\n"
    status, error = refused(client, "/api/read", {"content": content(head + row * 10_000)})
    assert (status, error) == (422, "the table has more than 10,000 rows")
    assert len(read(client, head + row * 9_999)["rows"]) == 10_000
    got = read(client, head + row * 2_002)
    assert (len(got["faults"]), got["more"], got["faults"][-1]["line"]) == (2_000, 1, 2_002)


def test_fields_of_a_request() -> None:
    """A number is within its limits, a text isn't too long, and what is missing or null has the default."""
    cases: list[dict[str, Any]] = [{}, {"x": None}, {"x": 0}]
    assert [plans.field(given, "x", int, 7) for given in cases] == [7, 7, 0]
    assert plans.field({"x": 9}, "x", int, most=9) == 9
    assert plans.rows_from([[2, ["a ", "'=b"]], [7, [" "]], [2**20, ["c"]]]) == [(2, ["a", "=b"]), (2**20, ["c"])]
    for rows in ([[1, ["a"] * 16_385]], [[2, ["a"]], [2, ["b"]]], [[2**20 + 1, ["a"]]], [["a"]], [[0, ["a"]]], {}):
        with pytest.raises(apart.Wrong, match=str(plans.OTHER_FORM)):
            plans.rows_from(rows)
    assert len(plans.rows_from([[1, ["a"] * 16_384]])) == 1
    for value in (-1, 10, True, 9.0, "9", [9]):
        with pytest.raises(apart.Wrong, match=str(plans.OTHER_FORM)):
            plans.field({"x": value}, "x", int, most=9)
    assert len(plans.field({"x": "a" * 10_000}, "x", str)) == 10_000
    with pytest.raises(apart.Wrong, match="^a text is too long: 10,000 letters are the most$"):
        plans.field({"x": "a" * 10_001}, "x", str)


PARTS = ["job", "work", "order", "orders", "wo", "no", "n\u00b0", "fa", " ", ".", "x"]


@given(st.lists(st.sampled_from(PARTS), max_size=8))
def test_the_first_cell_says_job_by_its_words(parts: list[str]) -> None:
    """As a set of words and separators says it, one after the other; quickly for very long cells."""
    text = "".join(parts)
    words = "jobs?|orders?|workorders?|work|wo|no|n(?=\u00b0)|fa"
    assert bool(_tables.SAYS_JOB.match(text)) == bool(re.fullmatch(rf"(?:(?:{words})[\s.\u00b0]*)*", text)), text


# Apart

def endless(given: dict[str, Any], folder: str) -> None:
    while True:
        given["times"] = given.get("times", 0) + 1


def greedy(given: dict[str, Any], folder: str) -> int:
    return len(bytes(apart.MOST_MEMORY))


def limits(given: dict[str, Any], folder: str) -> list[int]:
    return [resource.getrlimit(kind)[0] for kind in (resource.RLIMIT_CPU, resource.RLIMIT_AS, resource.RLIMIT_CORE)]


def dies(given: dict[str, Any], folder: str) -> None:
    os.kill(os.getpid(), 9)


def sleeps(given: dict[str, Any], folder: str) -> str:
    pathlib.Path(folder, "left").touch()
    time.sleep(60)
    return folder


@pytest.mark.parametrize("call", [endless, greedy, dies, sleeps])
def test_a_call_that_takes_too_much_is_ended(call: apart.Call, monkeypatch: pytest.MonkeyPatch,
                                             tmp_path: pathlib.Path) -> None:
    """It leaves no file, and other calls work. That a process has died is seen at once."""
    found, begun = apart.Apart(), time.monotonic()
    if call in (endless, sleeps):
        monkeypatch.setattr(apart, "MOST_SECONDS", 3.0)
    monkeypatch.setattr(tempfile, "tempdir", str(tmp_path))
    with pytest.raises(apart.Wrong, match="^it takes too long or too much memory: use a smaller table$"):
        found(call, {})
    assert list(tmp_path.iterdir()) == [] and time.monotonic() - begun < 50
    monkeypatch.setattr(apart, "MOST_SECONDS", 60.0)
    assert found(plans.read, {"rows": [[1, ["job", "saw"]], [2, ["a", "1"]]]})["shop"]["times"] == [[1]]
    assert found(limits, {}) == [40, 2_147_483_648, 0]


def test_a_server_that_is_busy_says_so(monkeypatch: pytest.MonkeyPatch) -> None:
    found = apart.Apart()
    for _ in range(8):
        assert found.places.acquire(blocking=False)
    with pytest.raises(apart.Wrong, match="^the server is busy: try again in a minute$") as raised:
        found(plans.read, {"rows": []})
    assert raised.value.status == 503


# Plans

# What tells the table of SHOP from others, as a definition says it.
NAMES = f"({(*SHOP['jobs'],)}, {(*SHOP['machines'],)}, 'h', 1)".encode()
TABLE_OF_SHOP = hashlib.sha256(b"(4, 3)" + struct.pack("12I", *sum(SHOP["times"], [])) + NAMES).hexdigest()[:16]
# The response on the plan of docs/PLAN.md.
TOLD: dict[str, Any] = {
    "makespan": "15.5 h", "span": 155, "bound": "15.5 h", "isOptimal": True, "above": 0.0, "gone": [], "new": [],
    "isOther": False, "claimed": "",
    "end": "2026-12-01 13:30", "bottleneck": "paint", "kept": [],
    "heads": ["machine", "work", "utilisation %", "idle before", "idle between", "idle after", "critical %"],
    "machines": [["saw", "10.0", 64.5, "0.0", "0.0", "5.5", 6.5], ["drill", "9.5", 61.3, "1.0", "2.0", "3.0", 6.5],
                 ["paint", "13.5", 87.1, "2.0", "0.0", "0.0", 87.1]],
    "jobs": [["box", "2026-11-30 06:00", "2026-11-30 14:00"], ["table", "2026-11-30 07:00", "2026-12-01 10:00"],
             ["chair", "2026-11-30 10:00", "2026-12-01 11:30"], ["shelf", "2026-11-30 12:00", "2026-12-01 13:30"]]}


@pytest.mark.parametrize(("asks", "told"), [
    ({}, {}), ({"least": 155, "digest": TABLE_OF_SHOP}, {}), ({"least": 155}, {"isOther": True}),
    ({"least": 156, "digest": TABLE_OF_SHOP}, {"isOther": True}),
    ({"calendar": {"begin": " 2026-11-30T06:00 ", "shifts": " \n06:00-14:00 \n\n fri:06:00-12:00", "days": " mon-fri",
                   "closed": " "}}, {}),
    ({"calendar": {"shifts": " ", "days": ""}, "title": ""},
     {"end": "", "jobs": [["box", "0.0", "8.0"], ["table", "1.0", "12.0"], ["chair", "4.0", "13.5"],
                          ["shelf", "6.0", "15.5"]]}),
    ({"language": "de"}, {"heads": ["Maschine", "Arbeit", "Auslastung %", "frei vorher", "frei dazwischen",
                                    "frei danach", "kritisch %"]}),
    ({"order": ["box", "stool", "chair", "shelf", "box"], "held": 1}, {"gone": ["stool"], "new": ["table"]}),
    ({"order": ["box", "chair", "shelf"], "held": 3, "least": 160, "digest": TABLE_OF_SHOP}, {
        "makespan": "16.5 h", "span": 165, "bound": "16.0 h", "isOptimal": False, "above": 3.1, "new": ["table"],
        "end": "2026-12-02 06:30", "machines": [
            ["saw", "10.0", 60.6, "0.0", "0.0", "6.5", 60.6], ["drill", "9.5", 57.6, "1.0", "2.0", "4.0", 15.2],
            ["paint", "13.5", 81.8, "2.0", "1.0", "0.0", 24.2]],
        "jobs": [["box", "2026-11-30 06:00", "2026-11-30 14:00"], ["chair", "2026-11-30 07:00", "2026-12-01 07:30"],
                 ["shelf", "2026-11-30 09:00", "2026-12-01 09:30"],
                 ["table", "2026-11-30 13:00", "2026-12-02 06:30"]]})])
def test_a_plan_is_told(asks: dict[str, Any], told: dict[str, Any], client: FlaskClient) -> None:
    got = answer(client, "/api/plan", {**PLAN, **asks})
    chart, marks = got.pop("chart"), [row.pop() for row in got["jobs"]]
    assert got == {**TOLD, **told} and len({*marks}) == 4
    assert ("<title>Week 49</title>" in chart) == ("title" not in asks)
    assert ("Auftrag suchen:" in chart) == ("language" in asks)


@pytest.mark.parametrize("other", [
    {"unit": "min"}, {"decimals": 0}, {"jobs": ["table", "chair", "shelf", "bin"]},
    {"machines": ["saw", "drill", "oven"]}, {"times": [*SHOP["times"][:3], [10, 10, 59]]}])
def test_what_was_proved_of_another_table_is_not_used(other: dict[str, Any], client: FlaskClient) -> None:
    """Nor is a bound above a makespan, which contradicts it. A title is no part of a table, which has the same digest
    when it is read."""
    shop = {**SHOP, **other}
    unit, digits = shop["unit"], shop["decimals"]
    rows = [[f"job [{unit}]", *shop["machines"]]]
    rows += [[job, *(f"{each / 10 ** digits:.{digits}f}" for each in times)]
             for job, times in zip(shop["jobs"], shop["times"])]
    digest = answer(client, "/api/read", {"rows": [[line, row] for line, row in enumerate(rows, 1)]})["digest"]
    body = {"shop": shop, "order": shop["jobs"][::-1], "digest": TABLE_OF_SHOP}
    first = answer(client, "/api/plan", body)
    span, text, low = first["span"], first["makespan"], round(span_of(first["bound"]) * 10 ** digits)
    assert low < span
    own = {**body, "digest": digest, "title": "Week 50"}
    for asks, due in (
            ({**body, "least": span}, (True, False, "")), ({**own, "least": span + 1}, (True, False, "")),
            ({**own, "least": 2**53}, (True, False, "")), ({**own, "least": span}, (False, True, "")),
            # What only a file says.
            ({**body, "claimed": span}, (True, False, "")), ({**own, "claimed": span + 1}, (True, False, "")),
            ({**own, "claimed": span}, (False, False, text)), ({**own, "claimed": low}, (False, False, "")),
            ({**own, "claimed": span, "least": span}, (False, True, "")),
            ({**own, "claimed": span + 1, "least": span}, (True, True, "")),
            ({**own, "claimed": span, "least": span + 1}, (True, False, text))):
        got = answer(client, "/api/plan", asks)
        assert (got["isOther"], got["isOptimal"], got["claimed"]) == due, asks


def span_of(text: str) -> float:
    """The number of a time with its unit."""
    return float(text.split()[0])


def test_kept_orders_are_compared_on_the_table_as_it_is(client: FlaskClient) -> None:
    """As if each were the plan, with the dates of the plan or its own ones. One without a job of the table isn't
    compared, nor one with dates that can't be."""
    kept = [{"order": ["chair", "shelf", "gone", "box"], "held": 1}, {"order": ["shelf", *ORDER[:3]], "held": 0},
            {"order": ["chair", "box", "table", "shelf"], "held": 4, "calendar": {"begin": "2026-12-07"}},
            {"order": ["gone"], "held": 0},
            {"order": ORDER, "held": 0, "calendar": {"begin": "soon"}}, {"order": ["box"], "held": 1}]
    # A bound of the plan is none of the others'.
    got = answer(client, "/api/plan", {**PLAN, "kept": kept, "least": 155, "claimed": 155, "digest": TABLE_OF_SHOP})
    assert [each and (each["gone"], sorted(each["new"]), each["moved"]) for each in got["kept"]] == [
        (["gone"], ["table"], ["box"]), ([], [], ["shelf"]), ([], [], ["chair"]), None, None,
        ([], ["chair", "shelf", "table"], [])]
    for each, found in zip(kept, got["kept"]):
        if found:
            due = answer(client, "/api/plan", {**PLAN, "order": ORDER, **each})
            assert found["ends"] == {name: end for name, _, end, _ in due["jobs"]}
            assert all(found[name] == due[name] for name in ("makespan", "span", "end", "gone", "new"))
    assert got["kept"][2]["end"].startswith("2026-12-0"), "its own dates"


@pytest.mark.parametrize(("other", "changed"), [
    ({"decimals": 2, "times": [[each * 10 for each in row] for row in SHOP["times"]]}, []),
    ({"times": [*SHOP["times"][:3], [10, 10, 59]]}, ["box"]), ({"unit": "min"}, ORDER),
    ({"machines": ["saw", "drill", "oven"]}, ORDER), ({"jobs": ["table", "chair", "shelf", "bin"]}, [])])
def test_times_of_jobs_have_marks(other: dict[str, Any], changed: list[str], client: FlaskClient) -> None:
    """They change with the times, and not with their decimals, other jobs or the order."""
    def marks(shop: dict[str, Any], order: list[str]) -> dict[str, int]:
        return {name: mark for name, *_, mark in answer(client, "/api/plan", {"shop": shop, "order": order})["jobs"]}

    first, second = marks(SHOP, ORDER), marks({**SHOP, **other}, ORDER[::-1])
    assert sorted(job for job in first if second.get(job, first[job]) != first[job]) == sorted(changed)


@pytest.mark.parametrize(("english", "german"), [
    ({"shifts": "06:00-14:30"}, {"shifts": "6:00 \u2013 14:30"}),
    ({"shifts": "06:00-14:00"}, {"shifts": "06:00 - 14:00"}),
    ({"shifts": "fri:06:00-12:00"}, {"shifts": "FR:06:00-12:00"}), ({"days": "tue-thu,sat"}, {"days": "Di-Do, sa"}),
    ({"days": "wed,fri,sun"}, {"days": "Mi,Fr,So"}), ({"shifts": "22:00-06:00"}, {"shifts": "22:00-6:00"}),
    ({"closed": "2026-11-30"}, {"closed": "30.11.2026"}), ({"closed": "2026-12-01"}, {"closed": "1.12.2026"}),
    ({"closed": "2026-11-30..2026-12-02,2026-12-04"}, {"closed": "30.11.2026 - 2.12.2026, 4.12.2026"})])
def test_dates_may_be_written_as_in_german(english: Any, german: Any, client: FlaskClient) -> None:
    own = {"begin": "2026-11-30T06:00", "shifts": "05:00-13:00"}

    def jobs(dates: Any) -> Any:
        return answer(client, "/api/plan", {**PLAN, "calendar": {**own, **dates}})["jobs"]

    assert jobs(german) == jobs(english) != jobs({})


@pytest.mark.parametrize(("times", "told"), [([[0, 1, 0], [0, 0, 1]], ("2", "1", False, 100.0)),
                                             ([[0, 0, 0], [0, 0, 0]], ("0", "0", True, 0.0))])
def test_how_far_above_the_bound_a_plan_is(times: Any, told: Any, client: FlaskClient) -> None:
    shop = {"jobs": ["a", "b"], "machines": ["saw", "drill", "paint"], "times": times}
    got = answer(client, "/api/plan", {"shop": shop, "order": ["a", "b"]})
    assert (got["makespan"], got["bound"], got["isOptimal"], got["above"]) == told


@pytest.mark.parametrize("kind", ["txt", "csv", "xlsx"])
def test_an_order_is_read_of_what_was_downloaded(kind: str, client: FlaskClient) -> None:
    """For another table too: names that it lacks are left out."""
    path = asked(client, "/api/file", {**PLAN, "kind": kind}).data
    shop = {**SHOP, "jobs": ["table", "stool", "shelf", "box"]}
    for each, order in ((SHOP, ORDER), (shop, ["box", "table", "shelf"])):
        assert answer(client, "/api/order", {"shop": each, "content": content(path)}) == {"order": order}


def test_a_schedule_that_says_what_has_happened_is_refused(client: FlaskClient) -> None:
    """Its columns may be empty."""
    for cell, status in (("x", 422), ("", 200)):
        text = f"job;machine;start;end;begun;ended\nbox;saw;0;1;;{cell}\ntable;saw;1;4\n"
        got = asked(client, "/api/order", {"shop": SHOP, "content": content(text)})
        assert got.status_code == status and ("pfs-plan --now" in got.text) == (status == 422)
        assert status == 422 or got.json == {"order": ["box", "table"]}


def test_what_is_no_order_is_refused(client: FlaskClient) -> None:
    """By its cause, without the name of a file of the server."""
    for text, due in (("stool\n", "no job of the table is named: write the names of the jobs, one in a line"),
                      ("box\ntable\nbox\n", "the job 'box' is in line 1 too")):
        assert refused(client, "/api/order", {"shop": SHOP, "content": content(text)}) == (422, due)


BEGINS = {"xlsx": b"PK", "zip": b"PK", "pdf": b"%PDF", "csv": b"\xef\xbb\xbfjob;machine", "html": b"<!DOCTYPE html>",
          "txt": b"box\nta\\nble\nchair\nshelf\n"}


def test_the_language_of_a_plan_is_no_file(client: FlaskClient) -> None:
    for language, first in (("de", b"\xef\xbb\xbfAuftrag;Maschine;Beginn;Ende\n"), ("fr", BEGINS["csv"]),
                            (__file__, BEGINS["csv"])):
        got = asked(client, "/api/file", {**PLAN, "kind": "csv", "language": language})
        assert got.status_code == 200 and got.data.startswith(first)


@pytest.mark.parametrize("kind", BEGINS)
def test_a_plan_is_downloaded_under_a_name_that_is_no_path(client: FlaskClient, kind: str) -> None:
    """Each job has a line in its order."""
    if kind == "pdf":
        require_module("matplotlib")
    shop = {**SHOP, "jobs": ["ta\nble", "chair", "shelf", "box"], "machines": ["../../etc/passwd", "C:\\saw", "..\\x"]}
    got = asked(client, "/api/file", {**PLAN, "shop": shop, "order": ["box", "ta\nble", "chair", "shelf"], "kind": kind,
                                      "title": "../x"})
    assert got.data.startswith(BEGINS[kind])
    assert got.headers["Content-Disposition"] == f"attachment; filename=plan.{kind}"
    if kind == "zip":
        with zipfile.ZipFile(io.BytesIO(got.data)) as archive:
            names = archive.namelist()
            assert len(names) == 3 and not [name for name in names if re.search(r"[/\\:]", name)]
            assert b"BEGIN:VEVENT" in archive.read(names[0])


@pytest.mark.parametrize(("down", "left"), [({}, "1.5"), ({"drill": "2026-12-01T12:00"}, "5.5")])
def test_the_rest_is_what_is_left(down: dict[str, str], left: str, client: FlaskClient) -> None:
    """After ten hours. Until noon are four hours. Names of sums are those of jobs and machines."""
    shop = {**SHOP, "jobs": ["table", "chair", "total", "box"], "machines": ["Qty", "drill", "paint"]}
    got = answer(client, "/api/rest", {**PLAN, "shop": shop, "order": ["box", "table", "chair", "total"],
                                       "at": "2026-12-01T08:00", "down": down})
    assert got == {
        **AS_READ, "delimiter": ",", "order": ["table", "chair", "total"], "held": 3, "done": ["box"],
        "begin": "2026-12-01T08:00:00", "rows": [
            [1, ["job [h]", "Qty", "drill", "paint"]], [2, ["table", "0.0", "0.0", "2.0"]],
            [3, ["chair", "0.0", left, "1.5"]], [4, ["total", "0.0", "1.0", "2.0"]]],
        "shop": {"jobs": ["table", "chair", "total"], "machines": ["Qty", "drill", "paint"], "unit": "h", "decimals": 1,
                 "times": [[0, 0, 20], [0, int(10 * float(left)), 15], [0, 10, 20]]}}


# Searches

def waited(client: FlaskClient, name: str, until: Callable[[Any], Any] = lambda told: told["state"] == "done") -> Any:
    end = time.monotonic() + 20
    while not until(told := answer(client, f"/api/search/{name}", method="GET")):
        assert time.monotonic() < end
        time.sleep(0.02)
    return told


def shop_of(jobs: int, machines: int) -> dict[str, Any]:
    """A shop of which nothing proves an order optimal in a minute."""
    made = pfs.generate(jobs, machines, 7)
    return {**SHOP, "jobs": [f"J{job}" for job in range(jobs)], "machines": [f"M{each}" for each in range(machines)],
            "times": made.times.tolist()}


LONG: dict[str, Any] = {"shop": shop_of(30, 20), "seconds": 700}


def test_a_search_finds_what_the_package_finds(client: FlaskClient) -> None:
    found = waited(client, answer(client, "/api/search", {"shop": SHOP, "seconds": 5})["search"])
    assert sorted(found["order"]) == sorted(SHOP["jobs"]) and (found["makespan"], found["least"]) == ("15.5 h", 155)


@pytest.mark.parametrize(("held", "options", "said"), [
    (3, {"order": ["box", "chair", "gone", "shelf"], "seed": 2**53, "seconds": 10**6},
     "100 9007199254740992 [3, 1, 2, 0] [3, 1, 2] None 600 0.0 0.0"),
    (None, {"seconds": 9}, "100 0 [3, 0, 1, 2] [] None 9 0.1 1.0")])
def test_a_proof_is_tried_where_no_job_is_held(
        client: FlaskClient, held: int | None, options: dict[str, Any], said: str, monkeypatch: pytest.MonkeyPatch,
        caplog: pytest.LogCaptureFixture) -> None:
    """New jobs come after those that are held. Why a search has failed is reported."""
    def fail(search: Any, rounds: Any, _: Any, seconds: int, **given: Any) -> None:
        start = memoryview(search.start).cast("I").tolist()
        int(" ".join(map(str, (search.passes, search.seed, start, search.held, rounds, seconds, given["early"],
                               given["prove"]))))

    monkeypatch.setattr("pfs.plan.plan.solve_and_prove", fail)
    caplog.set_level("INFO")
    name = answer(client, "/api/search", {**PLAN, "held": held, **options})["search"]
    wait_until(lambda: "search: 4 jobs, 3 machines, 0 rounds\n" in caplog.text, "the log names the search")
    got = asked(client, f"/api/search/{name}", method="GET")
    assert (got.status_code, got.json) == (422, {"error": f"invalid literal for int() with base 10: '{said}'"})


def test_searches_wait_in_a_queue_and_are_limited(monkeypatch: pytest.MonkeyPatch) -> None:
    """Two run at once. One that is ended has its best order, and the next one begins."""
    monkeypatch.setattr(searches, "MOST_OF_ONE", 4)
    found = searches.Searches(2)
    client = client_of(found)
    try:
        names = [answer(client, "/api/search", LONG)["search"] for _ in range(4)]
        assert len({*names}) == 4 and all(re.fullmatch(r"[\w-]{24}", name) for name in names), "names can't be guessed"
        assert [answer(client, f"/api/search/{name}", method="GET")["place"] for name in names] == [0, 0, 1, 2]
        for name in names[:2]:
            told = waited(client, name, lambda told: told["rounds"] > 0)
            assert len({*told["order"]}) == 30 and told["makespan"].endswith(" h"), "its best order so far"
        assert [run.state for run in found.runs.values()] == ["searching"] * 2 + ["waiting"] * 2
        told = answer(client, f"/api/search/{names[3]}", method="GET")
        assert told == {"state": "waiting", "place": 2, "rounds": 0, "limit": 600, "seconds": 0.0, "makespan": "",
                        "isCut": False, "bound": told["bound"]} and told["bound"].endswith(" h")
        assert refused(client, "/api/search", LONG) == (
            429, "4 searches of this address run or wait: end one of them")
        monkeypatch.setattr(searches, "MOST_OF_ONE", 99)
        names += [answer(client, "/api/search", LONG)["search"] for _ in range(14)]
        assert refused(client, "/api/search", LONG) == (503, "too many searches wait: try again in a minute")
        answer(client, f"/api/search/{names[2]}", method="DELETE")
        got = asked(client, f"/api/search/{names[2]}", method="GET")
        assert (got.status_code, got.json) == (404, {"error": "this search is over"})
        last = found.runs[names[-1]]
        for seconds in (119.5, 1):
            last.asked -= seconds
            assert last.is_left() == (seconds == 1), "after two minutes"
        assert answer(client, f"/api/search/{names[3]}", method="GET")["place"] == 1
        begun = time.monotonic()
        answer(client, f"/api/search/{names[0]}", method="DELETE")
        told = waited(client, names[0])
        assert time.monotonic() - begun < 4 and len(told["order"]) == 30 and told["above"] > 0
        waited(client, names[3], lambda told: told["state"] == "searching")
    finally:
        found.end_all()
    assert all(run.is_set() for run in found.runs.values())


def test_each_address_has_a_search_in_turn() -> None:
    """An address whose search has begun waits for those whose search hasn't."""
    found = searches.Searches(1)
    client = client_of(found)

    def add(address: str) -> str:
        return str(found.add({**LONG, "seconds": 600}, address)["search"])

    try:
        first = add("10.0.0.1")
        waited(client, first, lambda told: told["state"] == "searching")
        names = [add(f"10.0.0.{last}") for last in (1, 1, 2, 2, 3)]
        assert [found.told(name)["place"] for name in names] == [3, 5, 1, 4, 2]
        found.end(names[2])
        assert [found.told(name)["place"] for name in (*names[:2], *names[3:])] == [3, 4, 1, 2]
        found.end(first)
        waited(client, names[3], lambda told: told["state"] == "searching")
        assert [found.told(name)["place"] for name in (*names[:2], names[4])] == [2, 3, 1]
    finally:
        found.end_all()


def test_a_result_is_kept_for_some_minutes(monkeypatch: pytest.MonkeyPatch) -> None:
    """A search that nobody asked for says that it was cut, and has its best order. The results of those who asked last
    are kept. One that waits and is ended leaves nothing, and a result has no table."""
    found = searches.Searches(1)
    client = client_of(found)
    name, other = (answer(client, "/api/search", LONG)["search"] for _ in range(2))
    assert not waited(client, name, lambda told: told["rounds"] > 0)["isCut"]
    plans_of: weakref.WeakSet[Any] = weakref.WeakSet(run.plan for run in found.runs.values())
    answer(client, f"/api/search/{other}", method="DELETE")
    assert [*found.runs] == [name] and len(plans_of) == 1
    found.runs[name].asked -= 121
    wait_until(lambda: found.runs[name].state == "done" and not plans_of, "it ends by itself", 20)
    told = answer(client, f"/api/search/{name}", method="GET")
    assert told["isCut"] and len(told["order"]) == 30 and told["seconds"] < 20
    assert answer(client, "/api/plan", {**LONG, "order": told["order"]})["makespan"] == told["makespan"]
    monkeypatch.setattr(searches, "MOST_KEPT", 2)
    small = [answer(client, "/api/search", {"shop": SHOP, "seconds": 0})["search"] for _ in range(2)]
    assert not waited(client, small[0])["isCut"] and not waited(client, small[1])["isCut"]
    answer(client, "/api/search/none", method="DELETE")
    assert [*found.runs] == small
    for seconds in (599.5, 1):
        found.runs[small[0]].asked -= seconds
        assert found.runs[small[0]].is_left() == (seconds == 1), "after ten minutes"
    answer(client, "/api/search/none", method="DELETE")
    assert [*found.runs] == small[1:]


def test_a_search_ends_when_nobody_asks(monkeypatch: pytest.MonkeyPatch) -> None:
    """Also one that waits. Its result is forgotten."""
    found = searches.Searches(1)
    client = client_of(found)
    names = [answer(client, "/api/search", LONG)["search"] for _ in range(2)]
    monkeypatch.setattr(searches, "FORGET", 0.3)
    monkeypatch.setattr(searches, "KEPT", 0.3)
    wait_until(lambda: not (answer(client, "/api/search/none", method="DELETE") or found.runs), "all are forgotten", 5)
    assert {asked(client, f"/api/search/{name}", method="GET").status_code for name in names} == {404}
