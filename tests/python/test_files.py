"""Files: instances, order files and Taillard's benchmark, against the program and byte for byte."""
import contextlib
import copy
import csv
import io
import os
import pathlib
import resource
import secrets
import signal
import stat
import time
import types
from collections.abc import Callable, Iterator
from typing import Any

import pfs
import pytest
from hypothesis import given
from hypothesis import strategies as st
from pfs.base import benchmarks
from pfs.shops import search as _search
from pfs.files import state as _state
from pfs.plan.orders import order_in
from support import files, plainly
from support.plainly import written
from support.tools import TOP

TITLE = files.TITLE.decode()
THREE = TITLE + "3 2 7 9 8\nprocessing times :\n3 2 4\n2 5 1\n"
THREE_BY_JOB = files.THREE_JOBS_BY_JOB.decode()
TWO_BLOCKS = "+++\ninstance 1\n+++\nfirst\n1 1\n0 7\n+++\nsecond\n3 2\n0 3 1 2\n0 2 1 5\n0 4 1 1\n+++\n"

# A file, its layout, and of its fault the name, the place, the line, the column and the hint.
NO_SIZE_LINE = "the file has no size line: no line consists of numbers alone"
FAULTS: dict[str, tuple[str, str, str, int, int, int, str]] = {
    "nothing": ("", "taillard", "no block", 0, 1, 0, NO_SIZE_LINE),
    "words": ("a\nb 2\n", "orlib", "no block", 0, 2, 0, NO_SIZE_LINE),
    "the other layout": ("x\n3 2\n", "taillard", "size count", 2, 2, 0,
                         "the line has 2 numbers, but a size line has 5; in the layout 'orlib' it has 2"),
    "three numbers": ("1 2 3\n", "orlib", "size count", 1, 1, 0, "the line has 3 numbers, but a size line has 2"),
    "words beside the size": ("11 5 # 11 jobs\n0 3 1 2 2 7\n", "orlib", "size count", 2, 2, 0,
                              "line 1 has words next to its numbers, so it isn't read as a size line"),
    "many jobs": ("5001 1\n", "orlib", "size range", 1, 1, 0,
                  "a block has 1 to 5,000 jobs and 1 to 200 machines, and the notes are at most 4,294,967,295"),
    "a decimal": ("2 1 0 0 0\n3 4.5\n", "taillard", "mixed line", 13, 2, 4,
                  "a line of times has only digits and blanks: no words, signs or decimal points"),
    "a long time": ("1 1 0 0 0\n 1000000001\n", "taillard", "time range", 11, 2, 2, "times are 0 to 1,000,000,000"),
    "a time missing": ("2 2\n0 3 1\n0 5 1 2\n1 1\n0 3\n", "orlib", "machine number", 12, 3, 3,
                       "line 2 has 3 numbers, but a row of this block has 4"),
    "a time missing in block 2": ("1 1 0 0 0\n7\n3 2 0 0 0\n1 2 3\n4 5\n1 1 0 0 0\n7\n", "taillard", "extra number", 34,
                                  6, 3, "line 5 has 2 numbers, but a row of this block has 3"),
    "a plain matrix": ("2 3\n4 5 6\n7 8 9\n", "orlib", "machine number", 4, 2, 1,
                       "line 2 has 3 numbers: perhaps only times, instead of pairs of machine and time"),
    "an end inside": ("2 2 0 0 0\n3 4\n5", "taillard", "truncated", 3, 3, 0,
                      "line 3 has 1 numbers, but a row of this block has 2"),
    "an end after whole rows": ("2 2 0 0 0\n3 4\n", "taillard", "truncated", 2, 2, 0, ""),
}
BAD_ORDERS = {
    "another text": ("order3 3\n", "syntax", 5), "a job 4 of 3": ("order 3\n2 1 4\nmakespan 10\n", "job range", 3),
    "a job twice": ("order 3\n2 2 3\nmakespan 10\n", "job repeated", 2),
    "a long file": ("o" * 65537, "order file too long", 0)}


@pytest.mark.parametrize(("text", "layout", "notes"), [(THREE, "taillard", (7, 9, 8)),
                                                       (THREE_BY_JOB, "orlib", (0, 0, 0))])
def test_read(tmp_path: pathlib.Path, text: str, layout: str, notes: tuple[int, int, int]) -> None:
    path = written(tmp_path, text, "three")
    sources: list[Any] = [path, str(path), io.BytesIO(text.encode())]
    for source in sources:
        shop = pfs.read(source, layout=layout)
        assert shop.times.tolist() == [[3, 2], [2, 5], [4, 1]]
        assert (shop.seed, shop.upper, shop.lower) == notes
        assert shop.name == ("" if isinstance(source, io.BytesIO) else "three")
    with pytest.raises(TypeError, match="binary mode"):
        pfs.read(io.StringIO(text), layout)  # type: ignore[arg-type]


FORTY = b"2 2\n0 3 1 2\n0 2 1 40\n"
ORDER = b"order2 12 2\n2 1 3 4 5 6 7 8 9 10 12 11\nmakespan 140\n"


@pytest.mark.parametrize("most", [1, 2, 7, 1000])
def test_reads_of_a_few_bytes(most: int) -> None:
    """As those of an unbuffered pipe may be."""

    def drops(text: bytes) -> Any:
        file = io.BytesIO(text)
        return types.SimpleNamespace(read=lambda size: file.read(min(size, most)), file=file)

    assert pfs.read(drops(FORTY), "orlib").times.tolist() == [[3, 2], [2, 40]]
    assert [shop.jobs for shop in pfs.read_all(drops(TWO_BLOCKS.encode()), "orlib")] == [1, 3]
    assert pfs.read_order(drops(ORDER)).order.tolist() == [1, 0, 2, 3, 4, 5, 6, 7, 8, 9, 11, 10]
    endless = drops(b"order " + b"1" * 70_000)
    with pytest.raises(pfs.OrderFault, match="order file too long"):
        pfs.read_order(endless)
    assert endless.file.tell() == 65_537, "no more is read than one byte above the limit"
    nothing: Any = types.SimpleNamespace(read=lambda _: None)
    with pytest.raises(BlockingIOError, match="^the file is non-blocking and has no data yet: use a blocking one$"):
        pfs.read(nothing, "orlib")


def test_blocks_their_names_and_the_end_of_the_file(tmp_path: pathlib.Path) -> None:
    path = written(tmp_path, TWO_BLOCKS, "two")
    assert [shop.times.tolist() for shop in pfs.read_all(path, "orlib")] == [[[7]], [[3, 2], [2, 5], [4, 1]]]
    assert [shop.name for shop in pfs.read_all(path, "orlib")] == ["two 1", "two 2"]
    assert pfs.read(path, "orlib", block=2).times.tolist() == [[3, 2], [2, 5], [4, 1]]
    with pytest.raises(pfs.FileFault) as fault:
        pfs.read(path, "orlib", block=3)
    assert (fault.value.name, fault.value.place, fault.value.text) == ("no block", 2, "pfs: no block, found 2")
    assert fault.value.hint == ""
    file = io.BytesIO(b"+++\n instance c\xe4r1\n+++\n Carlier 1x1 instance\n 1 1\n 0 7\n+++\n"
                      b"Instance x\nINSTANCE reC05 \r\nby instance z2 of\n1 1\n0 3\ninstance 7\n1 1\n0 5\n1 1\n0 9\n")
    file.name = "dir/flowshop1"
    shops = pfs.read_all(file, "orlib")
    assert [shop.name for shop in shops] == ["c\ufffdr1", "reC05", "flowshop1 3", "flowshop1 4"]
    assert [int(shop.times[0, 0]) for shop in shops] == [7, 3, 5, 9]
    with pytest.raises(pfs.FileFault, match="truncated after 0 times"):
        pfs.read_all(io.BytesIO((TWO_BLOCKS + "1 1\n").encode()), "orlib")
    with pytest.raises(pfs.FileFault, match="no block, found 0"):
        pfs.read_all(io.BytesIO(b"nothing\n"), "orlib")
    assert len(pfs.read_all(io.BytesIO(b"1 1\n0 7\n" * 1000), "orlib")) == 1000


@pytest.mark.parametrize(("text", "first", "kind", "why"), [
    ("", 0, ValueError, "there is no order"), ("1,,2", 1, ValueError, "'' at place 2 isn't the number of a job"),
    ("1, -2", 1, ValueError, "'-2' at place 2"), ("1.5", 1, ValueError, "'1.5' isn't a list of jobs"),
    ("j1 k2", 1, ValueError, "'k2' at place 2"), ("\u0661", 1, ValueError, "isn't a list"),
    ("2 1 3", 0, ValueError, "3 at place 2 isn't a job: the 3 jobs are 0 to 2"),
    ("0 1", 1, ValueError, "0 at place 0 isn't a job: the 2 jobs are 1 to 2"),
    ("2 1 2", 1, ValueError, "job 2 occurs twice, at places 0 and 2"),
    ("1 " + "9" * 5000, 1, ValueError, "'9{20}' at place 2 isn't"), ("0 " * 5001, 0, ValueError, "5,001 jobs"),
    (b"1 2", 1, TypeError, "text must be a str"), ([1, 2], 1, TypeError, "text must be a str"),
    ("1 2", 2, ValueError, "first must be from 0 to 1, not 2"), ("1 2", True, TypeError, "first must be")])
def test_orders_of_papers_that_are_rejected(text: Any, first: Any, kind: type[Exception], why: str) -> None:
    with pytest.raises(kind, match=why):
        pfs.parse_order(text, first)


LINES = st.text(alphabet="ab+ \t\r0123456789\xe4", max_size=12).map(str.encode)
# Lines that aren't number lines, so that blocks around them stay as they are.
TITLES = [b"", b" \t", b"title", b"instance 7", b"+++", b"x1 2", b"\r", b"\xff\xe4"]
SKIPPED = st.lists(st.sampled_from(TITLES), max_size=3)


@st.composite
def blocks(draw: st.DrawFn, layout: str) -> bytes:
    """A block with other blanks, leading zeros, and its numbers on other lines; it may have a fault."""
    times = draw(plainly.shops(4, 3))
    jobs, machines = len(times), len(times[0])
    head = [jobs, machines, 7, 9, 8] if layout == "taillard" else [jobs, machines]
    body = [row[at] for at in range(machines) for row in times] if layout == "taillard" else [
        number for row in times for at, time in enumerate(row) for number in (at, time)]
    between = st.sampled_from([b" ", b"\t", b"  ", b"\r\n", b"\n", b"\n\n", b"\nplain\n", b" \n 0", b" " + b"0" * 90])
    text = draw(st.sampled_from([b"", b" \t", b"\r"])) + b" ".join(b"%d" % number for number in head)
    text += draw(st.sampled_from([b"\n", b" \r\n"]))
    text += b"".join(b"%d" % number + draw(between) for number in body[:-1]) + b"%d" % body[-1]
    cut = draw(st.sampled_from([None] * 9 + [-1, -4]))
    return text[:cut] + draw(st.sampled_from([b"\n"] * 9 + [b" \r\n", b" 5\n", b"x\n"]))


def one_by_one(text: bytes, layout: str) -> tuple[list[pfs.Instance], pfs.FileFault]:
    """The blocks up to the first fault, each read from the start of the file, and that fault."""
    found: list[pfs.Instance] = []
    for block in range(1, 1_001):
        try:
            found.append(pfs.read(io.BytesIO(text), layout, block))
        except pfs.FileFault as fault:
            return found, fault
    pytest.fail("a file of more than 1,000 blocks")


@given(st.sampled_from(["taillard", "orlib"]), st.data())
def test_all_blocks_are_those_that_are_read_one_by_one(layout: str, data: st.DataObject) -> None:
    parts = data.draw(st.lists(SKIPPED.map(lambda lines: b"".join(line + b"\n" for line in lines)) | blocks(layout)
                               | LINES, max_size=6))
    text = b"".join(parts)
    text = data.draw(st.sampled_from([text, text.removesuffix(b"\n")]))
    due, fault = one_by_one(text, layout)
    if fault.name == "no block" and due:
        found = pfs.read_all(io.BytesIO(text), layout)
        for shop, other in zip(found, due, strict=True):
            shop.name = ""
            assert shop == other, "read_all has another block than read"
    else:
        with pytest.raises(pfs.FileFault) as again:
            pfs.read_all(io.BytesIO(text), layout)
        assert (again.value.number, again.value.place) == (fault.number, fault.place)


@pytest.mark.seconds(2)
@pytest.mark.parametrize("layout", ["taillard", "orlib"])
def test_all_blocks_of_15_megabytes_take_little_time(layout: str, untraced: None) -> None:
    """Of processor time: other programs run besides."""
    one = pfs.generate(200, 100, 3)
    block = one.to_text(layout).encode()
    count = 15_000_000 // len(block)
    text = block * count
    begun = time.process_time()
    shops = pfs.read_all(io.BytesIO(text), layout)
    seconds = time.process_time() - begun
    assert len(shops) == count and (shops[-1].times == one.times).all()
    assert seconds < 1.25, f"{len(text) / 1e6:.0f} MB took {seconds:.1f} s"


COUNT = 500_000
# Readers, and what took them the square or the cube of its length.
SLOW: dict[str, tuple[Callable[[Any], object], str]] = {
    "blanks in an order": (pfs.parse_order, "1" + " " * COUNT + "x"),
    "blanks before an order": (pfs.parse_order, " " * COUNT + "("),
    "a head": (pfs.read_csv, "job" + " " * 100_000 + "b;a\nx;y\n"),
}


@pytest.mark.parametrize("case", SLOW)
def test_readers_take_linear_time(tmp_path: pathlib.Path, case: str, untraced: None) -> None:
    read, text = SLOW[case]
    given_text = written(tmp_path, text) if read is pfs.read_csv else text
    begun = time.process_time()
    with pytest.raises(ValueError):
        read(given_text)
    assert time.process_time() - begun < 2, f"{case}: the time grows faster than the length"


MEASURED = """
import io, resource, sys, pfs
kind, text = sys.argv[1], open(sys.argv[2], "rb").read()
before = resource.getrusage(resource.RUSAGE_SELF).ru_maxrss
size = len(text)
try:
    if kind == "matrix":
        pfs.read(io.BytesIO(text), kind)
    else:
        del text
        pfs.read_csv(sys.argv[2])
except ValueError as fault:
    print(str(fault)[:99], file=sys.stderr)
print((resource.getrusage(resource.RUSAGE_SELF).ru_maxrss - before) * 1024 / size)
"""
MILLION = 2**20
LARGE: dict[str, tuple[str, bytes]] = {
    "line ends of a matrix": ("matrix", b"\n" * (8 * MILLION)),
    "titles of a table": ("table", b"t\n" * (4 * MILLION) + b"job,a\nx,1\n"),
    "cells of a table": ("table", b"job,a\nx" + b",12" * (3 * MILLION)),
}


@pytest.mark.parametrize("case", LARGE)
def test_readers_take_little_memory(tmp_path: pathlib.Path, case: str) -> None:
    kind, text = LARGE[case]
    (tmp_path / "file").write_bytes(text)
    done = plainly.python("-c", MEASURED, kind, tmp_path / "file", cwd=tmp_path)
    assert float(done.stdout) < 10, f"{case}: {done.stdout.strip()} bytes of memory for each byte ({done.stderr})"


@pytest.mark.seconds(4)
def test_all_blocks_up_to_the_limit() -> None:
    """One byte more than the limit is a fault, before the end of a block or after it; not so after 1,000 blocks."""
    block = b"1 1\n0 7\n"
    spaces = 67_108_864 - 2 * len(block)
    assert len(pfs.read_all(io.BytesIO(block + b" " * spaces + block), "orlib")) == 2
    with pytest.raises(pfs.FileFault, match="^input too long$"):
        pfs.read_all(io.BytesIO(block + b" " * (spaces + 1) + block), "orlib")
    with pytest.raises(pfs.FileFault, match="input too long"):
        pfs.read_all(io.BytesIO(block + b" " * spaces + block + b"title\n"), "orlib")
    many = b" " * (67_108_864 - 1000 * len(block))
    assert len(pfs.read_all(io.BytesIO(block * 999 + many + block + b"title\n"), "orlib")) == 1000
    with pytest.raises(pfs.FileFault, match="input too long"):
        pfs.read_all(io.BytesIO(block * 999 + many + b" " + block), "orlib")


@pytest.mark.parametrize("case", FAULTS)
def test_faults_of_instance_files(tmp_path: pathlib.Path, program: str, case: str) -> None:
    """Their texts are those that the program prints."""
    text, layout, *due = FAULTS[case]
    path, block = written(tmp_path, text), 2 if "block 2" in case else 1
    reads: list[Callable[[], Any]] = [lambda: pfs.read(path, layout, block), lambda: pfs.read_all(path, layout)]
    for read in reads:
        with pytest.raises(pfs.FileFault) as caught:
            read()
        fault = caught.value
        assert [fault.name, fault.place, fault.line, fault.column, fault.hint] == due and isinstance(fault, ValueError)
        hint = f" ({fault.hint})" if fault.hint else ""
        assert fault.path == str(path) and str(fault) == f"{path}: {fault.text.removeprefix('pfs: ')}{hint}"
        words = [program, "value", "--layout", layout, "--block", str(block), str(path)]
        assert plainly.run(words, 2) == fault.text + "\n"


@pytest.mark.parametrize("case", BAD_ORDERS)
def test_faults_of_order_files(tmp_path: pathlib.Path, program: str, case: str) -> None:
    text, name, place = BAD_ORDERS[case]
    path, shop = written(tmp_path, text), written(tmp_path, THREE, "three")
    with pytest.raises(pfs.OrderFault) as fault:
        pfs.read_order(path)
    assert (fault.value.name, fault.value.place) == (name, place)
    assert plainly.run([program, "check", "--layout", "taillard", str(shop), str(path)], 2) == fault.value.text + "\n"


@given(plainly.shops(), st.sampled_from(["taillard", "orlib"]), st.integers(0, 2**32 - 1))
def test_what_is_written_is_read(times: plainly.Table, layout: str, note: int) -> None:
    shop = pfs.Instance(times, seed=note, upper=note // 2, lower=note // 3)
    text = shop.to_text(layout)
    machines = range(len(times[0]))
    if layout == "taillard":
        rows = [" ".join(str(row[machine]) for row in times) for machine in machines]
        head = f"{TITLE}{len(times)} {len(times[0])} {note} {note // 2} {note // 3}\nprocessing times :\n"
    else:
        rows = [" ".join(f"{machine} {row[machine]}" for machine in machines) for row in times]
        head = f"flow shop instance\n{len(times)} {len(times[0])}\n"
    assert text == head + "".join(row + "\n" for row in rows)
    again = pfs.read(io.BytesIO(text.encode()), layout)
    assert again.times.tolist() == times
    assert layout == "orlib" or again == shop


def test_long_numbers_fit() -> None:
    shop = pfs.Instance([[10**9] * 200] * 300, seed=2**32 - 1, upper=2**32 - 1, lower=2**32 - 1)
    for layout in ("taillard", "orlib"):
        assert (pfs.read(io.BytesIO(shop.to_text(layout).encode()), layout).times == 10**9).all()
    shop = pfs.read(io.BytesIO(b"200 50 0 0 0\n" + b"7 " * 9999 + b"7"), "taillard")
    assert shop.times.shape == (200, 50) and (shop.times == 7).all()


@given(plainly.shops_and_orders(), st.integers(0, 10**18 - 1))
def test_order_files(case: tuple[plainly.Table, list[int]], span: int) -> None:
    times, order = case
    machines = len(times[0])
    solution = pfs.Solution(order, span, 0, machines)
    assert solution.to_text() == plainly.order_file(order, machines, span)
    assert pfs.read_order(io.BytesIO(solution.to_text().encode())) == solution
    bare = pfs.Solution(order, span)
    assert bare.to_text() == plainly.order_file(order, None, span)
    assert pfs.read_order(io.BytesIO(bare.to_text().encode())) == bare


def test_taillards_instances_are_those_of_the_lists() -> None:
    """Their upper bounds are the best known makespans, each with its source. That of ta056 was proved optimal."""
    with pathlib.Path(pfs.__file__).with_name("taillard.csv").open() as file:
        rows = [",".join(row) for *row, source in list(csv.reader(file))[1:] if source]
    assert len(rows) == 120 and rows[55].endswith(",3679")
    for number, row in enumerate(rows, 1):
        shop = pfs.taillard(number)
        assert ",".join(map(str, [shop.name, shop.jobs, shop.machines, shop.seed, shop.lower, shop.upper])) == row
        assert shop.upper >= shop.lower


def test_taillards_instances_have_audited_orders() -> None:
    """Each is an order of all jobs with the makespan of the table, by plain definitions, not below its bound."""
    for number, row in enumerate(benchmarks.taillard_best().values(), 1):
        shop, order = pfs.taillard(number), [int(job) - 1 for job in row.order.split()]
        best = shop.best
        assert best and row.instance == shop.name and best.order.tolist() == order
        assert sorted(order) == [*range(shop.jobs)]
        assert best.makespan == int(row.makespan) == plainly.makespan(shop.times.tolist(), order)
        assert shop.bound("pairs") <= best.bound == int(row.bound) <= best.makespan
        assert best.optimal == (row.makespan == row.bound)
        if best.optimal and int(row.nodes) < 1000:
            assert shop.optimum(60, start=best, nodes=int(row.nodes)).optimal, "not by so many nodes"
    assert number == 120


def test_the_page_has_the_best_orders() -> None:
    """Its table, the number of optima, and what is below the list."""
    rows, page = [*benchmarks.taillard_best().values()], (TOP / "docs" / "TAILLARD.md").read_text()
    cells = [f"**{row.makespan}**" if row.makespan == row.bound else f"{row.makespan} ≥ {row.bound}" for row in rows]
    for at in range(0, 120, 10):
        shop = pfs.taillard(at + 1)
        line = " | ".join([f"{shop.jobs}×{shop.machines}", rows[at].instance, *cells[at:at + 10]])
        assert f"\n| {line} |\n" in page
    below = [f"{row.instance} {row.makespan} ({shop.upper})" for at, row in enumerate(rows, 1)
             for shop in [pfs.taillard(at)] if int(row.makespan) < shop.upper]
    assert f": {', '.join(below)}.\n" in page
    assert f"\n{sum(row.makespan == row.bound for row in rows)} of them are proved optimal." in page


def test_the_best_orders_of_iterated_greedy_are_found_again() -> None:
    """With the seed and the rounds of the file; those that take few."""
    found = 0
    for number, row in enumerate(benchmarks.taillard_best().values(), 1):
        if row.method == "iterated-greedy" and int(row.rounds) * pfs.taillard(number).jobs < 20_000:
            again = pfs.taillard(number).solve(int(row.rounds), method="iterated-greedy", seed=int(row.seed))
            assert " ".join(str(job + 1) for job in again.order) == row.order
            found += 1
    assert found > 20


def test_other_instances_have_no_best_order(tmp_path: pathlib.Path) -> None:
    """Taillard's are known by seed and times, also from a file, and in a copy."""
    shop = pfs.taillard(5)
    shop.write(tmp_path / "shop", "taillard")
    assert shop.best and pfs.read(tmp_path / "shop", "taillard").best == copy.copy(shop).best == shop.best
    times = shop.times.copy()
    times[7, 3] += 1
    assert pfs.Instance(times, name="ta005", seed=shop.seed).best is None
    assert pfs.Instance(shop.times, name="ta005").best is None and pfs.generate(20, 5, 1).best is None


# The layout "matrix": the sizes on one line, and then a line of times for each job

def matrix_of(text: str) -> pfs.Instance:
    return pfs.read(io.BytesIO(text.encode("latin-1")), "matrix")


@given(plainly.shops(), st.data())
def test_a_matrix_is_read_as_it_is(times: plainly.Table, data: st.DataObject) -> None:
    """With any blanks and empty lines, and the name of its file."""
    blanks, ends = st.sampled_from([" ", "\t", "  "]), st.sampled_from(["\n", "\r\n", "\n\n", " \n\t\n "])
    text = data.draw(st.sampled_from(["", "\n\n ", " "]))
    for row in [[len(times), len(times[0])], *times]:
        width = data.draw(st.sampled_from([1, 3]))
        text += data.draw(blanks).join(str(number).zfill(width) for number in row) + data.draw(ends)
    file = io.BytesIO(data.draw(st.sampled_from([text, text.rstrip()])).encode())
    file.name = "folder/mine.txt"
    assert pfs.read(file, "matrix") == pfs.Instance(times, name="mine.txt")


@pytest.mark.parametrize(("text", "line", "column", "why"), [
    ("", 1, 0, "0 numbers on the size line"),
    ("\n3 2 0\n3 2\n2 5\n4 1\n", 2, 0, "3 numbers on the size line"),
    ("0 2\n", 1, 1, "'0' is not a whole number from 1 to 5,000"),
    ("3 201\n", 1, 2, "'201' is not a whole number from 1 to 200"),
    ("3 x\n", 1, 2, "'x' is not a whole number from 1 to 200"),
    ("3 2\n3 2\n2 5\n", 3, 0, "2 lines of times for 3 jobs"),
    ("3 2\n", 1, 0, "0 lines of times for 3 jobs"),
    ("3 2\n3 2\n2 5\n4 1\n7 7\n7 7\n", 5, 0, "more than 3 lines of times for 3 jobs"),
    ("3 2\n3 2\n2\n4 1\n", 3, 0, "1 times for 2 machines"),
    ("3 2\n3 2\n2 5 1\n4 1\n", 3, 0, "3 times for 2 machines"),
    ("3 2\n3 2 4\n2 5 1\n", 2, 0, "3 times for 2 machines: the layout has a line for each job, not for each machine"),
    ("3 2\n3 2\n2 -5\n4 1\n", 3, 2, "'-5' is not a whole number from 0 to 1,000,000,000"),
    ("3 2\n3 2\n2 5\n4.5 1\n", 4, 1, "'4.5' is not a whole number"),
    ("3 2\n3 2\n2 5\n4 1000000001\n", 4, 2, "'1000000001' is not a whole number"),
    ("3 2\n3 2\n2 5\n4 \xb2\n", 4, 2, "'\xb2' is not a whole number"),
    ("1 1\n" + "9" * 5000 + "\n", 2, 1, f"'{'9' * 20}' is not a whole number"),
])
def test_a_fault_has_its_line_and_column(text: str, line: int, column: int, why: str) -> None:
    with pytest.raises(pfs.TableFault) as fault:
        matrix_of(text)
    assert (fault.value.line, fault.value.column) == (line, column) and fault.value.text.startswith(why)


def test_there_is_one_block_and_a_limit_of_bytes(tmp_path: pathlib.Path, monkeypatch: pytest.MonkeyPatch) -> None:
    with pytest.raises(ValueError, match="block must be from 1 to 1, not 2"):
        pfs.read(io.BytesIO(b"1 1\n7\n"), "matrix", 2)
    with pytest.raises(ValueError, match="layout must be 'taillard' or 'orlib', not 'matrix'"):
        pfs.read_all(io.BytesIO(b"1 1\n7\n"), "matrix")
    with pytest.raises(ValueError, match="layout must be 'taillard', 'orlib' or 'matrix', not 'matrices'"):
        pfs.read(io.BytesIO(b"1 1\n7\n"), "matrices")
    monkeypatch.setattr("pfs.binding.library.LONGEST_INPUT", 8)
    assert matrix_of("1 1\n700\n") == pfs.Instance([[700]])
    with pytest.raises(pfs.TableFault, match="^: line 1, the file has more than 8 bytes$"):
        matrix_of("1 1\n7000\n")
    with pytest.raises(pfs.TableFault, match="file: line 1, the file has more than 8 bytes$"):
        order_in(written(tmp_path, "the job\n\n"), pfs.Instance([[1]]))


# Each file that the package writes is whole, the old one or the new one, and never written through a planted link

SHOP = pfs.Instance([[30, 25], [20, 50], [40, 10]], job_names=["table", "chair", "shelf"], machine_names=["a", "b"])
MADE = SHOP.schedule([1, 0, 2])
WRITERS: dict[str, Callable[[pathlib.Path], object]] = {
    "shop": SHOP.write, "order": SHOP.solve(3).write, "schedule.csv": MADE.to_csv, "picture.svg": MADE.plot,
    "page.html": MADE.plot,
    "state": lambda path: _state.State(str(path), SHOP, _search.Search(SHOP, None, 0, None, 0, 0)).write(SHOP.neh()),
}


@contextlib.contextmanager
def files_of_at_most(size: int) -> Iterator[None]:
    """No file gets longer meanwhile: a write ends in an error then, as on a full disk."""
    soft, hard = resource.getrlimit(resource.RLIMIT_FSIZE)
    resource.setrlimit(resource.RLIMIT_FSIZE, (size, hard))
    try:
        yield
    finally:
        resource.setrlimit(resource.RLIMIT_FSIZE, (soft, hard))


@pytest.mark.parametrize("name", WRITERS)
def test_a_full_disk_and_ctrl_c_leave_the_old_file(tmp_path: pathlib.Path, name: str,
                                                   monkeypatch: pytest.MonkeyPatch) -> None:
    path = tmp_path / name
    path.write_text("the old one")
    with files_of_at_most(16), pytest.raises(OSError) as fault:
        WRITERS[name](path)
    assert str(fault.value) == f"[Errno 27] File too large: {str(path)!r}"
    with monkeypatch.context() as patch, pytest.raises(KeyboardInterrupt):
        patch.setattr(os, "fsync", lambda _: signal.raise_signal(signal.SIGINT))
        WRITERS[name](path)
    assert path.read_text() == "the old one", f"{name} was written in place"
    assert os.listdir(tmp_path) == [path.name], "half a file is left"
    WRITERS[name](path)
    assert path.read_text() != "the old one" and os.listdir(tmp_path) == [path.name]


@pytest.mark.parametrize("name", WRITERS)
def test_a_link_to_a_file_stays_and_no_other_one_is_followed(tmp_path: pathlib.Path, name: str,
                                                             monkeypatch: pytest.MonkeyPatch) -> None:
    path = tmp_path / name
    (tmp_path / "folder").mkdir()
    target = tmp_path / "folder" / "target"
    path.symlink_to("folder/target")
    monkeypatch.setattr(secrets, "token_hex", lambda _: "0123")
    new = ".new" if name == "state" else ".0123.new"
    path.with_name(path.name + new).mkdir()  # beside the link, perhaps on another disk, nothing is written
    WRITERS[name](path)
    target.write_text("the old one")
    target.chmod(0o600)
    WRITERS[name](path)
    assert path.is_symlink() and target.read_text() != "the old one"
    assert stat.S_IMODE(target.stat().st_mode) == 0o600, "the permissions have changed"
    path = tmp_path / "folder" / name
    precious = path.with_name("precious")
    precious.write_text("kept")
    path.with_name(path.name + new).symlink_to(precious)
    WRITERS[name](path)
    assert precious.read_text() == "kept", f"{name} was written through a link"
    assert not path.is_symlink() and {*os.listdir(path.parent)} == {path.name, "precious", "target"}


@pytest.mark.parametrize("mask", [0o022, 0o077])
def test_a_new_file_has_the_permissions_of_the_mask(tmp_path: pathlib.Path, mask: int) -> None:
    before = os.umask(mask)
    try:
        SHOP.write(tmp_path / "shop")
    finally:
        os.umask(before)
    assert stat.S_IMODE((tmp_path / "shop").stat().st_mode) == 0o666 & ~mask


def test_a_pipe_is_written_to_and_names_that_no_file_holds_are_not(tmp_path: pathlib.Path) -> None:
    os.mkfifo(tmp_path / "pipe")
    reader = os.open(tmp_path / "pipe", os.O_RDONLY | os.O_NONBLOCK)
    SHOP.write(tmp_path / "pipe")
    assert os.read(reader, 4096).decode() == SHOP.to_text()
    os.close(reader)
    assert os.listdir(tmp_path) == ["pipe"]
    # Without a name, as that of `| less` or `>(gzip)`.
    reader, writer = os.pipe()
    SHOP.write(f"/dev/fd/{writer}")
    assert os.read(reader, 4096).decode() == SHOP.to_text()
    os.close(reader)
    os.close(writer)
    (tmp_path / "out.csv").write_text("the old one")
    shop = pfs.Instance([[1]], job_names=["\udce4"])
    with pytest.raises(UnicodeEncodeError):
        shop.schedule([0]).to_csv(tmp_path / "out.csv")
    assert (tmp_path / "out.csv").read_text() == "the old one"
