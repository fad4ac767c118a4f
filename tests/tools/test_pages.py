"""The pages that users read, against the built program. Each example of README.md, of the pages on commands and recipes
and of the manual page is run, and must print what the page shows. The faults, exit statuses and defaults in the tables
of docs/ must be the program's, and those of the manual page and its ranges the same. Limits are in test_limits.py. The
paths, names and goals of `make` that pages name exist."""
import functools
import os
import pathlib
import re
import shutil
import subprocess
from collections.abc import Callable
from typing import NamedTuple

import pytest
from support.files import LAYOUTS, LINES, USAGE, commands, generated
from support.library import Library
from support.lines import ANSWERS, KINDS, PRINTING, VALID
from support.needs import tool
from support.program import Program, Ran
from support.tools import TOP, Done, files_below, run_tool, with_path, write_script

COMMANDS, FORMATS, TROUBLESHOOTING = ((TOP / "docs" / f"{name}.md").read_text()
                                      for name in ("COMMANDS", "FORMATS", "TROUBLESHOOTING"))
MANUAL = (TOP / "share" / "pfs.1").read_text()
PAGES = sorted(str(page.relative_to(TOP)) for pattern in ("*.md", "*/*.md", "docs/*/*.md")
               for page in TOP.glob(pattern))
MOST_SECONDS = 120


# Texts of pages

def table(text: str, *head: str) -> list[list[str]]:
    """The rows of the tables with this head, without the rule below it."""
    found: list[list[str]] = []
    for each in re.findall(r"(?:^\|.*\|\n)+", text, re.MULTILINE):
        rows = [[cell.strip() for cell in line.strip("|").split("|")] for line in each.splitlines()]
        found += rows[2:] if rows[0] == list(head) else []
    return found


# The tables of facts

# Each option with its range and its default, as the page has them.
OPTIONS = {name.strip("`").split()[0]: (values, default)
           for name, values, default, _ in table(COMMANDS, "Option", "Range", "Default", "Meaning")}
RANGED = [name for name, (values, _) in OPTIONS.items() if values[:1].isdigit()]
EXITS = table(COMMANDS, "Exit status", "When", "Standard error")
STATUS_OF_FAULT = {text.strip("`"): int(status) for _, text, status in table(FORMATS, "Fault", "Text", "Status")}


# Examples

class Example(NamedTuple):
    page: str
    command: str
    printed: str


def examples(page: str, text: str) -> list[Example]:
    """Each command with its output. A command follows `$ `, and its further lines follow `> `."""
    found: list[list[str]] = []
    for line in text.splitlines():
        if line.startswith("$ "):
            found.append([line[2:], ""])
        elif line.startswith("> ") and found and found[-1][1] == "":
            found[-1][0] += "\n" + line[2:]
        elif found:
            found[-1][1] += line + "\n"
    # The next command may follow an empty line.
    return [Example(page, command, re.sub("\n+$", "\n", printed.lstrip("\n"))) for command, printed in found]


SECTION = MANUAL.partition("\n.Sh EXAMPLES\n")[2].partition("\n.Sh ")[0].replace(r"\e", "\\") + "\n"
BLOCKS = {page: re.findall(r"^```\w*\n(\$ .*?)^```$", (TOP / page).read_text(), re.MULTILINE | re.DOTALL)
          for page in ("README.md", "docs/COMMANDS.md", "docs/COOKBOOK.md")}
BLOCKS["pfs.1"] = re.findall(r"^\.Bd -literal.*?\n(.*?)^\.Ed$", SECTION, re.MULTILINE | re.DOTALL)
EXAMPLES = {page: examples(page, "".join(blocks)) for page, blocks in BLOCKS.items()}


@pytest.fixture(scope="module")
def shown(pfs: Program, libpfs: Library, scripts: pathlib.Path,
          tmp_path_factory: pytest.TempPathFactory) -> Callable[[Example], str]:
    """What the commands of a page print, run one after the other in a folder that is empty at first, with the programs
    that an installation has."""
    printed: dict[str, dict[Example, str]] = {}

    def run(example: Example) -> str:
        if example.page not in printed:
            folder = tmp_path_factory.mktemp("page")
            (folder / ".bin").mkdir()
            shutil.copy(pfs.path, folder / ".bin" / "pfs")
            (folder / ".bin" / "pfs-gantt").symlink_to(scripts / "pfs-gantt")
            line = f'PFS_LIBRARY={libpfs.path} exec {scripts / "pfs-experiments"} "$@"'
            write_script(folder / ".bin" / "pfs-experiments", f"#!/bin/sh\n{line}\n")
            printed[example.page] = {each: run_line(each.command, folder) for each in EXAMPLES[example.page]}
        return printed[example.page][example]
    return run


def run_line(line: str, folder: pathlib.Path) -> str:
    done = subprocess.run(["bash", "-c", line], stdin=subprocess.DEVNULL, stdout=subprocess.PIPE, cwd=folder, text=True,
                          stderr=subprocess.STDOUT, env=with_path(folder / ".bin"), timeout=MOST_SECONDS)
    return done.stdout


@pytest.mark.quick
@pytest.mark.parametrize("example", [
    pytest.param(example, id=f"{page}: {example.command[:60]}", marks=pytest.mark.xdist_group(f"examples of {page}"))
    for page, found in EXAMPLES.items() for example in found])
def test_an_example_prints_what_the_page_shows(example: Example, shown: Callable[[Example], str],
                                               request: pytest.FixtureRequest) -> None:
    if "pfs-gantt" in example.command:
        request.getfixturevalue("matplotlib")
    assert shown(example) == example.printed


def test_the_first_files_of_the_page_on_formats_are_of_one_instance(pfs: Program, folder: pathlib.Path) -> None:
    texts = re.findall(r"^```\n(.*?)^```$", FORMATS, re.MULTILINE | re.DOTALL)
    for name, text in zip(("taillard", "orlib", "order"), texts):
        (folder / name).write_text(text)
    ran = [pfs.run(f"check --layout {name} {name} order", folder) for name in LAYOUTS]
    assert ran == [Ran(VALID, b"", 0)] * 2


@pytest.mark.seconds(40)
def test_the_comparison_is_made_as_the_page_says(pfs: Program, libpfs: Library, scripts: pathlib.Path, scipy: None,
                                                 folder: pathlib.Path) -> None:
    """All of its blocks are one script. Its last lines are the table, whose numbers depend on the machine."""
    page = (TOP / "docs" / "COMPARE.md").read_text()
    *blocks, (_, shown) = re.findall(r"^```(sh)?\n(.*?)^```$", page, re.MULTILINE | re.DOTALL)
    script = "".join(block for _, block in blocks)
    tool("parallel")
    (folder / "bin").mkdir()
    shutil.copy(pfs.path, folder / "bin" / "pfs")
    env = os.environ | {"PATH": f"{folder}/bin:{scripts}:{os.environ['PATH']}", "PFS_LIBRARY": str(libpfs.path)}
    done = run_tool(["bash", "-e", "-c", script], folder, env=env)
    assert done.status == 0, done.stderr
    printed = done.stdout[done.stdout.rindex("| jobs×machines |"):]
    numbers = re.compile(r"\d+\.\d{3}")
    assert numbers.sub("", printed).startswith(numbers.sub("", shown))
    mine, ours = numbers.findall(printed)[-2:]
    assert float(mine) > float(ours) >= 0


# Commands and links

def test_the_page_on_commands_has_those_of_the_usage_text_and_the_one_without_arguments() -> None:
    assert [command.strip("`") for command, _ in table(COMMANDS, "Command", "Prints")] == [*LINES, "pfs"]


SLIPS = [re.findall("`([^`]+)`", typed)[0] for typed, _ in table(TROUBLESHOOTING, "Typed", "Reason")]


@pytest.mark.parametrize("line", SLIPS)
def test_a_slip_gets_the_usage(line: str, pfs: Program, worked: pathlib.Path) -> None:
    assert pfs.run(line.removeprefix("pfs "), worked) == Ran(b"", USAGE, 3)


FILE_SLIPS = {
    "size line X has a wrong count": [("value --layout orlib three", b""), ("value --layout taillard bom", b"")],
    "mixed line at X": [("value --layout taillard minus", b"2 "), ("value --layout taillard point", b"1")],
    "order file syntax at X": [(f"check --layout taillard three {name}", b"")
                               for name in ("spaces", "more", "windows")],
    "cannot open": [("value --layout taillard none", b""), ("check --layout taillard three none", b"")],
}


@pytest.mark.parametrize("fault", FILE_SLIPS)
def test_a_fault_that_is_explained_has_this_reason(fault: str, pfs: Program, worked: pathlib.Path) -> None:
    """If the page says how to show the line up to the byte, that command shows it."""
    files = {"bom": b"\xef\xbb\xbf3 2 0 0 0\n3 2 4\n2 5 1\n", "minus": b"2 1 0 0 0\n2 -5\n",
             "point": b"2 1 0 0 0\n1.5 1\n", "spaces": b"order 3\n1  2 3\nmakespan 11\n",
             "more": b"order 3\n1 2 3\nmakespan 11\n\n", "windows": b"order 3\r\n1 2 3\r\nmakespan 11\r\n"}
    for name, text in files.items():
        (worked / name).write_bytes(text)
    for line, shown in FILE_SLIPS[fault]:
        got = re.fullmatch(f"pfs: {fault.replace('X', r'([0-9]+)')}\n", pfs.run(line, worked).stderr.decode())
        assert got, line
        if shown:
            show = f"head -c {got[1]} {line.split()[-1]} | tail -n 1"
            assert "`head -c X FILE | tail -n 1`" in TROUBLESHOOTING
            assert run_line(show, worked).encode() == shown


def test_the_page_explains_only_these_faults() -> None:
    assert {message.strip("`") for message, _ in table(TROUBLESHOOTING, "Message", "Reason")} \
        == {f"pfs: {fault}" for fault in FILE_SLIPS}


def test_the_first_change_quotes_the_sources() -> None:
    crate = TOP / "crates" / "pfs_audit"
    sources = "\n".join(path.read_text() for path in crate.rglob("*") if path.suffix in {".rt", ".antt"})
    blocks = re.findall(r"^```\n((?:pub|--) .*?)^```$", (TOP / "CONTRIBUTING.md").read_text(), re.MULTILINE | re.DOTALL)
    assert len(blocks) == 3 and [block for block in blocks if block not in sources] == []


# Faults and exit statuses

def test_the_faults_are_those_of_the_program() -> None:
    """Each with its status, as the program returns for the lines of support/lines.py, with X for any number."""
    stated = {re.sub(r"\b[A-Z]\b", "X", text): status for text, status in STATUS_OF_FAULT.items()}
    assert stated == {f"pfs: {kind}": answer.status for kind, answer in KINDS.items() if answer.stderr}


def test_the_exit_statuses_name_the_faults_that_are_of_no_file() -> None:
    """Each with its status. Faults of files have status 2, and the usage text is not a single line."""
    named = {text: int(status) for status, _, error in EXITS for text in re.findall("`(pfs: .*?)`", error)}
    assert named == {text: status for text, status in STATUS_OF_FAULT.items() if status != 2 and text != "pfs: usage"}


@pytest.mark.parametrize(("status", "when", "error"), EXITS, ids=[when[:40] for _, when, _ in EXITS])
def test_when_the_program_ends_with_a_status(status: str, when: str, error: str) -> None:
    for answer in (ANSWERS.get(line, KINDS.get(line)) for line in WHEN[when]):
        assert answer and answer.status == int(status), when
        assert (answer.stderr == b"") == (error == ""), when
        assert (answer.stderr == USAGE) == (error == "the usage text"), when


# Lines and kinds of results of support/lines.py, by what the page says of them.
WHEN = {
    "done": ["value --layout taillard three"],
    "`check` or `table` printed `wrong size` or `wrong machines`, or `check` printed `wrong makespan`": [
        "check --layout taillard three two", "table --layout taillard three two",
        "check --layout taillard three for_three", "table --layout taillard three for_three",
        "check --layout taillard three wrong"],
    "a file or a generator's seed is rejected": ["mixed line at X", "order file syntax at X", "seed out of range"],
    "no command takes the arguments": ["usage"],
    "the destruction size is greater than the number of jobs": ["take X exceeds X jobs"],
    "a file can't be opened": ["cannot open"],
    "a read failed": ["read failed", "order file read failed"],
    "a write failed": ["write failed after X bytes"],
    "memory allocation failed": ["no memory"],
}


# Options

def test_each_option_of_the_usage_text_is_in_the_table() -> None:
    """With the layouts."""
    assert {option for command in commands().values() for option in command.options} == set(OPTIONS)
    assert all(set(re.findall("`(.*?)`", OPTIONS[option][0])) == LAYOUTS for option in ("--layout", "--from", "--to"))


@pytest.mark.parametrize("option", RANGED)
def test_a_default_is_as_without_and_one_more_is_not(option: str, pfs: Program, folder: pathlib.Path) -> None:
    default = int(OPTIONS[option][1].partition(",")[0])
    (folder / "shop").write_bytes(generated(20, 5, 1))
    call = "solve --layout taillard --cells shop" + " --rounds=3" * (option != "--rounds")
    without, same, more = (pfs.run(call + words, folder) for words in
                           ("", f" {option}={default}", f" {option}={default + 1}"))
    assert without.status == 0 and without == same, f"the default of {option}"
    assert without != more, f"one more than the default of {option}"


# Order files

OFFSETS = [(text.strip("`").replace("\\n", "\n"), int(offset)) for text, offset in table(FORMATS, "Input", "Offset")]


@pytest.mark.parametrize(("text", "offset"), OFFSETS, ids=[repr(text) for text, _ in OFFSETS])
def test_an_offset_of_formats_is_the_programs(text: str, offset: int, pfs: Program, worked: pathlib.Path) -> None:
    (worked / "order").write_text(text)
    got = pfs.run("check --layout taillard three order", worked)
    assert got == Ran(b"", b"pfs: order file syntax at %d\n" % offset, 2)


# Printed texts

TEXTS = {what: text for what, text in table(COMMANDS, "What", "Text") if "`" in text}


def patterns(what: str) -> list[str]:
    """The lines that the page shows of a text; a letter stands for a number."""
    return [re.sub(r"\b[A-Z]\b", r"\\d+", got) for got in re.findall("`([^`]+)`", TEXTS[what])]


def lines_of(what: str) -> list[str]:
    """The command lines over the worked files whose output begins as this text."""
    return [line for line in PRINTING
            if re.fullmatch(patterns(what)[0], ANSWERS[line].stdout.decode().partition("\n")[0])]


@pytest.mark.parametrize("what", TEXTS)
def test_a_printed_text_of_the_page_is_the_programs(what: str) -> None:
    """Its lines in this order, with lines of numbers between them. The last one may be missing if the page says `if`,
    but not always."""
    whole, short = (r"\n(?:[\d ]+\n)*".join(lines) + "\n" for lines in (patterns(what), patterns(what)[:-1]))
    texts = [ANSWERS[line].stdout.decode() for line in lines_of(what)]
    others = [text for text in texts if not re.fullmatch(whole, text)]
    assert len(others) < len(texts), "a line over the worked files that prints the whole text"
    assert [text for text in others if not (" if " in TEXTS[what] and re.fullmatch(short, text))] == []


def test_the_page_states_each_printed_text() -> None:
    """Except instances."""
    stated = {line for what in TEXTS for line in lines_of(what)}
    assert {line.split(" ")[0] for line in PRINTING if line not in stated} == {"convert", "generate"}


# The manual page as it is shown

@pytest.fixture(scope="module")
def manual() -> str:
    """The manual page as mandoc shows it. Letters are made bold and underlined by printing them twice."""
    done = subprocess.run([tool("mandoc"), "-T", "utf8", "-O", "width=200", str(TOP / "share" / "pfs.1")],
                          capture_output=True, text=True)
    return re.sub(".\b", "", done.stdout)


def shown_section(text: str, title: str) -> str:
    """The lines of a section, without what all of them are indented by."""
    found = re.search(rf"^{title}\n(.*?)(?=^\S|\Z)", text, re.MULTILINE | re.DOTALL)
    assert found, f"no section {title}"
    return re.sub("^     ", "", found[1], flags=re.MULTILINE)


def test_the_manual_page_has_the_ranges_and_defaults_of_the_options() -> None:
    for option in RANGED:
        values, default = OPTIONS[option]
        told = MANUAL.partition(f"\n.It Fl -{option[2:]} Ar ")[2].partition("\n.It ")[0].replace("\n", " ")
        assert f", {values}. The default is {default}." in told, option


def test_the_manual_page_has_the_statuses_and_faults(manual: str) -> None:
    told = " ".join(shown_section(manual, "EXIT STATUS").lower().split())
    for status in {status for status, _, _ in EXITS}:
        whens = ", or ".join(when.replace("`", "").lower() for number, when, _ in EXITS if number == status)
        assert f"{status} {whens}." in told
    assert sorted(re.findall(r'^\.It "(pfs: .*)"$', MANUAL, re.MULTILINE)) == sorted(STATUS_OF_FAULT)


def test_the_synopsis_is_the_usage_text(manual: str) -> None:
    assert shown_section(manual, "SYNOPSIS").split("\n")[:-2] == LINES


TOOL_PATHS = {path.stem: path for path in (TOP / "python").glob("*.1")}
TOOL_PAGES = {name: path.read_text() for name, path in TOOL_PATHS.items()}


@pytest.mark.parametrize("page", [TOP / "share" / "pfs.1", TOP / "share" / "pfs.3", *TOOL_PATHS.values()],
                         ids=lambda page: str(page.name))
def test_mandoc_finds_nothing_wrong(page: pathlib.Path) -> None:
    assert run_tool([tool("mandoc"), "-T", "lint", "-W", "warning", page], TOP) == Done(0, "", "")


def test_pages_name_the_library_as_it_is_called() -> None:
    """By its soname, and the files by their names."""
    soname = re.findall(r"-soname,(\S+)", (TOP / "tools" / "library").read_text())
    others = [path for names in ("lib/*.*", "share/*.*", "Makefile") for path in TOP.glob(names)]
    texts = [path.read_text() for path in [*map(TOP.joinpath, PAGES), *others]]
    assert {each for text in texts for each in re.findall(r"libpfs\.so\.\w+", text)} == set(soname)
    page = (TOP / "docs" / "LIBRARY.md").read_text()
    assert all(f"lib/out/{name}" in page for name in ("libpfs.a", *soname))


def test_the_pages_of_gantt_have_its_options() -> None:
    source = (TOP / "python" / "src" / "pfs" / "commands" / "gantt.py").read_text()
    usage, = re.findall(r"^usage: pfs-gantt (.*) \[TABLE\] PICTURE", source, re.MULTILINE)
    synopsis, listed = (re.findall(rf"^\.{macro} Fl -([\w-]+)(?: Ar (\w+))?$", TOOL_PAGES["pfs-gantt"], re.MULTILINE)
                        for macro in ("Op", "It"))
    assert " ".join(f"[--{option}{' ' * bool(value)}{value}]" for option, value in synopsis) == usage
    assert listed == synopsis, "the list of the options in pfs-gantt.1"
    assert f"\n`pfs-gantt {usage} [TABLE] PICTURE`" in (TOP / "docs" / "COOKBOOK.md").read_text()


def test_the_page_of_experiments_has_its_scripts() -> None:
    main = (TOP / "python" / "src" / "pfs" / "experiments" / "__main__.py").read_text()
    scripts = set(re.findall(r'^    "(\w+)": \("', main, re.MULTILINE))
    synopsis, listed = (re.findall(rf"^\.{macro} (\w+)\b", TOOL_PAGES["pfs-experiments"], re.MULTILINE)
                        for macro in ("Cm", "It Cm"))
    assert set(synopsis) >= set(listed) == scripts


def test_the_examples_are_shown_as_they_are_run(manual: str) -> None:
    shown = [line[6:] for line in shown_section(manual, "EXAMPLES").splitlines() if line.startswith("      ")]
    assert examples("pfs.1", "\n".join(shown)) == EXAMPLES["pfs.1"]


def test_pages_have_examples_and_tables() -> None:
    assert min(map(len, EXAMPLES.values())) > 3 and len(SLIPS) > 10 and len(OFFSETS) > 3


# What pages name

# A path, or the name of a file, in backquotes.
NAMED = re.compile(r"`((?:[\w.-]+/)+[\w.-]*|[\w-]+\.(?:antt|cpp|edit|hpp|md|py|rt))`")
# The pages also name modules without these endings.
MODULES = {".antt", ".edit", ".py", ".rt"}
# What a build, a report or a wheel makes, any crate's name, a page of the kit, and a folder of an example.
ELSEWHERE = re.compile(r"\bout(?:/|$)|\bNAME/|^START-HERE\.md$|/PROVED$|^(?:table|sizes|comparison|ranks)\.md$"
                       r"|^_gantt\.py$|^(?:instances|orders)/$|^\./$")
# A name of more than one word, or of a function that is called.
NAME = re.compile(r"[A-Za-z]\w*(?:_|[a-z][A-Z])\w*|[a-z]\w*(?=\(\))")
# Types of Julia and R that a page names.
FOREIGN = {"Csize_t", "M_MMAP_THRESHOLD", "M_TRIM_THRESHOLD", "R_xlen_t", "c_void"}
ENDINGS = {".antt", ".c", ".cpp", ".edit", ".h", ".hpp", ".html", ".in", ".py", ".rt", ".toml", ".txt", ".1", ""}


@functools.cache
def ends_of_paths() -> set[str]:
    """The ends of all paths of the repository."""
    there = set[str]()
    for path in files_below(TOP):
        parts = path.relative_to(TOP).parts
        named = [parts, *(parts[:count] for count in range(1, len(parts)))]
        if path.suffix in MODULES:
            named.append((*parts[:-1], path.stem))
        there |= {"/".join(name[first:]) for name in named for first in range(len(name))}
    return there


@functools.cache
def names_of_sources() -> set[str]:
    """All words of the sources and of their paths, except this file."""
    paths = [path for path in files_below(TOP) if path.suffix in ENDINGS]
    texts = [*map(str, paths), *(path.read_text() for path in paths if path.name != "test_pages.py")]
    return {word for text in texts for word in re.findall(r"[A-Za-z]\w*", text)}


@pytest.mark.parametrize("page", PAGES)
def test_what_this_page_names_exists(page: str) -> None:
    """The pages to which it links, paths, names between backquotes, which are in the sources, and goals of `make`, in
    backquotes or at the beginning of an example's line."""
    text = (TOP / page).read_text()
    linked = [name for name in re.findall(r"\]\(([^)#]+)\)", text) if "://" not in name]
    assert [name for name in linked if not (TOP / page).parent.joinpath(name).exists()] == []
    paths = [name for name in NAMED.findall(text) if not ELSEWHERE.search(name)]
    assert [name for name in paths if name.rstrip("/") not in ends_of_paths()] == []
    inline = re.sub(r"^```.*?^```$", "", text, flags=re.MULTILINE | re.DOTALL)
    names = {name for code in re.findall(r"`([^`\n]+)`", inline) for name in NAME.findall(code)}
    assert names - names_of_sources() - FOREIGN == set()
    phony = re.findall(r"^\.PHONY: (.*)", (TOP / "Makefile").read_text(), re.MULTILINE)
    goals = set(re.findall(r"(?:`|^(?:sudo )?)make (?!-)([a-z-]+)", text, re.MULTILINE))
    assert goals - {goal for line in phony for goal in line.split()} == set()
