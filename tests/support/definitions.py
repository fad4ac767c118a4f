#!/usr/bin/env python3
"""The definitions of the crates, and which of them the contracts of public functions rest on: those that such a
contract cites, and those that these are written with. Run alone it prints a page that lists them, or one of the public
functions and laws.

usage: tests/support/definitions.py [functions]"""
import pathlib
import re
import sys
from collections.abc import Iterator
from typing import NamedTuple

TOP = pathlib.Path(__file__).resolve().parent.parent.parent

# The crates of the tests have no definitions that anybody must believe.
OF_TESTS = ("pfs_calls", "pfs_tests")
IMPORT = re.compile(r"^(?:ghost )?use Rattle\.(\w+)\.specs\.([\w.]+)\.\{([^}]*)\}", re.MULTILINE)
HEAD = re.compile(r"^(?:abbrev|unfoldable|unfolding|pub|record|data|inductive)\b(?: (?:pub|record|data))* (\w+)")
WORD = re.compile(r"[A-Za-z_]\w*")


class Definition(NamedTuple):
    """A name of a crate's specs, and the file there that has it: `Private.Step` is Step.antt in the folder Private."""
    crate: str
    file: str
    name: str


Imports = dict[str, Definition]


def imports_of(text: str) -> Imports:
    """What each imported name of a file stands for."""
    found = {}
    for crate, file, names in IMPORT.findall(text):
        for each in names.split(","):
            name, _, other = each.strip().partition(" as ")
            found[other or name] = Definition(crate, file, name)
    return found


def without_comments(text: str) -> str:
    return re.sub(r"(?:--|//).*$", "", text, flags=re.MULTILINE)


def definitions_of(path: pathlib.Path) -> dict[str, str]:
    """What each definition of a file is written with: the lines from its head to the next one's."""
    found: dict[str, str] = {}
    name = ""
    for line in without_comments(path.read_text()).splitlines():
        head = HEAD.match(line)
        if head and not line.startswith(("pub mod ", "pub use ")):
            name = head[1]
        elif line.startswith(("use ", "pub mod ", "pub use ")):
            name = ""
        if name:
            found[name] = found.get(name, "") + line + "\n"
    return found


def all_definitions(crates: pathlib.Path) -> dict[Definition, set[Definition]]:
    """Each definition, and those that it is written with."""
    written = {}
    for path in sorted(crates.glob("*/specs/**/*.antt")):
        crate, _, *folders = path.relative_to(crates).with_suffix("").parts
        file, own = ".".join(folders), definitions_of(path)
        names = imports_of(path.read_text()) | {name: Definition(crate, file, name) for name in own}
        for name, text in own.items():
            written[Definition(crate, file, name)] = {names[word] for word in WORD.findall(text) if word in names}
    return {each: {other for other in others if other in written and other != each} for each, others in written.items()}


# Contracts of public functions

def libraries(crates: pathlib.Path) -> list[pathlib.Path]:
    return [crate for crate in sorted(crates.iterdir())
            if (crate / "src" / "lib.rt").exists() and crate.name not in OF_TESTS]


def exports_of(crate: pathlib.Path) -> tuple[list[str], set[str]]:
    """The public modules of a crate, and the names that it exports from others."""
    text = (crate / "src" / "lib.rt").read_text()
    lists = re.findall(r"^pub use (?!pfs_)[\w:]*::(\{[^}]*\}|\w+);", text, re.MULTILINE)
    return re.findall(r"^pub mod (\w+);", text, re.MULTILINE), set(WORD.findall(" ".join(lists)))


def is_in(path: pathlib.Path, modules: list[str]) -> bool:
    """Whether a file below a crate's src belongs to one of these modules."""
    return path.parts[path.parts.index("src") + 1].removesuffix(".rt") in modules


def public_parts(path: pathlib.Path, whole: bool, names: set[str]) -> list[str]:
    """The parts of a file that users see: public functions, types and traits, and what is implemented of them."""
    parts = re.split(r"^(?=(?:pub |unsafe |extern \S+ )*(?:fn|impl|trait|struct|enum|const|mod|use|ghost use)\b)",
                     without_comments(path.read_text()), flags=re.MULTILINE)
    found = []
    for part in parts:
        head = part.split("{", 1)[0]
        if head.startswith("impl"):
            # The bounds of the parameters may name a public trait, where the type is private.
            shown = whole or bool(names & set(WORD.findall(re.sub(r"^impl<[^<>]*>", "", head))))
        else:
            name = re.match(r"pub (extern \"C\" )?(?:fn|trait|struct|enum) (\w+)", head)
            # C sees a function of any module
            shown = name is not None and bool(whole or name[1] or name[2] in names)
        if shown and not re.match(r"(?:ghost )?use\b", part):
            found.append(part)
    return found


def clauses(part: str) -> str:
    """The contracts of the functions of a part, but for private functions."""
    shown = []
    for each in re.split(r"^(?= *(?:pub\S* )?(?:extern \S+ )?fn )", part, flags=re.MULTILINE):
        in_trait = re.match(r"pub trait|impl\b[^{]* for ", part) and not re.match(r" *pub\(", each)
        if in_trait or re.match(r" *pub (?:extern \S+ )?(?:fn|trait|struct|enum)\b", each):
            shown += re.findall(r"\b(?:requires|ensures)\b[^{]*(\{(?:[^{}]|\{[^{}]*\})*\})", each)
    return "\n".join(shown)


def cited(crates: pathlib.Path) -> set[Definition]:
    """The definitions that contracts of public functions cite."""
    found = set()
    for crate in libraries(crates):
        modules, names = exports_of(crate)
        for path in crate.glob("src/**/*.rt"):
            imports = imports_of(path.read_text())
            for part in public_parts(path, is_in(path, modules), names):
                found |= {imports[word] for word in WORD.findall(clauses(part)) if word in imports}
    return found


def reached(crates: pathlib.Path) -> set[Definition]:
    """These, and all that they are written with."""
    written = all_definitions(crates)
    left, found = [each for each in cited(crates) if each in written], set[Definition]()
    while left:
        each = left.pop()
        if each not in found:
            found.add(each)
            left += written[each]
    return found


# The page

HEADING = """# Definitions

A proof is worth as much as the definitions in its statement. This is what a reader has to believe: in bold each \
definition that the contract of a public function cites, and below them each that these are written with, down to std \
and the kit's crates. The comments are those of the sources, `crates/CRATE/specs/FILE.antt`. Jobs, machines, rows and \
places count from 0; only the places in an order file's faults count from 1, as blocks and lines of files do.
"""


def comments_of(path: pathlib.Path) -> dict[str, str]:
    """The comment above each definition of a file, on one line."""
    found: dict[str, str] = {}
    above: list[str] = []
    for line in path.read_text().splitlines():
        head = HEAD.match(line)
        if head:
            found.setdefault(head[1], " ".join(above).replace("|", "\\|"))
        above = [*above, line.removeprefix("--").strip()] if line.startswith("--") else []
    return found


def page(crates: pathlib.Path) -> str:
    lines = [HEADING]
    found, first = sorted(reached(crates)), cited(crates)
    for crate in sorted({each.crate for each in found}):
        lines += [f"\n## {crate}\n\n| File | Name | What it says |\n|---|---|---|\n"]
        for file in sorted({each.file for each in found if each.crate == crate}):
            comments = comments_of(crates / crate / "specs" / f"{file.replace('.', '/')}.antt")
            here = [each for each in found if (each.crate, each.file) == (crate, file)]
            for each in sorted(here, key=lambda each: (each not in first, each.name)):
                name = f"**`{each.name}`**" if each in first else f"`{each.name}`"
                lines.append(f"| {file} | {name} | {comments.get(each.name, '')} |\n")
    return "".join(lines)


# A function's comment, and its head or that of the type or trait that has it
ITEM = re.compile(r"^((?: *///.*\n)*)(?: *#\[.*\n)*(impl\b.*|pub trait .*|(?: {4})?(?:pub )?(?:extern \"C\" )?fn \w+)",
                  re.MULTILINE)
FUNCTIONS = """# Public functions and laws

What each does, as its comment in the sources says (`crates/CRATE/src/FILE.rt`). Each is safe, returns on every input \
that meets its conditions, and meets its contract, which also says what stays unchanged and when each error comes. A \
law is a function whose contract is a statement about the [definitions](DEFINITIONS.md).
"""


def functions_of(crate: pathlib.Path) -> Iterator[tuple[str, str, str]]:
    """The file, the name and the comment of each public function of a crate."""
    modules, names = exports_of(crate)
    for path in sorted(crate.glob("src/**/*.rt")):
        file, owner, is_trait = str(path.relative_to(crate / "src").with_suffix("")), "", False
        for above, head in ITEM.findall(path.read_text()):
            if head.startswith(("impl", "pub trait")):
                found = re.match(r"(?:impl(?:<[^{]*?>)?|pub trait) (\w+)(?!.* for )", head)
                owner, is_trait = found[1] if found else "", head.startswith("pub trait")
                continue
            is_member, name = head.startswith(" "), head.rpartition(" ")[2]
            if not is_member or is_trait or "pub fn" in head:
                shown = {owner} if is_member else {name} if "pub" in head else set()
                if "extern" in head or shown - {""} and (is_in(path, modules) or shown & names):
                    comment = " ".join(line.strip().removeprefix("///").strip() for line in above.splitlines())
                    plain = re.sub(r"\[(`[^`]*`)\]\([^)]*\)", r"\1", comment).replace("|", "\\|")
                    yield file, f"{owner}::{name}" if is_member else name, plain


def functions_page(crates: pathlib.Path) -> str:
    lines = [FUNCTIONS]
    for crate in libraries(crates):
        lines += [f"\n## {crate.name}\n\n| File | Name | What it does |\n|---|---|---|\n"]
        lines += [f"| {file} | `{name}` | {comment} |\n" for file, name, comment in functions_of(crate)]
    return "".join(lines)


if __name__ == "__main__":
    print((functions_page if sys.argv[1:] == ["functions"] else page)(TOP / "crates"), end="")
