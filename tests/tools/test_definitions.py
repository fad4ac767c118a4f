"""What has to be believed is listed: the page that support/definitions.py prints has each definition that the contract
of a public function cites, and each on which one of these rests; and so is what is proved."""
import pathlib
import re
import subprocess

import pytest
from support.definitions import (WORD, Definition, all_definitions, exports_of, functions_page, libraries, page,
                                 reached)

def test_the_page_of_what_is_reached_has_each(top: pathlib.Path) -> None:
    rows = re.findall(r"^\| (\S+) \| \*{0,2}`([^`]+)`\*{0,2} \| .*\|$", page(top / "crates"), re.MULTILINE)
    assert sorted(rows) == sorted((each.file, each.name) for each in reached(top / "crates")) and len(rows) > 300


def test_what_is_private_is_not_reached(top: pathlib.Path) -> None:
    """No contract of a public function rests on a definition of a folder `specs/Private`."""
    assert {each for each in reached(top / "crates") if each.file.startswith("Private.")} == set()


# The definition of a ghost item, in its braces.
MEMBER = re.compile(r"^ *ghost \w+ ?[=:] \{([^}]*)\}", re.MULTILINE)
# Worked examples, and a definition that belongs next to those for NEH and rounds.
EXAMPLES = {"Examples", "Shops"}
NEXT_TO_SIMILAR = {"pass_cost_on"}


def test_what_only_proofs_and_private_functions_use_is_private(top: pathlib.Path) -> None:
    """Each definition outside `specs/Private` is reached, or is what a type is to contracts."""
    crates = top / "crates"
    members = {(path.relative_to(crates).parts[0], word) for path in crates.glob("*/src/**/*.rt")
               for inside in MEMBER.findall(path.read_text()) for word in WORD.findall(inside)}
    others = {each for each in set(all_definitions(crates)) - reached(crates)
              if not each.file.startswith("Private.") and each.file not in EXAMPLES
              and (each.crate, each.name) not in members and each.name not in NEXT_TO_SIMILAR}
    assert others == set()


# The list of what is proved

def promised(crate: pathlib.Path) -> set[str]:
    """The laws of a crate, and the functions that it exports."""
    sources = [path.read_text() for path in (crate / "src").rglob("*.rt") if path.name != "laws.rt"]
    defined = {name for text in sources for name in re.findall(r"^pub (?:extern \"C\" )?fn (\w+)", text, re.MULTILINE)}
    calls = {name for text in sources for name in re.findall(r'^pub extern "C" fn (\w+)', text, re.MULTILINE)}
    laws = crate / "src" / "laws.rt"
    return defined & exports_of(crate)[1] | calls | set(
        re.findall(r"^pub fn (\w+)", laws.read_text() if laws.exists() else "", re.MULTILINE))


def test_the_page_of_functions_has_each_that_a_crate_exports_with_its_comment(top: pathlib.Path) -> None:
    shown = functions_page(top / "crates")
    for crate in libraries(top / "crates"):
        rows = re.findall(r"^\| (\S+) \| `([\w:]+)` \| (.*) \|$",
                          shown.partition(f"\n## {crate.name}\n")[2].partition("\n## ")[0], re.MULTILINE)
        assert rows and promised(crate) - {name for _, name, _ in rows} == set()
        assert [name for _, name, comment in rows if not comment.strip()] == []
    assert "| device | `Source::failed` | Whether a read has failed. |" in shown
    assert "| seq | `Seq::at` | The job at a place. |" in shown and "`FromRead::read`" not in shown


def test_each_wrong_body_in_the_list_of_proofs_has_its_mutant_or_test(top: pathlib.Path) -> None:
    section = (top / "docs" / "PROOFS.md").read_text().partition("\n## Wrong bodies that must stay rejected\n")[2]
    rows = re.findall(r"^\| [^|]+ \| (`[^|]+`) \|$", section.partition("\n## ")[0], re.MULTILINE)
    named = [name for row in rows for name in re.findall("`([^`]+)`", row)]
    files = [top / name if name.startswith("tests/") else top / "crates" / f"{name}.edit" for name in named]
    assert len(rows) > 20 and [path for path in files if not path.is_file()] == []


# A crate over another one: what is reached of these

LOW = """-- twice the number
abbrev pub doubled : ℕ → ℕ
doubled n = n + n

-- not used by anything
abbrev pub tripled : ℕ → ℕ
tripled n = n + n + n
"""
HIGH = """use Rattle.low.specs.Sums.{doubled, tripled as thrice}
-- four of it, by doubled | and not by thrice
pub record Fourfold (n : ℕ) : Type 0 where
  pub number : ℕ
  pub same : number ≡ doubled (doubled n)
"""
CODE = """ghost use Rattle.high.specs.Times.{{Fourfold}};
ghost use Rattle.low.specs.Sums.{{tripled}};
{item}
    ensures four {{ Fourfold n (λ x. x) }}
{{
    n
}}
"""


@pytest.fixture
def crates(folder: pathlib.Path) -> pathlib.Path:
    """The public function `four` of the crate above cites its definition, and imports one of the crate below."""
    for crate, file, text, lib in (("low", "Sums", LOW, ""), ("high", "Times", HIGH, "pub mod inner;\n")):
        (folder / crate / "specs").mkdir(parents=True)
        (folder / crate / "specs" / f"{file}.antt").write_text(text)
        (folder / crate / "src").mkdir()
        (folder / crate / "src" / "lib.rt").write_text(lib)
    (folder / "high" / "src" / "inner.rt").write_text(CODE.format(item="pub fn four(n: u64) -> u64"))
    return folder


FOUR = Definition("high", "Times", "Fourfold")
TWO = Definition("low", "Sums", "doubled")


@pytest.mark.parametrize(("item", "shown", "wanted"), [
    ("pub fn four(n: u64) -> u64", "pub use inner::{four, other};", {FOUR, TWO}),
    ("pub fn four(n: u64) -> u64", "pub use inner::four;", {FOUR, TWO}),
    ("pub fn four(n: u64) -> u64", "pub mod inner;", {FOUR, TWO}),
    ('pub extern "C" fn four(n: u64) -> u64', "mod inner;", {FOUR, TWO}),
    ("pub fn four(n: u64) -> u64", "mod inner;", set()),
    ("fn four(n: u64) -> u64", "pub use inner::four;", set()),
    ("pub(crate) fn four(n: u64) -> u64", "pub mod inner;", set()),
    ("impl Four for Times {\n    fn four(&self) -> u64", "pub use inner::Four;", {FOUR, TWO}),
    ("impl Times {\n    pub fn four(&self) -> u64", "pub use inner::Times;", {FOUR, TWO}),
    ("impl Times {\n    fn four(&self) -> u64", "pub use inner::Other;", set()),
])
def test_what_is_reached(item: str, shown: str, wanted: set[Definition], crates: pathlib.Path) -> None:
    """By public functions alone, through the definitions that they cite; what is only imported isn't."""
    (crates / "high" / "src" / "lib.rt").write_text(f"mod inner;\n{shown}\n")
    (crates / "high" / "src" / "inner.rt").write_text(CODE.format(item=item))
    assert reached(crates) == wanted


def test_the_page_has_the_comments_of_the_definitions_and_marks_what_a_contract_cites(crates: pathlib.Path) -> None:
    assert re.findall(r"^\| (?!File|-).*$|^##.*$", page(crates), re.MULTILINE) \
        == ["## high", r"| Times | **`Fourfold`** | four of it, by doubled \| and not by thrice |",
            "## low", "| Sums | `doubled` | twice the number |"]


# What a crate may cite of another's proofs: the lemmas that it has published for crates above.
CITED = re.compile(r"Rattle\.(\w+)\.proofs\b(\.Published\.)?(?:\.?\w+)*")


def test_crates_cite_what_is_published(top: pathlib.Path) -> None:
    crates = {crate.name: crate for crate in (top / "crates").iterdir()}
    hidden, published = list[str](), 0
    for name, crate in crates.items():
        for path in (path for folder in ("src", "specs", "proofs") for path in (crate / folder).rglob("*.*t*")):
            for number, line in enumerate(path.read_text().splitlines(), 1):
                for cited in CITED.finditer(line):
                    if cited[1] in crates.keys() - {name}:
                        published += cited[2] is not None
                        hidden += [f"{path}:{number}: {cited[0]}"] if cited[2] is None else []
    assert hidden == [] and published > 100


def test_proofs_names_the_installed_kit(top: pathlib.Path) -> None:
    """It is one of those that PROOFS.md names."""
    installed = subprocess.run(["rt", "version"], capture_output=True, text=True, check=True).stdout.strip()
    named = re.findall(r"`(rattle-kit-[^`]*)`", (top / "docs" / "PROOFS.md").read_text())
    assert installed in named, "PROOFS.md doesn't name the kit of `rt version`: see what that proves, then name it"
    assert len({name.partition(" logic ")[2] for name in named}) == 1, "these kits prove by different logics"
