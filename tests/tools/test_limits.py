"""Limits are constants of the crates. All else that states one states the same number: the header, the package, pages,
completions, the second implementations and the bench."""
import re

import pytest
from support.tools import TOP

SOURCES = ["pfs_base/src/limits.rt", "pfs_order/src/reading.rt", "pfs_layout/src/generator.rt"]


TEXT = "\n".join((TOP / "crates" / source).read_text() for source in SOURCES)
# The constants of the crates, the generator's greatest seed, the first byte that isn't read, and how many digits may
# follow the first one of a numeral of an order file.
LIMITS = {name: int(value.replace("_", ""))
          for name, value in re.findall(r"^(?:pub )?const (\w+): \w+ = ([\d_]+);$", TEXT, re.MULTILINE)}
LIMITS |= {"MOST_MAKESPAN": LIMITS["GREATEST_MAKESPAN"], "MOST_NOTE": LIMITS["GREATEST_NOTE"],
           "MOST_GENERATOR_SEED": LIMITS["MODULUS"] - 1, "BYTE_BEYOND": LIMITS["LONGEST_INPUT"] + 1,
           "MORE_OF_A_JOB": len(str(LIMITS["GREATEST_JOB"])) - 1,
           "MORE_OF_A_MAKESPAN": len(str(LIMITS["GREATEST_MAKESPAN"])) - 1}
# Where a constant has the name of the limit.
NAMED = {
    "lib/pfs.h": r"^#define PFS_(\w+) (?:UINT64_C\()?(\d+)",
    "python/src/pfs/binding/rounds.py": r"^(MOST_(?:ROUNDS|PASSES)): Final = (\d+)$",
    "tests/support/second_library.py": r"^(MOST_\w+) = (\d+)$",
    "tests/support/second_program.py": r"^(\w+) = (\d+)$",
    "crates/pfs_c/src/texts/writing.rt": r"^const (\w+): u64 = (\d+);$",
    "bench/plain.cpp": r"\b([A-Z]+_[A-Z]+) = (\d+)\b",
}
# Texts that tell a limit, with any white space and digits in any groups.
TOLD = {
    "docs/FORMATS.md": ["a numeral of 1 to {MOST_JOBS} without", "a numeral of 1 to {MOST_MACHINES} without",
                        "byte {BYTE_BEYOND} comes", "more than {LONGEST_ORDER_FILE} bytes",
                        "seed is not within 1 to {MOST_GENERATOR_SEED}",
                        "at most {MORE_OF_A_JOB} more digits; jobs", "at most {MORE_OF_A_MAKESPAN} more digits |"],
    "docs/COMMANDS.md": ["| jobs | 1 to {MOST_JOBS} |", "| machines | 1 to {MOST_MACHINES} |",
                         "| times | 0 to {LONGEST_TIME} |", "size line | 0 to {MOST_NOTE} |",
                         "| blocks | 1 to {MOST_BLOCKS} |", "wanted block | {LONGEST_INPUT} |",
                         "order file | {LONGEST_ORDER_FILE} |", "`generate` | 1 to {MOST_GENERATOR_SEED} |",
                         "`--block K` | 1 to {MOST_BLOCKS} |", "`--rounds R` | 0 to {MOST_ROUNDS} |",
                         "`--take D` | 1 to {MOST_JOBS}, and", "`--passes P` | 0 to {MOST_PASSES} |",
                         "`--seed S` | 0 to 18,446,744,073,709,551,615 |"],
    "share/pfs.1": ["jobs (1 to {MOST_JOBS})", "machines (1 to {MOST_MACHINES})", "(1 to {MOST_GENERATOR_SEED}),",
                    "not end within {LONGEST_INPUT} bytes.\n", "not within 1 to {MOST_GENERATOR_SEED}.",
                    "It has more than {LONGEST_ORDER_FILE} bytes",
                    "1 to {MOST_JOBS} jobs, 1 to {MOST_MACHINES} machines", "times of 0 to {LONGEST_TIME}.",
                    "seed and bounds of 0 to {MOST_NOTE}.",
                    "one of the first {MOST_BLOCKS}, and end within {LONGEST_INPUT} bytes",
                    "order file has at most {LONGEST_ORDER_FILE} bytes"],
    "lib/pfs.h": ["the seed is not 1 to {MOST_GENERATOR_SEED},"],
    "lib/pfs_text.c": ["the seed isn't from 1 to {MOST_GENERATOR_SEED}"],
    "python/src/pfs/commands/main.py": ['"{MOST_ROUNDS}", "", "4", "0"', "0 to {MOST_PASSES}, else "],
    "python/src/pfs/commands/gantt.py": ["MOST_MACHINES, LONGEST = {MOST_JOBS}, {MOST_MACHINES}"],
    "python/src/pfs/experiments/plan.py": [
        '"blocks": list_of(1, {MOST_BLOCKS}', '"takes": list_of(1, {MOST_JOBS}'],
    "python/src/pfs/files/instances.py": ["and {MOST_BLOCKS} at most", "seed : int 1 to {MOST_GENERATOR_SEED}."],
    "python/src/pfs/shops/instance.py": ["``first + rounds`` is at most {MOST_ROUNDS}.", "passes, 0 to {MOST_PASSES}.",
                                    "a row for each of 1 to {MOST_JOBS} jobs",
                                    "a column for each of 1 to {MOST_MACHINES} machines",
                                    "numbers of 0 to {LONGEST_TIME}."],
}


def plain(text: str) -> str:
    """A text with single blanks, and numbers without separators."""
    return re.sub(r"(?<=\d)[,_](?=\d)", "", re.sub(r"\s+", " ", text))


@pytest.mark.parametrize("file", NAMED)
def test_a_constant_has_the_number_of_the_crates(file: str) -> None:
    text = re.sub(r"(?<=\d)_(?=\d)", "", (TOP / file).read_text())
    found = {name: int(value) for name, value in re.findall(NAMED[file], text, re.MULTILINE)}
    named = found.keys() & LIMITS.keys()
    assert named and {name: found[name] for name in named} == {name: LIMITS[name] for name in named}


@pytest.mark.parametrize("file", TOLD)
def test_a_text_tells_the_number_of_the_crates(file: str) -> None:
    text = plain((TOP / file).read_text())
    told = [plain(each.format(**LIMITS)) for each in TOLD[file]]
    assert [each for each in told if not re.search(re.escape(each) + r"(?!\d)", text)] == []
