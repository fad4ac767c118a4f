"""Command lines over the worked files and what the program prints for each, and texts of instance files and order files
with what it prints for these."""
import re

from support.files import BEST, BEST2, THREE_JOBS, THREE_JOBS_BY_JOB, TWO_BLOCKS, USAGE, WITH_NOTES, generated, taillard
from support.program import Ran

ELEVEN = b"makespan 11\n"
VALID = b"valid\nmakespan 10\nbound 10\noptimal\n"
NUMBERED = b"valid\nmakespan 11\nbound 10\n"
TIME_TABLE = b"table 3 2\n2 0 2 2 7\n1 2 5 7 9\n3 5 9 9 10\nmakespan 10\n"
SEARCHED = b"order2 3 2\n2 1 3\nmakespan 10\n"
WRONG_MAKESPAN = b"wrong makespan\nstated 9\ncomputed 10\n"
WRONG_SIZE = b"wrong size\norder 2\njobs 3\n"
WRONG_MACHINES = b"wrong machines\norder 3\nmachines 2\n"

# Lines, and what each prints.
PRINTED: dict[str, bytes] = {
    "value --layout taillard three": ELEVEN,
    "value three --block=1 --layout=taillard": ELEVEN,
    "value --layout orlib --block +2 two_blocks.or": ELEVEN,
    "value --layout orlib --block 002 two_blocks.or": ELEVEN,
    "value --layout orlib -- two_blocks.or": b"makespan 7\n",
    "solve --layout taillard three": SEARCHED,
    "solve --layout orlib three.or": SEARCHED,
    "solve --layout taillard --cells three": SEARCHED + b"cells 36\n",
    "solve --layout taillard --rounds 5 --take 2 --seed 7 --cells three": SEARCHED + b"cells 196\n",
    "solve --layout taillard --rounds 5 --take 2 --seed 7 --passes 1 --cells three": SEARCHED + b"cells 496\n",
    "solve --layout taillard --passes 1 --cells three": SEARCHED + b"cells 36\n",
    "solve three --layout=taillard --cells --rounds=5": SEARCHED + b"cells 216\n",
    "solve --layout taillard --cells ones": b"order2 3 2\n3 2 1\nmakespan 4\ncells 36\n",
    "solve --layout taillard --cells three_machines": b"order2 3 3\n3 2 1\nmakespan 7\ncells 54\n",
    "solve --layout taillard --cells one": b"order2 1 1\n1\nmakespan 0\ncells 2\n",
    "solve --layout taillard --rounds 1 --take 1 --cells one": b"order2 1 1\n1\nmakespan 0\ncells 4\n",
    "solve --layout taillard --cells eight": b"order2 8 3\n3 1 5 8 4 2 6 7\nmakespan 564\ncells 384\n",
    "solve --layout taillard --rounds 5 --take 2 --seed 7 --passes 1 --cells eight":
        b"order2 8 3\n3 5 8 1 4 2 7 6\nmakespan 564\ncells 4824\n",
    # Of places with the same makespan the first is the best.
    "solve --layout taillard --cells sixteen":
        b"order2 16 1\n16 15 14 13 12 11 10 9 8 7 6 5 4 3 2 1\nmakespan 65536\ncells 512\n",
    "check --layout taillard three best": VALID,
    "check --layout taillard three numbered": NUMBERED,
    "check --layout orlib --block 2 two_blocks.or best2": VALID,
    "check --layout taillard ones ones_order": b"valid\nmakespan 4\nbound 4\noptimal\n",
    "table --layout taillard three best": TIME_TABLE,
    "table --layout orlib three.or wrong": TIME_TABLE,
    "table --layout taillard three best2": TIME_TABLE,
    "convert --from taillard --to orlib three": THREE_JOBS_BY_JOB,
    "convert --to taillard --from orlib three.or": THREE_JOBS,
    "convert --from taillard --to taillard three": THREE_JOBS,
    "convert --from orlib --to orlib --block 2 two_blocks.or": THREE_JOBS_BY_JOB,
    "convert --from taillard --to taillard notes": WITH_NOTES,
    "convert --from taillard --to taillard scattered": taillard(b"3 2 7 11 10", b"3 2 4", b"2 5 1"),
    "convert --from taillard --to orlib notes": b"flow shop instance\n1 1\n0 5\n",
    # The times of the first two are published.
    "generate 5 1 873654221": taillard(b"5 1 873654221 0 0", b"54 83 15 71 77"),
    "generate -- +2 02 873654221": taillard(b"2 2 873654221 0 0", b"54 83", b"15 71"),
    "generate 1 1 1": taillard(b"1 1 1 0 0", b"1"),
    "generate 1 1 2147483646": taillard(b"1 1 2147483646 0 0", b"99"),
    "generate 500 20 873654221": generated(500, 20, 873654221),
    "generate 2001 1 1 --": generated(2001, 1, 1),
}

# The same of lines that end with status 1.
WRONG: dict[str, bytes] = {
    "check --layout taillard three wrong": WRONG_MAKESPAN,
    "check --layout taillard three two": WRONG_SIZE,
    "check --layout taillard three for_three": WRONG_MACHINES,
    "check --layout taillard three two_for_three": WRONG_SIZE,
    "table --layout taillard three two": WRONG_SIZE,
    "table --layout taillard three for_three": WRONG_MACHINES,
    "table --layout taillard three two_for_three": WRONG_SIZE,
}

# Faults with their statuses, and lines that report each. `folder` is a folder, `missing` doesn't exist, and two blanks
# have an empty word between them.
REFUSED: dict[tuple[str, int], list[str]] = {
    ("no block, found 2", 2): ["value --layout orlib --block 3 two_blocks.or"],
    ("no block, found 0", 2): ["value --layout taillard empty", "convert --from taillard --to orlib empty"],
    ("mixed line at 118", 2): ["value --layout taillard mixed", "solve --layout taillard --take 4 mixed",
                               "check --layout taillard mixed folder"],
    ("extra number at 121", 2): ["value --layout taillard extra"],
    ("time out of range at 119", 2): ["value --layout taillard too_long_time"],
    ("truncated after 5 times", 2): ["value --layout taillard cut"],
    ("truncated after 0 times", 2): ["value --layout taillard greatest_sizes"],
    ("size line 1 has a wrong count", 2): ["value --layout taillard count"],
    ("size line 2 has a wrong count", 2): ["convert --from orlib --to taillard three"],
    ("size line 1 is out of range", 2): ["value --layout taillard sizes"],
    ("wrong machine number at 10", 2): ["value --layout orlib machine.or"],
    ("input too long", 2): ["value --layout taillard /dev/zero"],
    ("order file syntax at 0", 2): ["check --layout taillard three empty"],
    ("order file job repeated at place 2", 2): ["check --layout taillard three repeated",
                                                "table --layout taillard three repeated"],
    ("order file job out of range at place 3", 2): ["check --layout taillard three range"],
    ("order file too long", 2): ["check --layout taillard three long"],
    ("seed out of range", 2): ["generate 1 1 0", "generate 1 1 2147483647", "generate 1 1 18446744073709551615"],
    ("take 4 exceeds 3 jobs", 3): ["solve --layout taillard --take 4 three",
                                   "solve --layout taillard --take 4 --rounds 1000000 three"],
    ("take 5000 exceeds 3 jobs", 3): ["solve --layout taillard --take 5000 three"],
    ("cannot open", 4): [
        "value --layout taillard missing", "value --layout taillard -- ", "value --layout taillard ",
        "value --layout taillard -", "value --layout orlib help", "value --layout orlib é",
        "value --layout orlib -- --block", "solve --layout taillard missing", "check --layout taillard mixed missing",
        "check --layout taillard missing best", "table --layout taillard three -- --",
        "convert --from taillard --to orlib missing"],
    ("read failed", 4): ["value --layout taillard folder", "solve --layout taillard folder"],
    ("order file read failed", 4): ["check --layout taillard three folder"],
}

# Lines that no command takes.
UNKNOWN = [
    # another command
    "help", "-h", "--help", "Value", " value", "pfs value --layout orlib three",
    # a word missing or too many
    "value", "value three", "value --layout orlib", "value --layout taillard three three",
    "value --layout taillard three --block", "value -- --layout orlib three", "solve three", "solve --layout orlib",
    "check --layout taillard three", "table --layout taillard three best best", "convert --from orlib three",
    "generate 1 1", "generate 1 1 1 1",
    # another option
    "value --lay taillard three", "value --layout taillard --rounds 1 three", "value -h", "value --help",
    "value --version", "value --layout taillard -x", "solve --layout taillard --cells=true three",
    "solve --layout taillard --cells true three", "solve --layout taillard --turns 1 three",
    "convert --layout taillard three",
    # an option repeated
    "value --layout taillard --layout taillard three", "value --layout taillard --block 1 --block 2 three",
    "solve --layout taillard --take 3 --take 3 three", "solve --layout taillard --cells --cells three",
    "solve --layout taillard --passes 1 --passes 1 three",
    # another layout
    "value --layout x three", "value --layout TAILLARD three", "value --layout  three", "solve --layout x three",
    # another number
    "value --layout taillard --block 0 three", "value --layout taillard --block 1001 three",
    "value --layout taillard --block -1 three", "value --layout taillard --block  three",
    "solve --layout taillard --block 1001 three", "solve --layout taillard --rounds 1000001 three",
    "solve --layout taillard --rounds=-0 three", "solve --layout taillard --take 0 three",
    "solve --layout taillard --take 5001 three", "solve --layout taillard --seed 18446744073709551616 three",
    "solve --layout taillard --seed 0x1 three", "solve --layout taillard --passes 101 three",
    "solve --layout taillard --passes=-1 three", "generate 0 1 1", "generate 5001 1 1", "generate 1 201 1",
    "generate 1 1 -1", "generate 1 1 1.0", "generate 1 1 18446744073709551616",
]


def refused(got: str, status: int = 4) -> Ran:
    """A run that prints nothing and reports this fault."""
    return Ran(b"", f"pfs: {got}\n".encode(), status)


def unwritten(count: int) -> Ran:
    """A run whose write failed after this many bytes."""
    return refused(f"write failed after {count} bytes")


# What each line prints on standard output and on standard error, and its exit status.
ANSWERS: dict[str, Ran] = {
    **{line: Ran(text, b"", 0) for line, text in PRINTED.items()},
    **{line: Ran(text, b"", 1) for line, text in WRONG.items()},
    **{line: refused(*fault) for fault, lines in REFUSED.items() for line in lines},
    **dict.fromkeys(UNKNOWN, Ran(b"", USAGE, 3)),
}


def first_line(stdout: bytes, stderr: bytes) -> str:
    """The first line of what is reported or else printed."""
    return (stderr or stdout).partition(b"\n")[0].decode(errors="replace").removeprefix("pfs: ")


def kind_of(stdout: bytes, stderr: bytes) -> str:
    """This line with X for numbers."""
    return re.sub("[0-9]+", "X", first_line(stdout, stderr))


# Each kind of result with one that is of it. A write fails where the output is full, memory where there is little.
KINDS = {kind_of(*answer[:2]): answer for answer in [*reversed(ANSWERS.values()), unwritten(0), refused("no memory")]}
# A line for each command and kind, in the place of all that have it.
SHORT = list({(line.split(" ")[0], kind_of(*answer[:2])): line for line, answer in ANSWERS.items()}.values())

# The lines that print something on standard output.
PRINTING = [*PRINTED, *WRONG]

# For each command its first line, which other tests vary: it succeeds, over the instance `three` and, if the command
# reads an order, the order file `best`.
EACH = {line.split(" ")[0]: line for line in reversed(PRINTING)}

VALUE, SOLVE, CHECK = EACH["value"], EACH["solve"], EACH["check"]

# Those over an instance, and those over an order file too.
WITH_INSTANCE = [line for line in EACH.values() if "three" in line.split(" ")]
WITH_ORDER = [line for line in WITH_INSTANCE if "best" in line.split(" ")]

# Texts

HEAD, LAST = THREE_JOBS[:109], THREE_JOBS[:115]
# Files in Taillard's layout, and what `value` prints.
INSTANCES = [
    (THREE_JOBS.replace(b"\n", b"\r\n"), "makespan 11"),
    (b"5x " + THREE_JOBS, "makespan 11"),
    (HEAD + b"3 2\n4\n2 5 1", "makespan 11"),
    (HEAD + b"0" * 60 + b"3 2 4\n2 5 1\n", "makespan 11"),
    (THREE_JOBS[:90] + b"3 2 4\n2 5 1\n", "makespan 11"),
    (THREE_JOBS.replace(b"3 2 0", b"03 2 0") + b"what follows 7 8\n", "makespan 11"),
    (LAST + b"2 5 1000001\n", "makespan 1000011"),
    (LAST + b"2 5 1000000000\n", "makespan 1000000010"),
    (LAST + b"2 5 1000000001\n", "time out of range at 119"),
    (LAST + b"2 5 9999999999999999999999999999999999999999\n", "time out of range at 119"),
    (LAST + b"x 2 5 1\n", "mixed line at 117"),
    (LAST + b"2 5 1 7x\n", "mixed line at 122"),
    (THREE_JOBS[:120] + b"\xff\n", "mixed line at 120"),
    (b"3 2 0 0\n", "size line 1 has a wrong count"),
    (b"5001 1\n", "size line 1 has a wrong count"),
    (b"2001 1 0 0 0", "truncated after 0 times"),
    (b"1 1 4294967296 0 0", "size line 1 is out of range"),
    (b"3 2 0 0 9999999999999999999999999999999999999999\n", "size line 1 is out of range"),
]

# A line over a file, its text, and what is printed for its first bytes: up to how many of them.
FIRST_BYTES = [
    ("value --layout taillard file", THREE_JOBS, [
        (80, "no block, found 0"), (88, "size line 2 has a wrong count"), (109, "truncated after 0 times"),
        *((109 + 2 * have, f"truncated after {have} times") for have in range(1, 6)), (121, "makespan 11")]),
    ("value --layout orlib --block 2 file", TWO_BLOCKS, [
        (29, "no block, found 0"), (31, "size line 5 has a wrong count"), (35, "truncated after 0 times"),
        (48, "no block, found 1"), (50, "size line 9 has a wrong count"),
        *((54 + 4 * have, f"truncated after {have} times") for have in range(6)), (80, "makespan 11")]),
    *(("check --layout taillard three file", text, [
        *((end, f"order file syntax at {end}") for end in range(len(text))), (len(text), "valid")])
      for text in (BEST, BEST2)),
]

# Order files of the instance `three`, and the first line of what `check` prints.
ORDERS = [
    (b"order 3\n1 2 3\nmakespan 11\n", "valid"),
    (b"order 3\n1 2 3\nmakespan 999999999999999999\n", "wrong makespan"),
    (b"order2 3 2\n1 2 3\nmakespan 11\n", "valid"),
    (b"order2 3 2\n2 1 3\nmakespan 9\n", "wrong makespan"),
    (b"order2 3 200\n1 2 3\nmakespan 9\n", "wrong machines"),
    (b"order 3\n2 0 3\nmakespan 1\n", "order file job out of range at place 2"),
    (b"order 1\n999999999\nmakespan 1\n", "order file job out of range at place 1"),
    (b"order 3\n1 1 4\nmakespan 1\n", "order file job repeated at place 2"),
    (b"order 3\n4 1 1\nmakespan 1\n", "order file job out of range at place 1"),
    (b"order2 3 3\n2 2 3\nmakespan 9\n", "order file job repeated at place 2"),
    (b"x" * 65_536, "order file syntax at 0"),
    (b"x" * 65_537, "order file too long"),
    # For each other text the length of the longest prefix with which an order file begins.
    *((text, f"order file syntax at {length}") for text, length in [
        (b"order 0\n", 6),
        (b"order 03\n2 1 3\nmakespan 10\n", 6),
        (b"order 5001\n", 9),
        (b"order 2001\n", 11),
        (b"order 3\r\n2 1 3\nmakespan 10\n", 7),
        (b"order 3\n2  1", 10),
        (b"order 3\n2 1\nmakespan 10\n", 11),
        (b"order 3\n2 1 3 4\nmakespan 10\n", 13),
        (b"order 3\n00 1 2\nmakespan 10\n", 9),
        (b"order 1\n1234567890\nmakespan 1\n", 17),
        (b"order 1\n1\nmakespan 1234567890123456789\n", 37),
        (b"order 1\n1\nmakespan 01\n", 20),
        (b"order 3\n2 1 3\nmakespan 10\n\n", 26),
        (b"order 3\n1 1 4\nmakespan x\n", 23),
        (b"order 3 2\n2 1 3\nmakespan 10\n", 7),
        (b"order3 3\n2 1 3\nmakespan 10\n", 5),
        (b"order22 3 2\n2 1 3\nmakespan 10\n", 6),
        (b"order2\n2 1 3\nmakespan 10\n", 6),
        (b"order2 3\n2 1 3\nmakespan 10\n", 8),
        (b"order2 03 2\n2 1 3\nmakespan 10\n", 7),
        (b"order2 0 2\n", 7),
        (b"order2 5001 2\n", 10),
        (b"order2 3 02\n2 1 3\nmakespan 10\n", 9),
        (b"order2 3 0\n2 1 3\nmakespan 10\n", 9),
        (b"order2 3 201\n2 1 3\nmakespan 10\n", 11),
        (b"order2 3 2 \n2 1 3\nmakespan 10\n", 10),
        (b"order2 3  2\n2 1 3\nmakespan 10\n", 9),
        (b"order2 3 2\n2 1 3\nmakespan 10\n\n", 29),
    ]),
]

# Each text with the line over it and the first line that is printed.
TEXTS = [
    *(("value --layout taillard file", *case) for case in INSTANCES),
    *(("check --layout taillard three file", *case) for case in ORDERS),
    *((line, text[:length], next(answer for most, answer in answers if length <= most))
      for line, text, answers in FIRST_BYTES for length in range(len(text) + 1)),
]
