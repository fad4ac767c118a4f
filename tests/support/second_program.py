"""A second program that does what `pfs` does: for the same arguments, files and standard input it has the same output,
errors and exit status. It is written from docs/COMMANDS.md and docs/FORMATS.md and shares no method with the first: it
validates whole lines of whole texts, checks for each prefix of an order file whether a text of the grammar begins with
it, and evaluates the whole order for each place of an insertion. So it is for small instances only. Tests call the
function `answer`, or the functions below it."""
import itertools
import re
from collections.abc import Callable, Iterable, Iterator, Mapping, Sequence
from typing import Any

LONGEST_INPUT = 67_108_864
LONGEST_ORDER_FILE = 65_536
MOST_JOBS = 5_000
MOST_MACHINES = 200
LONGEST_TIME = 1_000_000_000
MOST_NOTE = 4_294_967_295
# The greatest seed of Taillard's generator.
MOST_GENERATOR_SEED = 2_147_483_646

USAGE = b"""pfs: usage
pfs value --layout L [--block K] FILE
pfs solve --layout L [--block K] [--rounds R] [--take D] [--seed S] [--passes P] [--cells] FILE
pfs check --layout L [--block K] FILE ORDER
pfs table --layout L [--block K] FILE ORDER
pfs convert --from L --to L [--block K] FILE
pfs generate N M SEED
"""

# The bytes of a file, or UNREADABLE for a file that can be opened but not read.
Contents = bytes | None
UNREADABLE = None

DIGITS = re.compile(rb"[0-9]+")
DIGIT = re.compile(rb"[0-9]")
WORD_BYTE = re.compile(rb"[^0-9 \t\r]")


class Stop(Exception):
    """The program ends: with this text on standard error and this exit status."""

    def __init__(self, got: bytes, status: int) -> None:
        super().__init__(got)
        self.reported = got
        self.status = status


def refused(line: bytes, *numbers: int) -> Stop:
    return Stop(b"pfs: " + line % numbers + b"\n", 2)


# Command lines

LAYOUT = {b"taillard": b"taillard", b"orlib": b"orlib"}.get


def number_between(least: int, most: int) -> Callable[[bytes], int | None]:
    """A reader of numbers in this range: digits, perhaps with a plus or leading zeros in front."""

    def read(word: bytes) -> int | None:
        if not re.fullmatch(rb"\+?[0-9]+", word):
            return None
        value = value_of(word.lstrip(b"+"))
        return value if least <= value <= most else None

    return read


# The options of a command by their names, each with the reader of its value and its default. A flag has no value.
Options = Mapping[bytes, tuple[Callable[[bytes], Any] | None, Any]]

NEEDED = object()
BLOCK = (number_between(1, 1_000), 1)
ON_ONE: Options = {b"--layout": (LAYOUT, NEEDED), b"--block": BLOCK}

# For each command its options, and how its other words are read.
COMMANDS: dict[bytes, tuple[Options, list[Callable[[bytes], Any]]]] = {
    b"value": (ON_ONE, [bytes]),
    b"solve": (dict(ON_ONE) | {
        b"--rounds": (number_between(0, 1_000_000), 0),
        b"--take": (number_between(1, MOST_JOBS), None),
        b"--seed": (number_between(0, 2**64 - 1), 0),
        b"--passes": (number_between(0, 100), 0),
        b"--cells": (None, False),
    }, [bytes]),
    b"check": (ON_ONE, [bytes, bytes]),
    b"table": (ON_ONE, [bytes, bytes]),
    b"convert": ({b"--from": (LAYOUT, NEEDED), b"--to": (LAYOUT, NEEDED), b"--block": BLOCK}, [bytes]),
    b"generate": ({}, [number_between(1, MOST_JOBS), number_between(1, MOST_MACHINES), number_between(0, 2**64 - 1)]),
}


def asked_for(words: Sequence[bytes]) -> tuple[bytes, dict[bytes, Any], list[Any]]:
    """The command that takes these words, its options by name, and its other words."""
    usage = Stop(USAGE, 3)
    if words[0] not in COMMANDS or not all(word.decode(errors="replace").encode() == word for word in words):
        raise usage
    options, others = COMMANDS[words[0]]
    given, rest = sorted_out(options, words[1:], usage)
    if len(rest) != len(others):
        raise usage
    values = [read(word) for read, word in zip(others, rest)]
    for name, (read, default) in options.items():
        given.setdefault(name, default)
    if None in values or NEEDED in given.values():
        raise usage
    return words[0], given, values


def sorted_out(options: Options, words: Sequence[bytes], usage: Stop) -> tuple[dict[bytes, Any], list[bytes]]:
    """The values of the options that are given, and the other words."""
    given: dict[bytes, Any] = {}
    rest: list[bytes] = []
    words = list(words)
    while words:
        word = words.pop(0)
        if word == b"--":
            return given, rest + words
        if word == b"-" or not word.startswith(b"-"):
            rest.append(word)
            continue
        name, equals, value = word.partition(b"=")
        if name not in options or name in given:
            raise usage
        read = options[name][0]
        if read is not None and not equals:
            value = words.pop(0) if words else b""
        given[name] = not equals if read is None else read(value)
        if given[name] is None or given[name] is False:
            raise usage
    return given, rest


# Instance files

class Instance:
    """A shop: `times[machine][job]`, both counted from 0, and the notes of its size line."""

    def __init__(self, jobs: int, machines: int, notes: list[int]) -> None:
        self.jobs = jobs
        self.machines = machines
        self.notes = notes
        self.times = [[0] * jobs for _ in range(machines)]

    def total(self, job: int) -> int:
        return sum(row[job] for row in self.times)


def instance_of(times: Sequence[Sequence[int]]) -> Instance:
    """The instance of these times, job by job."""
    shop = Instance(len(times), len(times[0]), [0, 0, 0])
    shop.times = [list(row) for row in zip(*times)]
    return shop


class Body:
    """The numbers of a block that have been read, of those that are due."""

    def __init__(self, layout: bytes, shop: Instance) -> None:
        self.layout = layout
        self.shop = shop
        self.size = shop.jobs * shop.machines
        self.count = 0

    def due(self) -> int:
        return self.size * (2 if self.layout == b"orlib" else 1)

    def times(self) -> int:
        """The number of times among the numbers that were read."""
        return self.count // 2 if self.layout == b"orlib" else self.count

    def take(self, value: int, offset: int) -> None:
        """Validate the next number, whose first digit is at this offset."""
        if self.count == self.due():
            raise refused(b"extra number at %d", offset)
        if self.layout == b"orlib":
            job, machine = divmod(self.count // 2, self.shop.machines)
        else:
            machine, job = divmod(self.count, self.shop.jobs)
        if self.layout == b"orlib" and self.count % 2 == 0:
            if value != machine:
                raise refused(b"wrong machine number at %d", offset)
        elif value > LONGEST_TIME:
            raise refused(b"time out of range at %d", offset)
        else:
            self.shop.times[machine][job] = value
        self.count += 1


def value_of(digits: bytes) -> int:
    """The number that digits write; one of more than twenty digits is any that is above all limits."""
    digits = digits.lstrip(b"0") or b"0"
    return int(digits) if len(digits) <= 20 else 10**20


def lines_of(text: bytes) -> Iterator[tuple[int, bytes]]:
    """Each line with its offset. A text that ends with byte 10 has no further line."""
    start = 0
    while start < len(text):
        end = text.find(b"\n", start)
        end = len(text) if end < 0 else end
        yield start, text[start:end]
        start = end + 1


def read_instance(text: Contents, layout: bytes, wanted: int) -> Instance:
    """The instance of the wanted block, whose bytes end within the limit."""
    if text is None:
        raise Stop(b"pfs: read failed\n", 4)
    head = text[:LONGEST_INPUT]
    cut = len(text) > LONGEST_INPUT
    body: Body | None = None
    found = 0
    for number, (offset, line) in enumerate(lines_of(head), 1):
        # A line that the limit cuts has no end.
        ends = not (cut and offset + len(line) == len(head))
        if body is not None:
            if read_line(body, line, offset, ends):
                found, done, body = found + 1, body.shop, None
                if found == wanted:
                    return done
        elif ends and DIGIT.search(line) and not WORD_BYTE.search(line):
            body = Body(layout, sizes(line, number, layout))
    if cut:
        raise refused(b"input too long")
    if body is not None:
        raise refused(b"truncated after %d times", body.times())
    raise refused(b"no block, found %d", found)


def sizes(line: bytes, number: int, layout: bytes) -> Instance:
    """The instance of a size line, with all times 0."""
    values = [value_of(match.group()) for match in DIGITS.finditer(line)]
    if len(values) != (2 if layout == b"orlib" else 5):
        raise refused(b"size line %d has a wrong count", number)
    jobs, machines, *notes = values
    fits = 1 <= jobs <= MOST_JOBS and 1 <= machines <= MOST_MACHINES and all(note <= MOST_NOTE for note in notes)
    if not fits:
        raise refused(b"size line %d is out of range", number)
    return Instance(jobs, machines, notes or [0, 0, 0])


def read_line(body: Body, line: bytes, offset: int, ends: bool) -> bool:
    """Takes the numbers of a line inside a block, and tells whether the block ends with it."""
    digit, word_byte = DIGIT.search(line), WORD_BYTE.search(line)
    mixed = max(digit.start(), word_byte.start()) if digit and word_byte else None
    for match in DIGITS.finditer(line):
        if mixed is not None and match.end() >= mixed:
            break
        if match.end() < len(line) or ends:
            body.take(value_of(match.group()), offset + match.start())
    if mixed is not None:
        raise refused(b"mixed line at %d", offset + mixed)
    return ends and digit is not None and body.count == body.due()


# Order files

# What may stand for each number of a line.
Numbers = list[Callable[[bytes], object]]


def up_to(most: int) -> Callable[[bytes], object]:
    return lambda digits: re.fullmatch(rb"[1-9][0-9]{0,3}", digits) and int(digits) <= most


JOB = re.compile(rb"0|[1-9][0-9]{0,8}").fullmatch
MAKESPAN = re.compile(rb"0|[1-9][0-9]{0,17}").fullmatch
FIRST_LINES: dict[bytes, Numbers] = {b"order ": [up_to(MOST_JOBS)],
                                     b"order2 ": [up_to(MOST_JOBS), up_to(MOST_MACHINES)]}


def read_order(text: Contents) -> tuple[list[int], int | None, int]:
    """The jobs of an order file, counted from 1, the machines, if it states them, and the makespan that it states."""
    if text is None:
        raise Stop(b"pfs: order file read failed\n", 4)
    if len(text) > LONGEST_ORDER_FILE:
        raise refused(b"order file too long")
    parts = text.split(b"\n")
    if len(parts) != 4 or not can_be_completed(text):
        raise refused(b"order file syntax at %d", longest_front(text))
    jobs = [int(job) for job in parts[1].split(b" ")]
    seen = set[int]()
    for place, job in enumerate(jobs, 1):
        if not 1 <= job <= len(jobs):
            raise refused(b"order file job out of range at place %d", place)
        if job in seen:
            raise refused(b"order file job repeated at place %d", place)
        seen.add(job)
    machines = [int(number) for number in parts[0].split(b" ")[2:]]
    return jobs, machines[0] if machines else None, int(parts[2].removeprefix(b"makespan "))


def longest_front(text: bytes) -> int:
    """The length of the longest front with which a text of the grammar begins. Each shorter front is one too."""
    least, most = 0, len(text)
    while least < most:
        middle = (least + most + 1) // 2
        if can_be_completed(text[:middle]):
            least = middle
        else:
            most = middle - 1
    return least


def can_be_completed(front: bytes) -> bool:
    """Whether a text of the grammar begins with these bytes."""
    size = re.match(rb"\w+ ([0-9]{1,4})[ \n]", front)
    rest: list[tuple[bytes, Numbers]] = [
        (b"", [JOB] * int(size[1] if size else 0)), (b"makespan ", [MAKESPAN]), (b"", [])]
    return any(begins_lines(front, [first, *rest]) for first in FIRST_LINES.items())


def begins_lines(front: bytes, lines: list[tuple[bytes, Numbers]]) -> bool:
    """Whether a text of these lines, each a name and numbers, begins so."""
    *ended, last = front.split(b"\n")
    return (len(ended) < len(lines) and all(is_line(line, *due) for line, due in zip(ended, lines))
            and begins_line(last, *lines[len(ended)]))


def is_line(line: bytes, name: bytes, numbers: Numbers) -> bool:
    words = line.removeprefix(name).split(b" ")
    return (line.startswith(name) and len(words) == len(numbers)
            and all(is_one(word) for is_one, word in zip(numbers, words)))


def begins_line(line: bytes, name: bytes, numbers: Numbers) -> bool:
    whole = line + b"1" if line.endswith(b" ") else line
    return name.startswith(line) or is_line(whole, name, numbers[:whole.count(b" ") - name.count(b" ") + 1])


# Orders, whose jobs count from 0

def ends_of(shop: Instance, order: Sequence[int]) -> list[list[int]]:
    """For each place the ends on all machines, each as early as can be."""
    rows = []
    before = [0] * shop.machines
    for job in order:
        ready, ends = 0, []
        for free, times in zip(before, shop.times):
            if ready < free:
                ready = free
            ready += times[job]
            ends.append(ready)
        rows.append(ends)
        before = ends
    return rows


def spans_of(shop: Instance, order: Sequence[int]) -> list[list[tuple[int, int]]]:
    """Start and end of each operation, by place and machine."""
    return [[(end - row[job], end) for row, end in zip(shop.times, ends)]
            for job, ends in zip(order, ends_of(shop, order))]


def makespan(shop: Instance, order: Sequence[int]) -> int:
    return ends_of(shop, order)[-1][-1] if order else 0


def lower_bound(shop: Instance) -> int:
    jobs = range(shop.jobs)
    columns = [[row[job] for row in shop.times] for job in jobs]
    by_machine = [
        min(sum(columns[job][:machine]) for job in jobs) + sum(shop.times[machine])
        + min(sum(columns[job][machine + 1:]) for job in jobs)
        for machine in range(shop.machines)
    ]
    return max(by_machine + [sum(column) for column in columns])


def inserted(shop: Instance, order: list[int], job: int) -> list[int]:
    """The order with the job at the first of its places that give the least makespan."""
    orders = [order[:place] + [job] + order[place:] for place in range(len(order) + 1)]
    return min(orders, key=lambda whole: makespan(shop, whole))


def by_totals(shop: Instance) -> list[int]:
    order: list[int] = []
    for job in sorted(range(shop.jobs), key=lambda job: (-shop.total(job), job)):
        order = inserted(shop, order, job)
    return order


def after_round(shop: Instance, kept: list[int], words: list[int], passes: int) -> list[int]:
    """Remove a job for each random word and reinsert each at its best place, then make the passes, which move each job
    in turn, by its number, to its best place. Keep the order unless its makespan is greater."""
    order, taken = list(kept), list[int]()
    for word in words:
        taken.append(order.pop(word % len(order)))
    for job in taken + list(range(shop.jobs)) * passes:
        order = inserted(shop, [other for other in order if other != job], job)
    return order if makespan(shop, order) <= makespan(shop, kept) else kept


def cells_of_neh(shop: Instance) -> int:
    """The number of table cells that NEH computes by heads and tails."""
    return 2 * shop.machines * shop.jobs**2


def cells_of_round(shop: Instance, take: int, passes: int) -> int:
    each = 2 * take * shop.machines * (2 * shop.jobs - take)
    return each + passes * shop.jobs * shop.machines * (4 * shop.jobs - 2)


class Pcg32:
    """PCG XSH RR 64/32 of O'Neill, seeded by a number as Rust's rand_core does it: four words of the generator with
    a fixed increment, which steps before each, are the state and the increment."""

    MULTIPLIER = 6364136223846793005
    MASK = 2**64 - 1

    def __init__(self, seed: int) -> None:
        words = []
        for _ in range(4):
            seed = (seed * self.MULTIPLIER + 0xA17654E46FBE17F3) & self.MASK
            words.append(self.output(seed))
        self.increment = words[2] | words[3] << 32 | 1
        self.state = (words[0] | words[1] << 32) + self.increment
        self.step()

    def step(self) -> None:
        self.state = (self.state * self.MULTIPLIER + self.increment) & self.MASK

    @staticmethod
    def output(state: int) -> int:
        shifted = ((state >> 18 ^ state) >> 27) & (2**32 - 1)
        turn = state >> 59
        return (shifted >> turn | shifted << (32 - turn)) & (2**32 - 1)

    def next_word(self) -> int:
        word = self.output(self.state)
        self.step()
        return word


def generated(jobs: int, machines: int, seed: int) -> Instance:
    if not 1 <= seed <= MOST_GENERATOR_SEED:
        raise refused(b"seed out of range")
    shop = Instance(jobs, machines, [seed, 0, 0])
    for machine in range(machines):
        for job in range(jobs):
            seed = seed * 16807 % 2147483647
            shop.times[machine][job] = 1 + seed * 99 // 2147483647
    return shop


# What is printed

def numbers(values: Iterable[int]) -> bytes:
    return b" ".join(b"%d" % value for value in values) + b"\n"


def order_text(order: Sequence[int], machines: int | None, length: int) -> bytes:
    """An order file of version 1, or of version 2 where the machines are stated."""
    first = b"order %d\n" % len(order) if machines is None else b"order2 %d %d\n" % (len(order), machines)
    return first + numbers(job + 1 for job in order) + b"makespan %d\n" % length


def canonical(shop: Instance, layout: bytes) -> bytes:
    if layout == b"taillard":
        title = b"number of jobs, number of machines, initial seed, upper bound and lower bound :\n"
        rows = b"".join(map(numbers, shop.times))
        return title + numbers([shop.jobs, shop.machines, *shop.notes]) + b"processing times :\n" + rows
    pairs = [[it for machine in range(shop.machines) for it in (machine, shop.times[machine][job])]
             for job in range(shop.jobs)]
    return b"flow shop instance\n" + numbers([shop.jobs, shop.machines]) + b"".join(map(numbers, pairs))


def solved(shop: Instance, options: dict[bytes, Any]) -> bytes:
    take = options[b"--take"]
    if take is not None and take > shop.jobs:
        raise Stop(b"pfs: take %d exceeds %d jobs\n" % (take, shop.jobs), 3)
    take = min(4, shop.jobs) if take is None else take
    order, random = by_totals(shop), Pcg32(options[b"--seed"])
    for _ in range(options[b"--rounds"]):
        words = [random.next_word() for _ in range(take)]
        order = after_round(shop, order, words, options[b"--passes"])
    text = order_text(order, shop.machines, makespan(shop, order))
    if not options[b"--cells"]:
        return text
    cells = cells_of_neh(shop) + options[b"--rounds"] * cells_of_round(shop, take, options[b"--passes"])
    return text + b"cells %d\n" % cells


def checked(shop: Instance, jobs: list[int], machines: int | None, stated: int) -> tuple[bytes, int]:
    """The verdict on an order file, and the exit status."""
    if wrong := misfit(shop, jobs, machines):
        return wrong, 1
    computed = makespan(shop, [job - 1 for job in jobs])
    if stated != computed:
        return b"wrong makespan\nstated %d\ncomputed %d\n" % (stated, computed), 1
    bound = lower_bound(shop)
    text = b"valid\nmakespan %d\nbound %d\n" % (computed, bound)
    return text + (b"optimal\n" if computed == bound else b""), 0


def misfit(shop: Instance, jobs: list[int], machines: int | None) -> bytes:
    """The verdict on an order that doesn't fit the instance: its size is checked before its number of machines."""
    if len(jobs) != shop.jobs:
        return b"wrong size\norder %d\njobs %d\n" % (len(jobs), shop.jobs)
    if machines is not None and machines != shop.machines:
        return b"wrong machines\norder %d\nmachines %d\n" % (machines, shop.machines)
    return b""


def tabled(shop: Instance, jobs: list[int], machines: int | None) -> tuple[bytes, int]:
    if wrong := misfit(shop, jobs, machines):
        return wrong, 1
    order = [job - 1 for job in jobs]
    rows = [numbers([job + 1, *itertools.chain(*spans)]) for job, spans in zip(order, spans_of(shop, order))]
    return b"table %d %d\n%smakespan %d\n" % (shop.jobs, shop.machines, b"".join(rows), makespan(shop, order)), 0


# The program

def opened(files: Mapping[bytes, Contents], path: bytes) -> Contents:
    if path not in files:
        raise Stop(b"pfs: cannot open\n", 4)
    return files[path]


def run(words: Sequence[bytes], stdin: bytes, files: Mapping[bytes, Contents]) -> tuple[bytes, int]:
    if not words:
        shop = read_instance(stdin, b"taillard", 1)
        return b"makespan %d\n" % makespan(shop, list(range(shop.jobs))), 0
    command, options, others = asked_for(words)
    if command == b"generate":
        return canonical(generated(*others), b"taillard"), 0
    texts = [opened(files, path) for path in others]
    layout = options[b"--from"] if command == b"convert" else options[b"--layout"]
    shop = read_instance(texts[0], layout, options[b"--block"])
    if command == b"value":
        return b"makespan %d\n" % makespan(shop, list(range(shop.jobs))), 0
    if command == b"solve":
        return solved(shop, options), 0
    if command == b"convert":
        return canonical(shop, options[b"--to"]), 0
    jobs, machines, stated = read_order(texts[1])
    return checked(shop, jobs, machines, stated) if command == b"check" else tabled(shop, jobs, machines)


def answer(words: Sequence[bytes], stdin: bytes, files: Mapping[bytes, Contents]) -> tuple[bytes, bytes, int]:
    """Standard output, standard error and exit status for these words, with `files` by their paths."""
    try:
        text, status = run(words, stdin, files)
    except Stop as stop:
        return b"", stop.reported, stop.status
    return text, b"", status
