#!/usr/bin/env python3
"""Runs the built program and the second program (tests/support/second_program.py) on random files and command lines,
and compares standard output, standard error and exit status byte for byte. The files are valid instance files and order
files, and such files with changed bytes. The program reads them whole, or in random pieces through a pipe, each piece
after the last one was read. Stops at the first case on which the two programs differ. It prints the command that
repeats the case, and stores its files in a folder.

usage: tests/fuzz.py [--seconds N] [--seed N] [--program PATH] [--case N]"""
import argparse
import dataclasses
import fcntl
import itertools
import os
import pathlib
import re
import shlex
import struct
import sys
import tempfile
import termios
import threading
import time
from collections.abc import Iterable, Sequence
from random import Random

sys.dont_write_bytecode = True
from support import second_program
from support.program import Program, Ran
from support.second_program import COMMANDS, NEEDED, UNREADABLE, Contents, Instance, Stop

TOP = pathlib.Path(__file__).resolve().parent.parent
PROGRAM = TOP / "crates" / "pfs" / "out" / "pfs"
# A search of more rounds is too long for the second program.
MOST_ROUNDS = 40
MOST_PASSES = 20
# A pipe holds more than a piece.
LONGEST_PIECE = 16_384


@dataclasses.dataclass
class Case:
    """Words, files by their names, and standard input. `pieces` has for a file (standard input is `stdin`) the lengths
    of the pieces in which the program gets it through a pipe; the others lie there whole."""
    words: list[bytes]
    files: dict[bytes, Contents]
    stdin: bytes = b""
    pieces: dict[bytes, list[int]] = dataclasses.field(default_factory=dict)

    def texts(self) -> dict[bytes, Contents]:
        """All files that it needs."""
        return {b"stdin": self.stdin} | {name: text for name, text in self.files.items() if name != b"/dev/null"}

    def wanted(self) -> Ran:
        return Ran(*second_program.answer(self.words, self.stdin, self.files))

    def is_quick(self) -> bool:
        """Whether the second program is fast on this case."""
        try:
            command, options, others = second_program.asked_for(self.words) if self.words else (b"value", {}, [])
        except Stop:
            return True
        if command == b"generate":
            times: int = others[0] * others[1]
            return times <= 4_000
        rounds, passes = [int(options.get(name, 0)) for name in (b"--rounds", b"--passes")]
        return rounds <= MOST_ROUNDS and rounds * passes <= MOST_PASSES


# Running a case

def unread(descriptor: int) -> int:
    """How many bytes of a pipe haven't been read."""
    count: int = struct.unpack("i", fcntl.ioctl(descriptor, termios.FIONREAD, b"\0" * 4))[0]
    return count


def feed(pipe: pathlib.Path, text: bytes, lengths: list[int], ended: threading.Event) -> None:
    """Write a text into a named pipe in pieces of these lengths, and the rest in pieces that any pipe holds: the next
    once the last has been read, until the program ends."""
    ends = [0, *itertools.accumulate(lengths)]
    ends += range(ends[-1] + LONGEST_PIECE, len(text) + LONGEST_PIECE, LONGEST_PIECE)
    # Open for reading too, so that neither this nor the program's opening waits.
    with open(os.open(pipe, os.O_RDWR), "wb", buffering=0) as end:
        for start, stop in itertools.pairwise(ends):
            end.write(text[start:stop])
            while unread(end.fileno()):
                if ended.wait(0.00005):
                    return


def lay_files(case: Case, folder: pathlib.Path) -> None:
    """Make the files of a case and its standard input; those that it gets in pieces as pipes."""
    for name, text in case.texts().items():
        path = folder / os.fsdecode(name)
        if text is None:
            os.mkdir(path)
        elif name in case.pieces:
            os.mkfifo(path)
        else:
            path.write_bytes(text)


def run(program: Program, case: Case) -> Ran:
    """What the program prints and reports, and its status."""
    ended = threading.Event()
    with tempfile.TemporaryDirectory(prefix="fuzz-") as name:
        folder = pathlib.Path(name)
        lay_files(case, folder)
        feeders = [threading.Thread(target=feed, args=(folder / os.fsdecode(name), text, case.pieces[name], ended))
                   for name, text in case.texts().items() if name in case.pieces]
        for feeder in feeders:
            feeder.start()
        try:
            with open(folder / "stdin", "rb", buffering=0) as stdin:
                return program.run(case.words, folder, stdin)
        finally:
            ended.set()
            for feeder in feeders:
                feeder.join()


# Random instance files

TITLES = [b"", b" ", b"\t", b"\r", b"+++++", b"processing times :", b"instance", b"shop", b"\xff\0", b"-", b".",
          b"x" * 80]
MIXED_TITLES = [b"instance car1", b"Carlier 11x5", b"-5", b"1.5", b"3 2 0 0 0 x", b"x 3 2", b"0\0", b"7\xe9"]
BLANKS = [b" ", b" ", b" ", b" ", b"  ", b"\t", b"\r", b" \t "]
TIMES = [0, 1, 2, 3, 5, 8, 99, 1_000_001, 999_999_999, 1_000_000_000]
NOTES = [0, 1, 7, 4_294_967_295]


class Writer:
    """Makes random files of a random shop."""

    def __init__(self, random: Random) -> None:
        self.random = random
        self.is_great = self.chance(0.03)
        self.layout = random.choice([b"taillard", b"orlib"])

    def chance(self, part: float) -> bool:
        return self.random.random() < part

    def number(self, value: int) -> bytes:
        return b"0" * self.random.choice([0] * 12 + [1, 2, 30]) + b"%d" % value

    def spaced(self, numbers: Iterable[bytes]) -> bytes:
        """The numbers as a line, with blanks between them and perhaps at the ends."""
        text = b"".join(self.blank() + number for number in numbers)
        text = text if self.chance(0.1) else text[1:] if text[:1] == b" " else text
        return text + (self.blank() if self.chance(0.1) else b"")

    def blank(self) -> bytes:
        """Blanks that separate numbers, or precede or follow them."""
        return self.random.choice(BLANKS) if self.chance(0.2) else b" "

    def skipped(self, titles: list[bytes]) -> list[bytes]:
        return [self.random.choice(titles) for _ in range(self.random.choice([0, 0, 1, 1, 2, 3]))]

    def shop(self) -> Instance:
        great, small = [(300, 20), (5_000, 2), (4, 200)], [(9, 5), (9, 5), (12, 26)]
        most_jobs, most_machines = self.random.choice(great if self.is_great else small)
        jobs, machines = self.random.randint(1, most_jobs), self.random.randint(1, most_machines)
        shop = Instance(jobs, machines, [self.random.choice(NOTES) for _ in range(3)])
        most = self.random.choice([0, 1, 3, 9, 99, 3_000, 65_534, 65_535, 65_536, 1_000_000_000])
        times = self.random.choice([range(most + 1), [0, 0, 1, most], TIMES])
        shop.times = [self.random.choices(times, k=jobs) for _ in range(machines)]
        return shop

    def block(self, shop: Instance) -> list[bytes]:
        """The lines of a block."""
        taillard = self.layout == b"taillard"
        sizes = [shop.jobs, shop.machines] + (shop.notes if taillard else [])
        lines = self.skipped(TITLES + MIXED_TITLES) + [self.spaced(map(self.number, sizes))]
        if taillard:
            due = [time for row in shop.times for time in row]
            usual = shop.jobs
        else:
            due = [it for job in range(shop.jobs) for row, times in enumerate(shop.times) for it in (row, times[job])]
            usual = 2 * shop.machines
        is_usual = self.chance(0.5)
        while due:
            length = usual if is_usual else self.random.randint(1, max(2, 2 * usual))
            lines.append(self.spaced(map(self.number, due[:length])))
            due = due[length:]
            if due and self.chance(0.1):
                lines += self.skipped(TITLES)
        return lines

    def file(self, shops: list[Instance]) -> bytes:
        """A file with a block for each of these instances, and perhaps more text at the end."""
        end = self.random.choice([b"\n", b"\n", b"\n", b"\r\n"])
        lines = [line for shop in shops for line in self.block(shop)]
        text = end.join(lines) + (end if self.chance(0.9) else b"")
        if self.chance(0.1):
            text += self.random.choice([b"7\n", b"x 1", b"+++\n", b"3 2\n", b"\xff" * 5_000])
        return text

    def order(self, shop: Instance) -> bytes:
        """An order file of either version that may fit the shop."""
        jobs = list(range(1, shop.jobs + 1))
        self.random.shuffle(jobs)
        length = second_program.makespan(shop, [job - 1 for job in jobs])
        kind = self.random.random()
        if kind < 0.1:
            length = self.random.choice([0, length + 1, max(0, length - 1), 10**18 - 1, 10**18])
        elif kind < 0.2:
            jobs = list(range(1, self.random.choice([1, 2, shop.jobs + 1, 5_000]) + 1))
        elif kind < 0.35:
            jobs[self.random.randrange(len(jobs))] = self.random.choice([0, 1, shop.jobs, shop.jobs + 1, 999_999_999])
        other = self.random.choice([0, 1, max(0, shop.machines - 1), shop.machines + 1, 200, 201])
        machines = self.random.choice([None, None, shop.machines, shop.machines, shop.machines, other])
        return second_program.order_text([job - 1 for job in jobs], machines, length)


BYTES = [b"0", b"1", b"9", b" ", b"\t", b"\r", b"\n", b"\n", b"x", b"-", b".", b"+", b"\0", b"\xff"]
INSERTED = BYTES + [b"9" * 40, b"0" * 60, b" " * 5_000, b"x" * 4_096, b"0" * 9_000, b"1000000001", b"4294967296",
                    b" 7", b"\n\n", b"order ", b"order2 ", b"makespan 0\n"]


def mutated(random: Random, text: bytes) -> bytes:
    """The text with some bytes changed."""
    for _ in range(random.choice([1, 1, 1, 2, 3, 8])):
        start = random.randint(0, len(text))
        end = min(len(text), start + random.choice([0, 1, 1, 2, 5, 40]))
        front, rest = text[:start], text[start:]
        text = random.choice([front, front + text[end:], text[:end] + rest, front + random.choice(BYTES) + rest[1:],
                              front + random.choice(INSERTED) + rest, *[with_number_changed(random, text, start)] * 2])
    return text


def with_number_changed(random: Random, text: bytes, start: int) -> bytes:
    match = re.compile(rb"[0-9]+").search(text, start)
    if match is None:
        return text
    value = second_program.value_of(match.group())
    value = max(0, random.choice([value - 1, value + 1, value * 10, 0, 5_000, 5_001, 200, 201, 1_000_000_001, 2**32]))
    return text[:match.start()] + b"%d" % value + text[match.end():]


# Random command lines

ODD_WORDS = [
    b"", b"-", b"--", b"-h", b"--help", b"--version", b"-V", b"help", b"--cells", b"--cells=1", b"--block", b"--block=",
    b"--block=2", b"--layout", b"--layout=orlib", b"--layout=Orlib", b"--lay=orlib", b"-5", b"--5", b"---", b"--=",
    b"--seed=-1", b"--take=0", b"\xff", b"\xc3\xa9", b"shop", b"order", b"missing", b"/dev/null", b"value",
    b"x" * 5_000,
]
NO_NUMBERS = [b"", b"-1", b"x", b" 1", b"1 ", b"1.0", b"0x1", b"+", b"++1", b"1_0", b"\xd9\xa3", b"9" * 30]
SEEDS = [0, 1, 7, 2**32, 2**63, 2**64 - 1, 2**64]
DRAWN_SEEDS = [0, 1, 873_654_221, 2_147_483_646, 2_147_483_647, 2**64 - 1]


class Line:
    """Makes random command lines over an instance file and an order file of these names."""

    def __init__(self, random: Random, names: list[bytes]) -> None:
        self.random = random
        self.names = names

    def number(self, value: int) -> bytes:
        """A number as a command line may write it, rarely a word that is none."""
        if self.random.random() < 0.03:
            return self.random.choice(NO_NUMBERS)
        return self.random.choice([b""] * 9 + [b"+", b"0", b"+00", b"0" * 40]) + b"%d" % value

    def option(self, name: bytes, value: bytes) -> list[bytes]:
        return [name + b"=" + value] if self.random.random() < 0.4 else [name, value]

    def value(self, name: bytes, layout: bytes, jobs: int) -> bytes:
        """A value of an option, for a file in a layout and a search of this many jobs."""
        if name == b"--to":
            layout = self.random.choice([b"taillard", b"orlib"])
        if name in (b"--layout", b"--from", b"--to"):
            return self.random.choice([layout] * 30 + [b"x", b"taillard", b"orlib"])
        return self.number(self.random.choice({
            b"--block": [1, 1, 1, 2, 2, 3, 4, 1_000, 1_001, 0],
            b"--rounds": [0, 1, 2, 3, 10, MOST_ROUNDS, 1_000_001],
            b"--take": [1, 2, 3, 4, jobs, jobs + 1, self.random.randint(1, jobs), 5_000, 5_001, 0],
            b"--seed": SEEDS + [self.random.randrange(2**64)] * 4,
            b"--passes": [0, 1, 1, 2, 3, 100, 101],
        }[name]))

    def mixed(self, command: bytes, options: list[list[bytes]], paths: list[bytes]) -> list[bytes]:
        """The options in any order before, between and after the paths. The paths may follow `--`, and do if they look
        like options."""
        if self.random.random() < 0.1 or any(path.startswith(b"--") for path in paths):
            self.random.shuffle(options)
            return [command] + sum(options, []) + [b"--"] + paths
        parts, rest = options + [[]] * len(paths), iter(paths)
        self.random.shuffle(parts)
        return [command] + sum((part or [next(rest)] for part in parts), [])

    def generate(self) -> list[bytes]:
        sizes = [self.random.randint(1, 60), self.random.randint(1, 20)]
        if self.random.random() < 0.1:
            sizes[self.random.randrange(2)] = self.random.choice([0, 200, 201, 5_000, 5_001])
        seed = self.random.choice(DRAWN_SEEDS + [self.random.randint(1, 2_147_483_646)] * 4)
        words = [self.number(value) for value in sizes + [seed]]
        return [b"generate"] + ([b"--"] if self.random.random() < 0.05 else []) + words

    def words(self, layout: bytes, jobs: int, is_great: bool) -> list[bytes]:
        commands = [name for name in COMMANDS if not (is_great and name in (b"solve", b"generate"))]
        command = self.random.choice(commands + [b"check"] + [b"solve"] * (not is_great))
        if command == b"generate":
            return self.generate()
        options, paths = COMMANDS[command]
        given = []
        for name, (read, default) in options.items():
            if default is NEEDED or self.random.random() < 0.5:
                given.append([name] if read is None else self.option(name, self.value(name, layout, jobs)))
        return self.mixed(command, given, self.names[:len(paths)])

    def mutated(self, words: Sequence[bytes]) -> list[bytes]:
        words = list(words)
        for _ in range(self.random.choice([1, 1, 2])):
            place = self.random.randint(0, len(words))
            new: list[list[bytes]] = [[], [self.random.choice(ODD_WORDS)], words[place:place + 1] * 2]
            words[place:place + self.random.randrange(2)] = self.random.choice(new)
        return words


# Random cases

def instance_text(random: Random, text: bytes) -> bytes:
    """The text of an instance file, or what may become of it."""
    kind = random.random()
    if kind < 0.4:
        return mutated(random, text)
    if kind < 0.43:
        return b"".join(random.choice(BYTES) for _ in range(random.randint(0, 60)))
    return text


def order_text(random: Random, text: bytes) -> bytes:
    """The text of an order file, or what may become of it."""
    kind = random.random()
    if kind < 0.3:
        return mutated(random, text)
    return (text + b"0" * 70_000)[:random.choice([65_536, 65_537, 70_000])] if kind < 0.31 else text


def random_case(random: Random) -> Case:
    writer = Writer(random)
    shops = [writer.shop() for _ in range(random.choice([1, 1, 1, 2, 3]))]
    text = instance_text(random, writer.file(shops))
    order = order_text(random, writer.order(random.choice(shops)))
    names = [random.choice([b"shop"] * 9 + [b"-", b"a shop", b"--shop"]), b"order"]
    line = Line(random, names)
    words = [] if random.random() < 0.08 else line.words(writer.layout, shops[0].jobs, writer.is_great)
    if words and random.random() < 0.08:
        words = line.mutated(words)
    files: dict[bytes, Contents] = dict(zip(names, [text, order]))
    for name in names:
        if random.random() < 0.02:
            files[name] = UNREADABLE
    if random.random() < 0.01:
        del files[random.choice(names)]
    files.setdefault(b"/dev/null", b"")
    return in_pieces(random, Case(words, files, b"" if words else text))


def in_pieces(random: Random, case: Case) -> Case:
    """The case with some of its files in pieces. A file that is named twice, and an empty one, lies there whole."""
    pieces = {}
    for name, text in case.texts().items():
        is_read = case.words.count(name) == 1 if name != b"stdin" else not case.words
        if is_read and text and random.random() < 0.5:
            most = random.choice([1, 2, 3, 10, 100, 5_000])
            pieces[name] = [random.randint(1, most) for _ in range(60)]
    return dataclasses.replace(case, pieces=pieces)


# Telling of a failing case

def tell(program: Program, case: Case) -> None:
    """Keep the files of the case in a folder and print how to run it."""
    folder = pathlib.Path(tempfile.mkdtemp(prefix="pfs-differs-"))
    lay_files(dataclasses.replace(case, pieces={}), folder)
    words = " ".join(shlex.quote(os.fsdecode(word)) for word in case.words)
    print(f"in a shell: cd {folder} && {program.path} {words} < stdin".encode(errors="replace").decode())
    if case.pieces:
        print(f"with files through pipes, in pieces of these lengths: {case.pieces}")
    print(f"wanted {shown(case.wanted())}\ngot    {shown(run(program, case))}", flush=True)


def shown(ran: Ran) -> str:
    return f"{ran.stdout[:600]!r}, {ran.stderr[:600]!r}, {ran.status}"


def search(program: Program, seed: int, seconds: float, numbers: Iterable[int]) -> bool:
    """Run the cases of these numbers for so long, or until the two programs differ. Return whether they agree, on one
    case at least. A case is made from the seed and its number, so a machine's speed changes how many there are, and no
    case."""
    end, count = time.monotonic() + seconds, 0
    for number in itertools.takewhile(lambda _: time.monotonic() < end, numbers):
        case = random_case(Random(f"{seed} {number}"))
        if not case.is_quick():
            continue
        count += 1
        if run(program, case) != case.wanted():
            print(f"seed {seed}, case {number}: the programs differ")
            words = f"{TOP}/tests/fuzz.py --program {program.path} --seed {seed} --case {number}"
            print(f"to repeat it: {words}", flush=True)
            tell(program, case)
            return False
    print(f"seed {seed}: {count} cases in {seconds:g} s, on which both programs agree")
    return count > 0


def main() -> int:
    parser = argparse.ArgumentParser()
    parser.add_argument("--seconds", type=float, default=30)
    parser.add_argument("--seed", type=int, default=time.time_ns() % 10**9)
    parser.add_argument("--program", type=pathlib.Path, default=PROGRAM)
    parser.add_argument("--case", type=int, help="runs the case of this number alone")
    given = parser.parse_args()
    numbers = itertools.count(1) if given.case is None else [given.case]
    return 0 if search(Program(given.program.resolve()), given.seed, given.seconds, numbers) else 1


if __name__ == "__main__":
    sys.exit(main())
