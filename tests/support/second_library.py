"""A second implementation of lib/pfs.h, with which tests compare the library: the validation and the outputs of each
function as pfs.h describes them, over the second program. Each function has the parameters of pfs.h, with a bytearray
for each pointer and an `Instance` for a prepared one, and computes its results before it writes an output."""
import contextlib
import itertools
import re
import struct
from collections.abc import Callable, Collection, Iterable, Iterator, Sequence
from typing import Any

from support import second_program
from support.library import ON_SHOP, Answer, Memory, Number, read32, u32s, u64s
from support.second_program import (LONGEST_TIME, MOST_GENERATOR_SEED, MOST_JOBS, MOST_MACHINES, Instance, Pcg32, Stop,
                                    ends_of, makespan)

OK, SIZE, LENGTH, TIME, JOB, REPEATED, TAKE, PASSES, ROUNDS, SEED, LAYOUT, BLOCK, MAKESPAN, ROOM = 0, *range(2, 15)
HELD, TIES = 16, 17
MOST_ROUNDS = 1_000_000
MOST_PASSES = 100
MOST_TIES = 1
MOST_PROVED_JOBS = 256
MOST_PROVED_MACHINES = 64
MOST_BLOCKS = 1_000
MOST_MAKESPAN = 999_999_999_999_999_999
LAYOUTS = [b"taillard", b"orlib"]
# The number of a file's fault, by its text in the second program.
FAULTS = {
    rb"no block, found (\d+)": 20, rb"size line (\d+) has a wrong count": 21, rb"size line (\d+) is out of range": 22,
    rb"mixed line at (\d+)": 23, rb"time out of range at (\d+)": 24, rb"wrong machine number at (\d+)": 25,
    rb"extra number at (\d+)": 26, rb"truncated after (\d+) times": 27, rb"input too long()": 28,
    rb"order file syntax at (\d+)": 30, rb"order file job out of range at place (\d+)": 31,
    rb"order file job repeated at place (\d+)": 32, rb"order file too long()": 33,
}


class Fault(Exception):
    """A call ends and returns this number."""

    def __init__(self, number: int) -> None:
        super().__init__(number)
        self.number = number


def call(name: str, *arguments: Number | Memory) -> Answer:
    """What a function of pfs.h returns, and the memory that it leaves, as `Library.call` of the built library."""
    given: list[Any] = [bytearray(each.content) if isinstance(each, Memory) else each.value for each in arguments]
    number = OK
    try:
        if name in ON_SHOP:
            FUNCTIONS[name](instance_of(*given[:4]), *given[4:])
        else:
            FUNCTIONS[name](*given)
    except Fault as fault:
        number = fault.number
    return Answer(number, [bytes(each) for each in given if isinstance(each, bytearray)])


# Validation

def expect(is_right: bool, number: int) -> None:
    if not is_right:
        raise Fault(number)


def expect_sizes(jobs: int, machines: int) -> None:
    expect(1 <= jobs <= MOST_JOBS and 1 <= machines <= MOST_MACHINES, SIZE)


def instance_of(times: bytearray, length: int, jobs: int, machines: int) -> Instance:
    """The instance of these times, which are job by job."""
    expect_sizes(jobs, machines)
    expect(length == jobs * machines, LENGTH)
    numbers = read32(times)[:length]
    expect(max(numbers) <= LONGEST_TIME, TIME)
    shop = Instance(jobs, machines, [0, 0, 0])
    shop.times = [numbers[machine::machines] for machine in range(machines)]
    return shop


def by_job(shop: Instance) -> list[int]:
    return [row[job] for job in range(shop.jobs) for row in shop.times]


def distinct(size: int, jobs: Sequence[int], first: int = 0) -> list[int]:
    """These jobs. Those from place `first` on are validated: each is below the size, and none occurs twice."""
    for place in range(first, len(jobs)):
        expect(jobs[place] < size, JOB)
        expect(jobs[place] not in jobs[:place], REPEATED)
    return list(jobs)


# Outputs

def put32(memory: bytearray, numbers: Sequence[int]) -> None:
    memory[:4 * len(numbers)] = u32s(numbers).content


def put64(memory: bytearray, *numbers: int) -> None:
    memory[:8 * len(numbers)] = u64s(numbers).content


def put_text(memory: bytearray, room: int, length: bytearray, text: bytes) -> None:
    put64(length, len(text))
    expect(len(text) <= room, ROOM)
    memory[:len(text)] = text


@contextlib.contextmanager
def faults_of_a_file(place: bytearray) -> Iterator[None]:
    """Returns the number of the fault that the second program reports, and writes its place."""
    try:
        yield
    except Stop as stop:
        [(found, number)] = [(found, number) for text, number in FAULTS.items()
                             if (found := re.fullmatch(b"pfs: " + text + b"\n", stop.reported))]
        put64(place, int(found[1] or 0))
        raise Fault(number) from None


# The functions on an instance

def pfs_sizes(shop: Instance, jobs: bytearray, machines: bytearray) -> None:
    put64(jobs, shop.jobs)
    put64(machines, shop.machines)


def pfs_faulty_job(shop: Instance, sequence: bytearray, length: int, place: bytearray) -> None:
    jobs = read32(sequence)[:length]
    put64(place, next((at for at, job in enumerate(jobs) if job >= shop.jobs or job in jobs[:at]), length))
    distinct(shop.jobs, jobs)


def pfs_makespan(shop: Instance, sequence: bytearray, length: int, span: bytearray) -> None:
    put64(span, makespan(shop, distinct(shop.jobs, read32(sequence)[:length])))


def pfs_makespans(shop: Instance, sequences: bytearray, whole: int, length: int, spans: bytearray, count: int) -> None:
    expect(whole == count * length, LENGTH)
    each = [read32(sequences)[index * length:][:length] for index in range(count)]
    put64(spans, *[makespan(shop, distinct(shop.jobs, sequence)) for sequence in each])


def pfs_bound(shop: Instance, bound: bytearray) -> None:
    put64(bound, second_program.lower_bound(shop))


def pfs_pairs_bound(shop: Instance, bound: bytearray) -> None:
    put64(bound, max([second_program.lower_bound(shop), *bounds_of_pairs(shop)]))


def pfs_table(shop: Instance, order: bytearray, length: int, starts: bytearray, starts_length: int, ends: bytearray,
              ends_length: int) -> None:
    expect(length == shop.jobs and starts_length == ends_length == shop.jobs * shop.machines, LENGTH)
    places = distinct(shop.jobs, read32(order)[:length])
    rows = ends_of(shop, places)
    put64(ends, *[end for row in rows for end in row])
    put64(starts, *[end - shop.times[machine][job] for job, row in zip(places, rows)
                    for machine, end in enumerate(row)])


def pfs_neh(shop: Instance, order: bytearray, length: int, span: bytearray, cells: bytearray) -> None:
    expect(length == shop.jobs, LENGTH)
    found = second_program.by_totals(shop)
    put32(order, found)
    put64(span, makespan(shop, found))
    put64(cells, second_program.cells_of_neh(shop))


def words_of(seed: int, first: int, count: int) -> list[int]:
    """This many random words, from this one on."""
    random = Pcg32(seed)
    return [random.next_word() for _ in range(first + count)][first:] if count else []


# How `struct pfs_rounds_options` lies in memory: the seed, `take`, `first`, `count` and `passes`.
OPTIONS = struct.Struct("=QQIII4x")


def pfs_rounds(shop: Instance, options: bytearray, order: bytearray, length: int, span: bytearray,
               cells: bytearray) -> None:
    seed, take, first, count, passes = OPTIONS.unpack(options)
    expect(length == shop.jobs, LENGTH)
    kept = distinct(shop.jobs, read32(order)[:length])
    expect(1 <= take <= shop.jobs, TAKE)
    expect(passes <= MOST_PASSES, PASSES)
    expect(first + count <= MOST_ROUNDS, ROUNDS)
    words = words_of(seed, first * take, count * take)
    for index in range(0, count * take, take):
        kept = second_program.after_round(shop, kept, words[index:index + take], passes)
    put32(order, kept)
    put64(span, makespan(shop, kept))
    put64(cells, count * second_program.cells_of_round(shop, take, passes))


Part = tuple[list[int], list[int], int]


class Proof:
    """A search of parts for orders that are shorter than an order and below a limit. A part has its first jobs, its
    last jobs and a bound."""

    def __init__(self, shop: Instance, order: list[int], limit: int, nodes: int) -> None:
        self.shop, self.best, self.limit, self.left = shop, order, limit, nodes
        self.span, self.floor = makespan(shop, order), second_program.lower_bound(shop)
        if self.floor < self.span:
            self.floor = max([self.floor, *bounds_of_pairs(shop)])
        self.parts: list[Part] = []

    @property
    def goal(self) -> int:
        return min(self.span, self.limit)

    def search(self, parts: Iterable[Part]) -> int:
        """Searches these parts. Returns the bound of them."""
        for front, back, bound in parts if self.floor < self.goal else []:
            starts, rests = [0] * self.shop.machines, [0] * self.shop.machines
            for job in front:
                starts = grown(self.shop.times, starts, job)
            for job in back[::-1]:
                rests = grown(self.shop.times[::-1], rests, job)
            self.branch(front, back, bound, starts, rests)
        return max(self.floor, min([self.goal, *(bound for *_, bound in self.parts)]))

    def branch(self, front: list[int], back: list[int], bound: int, starts: list[int], rests: list[int]) -> None:
        """Searches a node. On each machine the next job starts no sooner than `starts`, and after the jobs between
        there is at least the time of `rests`, which begin with the last machine."""
        if self.left == 0:
            self.parts.append((front, back, bound))
            return
        self.left -= 1
        times, between = self.shop.times, [job for job in range(self.shop.jobs) if job not in {*front, *back}]
        if not between:
            if makespan(self.shop, front + back) < self.span:
                self.best, self.span = front + back, makespan(self.shop, front + back)
            return
        starts, rests = raised(times, starts, between), raised(times[::-1], rests, between)
        ahead = {job: self.bound_of(times, starts, rests[::-1], between, job) for job in between}
        behind = {job: self.bound_of(times[::-1], rests, starts[::-1], between, job) for job in between}
        low = min([*ahead.values(), *behind.values()])
        fronts, backs = ([*bounds.values()].count(low) for bounds in (ahead, behind))
        forward = fronts < backs or fronts == backs and sum(ahead.values()) >= sum(behind.values())
        bounds = ahead if forward else behind
        while min(bounds.values()) < self.goal:
            job = min(bounds, key=lambda job: (bounds[job], job))
            if forward:
                self.branch([*front, job], back, bounds[job], grown(times, starts, job), rests)
            else:
                self.branch(front, [job, *back], bounds[job], starts, grown(times[::-1], rests, job))
            bounds[job] = self.span

    def bound_of(self, times: list[list[int]], starts: list[int], rests: list[int], between: list[int],
                 job: int) -> int:
        """A bound of the orders with a job next, by each machine: from its end there, and from the least ends of others
        on the machines before, the times of the other jobs and the rest."""
        ends, most, ready = grown(times, starts, job), self.floor, 0
        for row, end, rest in zip(times, ends, rests):
            ready = max(ready, end)
            most = max(most, ready + sum(row[other] for other in between if other != job) + rest)
            ready += least_of(row, between)
        return most


def least_of(row: list[int], between: list[int]) -> int:
    """The least time of the jobs between on a machine, if there are at least two."""
    return min((row[job] for job in between)) if len(between) > 1 else 0


def grown(times: list[list[int]], starts: list[int], job: int) -> list[int]:
    """The ends of a job that is next."""
    ends = [0]
    for row, start in zip(times, starts):
        ends.append(max(ends[-1], start) + row[job])
    return ends[1:]


def raised(times: list[list[int]], starts: list[int], between: list[int]) -> list[int]:
    """On each machine no job starts sooner than on the one before and the least time there."""
    made = starts[:1]
    for row, start in zip(times, starts[1:]):
        made.append(max(start, made[-1] + least_of(row, between)))
    return made


def pfs_prove(shop: Instance, order: bytearray, length: int, nodes: int, span: bytearray, bound: bytearray,
              left: bytearray) -> None:
    expect(length == shop.jobs, LENGTH)
    given = distinct(shop.jobs, read32(order)[:length])
    expect(shop.jobs <= MOST_PROVED_JOBS and shop.machines <= MOST_PROVED_MACHINES, SIZE)
    proof = Proof(shop, given, 2**64 - 1, nodes)
    put64(bound, proof.search([([], [], 0)]))
    put32(order, proof.best)
    put64(span, proof.span)
    put64(left, proof.left)


# How `struct pfs_proof` lies in memory: `limit`, `nodes`, `count`, `makespan`, `bound` and `left`.
PROOF = struct.Struct("=6Q")
OPEN = 2**32 - 1


def part_of(size: int, row: list[int]) -> Part:
    """The part of a row. Its jobs are validated from the left, without the first run of open places."""
    first = row.index(OPEN) if OPEN in row else len(row)
    last = next((place for place in range(first, len(row)) if row[place] != OPEN), len(row))
    distinct(size, row[:first] + row[last:])
    return row[:first], row[last:], 0


def pfs_prove_parts(shop: Instance, order: bytearray, length: int, rows: bytearray, rows_length: int, bounds: bytearray,
                    room: int, proof: bytearray) -> None:
    jobs = shop.jobs
    limit, nodes, count, *_ = PROOF.unpack(proof)
    expect(length == jobs and rows_length == room * jobs, LENGTH)
    given = distinct(jobs, read32(order)[:length])
    expect(jobs <= MOST_PROVED_JOBS and shop.machines <= MOST_PROVED_MACHINES, SIZE)
    expect(count + jobs * (jobs + 1) // 2 <= room, ROOM)
    search = Proof(shop, given, limit, nodes)
    bound = search.search([part_of(jobs, read32(rows)[row * jobs:][:jobs]) for row in range(count)])
    put32(order, search.best)
    put32(rows, [place for front, back, _ in search.parts
                 for place in [*front, *[OPEN] * (jobs - len(front) - len(back)), *back]])
    put64(bounds, *(bound for *_, bound in search.parts))
    put64(proof, limit, nodes, len(search.parts), search.span, bound, search.left)


def bounds_of_pairs(shop: Instance) -> Iterator[int]:
    """Of each pair of machines the least makespan with the lags between them, by Johnson's rule (1954), and the least
    time of any job on the machines before and on those after them."""
    def least(rows: Sequence[Sequence[int]]) -> int:
        return min((sum(row[job] for row in rows) for job in range(shop.jobs)))

    for one, other in itertools.combinations(range(shop.machines), 2):
        first, second = shop.times[one], shop.times[other]
        lags = [sum(row[job] for row in shop.times[one + 1:other]) for job in range(shop.jobs)]
        order = sorted(range(shop.jobs), key=lambda job: (0, first[job] + lags[job]) if first[job] <= second[job]
                       else (1, -second[job] - lags[job]))
        yield least(shop.times[:one]) + least(shop.times[other + 1:]) + max(
            sum(first[each] for each in order[:at + 1]) + lags[job] + sum(second[each] for each in order[at:])
            for at, job in enumerate(order))


# How `struct pfs_iterate_options` begins in memory, up to its lists: the seed, `take`, `held`, `first`, `count`,
# `partial`, `passes` and `ties`, and 4 bytes to a multiple of 8.
ITERATE_OPTIONS = struct.Struct("=QQQIIIII4x")


def pfs_iterate(shop: Instance, options: bytearray, accept: bytearray, accept_length: int, stay: bytearray,
                stay_length: int, current: bytearray, length: int, span: bytearray, best: bytearray, best_length: int,
                best_span: bytearray) -> None:
    seed, take, held, first, count, partial, passes, ties = ITERATE_OPTIONS.unpack(options)
    expect(length == best_length == shop.jobs, LENGTH)
    kept = distinct(shop.jobs, read32(current)[:length])
    shortest = distinct(shop.jobs, read32(best)[:length])
    staying = {job for job in range(min(stay_length, shop.jobs)) if stay[job]}
    expect(1 <= take <= len([job for job in kept[held:] if job not in staying]), TAKE)
    expect(kept[:held] == shortest[:held], HELD)
    expect(max(partial, passes) <= MOST_PASSES, PASSES)
    expect(ties <= MOST_TIES, TIES)
    expect(first + count <= MOST_ROUNDS, ROUNDS)
    chances = read32(accept)[:accept_length]
    kept, shortest = iterated(shop, kept, shortest, (seed, take, held, first, count, partial, passes, ties),
                              lambda longer, word: longer <= 0 or longer < len(chances) and word < chances[longer],
                              staying)
    put32(current, kept)
    put64(span, makespan(shop, kept))
    put32(best, shortest)
    put64(best_span, makespan(shop, shortest))


def iterated(shop: Instance, kept: list[int], shortest: list[int], options: tuple[int, ...],
             is_accepted: Callable[[int, int], bool], staying: Collection[int] = ()) -> tuple[list[int], list[int]]:
    """The current and the best order after rounds with these options, in which some jobs stay. An order that is longer
    by some time is accepted or not by the round's first word."""
    seed, take, held, first, count, partial, passes, ties = options
    each = shop.jobs + take + 1
    words = words_of(seed, first * each, count * each)
    for index in range(0, count * each, each):
        taken = drawn([job for job in kept[held:] if job not in staying], words[index + 1:index + 1 + take])
        visited = drawn(list(range(shop.jobs)), words[index + 1 + take:index + each])
        visited = [job for job in visited if job not in staying]
        left = [job for job in kept if job not in taken]
        left = improved(shop, left, held, visited, partial, ties)
        for job in taken:
            left = placed(shop, left, held, job, ties)
        new = improved(shop, left, held, visited, passes, ties)
        shortest = min(shortest, new, key=lambda order: makespan(shop, order))
        if is_accepted(makespan(shop, new) - makespan(shop, kept), words[index]):
            kept = new
    return kept, shortest


def drawn(jobs: list[int], words: list[int]) -> list[int]:
    """The jobs that words remove one after the other, each from the jobs that are left."""
    left = list(jobs)
    return [left.pop(word % len(left)) for word in words]


def placed(shop: Instance, order: list[int], held: int, job: int, ties: int) -> list[int]:
    """The order with a job at the first of its best places after the held jobs; with `ties` 1 those are the best that
    make the next job, or else the order, end the least later on all machines together."""
    def loss(place: int) -> tuple[int, int]:
        made = order[:place] + [job] + order[place:]
        return makespan(shop, made), ties * (last_ends(shop, made[:place + 2]) - last_ends(shop, order[:place + 1]))

    place = min(range(held, len(order) + 1), key=loss)
    return order[:place] + [job] + order[place:]


def last_ends(shop: Instance, sequence: list[int]) -> int:
    """The sum of the ends of a sequence's last job on all machines, and 0 of no job."""
    return sum(ends_of(shop, sequence)[-1]) if sequence else 0


def improved(shop: Instance, order: list[int], held: int, visited: list[int], passes: int, ties: int) -> list[int]:
    """The order after passes, up to the first that makes it no shorter."""
    for _ in range(passes):
        before = makespan(shop, order)
        for job in visited:
            if job in order[held:]:
                order = placed(shop, [other for other in order if other != job], held, job, ties)
        if makespan(shop, order) >= before:
            break
    return order


def others_of(shop: Instance, sequence: bytearray, length: int, job: int) -> list[int]:
    """The sequence into which a job is to be inserted."""
    others = distinct(shop.jobs, read32(sequence)[:length])
    distinct(shop.jobs, [*others, job], length)
    return others


def pfs_insert_ties(shop: Instance, ties: int, sequence: bytearray, length: int, job: int, place: bytearray,
                    span: bytearray) -> None:
    others = others_of(shop, sequence, length, job)
    expect(ties <= MOST_TIES, TIES)
    order = placed(shop, others, 0, job, ties)
    put64(place, order.index(job))
    put64(span, makespan(shop, order))


def pfs_insert(shop: Instance, *others: Any) -> None:
    pfs_insert_ties(shop, 0, *others)


def pfs_insertions(shop: Instance, sequence: bytearray, length: int, job: int, spans: bytearray, count: int) -> None:
    expect(count == length + 1, LENGTH)
    others = others_of(shop, sequence, length, job)
    put64(spans, *[makespan(shop, [*others[:place], job, *others[place:]]) for place in range(count)])


def pfs_heads_tails(shop: Instance, sequence: bytearray, length: int, heads: bytearray, heads_length: int,
                    tails: bytearray, tails_length: int) -> None:
    expect(heads_length == tails_length == length * shop.machines, LENGTH)
    places = distinct(shop.jobs, read32(sequence)[:length])
    put64(heads, *[end for row in ends_of(shop, places) for end in row])
    rests = [second_program.instance_of([times[machine:] for times in zip(*shop.times)])
             for machine in range(shop.machines)]
    put64(tails, *[makespan(rest, places[place:]) for place in range(length) for rest in rests])


def pfs_construct_ties(shop: Instance, ties: int, more: bytearray, more_length: int, order: bytearray,
                       order_length: int, span: bytearray) -> None:
    length = order_length - more_length
    expect(length >= 0, LENGTH)
    made = distinct(shop.jobs, read32(order)[:length])
    inserted = distinct(shop.jobs, [*made, *read32(more)[:more_length]], length)[length:]
    expect(ties <= MOST_TIES, TIES)
    for job in inserted:
        made = placed(shop, made, 0, job, ties)
    put32(order, made)
    put64(span, makespan(shop, made))


def pfs_construct(shop: Instance, sequence: bytearray, length: int, more: bytearray, more_length: int,
                  order: bytearray, order_length: int, span: bytearray) -> None:
    expect(order_length == length + more_length, LENGTH)
    made = bytearray(sequence[:4 * length]) + bytes(4 * more_length)
    pfs_construct_ties(shop, 0, more, more_length, made, order_length, span)
    order[:4 * order_length] = made


def to_move(shop: Instance, moved: bytearray, moved_length: int, passes: int, sequence: bytearray,
            length: int) -> tuple[list[int], list[int]]:
    """The sequence to begin with, and the jobs of a pass."""
    made = distinct(shop.jobs, read32(sequence)[:length])
    each = distinct(shop.jobs, read32(moved)[:moved_length])
    expect(set(each) <= set(made), JOB)
    expect(passes <= MOST_PASSES, PASSES)
    return made, each


def pfs_local_search(shop: Instance, moved: bytearray, moved_length: int, passes: int, sequence: bytearray,
                     length: int, span: bytearray) -> None:
    made, each = to_move(shop, moved, moved_length, passes, sequence, length)
    for job in each * passes:
        made = second_program.inserted(shop, [other for other in made if other != job], job)
    put32(sequence, made)
    put64(span, makespan(shop, made))


def pfs_local_search_ties(shop: Instance, ties: int, moved: bytearray, moved_length: int, passes: int,
                          sequence: bytearray, length: int, span: bytearray) -> None:
    made, each = to_move(shop, moved, moved_length, passes, sequence, length)
    expect(ties <= MOST_TIES, TIES)
    made = improved(shop, made, 0, each, passes, ties)
    put32(sequence, made)
    put64(span, makespan(shop, made))


def pfs_write(shop: Instance, notes: bytearray, layout: int, text: bytearray, room: int, length: bytearray) -> None:
    expect(layout < len(LAYOUTS), LAYOUT)
    shop.notes = read32(notes)
    put_text(text, room, length, second_program.canonical(shop, LAYOUTS[layout]))


# The others

def pfs_random(seed: int, first: int, words: bytearray, length: int) -> None:
    put32(words, words_of(seed, first, length))


def pfs_generate(jobs: int, machines: int, seed: int, times: bytearray, length: int) -> None:
    expect_sizes(jobs, machines)
    expect(1 <= seed <= MOST_GENERATOR_SEED, SEED)
    expect(length == jobs * machines, LENGTH)
    put32(times, by_job(second_program.generated(jobs, machines, seed)))


def pfs_read(content: bytearray, length: int, layout: int, block: int, found: bytearray, times: bytearray, room: int,
             place: bytearray) -> None:
    expect(layout < len(LAYOUTS), LAYOUT)
    expect(1 <= block <= MOST_BLOCKS, BLOCK)
    with faults_of_a_file(place):
        shop = second_program.read_instance(bytes(content[:length]), LAYOUTS[layout], block)
    # The last field is followed by four bytes that nothing is said of.
    found[:28] = struct.pack("=QQIII", shop.jobs, shop.machines, *shop.notes)
    expect(room >= shop.jobs * shop.machines, ROOM)
    put32(times, by_job(shop))


def pfs_read_order(content: bytearray, length: int, order: bytearray, room: int, jobs: bytearray, machines: bytearray,
                   span: bytearray, place: bytearray) -> None:
    with faults_of_a_file(place):
        found, stated_machines, stated = second_program.read_order(bytes(content[:length]))
    put64(jobs, len(found))
    put64(machines, stated_machines or 0)
    put64(span, stated)
    expect(room >= len(found), ROOM)
    put32(order, [job - 1 for job in found])


def pfs_write_order(order: bytearray, size: int, machines: int, span: int, text: bytearray, room: int,
                    length: bytearray) -> None:
    expect(1 <= size <= MOST_JOBS and machines <= MOST_MACHINES, SIZE)
    jobs = distinct(size, read32(order)[:size])
    expect(span <= MOST_MAKESPAN, MAKESPAN)
    put_text(text, room, length, second_program.order_text(jobs, machines or None, span))


FUNCTIONS: dict[str, Callable[..., None]] = {
    name: function for name, function in globals().items() if name.startswith("pfs_")
}
