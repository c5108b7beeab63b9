"""Inputs for runs of the window program.

fixed() gives the same ones each time: those of program_cases.py, and one for
each refusal and place. by_chance(count, seed) gives so many more: good entries
with windows of all kinds, and what can be wrong with them.
"""
import random
from collections import deque
from itertools import chain, islice
from typing import Callable, Iterator

from cases import (chosen, program_cases, quadrilateral, records,
                   resistive_reach, second_reach)
from cases.building import ENDS, as_data, without
from model.differential import slope
from model.measuring import MISSING, length
from model.settings import FAULTS, RECORD, first_fault

ENTRIES = 2 * RECORD
Input = tuple[str, bytes]   # a label, and what the program reads

# ---- The same ones each time -----------------------------------------------

def refused_entries() -> Iterator[Input]:
    """Each refusal of an entry, at each place."""
    bad = {first_fault(record): record for record in chain(
        records.field_edges(), records.limit_edges(), records.spare_bytes())}
    for place in FAULTS:
        yield f'proposal refused at {place}', 2 * bad[place]
    for place in range(RECORD):
        yield (f'confirmation differs at {place}',
               records.SAMPLE + records.flip(records.SAMPLE, place, 1))


def both_reaches() -> Iterator[Input]:
    """Each edge of the second reach and of R, with a window that is reached if
    the entries are good."""
    for record in chain(second_reach.edges((1, 850, 2000)),
                        resistive_reach.edges()):
        yield (f'second reach and R, {record.hex()}',
               2 * record + as_data([0] * length(2)))


def each_diff() -> Iterator[Input]:
    """Each number that there is after diff."""
    for label, record, numbers in quadrilateral.each_byte():
        yield label, 2 * record + as_data(numbers)


def refused_windows() -> Iterator[Input]:
    """A missing sample at each place of a window, one after the other."""
    for ends in ENDS:
        quiet, good = [0] * length(ends), records.put(records.SAMPLE, 0, ends)
        windows = [as_data(without(quiet, [place]))
                   for place in range(length(ends))]
        yield (f'missing at each place, {ends} ends',
               2 * good + b''.join(windows))


def many() -> Input:
    """More windows than three digits can number."""
    return ('1100 windows',
            2 * records.SAMPLE + 1100 * as_data([0] * length(2)))


def fixed() -> Iterator[Input]:
    yield from program_cases.INPUTS.items()
    yield from program_cases.EXAMPLES.items()
    yield from refused_entries()
    yield from both_reaches()
    yield from each_diff()
    yield from refused_windows()
    yield many()


# ---- What can be wrong with an input ---------------------------------------

Change = Callable[[random.Random, bytes], bytes]


def missing(rng: random.Random, data: bytes) -> bytes:
    """Numbers missing in the windows."""
    for _ in range(rng.choice([1, 1, 2, 5])):
        numbers = (len(data) - ENTRIES) // 2
        if numbers > 0:
            place = ENTRIES + 2 * rng.randrange(numbers)
            data = records.put(data, place, MISSING)
    return data


def odd_byte(rng: random.Random, data: bytes) -> bytes:
    return data + records.noise(rng, 1)


def trailing(rng: random.Random, data: bytes) -> bytes:
    return data + records.noise(rng, rng.choice([2, rng.randint(1, 700)]))


def cut(rng: random.Random, data: bytes) -> bytes:
    edge = rng.choice([RECORD, ENTRIES, len(data)]) + rng.randint(-2, 2)
    return data[:rng.choice([max(edge, 0), rng.randint(0, len(data))])]


def bit(rng: random.Random, data: bytes) -> bytes:
    """One bit in either entry."""
    return records.flip(data, rng.randrange(ENTRIES), 1 << rng.randrange(8))


def same_bit(rng: random.Random, data: bytes) -> bytes:
    """The same in both."""
    at, one = rng.randrange(RECORD), 1 << rng.randrange(8)
    return records.flip(records.flip(data, at, one), RECORD + at, one)


def bad_proposal(rng: random.Random, data: bytes) -> bytes:
    return 2 * records.damaged(rng) + data[ENTRIES:]


def swapped(rng: random.Random, data: bytes) -> bytes:
    """Another record is proposed, this one after it."""
    return records.good(rng) + data[:RECORD] + data[ENTRIES:]


def short_entry(rng: random.Random, data: bytes) -> bytes:
    """Bytes left out, or a whole entry."""
    at = rng.choice([0, RECORD, rng.randrange(ENTRIES)])
    return data[:at] + data[at + rng.choice([1, 2, RECORD]):]


def long_entry(rng: random.Random, data: bytes) -> bytes:
    at = rng.choice([0, RECORD, ENTRIES, rng.randrange(ENTRIES)])
    return data[:at] + records.noise(rng, rng.choice([1, 2])) + data[at:]


def noise(rng: random.Random, data: bytes) -> bytes:
    """Nothing of it is left."""
    kind = rng.choice([records.noise, lambda _, size: bytes(size)])
    return kind(rng, rng.randint(0, 400))


OF_WINDOWS: list[Change] = [missing, missing, odd_byte, trailing, cut]
OF_ENTRIES: list[Change] = [bit, bit, same_bit, bad_proposal, swapped,
                            short_entry, long_entry, cut, noise]


def changes(rng: random.Random) -> list[Change]:
    """None for some inputs; for most something with the windows, so that
    they are reached."""
    if rng.random() < 0.3:
        return []
    found = rng.choices(OF_WINDOWS, k=rng.choice([0, 1, 1, 2]))
    if rng.random() < 0.35:
        found.insert(0, rng.choice(OF_ENTRIES))
    return found


# ---- By chance -------------------------------------------------------------

KEPT = 20


def series(rng: random.Random) -> Iterator[Input]:
    """Good entries, and up to five windows of the record's ends: the one
    that goes with the record, and some of those before it."""
    kept = {ends: deque(maxlen=KEPT) for ends in ENDS}
    for label, record, numbers in chosen.endless(rng):
        before, count = kept[slope(record).ends], rng.randint(0, 5)
        others = rng.sample(before, min(len(before), max(count - 1, 0)))
        windows = [numbers, *others][:count]
        before.append(numbers)
        rng.shuffle(windows)
        yield (f'{label}, {len(windows)} windows',
               2 * record + b''.join(map(as_data, windows)))


def by_chance(count: int, seed: int) -> Iterator[Input]:
    rng = random.Random(seed)
    for label, data in islice(series(rng), count):
        for change in changes(rng):
            label, data = f'{label}, {change.__name__}', change(rng, data)
        yield label, data
