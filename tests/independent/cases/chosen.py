"""Good records, each with a window of its length, from all that choose windows
here: for decide_cases.py and program_inputs.py.

fixed() gives the same ones each time, endless(rng) as many more as are wanted.
"""
import random
from itertools import chain, cycle
from typing import Iterable, Iterator, NamedTuple

from cases import (balanced, changes, currents, hand_checks, quadrilateral,
                   roots, second_zone, trying, windows)
from cases.building import HIGH, LINE, LOW, any_line, record
from cases.records import put
from model.differential import slope
from model.measuring import Line, line, phasors
from model.settings import OFF


class Chosen(NamedTuple):
    label: str
    record: bytes
    numbers: list[int]


Reaches = tuple[int, int]   # the first and the second


def reaches(chosen: Chosen) -> list[Reaches]:
    """The smallest, the largest, and those at which a loop just asserts and
    just does not, in both zones; but for the record's own."""
    given = line(chosen.record)
    enough = windows.just_enough(given, phasors(chosen.numbers, given.ends))
    found = {(LOW[10], OFF), (HIGH[10], OFF), (LOW[10], HIGH[26])}
    found.update(*map(windows.both_zones, enough))
    return sorted(found - {(given.r, given.r2)})


def at_reaches(chosen: Chosen, pair: Reaches) -> Chosen:
    (label, good, numbers), (r, r2) = chosen, pair
    return Chosen(f'{label}, r={r}, r2={r2}', put(put(good, 10, r), 26, r2),
                  numbers)


def at_pair(chosen: Chosen, K: int, pickup: int) -> Chosen:
    """With this slope and differential pickup."""
    label, good, numbers = chosen
    return Chosen(f'{label}, K={K}, pickup {pickup}',
                  put(put(good, 2, K), 4, pickup), numbers)


def tried(found: trying.Currents, on: Line = LINE) -> Iterator[Chosen]:
    """With each pair that is to be tried."""
    good = record(on._replace(ends=found.ends))
    for pair in found.tries:
        yield at_pair(Chosen(found.label, good, found.numbers), *pair)


def once(some: Iterable[Chosen]) -> Iterator[Chosen]:
    """Each record with each window once: an edge that is sought from several
    records is found several times."""
    before = set()
    for chosen in some:
        key = chosen.record, tuple(chosen.numbers)
        if key not in before:
            before.add(key)
            yield chosen


def one_by_one() -> Iterator[Chosen]:
    lines = cycle([LINE, LINE._replace(r2=HIGH[26], R=HIGH[28])])
    for found in chain(changes.each_slope(), changes.fixed()):
        yield from tried(found, next(lines))
    yield from (Chosen(*found) for found in balanced.fixed())
    for label, on, numbers in chain(hand_checks.of_channel(), roots.fixed()):
        yield Chosen(label, record(on), numbers)
    for found in windows.fixed():
        yield Chosen(*found)
        yield from (at_reaches(Chosen(*found), pair)
                    for pair in reaches(Chosen(*found)))
    for label, on, numbers in second_zone.fixed():
        yield Chosen(label, record(on), numbers)
    for found in currents.fixed():
        yield from tried(found, next(lines))
    at_many = chain.from_iterable(quadrilateral.each_resistance())
    for found in chain(quadrilateral.fixed(), at_many):
        yield Chosen(*found)


def fixed() -> Iterator[Chosen]:
    return once(one_by_one())


def resistances(chosen: Chosen) -> list[int]:
    """R just enough for one of its quadrilaterals, and one less; else the
    largest."""
    given = line(chosen.record)
    enough = quadrilateral.just_enough(given, phasors(chosen.numbers,
                                                      given.ends))
    return sorted({*enough, *(R - 1 for R in enough)}) or [HIGH[28]]


def at_an_edge(rng: random.Random, chosen: Chosen) -> Chosen:
    """With a slope and a pickup at an edge of one of its phases, with a reach
    at an edge of one of its loops, or with R at an edge of one of its
    quadrilaterals."""
    kind = rng.random()
    if kind < 0.4:
        return at_reaches(chosen, rng.choice(reaches(chosen)))
    if kind < 0.6:
        return Chosen(*quadrilateral.at_resistance(
            chosen, rng.choice(resistances(chosen))))
    ends = slope(chosen.record).ends
    return at_pair(chosen, *rng.choice(trying.edges(ends, chosen.numbers)))


def endless(rng: random.Random) -> Iterator[Chosen]:
    """One in ten is a balanced fault, and one in ten a quadrilateral."""
    of_lines, of_currents = windows.endless(rng), currents.endless(rng)
    of_balanced, of_quads = balanced.endless(rng), quadrilateral.endless(rng)
    while True:
        yield Chosen(*next(of_lines))
        yield at_an_edge(rng, Chosen(*next(of_lines)))
        yield rng.choice([*tried(next(of_currents))])
        yield rng.choice([*tried(next(of_currents), any_line(rng))])
        if rng.random() < 0.5:
            yield Chosen(*next(of_balanced))
        if rng.random() < 0.5:
            yield Chosen(*next(of_quads))
