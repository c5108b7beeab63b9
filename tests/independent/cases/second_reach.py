"""Settings for the second reach of document 02, CR 2: records at each edge of
it, and confirmations that differ in it."""
from itertools import product
from typing import Iterable, Iterator

from cases.records import ANOTHER, ROOM, SAMPLE, flip, put, relay
from cases.steps import History

AT = 26
ON = put(SAMPLE, AT, 1200)
FIRSTS = (1, 2, 255, 256, 257, 850, 1999, 2000)     # first reaches


def numbers(first: int) -> list[int]:
    """Of the second reach: off, those beside the first and beside 2000, the
    largest, and some with nothing in byte 26 or in byte 27."""
    return sorted({0, 1, first - 1, first, first + 1, 255, 256, 1024, 1999,
                   2000, 2001, 65280, 65535})


def edges(firsts=FIRSTS) -> Iterator[bytes]:
    for first in firsts:
        for second in numbers(first):
            yield put(put(SAMPLE, 10, first), AT, second)


def bits(at: int, given: Iterable[bytes]) -> Iterator[bytes]:
    """Each bit of the two bytes there, changed in these records."""
    for record, place in product(given, (at, at + 1)):
        yield from (flip(record, place, 1 << bit) for bit in range(8))


def records() -> Iterator[bytes]:
    yield from edges()
    yield from bits(AT, (SAMPLE, put(SAMPLE, 10, 1), ON))


def confirmations(at: int = AT, given: Iterable[bytes] = (SAMPLE, ON),
                  numbers: Iterable[int] = (0, 1201, 1456)
                  ) -> Iterator[History]:
    """One bit of the two bytes there, or both bytes, other than proposed, with
    the reach on and off. Then the right record as a third entry, and what is
    in force."""
    for record in given:
        entries = [*bits(at, [record]),
                   *(put(record, at, number) for number in numbers)]
        for entry in entries:
            yield History(relay(ANOTHER), [
                ('propose', record), ('confirm', entry), ('confirm', record),
                ('read_back', ROOM)], f'reach at {at} confirmed otherwise')
