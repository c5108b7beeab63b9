"""Settings for the resistive reach R of document 02, CR 7: records at each edge
of it, beside a good second reach and beside each other fault, and confirmations
that differ in it."""
from itertools import product
from typing import Iterator

from cases import second_reach
from cases.records import SAMPLE, field_edges, limit_edges, put, spare_bytes
from cases.steps import History
from model.settings import first_fault

AT = 28
ON = put(SAMPLE, AT, 200)
# Off, those beside its ends, those of one byte alone, and the largest there
# can be.
NUMBERS = (0, 1, 2, 9, 10, 255, 256, 257, 511, 512, 768, 850, 999, 1000, 1001,
           1023, 1024, 2000, 32768, 65280, 65535)


def edges() -> Iterator[bytes]:
    for base, number in product((SAMPLE, second_reach.ON), NUMBERS):
        yield put(base, AT, number)


def beside_faults() -> Iterator[bytes]:
    """With one record for each other offset at which there can be a fault."""
    faulty = {first_fault(record): record for record in (
        *field_edges(), *limit_edges(), *spare_bytes())}
    for (place, record), number in product(faulty.items(), (
            1, 10, 256, 1000, 1001, 65535)):
        if place not in (None, AT):
            yield put(record, AT, number)


def records() -> Iterator[bytes]:
    yield from edges()
    yield from beside_faults()
    yield from second_reach.bits(AT, (SAMPLE, second_reach.ON, ON))


def confirmations() -> Iterator[History]:
    return second_reach.confirmations(AT, (SAMPLE, ON), (0, 201, 456))
