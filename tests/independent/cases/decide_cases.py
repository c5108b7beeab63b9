"""The calls of decide that are compared: state, samples and room.

fixed() gives the ones that document 01's rules suggest, one by one,
endless(rng) as many more as are wanted.
"""
import random
from itertools import chain, cycle, islice, product
from typing import Callable, Iterator, NamedTuple

from cases import chosen, records, resistive_reach, second_reach
from cases.building import (ENDS, HIGH, LINE, as_data, largest, of_phases,
                            record, without)
from cases.chosen import Chosen
from cases.trying import VOLTS
from cases.windows import missing
from model.measuring import MISSING, channels, length
from model.settings import NOTHING, RECORD, STATE


class Call(NamedTuple):
    label: str
    state: bytes
    samples: bytes
    room: int


OTHER_STATES = (0, 1, STATE - 1, STATE + 1, 2 * STATE)
SMALL, ENOUGH = (0, 31), (32, 33, 64)


def plain(found: Chosen, pending: bytes = NOTHING, room: int = 32) -> Call:
    return Call(found.label, records.relay(found.record, pending),
                as_data(found.numbers), room)


# ---- What would show if it were not refused --------------------------------

def strong(ends: int) -> list[int]:
    """In each phase all ends have the largest currents, so that with two ends
    or more it operates at every slope below 100, with every pickup."""
    return of_phases(VOLTS, [[largest(shift)] * ends for shift in (2, 7, 12)])


def good(ends: int) -> bytes:
    return record(LINE._replace(ends=ends), HIGH[2] - 1, HIGH[4])


# ---- Lengths of the window -------------------------------------------------

def other_lengths(ends: int) -> list[int]:
    """In bytes: hardly any, a byte, a number or a frame less or more, right
    but for a carry, those of other ends, and long ones."""
    right, frame = 2 * length(ends), 2 * channels(ends)
    beside = [right + change
              for change in (-frame, -2, -1, 1, 2, frame, 256, 4096, 65536)]
    of_others = [2 * length(other) for other in range(10)]
    longest = 2 * length(ENDS[-1])
    found = {0, 1, 2, *beside, *of_others, 2 * right, longest + 1,
             longest + 2, 8191, 8192}
    return sorted(found - {right})


def repeated(data: bytes, size: int) -> bytes:
    """So many bytes of the data, over and over."""
    return (data * (size // len(data) + 1))[:size]


def lengths() -> Iterator[Call]:
    """Each with a fault, and with every number missing."""
    for ends in ENDS:
        every = range(length(ends))
        for size, places in product(other_lengths(ends), ([], every)):
            data = as_data(without(strong(ends), places))
            yield Call(f'{size} bytes for {ends} ends',
                       records.relay(good(ends)), repeated(data, size), 32)


# ---- What competes ---------------------------------------------------------

def order() -> Iterator[Call]:
    """Everything that is refused with everything else, for each N. A good
    record is pending, and the window's length is right for it or not."""
    small, enough = cycle(SMALL), cycle(ENOUGH)
    for ends in ENDS:
        bad = records.put(good(ends), 2, 0)
        other, last = cycle(other_lengths(ends)[1:]), length(ends) - 1
        for size, in_force, wrong, tight, places in product(
                (STATE, *OTHER_STATES), (good(ends), bad, NOTHING),
                (False, True), (False, True), ([], [0, last])):
            data = as_data(without(strong(ends), places))
            yield Call(
                f'order: state of {size} bytes, in force {in_force.hex()}, '
                f'another length: {wrong}, missing {places}',
                records.cut_or_filled(records.relay(in_force, good(ends)),
                                      size),
                repeated(data, next(other)) if wrong else data,
                next(small if tight else enough))


# ---- Stored records --------------------------------------------------------

def stored() -> Iterator[Call]:
    """Records at the edges of the rules found in force, with a window of
    their own length where N is not far off; and what may be pending."""
    some_angles = islice(records.angle_edges(), 0, None, 50)
    all_ends = (records.put(good(2), 0, ends) for ends in range(9))
    for in_force in chain(records.field_edges(), some_angles,
                          records.limit_edges(), records.spare_bytes(),
                          second_reach.records(), resistive_reach.records(),
                          all_ends):
        ends = int.from_bytes(in_force[:2], 'big')
        numbers = strong(ends if ends < 9 else 2)
        yield plain(Chosen('in force, at an edge', in_force, numbers))
    kinds = (good(2), good(6), NOTHING, records.put(good(2), 30, 1),
             b'\xff' * RECORD)
    for (in_force, pending), ends in product(product(kinds, kinds), (2, 6)):
        yield plain(Chosen('in force and pending', in_force, strong(ends)),
                    pending)


# ---- Missing numbers -------------------------------------------------------

def missing_numbers() -> Iterator[Call]:
    """At each edge of each frame, alone and with the last; at each channel
    of a frame; and none where the mark's bytes belong to two numbers."""
    for ends in ENDS:
        frame, last = channels(ends), length(ends) - 1
        edges = [at for at in range(last + 1) if at % frame in (0, frame - 1)]
        for at in chain(edges, range(frame, 2 * frame)):
            for places in ([at], [at, last]):
                yield plain(Chosen(f'missing {places}', good(ends),
                                   without(strong(ends), places)))
        for numbers in ([128, 1], [-128, 0], [-32767, 32767]):
            yield plain(Chosen(f'not missing: {numbers}', good(ends),
                               (numbers * last)[:last + 1]))
    for label, line, numbers in missing():
        yield plain(Chosen(label, good(line.ends), numbers), room=64)


# ---- Random calls ----------------------------------------------------------

def other_state(rng: random.Random, call: Call) -> Call:
    return call._replace(state=records.cut_or_filled(
        call.state, rng.choice(OTHER_STATES)))


def other_record(rng: random.Random, call: Call) -> Call:
    """Another in force: any, or the same with one bit changed."""
    one_bit = records.flip(call.state[:RECORD], rng.randrange(RECORD),
                           1 << rng.randrange(8))
    in_force = rng.choice([records.any_record(rng), one_bit])
    return call._replace(state=in_force + call.state[RECORD:])


def other_length(rng: random.Random, call: Call) -> Call:
    size = rng.choice([*other_lengths(rng.choice(ENDS)),
                       rng.randrange(4000)])
    return call._replace(samples=repeated(call.samples, size))


def small_room(rng: random.Random, call: Call) -> Call:
    return call._replace(room=rng.choice([*SMALL, rng.randrange(32)]))


def some_missing(rng: random.Random, call: Call) -> Call:
    samples = call.samples
    for _ in range(rng.choice([1, 1, 2, 3])):
        place = rng.randrange(len(samples) // 2)
        samples = records.put(samples, 2 * place, MISSING)
    return call._replace(samples=samples)


# In this order, so that a window is not cut to nothing before it is spoiled.
SPOILERS: list[Callable[[random.Random, Call], Call]] = [
    some_missing, other_length, other_record, other_state, small_room]


def spoiled(rng: random.Random, call: Call) -> Call:
    for spoiler in SPOILERS:
        if rng.random() < 0.3:
            call = spoiler(rng, call)._replace(
                label=f'{call.label}, {spoiler.__name__}')
    return call


def endless(rng: random.Random) -> Iterator[Call]:
    """One in five spoiled."""
    for found in chosen.endless(rng):
        pending = rng.choice([NOTHING, records.any_record(rng)])
        call = plain(found, pending, rng.choice(ENOUGH))
        yield spoiled(rng, call) if rng.random() < 0.2 else call


# ---- All of them -----------------------------------------------------------

def fixed() -> Iterator[Call]:
    return chain(order(), lengths(), stored(), missing_numbers(),
                 map(plain, chosen.fixed()))
