"""The calls of propose, confirm and read-back that are compared: first the cases that document 01's rules suggest, one by one, then
random ones."""
from itertools import chain, combinations

from cases import resistive_reach, second_reach
from cases.records import (ANOTHER, FRESH, LENGTHS, ROOM, SAMPLE, SHORT_LENGTHS, angle_edges, any_record, cut_or_filled, field_edges,
                           flip, limit_edges, put, relay, spare_bytes, two_faults)
from cases.steps import History
from model.settings import NOTHING, RECORD


def each_way(record):
    """A record proposed, found pending, and found in force."""
    yield History(relay(ANOTHER, SAMPLE), [('propose', record), ('confirm', record)])
    yield History(relay(ANOTHER, record), [('confirm', record)])
    yield History(relay(record, ANOTHER), [('read_back', ROOM), ('propose', SAMPLE)])


# Entries and slices


def damaged_confirmations():
    """Every bit, every pair of bytes; after each the right record as a third entry, and what is in force."""
    damaged = [flip(SAMPLE, at, 1 << bit) for at in range(RECORD) for bit in range(8)]
    damaged += [flip(flip(SAMPLE, a, 255), b, 1) for a, b in combinations(range(RECORD), 2)]
    for entry in damaged:
        yield History(relay(ANOTHER), [('propose', SAMPLE), ('confirm', entry), ('confirm', SAMPLE), ('read_back', ROOM)])


def lengths():
    """Each slice at each length, with the rest as it should be and with the rest wrong."""
    for n in LENGTHS:
        for state in (relay(SAMPLE, SAMPLE), FRESH):
            for entry in (SAMPLE, b''):
                yield History(cut_or_filled(state, n), [('propose', entry), ('confirm', entry), ('read_back', entry)])
            for entry in (cut_or_filled(SAMPLE, n), b'\xff' * n):
                yield from (History(state, [(call, entry)]) for call in ('propose', 'confirm', 'read_back'))


def stored_records():
    """Good, bad and no records in force and pending, in every combination, met by each call."""
    kinds = (SAMPLE, ANOTHER, NOTHING, put(SAMPLE, 2, 0), put(ANOTHER, 30, 1), b'\xff' * RECORD)
    for in_force in kinds:
        for pending in kinds:
            for entry in kinds:
                yield from (History(relay(in_force, pending), [(call, entry)]) for call in ('propose', 'confirm', 'read_back'))


def fixed():
    for record in chain(field_edges(), angle_edges(), limit_edges(), spare_bytes(), two_faults(), second_reach.records(),
                        resistive_reach.records()):
        yield from each_way(record)
    yield from chain(damaged_confirmations(), second_reach.confirmations(), resistive_reach.confirmations(), lengths(),
                     stored_records())


# Random calls


def any_length(rng, data):
    return data if rng.random() < 0.9 else cut_or_filled(data, rng.choice(SHORT_LENGTHS))


def single(rng):
    in_force, pending = any_record(rng), any_record(rng)
    entry = rng.choice((any_record(rng), in_force, pending, flip(pending, rng.randrange(RECORD), 1)))
    call = rng.choice(('propose', 'confirm', 'read_back'))
    return History(any_length(rng, relay(in_force, pending)), [(call, any_length(rng, entry))])
