"""Which edges of the second reach and of the resistive reach R, and which faults of them, a call or a run of the window program shows by
its record; and what all of them together should."""
from typing import Callable, NamedTuple

from model.settings import FAULTS, IN_FORCE, OFF, PENDING, RECORD, first_fault

# What a call says if one of these reaches is at fault in its record.
FAULTY = {'propose': 6, 'confirm': 7, 'read_back': 1, 'decide': 1, 'feed': 1, 'window program': 6}
Edges = dict[str, Callable[[int, int], bool]]   # by the first reach and this one


class Reach(NamedTuple):
    name: str
    at: int
    edges: Edges
    only_good: set[str]
    only_faulty: set[str]
    faults: Edges       # the ways in which it can be at fault


SECOND = Reach('second reach', 26, {
    'off': lambda r, r2: r2 == OFF,
    'of 1': lambda r, r2: r2 == 1,
    'one below the first': lambda r, r2: OFF < r2 == r - 1,
    'equal to the first': lambda r, r2: r2 == r,
    'one above the first': lambda r, r2: r2 == r + 1,
    'of 2000': lambda r, r2: r2 == 2000,
    'of 2001': lambda r, r2: r2 == 2001,
    'of 65535': lambda r, r2: r2 == 65535,
    'with byte 26 alone': lambda r, r2: r2 != 0 and r2 % 256 == 0,
    'with byte 27 alone': lambda r, r2: 0 < r2 < 256,
    'beside a first of 1': lambda r, r2: r == 1 and r2 != OFF,
    'beside a first of 2000': lambda r, r2: r == 2000 and r2 != OFF,
}, {'off', 'equal to the first', 'of 2000'}, {'one below the first', 'of 2001', 'of 65535'}, {
    'below the first': lambda r, r2: OFF < r2 < r, 'above 2000': lambda r, r2: r2 > 2000})
RESISTIVE = Reach('resistive reach', 28, {
    'off': lambda r, R: R == OFF,
    **{f'of {number}': lambda r, R, number=number: R == number for number in (1, 255, 256, 257, 999, 1000, 1001, 1024, 65535)},
    'with byte 28 alone': lambda r, R: R != 0 and R % 256 == 0,
    'with byte 29 alone': lambda r, R: 0 < R < 256,
    'in its range above the first reach': lambda r, R: r < R <= 1000,
    'in its range below the first reach': lambda r, R: OFF < R < r and R <= 1000,
}, {'off', 'of 1', 'of 255', 'of 256', 'of 257', 'of 999', 'of 1000', 'with byte 29 alone', 'in its range above the first reach',
    'in its range below the first reach'}, {'of 1001', 'of 1024', 'of 65535'}, {'above 1000': lambda r, R: R > 1000})
REACHES = (SECOND, RESISTIVE)


def number_at(record, at):
    return int.from_bytes(record[at:at + 2], 'big')


def which(edges, record, at):
    """Those of the edges at which this reach is."""
    return [edge for edge, is_at in edges.items() if is_at(number_at(record, 10), number_at(record, at))]


def on_or_off(reach, record):
    return 'off' if number_at(record, reach.at) == OFF else 'on'


def of_record(call, number, record):
    """Of a call that goes by this record and says this number."""
    fault = first_fault(record)
    if number == (0 if fault is None else FAULTY[call]):
        verdict = 'good' if fault is None else 'at fault'
        yield from (f'{call}: {reach.name} {edge}: {verdict}' for reach in REACHES if fault in (None, reach.at)
                    for edge in which(reach.edges, record, reach.at))


def competing(record):
    """Of a proposal in which one of them is at fault, and something else too."""
    for reach in REACHES:
        other = first_fault(record[:reach.at] + bytes(2) + record[reach.at + 2:])
        yield from (f'propose: {reach.name} {fault}, a fault at {other} too' for fault in which(reach.faults, record, reach.at))


def differing(pending, entry):
    """Of a confirmation that differs in one byte alone."""
    places = [at for at in range(RECORD) if pending[at] != entry[at]]
    if len(places) == 1:
        yield from (f'confirm: byte {places[0]} alone differs, {reach.name} {on_or_off(reach, pending)}' for reach in REACHES)


def shown(made):
    """Of a call of the archive."""
    (call, other), number = made.step[:2], made.wanted.number
    if number == 17:
        return
    if call == 'propose':
        if len(other) == RECORD:
            yield from of_record(call, number, other)
            yield from competing(other)
    elif call == 'confirm':
        yield from of_record(call, number, made.state[PENDING])
        if number == 8:
            yield from differing(made.state[PENDING], other)
    else:
        yield from of_record(call, number, made.state[IN_FORCE])


def of_run(data, printed):
    """Of a run of the window program."""
    refused = printed.startswith(b'settings refused')
    if len(data) >= RECORD:
        yield from of_record('window program', int(printed.split()[2]) if refused else 0, data[:RECORD])


def of_reach(reach, call):
    for edge in reach.edges:
        if edge not in reach.only_faulty:
            yield f'{call}: {reach.name} {edge}: good'
        if edge not in reach.only_good:
            yield f'{call}: {reach.name} {edge}: at fault'
    if call == 'propose':
        yield from (f'propose: {reach.name} {fault}, a fault at {other} too'
                    for fault in reach.faults for other in FAULTS if other != reach.at)
    if call == 'confirm':
        yield from (f'confirm: byte {at} alone differs, {reach.name} {state}'
                    for at in (reach.at, reach.at + 1) for state in ('off', 'on'))


def wanted(call):
    """Of each call of the archive, and of the window program."""
    for reach in REACHES:
        yield from of_reach(reach, call)
