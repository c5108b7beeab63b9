"""Which sides of document 02, CR 4, a decision shows: |3I2|² against the square
of its pickup, AB, BC and CA in the first zone, and what is near to either but
does not count; and what all decisions together should show.

Most of it counts only where no phase operates and direction is not forward.
There trip goes by CR 4 alone.
"""
from itertools import product
from typing import Iterator

from cases.balanced_edges import BEHIND, ONE_OUT, sides
from cases.building import ENDS, HIGH, LOW
from driving.calls import Made, at_slope_1, measured, window
from driving.not_3i2 import OTHERS, other_numbers
from driving.seen import against, all_of
from model.decision import PHASE_BITS
from model.differential import slope
from model.measuring import (BITS, FORWARD, GROUND_LOOPS, NONE, PHASE_LOOPS, T,
                             loop_bits, squared)
from model.settings import IN_FORCE

ALL = ' '.join(PHASE_LOOPS)


def named(bits: int, loops: tuple[str, ...] = PHASE_LOOPS) -> str:
    """Those of the loops whose bits are set."""
    return ' '.join(name for name in loops if bits & BITS[name]) or 'none'


def sets_of(loops: tuple[str, ...]) -> list[str]:
    return [named(bits, loops) for bits in range(64)
            if not bits & ~sum(BITS[name] for name in loops)]


def rule(side: str, which: str, towards: int, operates: bool,
         trip: int) -> str:
    return (f'|3I2|² {side} pickup², {which}, direction {towards}, '
            f'a phase operates: {operates}, trip {trip}')


# ---- Where all three phase loops assert ------------------------------------

def at_pickup(result: dict, differential: int, trip: int) -> Iterator[str]:
    """How 3I2 lies to its pickup, and what else would lie otherwise."""
    line, own = result['line'], squared(result['i2'])
    limit, side = line.pickup**2, against(own, line.pickup**2)
    yield f'{line.ends} ends, |3I2|² {side} pickup², trip {trip}'
    yield f'|3I2|² of {own.bit_length()} bits, trip {trip}'
    if abs(own - limit) == 1:
        yield f'|3I2|² {side} pickup² by one'
    if (line.pickup - 1)**2 <= own <= (line.pickup + 1)**2:
        yield (f'|3I2|² {side} pickup² by a count at most, pickup of '
               f'{line.pickup.bit_length()} bits')
        if line.pickup in (LOW[24], HIGH[24]):
            yield f'|3I2|² {side} pickup² of {line.pickup}'
    for name, left, right in other_numbers(result, differential):
        if (left < right) != (own < limit):
            yield f'trip {trip}, but not with {name}'
    if own >= limit and result['direction'] == NONE:
        t = T(line, result['v2'], result['i2'])
        yield (f'|3I2|² {side} pickup², T {against(t, line.zf * own)} zf, '
               f'T {against(t, line.zr * own)} zr')


def over(result: dict, r: int) -> list[int]:
    """1000000 n - r m of AB, BC and CA."""
    return [1000000 * loop.n - r * loop.m
            for loop in map(result['by_loop'].get, PHASE_LOOPS)]


def at_reach(result: dict) -> Iterator[str]:
    """How the loops lie to the reach when CR 4 trips."""
    r, of_loops = result['line'].r, result['by_loop']
    yield f'trip with ground loops {named(result["loops"], GROUND_LOOPS)}'
    for name, number in zip(PHASE_LOOPS, over(result, r)):
        if number == 0:
            yield f'trip with {name} equal'
        if number == -1:
            yield f'trip with {name} inside by one'
    if not any(over(result, r)):
        yield f'trip with all three equal at a reach of {r}'
    left = named(loop_bits(r - 1, of_loops))
    yield f'trip, but at a reach one less {left} are left'


# ---- Where they do not, and 3I2 is below its pickup ------------------------

def not_all(result: dict) -> Iterator[str]:
    r, of_loops = result['line'].r, result['by_loop']
    which, three = named(result['loops']), sides(r, of_loops)
    yield f'no trip with {", ".join(three)}'
    if not any(of_loops[name].m for name in PHASE_LOOPS):
        yield (f'no trip with m = 0 in all three, Vp zero: '
               f'{not any(result["v1"])}, V zero: '
               f'{not any(map(any, result["phasors"][:3]))}')
    if 1 in over(result, r):
        yield f'no trip with {which}, the other outside by one'
    if named(loop_bits(r + 1, of_loops)) == ALL:
        yield f'no trip with {which}, but at a reach one more'
    if named(result['second zone']) == ALL:
        yield f'no trip with {which}, but in the second zone'
        if not any(over(result, result['line'].r2)):
            yield 'no trip with all three equal at the second reach'
    if named(result['loops'], GROUND_LOOPS) == ' '.join(GROUND_LOOPS):
        yield f'no trip with {which} and all ground loops'


# ---- Of a call that decide or feed answered with 0 -------------------------

def of_decision(result: dict, decision: bytes,
                differential: int) -> Iterator[str]:
    trip, byte_1, loops, towards = decision[:4]
    phases = byte_1 & PHASE_BITS
    side = against(squared(result['i2']), result['line'].pickup**2)
    which = named(loops)
    yield rule(side, which, towards, phases > 0, trip)
    if phases or towards == FORWARD:
        return
    if which == ALL:
        yield from at_pickup(result, differential, trip)
        if side == '<':
            yield from at_reach(result)
    elif side == '<':
        yield from not_all(result)


def shown(made: Made) -> Iterator[str]:
    record = made.state[IN_FORCE]
    result = measured(at_slope_1(record), window(made))
    for what in of_decision(result, made.wanted.other, slope(record).pickup):
        yield f'{made.step.call}: {what}'


# ---- What all of them should show ------------------------------------------

def wanted_of_rule() -> Iterator[str]:
    either = (False, True)
    for which, operates in product(sets_of(PHASE_LOOPS), either):
        yield rule('<', which, 0, operates, int(operates or which == ALL))
    for side, towards, operates in product('=>', range(3), either):
        yield rule(side, ALL, towards, operates,
                   int(operates or towards == FORWARD))


def wanted_of_pickup() -> Iterator[str]:
    yield from all_of('{} ends, |3I2|² {}', ENDS, (
        '< pickup², trip 1', '= pickup², trip 0', '> pickup², trip 0'))
    yield from all_of('|3I2|² of {} bits, trip 0', (32, 33))
    yield from all_of('|3I2|² {} pickup² by one', '<>')
    yield from all_of('|3I2|² {} pickup² by a count at most, pickup of {} '
                      'bits', '<=>', range(1, HIGH[24].bit_length() + 1))
    yield from all_of('|3I2|² {} pickup² of {}', '<=>', (LOW[24], HIGH[24]))
    yield from (f'trip {trip}, but not with {name}'
                for name, trips in OTHERS.items() for trip in trips)
    yield from all_of('|3I2|² {} pickup², T {} zr', '=>', (
        '= zf, T <', '> zf, T <', '> zf, T ='))


def wanted_of_loops() -> Iterator[str]:
    some = [which for which in sets_of(PHASE_LOOPS) if which != ALL]
    yield from all_of('trip with ground loops {}', sets_of(GROUND_LOOPS))
    yield from all_of('trip with {}', (
        *all_of('{} equal', PHASE_LOOPS),
        *all_of('all three equal at a reach of {}', (LOW[10], HIGH[10])),
        *all_of('{} inside by one', PHASE_LOOPS)))
    yield from all_of('trip, but at a reach one less {} are left', some)
    yield from all_of('no trip with {}', map(', '.join, ONE_OUT + BEHIND))
    yield from all_of('no trip with m = 0 in all three, Vp zero: {}', (
        'False, V zero: False', 'True, V zero: False', 'True, V zero: True'))
    yield from all_of('no trip with {}, the other outside by one', (
        which for which in some if ' ' in which))
    yield from all_of('no trip with {}, but {}', some, (
        'at a reach one more', 'in the second zone'))
    yield from all_of('no trip with {} and all ground loops', some)
    yield 'no trip with all three equal at the second reach'


def wanted(call: str) -> Iterator[str]:
    """Of decide, or of feed."""
    for part in (wanted_of_rule, wanted_of_pickup, wanted_of_loops):
        yield from (f'{call}: {what}' for what in part())
