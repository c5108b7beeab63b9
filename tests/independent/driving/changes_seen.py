"""Which sides of document 02, CR 6, a decision shows in bytes 5 to 7: each c of
each phase, K in force on all sides of it, equality at c + 1, the pickup, and
what other rules would make of the window; and what all decisions together
should show.

c is worked out here by Python's own root, not by trying each slope as the
model does, and held against the model's.
"""
import functools
from typing import Iterator

from cases.building import ENDS, HIGH, LOW
from driving import calls, not_c
from driving.seen import against, all_of
from driving.sides import NAMES, sizes
from model.differential import Phase, U, s, slope
from model.measuring import Phasor, line, plus
from model.settings import IN_FORCE

LAST = 99   # the largest c
STEPS = [Phasor(1, 0), Phasor(-1, 0), Phasor(0, 1), Phasor(0, -1)]


def by_root(pickup: int, squared_sum: int, restraint: int) -> int:
    """The largest K with 40960000 s above (K U)², if the pickup is reached."""
    if squared_sum < pickup**2:
        return 0
    return not_c.below(squared_sum, restraint)


# ---- At any slope ----------------------------------------------------------

def beside(phasors: tuple[Phasor, ...], pickup: int, c: int) -> Iterator[str]:
    """Whether a count more or less at an end makes c one less or one more."""
    for at, of_end in enumerate(phasors):
        for step in STEPS:
            moved = (*phasors[:at], plus(of_end, step), *phasors[at + 1:])
            other = by_root(pickup, s(moved), U(moved))
            if abs(other - c) == 1:
                yield f'c = {c}, {other} by a count at an end'


def why_none(phase: Phase, pickup: int) -> str:
    """Why c is 0."""
    slope_too = not_c.below(phase.s, phase.U) == 0
    if phase.s >= pickup**2:
        return 'c = 0 by the slope'
    return f'c = 0 by the pickup{" and the slope" if slope_too else ""}'


def of_phase(phase: Phase, pickup: int, c: int) -> Iterator[str]:
    side = against(phase.s, pickup**2)
    if phase.s - pickup**2 in (-1, 0, 1):
        yield f's {side} pickup² by one at most, c {against(c, 0)} 0'
    if c == 0:
        yield why_none(phase, pickup)
    if side != '<' and 40960000 * phase.s == ((c + 1) * phase.U)**2:
        yield f'c = {c}, equal at c + 1'
    if phase.s == 0:
        yield f's = 0, U {against(phase.U, 0)} 0, c = {c}'
    yield from beside(phase.phasors, pickup, c)


def together(changes: list[int]) -> Iterator[str]:
    if len(set(changes)) == 3:
        rising = sorted(zip(changes, NAMES))
        yield f'c rises in the order {"".join(name for _, name in rising)}'


# The same window is asked for at several slopes one after another.
@functools.lru_cache(maxsize=8)
def of_window(samples: bytes, ends: int, pickup: int,
              of_3i2: int) -> tuple[list[int], set[str], set[str]]:
    """c of each phase, what it shows by its name, and by N."""
    phases = calls.phases(samples, ends)
    changes = [by_root(pickup, phase.s, phase.U) for phase in phases]
    shown, for_ends = set(together(changes)), set()
    for own, (phase, c, name) in enumerate(zip(phases, changes, NAMES)):
        sides = {*of_phase(phase, pickup, c)}
        others = not_c.at_any_slope(phases, changes, own, pickup, of_3i2)
        sides.update(not_c.unlike(others, c))
        shown.update(f'phase {name}: {what}' for what in sides)
        shown.update(sizes(phase))
        if pickup in (LOW[4], HIGH[4]):
            shown.add(f'pickup {pickup}: s {against(phase.s, pickup**2)} '
                      f'pickup², c {against(c, 0)} 0')
        for_ends.update(what for what in sides if what.startswith('c = 0 by'))
        if f'c = {c}, equal at c + 1' in sides:
            for_ends.add('equal at c + 1')
    return changes, shown, for_ends


# ---- Of a call that decide or feed answered with 0 -------------------------

def where(K: int, c: int) -> str:
    """Where K in force lies beside c."""
    return ('K < c' if K < c else 'K = c' if K == c else
            'K = c + 1' if K == c + 1 else 'K > c + 1')


def shown(made: calls.Made) -> Iterator[str]:
    record, call = made.state[IN_FORCE], made.step.call
    ends, K, pickup = slope(record)
    changes, found, for_ends = of_window(calls.window(made), ends, pickup,
                                         line(record).pickup)
    trip, *written = made.wanted.other[0], *made.wanted.other[5:8]
    assert written == changes, (made.label, written, changes)
    yield from (f'{call}: {what}' for what in found)
    yield from (f'{call}: {ends} ends: {what}' for what in for_ends)
    for name, c in zip(NAMES, changes):
        yield f'{call}: phase {name}: c = {c}, {where(K, c)}'
        yield f'{call}: {ends} ends: {where(K, c)}'
        for what in not_c.unlike(not_c.at_slope(K, c, trip), c):
            yield f'{call}: phase {name}: {what}'


# ---- What all of them should show ------------------------------------------

WHY = ('c = 0 by the slope', 'c = 0 by the pickup',
       'c = 0 by the pickup and the slope')


def wanted_of_slopes() -> Iterator[str]:
    """Each c, with K in force on each side of it as far as there is one, and
    with another c a count away."""
    for c in range(LAST + 1):
        yield from (f'c = {c}, {side}' for side in dict.fromkeys(
            where(K, c) for K in range(LOW[2], HIGH[2] + 1)))
        yield f'c = {c}, equal at c + 1'
        yield from (f'c = {c}, {other} by a count at an end'
                    for other in (c - 1, c + 1) if 0 <= other <= LAST)


def wanted_of_phase(name: str) -> Iterator[str]:
    yield from wanted_of_slopes()
    yield from WHY
    yield from all_of('s {} pickup² by one at most, c {} 0', '=>', '>')
    yield 's < pickup² by one at most, c = 0'
    yield from all_of('s = 0, U {} 0, c = 0', '=>')
    yield from not_c.wanted(name)


def wanted(call: str) -> Iterator[str]:
    """Of decide, or of feed."""
    for name in NAMES:
        yield from (f'{call}: phase {name}: {what}'
                    for what in wanted_of_phase(name))
    yield from all_of(f'{call}: {{}} ends: {{}}', ENDS, (
        'K < c', 'K = c', 'K = c + 1', 'K > c + 1', 'equal at c + 1', *WHY))
    yield from all_of(f'{call}: c rises in the order {{}}', (
        'abc', 'acb', 'bac', 'bca', 'cab', 'cba'))
    yield from all_of(f'{call}: pickup {{}}: s {{}}', (LOW[4], HIGH[4]), (
        '< pickup², c = 0', '= pickup², c > 0', '> pickup², c > 0'))
    yield from all_of(f'{call}: largest {{}} of {{}} ends', 'Us', ENDS)
