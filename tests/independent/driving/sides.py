"""What a window shows of the percentage differential at a slope and a pickup:
the sides of each rule, exact and rounded roots, ties; and what all of them
together should."""
from typing import Iterator

from cases.building import ENDS, HIGH, LOW, farthest
from cases.hunting import first_band, second_band
from driving.seen import against, all_of, near_tie
from model.differential import (Phase, differential, operates, root_down,
                                root_up, second_half)
from model.measuring import Phasor, both_rounded, phasor, plus, squared

NAMES = 'abc'
M = 1000    # an m at which the floors hardly count

# ---- What one window shows -------------------------------------------------

LARGEST = squared(phasor(farthest()))   # of an end


def roots(phase: Phase) -> Iterator[str]:
    for of_end in phase.phasors:
        n = 4096 * squared(of_end)
        exact = root_down(n)**2 == n
        yield f'root of an end: {"exact" if exact else "rounded up"}'
    exact = phase.differential**2 == 4096 * phase.s
    yield f'root of 4096 s: {"exact" if exact else "cut"}'


def sizes(phase: Phase) -> Iterator[str]:
    N = len(phase.phasors)
    if phase.s == 0:
        yield f's = 0, U {against(phase.U, 0)} 0'
    if phase.U == N * root_up(4096 * LARGEST):
        yield f'largest U of {N} ends'
    if phase.s == N**2 * LARGEST:
        yield f'largest s of {N} ends'


def ties(phase: Phase) -> Iterator[str]:
    for A, B in phase.sums:
        for part, number in (('real', A), ('imaginary', B)):
            where = near_tie(number, 131072)
            if where:
                yield f'an end, {part}: {where}'


def order(phase: Phase) -> Iterator[str]:
    """Whether the sum of the ends' phasors is that of their sums."""
    total = Phasor(0, 0)
    for sums in phase.sums:
        total = plus(total, sums)
    if squared(both_rounded(total, 131072)) != phase.s:
        yield 'another s if rounded after the sum'


# ---- What it shows at a slope and a pickup ---------------------------------

def limits(name: str, phase: Phase, K: int, pickup: int) -> Iterator[str]:
    """The two comparisons, where they are at the ends of the settings too."""
    s, U = phase.s, phase.U
    side = against(s, pickup**2)
    slope_side = against(40960000 * s, (K * U)**2)
    yield (f'phase {name}: s {side} pickup², '
           f'40960000 s {slope_side} (K U)²')
    if pickup in (LOW[4], HIGH[4]):
        yield f'pickup {pickup}: s {side} pickup²'
    if K in (LOW[2], HIGH[2]):
        yield f'slope {K}: 40960000 s {slope_side} (K U)²'


def close(phase: Phase, K: int, pickup: int) -> Iterator[str]:
    """What a little less or more would change."""
    s, U = phase.s, phase.U
    now = operates(K, pickup, s, U)
    cut = sum(differential(squared(of_end)) for of_end in phase.phasors)
    if U > 0:
        changes = {'U one less': (K, pickup, s, U - 1),
                   'U one more': (K, pickup, s, U + 1),
                   'the roots of U cut': (K, pickup, s, cut),
                   'the slope one less': (K - 1, pickup, s, U),
                   'the slope one more': (K + 1, pickup, s, U),
                   'the pickup one less': (K, pickup - 1, s, U),
                   'the pickup one more': (K, pickup + 1, s, U)}
        for change, values in changes.items():
            if operates(*values) != now:
                yield f'operates: {now}, not so with {change}'


def demand_3(phase: Phase, K: int, pickup: int) -> Iterator[str]:
    """Which half of it says something here, and whether it would be wrong
    with 131072 for 196608."""
    if operates(K, pickup, phase.s, phase.U):
        if second_half(K, M, phase.sums):
            yield 'operates, as the second half says'
        else:
            yield 'operates, and the second half is not met'
        if first_band(K, M, phase.sums) >= 131072:
            yield 'operates, and 131072 is too little for the first half'
    elif phase.s >= pickup**2:
        yield 'does not operate, and the second half is not met'
        if second_band(K, M, phase.sums) >= 131072:
            yield ('does not operate, and 131072 is too little for the '
                   'second half')


def together(phases: list[Phase], K: int, pickup: int) -> str:
    operating = [name for name, phase in zip(NAMES, phases)
                 if operates(K, pickup, phase.s, phase.U)]
    return f'phases operating: {"".join(operating)}'


def shown(phases: list[Phase], tries: list[tuple[int, int]]) -> set[str]:
    """What by_phase() of a window shows, at each of these (K, pickup)."""
    found = set()
    for phase in phases:
        found.update(roots(phase), sizes(phase), ties(phase), order(phase))
    for K, pickup in tries:
        found.add(together(phases, K, pickup))
        for name, phase in zip(NAMES, phases):
            found.update(limits(name, phase, K, pickup),
                         close(phase, K, pickup), demand_3(phase, K, pickup))
    return found


# ---- What all of them should show ------------------------------------------

def wanted() -> list[str]:
    sides, above_below = '<=>', ('above', 'below')
    return [
        *all_of('phases operating: {}{}{}', ('', 'a'), ('', 'b'), ('', 'c')),
        *all_of('phase {}: s {} pickup², 40960000 s {} (K U)²', NAMES, sides,
                sides),
        *all_of('pickup {}: s {} pickup²', (LOW[4], HIGH[4]), sides),
        # At slope 100 it is never more: U is at least the root of 4096 s.
        *all_of('slope {}: 40960000 s {} (K U)²', (LOW[2],), sides),
        *all_of('slope {}: 40960000 s {} (K U)²', (HIGH[2],), '<='),
        *all_of('root of an end: {}', ('exact', 'rounded up')),
        *all_of('root of 4096 s: {}', ('exact', 'cut')),
        *all_of('s = 0, U {} 0', '=>'),
        *all_of('largest {} of {} ends', 'Us', ENDS),
        *all_of('an end, {}: {} {} zero', ('real', 'imaginary'),
                ('tie', 'one below a tie'), above_below),
        'another s if rounded after the sum',
        *all_of('operates: True, not so with {} one more',
                ('U', 'the slope', 'the pickup')),
        *all_of('operates: False, not so with {} one less',
                ('U', 'the slope', 'the pickup')),
        'operates: False, not so with the roots of U cut',
        'operates, as the second half says',
        'operates, and the second half is not met',
        'operates, and 131072 is too little for the first half',
        'does not operate, and the second half is not met',
        'does not operate, and 131072 is too little for the second half',
    ]
