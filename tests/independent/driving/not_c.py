"""What might be taken for c of document 02, CR 6, so that a run shows that the
archive takes none of it: other rules, each with the number that it would give
where c should stand."""
from math import isqrt
from typing import Iterator

from model.differential import Phase, root_down, root_up, s
from model.measuring import both_rounded, plus, squared

Rules = dict[str, int]


def below(squared_sum: int, over: int) -> int:
    """The largest whole number K with 40960000 s above (K U)²."""
    return isqrt(40960000 * squared_sum - 1) // over if squared_sum else 0


# ---- What a phase could be measured by -------------------------------------

def roots(phase: Phase) -> list[int]:
    return [4096 * squared(of_end) for of_end in phase.phasors]


def added_first(phase: Phase) -> int:
    """The roots added, to a millionth of a sixty-fourth, and then rounded
    up."""
    return -(-sum(root_up(10**12 * n) for n in roots(phase)) // 10**6)


def rounded_after(phase: Phase) -> int:
    """s of the sums, added before they are rounded."""
    total = phase.sums[0]
    for sums in phase.sums[1:]:
        total = plus(total, sums)
    return squared(both_rounded(total, 131072))


def measured_otherwise(phase: Phase) -> dict[str, tuple[int, int]]:
    """Another s, or another U."""
    two = phase.phasors[:2]
    return {
        'U one less': (phase.s, phase.U - 1),
        'U one more': (phase.s, phase.U + 1),
        'the roots of U cut': (phase.s, sum(map(root_down, roots(phase)))),
        'the roots of U added first': (phase.s, added_first(phase)),
        'the largest root for U': (phase.s, root_up(max(roots(phase)))),
        's rounded after the sum': (rounded_after(phase), phase.U),
        'the first two ends alone': (s(two), sum(
            root_up(4096 * squared(of_end)) for of_end in two)),
    }


# ---- At any slope ----------------------------------------------------------

def by_pickup(phase: Phase, pickup: int, of_3i2: int) -> Rules:
    """The pickup left out, or another one."""
    free, own = below(phase.s, phase.U), phase.s
    least = {'the pickup left out': 0, 'the pickup not squared': pickup,
             'the pickup one less': (pickup - 1)**2,
             'the pickup one more': (pickup + 1)**2,
             's above the pickup, not at it': pickup**2 + 1,
             'the pickup of 3I2': of_3i2**2}
    return {name: free if own >= limit else 0 for name, limit in least.items()}


def where_reached(phase: Phase, pickup: int) -> Rules:
    """Other rules where s >= pickup²."""
    d, U = phase.differential, phase.U
    return {
        '>= for >': isqrt(40960000 * phase.s) // U,
        '40959999 for 40960000': isqrt(40959999 * phase.s - 1) // U,
        '40960001 for 40960000': isqrt(40960001 * phase.s - 1) // U,
        'the pickup in place of s': below(pickup**2, U),
        'the last number over U, cut': 100 * d // U,
        'the last number over U, rounded': (200 * d + U) // (2 * U),
        'the last number over U, rounded up, less one': (
            max(-(-100 * d // U) - 1, 0)),
        **{name: below(*pair)
           for name, pair in measured_otherwise(phase).items()},
    }


def of_number(c: int) -> Rules:
    """What a search that is a little wrong would make of c."""
    return {
        'no more than 98': min(c, 98), 'no less than 1': max(c, 1),
        'none below 2': c if c >= 2 else 0, 'even ones alone': c - c % 2,
        'odd ones alone': c - (c + 1) % 2 if c else 0, 'six bits': c % 64,
        'one less': max(c - 1, 0), 'the first that does not operate': c + 1}


def of_phases(changes: list[int], own: int) -> Rules:
    """Another phase's, the least or the largest."""
    others = {f'c of phase {name}': c for name, c in zip('abc', changes)
              if name != 'abc'[own]}
    return {**others, 'the least of the three': min(changes),
            'the largest of the three': max(changes)}


def at_any_slope(phases: list[Phase], changes: list[int], own: int,
                 pickup: int, of_3i2: int) -> Rules:
    """Of the phase at this place, by the c of all three."""
    phase, found = phases[own], of_phases(changes, own)
    found.update(by_pickup(phase, pickup, of_3i2), **of_number(changes[own]))
    if phase.s >= pickup**2:
        found.update(where_reached(phase, pickup))
    return found


# ---- At the slope in force -------------------------------------------------

def at_slope(K: int, c: int, trip: int) -> Rules:
    return {
        'K in force if it operates': K if K <= c else 0,
        'none above K in force': min(c, K),
        'none below K in force': c if c >= K else 0,
        'how far K in force is from c': abs(K - c),
        'nothing without a trip': c if trip else 0}


# ---- How c would come out --------------------------------------------------

LESS, MORE, BOTH = ('less',), ('more',), ('less', 'more')
WAYS = {
    **dict.fromkeys((
        'the pickup left out', 'the pickup not squared', 'the pickup one less',
        '>= for >', '40960001 for 40960000', 'U one less', 'the roots of U cut',
        'the roots of U added first', 'the largest root for U',
        'the last number over U, rounded', 'no less than 1',
        'the first that does not operate', 'the largest of the three'), MORE),
    **dict.fromkeys((
        'the pickup one more', 's above the pickup, not at it',
        'the pickup in place of s', '40959999 for 40960000', 'U one more',
        'the last number over U, rounded up, less one', 'no more than 98',
        'none below 2', 'even ones alone', 'odd ones alone', 'six bits',
        'one less', 'the least of the three', 'K in force if it operates',
        'none above K in force', 'none below K in force',
        'nothing without a trip'), LESS),
    **dict.fromkeys((
        'the pickup of 3I2', 'the last number over U, cut',
        's rounded after the sum', 'the first two ends alone',
        'how far K in force is from c'), BOTH)}


def unlike(rules: Rules, c: int) -> Iterator[str]:
    """Those that would give another number, and which way."""
    for name, number in rules.items():
        if number != c:
            yield f'{name} would be {"less" if number < c else "more"}'


def wanted(own: str) -> Iterator[str]:
    """Of the phase with this name."""
    for name, ways in WAYS.items():
        yield from (f'{name} would be {way}' for way in ways)
    for other in 'abc':
        if other != own:
            yield from (f'c of phase {other} would be {way}' for way in BOTH)
