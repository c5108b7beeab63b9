"""A search for currents at two ends, for changes.py: hardly anything less or
more makes another c of them.

With few counts a sixty-fourth of a count does. With large currents one part in
forty million does, where 40960000 s lies as close to (K U)².
"""
from itertools import product
from math import isqrt
from typing import Iterator

from cases.roots import Value
from model.differential import root_down, root_up

Pair = list[Value]      # the phasors of two ends


# ---- Few counts ------------------------------------------------------------

MOST = 9    # counts of each part
# The roots of an end by its squared magnitude, rounded up and cut.
UP, CUT = ({squared: root(4096 * squared) for squared in range(2 * MOST**2 + 1)}
           for root in (root_up, root_down))


def largest_below(s: int, U: int) -> int:
    """The largest K with K U below the root of 40960000 s."""
    return isqrt(40960000 * s - 1) // U


def kinds(s: int, of_ends: tuple[int, int]) -> Iterator[tuple[str, int]]:
    """What would make another c, and c as it is."""
    U, cut = (sum(map(roots.get, of_ends)) for roots in (UP, CUT))
    c, d = largest_below(s, U), isqrt(4096 * s)
    if -(-100 * d // U) - 1 != c:
        yield 'd cut to sixty-fourths', c
    if largest_below(s, cut) != c:
        yield 'the roots of U cut', c


def few_counts() -> list[Pair]:
    """One of each kind for each c, as far as there are any."""
    found, all_parts = {}, range(-MOST, MOST + 1)
    for re, im, other_re, other_im in product(
            range(MOST + 1), range(MOST + 1), all_parts, all_parts):
        s = (re + other_re)**2 + (im + other_im)**2
        if s > 0 and im <= re:
            of_ends = re**2 + im**2, other_re**2 + other_im**2
            for kind in kinds(s, of_ends):
                found.setdefault(kind, [(re, im), (other_re, other_im)])
    return [found[kind] for kind in sorted(found)]


# ---- Large currents --------------------------------------------------------

COUNTS = 150    # of a part, as in about_equal() of changes.py


def beside_equal(K: int, side: int) -> Pair:
    """Equal at K but for a few counts across the current at each end, so that
    40960000 s is above (K U)² or below it by s at most."""
    first, last = COUNTS * (100 + K), COUNTS * (100 - K)
    for im, other_im in product(range(100), range(-60, 60)):
        s = (first - last)**2 + (im + other_im)**2
        U = sum(root_up(4096 * (re**2 + across**2))
                for re, across in ((first, im), (last, other_im)))
        if 0 < side * (40960000 * s - (K * U)**2) <= s:
            return [(first, im), (-last, other_im)]
    raise AssertionError(f'nothing beside {K}')


ABOVE, BELOW = (15, 35, 42, 65, 80, 95), (42, 50, 65, 80, 95, 98)


def large() -> list[Pair]:
    return [*(beside_equal(K, 1) for K in ABOVE),
            *(beside_equal(K, -1) for K in BELOW)]
