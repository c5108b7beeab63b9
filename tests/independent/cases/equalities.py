"""Windows whose phases are equal to a limit of the percentage differential, or
one count from it, for currents.py."""
import itertools
import math
import random
from typing import Iterator

from cases.building import ENDS, HIGH, LOW, added, exact, pulse, turned
from cases.trying import Currents, Tries, with_edges
from model.differential import root_down

# ---- Phasors with exact roots ----------------------------------------------

def split(rng: random.Random, size: int, count: int) -> list[int]:
    """So many whole parts, not below zero, which make up the size."""
    cuts = sorted(rng.randint(0, size) for _ in range(count - 1))
    return [high - low for low, high in zip([0, *cuts], [*cuts, size])]


# Directions in which whole numbers of steps have exact roots.
EXACT = [(1, 0), (0, 1), (-1, 0), (0, -1), (3, 4), (-4, 3), (-3, -4), (4, -3)]


def in_steps(direction: tuple[int, int], sizes: list[int]) -> list:
    re, im = direction
    return [(re * size, im * size) for size in sizes]


def equal_slope(rng: random.Random, K: int, ends: int, direction):
    """The phasors of a phase with 40960000 s = (K U)², as in P10: the first
    end has 100 + K parts, the others against it 100 - K together, so that 2K
    parts are left of 200."""
    parts = math.gcd(100 + K, 100 - K)
    times = rng.choice([1, 1, 2, 3, 4])
    against = split(rng, times * (100 - K) // parts, ends - 1)
    return in_steps(direction, [times * (100 + K) // parts,
                                *(-size for size in against)])


def moved(values: list, at: int, step: tuple[int, int]) -> list:
    """One of the phasors moved by this step."""
    re, im = values[at]
    return values[:at] + [(re + step[0], im + step[1])] + values[at + 1:]


def beside(rng: random.Random, label: str, values: list,
           more: Tries) -> Currents:
    """These phasors on one phase. One end is a count more in another phase,
    and a count less in the third."""
    at, step = rng.randrange(len(values)), rng.choice([(1, 0), (0, 1)])
    three = [values, moved(values, at, step),
             moved(values, at, (-step[0], -step[1]))]
    phases = [[exact(value) for value in phase] for phase in three]
    return with_edges(label, turned(rng.randrange(3), *phases), more=more)


def slope_equality(rng: random.Random, K: int) -> Currents:
    values = equal_slope(rng, K, rng.choice(ENDS), rng.choice(EXACT))
    return beside(rng, f'equal at slope {K}', values,
                  [(K - 1, 1), (K, 1), (K + 1, 1)])


def any_slope_equality(rng: random.Random) -> Currents:
    return slope_equality(rng, rng.randint(LOW[2], HIGH[2]))


def slope_equalities() -> Iterator[Currents]:
    for K in range(LOW[2], HIGH[2] + 1):
        yield slope_equality(random.Random(K), K)


def any_pickup_equality(rng: random.Random) -> Currents:
    """s is the square of the pickup, with a slope that leaves it to that."""
    size = rng.randint(1, rng.choice([10, 1000]))
    direction = rng.choice(EXACT)
    pickup = size * root_down(direction[0]**2 + direction[1]**2)
    sizes = split(rng, size, rng.choice(ENDS))
    return beside(rng, f'equal at pickup {pickup}', in_steps(direction, sizes),
                  [(1, pickup - 1), (1, pickup), (1, pickup + 1)])


def largest_pickup() -> Iterator[Currents]:
    """Six ends of 7000 counts make 42000, the largest pickup."""
    for turn, n in itertools.product(range(3), (0, 4)):
        own = added(pulse(28000, n), pulse(-28000, n + 8))
        phases = [[own] * 5 + [added(own, pulse(change, n))]
                  for change in (0, 8, -8)]
        yield with_edges('pickup 42000', turned(turn, *phases),
                         more=[(1, 41999), (1, 42000), (99, 42000)])


# ---- Demand 3 --------------------------------------------------------------

def half_less(value: tuple[int, int]) -> list[int]:
    """The sums lie half a count below this phasor, as far as they can."""
    return added(exact(value), pulse(-4, 0), pulse(4, 4))


def known() -> Iterator[Currents]:
    """With 131072 for 196608 the first half of demand 3 would be wrong about
    the first two of these phases at slope 99, and the second half about the
    third. The last two are the closest known: with 153543 and with 155727
    they would still be."""
    small = [-5, 2, 0, -2, 5] + [0] * 11
    phases = [[exact((4, 4))] + [small] * 5,
              [half_less(value) for value in [(200, 200), (-1, -1)]
               + [(0, 0)] * 4],
              [half_less(value) for value in [(-4006, -3966)]
               + [(4, 4)] * 5]]
    for turn in range(3):
        yield with_edges('edge of demand 3', turned(turn, *phases),
                         more=[(99, 1)])
