"""Windows close to the edge of demand 3, for currents.py.

One end carries the current. The others lie just inside the rounding, and are
pushed against the current for the first half of the demand, and with it for
the second. From there a climb looks for what comes closer to the edge.
"""
import itertools
import random
from typing import Iterator, NamedTuple, Optional

from cases.building import ENDS, added, exact
from cases.windows import first_change
from model import measuring
from model.differential import F, H, L, U, operates, s
from model.measuring import Phasor, phasor_of

# ---- How close -------------------------------------------------------------

def first_band(K: int, m: int, sums: tuple[Phasor, ...]) -> int:
    """The largest band with which the first half does not hold."""
    return ((K * L(m, sums) - 100 * (F(m, sums) + 1))
            // (100 * len(sums) * m))


def second_band(K: int, m: int, sums: tuple[Phasor, ...]) -> int:
    """The largest band with which the second half holds."""
    return (100 * F(m, sums) - K * H(m, sums)) // (100 * len(sums) * m)


class End(NamedTuple):
    samples: list[int]
    sums: Phasor
    phasor: Phasor


def end(samples: list[int]) -> End:
    sums = measuring.sums(samples)
    return End(samples, sums, phasor_of(sums))


def closeness(half: str, K: int, ends: list[End]) -> Optional[int]:
    """The largest band with which demand 3 is wrong about this phase, with
    pickup 1; None if this half of it says nothing."""
    phasors, sums = [x.phasor for x in ends], tuple(x.sums for x in ends)
    squared_sum = s(phasors)
    operating = operates(K, 1, squared_sum, U(phasors))
    if half == 'first' and operating:
        return first_band(K, 1, sums)
    if half == 'second' and squared_sum >= 1 and not operating:
        return second_band(K, 1, sums)
    return None


# ---- Channels just inside the rounding -------------------------------------

CORNERS = list(itertools.product((1, -1), repeat=2))
NEAR = 2048     # of 65536


def steps_inside(rest: int, sign: int) -> int:
    """How many steps of 16384 bring the rest closest to 65536 of this sign,
    if it is still to be rounded to 0."""
    if sign > 0:
        return (65535 - rest) // 16384      # up to 65535
    return -((65536 + rest) // 16384)       # down to -65536


def just_inside() -> dict[tuple[int, int], list[list[int]]]:
    """Channels of phasor (0,0) by the signs of A and B, both close to 65536.
    x[0] moves A by 16384, x[4] moves B by -16384, the three between are for
    the rest."""
    found = {corner: [] for corner in CORNERS}
    for three in itertools.product(range(-5, 6), repeat=3):
        A, B = measuring.sums([0, *three] + [0] * 12)
        for corner in CORNERS:
            x0, x4 = steps_inside(A, corner[0]), -steps_inside(B, corner[1])
            if min(abs(A + 16384 * x0), abs(B - 16384 * x4)) > 65536 - NEAR:
                found[corner].append([x0, *three, x4] + [0] * 11)
    return found


INSIDE = just_inside()


# ---- Where a climb begins --------------------------------------------------

def pushed(rng: random.Random, value: tuple[int, int],
           corner: tuple[int, int]) -> End:
    """An end of this phasor, its sums pushed to this corner of the rounding,
    or now and then to another or to none."""
    chance = rng.random()
    if chance < 0.05:
        return end(exact(value))
    if chance < 0.1:
        corner = rng.choice(CORNERS)
    return end(added(exact(value), rng.choice(INSIDE[corner])))


def along(direction: tuple[int, int], size: int, over: int = 0):
    """A phasor in this direction, or nearly, where over is not 0."""
    return direction[0] * size, direction[1] * (size + over)


def carried(K: int, half: str, direction, over: int,
            others: list[tuple[int, int]]) -> Optional[tuple[int, int]]:
    """The phasor of the end that carries the current, next to the edge of the
    slope: the last that does not operate, or the first that does. The edge is
    sought up to what exact() can make."""
    def answer(size: int) -> bool:
        phasors = [Phasor(*value)
                   for value in (along(direction, size, over), *others)]
        return operates(K, 1, s(phasors), U(phasors))

    found = first_change(answer, 1, 4000)
    if found is None:
        return None
    return along(direction, found if half == 'first' else found - 1, over)


def start(rng: random.Random, count: int) -> tuple[str, int, list[End]]:
    """A half of demand 3, a slope, and a phase of so many ends."""
    half = rng.choice(['first', 'second'])
    K = rng.choice([99, 99, rng.randint(80, 99), rng.randint(1, 99)])
    direction = rng.choice(CORNERS)
    against = (-direction[0], -direction[1])
    over = rng.choice([0, 0, rng.randint(-3, 3)])
    sizes = rng.choice([(0,), (0, 1), (1,), (1, 2), (4,)])
    others = [along(against, rng.choice(sizes), rng.choice([0, 0, 0, 1]))
              for _ in range(count - 1)]
    value = carried(K, half, direction, over, others)
    if value is None:
        value = along(direction, rng.randint(1, 12), over)
    corner = against if half == 'first' else direction
    ends = [pushed(rng, of_end, corner) for of_end in [value, *others]]
    return half, K, rng.sample(ends, count)


# ---- The climb -------------------------------------------------------------

def changed(rng: random.Random, ends: list[End]) -> list[End]:
    """One end with one sample one higher or lower, or with its phasor moved
    by a count."""
    at, result = rng.randrange(len(ends)), list(ends)
    step = rng.choice([1, -1, 8, -8])
    n = rng.randrange(16) if abs(step) == 1 else rng.choice([0, 4])
    samples = list(ends[at].samples)
    samples[n] += step
    result[at] = end(samples)
    return result


STEPS = 12


def climb(rng: random.Random,
          count: int) -> Iterator[tuple[int, list[list[int]]]]:
    """The slope, and the samples of each end: the start, and each change of
    the best so far."""
    half, K, best = start(rng, count)
    yield K, [x.samples for x in best]
    most = closeness(half, K, best)
    for _ in range(STEPS):
        ends = changed(rng, best)
        yield K, [x.samples for x in ends]
        close = closeness(half, K, ends)
        if close is not None and (most is None or close >= most):
            most, best = close, ends


def climbs(rng: random.Random):
    """Three of the same number of ends at once, for the three phases."""
    while True:
        count = rng.choice(ENDS)
        yield from zip(*(climb(rng, count) for phase in range(3)))
