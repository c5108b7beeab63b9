"""Windows for comparing two programs that follow document 01's percentage
differential.

hand_checks() gives those of P8 to P11 with what document 01 says of them,
fixed() the same ones each time, endless(rng) as many more as are wanted,
near_edge(rng) those that come closest to contradicting demand 3. But for the
first, each is a label, the ends, the window, and the pairs (K, pickup) to try
on it.
"""
import cmath
import itertools
import math
import random
from typing import Iterator, NamedTuple, Optional

from cases import hunting
from cases.building import (ENDS, HIGH, LARGEST, LOW, ZERO, exact, largest,
                            of_phases, pulse, square_wave, turned, wave)
from cases.equalities import (any_pickup_equality, any_slope_equality, known,
                              largest_pickup, slope_equalities)
from cases.faults import TURN
from cases.trying import QUIET, VOLTS, Currents, possible, with_edges
from cases.windows import NEAR_TIES
from model.measuring import length

# ---- Hand checks -----------------------------------------------------------

class Check(NamedTuple):
    name: str
    ends: int
    numbers: list[int]
    K: int
    pickup: int
    phase: int          # that has the check's phasors
    operates: bool      # what document 01 gives for this phase
    U: Optional[int]    # and this, if it does
    changes: list[int]  # c of document 02, CR 6, of each phase


CHECKS = (
    # "P8: end phasors 100 and -40 (pickup 1 from here to P10): operates at
    # K=15. P9: not at 50." 60 of 140 are 42.9 percent.
    ('P8', (100, 0), (-40, 0), 15, 1, True, None, 42),
    ('P9', (100, 0), (-40, 0), 50, 1, False, None, 42),
    # "P10: 90 and -30: not at 50 (equal); it does at 49."
    ('P10', (90, 0), (-30, 0), 50, 1, False, None, 49),
    ('P10', (90, 0), (-30, 0), 49, 1, True, None, 49),
    # "P11: (1,1) twice: U=182; operates at 99, not at 100 (pickup 1). Pickup
    # 2 passes, 3 does not."
    ('P11', (1, 1), (1, 1), 99, 1, True, 182, 99),
    ('P11', (1, 1), (1, 1), 100, 1, False, 182, 99),
    ('P11', (1, 1), (1, 1), 99, 2, True, 182, 99),
    ('P11', (1, 1), (1, 1), 99, 3, False, 182, 0),
)


def hand_checks() -> Iterator[Check]:
    """At the first and the last end, with nothing between. One other phase
    has a current that passes through, and operates at no slope. The next one
    has a fault fed from all ends alike, equal at slope 100."""
    for (name, first, last, K, pickup, operating, U, c), ends, turn in (
            itertools.product(CHECKS, ENDS, range(3))):
        between = ends - 2
        own = [first] + between * [ZERO] + [last]
        passing = [(700, -30)] + between * [ZERO] + [(-700, 30)]
        fault = [(300, 400)] * ends
        by_phase = [[exact(value) for value in values]
                    for values in turned(turn, own, passing, fault)]
        yield Check(name, ends, of_phases(VOLTS, by_phase), K, pickup, turn,
                    operating, U, turned(turn, c, 0, 99))


# ---- Quiet, one end, the largest -------------------------------------------

def quiet() -> Iterator[Currents]:
    for ends in ENDS:
        yield Currents('quiet', ends, [0] * length(ends), [
            (K, pickup) for K in (LOW[2], HIGH[2])
            for pickup in (LOW[4], HIGH[4])])


def one_end() -> Iterator[Currents]:
    """Equal at slope 100, whatever the size, if its root is exact."""
    for ends, turn, value in itertools.product(
            ENDS, range(3), ((1, 0), (1, 1), (-3, 4), (4000, -3000))):
        for at in range(ends):
            own = [exact(value if at == end else ZERO) for end in range(ends)]
            yield with_edges(f'only end {at + 1}', turned(
                turn, own, [QUIET] * ends, [QUIET] * ends),
                more=[(99, 1), (100, 1)])


def opposed(samples: list[int], ends: int, count: int) -> list[list[int]]:
    """The last so many ends have the opposite."""
    opposite = [-x for x in samples]
    return [samples] * (ends - count) + [opposite] * count


def extremes() -> Iterator[Currents]:
    """Every sample is the largest or its opposite. All ends alike, or some
    opposed."""
    for ends, shift in itertools.product(ENDS, range(16)):
        for count in range(ends // 2 + 1):
            yield with_edges(f'extreme, {count} of {ends} opposed', [
                opposed(square_wave(shift), ends, count),
                opposed(largest(shift), ends, count),
                opposed(square_wave(shift + 5), ends, 0)],
                more=[(100, 42000), (1, 42000)])


# ---- Random and small windows ----------------------------------------------

def any_channels(rng: random.Random, label: str, channel) -> Currents:
    """Each channel of its own, voltages too."""
    ends = rng.choice(ENDS)
    volts = [channel() for _ in range(3)]
    by_phase = [[channel() for _ in range(ends)] for _ in range(3)]
    return with_edges(label, by_phase, volts)


def any_numbers(rng: random.Random) -> Currents:
    size = rng.choice([2, 5, 30, 1000, LARGEST])
    return any_channels(rng, f'random to {size}', lambda: [
        rng.randint(-size, size) for _ in range(16)])


def any_pulses(rng: random.Random) -> Currents:
    """A and B multiples of 16384, which is an eighth: often a tie."""
    return any_channels(rng, 'pulses', lambda: [
        rng.randint(-9, 9) if n % 4 == 0 else 0 for n in range(16)])


def any_tie(rng: random.Random) -> Currents:
    return any_channels(rng, 'ties', lambda: rng.choice([
        pulse(rng.choice([4, -4]), rng.choice([0, 4])),
        *rng.choices(NEAR_TIES, k=3)]))


def any_extreme(rng: random.Random) -> Currents:
    """Each channel at one of a few places, so that some are alike."""
    kind = rng.choice([largest, square_wave])
    shifts = rng.choices(range(16), k=rng.choice([1, 2, 3, 16]))
    return any_channels(rng, 'extreme, each its own',
                        lambda: kind(rng.choice(shifts)))


def any_few(rng: random.Random) -> Currents:
    """Phasors of few counts: sums that are often zero or equal."""
    return any_channels(rng, 'few counts', lambda: exact(
        (rng.randint(-2, 2), rng.randint(-2, 2))))


# ---- Load and faults as steady waves ---------------------------------------

def any_turn(rng: random.Random, degrees: float) -> complex:
    return cmath.rect(1, math.radians(rng.uniform(-degrees, degrees)))


def through(rng: random.Random, ends: int) -> list[complex]:
    """What comes in at one end goes out at the others."""
    parts = [rng.uniform(0.1, 1) for _ in range(ends - 1)]
    return [1, *(-part / sum(parts) for part in parts)]


def near_balance(rng: random.Random, ends: int) -> list[complex]:
    """The same, with up to a hundredth wrong at each end."""
    return [value * (1 + rng.uniform(0, 0.01) * any_turn(rng, 180))
            for value in through(rng, ends)]


def internal(rng: random.Random, ends: int) -> list[complex]:
    """All ends feed the fault, in about the same direction."""
    return [rng.random() * any_turn(rng, 40) for _ in range(ends)]


def outfeed(rng: random.Random, ends: int) -> list[complex]:
    """The same, but from the last end some of it goes out."""
    *others, last = internal(rng, ends)
    return [*others, -last]


FLOWS = (through, near_balance, internal, outfeed)


def any_flow(rng: random.Random) -> Currents:
    """Each phase has its own kind of flow, at its own place in the rotation,
    the ends in any order."""
    ends = rng.choice(ENDS)
    size = math.exp(rng.uniform(math.log(3), math.log(30000)))
    flows = rng.choices(FLOWS, k=3)
    by_phase = []
    for phase, flow in enumerate(flows):
        values = flow(rng, ends)
        turn = TURN**-phase * any_turn(rng, 180)
        by_phase.append([wave(size * turn * value)
                         for value in rng.sample(values, ends)])
    return with_edges(', '.join(flow.__name__ for flow in flows), by_phase)


# ---- Demand 3 --------------------------------------------------------------

def near_edge(rng: random.Random) -> Iterator[Currents]:
    for three in hunting.climbs(rng):
        samples = [by_end for _, by_end in three]
        yield Currents('near the edge of demand 3', len(samples[0]),
                       of_phases(VOLTS, samples),
                       possible([(K, LOW[4]) for K, _ in three]))


# ---- The two generators ----------------------------------------------------

def fixed() -> Iterator[Currents]:
    return itertools.chain(quiet(), one_end(), extremes(), slope_equalities(),
                           largest_pickup(), known())


KINDS = [any_numbers, any_pulses, any_tie, any_few, any_slope_equality,
         any_pickup_equality, any_flow, any_flow, any_extreme]


def endless(rng: random.Random) -> Iterator[Currents]:
    """One in ten is near the edge of demand 3. Each is also tried at any
    slope and pickup."""
    closest = near_edge(rng)
    while True:
        for found in (*(kind(rng) for kind in KINDS), next(closest)):
            anywhere = (rng.randint(LOW[2], HIGH[2]),
                        rng.randint(LOW[4], HIGH[4]))
            yield found._replace(tries=found.tries + [anywhere])
