"""Voltages and currents of end 1 at the edges of the three phase loops, found
by search, for balanced_loops.py: document 02, CR 4, asks whether AB, BC and CA
all assert."""
import math
import random
from itertools import product
from typing import Iterator, NamedTuple, Optional

from cases.building import HIGH, LINE, ZERO
from cases.sequences import Three, Value, moved, whole
from model.measuring import (NM, PHASE_LOOPS, Line, Phasor, asserts, by_loop,
                             conjugate, loop_bits, loops, n_and_m, plus,
                             positive, times)


class Edge(NamedTuple):
    label: str
    line: Line
    volts: Three
    amps: Three


# ---- Each set of loops -----------------------------------------------------

def volts_by_bits(line: Line, volts: Three, amps: Three) -> dict[int, Three]:
    """By the bits of the loops that assert: voltages that are these but for a
    count or two here and there."""
    found = {}
    for size in (1, 2):
        steps = list(product((0, size, -size), repeat=2))
        for by in product(steps, repeat=3):
            tried = moved(volts, by)
            bits = loop_bits(line.r, by_loop(line, tried, amps))
            found.setdefault(bits, tried)
    return found


# ---- Signs of m, and sides of the reach ------------------------------------

Sides = tuple[str, str, str]    # of AB, BC and CA


def side(sign: str, within: bool) -> str:
    """The sign of m, and whether 1000000 n <= r m."""
    return f'm {sign} 0 and n {"within" if within else "beyond"}'


def sides(r: int, of_loops: dict[str, NM]) -> Sides:
    return tuple(side('<' if loop.m < 0 else '=' if loop.m == 0 else '>',
                      1000000 * loop.n <= r * loop.m)
                 for loop in map(of_loops.get, PHASE_LOOPS))


IN = side('>', True)    # with which a loop asserts
OUT = [side('>', False), *map(side, '==<<', (False, True) * 2)]
# One loop that does not assert, in each way, and two that do.
ONE_OUT = [tuple(out if at == own else IN for at in range(3))
           for own, out in product(range(3), OUT)]
# m < 0 in all three. 1000000 n <= r m can then hold for two of them, but not
# for three, because all three n would be negative. If nothing is rounded, they
# make up root 3 times |3V1|². The rounding turns Vp too little to change that.
WITHIN = side('<', True)
BEHIND = [three for three in product((side('<', False), WITHIN), repeat=3)
          if three != (WITHIN,) * 3]

# V = Z I / 1000 is its reach.
NEAR = LINE._replace(Z=Phasor(0, 1000), r=1000, k=ZERO)


def few(rng: random.Random, size: int) -> Three:
    """Phasors of up to so many counts."""
    return [Phasor(rng.randint(-size, size), rng.randint(-size, size))
            for _ in range(3)]


def found_by_sides(wanted: list[Sides], size: int,
                   sign: int) -> Iterator[Edge]:
    """The first found with each of these. The voltages are of few counts, the
    currents in front of them or behind, and balanced but for few counts."""
    rng, left = random.Random(1), set(wanted)
    while left:
        volts = few(rng, size)
        in_phase = whole(sign * complex(*positive(*volts)) / 3j)
        amps = moved(in_phase, few(rng, 3))
        found = sides(NEAR.r, by_loop(NEAR, volts, amps))
        if found in left:
            left.remove(found)
            yield Edge(f'AB, BC, CA: {", ".join(found)}', NEAR, volts, amps)


# ---- One beside equality ---------------------------------------------------

NINES = 999999      # 27 * 7 * 11 * 13 * 37


def reach_beside(n: int, over: int) -> Optional[int]:
    """A reach r with which r m can be so much less than 1000000 n. If r is a
    divisor of 999999, 1000000 n leaves the same rest as n."""
    r = math.gcd(NINES, n - over) if over else 1000
    return r if 20 <= r <= HIGH[10] else None


def current(factor: Phasor, m: int, about: complex) -> Optional[Value]:
    """A whole I about this one with Re(I factor) = m: re x - im y = m."""
    re, im = factor
    if im == 0 or math.gcd(re, im) != 1:
        return None
    first = m * pow(re, -1, abs(im)) % abs(im)
    x = first + abs(im) * round((about.real - first) / abs(im))
    return x, (re * x - m) // im


def beside(rng: random.Random, at: int, over: int) -> Optional[Edge]:
    """1000000 n is so much over r m in this phase loop, if that comes out."""
    v1 = complex(rng.randint(-4, 4), rng.randint(-4, 4))
    volts = moved(whole(v1), few(rng, 1))
    loop = loops(NEAR, volts, [ZERO] * 3)[3 + at]
    n = n_and_m(NEAR.Z, loop).n
    r = reach_beside(n, over)
    if n <= 0 or r is None:
        return None
    Z = Phasor(rng.randint(0, 9), 3 + 1000 // r)
    ahead = 1e6 / (r * complex(*Z))
    found = current(times(Z, conjugate(loop.vp)), (1000000 * n - over) // r,
                    ahead * complex(*loop.v))
    if found is None:
        return None
    amps = whole(ahead * complex(*positive(*volts)) / 3)
    amps[at] = plus(amps[(at + 1) % 3], Phasor(*found))
    return Edge(f'{loop.name}: 1000000 n over r m by {over}',
                NEAR._replace(Z=Z, r=r), volts, amps)


def by_one(at: int, over: int) -> Edge:
    """The first found in which the two other phase loops assert."""
    rng = random.Random(1)
    others = [name for name in PHASE_LOOPS if name != PHASE_LOOPS[at]]
    while True:
        edge = beside(rng, at, over)
        if edge:
            found = by_loop(*edge[1:])
            if all(asserts(edge.line.r, found[name]) for name in others):
                return edge
