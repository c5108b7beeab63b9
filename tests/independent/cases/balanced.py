"""Windows for the balanced faults of document 02, CR 4: an unbalance that is
just below the pickup of 3I2, at it or just above, what is not 3I2, those of
balanced_loops.py, and others by chance.

fixed() gives the same ones each time, endless(rng) as many more as are wanted.
Each is a label, a good record, and a window of its length. In most of them no
phase operates, so that trip shows what the loops and 3I2 do.
"""
import cmath
import functools
import math
import random
from itertools import product
from typing import Iterator

from cases import balanced_loops
from cases.balanced_edges import few
from cases.building import ENDS, HIGH, LINE, LOW, ZERO, any_line, any_second
from cases.equalities import EXACT
from cases.roots import Value
from cases.sequences import (Found, Three, ends_and_ways, feeding, moved,
                             of_end_1, of_ends, opposite, passing, sharing,
                             whole)
from cases.windows import fault_line, just_enough
from model.measuring import Line, Phasor, T, negative, squared


# ---- The pickup of 3I2 -----------------------------------------------------

def in_front(line: Line, i1: complex, part: float) -> complex:
    """V1 at this part of the reach."""
    return part * line.r * complex(*line.Z) * i1 / 1e6


# One of each number of bits at least. One less than the squares of 3, 9, 19,
# 33, 73, 163, 513, 1459, 2049 and 33801 is a sum of two squares.
PICKUPS = (1, 2, 3, 5, 9, 19, 33, 50, 73, 163, 500, 513, 1459, 2049, 5000,
           9000, 20000, 33801, HIGH[24])


def about(pickup: int) -> dict[str, Value]:
    """3I2 just below its pickup, at it and just above: no whole phasor is
    nearer."""
    largest = pickup**2 - 1
    below = max(((re, math.isqrt(largest - re**2)) for re in range(pickup)),
                key=lambda value: squared(Phasor(*value)))
    found = {'just below': below, 'at': (pickup, 0), 'just above': (pickup, 1)}
    if pickup % 5 == 0:
        found['by both parts at'] = -3 * pickup // 5, 4 * pickup // 5
    return found


# As 3V2 is 0, T is 0.
LIMITS = {'between the limits': (-300, 300), 'T at zf': (0, 1),
          'T at zr': (-1, 0), 'forward': (1, 2), 'reverse': (-2, -1)}


def at_pickup() -> Iterator[Found]:
    """All three phase loops assert. With some pickups there is also a window
    in which each phase operates."""
    each = ends_and_ways()
    for pickup in PICKUPS:
        next(each)  # so that each limit meets each N
        i1 = cmath.rect(300 + 0.42 * pickup, pickup)
        volts = whole(in_front(LINE, i1, 0.1))
        for (where, three_i2), (label, (zf, zr)) in product(
                about(pickup).items(), LIMITS.items()):
            ways = [next(each)] + [(4, feeding)] * (pickup in (1, 50, 5000))
            for ends, way in ways:
                yield of_end_1(
                    f'{where} a pickup of {pickup}, {label}', LINE._replace(
                        ends=ends, zf=zf, zr=zr, pickup=pickup),
                    volts, whole(i1, three_i2), way)


def far_above() -> Iterator[Found]:
    """|3I2|² above 2**31 and above 2**32. I2 is larger than I1, but behind it,
    so that all three phase loops assert."""
    i1 = 12500
    volts = whole(in_front(LINE, i1, 0.02))
    for (size, pickup, (label, (zf, zr))), (ends, way) in zip(
            product((46400, 66000), (9000, HIGH[24]), LIMITS.items()),
            ends_and_ways()):
        line = LINE._replace(ends=ends, zf=zf, zr=zr, pickup=pickup)
        yield of_end_1(f'3I2 of {size}, pickup of {pickup}, {label}', line,
                       volts, whole(i1, (-size, 0)), way)


# ---- What is not 3I2 -------------------------------------------------------

def other_numbers() -> Iterator[Found]:
    """3I0, 3V2 or another end's 3I2 reaches the pickup and 3I2 does not, or
    the other way round. So does 3I2 with the differential pickup for its own.
    """
    volts, amps = whole(in_front(LINE, 900, 0.2)), whole(900)
    unbalanced = whole(900, (300, 0))
    crossing = [(300, 0), ZERO, ZERO]
    for ends in ENDS:
        line = LINE._replace(ends=ends)
        out = [opposite(amps), *[[ZERO] * 3] * (ends - 2)]
        crossed = [moved(out[0], crossing), *out[1:]]
        if ends > 2:
            crossed[-1] = opposite([Phasor(*value) for value in crossing])
        for label, first, others in (
                ('an end but the first', amps, crossed),
                ('the first end alone', unbalanced, out)):
            yield of_ends(f'3I2 at {label}', line, volts, [first, *others],
                          HIGH[2], HIGH[4])
        yield of_end_1('3V2', line, moved(volts, [(200, 0), ZERO, ZERO]), amps)
        yield of_end_1('3I0', line, volts, moved(amps, [(100, 50)] * 3))
        # I2 is larger than I1, but behind it.
        yield of_end_1('3I1 less than 3I2', line._replace(pickup=200),
                       whole(in_front(line, 60, 0.2)), whole(60, (-210, 0)))
        for three_i2, differential in product((30, 60), (20, 100)):
            now = whole(900, (three_i2, 0))
            yield of_ends(f'differential pickup {differential}', line, volts,
                          [now, *passing(now, ends)], 15, differential)


# ---- By chance -------------------------------------------------------------

def any_phasor(rng: random.Random, most: float) -> Value:
    """Nothing, a few counts, or up to so many; half of them with a whole
    number for a magnitude."""
    size = rng.choice([0, rng.uniform(0, 9), *[rng.uniform(0, most)] * 3])
    re, im = rng.choice(EXACT)
    if rng.random() < 0.5:
        steps = int(size / abs(complex(re, im)))
        return steps * re, steps * im
    value = cmath.rect(size, rng.uniform(-math.pi, math.pi))
    return round(value.real), round(value.imag)


def any_fault(rng: random.Random, line: Line) -> tuple[Three, Three]:
    """V and I of end 1 at the reach, nearer or a little farther. Some are
    turned from the line's angle, some are behind the relay."""
    size, angle = math.exp(rng.uniform(1, 9.8)), rng.uniform(-math.pi, math.pi)
    i1 = cmath.rect(size, angle)
    part = rng.choice([1, 1, rng.uniform(0, 1), rng.uniform(0, 1.2)])
    turn = cmath.rect(1, rng.choice([0, 0, 0, rng.uniform(-2, 2)]))
    v1 = turn * in_front(line, i1, part)
    scale = 8000 / max(8000, abs(v1))
    i1, v1 = scale * i1, scale * v1
    volts = whole(v1, any_phasor(rng, rng.choice([0, abs(v1)])))
    amps = whole(i1, any_phasor(rng, 2 * abs(i1)))
    return (moved(volts, few(rng, rng.choice([0, 1, 2]))),
            opposite(amps) if rng.random() < 0.1 else amps)


def any_limits(rng: random.Random, line: Line, v2: Phasor,
               i2: Phasor) -> tuple[int, int]:
    """zf and zr on both sides of T, both on one side, or the line's own."""
    if squared(i2) > 0:
        z = T(line, v2, i2) // squared(i2)
        zf = z + rng.choice([0, 0, 1, -1, -2])
        zr = zf + rng.choice([1, 100])
        if LOW[20] <= zf < zr <= HIGH[22]:
            return rng.choice([(zf, zr), (line.zf, line.zr)])
    return line.zf, line.zr


def at_edges(rng: random.Random, line: Line, volts: Three,
             amps: Three) -> Line:
    """The first reach, the limits and the pickup of 3I2, each often at an edge
    of this fault."""
    enough = just_enough(line, [*volts, *amps]) or {line.r}
    r = rng.choice([max(enough)] * 3 + [line.r, rng.choice([*enough])])
    r = max(r - rng.choice([0, 0, 1]), LOW[10])
    v2, i2 = negative(*volts), negative(*amps)
    size = math.isqrt(squared(i2))
    pickup = rng.choice([size, size, size + 1, size + 1, line.pickup])
    zf, zr = any_limits(rng, line, v2, i2)
    return line._replace(r=r, zf=zf, zr=zr, r2=any_second(rng, r),
                         pickup=min(max(pickup, LOW[24]), HIGH[24]))


WAYS = [passing, passing, sharing, sharing, feeding]


def endless(rng: random.Random) -> Iterator[Found]:
    while True:
        line = rng.choice([fault_line, fault_line, any_line])(rng)
        volts, amps = any_fault(rng, line)
        line = at_edges(rng, line, volts, amps)
        others = rng.choice(WAYS)(amps, line.ends)
        yield of_ends('balanced by chance', line, volts, [amps, *others],
                      rng.randint(LOW[2], HIGH[2]),
                      rng.choice([LOW[4], rng.randint(LOW[4], HIGH[4])]))


# Decide has them, and so has feed.
@functools.cache
def fixed() -> list[Found]:
    return [*balanced_loops.fixed(), *at_pickup(), *far_above(),
            *other_numbers()]
