"""The hand checks of document 01 that concern model/measuring.py, by their
numbers, and those of loops in the second zone of document 02, CR 2, too; and a
fault with resistance for CR 7, worked out here by hand.

checks() puts them to that file. of_channel() and of_end_1() have the same as
windows, so that they reach an archive too.
"""
import itertools
from typing import Iterator, NamedTuple

from cases.building import ENDS, ZERO, Case, exact_case, one_channel, pulse
from model.measuring import (COSINES, Line, Loop, Phasor, asserts, by_loop,
                             channels, direction, loops, n_and_m, negative,
                             phasor, positive, reaches_pickup, zone_bits)
from model.quadrilateral import by_phase
from model.settings import OFF

# D of P14, Z of P12; the rest as in the document's example record, but for
# the pickup, which is P14's.
LINE = Line(ends=2, Z=Phasor(0, 1000), r=850, k=Phasor(667, 0),
            D=Phasor(0, 1000), zf=-300, zr=300, pickup=100)


class OfChannel(NamedTuple):
    """A check of one channel's phasor."""
    name: str
    samples: list[int]
    expected: tuple[int, int]


OF_CHANNEL = (
    # "P1: one sample 8 at n=0, the rest 0: (1,0). P2: 4 there: (1,0). P3: 3:
    # (0,0). P4: -4: (0,0). P5: -5: (-1,0). P6: 8 at n=4: (0,-1)."
    OfChannel('P1', pulse(8, 0), (1, 0)),
    OfChannel('P2', pulse(4, 0), (1, 0)),
    OfChannel('P3', pulse(3, 0), (0, 0)),
    OfChannel('P4', pulse(-4, 0), (0, 0)),
    OfChannel('P5', pulse(-5, 0), (-1, 0)),
    OfChannel('P6', pulse(8, 4), (0, -1)),
    # "Samples x[n]=C[n]: (16384,0)."
    OfChannel('samples x[n]=C[n]', COSINES, (16384, 0)),
)
# P14 by zf and pickup of 3I2: the direction.
P14 = {(-499, 100): 1, (-500, 100): 0, (-499, 101): 0}
# What docs/HAND-CHECKS.md works out by hand: V and I of end 1.
EXAMPLE = ([Phasor(1000, 0), Phasor(-1000, -1732), Phasor(-1000, 1732)],
           [Phasor(0, -1000), ZERO, ZERO])

# A fault with resistance, small enough to follow on paper. Z = j1 ohm and k = 0.
# At end 1 Ia = 100 and no other current, so I = Ir = (100,0) in loop A and
#   ZI = (0,1000)(100,0) = (0,100000).
# The fault is at half of the replica and has 2 ohms:
#   Va = 0.5 (0,100) + 2 (100,0) = (200,50).
# The source behind the relay has j0.5 ohm in each sequence, so E = Va + j50 =
# (200,100), and as b and c carry no current, Vb = a²E and Vc = aE, rounded.
#
#   n = Im[(200,50) (0,-100000)] = -20000000
#   q = Im[(100,0) (0,-100000)]  = -10000000
#   10 x 20000000 <= R x 10000000 from R = 20 on, which is 2 ohms.
#   rZI - 1000000 V = (-200000000, 100000 r - 50000000), times Ir* = (100,0):
#   Im = 10000000 r - 5000000000, which is above 0 from r = 501 on. At 500, half
#   of the replica, it is 0, and that is not enough.
#
# 3V2 = (200,50) + (-187,123) + (-13,-223) = (0,-51), with what the rounding of
# Vb and Vc leaves, and 3I2 = (100,0). T = -51 x 100000 is -510 |3I2|², so
# direction is forward at zf = -509, not at -510. In B and C I = 0, so q = 0: no
# bit. The circle misses it: 3V1 = (600,251), n = 200 x 600 + 50 x 251 = 132550,
# m = 251 x 100000, and r m comes to 1000000 n only at r = 5281.
RESISTIVE = ([Phasor(200, 50), Phasor(-13, -223), Phasor(-187, 123)],
             [Phasor(100, 0), ZERO, ZERO])
# By k, r and R: bits 8, 16 and 32 of byte 1. With k = 1, I of loop A is
# (200,0): ZI, n and q are twice as large, R is still 20, and r is from 251 on.
# In B and C I is now (100,0), so that ZI = (0,100000) and q = -10000000.
#   B: n = 1300000, so R is from 2 on; Im = 10000000 r + 22300000000, any r.
#   C: n = 18700000, so R is from 19 on; Im = 10000000 r - 12300000000, so r is
#   from 1231 on.
OF_RESISTIVE = {(0, 501, 20): 8, (0, 500, 20): 0, (0, 501, 19): 0,
                (0, 2000, 1000): 8, (0, 501, 0): 0, (1000, 251, 20): 8 + 16,
                (1000, 250, 20): 16, (1000, 251, 19): 16, (1000, 251, 2): 16,
                (1000, 251, 1): 0, (1000, 1231, 19): 16 + 32,
                (1000, 1230, 19): 16, (1000, 1231, 18): 16,
                (1000, 1231, 20): 8 + 16 + 32, (1000, 1231, 0): 0}


# ---- In measuring.py -------------------------------------------------------

def p12(i: Phasor, r: int) -> bool:
    """P12's loop, with I and r left open."""
    loop = Loop('P12', v=Phasor(500, 0), i=i, vp=Phasor(1000, 0))
    return asserts(r, n_and_m(Phasor(0, 1000), loop))


def no_voltage():
    """ "Vp=0: no loop asserts." """
    voltages, currents = [ZERO] * 3, [Phasor(0, -1000), ZERO, Phasor(7, 9)]
    for loop in loops(LINE, voltages, currents):
        yield f'{loop.name}: all V=0, so Vp', loop.vp, ZERO
        for v in (ZERO, Phasor(500, 0), Phasor(-500, 0)):
            vp_zero = loop._replace(v=v)
            yield f'{loop.name}: Vp=0, V={v}', asserts(
                LINE.r, n_and_m(LINE.Z, vp_zero)), False
    for r2 in (OFF, LINE.r, 2000):
        yield f'all V=0: no bit, second reach {r2}', zone_bits(
            LINE._replace(r2=r2), by_loop(LINE, voltages, currents)), (0, 0)


def resistive():
    """The fault with resistance: its sequence quantities, and reactance, n and
    q of A, B and C."""
    volts, amps = RESISTIVE
    yield 'resistive, 3V1', positive(*volts), (600, 251)
    yield 'resistive, 3V2', negative(*volts), (0, -51)
    yield 'resistive, 3I2', negative(*amps), (100, 0)
    for k, r, *three in (
            (0, 500, (0, -20000000, -10000000), (0, 0, 0), (0, 0, 0)),
            (0, 501, (10000000, -20000000, -10000000), (0, 0, 0), (0, 0, 0)),
            (1000, 1231, (19620000000, -40000000, -20000000),
             (34610000000, 1300000, -10000000),
             (10000000, 18700000, -10000000))):
        line = LINE._replace(k=Phasor(k, 0), r=r)
        for (name, found), wanted in zip(
                by_phase(line, volts, amps).items(), three):
            if k or name == 'A':
                yield f'resistive, {name}, k={k}, r={r}', found, wanted


def checks():
    """What is checked, what comes out, what should."""
    for name, samples, expected in OF_CHANNEL:
        yield name, phasor(samples), expected
    # "P7: only Ib=(0,1000): 3I2=(866,-500)."
    yield 'P7', negative(ZERO, Phasor(0, 1000), ZERO), (866, -500)
    # "P12: V=(500,0), Vp=(1000,0), Z=(0,1000), I=(0,-1000): asserts at r=500,
    # not at 499. P13: I=(0,1000): never."
    yield 'P12 at 500', p12(Phasor(0, -1000), 500), True
    yield 'P12 at 499', p12(Phasor(0, -1000), 499), False
    for r in range(1, 2000 + 1):
        yield f'P13 at {r}', p12(Phasor(0, 1000), r), False
    # "P14: D=(0,1000), 3I2=(100,0), 3V2=(0,-50): forward at zf=-499, not at
    # -500. 3I2 pickup 100 passes, 101 does not."
    for (zf, pickup), expected in P14.items():
        line = LINE._replace(zf=zf, pickup=pickup)
        yield f'P14 at {zf}, pickup {pickup}', direction(
            line, v2=Phasor(0, -50), i2=Phasor(100, 0)), expected
    yield 'P14 pickup 100', reaches_pickup(Phasor(100, 0), 100), True
    yield 'P14 pickup 101', reaches_pickup(Phasor(100, 0), 101), False
    yield from no_voltage()
    volts, amps = EXAMPLE
    yield 'example, 3V1', positive(*volts), (5000, 0)
    yield 'example, 3V2', negative(*volts), (-1000, 0)
    yield 'example, 3I2', negative(*amps), (0, -1000)
    yield from resistive()


# ---- Through windows -------------------------------------------------------

def of_channel() -> Iterator[Case]:
    """P1 to P6 and x[n]=C[n], on every channel."""
    for (name, samples, _), ends in itertools.product(OF_CHANNEL, ENDS):
        for index in range(channels(ends)):
            yield one_channel(name, LINE._replace(ends=ends), index, samples)


def of_zones(first: int, second: int) -> dict[str, int]:
    return {'loops': first, 'second zone': second}


def p12_and_p13() -> Iterator[tuple[Case, dict]]:
    """With these voltages 3V1 is the Vp of P12, and with k=0 loop AG has its
    I. No other loop asserts at these reaches."""
    voltages = [(500, 0), (-500, 0), (-500, 0)]
    for name, current, r, r2, *bits in (
            ('P12', -1000, 500, OFF, 1, 0), ('P12', -1000, 499, OFF, 0, 0),
            ('P12', -1000, 499, 500, 0, 1), ('P12', -1000, 499, 499, 0, 0),
            ('P13', 1000, 500, OFF, 0, 0), ('P13', 1000, 2000, OFF, 0, 0),
            ('P13', 1000, 500, 2000, 0, 0)):
        line = LINE._replace(k=ZERO, r=r, r2=r2)
        yield (exact_case(f'{name}, r={r}, r2={r2}', line, voltages,
                          [(0, current), ZERO, ZERO]), of_zones(*bits))


def p14() -> Iterator[tuple[Case, dict]]:
    for (zf, pickup), expected in P14.items():
        line = LINE._replace(zf=zf, pickup=pickup)
        yield (exact_case(f'P14, zf={zf}, pickup {pickup}', line,
                          [(0, -50), ZERO, ZERO], [(100, 0), ZERO, ZERO]),
               {'direction': expected})


def worked_example() -> Iterator[tuple[Case, dict]]:
    for r, r2, *bits in ((850, OFF, 1, 0), (600, OFF, 1, 0), (599, OFF, 0, 0),
                         (599, 600, 0, 1), (599, 599, 0, 0), (600, 850, 1, 1)):
        line = LINE._replace(r=r, pickup=50, r2=r2)
        yield (exact_case(f'the example worked by hand, r={r}, r2={r2}', line,
                          *EXAMPLE), {**of_zones(*bits), 'direction': 1})


def with_resistance() -> Iterator[tuple[Case, dict]]:
    """With all three bits also where direction is none, for each reason, and
    reverse."""
    tried = [(*given, -509, 300, 100, 1) for given in OF_RESISTIVE]
    tried += [(1000, 1231, 20, *limits) for limits in (
        (-510, 300, 100, 0), (-509, 300, 101, 0), (-600, -511, 100, 2))]
    for k, r, R, zf, zr, pickup, towards in tried:
        line = LINE._replace(k=Phasor(k, 0), r=r, zf=zf, zr=zr, pickup=pickup,
                             R=R)
        bits = OF_RESISTIVE[k, r, R] if towards == 1 else 0
        yield (exact_case(f'resistive, k={k}, r={r}, R={R}, zf={zf}, zr={zr}, '
                          f'pickup {pickup}', line, *RESISTIVE),
               {'quadrilaterals': bits, 'direction': towards})


def of_end_1() -> Iterator[tuple[Case, dict]]:
    """Each a case, and what the document gives for its decision."""
    yield exact_case('P7', LINE, [ZERO] * 3, [ZERO, (0, 1000), ZERO]), {}
    yield from p12_and_p13()
    yield from p14()
    yield from worked_example()
    yield from with_resistance()
    for r2 in (OFF, 2000):
        yield exact_case('Vp=0', LINE._replace(r2=r2), [ZERO] * 3,
                         [(0, -1000), ZERO, (7, 9)]), of_zones(0, 0)
