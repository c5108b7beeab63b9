"""Document 01's hand checks as windows, with what a decision on each should
show, one of document 02's second zone, which does not trip, one of its
balanced faults, those of the slope c at which a phase changes, and a fault with
resistance that a quadrilateral alone sees.

checks() puts them to model/decision.py; windows() gives each window once, for
an archive.
"""
from itertools import chain, islice, product
from typing import Iterator, NamedTuple

from cases import currents, hand_checks
from cases.building import (ZERO, exact, exact_case, of_phases, record,
                            turned, window)
from cases.trying import QUIET
from model.decision import FORM, PHASE_BITS, decision_record
from model.differential import SLOPES
from model.measuring import Phasor

NAMES = ('trip', 'byte 1', 'loops', 'direction', 'second zone', 'change of a',
         'change of b', 'change of c', 'U of a', 'U of b', 'U of c',
         'root of a', 'root of b', 'root of c')


class Check(NamedTuple):
    name: str
    record: bytes
    window: list[int]
    expected: dict[str, int]    # by the names that decision() gives


def decision(good: bytes, numbers: list[int]) -> dict[str, int]:
    """By NAMES, the parts of byte 1, and whether each phase operates."""
    found = dict(zip(NAMES, FORM.unpack(decision_record(good, numbers)),
                     strict=True))
    found['phases'] = found['byte 1'] & PHASE_BITS
    found['quadrilaterals'] = found['byte 1'] - found['phases']
    for bit, letter in zip((1, 2, 4), 'abc'):
        found[f'{letter} operates'] = int(found['phases'] & bit != 0)
    return found


# ---- The hand checks -------------------------------------------------------

def on_phase(phase: int, ends: list[list[int]]) -> list[int]:
    """A window with these samples on one phase, and nothing elsewhere."""
    none = [QUIET] * len(ends)
    return of_phases([QUIET] * 3, turned(phase, ends, none, none))


def p1_to_p6() -> Iterator[Check]:
    """And x[n]=C[n]. With nothing at end 2, U and the root are the size. With
    one count the opposite way at end 2 the root is 0."""
    good = record(hand_checks.LINE)
    for (name, samples, (re, im)), (phase, letter) in product(
            hand_checks.OF_CHANNEL, enumerate('abc')):
        size = 64 * (abs(re) + abs(im))
        yield Check(name, good, on_phase(phase, [samples, QUIET]),
                    {f'U of {letter}': size, f'root of {letter}': size})
        if size == 64:
            yield Check(name, good,
                        on_phase(phase, [samples, exact((-re, -im))]),
                        {f'root of {letter}': 0})


def p7() -> Iterator[Check]:
    """3V2 = 3I2 = (866,-500), at right angles to D 3I2: T = 0, between any
    limits of both signs. |3I2|² = 999956 lies between the squares of 999 and
    1000."""
    for zf, zr, pickup, towards in ((-1, 0, 999, 0), (0, 1, 999, 0),
                                    (1, 2, 999, 1), (-2, -1, 999, 2),
                                    (1, 2, 1000, 0), (-2, -1, 1000, 0)):
        line = hand_checks.LINE._replace(zf=zf, zr=zr, pickup=pickup)
        case = exact_case('P7', line, turned(0, (866, -500)),
                          [ZERO, (0, 1000), ZERO])
        yield Check('P7', record(line), case.numbers, {'direction': towards})


def changing(changes: list[int]) -> dict[str, int]:
    """c of a, b and c."""
    return {f'change of {letter}': c for letter, c in zip('abc', changes)}


def p8_to_p11() -> Iterator[Check]:
    for check in currents.hand_checks():
        line, letter = hand_checks.LINE._replace(
            ends=check.ends), 'abc'[check.phase]
        expected = {f'{letter} operates': int(check.operates),
                    **changing(check.changes)}
        if check.U is not None:
            expected[f'U of {letter}'] = check.U
        yield Check(check.name, record(line, check.K, check.pickup),
                    check.numbers, expected)


def p12_to_p14() -> Iterator[Check]:
    """And those after them."""
    for (name, line, numbers), expected in hand_checks.of_end_1():
        yield Check(name, record(line), numbers, expected)


def does_not_trip() -> Iterator[Check]:
    """The example worked by hand, what comes in at end 1 going out at end 2.
    Direction is forward. The first zone trips from 600 on, the second
    never."""
    volts, amps = hand_checks.EXAMPLE
    out = [(-re, -im) for re, im in amps]
    numbers = window([exact(value) for value in (*volts, *amps, *out)], 2)
    for r, r2, trip, first, second in ((599, 600, 0, 0, 1), (1, 2000, 0, 0, 1),
                                       (600, 600, 1, 1, 1)):
        line = hand_checks.LINE._replace(r=r, pickup=50, r2=r2)
        yield Check(f'second zone, r={r}, r2={r2}', record(line), numbers, {
            'trip': trip, 'phases': 0, 'loops': first, 'direction': 1,
            'second zone': second})


def balanced() -> Iterator[Check]:
    """A balanced fault at 600 thousandths of the replica: in each phase V is
    0.6j I, so that all six loops are equal at 600. 3I2 = (0,-2), 3V2 = (1,0)
    and T = 2000, which is 500 |3I2|²."""
    volts = [(600, 0), (-300, -519), (-300, 519)]
    amps = [(0, -1000), (-865, 500), (865, 500)]
    out = [(-re, -im) for re, im in amps]
    numbers = window([exact(value) for value in (*volts, *amps, *out)], 2)
    for r, r2, pickup, zr, trip, first, towards, second in (
            (600, 0, 3, 300, 1, 63, 0, 0), (599, 0, 3, 300, 0, 0, 0, 0),
            (599, 600, 3, 300, 0, 0, 0, 63), (600, 0, 2, 500, 0, 63, 0, 0),
            (600, 0, 2, 499, 0, 63, 2, 0)):
        line = hand_checks.LINE._replace(r=r, r2=r2, pickup=pickup, zr=zr)
        yield Check(f'balanced, r={r}, r2={r2}, pickup {pickup}, zr={zr}',
                    record(line), numbers, {
                        'trip': trip, 'phases': 0, 'loops': first,
                        'direction': towards, 'second zone': second})


def with_resistance() -> Iterator[Check]:
    """The fault with resistance worked by hand, what comes in at end 1 going
    out at end 2. No circle sees it, and no phase operates. It trips if a
    quadrilateral sees it."""
    volts, amps = hand_checks.RESISTIVE
    out = [(-re, -im) for re, im in amps]
    numbers = window([exact(value) for value in (*volts, *amps, *out)], 2)
    for (k, r, R), bits in hand_checks.OF_RESISTIVE.items():
        line = hand_checks.LINE._replace(k=Phasor(k, 0), r=r, zf=-509, R=R)
        yield Check(f'resistive, k={k}, r={r}, R={R}', record(line), numbers, {
            'trip': int(bits != 0), 'byte 1': bits, 'direction': 1,
            'loops': 0})


# ---- The slope at which it changes -----------------------------------------

# The two ends of a phase, the pickup, and c. The first is the paper mill's
# fault: s is 60², U 64 times 140, and 6000 lies between 42 and 43 times 140.
PAPER_MILL = [((100, 0), (-40, 0), pickup, c)
              for pickup, c in ((60, 42), (1, 42), (61, 0))]
P10 = [((90, 0), (-30, 0), 1, 49)]
P11 = [((1, 1), (1, 1), pickup, c) for pickup, c in ((1, 99), (2, 99), (3, 0))]
NOTHING = [(ZERO, ZERO, 1, 0)]


def change(name: str, given: list, K: int) -> Iterator[Check]:
    """On each phase in turn, with nothing on the others."""
    for (first, last, pickup, c), phase in product(given, range(3)):
        yield Check(f'{name}, pickup {pickup}, K={K}',
                    record(hand_checks.LINE, K, pickup),
                    on_phase(phase, [exact(first), exact(last)]),
                    {'phases': (1, 2, 4)[phase] * (K <= c),
                     **changing(turned(phase, c, 0, 0))})


def paper_mill() -> Iterator[Check]:
    """15 was said and 50 heard. This fault operates up to 42."""
    for K in (15, 50):
        yield from change('the paper mill', PAPER_MILL, K)


def at_every_slope() -> Iterator[Check]:
    """c is the same at each K, and a phase operates exactly from 1 to c."""
    for K in SLOPES:
        for name, given in (('the paper mill', PAPER_MILL), ('P10', P10),
                            ('P11', P11), ('no current', NOTHING)):
            yield from islice(change(name, given, K), 0, None, 3)   # phase a


def all_of_them() -> Iterator[Check]:
    yield from p1_to_p6()
    yield from p7()
    yield from p8_to_p11()
    yield from p12_to_p14()
    yield from does_not_trip()
    yield from balanced()
    yield from with_resistance()
    yield from paper_mill()
    yield next(change('no current', NOTHING, 15))


def checks():
    """What is checked, what comes out, what should."""
    for name, good, numbers, expected in chain(all_of_them(),
                                               at_every_slope()):
        found = decision(good, numbers)
        for what, number in expected.items():
            yield f'{name}, {what}', found[what], number


def windows() -> Iterator[tuple[str, bytes, list[int]]]:
    return (check[:3] for check in all_of_them())
