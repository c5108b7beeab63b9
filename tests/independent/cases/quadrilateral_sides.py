"""Windows at the edges of the quadrilateral of document 02, CR 7, for
quadrilateral.py: on the reactance line, at both sides, at every edge of R, with
each direction, and where q or n is 0.

Each is a label, a good record, and a window of its length. In most of them no
phase operates, so that trip shows what the quadrilateral does.
"""
import math
import random
from itertools import islice, product
from typing import Callable, Iterator, NamedTuple, Optional

from cases.building import ENDS, HIGH, LINE, LOW, ZERO, turned
from cases.quadrilateral_edges import (TOWARDS, Across, aimed, any_amps,
                                       as_they_are, at_side, drawn, loop_of,
                                       on_reactance, other_volts, placed,
                                       small_enough, with_n, with_z)
from cases.sequences import Found, Three, ends_and_ways, of_end_1
from model.measuring import Line, Phasor, conjugate, times
from model.settings import OFF

NAMES = 'ABC'
SIGNS = (1, -1)
WAYS = list(islice(ends_and_ways(), 2 * len(ENDS)))     # each once


class Fault(NamedTuple):
    """Settings, voltages and currents of end 1, with a label of its own, by
    which chance goes."""
    label: str
    line: Line
    volts: Three
    amps: Three

    def window(self, more: str = '', **settings) -> Found:
        """With these settings changed."""
        label = self.label + more
        ends, way = random.Random(label).choice(WAYS)
        return of_end_1(label, self.line._replace(ends=ends, **settings),
                        self.volts, self.amps, way)


Voltage = Callable[[random.Random, Line, Across],
                   Optional[tuple[Line, Optional[Phasor]]]]


def sought(label: str, phase: int, sign: int, voltage: Voltage,
           towards: str = 'forward', at_work: bool = False) -> Fault:
    """Lines and currents with a q of this sign on this phase are drawn until
    there is such a voltage, and a direction of this name. They are of any
    size, or as on a line at work."""
    label = f'{NAMES[phase]}: {label}, q {sign}'
    rng = random.Random(label)
    while True:
        line = (as_they_are if at_work else drawn)(rng, LINE)
        amps = any_amps(rng, phase, 100 if at_work else 1)
        loop = loop_of(line, amps, phase)
        given = voltage(rng, line, loop) if sign * loop.q > 0 else None
        if given is None or given[1] is None:
            continue
        volts = other_volts(rng, phase, given[1])
        line = aimed(rng, given[0], volts, amps, towards)
        if line is not None and small_enough(volts) and (
                sign * loop_of(line, amps, phase).q > 0):
            return Fault(label, line, volts, amps)


# ---- The reactance line ----------------------------------------------------

def z_for(rng: random.Random, r: int, loop: Across,
          over: int) -> Optional[Phasor]:
    """Z with which r q and so much more is a multiple of 1000000, so that a
    whole voltage can make up for it. q is Im(Ir I* Z*)."""
    re, im = times(loop.ir, conjugate(loop.i))
    if math.gcd(10, r) != 1 or math.gcd(10, re) != 1:
        return None
    q, turned_back = -over * pow(r, -1, 1000000), pow(re, -1, 1000000)
    for real in rng.sample(range(HIGH[6] + 1), 100):
        imaginary = (im * real - q) * turned_back % 1000000
        if LOW[8] <= imaginary <= HIGH[8]:
            return Phasor(real, imaginary)
    return None


def beside_reactance(over: int, side: int) -> Voltage:
    """Im[(rZI - V) Ir*] is so much, and V well within this side."""
    def voltage(rng, line, loop):
        Z = z_for(rng, line.r, loop, over)
        if Z is None:
            return None
        line = line._replace(Z=Z, R=rng.randint(30, HIGH[28]))
        loop = with_z(Z, loop.ir, loop.i)
        n = side * rng.uniform(0.2, 0.8) * line.R * abs(loop.q) / 10
        return line, on_reactance(line, loop, over, n)
    return voltage


def reactance() -> Iterator[Found]:
    for phase, over, sign, side in product(range(3), (1, 0, -1), SIGNS, SIGNS):
        yield sought(f'reactance {over}, n {side}', phase, sign,
                     beside_reactance(over, side)).window()


# ---- The sides -------------------------------------------------------------

def beside_side(over: int, side: int) -> Voltage:
    """10|n| is so much above R|q|, with an R for which that is a multiple of
    ten."""
    def voltage(rng, line, loop):
        last = [R for R in range(1, 10 + 1)
                if (R * abs(loop.q) + over) % 10 == 0]
        if not last:
            return None
        R = rng.choice(last) + 10 * rng.randrange(HIGH[28] // 10)
        line = line._replace(R=R)
        return line, at_side(line, loop, over, side, rng.choice([0, 0, 1, 5]))
    return voltage


def sides() -> Iterator[Found]:
    for phase, over, sign, side in product(range(3), (-1, 0, 1), SIGNS, SIGNS):
        yield sought(f'10|n| - R|q| = {over}, n {side}', phase, sign,
                     beside_side(over, side)).window()


# R at its ends, beside a byte, and beside where tenths are whole.
RESISTANCES = (1, 2, 9, 10, 11, 255, 256, 257, 512, 768, 999, HIGH[28])


def equal_at(R: int, side: int) -> Voltage:
    def voltage(rng, line, loop):
        line = line._replace(R=R)
        return line, at_side(line, loop, 0, side)
    return voltage


def resistances() -> Iterator[Found]:
    """Equal at R; and R one less, which may be off, and one more."""
    for (at, R), phase in product(enumerate(RESISTANCES), range(3)):
        sign, side = SIGNS[(at + phase) % 2], SIGNS[(at + phase) // 2 % 2]
        fault = sought(f'equal at R={R}', phase, sign, equal_at(R, side))
        for other in (R - 1, R, R + 1):
            if other <= HIGH[28]:
                yield fault.window(f', R={other}', R=other)


# ---- n = 0 -----------------------------------------------------------------

def on_line(rng, line, loop):
    """V along ZI: a fault without resistance, nearer than the reach."""
    return line._replace(R=1), with_n(line, loop, 0, rng.choice([0, 2]))


def no_resistance() -> Iterator[Found]:
    """Each R sees it, but for 0."""
    for phase, sign in product(range(3), SIGNS):
        fault = sought('n = 0', phase, sign, on_line)
        for R in (OFF, 1, HIGH[28]):
            yield fault.window(f', R={R}', R=R)


# ---- The direction ---------------------------------------------------------

def well_inside(side: int) -> Voltage:
    """V on the side of this sign, as far as n / q has it. Where q is above 0,
    the reactance test passes beyond the reach."""
    def voltage(rng, line, loop):
        line = line._replace(R=rng.randint(20, 300))
        part = rng.uniform(0.3, 0.8) if loop.q < 0 else rng.uniform(1.2, 1.7)
        return line, placed(loop, part * line.r,
                            side * rng.uniform(0.2, 0.8) * line.R / 10)
    return voltage


def directions() -> Iterator[Found]:
    for phase, towards, sign, side in product(range(3), TOWARDS, SIGNS, SIGNS):
        yield sought(f'inside, side {side}, {towards}', phase, sign,
                     well_inside(side), towards, at_work=True).window()


# ---- The second reach ------------------------------------------------------

def between_reaches() -> Iterator[Found]:
    """A fault between the first reach and the second, which has no
    quadrilateral. Where q is above 0 it is the second reach that would not
    have the bit."""
    for phase, sign in product(range(3), SIGNS):
        fault = sought('between reaches', phase, sign, well_inside(sign),
                       at_work=True)
        r = fault.line.r
        for first, second in ((r, HIGH[26]), (LOW[10], r), (LOW[10], OFF),
                              (HIGH[10], HIGH[26])):
            yield fault.window(f', r={first}, r2={second}', r=first, r2=second)


# ---- q = 0 -----------------------------------------------------------------

# Z and k with which Z(1 + k) is real, so that ZI of a single current lies
# along it; and the currents of a, b and c with which I of phase a is 0.
ALONG = LINE._replace(Z=Phasor(2000, 1000), k=Phasor(0, -500), R=HIGH[28])
NO_I = LINE._replace(Z=Phasor(300, 1000), k=Phasor(1000, 0), R=HIGH[28])
NO_CURRENTS = {
    'ZI along Ir': (ALONG, (40, 60), ZERO, ZERO),
    'I = 0': (NO_I, (-60, 20), (90, -10), (30, -30)),
    'Ir = 0': (NO_I, (90, -50), (-40, 80), (-50, -30)),
    'I = 0 and k = 0': (NO_I._replace(k=ZERO), ZERO, (50, 10), (9, -70)),
    'I = 0 and Ir = 0': (NO_I, ZERO, (50, 10), (-50, -10))}


def none_across() -> Iterator[Found]:
    """V to each side of Ir, so that the reactance test would pass for one of
    them, with n of each sign, and no V."""
    rng = random.Random(1)
    for phase, (label, (line, *three)), volt in product(
            range(3), NO_CURRENTS.items(),
            ((300, -800), (-300, 800), (200, 300), ZERO)):
        amps = [Phasor(*value) for value in turned(phase, *three)]
        volts = other_volts(rng, phase, Phasor(*volt))
        on = aimed(rng, line, volts, amps, 'forward')
        if on is not None:
            yield Fault(f'{NAMES[phase]}: q = 0, {label}, V={volt}', on,
                        volts, amps).window()


def fixed() -> Iterator[Found]:
    for part in (reactance(), sides(), resistances(), no_resistance(),
                 directions(), between_reaches(), none_across()):
        yield from part
