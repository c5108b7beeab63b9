"""Voltages and currents of end 1 at the edges of the quadrilateral of document
02, CR 7, for quadrilateral.py: on the reactance line and at the sides, exactly
or one step beside it, and with the direction that is wanted.

With Z, k, r and the currents given, what the rule tests is linear in V. Along
Ir only n changes, and the reactance number stays. Along ZI only the reactance
number changes, and n stays. So V is found by whole-number arithmetic.
"""
import math
import random
from typing import NamedTuple, Optional

from cases.balanced_edges import few
from cases.building import HIGH, LOW, ZERO, any_angle
from cases.sequences import Three, moved
from model.measuring import (FORWARD, NONE, REVERSE, Line, Phasor, T, conjugate,
                             direction, loops, negative, plus, squared, times)
from model.quadrilateral import residual
from model.settings import OFF

MOST = 30000    # counts of a voltage, so that a steady wave has it


class Across(NamedTuple):
    """A ground loop without its voltage."""
    ir: Phasor
    i: Phasor
    zi: Phasor
    q: int


def with_z(Z: Phasor, ir: Phasor, i: Phasor) -> Across:
    zi = times(Z, i)
    return Across(ir, i, zi, times(ir, conjugate(zi)).im)


def loop_of(line: Line, amps: Three, phase: int) -> Across:
    return with_z(line.Z, residual(amps),
                  loops(line, [ZERO] * 3, amps)[phase].i)


# ---- Voltages --------------------------------------------------------------

def along(x: Phasor, times_x: int) -> Phasor:
    """So many steps along x, each the shortest with whole numbers."""
    g = math.gcd(*x)
    return Phasor(times_x * x.re // g, times_x * x.im // g)


def crossing(x: Phasor, number: int) -> Optional[Phasor]:
    """The shortest whole V with Im(V x*) = number, if there is one."""
    g = math.gcd(*x)
    if g == 0 or number % g:
        return None
    (a, b), wanted = along(x, 1), number // g       # y a - x b = wanted
    y = wanted * pow(a, -1, abs(b)) % abs(b) if b else wanted * a
    found = Phasor((y * a - wanted) // b if b else 0, y)
    back = round((found.re * a + found.im * b) / (a * a + b * b))
    return plus(found, along(x, -back))


def on_reactance(line: Line, loop: Across, over: int,
                 n: float) -> Optional[Phasor]:
    """V with Im[(rZI - V) Ir*] of so much exactly, as the model scales it, and
    n as near to this one as can be."""
    left = -line.r * loop.q - over
    v = crossing(loop.ir, left // 1000000) if (
        left % 1000000 == 0 and loop.q != 0) else None
    if v is None:
        return None
    own = times(v, conjugate(loop.zi)).im
    steps = round((n - own) * math.gcd(*loop.ir) / loop.q)
    return plus(v, along(loop.ir, steps))


def with_n(line: Line, loop: Across, n: int, inside: int) -> Optional[Phasor]:
    """V with this n exactly, and Im[(rZI - V) Ir*] above 0 by as little as can
    be, or so many steps farther inside."""
    v = crossing(loop.zi, n)
    if v is None:
        return None
    step = 1000000 * abs(loop.q) // math.gcd(*loop.zi)  # of the reactance
    own = -line.r * loop.q - 1000000 * times(v, conjugate(loop.ir)).im
    steps = (1 - own + step - 1) // step + inside
    return plus(v, along(loop.zi, steps if loop.q > 0 else -steps))


def at_side(line: Line, loop: Across, over: int, sign: int,
            inside: int = 0) -> Optional[Phasor]:
    """V with 10|n| so much above R|q| exactly, on the side of this sign."""
    ten = line.R * abs(loop.q) + over
    return with_n(line, loop, sign * ten // 10, inside) if ten % 10 == 0 else None


def placed(loop: Across, m: float, ohms: float) -> Phasor:
    """The whole V nearest to that of a fault at m thousandths of the replica,
    with this resistance: V = m Z I + F Ir."""
    v = m * complex(*loop.zi) / 1000000 + ohms * complex(*loop.ir)
    return Phasor(round(v.real), round(v.imag))


# ---- The direction ---------------------------------------------------------

BELOW, BETWEEN = 'below the pickup', 'between the limits'
TOWARDS = {'forward': FORWARD, 'reverse': REVERSE, BELOW: NONE, BETWEEN: NONE}


def aimed(rng: random.Random, line: Line, volts: Three, amps: Three,
          towards: str) -> Optional[Line]:
    """The line with a direction of this name, often by as little as can be, if
    there is one."""
    i2, v2 = negative(*amps), negative(*volts)
    size = math.isqrt(squared(i2))
    if not LOW[24] <= size < HIGH[24]:
        return None
    line = line._replace(pickup=size + (towards == BELOW))
    z = T(line, v2, i2) // squared(i2)      # T lies from z to z + 1 times it
    more = rng.choice([0, 0, rng.randint(0, 3000)])
    exact = T(line, v2, i2) == z * squared(i2)
    at_zr = exact and rng.random() < 0.5
    zf, zr = {'forward': (z + 1 + more, z + 2 + more),
              'reverse': (z - 2 - more, z - 1 - more + (not exact)),
              BELOW: (z + 1 + more, z + 2 + more),
              BETWEEN: (z - more - at_zr, z + (not at_zr))}[towards]
    if not (LOW[20] <= zf < zr <= HIGH[22]):
        return None
    found = line._replace(zf=zf, zr=zr)
    assert direction(found, v2, i2) == TOWARDS[towards]
    return found


# ---- Lines and currents ----------------------------------------------------

def about(rng: random.Random, most: int) -> int:
    """Any number up to this, a small one as likely as a large one."""
    return int(math.exp(rng.uniform(0, math.log(most + 1))))


def any_k(rng: random.Random) -> Phasor:
    """None, real, or complex."""
    real = rng.randint(LOW[12], HIGH[12])
    return rng.choice([ZERO, Phasor(real, 0), Phasor(
        real, rng.randint(LOW[14], HIGH[14]))])


ANGLES = [any_angle(random.Random(at)) for at in range(20)]


def drawn(rng: random.Random, line: Line) -> Line:
    """Z, r, k and D by chance. The second zone is off, or far beyond."""
    r = rng.randint(LOW[10], HIGH[10])
    Z = Phasor(about(rng, 3000) - 1, about(rng, 9000))
    return line._replace(Z=Z, r=r, k=any_k(rng), D=rng.choice(ANGLES),
                         r2=rng.choice([OFF, HIGH[26]]))


def as_they_are(rng: random.Random, line: Line) -> Line:
    """The same, but Z and r as on a line at work."""
    Z = Phasor(rng.randint(0, 6000), rng.randint(3000, 15000))
    return drawn(rng, line)._replace(Z=Z, r=rng.randint(300, 1500))


def any_amps(rng: random.Random, phase: int, least: int = 1) -> Three:
    """A ground fault: most of the current on one phase, but for a load."""
    size = max(about(rng, 400), least)
    amps = few(rng, rng.choice([0, size // 9, size]))
    return moved(amps, [few(rng, size)[0] if own == phase else ZERO
                        for own in range(3)])


def other_volts(rng: random.Random, phase: int, own: Phasor) -> Three:
    """Voltages with this one on the phase: the others like it, or any."""
    size = max(map(abs, own))
    by = few(rng, rng.choice([0, 3, size // 4, size]))
    return [own if at == phase else plus(own, by[at]) for at in range(3)]


def small_enough(volts: Three) -> bool:
    return all(squared(value) <= MOST**2 for value in volts)
