"""Voltages and currents of faults on a line, for windows.py: the circuit is a
source and the line."""
import cmath
import math
from typing import NamedTuple

from model.measuring import Line

TURN = cmath.rect(1, 2 * math.pi / 3)   # the true a
# Each fault with the phase that stands alone in it, in whose terms it is
# worked out.
FAULTS = {'load': 0, 'ag': 0, 'bg': 1, 'cg': 2, 'bc': 0, 'ca': 1, 'ab': 2,
          'abc': 0}


class Place(NamedTuple):
    """A fault fed by one source; impedances of line and source as complex."""
    fault: str
    forward: bool       # source behind the relay, fault in front of it
    distance: float     # of the fault, in line lengths
    volts: complex      # of the source, in counts
    source: complex
    load: complex       # current before the fault, in counts
    resistance: float = 0   # of a ground fault


def sequence_currents(place: Place, z1: complex, z0: complex):
    """I0, I1, I2 of the fault, seen from the phase that stands alone."""
    if place.fault == 'load':
        return 0, 0, 0
    if place.fault == 'abc':
        return 0, place.volts / z1, 0
    if place.fault.endswith('g'):
        return (place.volts / (2 * z1 + z0 + 3 * place.resistance),) * 3
    return 0, place.volts / (2 * z1), -place.volts / (2 * z1)


def by_phase(x0: complex, x1: complex, x2: complex, turn: int):
    """The phases a, b, c, when the first of the sequence phases is turn."""
    first = [x0 + TURN**-n * x1 + TURN**n * x2 for n in range(3)]
    return [first[(phase - turn) % 3] for phase in range(3)]


def volts_and_amps(line: Line, place: Place):
    """The phasors of end 1: V = E - Zs I, and I turned round if reverse."""
    z1 = complex(*line.Z) / 1000
    z0 = z1 * (1 + 3 * complex(*line.k) / 1000)
    i0, i1, i2 = sequence_currents(place, place.source + place.distance * z1,
                                   3 * place.source + place.distance * z0)
    i1 += place.load
    turn = FAULTS[place.fault]
    v = by_phase(-3 * place.source * i0, place.volts - place.source * i1,
                 -place.source * i2, turn)
    sign = 1 if place.forward else -1
    return v, by_phase(sign * i0, sign * i1, sign * i2, turn)
