"""The rule of document 02, CR 7: quadrilateral ground loops, for faults with
resistance that the circles miss.

All arithmetic is in whole numbers, and nothing is rounded but the k product of
the mho loops. Comments in quotes are the document's own sentences.
"""
from typing import NamedTuple

from model.measuring import (FORWARD, Line, Loop, Phasor, conjugate, fits,
                             loops, minus, plus, times)
from model.settings import OFF

# "Bits 8, 16 and 32 of decision byte 1 report A, B and C"
QUADRILATERALS = {'A': 8, 'B': 16, 'C': 32}


class Measured(NamedTuple):
    """What a ground loop is judged by, at any R."""
    reactance: int
    n: int
    q: int


def residual(i: list[Phasor]) -> Phasor:
    """ "Ir = Ia+Ib+Ic as polarising current", of end 1 as in the loops."""
    ia, ib, ic = i
    return plus(plus(ia, ib), ic)


def scaled(number: int, x: Phasor) -> Phasor:
    return times(Phasor(number, 0), x)


def measured(line: Line, ir: Phasor, loop: Loop) -> Measured:
    """Of a ground loop, "V and I as in the mho loops"."""
    zi = times(line.Z, loop.i)
    # "source document 002's reactance test": "with r and Z as set, Im[(rZI -
    # V) Ir*] > 0". r and Z are both in thousandths, so V is taken 1000000
    # times.
    beyond = minus(scaled(line.r, zi), scaled(1000000, loop.v))
    # "let n = Im[V (ZI)*] and q = Im[Ir (ZI)*]". Z is in thousandths in both.
    return Measured(reactance=times(beyond, conjugate(ir)).im,
                    n=times(loop.v, conjugate(zi)).im,
                    q=times(ir, conjugate(zi)).im)


def within_sides(R: int, n: int, q: int) -> bool:
    # "q is not zero and ten times |n| is at most R times |q|, R in tenths"
    return q != 0 and fits(10 * abs(n)) <= fits(R * abs(q))


def asserts(R: int, found: Measured) -> bool:
    """Whether what the loop measures lies in the quadrilateral."""
    return found.reactance > 0 and within_sides(R, found.n, found.q)


def by_phase(line: Line, v: list[Phasor],
             i: list[Phasor]) -> dict[str, Measured]:
    """Of A, B and C, by the phasors of end 1. One Ir serves all three."""
    ir, of_loops = residual(i), {loop.name: loop for loop in loops(line, v, i)}
    return {name: measured(line, ir, of_loops[f'{name}G'])
            for name in QUADRILATERALS}


def quadrilateral_bits(line: Line, v: list[Phasor], i: list[Phasor],
                       towards: int) -> int:
    """Those of bits 8, 16 and 32 that are set, by the phasors of end 1 and the
    direction."""
    # "0 is off", also where n is 0. "Direction must be forward."
    if line.R == OFF or towards != FORWARD:
        return 0
    return sum(QUADRILATERALS[name]
               for name, found in by_phase(line, v, i).items()
               if asserts(line.R, found))
