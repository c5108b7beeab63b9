"""Windows for the second zone of document 02, CR 2: equalities at its reach,
what it sees in each direction, and what it does not see when it is off.

Each is a label, a line and a window of its length.
"""
from itertools import cycle, product
from typing import Iterator

from cases.building import (ENDS, HIGH, LINE, LOW, ZERO, Case, exact_case,
                            turned)
from cases.faults import FAULTS, Place
from cases.windows import EQUAL, equal_at, fault_case
from model.measuring import Phasor
from model.settings import OFF

# Settings of the direction that make it what is named, for faults in front.
TOWARDS = {'forward': {}, 'reverse': {'zf': LOW[20], 'zr': LOW[20] + 1},
           'between the limits': {'zf': LOW[20], 'zr': HIGH[22]},
           'below the pickup': {'pickup': HIGH[24]}}


# ---- Equalities ------------------------------------------------------------

def equalities() -> Iterator[Case]:
    """The second reach at the one at which loops are equal, and beside it on
    both sides."""
    for reach in EQUAL:
        for (label, line, numbers), r2 in product(
                equal_at(reach), range(reach - 1, reach + 2)):
            if LOW[10] <= r2 <= HIGH[26]:
                yield Case(f'{label}, r2={r2}',
                           line._replace(r=LOW[10], r2=r2), numbers)


def one_beside() -> Iterator[Case]:
    """V of one count, and Z I of so many that r m is 1000000 n, one less, or
    one more; in each zone."""
    for reach, z, current in ((1000, 20, 50), (1001, 27, 37), (101, 9901, 1)):
        for phase, (r, r2) in product(range(3), (
                (reach, OFF), (LOW[10], reach), (reach, reach))):
            line = LINE._replace(Z=Phasor(0, z), k=ZERO, r=r, r2=r2)
            yield exact_case(f'one beside equality, phase {phase}, r={r}, '
                             f'r2={r2}', line, turned(phase, (1, 0)),
                             turned(phase, (0, -current)))


# ---- Off -------------------------------------------------------------------

def own_voltages() -> Iterator[Case]:
    """A current in front of each loop, with the loop's voltage in front, zero,
    and behind. Without it m > 0 and 1000000 n <= r m at every reach, but off
    is off."""
    healthy = [(-1000, -1732), (-1000, 1732)]
    line = LINE._replace(Z=Phasor(0, 1000), k=Phasor(667, 0), r=LOW[10])
    for phase, own, r2 in product(range(3), (600, 0, -600),
                                  (OFF, LOW[10], HIGH[26])):
        label = f'V of {own} on phase {phase}, r2={r2}'
        yield exact_case(f'ground, {label}', line._replace(r2=r2),
                         turned(phase, (own, 0), *healthy),
                         turned(phase, (0, -1000)))
        yield exact_case(f'phase, {label}', line._replace(r2=r2),
                         turned(phase, (2000, 0), (-1000, -own // 2),
                                (-1000, own // 2)),
                         turned(phase, ZERO, (-500, 0), (500, 0)))


def no_voltage() -> Iterator[Case]:
    """Vp=0."""
    for phase in range(3):
        yield exact_case(f'no voltage, current on phase {phase}, second zone',
                         LINE._replace(r2=HIGH[26]), [ZERO] * 3,
                         turned(phase, (0, -1000)))


# ---- Faults that one zone sees, or both, or none ---------------------------

def faults() -> Iterator[Case]:
    """At 700 thousandths of the line, in each direction, passing through it
    or fed from all ends."""
    some_ends = cycle(ENDS)
    for fault, (r, r2), (label, limits), passing in product(
            FAULTS, ((900, OFF), (500, 500), (500, 900), (900, 900),
                     (500, HIGH[26])), TOWARDS.items(), (True, False)):
        line = LINE._replace(ends=next(some_ends), r=r, r2=r2, **limits)
        place = Place(fault, True, 0.7, 9000j, 0.3 + 2j, 300 + 40j)
        infeed = -1 / (line.ends - 1) if passing else 0.5
        case = fault_case(line, place, infeed)
        yield case._replace(label=f'{case.label}, {label}, r={r}, r2={r2}')


def fixed() -> Iterator[Case]:
    for part in (equalities(), one_beside(), own_voltages(), no_voltage(),
                 faults()):
        yield from part
