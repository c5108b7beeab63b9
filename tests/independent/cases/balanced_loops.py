"""Windows for the phase loops of document 02, CR 4, for balanced.py: balanced
faults at the first reach and beside it, in front and behind, each set of loops
that may assert, and none because there is no voltage.

Each is a label, a good record, and a window of its length.
"""
from itertools import chain, cycle, product
from typing import Iterator, NamedTuple

from cases.balanced_edges import (BEHIND, ONE_OUT, by_one, found_by_sides,
                                  volts_by_bits)
from cases.building import ENDS, HIGH, LINE, LOW, ZERO, record
from cases.faults import Place
from cases.sequences import (Found, Three, ends_and_ways, feeding, moved,
                             of_end_1, opposite, whole)
from cases.windows import edges, fault_case
from model.measuring import (PHASE_LOOPS, Line, Phasor, asserts, by_loop,
                             minus, positive, times)
from model.settings import OFF

FAR = HIGH[26]      # a second reach, far beyond the first


# ---- Along the line --------------------------------------------------------

def along_the_line() -> Iterator[Found]:
    """Steady waves near the relay, about its reach and beyond, in front and
    behind; and each with every setting at both sides of its edge."""
    cases, some_ends = [], cycle(ENDS)
    for forward, distance in product((True, False),
                                     (0.05, 0.84, 0.85, 0.86, 1.4)):
        line = LINE._replace(ends=next(some_ends))
        place = Place('abc', forward, distance, 9000j, 0.3 + 2j, 0)
        cases.append(fault_case(line, place, -1 / (line.ends - 1)))
    for label, line, numbers in (*cases, *edges(iter(cases))):
        yield f'along the line, {label}', record(line), numbers


# ---- At the reach ----------------------------------------------------------

class Reach(NamedTuple):
    """With which V = r Z I / 1000000 is whole if I is a multiple of the
    step."""
    r: int
    Z: Phasor
    step: int
    i1: complex     # a current

    def line(self, ends: int = 2, k: Phasor = ZERO) -> Line:
        return LINE._replace(ends=ends, Z=self.Z, r=self.r, k=k, pickup=200)

    def volts_and_amps(self) -> tuple[Three, Three]:
        """V and I with which all six loops are equal, if k is 0."""
        amps = [Phasor(self.step * re, self.step * im)
                for re, im in whole(self.i1 / self.step)]
        return [Phasor(*(self.r * part // 1000000
                         for part in times(self.Z, i))) for i in amps], amps


AT_500 = Reach(500, Phasor(0, 1000), 2, -900 + 200j)
AT_1000 = Reach(1000, Phasor(0, 1000), 1, 30 - 40j)
REACHES = (Reach(1, Phasor(0, 20000), 50, 9000 - 8000j), AT_500,
           Reach(850, Phasor(800, 5000), 100, 4000 + 3000j), AT_1000,
           Reach(2000, Phasor(600, 800), 5, -5000 - 6000j))


def all_equal() -> Iterator[Found]:
    """The six loops equal at the first reach, at the second, and at one
    thousandth beside them; and with the currents behind the relay."""
    each = ends_and_ways()
    for reach in REACHES:
        volts, amps = reach.volts_and_amps()
        r = reach.r
        for own, r2 in ((r, OFF), (r, r), (r, FAR), (r - 1, OFF), (r - 1, r),
                        (r - 1, FAR), (r + 1, OFF)):
            ends, way = next(each)
            line = reach.line(ends)._replace(r=own, r2=r2)
            if LOW[10] <= own <= HIGH[10]:
                label = f'all equal at {r}, r={own}, r2={r2}'
                yield of_end_1(label, line, volts, amps, way)
                yield of_end_1(f'{label}, behind', line, volts,
                               opposite(amps), way)


def sets_of_loops() -> Iterator[Found]:
    """Each set of loops that asserts with a count or two on the voltages at
    which all are equal: with the second zone off, with all in the second zone,
    and with all phases operating."""
    each, found = ends_and_ways(), {}
    line = AT_1000.line(k=LINE.k)
    for reach in (AT_1000, AT_1000._replace(i1=7 - 50j)):
        volts, amps = reach.volts_and_amps()
        for bits, tried in volts_by_bits(line, volts, amps).items():
            found.setdefault(bits, (tried, amps))
    for bits, both in found.items():
        for r2, (ends, way) in ((OFF, next(each)), (FAR, next(each)),
                                (OFF, (2 + bits % 5, feeding))):
            yield of_end_1(f'loops {bits:06b}, r2={r2}',
                           line._replace(ends=ends, r2=r2), *both, way)


def least_reach() -> Iterator[Found]:
    """The least reach at which all three phase loops assert, and one less, at
    which each other set of them is left."""
    each, before = ends_and_ways(), set()
    volts, amps = AT_500.volts_and_amps()
    line = AT_500.line()
    for tried in volts_by_bits(line, volts, amps).values():
        of_loops = by_loop(line, tried, amps)
        least = max(-(-1000000 * of_loops[name].n // of_loops[name].m)
                    for name in PHASE_LOOPS)
        left = tuple(name for name in PHASE_LOOPS
                     if asserts(least - 1, of_loops[name]))
        if left not in before:
            before.add(left)
            for r, (ends, way) in zip((least, least - 1), each):
                yield of_end_1(f'least reach {least}, r={r}',
                               line._replace(ends=ends, r=r), tried, amps, way)


def one_loop() -> Iterator[Found]:
    """One phase loop at an edge, or all three behind the relay, whatever
    3I2."""
    found = chain((by_one(at, over) for at, over in product(
        range(3), (1, 0, -1))), found_by_sides(ONE_OUT, 2, 1),
        found_by_sides(BEHIND, 20, -1))
    for (label, line, volts, amps), (ends, way) in zip(found,
                                                       ends_and_ways()):
        yield of_end_1(label, line._replace(ends=ends, pickup=HIGH[24]),
                       volts, amps, way)


def one_kind() -> Iterator[Found]:
    """All phase loops and no ground loop, and the other way round.

    In positive sequence V is 900, and Z I in thousandths is 1000, both in
    phase with Vp. Zero sequence of -1800 and -1500, with k = 1, moves the
    ground loops alone: AG then has -900 and -500, BG and CG 1800 and 1750.
    Negative sequence of 1800 and 1500 does the same to BC, AB and CA, and in
    the ground loops it makes up for the zero sequence."""
    line = AT_1000.line(k=Phasor(1000, 0))
    for (label, three_v2, three_i2), (ends, way) in zip(
            (('phase', ZERO, ZERO), ('ground', (5400, 0), (0, -4500))) * 5,
            ends_and_ways()):
        yield of_end_1(f'{label} loops alone', line._replace(
            ends=ends, pickup=HIGH[24]),
            moved(whole(900, three_v2), [(-1800, 0)] * 3),
            moved(whole(-1000j, three_i2), [(0, 375)] * 3), way)


# ---- No voltage, none of its own, or at right angles -----------------------

def no_m() -> Iterator[Found]:
    """m = 0 in all three phase loops. Vp is zero if the voltages are, if they
    are alike, and if they have only negative sequence."""
    b, c = Phasor(-333, -577), Phasor(-333, 577)
    # 3V1 = (2000,0), and the phase loops have I = Vp.
    at_right_angles = [minus(Phasor(2000, 0), positive(ZERO, b, c)), b, c]
    amps = [Phasor(1155, 0), Phasor(-577, -1000), Phasor(-577, 1000)]
    voltages = {'no voltage': [ZERO] * 3, 'alike': [Phasor(500, 300)] * 3,
                'negative sequence': whole(0, (900, 0)),
                'at right angles': at_right_angles}
    for ((label, volts), r2), (ends, way) in zip(
            product(voltages.items(), (OFF, FAR)), ends_and_ways()):
        line = LINE._replace(ends=ends, Z=Phasor(0, 1000), r2=r2)
        yield of_end_1(f'm = 0, {label}, r2={r2}', line, volts, amps, way)


def fixed() -> Iterator[Found]:
    return chain(along_the_line(), all_equal(), sets_of_loops(),
                 least_reach(), one_loop(), one_kind(), no_m())
