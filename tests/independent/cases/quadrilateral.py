"""Windows for the quadrilateral ground loops of document 02, CR 7: faults with
resistance on each phase, each byte 1 that there is, the largest numbers, windows
for many R, those of quadrilateral_sides.py, and others by chance.

fixed() gives the same ones each time, endless(rng) as many more as are wanted.
Each is a label, a good record, and a window of its length.
"""
import functools
import random
from itertools import cycle, islice, product
from typing import Iterator

from cases import quadrilateral_sides
from cases.building import (ENDS, HIGH, LINE, LOW, added, any_line, farthest,
                            largest, pulse, record, window)
from cases.faults import Place
from cases.quadrilateral_edges import (BELOW, BETWEEN, aimed, any_amps,
                                       as_they_are, drawn, loop_of,
                                       other_volts, placed, small_enough)
from cases.quadrilateral_sides import Fault
from cases.records import put
from cases.sequences import Found, feeding, of_ends, passing, sharing
from cases.windows import fault_case, fault_line
from model.measuring import (FORWARD, Line, Phasor, by_loop, loop_bits,
                             phasors)
from model.quadrilateral import QUADRILATERALS, by_phase, quadrilateral_bits
from model.settings import OFF


# ---- The least R -----------------------------------------------------------

def just_enough(line: Line, by_channel: list[Phasor]) -> set[int]:
    """The least R with which each of A, B and C lies within its sides."""
    found = by_phase(line, by_channel[0:3], by_channel[3:6]).values()
    least = {-(-10 * abs(n) // abs(q)) for _, n, q in found if q != 0}
    return {R for R in least if R <= HIGH[28]} - {OFF}


def at_resistance(found: Found, R: int) -> Found:
    label, good, numbers = found
    return f'{label}, R={R}', put(good, 28, R), numbers


# ---- Along the line --------------------------------------------------------

def along_the_line() -> Iterator[Found]:
    """Steady waves of faults with resistance, in front and behind, near the
    relay, within its reach and beyond; each with R just enough and one less.
    The circles see few of them."""
    some_ends = cycle(ENDS)
    for fault, forward, distance, ohms in product(
            ('ag', 'bg', 'cg'), (True, False), (0.1, 0.8, 0.9), (3, 12)):
        line = LINE._replace(ends=next(some_ends), R=1)
        place = Place(fault, forward, distance, 9000j, 0.3 + 2j, 0, ohms)
        _, _, numbers = fault_case(line, place, -1 / (line.ends - 1))
        plain = (f'{fault}, forward: {forward}, at {distance}, {ohms} ohms',
                 record(line), numbers)
        enough = just_enough(line, phasors(numbers, line.ends))
        every = {*enough, *(R - 1 for R in enough)} if forward else set()
        for R in sorted({10 * ohms + 1, *every}):
            yield at_resistance(plain, R)


def with_circles() -> Iterator[Found]:
    """A fault with hardly any resistance, which a circle sees too; with R off,
    too little and enough; fed from all ends and passing through."""
    for ends, fault, feeds, R in product(ENDS, ('ag', 'cg'), (True, False), (
            OFF, 1, 100)):
        line = LINE._replace(ends=ends, R=R)
        place = Place(fault, True, 0.4, 9000j, 0.3 + 2j, 300 + 40j, 0.3)
        _, _, numbers = fault_case(line, place,
                                   0.5 if feeds else -1 / (ends - 1))
        yield (f'{fault} with its circle, R={R}, fed: {feeds}', record(line),
               numbers)


# ---- Each byte 1 -----------------------------------------------------------

def inside(rng: random.Random) -> Fault:
    """A fault in front, not far from an edge of the quadrilateral, with
    current on every phase."""
    while True:
        line, phase = as_they_are(rng, LINE), rng.randrange(3)
        line = line._replace(R=rng.randint(10, 200))
        amps = any_amps(rng, phase, 100)
        ohms = rng.uniform(-1.1, 1.1) * line.R / 10
        volts = other_volts(rng, phase, placed(
            loop_of(line, amps, phase), rng.uniform(0, 1.5) * line.r, ohms))
        on = aimed(rng, line, volts, amps, 'forward')
        if on is not None and small_enough(volts) and all(map(any, amps)):
            return Fault('a fault in front', on, volts, amps)


def missed(fault: Fault) -> bool:
    """Whether no circle sees it."""
    return loop_bits(fault.line.r, by_loop(*fault[1:])) == 0


def by_bits() -> dict[int, Fault]:
    """A fault that the circles miss for each set of bits 8, 16 and 32."""
    rng, found = random.Random(1), {}
    while len(found) < 8:
        fault = inside(rng)
        if missed(fault):
            found.setdefault(quadrilateral_bits(*fault[1:], FORWARD), fault)
    return found


def each_byte() -> Iterator[Found]:
    """With each set of phases that operate: those are fed from all ends, the
    current of the others goes out at the last end."""
    some_ends = cycle(ENDS)
    for (bits, fault), operating in product(by_bits().items(), range(8)):
        line = fault.line._replace(ends=next(some_ends))
        ways = [(feeding if operating & bit else passing)(
            fault.amps, line.ends) for bit in (1, 2, 4)]
        others = [[ways[phase][end][phase] for phase in range(3)]
                  for end in range(line.ends - 1)]
        yield of_ends(f'byte 1 of {bits + operating}', line, fault.volts,
                      [fault.amps, *others], 15, LOW[4])


# ---- The largest numbers ---------------------------------------------------

def largest_numbers() -> Iterator[Found]:
    """All currents as large as can be. They are nearly alike, so that Ir is
    three times one of them, or one or two are opposed, so that Ir may lie
    behind I. The voltages are as large, at each angle. 3V2 is 0, so T is 0,
    and direction is forward. With the last k and Z, q is above 0."""
    for turn, signs, (k, Z) in product(
            range(0, 16, 3), ((1, 1, 1), (1, -1, -1), (1, 1, -1)),
            (((1000, -500), HIGH[8]), ((1000, 0), HIGH[8]),
             ((1000, 500), HIGH[8]), ((0, 0), HIGH[8]),
             ((0, -500), LOW[8]))):
        amps = [[sign * sample for sample in farthest()] for sign in signs]
        amps[2] = added(amps[2], pulse(-300 * signs[2], 0))
        line = LINE._replace(ends=ENDS[turn % len(ENDS)], r=HIGH[10],
                             Z=Phasor(HIGH[6], Z), k=Phasor(*k), zf=1, zr=2,
                             pickup=1, R=HIGH[28])
        yield (f'largest, V turned {turn}, I of signs {signs}, k={k}',
               record(line), window([largest(turn)] * 3 + amps, line.ends))


# ---- Many R ----------------------------------------------------------------

def three_edges(ends: int, least: int) -> tuple[Found, list[int]]:
    """A window that the circles miss, whose loops A, B and C have three
    different least R, none below this one, and these."""
    rng = random.Random(ends)
    while True:
        fault = inside(rng)
        enough = just_enough(fault.line, [*fault.volts, *fault.amps])
        every = fault.line._replace(R=HIGH[28])
        bits = quadrilateral_bits(every, fault.volts, fault.amps, FORWARD)
        if len(enough) == 3 and min(enough) >= least and missed(fault) and (
                bits == sum(QUADRILATERALS.values())):
            line = fault.line._replace(ends=ends)
            return of_ends(f'three edges, {ends} ends', line, fault.volts, [
                fault.amps, *sharing(fault.amps, ends)]), sorted(enough)


def each_resistance(every: bool = True) -> Iterator[list[Found]]:
    """For each N a window at many R, and one at every R from 0 to 1000, as
    lists: at each of its edges, beside them, and at those of R."""
    for ends in ENDS:
        found, enough = three_edges(ends, 3)
        some = {OFF, 1, 2, 10, 100, 255, 256, 257, 500, 768, 999, HIGH[28]}
        some.update(R + step for R in enough for step in (-1, 0, 1))
        yield [at_resistance(found, R) for R in sorted(some)
               if R <= HIGH[28]]
    if every:
        found, _ = three_edges(2, 20)
        yield [at_resistance(found, R) for R in range(HIGH[28] + 1)]


# ---- By chance -------------------------------------------------------------

def any_fault(rng: random.Random, line: Line) -> Fault:
    """V = m Z I + F Ir with m about r and F about R/10, or V by chance, and the
    direction mostly forward."""
    while True:
        phase = rng.randrange(3)
        amps = any_amps(rng, phase, rng.choice([1, 30, 100]))
        loop = loop_of(line, amps, phase)
        m = rng.choice([1, rng.uniform(0, 1.2), rng.uniform(0, 2)]) * line.r
        part = rng.choice([1, -1, rng.uniform(-1.2, 1.2), 0])
        volts = other_volts(rng, phase, placed(loop, m, part * line.R / 10))
        towards = rng.choice(['forward'] * 5 + ['reverse', BELOW, BETWEEN])
        on = aimed(rng, line, volts, amps, towards)
        if on is not None and small_enough(volts):
            return Fault('quadrilateral by chance', on, volts, amps)
        line = line._replace(R=max(line.R // 2, 1))    # V was too large


def endless(rng: random.Random) -> Iterator[Found]:
    """R is at an edge of the fault in half of them, and off in a few."""
    while True:
        line = rng.choice([as_they_are, as_they_are, drawn, lambda r, _: (
            rng.choice([fault_line, any_line])(r))])(rng, LINE)
        line = line._replace(ends=rng.choice(ENDS), R=rng.randint(1, HIGH[28]))
        label, line, volts, amps = any_fault(rng, line)
        edges = [R - step for R in just_enough(line, [*volts, *amps])
                 for step in (0, 0, 1)] or [OFF]
        line = line._replace(R=rng.choice([line.R, rng.choice(edges)]))
        others = rng.choice([passing, passing, sharing, feeding])
        yield of_ends(label, line, volts, [amps, *others(amps, line.ends)],
                      rng.randint(LOW[2], HIGH[2]),
                      rng.choice([LOW[4], rng.randint(LOW[4], HIGH[4])]))


# Decide has them, and so has feed.
@functools.cache
def fixed() -> list[Found]:
    return [*quadrilateral_sides.fixed(), *along_the_line(), *with_circles(),
            *each_byte(), *largest_numbers(),
            *islice(endless(random.Random(1)), 200)]
