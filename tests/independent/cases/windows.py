"""Records and windows for comparing two programs that follow document 01.

fixed() gives the same ones each time, endless(rng) as many more as are wanted.
Each is a label, a good record, and a window of the length for its ends.
"""
import cmath
import itertools
import math
import random
from typing import Iterator

from cases.building import (ENDS, HIGH, LARGEST, LINE, LOW, ZERO, Case,
                            any_line, any_resistive, any_second, corners,
                            exact_case, largest, one_channel, pulse, record,
                            turned, wave, window, without)
from cases.faults import FAULTS, Place, volts_and_amps
from model.measuring import (COSINES, Line, Phasor, asserts, by_loop, channels,
                             direction, length, negative, phasors,
                             reaches_pickup)
from model.settings import OFF

# ---- Small windows: ties of the rounding by 131072 -------------------------

def pulses() -> Iterator[Case]:
    """P2 to P5 and the next ties, on each channel, real and imaginary."""
    for ends, size, n in itertools.product((2, 6), (3, 4, -4, -5, 12), (0, 4)):
        for index in range(channels(ends)):
            yield one_channel(f'pulse {size} at n={n}',
                              LINE._replace(ends=ends), index, pulse(size, n))


def one_from_a_tie() -> list[list[int]]:
    """Channels of four samples whose A or B is one from a tie: three of -20 to
    20 that come to one from a multiple of 16384, and a first one for the
    rest."""
    found = []
    for three in itertools.product(range(-20, 21), repeat=3):
        rest = sum(x * c for x, c in zip(three, COSINES[1:4]))
        for beside in (1, -1):
            first, over = divmod(65536 + beside - rest, 16384)
            if over == 0:
                four = [(first + 4) % 8 - 4, *three]  # 8 make one count
                found.append(four + [0] * 12)            # A, from n=0
                found.append([0] * 4 + four + [0] * 8)   # B, from n=4
    return found


NEAR_TIES = one_from_a_tie()


def near_ties() -> Iterator[Case]:
    for at in range(0, len(NEAR_TIES), channels(2)):
        yield Case(f'near ties from {at}', LINE,
                   window(NEAR_TIES[at:at + channels(2)], 2))


def any_small(rng: random.Random) -> Iterator[Case]:
    """Samples of -9 to 9 everywhere, or where C is 16384 or 0 (often a tie),
    or one from a tie."""
    line = any_line(rng)._replace(pickup=rng.randint(1, 40))
    kind = rng.choice(['everywhere', 'often a tie', 'near a tie'])
    by_channel = []
    for _ in range(channels(line.ends)):
        step = 4 if kind == 'often a tie' else 1
        samples = [rng.randint(-9, 9) if n % step == 0 else 0
                   for n in range(16)]
        by_channel.append(rng.choice(NEAR_TIES) if kind == 'near a tie'
                          else samples)
    yield Case(f'small, {kind}', line, window(by_channel, line.ends))


# ---- Extreme windows -------------------------------------------------------

# The shifts of phases a, b, c: alike, and nearest to rotation ABC and ACB.
SHIFTS = {'alike': (0, 0, 0), 'ABC': (0, 11, 5), 'ACB': (0, 5, 11)}


def extreme(line: Line, v: str, i: str, turn: int) -> Case:
    """Largest samples, the currents so many places on from the voltages."""
    by_channel = [largest(shift) for shift in SHIFTS[v]]
    for _ in range(line.ends):
        by_channel += [largest(shift + turn) for shift in SHIFTS[i]]
    return Case(f'extreme, V {v}, I {i}, turned {turn}', line,
                window(by_channel, line.ends))


def extremes() -> Iterator[Case]:
    far = LINE._replace(ends=6, Z=Phasor(HIGH[6], HIGH[8]), r=HIGH[10],
                        k=Phasor(HIGH[12], LOW[14]), zf=LOW[20], zr=HIGH[22],
                        r2=HIGH[26])
    for number in (LARGEST, -LARGEST):
        yield Case(f'all {number}', far, [number] * length(far.ends))
    for line, v, i in itertools.product((LINE, far), SHIFTS, SHIFTS):
        for turn in range(0, 16, 2):
            yield extreme(line, v, i, turn)


def any_extreme(rng: random.Random) -> Iterator[Case]:
    line = any_line(rng)
    yield extreme(line, rng.choice(list(SHIFTS)), rng.choice(list(SHIFTS)),
                  rng.randrange(16))
    by_channel = [largest(rng.randrange(16))
                  for _ in range(channels(line.ends))]
    yield Case('extreme, each its own', line, window(by_channel, line.ends))


# ---- Random windows, and missing samples -----------------------------------

def any_numbers(rng: random.Random) -> Iterator[Case]:
    line = any_line(rng)
    size = rng.choice([30, 1000, LARGEST])
    yield Case(f'random to {size}', line, [
        rng.randint(-size, size) for _ in range(length(line.ends))])


def with_missing(case: Case, places: list[int]) -> Case:
    return Case(f'{case.label}, {len(places)} missing from {places[0]}',
                case.line, without(case.numbers, places))


def missing() -> Iterator[Case]:
    for ends in ENDS:
        quiet = Case('quiet', LINE._replace(ends=ends), [0] * length(ends))
        last = length(ends) - 1
        yield quiet
        for places in ([0], [last], [0, last], [channels(ends), last],
                       [channels(ends) - 1, channels(ends)],
                       list(range(last + 1))):
            yield with_missing(quiet, places)


def any_missing(rng: random.Random) -> Iterator[Case]:
    for case in any_numbers(rng):
        last = len(case.numbers) - 1
        count = rng.choice([1, 1, 2, 5])
        yield with_missing(case, rng.choice([
            [0], [last], sorted(rng.sample(range(last + 1), count))]))


# ---- Equalities ------------------------------------------------------------

def direction_equalities() -> Iterator[Case]:
    """P14 through a window, its reverse, and 3I2 at and beside its pickup."""
    p14 = LINE._replace(D=Phasor(0, 1000), pickup=100)
    i = turned(0, (100, 0))
    for z in (-501, -500, -499):
        yield exact_case(f'P14, zf={z}', p14._replace(zf=z),
                         turned(0, (0, -50)), i)
        yield exact_case(f'P14 reversed, zr={-z}', p14._replace(zr=-z),
                         turned(0, (0, 50)), i)
    for pickup in (499, 500, 501):
        yield exact_case(f'|3I2|=500, pickup {pickup}',
                         p14._replace(pickup=pickup),
                         turned(0, (0, -300)), turned(0, (300, -400)))


def equal_at(reach: int) -> Iterator[Case]:
    """P12 and P13 through a window. V = (reach,0) and Z I = (1000000,0) have
    one direction, so the phase's loops are equal at that reach, whatever Vp
    is. Reversed, V and Z I are both against Vp: equal, but m is below 0."""
    line = LINE._replace(Z=Phasor(0, 1000), k=Phasor(0, 0))
    for phase in range(3):
        voltages = {
            'ahead': turned(phase, (reach, 0)),
            'ground reversed': turned(phase, (-reach, 0), (0, -2000),
                                      (0, 2000)),
            'phase reversed': turned(phase, (-reach, 0), ZERO, (0, 4000))}
        for (label, v), current in itertools.product(
                voltages.items(), (-1000, 0, 1000)):
            yield exact_case(f'{label} on phase {phase}, equal at {reach}, '
                             f'I={current}', line, v,
                             turned(phase, (0, current)))


EQUAL = (1, 2, 500, 2000)   # reaches at which loops are equal


def loop_equalities() -> Iterator[Case]:
    for reach in EQUAL:
        for (label, line, numbers), r in itertools.product(
                equal_at(reach), sorted({reach, max(reach - 1, 1)})):
            yield Case(f'{label}, r={r}', line._replace(r=r), numbers)


def no_voltage() -> Iterator[Case]:
    """Vp=0."""
    for phase in range(3):
        yield exact_case(f'no voltage, current on phase {phase}', LINE,
                         [ZERO] * 3, turned(phase, (0, -1000)))


def rounding_ties() -> Iterator[Case]:
    """Phasors of one count: ties of the rounding by 16384 and, k being a
    half, by 1000."""
    for k in (Phasor(500, 0), Phasor(0, 500), Phasor(0, -500)):
        for phase, one in itertools.product(
                range(3), ((1, 0), (-1, 0), (0, 1), (0, -1))):
            unit = turned(phase, one)
            yield exact_case(f'{one} on phase {phase}, k={tuple(k)}',
                             LINE._replace(k=k, pickup=1), unit, unit)


def any_grid(rng: random.Random) -> Iterator[Case]:
    """Few values, so that n, m and T are often zero or equal to a limit."""
    size = rng.choice([1, 1, 100])
    grid = [(size * re, size * im)
            for re, im in itertools.product(range(-2, 3), repeat=2)]
    zf, zr = rng.choice([(-1000, 0), (0, 1000), (-500, 500)])
    r = rng.choice([500, 1000, 2000])
    line = Line(ends=rng.choice(ENDS), Z=Phasor(0, 1000), r=r,
                k=rng.choice([Phasor(0, 0), Phasor(500, 500)]),
                D=Phasor(0, 1000), zf=zf, zr=zr, pickup=size,
                r2=rng.choice([OFF, r, max(r, 1000), 2000]),
                R=rng.choice([OFF, OFF, OFF, 1, 10, HIGH[28]]))
    yield exact_case('grid', line, rng.choices(grid, k=3),
                     rng.choices(grid, k=3))


# ---- Faults as steady waves ------------------------------------------------

def fault_case(line: Line, place: Place, infeed: float) -> Case:
    """Each other end carries infeed times the current of end 1; -1/(N-1) is
    a current that passes through. No amplitude is above 30000."""
    v, i = volts_and_amps(line, place)
    values = v + i + [infeed * x for x in i] * (line.ends - 1)
    scale = min(1, 30000 / max(abs(x) for x in values))
    side = 'forward' if place.forward else 'reverse'
    return Case(f'{place.fault} {side} at {place.distance:.2f}', line,
                window([wave(scale * x) for x in values], line.ends))


def faults() -> Iterator[Case]:
    for ends, (fault, forward, distance) in zip(
            itertools.cycle(ENDS),
            itertools.product(FAULTS, (True, False), (0.05, 0.7, 1.4))):
        place = Place(fault, forward, distance, 9000j, 0.3 + 2j, 300 + 40j)
        yield fault_case(LINE._replace(ends=ends), place, -1 / (ends - 1))


def faults_at_corners() -> Iterator[Case]:
    for line in corners():
        for fault, forward in (('ag', True), ('bc', False), ('ca', True)):
            place = Place(fault, forward, 0.6, 5000 + 0j, 0.2 + 1j, 100 - 10j)
            yield fault_case(line, place, 0.5)


def fault_line(rng: random.Random) -> Line:
    """A line as they are, its limits about zero, or both ahead, or both
    behind."""
    size, angle = rng.uniform(500, 18000), math.radians(rng.uniform(45, 89))
    z, d = cmath.rect(size, angle), cmath.rect(1000, angle)
    zf = round(rng.choice([-0.2, 0.5, -0.5, 0.05]) * size)
    r = rng.choice([1, 499, 500, 850, 2000, rng.randint(1, 2000)])
    return Line(ends=rng.choice(ENDS),
                Z=Phasor(round(z.real), round(z.imag)), r=r,
                k=Phasor(rng.randint(0, 1000), rng.randint(-500, 500)),
                D=Phasor(round(d.real), round(d.imag)),
                zf=zf, zr=zf + rng.choice([1, 100, 2000]),
                pickup=rng.choice([20, 100, rng.randint(1, 3000)]),
                r2=any_second(rng, r), R=any_resistive(rng))


def any_fault(rng: random.Random) -> Iterator[Case]:
    line = fault_line(rng)

    def polar(size: float, degrees: float) -> complex:
        return cmath.rect(size, math.radians(degrees))

    place = Place(
        fault=rng.choice(list(FAULTS)), forward=rng.random() < 0.5,
        distance=rng.choice([0, 0.1, 0.84, 0.86, rng.uniform(0, 3)]),
        volts=polar(rng.uniform(500, 20000), rng.uniform(0, 360)),
        source=polar(rng.uniform(0.1, 10), rng.uniform(60, 90)),
        load=polar(rng.uniform(0, 500), rng.uniform(-30, 30)),
        resistance=rng.choice([0, 0, rng.uniform(0, 30)]))
    yield fault_case(line, place, rng.choice([-1 / (line.ends - 1), 0.5, 0]))


# ---- Both sides of each edge -----------------------------------------------

def first_change(answer, low: int, high: int):
    """The smallest setting above low whose answer is not that of low, or
    None. Each answer here changes once at most."""
    before = answer(low)
    if answer(high) == before:
        return None
    while high - low > 1:
        middle = (low + high) // 2
        if answer(middle) == before:
            low = middle
        else:
            high = middle
    return high


def searches(line: Line, numbers: list[int]):
    """Each setting with its answer, and the range it is searched in."""
    by_channel = phasors(numbers, line.ends)
    v, i = by_channel[0:3], by_channel[3:6]
    v2, i2 = negative(*v), negative(*i)
    for loop in by_loop(line, v, i).values():
        yield 'r', lambda r, loop=loop: asserts(r, loop), LOW[10], HIGH[10]
    yield ('pickup', lambda pickup: reaches_pickup(i2, pickup),
           LOW[24], HIGH[24])
    yield ('zf', lambda zf: direction(line._replace(zf=zf), v2, i2),
           LOW[20], line.zr - 1)
    yield ('zr', lambda zr: direction(line._replace(zr=zr), v2, i2),
           line.zf + 1, HIGH[22])


def both_zones(enough: int) -> list[tuple[int, int]]:
    """First and second reaches at both sides of the least reach at which a
    loop asserts: the first zone sees it and the second is off; the first just
    does not, and the second does; the second just does not."""
    return [(enough, OFF), (enough - 1, enough), (LOW[10], enough - 1)]


def both_sides(name: str, found: int) -> list[dict[str, int]]:
    """The settings at both sides of an edge."""
    if name == 'r':
        return [{'r': r, 'r2': r2} for r, r2 in both_zones(found)]
    return [{name: found - 1}, {name: found}]


def edges(cases: Iterator[Case]) -> Iterator[Case]:
    for label, line, numbers in cases:
        for name, answer, low, high in searches(line, numbers):
            found = first_change(answer, low, high)
            if found is not None:
                for settings in both_sides(name, found):
                    yield Case(f'{label}, edge {settings}',
                               line._replace(**settings), numbers)


def any_edge(rng: random.Random) -> Iterator[Case]:
    kind = rng.choice([any_fault, any_fault, any_numbers, any_grid])
    return edges(kind(rng))


def just_enough(line: Line, by_channel: list[Phasor]) -> set[int]:
    """The least reach at which each loop asserts, where it does not at 1 but
    at 2000."""
    found = set()
    for n, m in by_loop(line, by_channel[0:3], by_channel[3:6]).values():
        if m > 0 and LOW[10] * m < 1000000 * n <= HIGH[10] * m:
            found.add(-(-1000000 * n // m))
    return found


# ---- The two generators ----------------------------------------------------

def fixed() -> Iterator[tuple[str, bytes, list[int]]]:
    for part in (pulses(), near_ties(), extremes(), missing(),
                 direction_equalities(), loop_equalities(), no_voltage(),
                 rounding_ties(), faults(), edges(faults()),
                 faults_at_corners()):
        for label, line, numbers in part:
            yield label, record(line), numbers
    for slope, differential in ((LOW[2], HIGH[4]), (HIGH[2], LOW[4])):
        yield ('slope and differential pickup at their ends',
               record(LINE, slope, differential), [0] * length(LINE.ends))


# Missing samples only in a few.
KINDS = 4 * [any_numbers, any_small, any_grid, any_fault, any_edge] + [
    any_extreme, any_extreme, any_missing]


def endless(rng: random.Random) -> Iterator[tuple[str, bytes, list[int]]]:
    while True:
        kind = rng.choice(KINDS)
        for label, line, numbers in kind(rng):
            slope = rng.randint(LOW[2], HIGH[2])
            differential = rng.randint(LOW[4], HIGH[4])
            yield label, record(line, slope, differential), numbers
