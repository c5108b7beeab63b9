"""What the other files here build with: records, and windows channel by
channel."""
import math
import random
import struct
from typing import Collection, Iterator, NamedTuple

from model.measuring import (COSINES, MISSING, Line, Phasor, channels, minus,
                             phasor)
from model.settings import FIELDS, OFF, SPARE, SQUARES, first_fault

ENDS = range(2, 6 + 1)
LARGEST = 32767
ZERO = Phasor(0, 0)
LOW = {field.at: field.low for field in FIELDS}
HIGH = {field.at: field.high for field in FIELDS}


class Case(NamedTuple):
    label: str
    line: Line
    numbers: list[int]


# ---- Records ---------------------------------------------------------------

LINE = Line(ends=2, Z=Phasor(800, 5000), r=850, k=Phasor(667, -40),
            D=Phasor(158, 987), zf=-300, zr=300, pickup=50)


def record(line: Line, slope: int = 15, differential: int = 100) -> bytes:
    values = (line.ends, slope, differential, *line.Z, line.r, *line.k,
              *line.D, line.zf, line.zr, line.pickup, line.r2, line.R)
    two = [value.to_bytes(2, 'big', signed=field.signed)
           for field, value in zip(FIELDS, values, strict=True)]
    result = b''.join(two) + bytes(len(SPARE))
    assert first_fault(result) is None
    return result


def corners() -> Iterator[Line]:
    """LINE with each setting at both ends of its range, and at zero where
    its sign changes. zf is below zr, so zf ends one sooner, zr begins one
    later. The second reach is not below the first."""
    def pairs(at: int) -> list[Phasor]:
        return [Phasor(re, im) for re in (LOW[at], HIGH[at])
                for im in (LOW[at + 2], HIGH[at + 2])]

    changes = [{'ends': ends} for ends in ENDS]
    changes += [{'Z': z} for z in pairs(6)]
    changes += [{'r': r} for r in (LOW[10], 499, 500, HIGH[10])]
    changes += [{'k': k} for k in pairs(12) + [Phasor(0, 0)]]
    changes += [{'D': Phasor(LOW[16], HIGH[18])},
                {'D': Phasor(HIGH[16], LOW[18])}]
    changes += [{'zf': zf, 'zr': zr} for zf, zr in (
        (LOW[20], LOW[20] + 1), (LOW[20], HIGH[22]), (-1, 0), (0, 1),
        (HIGH[22] - 1, HIGH[22]))]
    changes += [{'pickup': pickup} for pickup in (LOW[24], HIGH[24])]
    changes += [{'r2': r2} for r2 in (LINE.r, LINE.r + 1, HIGH[26])]
    changes += [{'r': r, 'r2': r} for r in (LOW[10], HIGH[10])]
    changes += [{'R': R} for R in (1, HIGH[28])]
    return (LINE._replace(**change) for change in changes)


def any_angle(rng: random.Random) -> Phasor:
    """Any D with a sum of squares of 998000 to 1002000."""
    re = rng.randint(LOW[16], HIGH[16])
    fit = [im for im in range(LOW[18], HIGH[18] + 1)
           if re**2 + im**2 in SQUARES]
    return Phasor(re, rng.choice(fit))


def any_second(rng: random.Random, r: int) -> int:
    """A second reach beside this first one: off in a third; else the same,
    the largest, or any between."""
    between = rng.randint(r, HIGH[26])
    return rng.choice([OFF, OFF, r, HIGH[26], between, between])


def any_resistive(rng: random.Random) -> int:
    """A resistive reach: off in two thirds; else any, at times the least or
    the largest."""
    some = rng.randint(1, HIGH[28])
    return rng.choice([OFF] * 4 + [some, rng.choice([1, some, HIGH[28]])])


def any_line(rng: random.Random) -> Line:
    """Each setting anywhere in its range, often at an end of it."""
    def setting(at: int) -> int:
        inside = rng.randint(LOW[at], HIGH[at])
        return rng.choice([LOW[at], inside, inside, HIGH[at]])

    zf, zr = sorted(rng.sample(range(LOW[20], HIGH[22] + 1), 2))
    r = setting(10)
    return Line(ends=rng.choice(ENDS), Z=Phasor(setting(6), setting(8)), r=r,
                k=Phasor(setting(12), setting(14)), D=any_angle(rng), zf=zf,
                zr=zr, pickup=setting(24), r2=any_second(rng, r),
                R=any_resistive(rng))


# ---- Samples of one channel, and windows of them ---------------------------

def turned(phase: int, first, second=ZERO, third=ZERO) -> list:
    """Values of a, b, c: the first on this phase, the others on the next."""
    values = (first, second, third)
    return [values[(own - phase) % 3] for own in range(3)]


def pulse(size: int, n: int) -> list[int]:
    return [size if place == n else 0 for place in range(16)]


def added(*channels: list[int]) -> list[int]:
    return [sum(at_n) for at_n in zip(*channels, strict=True)]


def exact(value: tuple[int, int]) -> list[int]:
    """Two samples with exactly this phasor (see P1 and P6)."""
    re, im = value
    return added(pulse(8 * re, 0), pulse(-8 * im, 4))


def wave(value: complex) -> list[int]:
    """A steady wave with about this phasor."""
    turns = [2 * math.pi * n / 16 for n in range(16)]
    return [round(value.real * math.cos(turn) - value.imag * math.sin(turn))
            for turn in turns]


def exact_wave(value: tuple[int, int]) -> list[int]:
    """A steady wave with exactly this phasor: two samples make up for what
    the rounding leaves."""
    samples = wave(complex(*value))
    return added(samples, exact(minus(Phasor(*value), phasor(samples))))


def largest(shift: int) -> list[int]:
    """The largest samples, with the signs of a cosine so many places on."""
    return [LARGEST if COSINES[(n + shift) % 16] >= 0 else -LARGEST
            for n in range(16)]


def square_wave(shift: int) -> list[int]:
    """The largest samples, eight of each sign, so many places on. The largest
    A² + B² of all samples is among these."""
    return [LARGEST if (n + shift) % 16 < 8 else -LARGEST for n in range(16)]


def farthest() -> list[int]:
    """Samples with the phasor (34913,23329). None has a larger magnitude.

    Before it is rounded, this square wave's phasor is (34912.93,23328.29).
    Four less at n=2 make it (34912.58,23328.64), so that both parts round up.
    The sums of all samples lie in the polygon whose corners are those of the
    square waves. No phasor within half a count of it has a larger magnitude.
    """
    return added(square_wave(5), pulse(-4, 2))


def window(by_channel: list[list[int]], ends: int) -> list[int]:
    """The frames of these channels; those not given are zero."""
    by_channel = by_channel + [[0] * 16] * (channels(ends) - len(by_channel))
    return [samples[n] for n in range(16) for samples in by_channel]


def of_phases(volts: list[list[int]],
              by_phase: list[list[list[int]]]) -> list[int]:
    """The frames of these voltages, and of the currents of each phase, which
    are given by end."""
    by_channel = volts + [samples for of_end in zip(*by_phase, strict=True)
                          for samples in of_end]
    return window(by_channel, len(by_phase[0]))


def one_channel(label: str, line: Line, index: int,
                samples: list[int]) -> Case:
    """These samples on one channel, and nothing elsewhere."""
    by_channel = [[0] * 16] * index + [samples]
    return Case(f'{label}, channel {index}', line,
                window(by_channel, line.ends))


def without(numbers: list[int], places: Collection[int]) -> list[int]:
    """The numbers, missing at these places."""
    return [MISSING if at in places else number
            for at, number in enumerate(numbers)]


def as_data(numbers: list[int]) -> bytes:
    """The numbers as big-endian bytes."""
    return struct.pack(f'>{len(numbers)}h', *numbers)


def exact_case(label: str, line: Line, v, i) -> Case:
    """Exact phasors at end 1, each three of (re, im), and none elsewhere."""
    by_channel = [exact(value) for value in (*v, *i)]
    return Case(label, line, window(by_channel, line.ends))
