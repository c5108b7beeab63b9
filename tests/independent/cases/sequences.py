"""What the three files of balanced faults build with: whole phasors by their
sequence quantities, what the other ends carry, and windows of both."""
from itertools import cycle
from typing import Callable, Iterator

from cases.building import ENDS, ZERO, exact_wave, of_phases, record
from cases.faults import by_phase
from cases.roots import Value, shared
from model.measuring import Line, Phasor, minus, negative, plus

Three = list[Phasor]                    # of the phases a, b, c
Found = tuple[str, bytes, list[int]]    # a label, a good record, a window


# ---- Phasors ---------------------------------------------------------------

def whole(x1: complex, three_x2: Value = ZERO) -> Three:
    """With about this positive sequence and exactly this 3I2, or 3V2. What the
    rounding leaves goes to phase a, which counts as it is in 3I2."""
    first, *others = [Phasor(round(x.real), round(x.imag))
                      for x in by_phase(0, x1, complex(*three_x2) / 3, 0)]
    left = minus(Phasor(*three_x2), negative(first, *others))
    return [plus(first, left), *others]


def opposite(three: Three) -> Three:
    return [minus(ZERO, value) for value in three]


def moved(three: Three, by: list[Value]) -> Three:
    return [plus(value, Phasor(*step)) for value, step in zip(three, by)]


# ---- The other ends --------------------------------------------------------

Way = Callable[[Three, int], list[Three]]   # by end, from end 2 on


def passing(amps: Three, ends: int) -> list[Three]:
    """What comes in at end 1 goes out at the last end."""
    return [[ZERO] * 3] * (ends - 2) + [opposite(amps)]


def sharing(amps: Three, ends: int) -> list[Three]:
    """It goes out at all other ends, nearly alike."""
    by_phase = [shared(value, ends - 1) for value in opposite(amps)]
    return [list(of_end) for of_end in zip(*by_phase)]


def feeding(amps: Three, ends: int) -> list[Three]:
    """Every end feeds the fault alike."""
    return [amps] * (ends - 1)


def ends_and_ways() -> Iterator[tuple[int, Way]]:
    """Each N with each way in which no phase operates, over and over."""
    return cycle([(ends, way) for way in (passing, sharing) for ends in ENDS])


# ---- Windows ---------------------------------------------------------------

def of_ends(label: str, line: Line, volts: Three, by_end: list[Three],
            slope: int = 15, differential: int = 100) -> Found:
    """With these currents of each end."""
    currents = [[exact_wave(value) for value in of_phase]
                for of_phase in zip(*by_end, strict=True)]
    numbers = of_phases([exact_wave(value) for value in volts], currents)
    return label, record(line, slope, differential), numbers


def of_end_1(label: str, line: Line, volts: Three, amps: Three,
             way: Way = passing) -> Found:
    """With these currents of end 1."""
    return of_ends(f'{label}, {way.__name__}', line, volts,
                   [amps, *way(amps, line.ends)])
