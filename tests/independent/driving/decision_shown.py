"""What decisions show: the sides of each rule, and what a little less or more
of a setting would change; and what all of them together should."""
import functools
from itertools import product
from typing import Iterator

from driving import seen, sides
from driving.calls import Made, at_slope_1, measured, phases
from model.decision import PHASE_BITS
from model.differential import slope
from model.measuring import BITS, FORWARD, direction, loop_bits
from model.settings import RECORD

LIMITS = ('zf', 'zr', 'pickup')


def close_loops(result: dict) -> Iterator[str]:
    """What one more or less of a reach would change, loop by loop."""
    zones = seen.zones_on(result['line'])
    for (setting, bits, r), step in product(zones, (-1, 1)):
        other = loop_bits(r + step, result['by_loop'])
        for name, bit in BITS.items():
            if (result[bits] ^ other) & bit:
                yield f'{name}: another bit with {setting} changed by {step}'


def close_direction(result: dict) -> Iterator[str]:
    """The same of the direction, and of the settings that it goes by."""
    line = result['line']
    for name, step in product(LIMITS, (-1, 1)):
        other = line._replace(**{name: getattr(line, name) + step})
        if direction(other, result['v2'], result['i2']) != (
                result['direction']):
            yield f'another direction with {name} changed by {step}'


def why(trip: int, phases: bool, quadrilaterals: bool, loops: bool,
        second: bool, towards: int) -> str:
    return (f'trip {trip}: phases {phases}, quadrilaterals {quadrilaterals}, '
            f'loops {loops}, second zone {second}, direction {towards}')


# ---- Of a call that decide answered with 0 or 4 ----------------------------

# Often the same window is decided on at several slopes one after another.
@functools.lru_cache(maxsize=8)
def at_any_slope(record: bytes, samples: bytes) -> set[str]:
    result = measured(record, samples)
    found = seen.seen(result)
    if result['missing'] is None:
        found.update(close_loops(result), close_direction(result))
    return found


def of_line(made: Made) -> Iterator[str]:
    """All but the differential."""
    yield from at_any_slope(at_slope_1(made.state[:RECORD]),
                            made.step.samples)
    if made.wanted.number == 0:
        trip, byte_1, loops, towards, second = made.wanted.other[:5]
        yield why(trip, byte_1 & PHASE_BITS > 0, byte_1 & ~PHASE_BITS > 0,
                  loops > 0, second > 0, towards)


def of_currents(made: Made) -> Iterator[str]:
    """The differential."""
    if made.wanted.number == 0:
        ends, *pair = slope(made.state[:RECORD])
        yield from sides.shown(phases(made.step.samples, ends),
                               [tuple(pair)])


# ---- What all of them should show ------------------------------------------

def wanted_of_line() -> list[str]:
    return [
        *(why(int(phases or loops and towards == FORWARD), phases, False,
              loops, second, towards)
          for phases, loops, second, towards in product(
              (True, False), (True, False), (True, False), range(3))),
        *(why(1, phases, True, loops, second, FORWARD)
          for phases, loops, second in product((True, False), repeat=3)),
        *(f'{name}: another bit with {setting} changed by {step}'
          for name, setting, step in product(BITS, seen.ZONES, (-1, 1))),
        *(f'another direction with {name} changed by {step}'
          for name, step in product(LIMITS, (-1, 1))),
        *seen.wanted()]


# What is shown, with what should be.
PARTS = ((of_line, wanted_of_line), (of_currents, sides.wanted))
