"""What might be taken for 3I2 of document 02, CR 4, or for its pickup, so that a
run shows that the archive takes neither."""
import functools
from typing import Iterator

from model.measuring import Phasor, negative, plus, positive, squared


def total(phasors: list[Phasor]) -> Phasor:
    return functools.reduce(plus, phasors)


def other_numbers(result: dict,
                  differential: int) -> Iterator[tuple[str, int, int]]:
    """Each with what would then stand for |3I2|² and for the square of its
    pickup."""
    pickup, by_channel = result['line'].pickup, result['phasors']
    i, own = by_channel[3:6], squared(result['i2'])
    parts = [abs(part) for part in result['i2']]
    of_all = [total(by_channel[3 + phase::3]) for phase in range(3)]
    for name, other in (
            ('3I1', positive(*i)), ('3I0', total(i)), ('3V1', result['v1']),
            ('3V2', result['v2']), ('3I2 of end 2', negative(
                *by_channel[6:9])), ('3I2 of all ends', negative(*of_all))):
        yield name, squared(other), pickup**2
    yield 'the larger part of 3I2', max(parts), pickup
    yield 'the sum of both parts', sum(parts), pickup
    yield 'the differential pickup', own, differential**2
    yield 'the pickup not squared', own, pickup
    yield 'a pickup one less', own, (pickup - 1)**2
    yield 'a pickup one more', own, (pickup + 1)**2


# Each with the trips that it would change.
OTHERS = {**dict.fromkeys(('3I1', '3I0', '3V1', '3V2', '3I2 of end 2',
                           '3I2 of all ends', 'the differential pickup'),
                          (0, 1)),
          'the larger part of 3I2': (0,), 'the sum of both parts': (1,),
          'the pickup not squared': (1,), 'a pickup one less': (1,),
          'a pickup one more': (0,)}
