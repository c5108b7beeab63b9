"""What results of measure() show: the sides of each rule, ties, ends, missing
samples; and what all of them together should."""
import itertools
from typing import Iterator, Optional

from model.measuring import (A, A2, BITS, T, Line, channel, channels,
                             k_product, negative_at_scale, positive_at_scale,
                             squared, sums, times)
from model.settings import OFF

# ---- What one result shows -------------------------------------------------

def against(left: int, right: int) -> str:
    return '<' if left < right else '=' if left == right else '>'


def near_tie(number: int, d: int) -> Optional[str]:
    """Where a number lies beside a tie of the rounding by d, if it does."""
    beside = {d // 2: 'tie', d // 2 - 1: 'one below a tie'}
    where = beside.get(number % d)
    return where and f'{where} {"above" if number > 0 else "below"} zero'


def roundings(result: dict):
    """Each rounded quantity: its name, the two numbers to round, and d."""
    line, numbers, p = result['line'], result['numbers'], result['v1']
    v, i = result['phasors'][0:3], result['phasors'][3:6]
    for index in range(channels(line.ends)):
        yield 'phasor', sums(channel(numbers, line.ends, index)), 131072
    yield '3V1', positive_at_scale(*v), 16384
    yield '3V2', negative_at_scale(*v), 16384
    yield '3I2', negative_at_scale(*i), 16384
    yield 'aP', times(A, p), 16384
    yield 'a²P', times(A2, p), 16384
    yield 'k product', k_product(line, i), 1000


def ties(result: dict) -> Iterator[str]:
    for name, number, d in roundings(result):
        for part, where in (('real', near_tie(number.re, d)),
                            ('imaginary', near_tie(number.im, d))):
            if where:
                yield f'{name}, {part}: {where}'


# Each zone's bits in a result, by the setting that is its reach.
ZONES = {'r': 'loops', 'r2': 'second zone'}


def zones_on(line: Line) -> Iterator[tuple[str, str, int]]:
    """Of each zone: the setting, the bits, and the reach."""
    for setting, bits in ZONES.items():
        if getattr(line, setting) != OFF:
            yield setting, bits, getattr(line, setting)


def loop_sides(result: dict) -> Iterator[str]:
    for setting, bits, r in zones_on(result['line']):
        for name, (n, m) in result['by_loop'].items():
            sign, side = against(m, 0), against(1000000 * n, r * m)
            yield f'{name}: m {sign} 0, 1000000 n {side} {setting} m'
            yield f'{name}: {bool(result[bits] & BITS[name])}, {setting} on'
            if abs(1000000 * n - r * m) == 1:
                yield f'{name}: 1000000 n {side} {setting} m by one'


def off_sides(result: dict) -> Iterator[str]:
    """With the second zone off: whether the rule would still hold at 0."""
    for name, (n, m) in result['by_loop'].items():
        if result['line'].r2 == OFF and m > 0:
            yield f'{name}: m > 0, n {against(n, 0)} 0, r2 off'


def beside_first(result: dict) -> str:
    """The second reach beside the first."""
    r, r2 = result['line'].r, result['line'].r2
    return 'off' if r2 == OFF else against(r2, r)


def direction_sides(result: dict) -> Iterator[str]:
    line, i2 = result['line'], result['i2']
    yield f'|3I2|² {against(squared(i2), line.pickup**2)} pickup²'
    reaches = result['reaches']
    yield f'reaches: {reaches}'
    yield f'direction {result["direction"]}, reaches: {reaches}'
    if reaches:
        t = T(line, result['v2'], i2)
        yield f'T {against(t, line.zf * squared(i2))} zf |3I2|²'
        yield f'T {against(t, line.zr * squared(i2))} zr |3I2|²'


def place_missing(result: dict) -> str:
    names = {None: 'none', 0: 'first', len(result['numbers']) - 1: 'last'}
    return f'missing: {names.get(result["missing"], "elsewhere")}'


def seen(result: dict) -> set[str]:
    """What one result shows; one with a missing sample only that."""
    shown = {place_missing(result)}
    if result['missing'] is None:
        shown.add(f'ends: {result["line"].ends}, r2 {beside_first(result)}')
        shown.update(ties(result), loop_sides(result), off_sides(result),
                     direction_sides(result))
    return shown


# ---- What all of them should show ------------------------------------------

def all_of(pattern: str, *choices) -> list[str]:
    """The pattern with each combination of the choices."""
    return [pattern.format(*one) for one in itertools.product(*choices)]


def wanted() -> list[str]:
    parts, sides = ('real', 'imaginary'), '<=>'
    above_below = ('above', 'below')
    return [
        *all_of('missing: {}', ('none', 'first', 'last', 'elsewhere')),
        *all_of('ends: {}, r2 {}', range(2, 6 + 1), ('off', '=', '>')),
        *all_of('{}, {}: tie {} zero', ('phasor', '3V1', '3V2', '3I2', 'aP',
                'a²P', 'k product'), parts, above_below),
        *all_of('phasor, {}: one below a tie {} zero', parts, above_below),
        *all_of('{}: m {} 0, 1000000 n {} {} m', BITS, sides, sides, ZONES),
        *all_of('{}: {}, {} on', BITS, (True, False), ZONES),
        *all_of('{}: 1000000 n {} {} m by one', BITS, '<>', ZONES),
        *all_of('{}: m > 0, n {} 0, r2 off', BITS, sides),
        *all_of('|3I2|² {} pickup²', sides),
        *all_of('reaches: {}', (True, False)),
        *all_of('direction {}, reaches: True', (0, 1, 2)),
        'direction 0, reaches: False',
        *all_of('T {} {} |3I2|²', sides, ('zf', 'zr')),
    ]
