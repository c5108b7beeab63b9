"""Which sides of document 02, CR 7, a decision shows in bits 8, 16 and 32 of
byte 1 and in trip: each condition of the quadrilateral by itself, at its edge
and beside it, and what other rules would make of the window; and what all
decisions together should show.

The bits are worked out here by cross products, not as in the model, and held
against the model's.
"""
import functools
from typing import Iterator

from cases.building import ENDS
from driving import not_quadrilateral
from driving.calls import Made, at_slope_1, measured, window
from driving.not_quadrilateral import Given, Numbers, total
from driving.seen import against, all_of
from model.decision import PHASE_BITS
from model.measuring import BITS, FORWARD, NONE, T, loops, squared
from model.quadrilateral import QUADRILATERALS
from model.settings import IN_FORCE, OFF

NAMES = 'ABC'


# ---- Which conditions fail -------------------------------------------------

def direction_kind(given: Given) -> str:
    if given.towards == NONE:
        return ('none between the limits' if given.reaches
                else 'none by the pickup')
    return 'forward' if given.towards == FORWARD else 'reverse'


def failing(given: Given, found: Numbers) -> list[str]:
    """The conditions that are not met. Where q is 0 the sides say nothing."""
    R, (x, n, q) = given.line.R, found
    tests = {'the reactance': x > 0, 'q': q != 0,
             'a side': q == 0 or R == OFF or 10 * abs(n) <= R * abs(q),
             direction_kind(given): given.towards == FORWARD,
             'R': R != OFF}
    return [name for name, met in tests.items() if not met]


# ---- How a loop lies to its edges ------------------------------------------

def edges(R: int, x: int, n: int, q: int) -> Iterator[str]:
    """Of a loop that is set, or clear by one condition alone."""
    over = 10 * abs(n) - R * abs(q)
    signs = f'n {against(n, 0)} 0, q {against(q, 0)} 0'
    if abs(x) <= 1:
        yield f'reactance of {x}, q {against(q, 0)} 0'
    if q != 0 and R != OFF:
        yield f'10|n| {against(over, 0)} R|q|, {signs}'
        if abs(over) == 1:
            yield f'10|n| {against(over, 0)} R|q| by one, {signs}'
    if R != OFF:
        yield f'reactance {against(x, 0)} 0, q {against(q, 0)} 0'
    if n == 0 or q == 0:
        yield f'n {"=" if n == 0 else "not"} 0, q {against(q, 0)} 0'


def settings(given: Given) -> Iterator[str]:
    """Of a loop that is set."""
    R, k = given.line.R, given.line.k
    yield f'k {"complex" if k.im else "real" if k.re else "0"}'
    yield from (f'R of {some}' for some in (1, 1000) if R == some)
    if R % 256 == 0 or R < 256:
        yield f'R with byte {28 if R % 256 == 0 else 29} alone'


def of_loop(given: Given, circle: bool) -> Iterator[str]:
    """What the loop of a phase shows by itself."""
    found = given.numbers()
    fails = failing(given, found)
    bit = not fails
    yield f'{"set" if bit else "clear"}, circle {circle}'
    if bit:
        yield from (f'set: {what}' for what in edges(given.line.R, *found))
        yield from (f'set: {what}' for what in settings(given))
    elif len(fails) == 1:
        yield from (f'clear by {fails[0]} alone: {what}'
                    for what in ('so', *edges(given.line.R, *found)))
    if given.ir == (0, 0):
        yield f'Ir = 0, I {"=" if given.loop.i == (0, 0) else "not"} 0'


def at_limit(given: Given, v2, i2) -> Iterator[str]:
    """Where T is at a limit, or beside it, with all else met."""
    fails = failing(given, given.numbers())
    if given.reaches and set(fails) <= {direction_kind(given)}:
        t, own = T(given.line, v2, i2), squared(i2)
        for name, limit in (('zf', given.line.zf), ('zr', given.line.zr)):
            if abs(t - limit * own) <= own:
                yield f'T {against(t, limit * own)} {name}'


# ---- Of a window -----------------------------------------------------------

def loops_of(result: dict) -> list[Given]:
    line, by_channel = result['line'], result['phasors']
    three = loops(line, by_channel[0:3], by_channel[3:6])[:3]
    ir = total(by_channel[3:6])
    return [Given(phase, line, result['direction'], result['reaches'], three,
                  by_channel, ir) for phase in range(3)]


# The same window is asked for at several slopes one after another.
@functools.lru_cache(maxsize=8)
def of_window(record: bytes, samples: bytes,
              phases: int) -> tuple[list[bool], set[str], set[str]]:
    """The bits, what it shows, and what it shows by N."""
    result = measured(record, samples)
    if result['line'].R == OFF and result['direction'] != FORWARD:
        return [False] * 3, set(), set()    # two reasons to be clear
    three = loops_of(result)
    bits = [not_quadrilateral.own_bit(given) for given in three]
    shown, for_ends = set(), set()
    for given, bit, name in zip(three, bits, NAMES):
        circle = result['loops'] & BITS[f'{name}G'] > 0
        own = {*of_loop(given, circle), *at_limit(given, result['v2'],
                                                  result['i2'])}
        rules = not_quadrilateral.of_loop(given, circle, phases, result['v1'])
        rules.update(not_quadrilateral.of_others(bits, given.phase))
        shown.update(f'{name}: {what}' for what in own)
        shown.update(f'{name}: {what}' for what
                     in not_quadrilateral.unlike(rules, bit))
        for_ends.update(what.removesuffix(': so') for what in own
                        if what.endswith(' alone: so'))
        for_ends.add(f'{name} {"set" if bit else "clear"}')
    if not any(result['v1']) and any(bits):
        shown.add('set with 3V1 = 0')
    return bits, shown, for_ends


# ---- Of a call that decide or feed answered with 0 -------------------------

def reasons(phases: int, loop_bits: int, quadrilaterals: int, trip: int) -> str:
    return (f'forward: phases {phases > 0}, circles {loop_bits > 0}, '
            f'quadrilaterals {quadrilaterals > 0}, trip {trip}')


def shown(made: Made) -> Iterator[str]:
    record, call = made.state[IN_FORCE], made.step.call
    trip, byte_1, loop_bits, towards, second = made.wanted.other[:5]
    phases, quadrilaterals = byte_1 & PHASE_BITS, byte_1 & ~PHASE_BITS
    bits, found, for_ends = of_window(at_slope_1(record), window(made), phases)
    assert quadrilaterals == sum(
        QUADRILATERALS[name] for name, bit in zip(NAMES, bits) if bit), (
            made.label, byte_1, bits)
    yield from (f'{call}: {what}' for what in found)
    ends = int.from_bytes(record[:2], 'big')
    yield from (f'{call}: {ends} ends: {what}' for what in for_ends)
    yield f'{call}: byte 1 of {byte_1}'
    if towards == FORWARD:
        what = reasons(phases, loop_bits, quadrilaterals, trip)
        yield from (f'{call}: {what}', f'{call}: {ends} ends: {what}')
        yield (f'{call}: quadrilaterals {quadrilaterals > 0}, '
               f'second zone {second > 0}')


# ---- What all of them should show ------------------------------------------

DIRECTIONS = ('none by the pickup', 'none between the limits', 'reverse')
ALONE = ('the reactance', 'a side', 'q', *DIRECTIONS, 'R')


def wanted_of_set() -> Iterator[str]:
    yield from all_of('reactance of 1, q {} 0', '<>')
    yield from all_of('10|n| {} R|q|, n {} 0, q {} 0', '<=', '<>', '<>')
    yield from all_of('10|n| < R|q| by one, n {} 0, q {} 0', '<>', '<>')
    yield from all_of('n = 0, q {} 0', '<>')
    yield from all_of('k {}', ('0', 'real', 'complex'))
    yield from all_of('R of {}', (1, 1000))
    yield from all_of('R with byte {} alone', (28, 29))


def wanted_of_clear() -> Iterator[str]:
    yield from all_of('the reactance alone: reactance {} 0, q {} 0', '<=', '<>')
    yield from all_of('the reactance alone: reactance of {}, q {} 0', (0, -1),
                      '<>')
    yield from all_of('a side alone: 10|n| > R|q|{}, n {} 0, q {} 0',
                      ('', ' by one'), '<>', '<>')
    yield from all_of('q alone: n {} 0, q = 0', ('=', 'not'))
    yield from all_of('{} alone: 10|n| < R|q|, n {} 0, q {} 0', DIRECTIONS,
                      '<>', '<>')
    yield from all_of('R alone: n = 0, q {} 0', '<>')
    yield from all_of('{} alone: so', ALONE)


def wanted_of_loop(name: str) -> Iterator[str]:
    yield from all_of('{}, circle {}', ('set', 'clear'), (True, False))
    yield from all_of('set: {}', wanted_of_set())
    yield from all_of('clear by {}', wanted_of_clear())
    yield from all_of('Ir = 0, I {} 0', ('=', 'not'))
    yield from all_of('T {}', ('< zf', '= zf', '> zf', '< zr', '= zr', '> zr'))
    yield from not_quadrilateral.wanted(name)


def wanted_of_trip() -> Iterator[str]:
    either = (False, True)
    for phases in either:
        for circles in either:
            for quadrilaterals in either:
                yield reasons(phases, circles, quadrilaterals,
                              int(phases or circles or quadrilaterals))


def wanted(call: str) -> Iterator[str]:
    """Of decide, or of feed."""
    for name in NAMES:
        yield from (f'{call}: {name}: {what}' for what in wanted_of_loop(name))
    yield from (f'{call}: {what}' for what in wanted_of_trip())
    yield from all_of(f'{call}: {{}} ends: {{}}', ENDS, (
        *wanted_of_trip(), *all_of('clear by {} alone', ALONE),
        *all_of('{} {}', NAMES, ('set', 'clear'))))
    yield from all_of(f'{call}: byte 1 of {{}}', range(64))
    yield from all_of(f'{call}: quadrilaterals {{}}, second zone {{}}',
                      (False, True), (False, True))
    yield f'{call}: set with 3V1 = 0'
