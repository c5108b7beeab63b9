"""What might be taken for the quadrilateral of document 02, CR 7, so that a run
shows that the archive takes none of it: other rules, each with the bit that it
would give.

All is worked out here by cross products, not as in the model: with p = Im(V
Ir*), Im[(rZI - V) Ir*] is -r q - 1000000 p.
"""
import functools
from typing import Iterator, NamedTuple

from model.measuring import (FORWARD, NONE, REVERSE, Line, Loop, Phasor,
                             conjugate, loops, negative, plus, times)
from model.settings import OFF


def cross(x: Phasor, y: Phasor) -> int:
    """Im(x y*)."""
    return x.im * y.re - x.re * y.im


def dot(x: Phasor, y: Phasor) -> int:
    """Re(x y*)."""
    return x.re * y.re + x.im * y.im


def total(phasors: list[Phasor]) -> Phasor:
    return functools.reduce(plus, phasors)


# ---- What a loop is judged by ----------------------------------------------

class Numbers(NamedTuple):
    reactance: int
    n: int
    q: int


class Given(NamedTuple):
    """One ground loop in its window."""
    phase: int
    line: Line
    towards: int
    reaches: bool       # 3I2 its pickup
    loops: list[Loop]   # AG, BG and CG
    by_channel: list[Phasor]
    ir: Phasor

    @property
    def loop(self) -> Loop:
        return self.loops[self.phase]

    def numbers(self, v=None, i=None, ir=None, r=None, Z=None,
                scale=1000000) -> Numbers:
        """With something else in the place of what is named."""
        v, ir = v or self.loop.v, ir or self.ir
        zi = times(Z or self.line.Z, i or self.loop.i)
        q = cross(ir, zi)
        return Numbers(-(self.line.r if r is None else r) * q
                       - scale * cross(v, ir), cross(v, zi), q)


def sides(R: int, n: int, q: int) -> bool:
    return q != 0 and 10 * abs(n) <= R * abs(q)


def inside(R: int, found: Numbers) -> bool:
    """All but the direction."""
    return R != OFF and found.reactance > 0 and sides(R, found.n, found.q)


def own_bit(given: Given) -> bool:
    return given.towards == FORWARD and inside(given.line.R, given.numbers())


Rules = dict[str, bool]     # the bit that each would give


# ---- Other comparisons -----------------------------------------------------

def of_reactance(R: int, x: int, n: int, q: int) -> Rules:
    within = R != OFF and sides(R, n, q)
    return {'the reactance line itself taken': within and x >= 0,
            'a step beyond the reactance line': within and x >= -1,
            'a step short of the reactance line': within and x > 1,
            'the reactance test turned': within and x < 0,
            'no reactance test': within}


def of_sides(R: int, x: int, n: int, q: int) -> Rules:
    ten, wide, on = 10 * abs(n), R * abs(q), R != OFF and x > 0
    some = on and q != 0
    return {
        'the sides themselves left out': some and ten < wide,
        'a step beyond the sides': some and ten <= wide + 1,
        'a step short of the sides': some and ten < wide - 1,
        'no sides': some,
        'the signs of n and q kept': some and 10 * n <= R * q,
        'the sign of q kept': some and ten <= R * q,
        'the sign of n kept': some and 10 * n <= wide,
        'the sign of n turned': some and -10 * n <= wide,
        'q = 0 taken': on and ten <= wide,
        'n = 0 left out': some and 0 < ten <= wide,
        'q above 0 left out': some and q < 0 and ten <= wide,
        'q below 0 left out': some and q > 0 and ten <= wide,
        'R in whole numbers': some and abs(n) <= wide,
        'R in hundredths': some and 10 * ten <= wide}


def of_resistance(R: int, x: int, n: int, q: int) -> Rules:
    other = {
        'R one less': R - 1, 'R one more': R + 1, 'byte 29 alone': R % 256,
        'byte 28 alone': R - R % 256, 'R of the bytes swapped':
        R % 256 * 256 + R // 256, 'R no more than 255': min(R, 255),
        'R of 1 as off': R if R != 1 else OFF,
        'R of 1000 as off': R if R != 1000 else OFF}
    found = Numbers(x, n, q)
    # R one more than off is still off.
    rules = {name: R != OFF and inside(number, found)
             for name, number in other.items()}
    rules['the sides at R = 0 too'] = x > 0 and sides(R, n, q)
    rules['no sides at R = 0'] = x > 0 and q != 0 and (
        R == OFF or sides(R, n, q))
    return rules


def of_direction(given: Given, within: bool, circle: bool,
                 phases: int, v1: Phasor) -> Rules:
    forward = within and given.towards == FORWARD
    return {
        'any direction': within,
        'a direction that is not reverse': within and given.towards != REVERSE,
        'any direction where 3I2 reaches its pickup': within and given.reaches,
        'none by the pickup taken': forward or within and not given.reaches,
        'none between the limits taken': forward or (
            within and given.reaches and given.towards == NONE),
        'reverse for forward': within and given.towards == REVERSE,
        'only with the circle': forward and circle,
        'only without the circle': forward and not circle,
        'with the circle too': forward or (
            given.towards == FORWARD and given.line.R != OFF and circle),
        'only with 3V1': forward and any(v1),
        'only with a phase that operates': forward and phases != 0,
        'only if no phase operates': forward and phases == 0}


# ---- Other numbers ---------------------------------------------------------

def of_reach(given: Given) -> dict[str, Numbers]:
    r = given.line.r
    return {'the second reach': given.numbers(r=given.line.r2),
            'r one less': given.numbers(r=r - 1),
            'r one more': given.numbers(r=r + 1),
            'a reach of 1000': given.numbers(r=1000),
            'r in whole numbers': given.numbers(r=1000 * r),
            'V not scaled': given.numbers(scale=1),
            'V scaled by 1000': given.numbers(scale=1000)}


def of_currents(given: Given) -> dict[str, Numbers]:
    line, own = given.line, given.phase
    at_1, at_2 = given.by_channel[3:6], given.by_channel[6:9]
    i, ir = at_1[own], given.ir
    exact = plus(times(Phasor(1000, 0), i), times(line.k, ir))
    back = loops(line._replace(k=conjugate(line.k)), [i] * 3, at_1)[own].i
    i2 = negative(*at_1[own:], *at_1[:own])     # as this phase has it
    other = loops(line, at_2, at_2)[own].i
    in_ir = plus(given.loop.i, plus(ir, Phasor(-i.re, -i.im)))
    twice = given.numbers(ir=plus(i2, ir))      # of 3/2 (I2 + I0)
    in_thousandths = given.numbers(i=exact, scale=1000000000)
    return {
        'k left out of I': given.numbers(i=i),
        'the k product not rounded': in_thousandths,
        'k conjugate': given.numbers(i=back),
        'k in Ir': given.numbers(ir=in_ir),
        'I of end 2': given.numbers(i=other),
        'Ir of end 2': given.numbers(ir=total(at_2)),
        'Ir of all ends': given.numbers(ir=total(given.by_channel[3:])),
        'the phase current for Ir': given.numbers(ir=i),
        'I of the loop for Ir': given.numbers(ir=given.loop.i),
        '3I2 for Ir': given.numbers(ir=i2),
        '3/2 (I2 + I0) for Ir': twice._replace(n=2 * twice.n),
        'Vp for Ir': given.numbers(ir=given.loop.vp),
        'V of the next phase': given.numbers(
            v=given.loops[(own + 1) % 3].v)}


def of_forms(given: Given) -> dict[str, Numbers]:
    line, v, ir, i = given.line, given.loop.v, given.ir, given.loop.i
    x, n, q = given.numbers()
    zi = times(line.Z, i)
    beyond = plus(times(Phasor(line.r, 0), zi), times(Phasor(-1000000, 0), v))
    return {
        'Z left out of the sides': Numbers(x, cross(v, i), cross(ir, i)),
        'Z conjugate': given.numbers(Z=conjugate(line.Z)),
        'the parts of Z swapped': given.numbers(
            Z=Phasor(line.Z.im, line.Z.re)),
        'Re for Im of the reactance': Numbers(dot(beyond, ir), n, q),
        'Re for Im in n': Numbers(x, dot(v, zi), q),
        'Re for Im in q': Numbers(x, n, dot(ir, zi)),
        'ZI for (ZI)*': Numbers(x, times(v, zi).im, times(ir, zi).im),
        'Ir for Ir*': Numbers(times(beyond, ir).im, n, q)}


# ---- All of them -----------------------------------------------------------

def of_loop(given: Given, circle: bool, phases: int, v1: Phasor) -> Rules:
    """By the loop's own circle, the phases that operate, and 3V1."""
    R, own, rules = given.line.R, given.numbers(), {}
    if given.towards == FORWARD:
        rules.update(of_resistance(R, *own))
        if R == OFF:    # all others give no bit
            return rules
        rules.update(of_reactance(R, *own), **of_sides(R, *own))
        for numbers in (of_reach(given), of_currents(given), of_forms(given)):
            rules.update((name, inside(R, found))
                         for name, found in numbers.items())
    return {**rules, **of_direction(given, inside(R, own), circle, phases, v1)}


def of_others(bits: list[bool], own: int) -> Rules:
    """Of the bits of A, B and C."""
    return {**{f'the bit of {name}': bit for name, bit in zip('ABC', bits)
               if name != 'ABC'[own]},
            'any of the three': any(bits), 'all of the three': all(bits),
            'the first of the three alone': bits[own] and not any(bits[:own])}


# ---- How the bit would come out --------------------------------------------

SET, CLEAR, BOTH = ('set',), ('clear',), ('set', 'clear')
WAYS = {
    **dict.fromkeys((
        'the reactance line itself taken', 'a step beyond the reactance line',
        'no reactance test', 'a step beyond the sides', 'no sides',
        'the sign of n kept', 'the sign of n turned', 'q = 0 taken',
        'R in whole numbers', 'R one more', 'the sides at R = 0 too',
        'no sides at R = 0', 'any direction',
        'a direction that is not reverse',
        'any direction where 3I2 reaches its pickup',
        'none by the pickup taken', 'none between the limits taken',
        'with the circle too', 'any of the three'), SET),
    **dict.fromkeys((
        'a step short of the reactance line', 'the sides themselves left out',
        'a step short of the sides', 'the sign of q kept', 'n = 0 left out',
        'q above 0 left out', 'q below 0 left out', 'R in hundredths',
        'R one less', 'byte 29 alone', 'byte 28 alone', 'R no more than 255',
        'R of 1 as off', 'R of 1000 as off', 'only with the circle',
        'only without the circle', 'only with 3V1',
        'only with a phase that operates', 'only if no phase operates',
        'all of the three'), CLEAR),
    **dict.fromkeys((
        'the reactance test turned', 'the signs of n and q kept',
        'R of the bytes swapped', 'reverse for forward', 'the second reach',
        'r one less', 'r one more', 'a reach of 1000', 'r in whole numbers',
        'V not scaled', 'V scaled by 1000', 'k left out of I',
        'the k product not rounded', 'k conjugate', 'k in Ir', 'I of end 2',
        'Ir of end 2', 'Ir of all ends', 'the phase current for Ir',
        'I of the loop for Ir', '3I2 for Ir', '3/2 (I2 + I0) for Ir',
        'Vp for Ir', 'V of the next phase', 'Z left out of the sides',
        'Z conjugate', 'the parts of Z swapped', 'Re for Im of the reactance',
        'Re for Im in n', 'Re for Im in q', 'ZI for (ZI)*', 'Ir for Ir*'),
        BOTH)}


def unlike(rules: Rules, bit: bool) -> Iterator[str]:
    """Those that would give another bit, and which."""
    for name, other in rules.items():
        if other != bit:
            yield f'{name} would be {"set" if other else "clear"}'


def wanted(own: str) -> Iterator[str]:
    """Of the loop with this name."""
    for name, ways in WAYS.items():
        yield from (f'{name} would be {way}' for way in ways)
    for other in 'ABC':
        if other != own:
            yield from (f'the bit of {other} would be {way}' for way in BOTH)
    if own != 'A':
        yield 'the first of the three alone would be clear'
