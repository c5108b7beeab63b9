"""Which roots of the percentage differential a decision shows, by their size
and by the kind of number; and what all of them together should.

U is the sum of the ends' roots, rounded up. Where one end has a current and
the others have none, it is the root of this end. The last number of a phase is
the root of 4096 s, cut. All are roots of 4096 times a sum of two squares. They
are worked out here by Python's own root, not by the model's.
"""
from itertools import product
from math import isqrt
from typing import Iterator

from cases.building import ENDS
from driving.calls import Made, phases, window
from driving.seen import all_of
from driving.sides import LARGEST, sizes
from model.differential import Phase, slope
from model.measuring import squared
from model.settings import IN_FORCE

# ---- How large they can be -------------------------------------------------

# At most 34913² + 23329² = 1763159810 for an end; with six ends s is up to 36
# times as much. The numbers have up to 43 and 48 bits, their roots 22 and 24.
LARGEST_S = {'an end': LARGEST, 's': ENDS[-1]**2 * LARGEST}
MOST = {whose: (4096 * s).bit_length() for whose, s in LARGEST_S.items()}
assert MOST == {'an end': 43, 's': 48}
# Below this every s is wanted: all numbers of up to 22 bits, with the roots 0
# and those of 7 to 11 bits.
SMALL = 1024
LEAST = (4096 * SMALL).bit_length()


def of_root(bits: int) -> int:
    """The bits of the root of a number of so many bits."""
    return (bits + 1) // 2


# ---- What one root shows ---------------------------------------------------

# How little above a square, and below one, 4096 s can be, by its bits. Above,
# 7 is the least: an odd square is 1 more than a multiple of 8, and an even one
# is a multiple of 16 or 4 more. Below, it is 1. Where another number stands,
# the s of each nearer one is no sum of two squares.
ABOVE, ELSE_ABOVE = {24: 23, 25: 15}, 7
BELOW, ELSE_BELOW = {24: 9, 25: 4, 26: 9, 28: 4}, 1


def parity(number: int) -> str:
    return 'odd' if number % 2 else 'even'


def kinds(s: int) -> Iterator[str]:
    """Of the number 4096 s."""
    n, below = 4096 * s, isqrt(s)
    root, bits = isqrt(n), n.bit_length()
    if s == below**2:
        yield f'square, s {parity(s)}'
    else:
        yield f'no square, root {parity(root)}'
    if s == below**2 + 1:
        yield f's one above an {parity(below)} square'
    if s == (below + 1)**2 - 1:
        yield f's one below an {parity(below + 1)} square'
    if n - root**2 == ABOVE.get(bits, ELSE_ABOVE):
        yield 'as little above a square as can be'
    if (root + 1)**2 - n == BELOW.get(bits, ELSE_BELOW):
        yield 'as little below a square as can be'


# A square has an even root, 64 times that of s. One below an even square is 3
# more than a multiple of 4, and so no sum of two squares.
KINDS = [*all_of('square, s {}', ('odd', 'even')),
         *all_of('no square, root {}', ('odd', 'even')),
         *all_of('s one above an {} square', ('odd', 'even')),
         's one below an odd square',
         *all_of('as little {} a square as can be', ('above', 'below'))]


def digits(root: int) -> Iterator[str]:
    """Each bit but the first, and whether all of them are alike."""
    bits = root.bit_length()
    yield from (f'bit {at} is {root >> at & 1}' for at in range(bits - 1))
    if root in (2**(bits - 1), 2**bits - 1):
        yield f'all bits but the first are {root & 1}'


def of_number(s: int) -> Iterator[str]:
    """Of the number 4096 s, and of its root."""
    if s < SMALL:
        yield f'root of 4096 times {s}'
    else:
        n, root = 4096 * s, isqrt(4096 * s)
        yield from (f'number of {n.bit_length()} bits: {kind}'
                    for kind in kinds(s))
        yield from (f'root of {root.bit_length()} bits: {digit}'
                    for digit in digits(root))


def of_phase(phase: Phase) -> Iterator[str]:
    of_ends = [squared(of_end) for of_end in phase.phasors if any(of_end)]
    if len(of_ends) <= 1:
        yield from (f'an end: {what}' for what in of_number(sum(of_ends)))
    yield from (f's: {what}' for what in of_number(phase.s))
    yield from sizes(phase)


# ---- Of a call that decide or feed answered with 0 -------------------------

def shown(made: Made) -> Iterator[str]:
    ends = slope(made.state[IN_FORCE]).ends
    for phase in phases(window(made), ends):
        yield from (f'{made.step.call}: {what}' for what in of_phase(phase))


# ---- What all of them should show ------------------------------------------

def wanted_digits(whose: str, bits: int) -> Iterator[str]:
    """Of roots of so many bits. No root of an end is so large that the first
    two of 22 bits are 1. 4095, of 12 bits, would be the root of 4096 times
    4095, which is no sum of two squares."""
    largest = isqrt(4096 * LARGEST_S[whose])
    for at, digit in product(range(bits - 1), (0, 1)):
        if 2**(bits - 1) + digit * 2**at <= largest:
            yield f'bit {at} is {digit}'
    yield 'all bits but the first are 0'
    if bits > 12 and 2**bits - 1 <= largest:
        yield 'all bits but the first are 1'


def wanted_of(whose: str) -> Iterator[str]:
    """Of the root of an end, or of s."""
    parts = range(isqrt(SMALL))
    yield from (f'root of 4096 times {s}' for s in sorted(
        {re**2 + im**2 for re, im in product(parts, parts)}) if s < SMALL)
    for bits, kind in product(range(LEAST, MOST[whose] + 1), KINDS):
        yield f'number of {bits} bits: {kind}'
    for bits in range(of_root(LEAST), of_root(MOST[whose]) + 1):
        yield from (f'root of {bits} bits: {digit}'
                    for digit in wanted_digits(whose, bits))


def wanted(call: str) -> Iterator[str]:
    """Of decide, or of feed."""
    for whose in MOST:
        yield from (f'{call}: {whose}: {what}' for what in wanted_of(whose))
    yield from all_of(f'{call}: s = 0, U {{}} 0', '=>')
    yield from all_of(f'{call}: largest {{}} of {{}} ends', 'Us', ENDS)
