"""Windows for the roots of document 01's percentage differential: of every
size, of squares, and of numbers beside a square.

Document 02, CR 3, has the library work its root out in another way. Such a way
may be wrong at one size alone, or for one kind of number. So there is a window
for each.

In most of them a phase has a current at one end and none at the others. U is
then the root of this end, rounded up, and the last number of the phase is the
same root, cut. Each window comes with a label and a line.
"""
from itertools import chain, count, cycle, zip_longest
from math import isqrt
from typing import Iterable, Iterator, Optional

from cases.building import (ENDS, LARGEST, LINE, Case, added, farthest,
                            largest, of_phases, pulse)
from cases.trying import QUIET, VOLTS
from model.measuring import COSINES, phasor, rounded

Value = tuple[int, int]     # a phasor

SMALL = 1024    # every s below it is taken
# The bits of 4096 s from there on: up to 43 with one end, up to 48 with six.
ONE_END = range((4096 * SMALL).bit_length(), 43 + 1)
SIX_ENDS = range(43 + 1, 48 + 1)


# ---- Channels --------------------------------------------------------------

OF_ONE = sum(map(abs, COSINES))     # A of samples 1 with the cosine's signs
LARGEST_RE = phasor(largest(0)).re  # 41183; no samples have a larger one
LARGEST_IM = LARGEST // 8           # 4095, from one sample


def with_signs(size: int) -> list[int]:
    """This size with the signs of the cosine, and 0 where that is 0."""
    return [size if c > 0 else -size if c < 0 else 0 for c in COSINES]


def channel(value: Value) -> list[int]:
    """Samples with this phasor. Most are of one size. If that makes the real
    part a count too small or too large, the ones at n=0 and n=8 are larger or
    smaller by one. The imaginary part comes from n=4."""
    re, im = value
    size = rounded(131072 * re, OF_ONE)
    over = rounded(131072 * re - OF_ONE * size, 131072)
    samples = added(with_signs(size), pulse(over, 0), pulse(-over, 8),
                    pulse(-8 * im, 4))
    assert phasor(samples) == value
    return samples


def shared(value: Value, ends: int) -> list[Value]:
    """Phasors that make up this one, nearly alike."""
    re, im = value
    return [((re + end) // ends, (im + end) // ends) for end in range(ends)]


# ---- Phasors ---------------------------------------------------------------

def largest_re(bits: int) -> int:
    """The largest real part used for 4096 s of so many bits."""
    return LARGEST_RE * (1 if bits in ONE_END else ENDS[-1])


def two_squares(s: int) -> Optional[Value]:
    """A phasor with this s, if there is one with an imaginary part up to
    LARGEST_IM."""
    for re in range(isqrt(s), -1, -1):
        im = isqrt(s - re**2)
        if im > min(re, LARGEST_IM):
            break
        if re**2 + im**2 == s:
            return re, im
    return None


def every_small() -> Iterator[Value]:
    return filter(None, map(two_squares, range(SMALL)))


def squares(bits: int) -> Iterator[Value]:
    """s a square, and one above it: of the least number for this size, of the
    next, so that one is odd and one even, and of the largest. Then s one below
    a square."""
    least = isqrt(2**(bits - 13) - 1) + 1
    most = min(isqrt(2**(bits - 12) - 1), largest_re(bits))
    for number in (least, least + 1, most):
        yield number, 0
        yield number, 1
    # (2m²)² + (2m)² = (2m² + 1)² - 1
    m = isqrt((most - 1) // 2)
    yield 2 * m**2, 2 * m


def beside(bits: int, over: int) -> Optional[Value]:
    """The largest found with 4096 s of so many bits that is so much over a
    square, or under one if that is negative."""
    rests = [rest for rest in range(4095, -1, -1)
             if (rest**2 + over) % 4096 == 0]
    most = min(isqrt(2**bits), 64 * largest_re(bits))
    for whole in range(most // 4096, -1, -1):
        for n in ((4096 * whole + rest)**2 + over for rest in rests):
            found = two_squares(n // 4096)
            if (found and found[0] <= largest_re(bits)
                    and n.bit_length() == bits):
                return found
    return None


def nearest(bits: int) -> Iterator[Value]:
    """4096 s as little above a square as can be, and as little below one."""
    for way in (1, -1):
        yield next(filter(None, (beside(bits, way * over)
                                 for over in count(1))))


def with_root(root: int) -> Value:
    """The root of 4096 s, cut, is this one; or less by an even number, if no s
    is found for this one."""
    while True:
        for s in range(-(-root**2 // 4096), ((root + 1)**2 - 1) // 4096 + 1):
            found = two_squares(s)
            if found:
                return found
        root -= 2


# Roots, in hundredths of the least with as many bits. The squares of 1.05 and
# 1.20 are below 2, so their numbers have an odd count of bits; those of 1.70
# and 1.80 are above. In binary the four begin 1.00001100, 1.00110011,
# 1.10110011 and 1.11001100, and go on so. Of each two one is odd and one even.
# Each bit but the first is 0 in one of the four and 1 in another.
HUNDREDTHS = {'odd': (105, 120), 'even': (170, 180)}


def digits(bits: int) -> Iterator[Value]:
    """With such roots, and with the largest root of its size."""
    least = 2**((bits + 1) // 2 - 1)
    for hundredths in HUNDREDTHS['odd' if bits % 2 else 'even']:
        yield with_root(hundredths * least // 100)
    if bits % 2 == 0 and 2 * least <= 64 * largest_re(bits):
        yield with_root(2 * least - 1)


def of_size(bits: int) -> Iterator[Value]:
    return chain(squares(bits), nearest(bits), digits(bits))


# ---- Windows ---------------------------------------------------------------

def by_three(values: Iterable[Value]) -> Iterator[tuple[Value, ...]]:
    """One for each phase; (0,0) where none is left."""
    return zip_longest(*[iter(values)] * 3, fillvalue=(0, 0))


def at_one_end() -> Iterator[Case]:
    values = chain(every_small(), *map(of_size, ONE_END))
    for turn, (ends, three) in enumerate(zip(cycle(ENDS), by_three(values))):
        own = turn % ends
        by_phase = [[channel(value) if end == own else QUIET
                     for end in range(ends)] for value in three]
        yield Case(f'roots of {three} at end {own + 1}',
                   LINE._replace(ends=ends), of_phases(VOLTS, by_phase))


def at_six_ends() -> Iterator[Case]:
    ends = ENDS[-1]
    for three in by_three(chain(*map(of_size, SIX_ENDS))):
        by_phase = [[channel(part) for part in shared(value, ends)]
                    for value in three]
        yield Case(f'roots of {three} from {ends} ends',
                   LINE._replace(ends=ends), of_phases(VOLTS, by_phase))


def at_most() -> Iterator[Case]:
    """The largest from all ends, from one, and from two of which one has the
    opposite of the other."""
    own = farthest()
    opposite = [-x for x in own]
    for ends in ENDS:
        none = [QUIET] * (ends - 2)
        by_phase = [[own] * ends, [own, QUIET, *none], [own, opposite, *none]]
        yield Case(f'largest roots, {ends} ends', LINE._replace(ends=ends),
                   of_phases(VOLTS, by_phase))


def fixed() -> Iterator[Case]:
    return chain(at_one_end(), at_six_ends(), at_most())
