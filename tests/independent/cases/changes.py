"""Windows for document 02, CR 6: the slope c at which a phase changes, so that
it operates exactly for the slopes 1 to c.

fixed() gives them as currents.py does: each a label, the ends, the window, and
the pairs (K, pickup) to try on it. In most of them the three phases have three
different c, so that one taken for another would show. each_slope() gives some
of them with every slope.
"""
import random
from itertools import chain, cycle, product
from typing import Iterable, Iterator

from cases import near_changes
from cases.balanced import about
from cases.building import (ENDS, HIGH, LOW, ZERO, exact, exact_wave, farthest,
                            of_phases, turned)
from cases.currents import opposed
from cases.equalities import EXACT, half_less, in_steps, moved, split
from cases.roots import Value, channel, shared
from cases.trying import VOLTS, Currents, Tries, possible
from model.differential import SLOPES, by_phase, slope_of_change

LAST = 99   # the largest c


# ---- What is tried on a window ---------------------------------------------

def slopes(ends: int, numbers: list[int]) -> list[int]:
    """The first and the last, and c and c + 1 of each phase, with a pickup
    that it reaches."""
    found = {LOW[2], HIGH[2]}
    for phase in by_phase(numbers, ends):
        c = slope_of_change(LOW[4], phase.s, phase.U)
        found |= {c, c + 1}
    return sorted(found)


def of_samples(label: str, three: list[list[list[int]]],
               pickup: int = LOW[4], more: Tries = ()) -> Currents:
    """The window of these samples, given by phase and end."""
    ends, numbers = len(three[0]), of_phases(VOLTS, three)
    pairs = [(K, pickup) for K in slopes(ends, numbers)]
    return Currents(label, ends, numbers, possible(pairs) + possible(more))


def samples(value: Value) -> list[int]:
    """With exactly this phasor: two samples, a wave, or what is larger than a
    wave can be."""
    if max(map(abs, value)) < 4096:
        return exact(value)
    return (exact_wave if abs(complex(*value)) < 32000 else channel)(value)


def of_phasors(label: str, three: Iterable[Iterable[Value]],
               pickup: int = LOW[4], more: Tries = ()) -> Currents:
    """The same of phasors."""
    return of_samples(label, [[samples(value) for value in by_end]
                              for by_end in three], pickup, more)


def rotated(values: list, first: int) -> list:
    """The ends in turn, from this one."""
    return values[first:] + values[:first]


# ---- Every c: equality at c + 1, and one count beside it -------------------

# Directions with exact roots, and how many counts a part is. The last ones are
# along one part of the phasor, and as large as a current can be.
WAYS = [*product(EXACT, (1, 4)), *product(EXACT[4:], (30,)), ((0, -1), 7),
        ((-1, 0), 150), ((0, 1), 150), ((1, 0), 205)]
ALONG = WAYS[-4:]
COUNTS = (0, 1, -1)     # equal, a count more, a count less


def about_equal(rng: random.Random, K: int, ends: int, way,
                count: int) -> list[Value]:
    """The phasors of a phase with 40960000 s = (K U)², as in P10, the largest
    of them moved on by so many counts. It has 100 + K parts, and the others
    against it 100 - K together, so that 2K parts are left of 200: c is K - 1.
    With a count more it is K."""
    (re, im), part = way
    against = split(rng, part * (100 - K), ends - 1)
    values = in_steps((re, im), [part * (100 + K),
                                 *(-size for size in against)])
    step = (count if re > 0 else -count, 0) if abs(re) > abs(im) else (
        0, count if im > 0 else -count)
    return rotated(moved(values, 0, step), rng.randrange(ends))


def of_change(c: int, turn: int) -> Currents:
    """The first phase with this c or hardly another one, the others with two
    that are far from it. Which phase is equal goes by turn."""
    ends = ENDS[(c + c // 10 + turn) % len(ENDS)]
    three, rng = [], random.Random(100 * turn + c)
    for phase in range(3):
        K = (c + 33 * phase) % 100 + 1
        # Next to 100 only whole counts along the current are enough.
        ways = WAYS if K < 98 else ALONG
        three.append(about_equal(rng, K, ends, ways[(c + phase) % len(ways)],
                                 COUNTS[(phase + turn) % 3]))
    return of_phasors(f'equal at {c + 1} or a count beside it, turn {turn}',
                      three)


def every_change() -> Iterator[Currents]:
    for turn, c in product(range(3), range(LAST + 1)):
        yield of_change(c, turn)


# ---- The pickup ------------------------------------------------------------

# Of 3, 9, 19, 73, 513, 2049 and 33801 the square less one is the s of a phasor
# too.
PICKUPS = (1, 2, 3, 9, 19, 73, 513, 2049, 33801, HIGH[4])


def with_outfeed(value: Value, ends: int, out: int) -> list[Value]:
    """This phasor from all ends, and so many counts more that come in at the
    first and go out at the last."""
    values = shared(value, ends)
    return moved(moved(values, 0, (out, 0)), ends - 1, (-out, 0))


def about_pickup(pickup: int) -> Iterator[Currents]:
    """s as little below the square of the pickup as can be, at it, and one
    above, on each phase in turn. With no outfeed c is 99, with some it is
    less."""
    three, out = list(about(pickup).values())[:3], min(pickup, 20000)
    for turn in range(3):
        ends = ENDS[(pickup + turn) % len(ENDS)] if pickup < 9999 else ENDS[-1]
        yield of_phasors(f'pickup {pickup}, turn {turn}', [
            with_outfeed(value, ends, part * out // 2)
            for value, part in zip(turned(turn, *three), (1, 0, 2))], pickup, [
                (LOW[2], pickup - 1), (LOW[2], pickup + 1)])


def every_pickup() -> Iterator[Currents]:
    return chain.from_iterable(map(about_pickup, PICKUPS))


# ---- Nothing, and the largest ----------------------------------------------

def nothing() -> Iterator[Currents]:
    """s = 0 with no current, and with one that passes through. In the third
    phase all but one count passes through, or all ends feed a fault alike."""
    for ends, turn in product(ENDS, range(3)):
        passing, between = (700, -30), [ZERO] * (ends - 2)
        for third in ([passing, *between, (-699, 30)], [(300, 400)] * ends):
            yield of_phasors(f'nothing, {ends} ends', turned(
                turn, [ZERO] * ends, [passing, *between, (-700, 30)], third))


def largest() -> Iterator[Currents]:
    """All ends have the largest current there is: alike, one of them opposed,
    and half of them."""
    for ends, turn in product(ENDS, range(3)):
        three = [opposed(farthest(), ends, count)
                 for count in (0, 1, ends // 2)]
        yield of_samples(f'largest, {ends} ends', turned(turn, *three), more=[
            (K, HIGH[4]) for K in (LOW[2], LAST, HIGH[2])])


# ---- Less than a count -----------------------------------------------------

def half_a_count() -> Iterator[Currents]:
    """The sums of each end lie half a count below its phasor. Of all ends
    together that is a count or more: s would be less if it were rounded after
    the sum, or more where the phasors are negative."""
    for ends, turn in product(ENDS, range(3)):
        others = [(-2, -1)] * (ends - 1)
        passing = [(9, 9), *[ZERO] * (ends - 2), (-9, -9)]
        three = [[(20, 15), *others], in_steps((-1, -1), [
            15, *[-2] * (ends - 1)]), passing]
        yield of_samples(f'half a count, {ends} ends', turned(turn, *(
            [half_less(value) for value in values] for values in three)))


def of_pairs(label: str, pairs: list, turn: int = 0) -> Iterator[Currents]:
    """Three of them at once, at two ends of a line."""
    ends = cycle(ENDS)
    for at in range(0, len(pairs) - 2, 3):
        three = turned(turn, *pairs[at:at + 3])
        others = [ZERO] * (next(ends) - 2)
        yield of_phasors(f'{label}, {three}', [
            rotated(pair + others, at % len(pair + others))
            for pair in three])


def hardly() -> Iterator[Currents]:
    """Hardly anything makes another c: a sixty-fourth of a count, or one part
    in forty million."""
    yield from of_pairs('few counts', near_changes.few_counts())
    large = near_changes.large()
    yield from chain.from_iterable(of_pairs('beside equality', large, turn)
                                   for turn in range(3))


# ---- All of them -----------------------------------------------------------

def fixed() -> Iterator[Currents]:
    return chain(every_change(), every_pickup(), nothing(), largest(),
                 half_a_count(), hardly())


def each_slope() -> Iterator[Currents]:
    """For each N one at equality, one about a pickup and one of the largest,
    with every slope from 1 to 100."""
    for kind in (every_change(), every_pickup(), largest()):
        by_ends = {}
        for found in kind:
            by_ends.setdefault(found.ends, found)
        for found in by_ends.values():
            pickup = found.tries[0][1]
            yield found._replace(tries=[(K, pickup) for K in SLOPES])
