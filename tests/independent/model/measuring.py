"""The rules of document 01 for phasors, direction and mho loops, in its order
and words, with the second zone of document 02, CR 2.

All arithmetic is in whole numbers; only the table of cosines is computed and
then rounded. Comments in quotes are the document's own sentences.
"""
import math
from typing import NamedTuple, Optional

from model.settings import FIELDS, OFF, first_fault


# ---- Complex numbers of two whole numbers ----------------------------------

class Phasor(NamedTuple):
    re: int
    im: int


# "Nothing here exceeds 64-bit signed range."
def fits(number: int) -> int:
    assert -2**63 <= number < 2**63
    return number


def sum_of_products(xs, ys) -> int:
    """Each product and each sum on the way kept in 64 bits."""
    total = 0
    for x, y in zip(xs, ys, strict=True):
        total = fits(total + fits(x * y))
    return total


def plus(x: Phasor, y: Phasor) -> Phasor:
    return Phasor(fits(x.re + y.re), fits(x.im + y.im))


def minus(x: Phasor, y: Phasor) -> Phasor:
    return Phasor(fits(x.re - y.re), fits(x.im - y.im))


def times(x: Phasor, y: Phasor) -> Phasor:
    return Phasor(sum_of_products(x, (y.re, -y.im)),
                  sum_of_products(x, (y.im, y.re)))


def conjugate(x: Phasor) -> Phasor:
    return Phasor(x.re, -x.im)


def minus_j_times(x: Phasor) -> Phasor:
    return Phasor(x.im, -x.re)


def squared(x: Phasor) -> int:
    """The squared magnitude |x|²."""
    return sum_of_products(x, x)


# ---- Settings record -------------------------------------------------------

class Line(NamedTuple):
    """The settings used here, by the document's letters."""
    ends: int
    Z: Phasor    # "replica impedance real, imaginary, thousandths"
    r: int       # "reach r, thousandths of the replica"
    k: Phasor    # "k real; k imaginary (signed), thousandths"
    D: Phasor    # "line angle D real, imaginary"
    zf: int      # "forward limit zf, reverse limit zr (signed)"
    zr: int
    pickup: int  # "pickup of 3I2, counts"
    r2: int = OFF   # the second reach
    R: int = OFF    # the resistive reach, in tenths


def line(record: bytes) -> Line:
    """What a good record says."""
    # "32 bytes, no header, all fields 16-bit big-endian."
    assert first_fault(record) is None
    at = {field.at: int.from_bytes(record[field.at:field.at + 2], 'big',
                                   signed=field.signed) for field in FIELDS}
    return Line(ends=at[0], Z=Phasor(at[6], at[8]), r=at[10],
                k=Phasor(at[12], at[14]), D=Phasor(at[16], at[18]),
                zf=at[20], zr=at[22], pickup=at[24], r2=at[26], R=at[28])


# ---- Window and phasors ----------------------------------------------------

FRAMES = 16
MISSING = -32768  # "The number -32768 marks a missing sample."


def numbers(data: bytes) -> Optional[list[int]]:
    # "From C the samples come as big-endian bytes; an odd byte over makes it
    # another length, and places still count numbers."
    if len(data) % 2 == 1:
        return None
    return [int.from_bytes(data[at:at + 2], 'big', signed=True)
            for at in range(0, len(data), 2)]


def channels(ends: int) -> int:
    """Va, Vb, Vc, then Ia, Ib, Ic of each end."""
    return 3 + 3 * ends


def length(ends: int) -> int:
    # "So it has 16(3+3N) numbers, 144 for two ends, 336 for six."
    return FRAMES * channels(ends)


def first_missing(numbers: list[int]) -> Optional[int]:
    # "Refusal 4 names the first missing number in frame order, then channel
    # order." That is the order of the slice.
    for index, number in enumerate(numbers):
        if number == MISSING:
            return index
    return None


def channel(numbers: list[int], ends: int, index: int) -> list[int]:
    """The 16 samples of a channel."""
    # "A window is a lent slice of signed 16-bit numbers: 16 frames in time
    # order, each with Va, Vb, Vc, then Ia, Ib, Ic of end 1 (the local end),
    # then of end 2, up to end N."
    assert len(numbers) == length(ends)
    return [numbers[frame * channels(ends) + index]
            for frame in range(FRAMES)]


def coefficient(true_value: float) -> int:
    # "These are 16384 times the true values, rounded."
    number = 16384 * true_value
    below = math.floor(number)
    assert abs(number - below - 0.5) > 0.01  # far from a rounding tie
    return below if number - below < 0.5 else below + 1


COSINES = [coefficient(math.cos(2 * math.pi * n / 16)) for n in range(16)]
# "Sines S[n] = C[(n+12) mod 16]."
SINES = [COSINES[(n + 12) % 16] for n in range(16)]
assert SINES == [coefficient(math.sin(2 * math.pi * n / 16))
                 for n in range(16)]


def rounded(number: int, d: int) -> int:
    # "Each becomes the one whole number y with 131072y - 65536 <= A (or B) <
    # 131072y + 65536."
    # ""Rounded by d" below is the same rule with d for 131072 and d/2 for
    # 65536."
    y = (2 * number + d) // (2 * d)
    assert 2 * d * y - d <= 2 * number < 2 * d * y + d  # the rule, doubled
    return y


def both_rounded(x: Phasor, d: int) -> Phasor:
    return Phasor(rounded(x.re, d), rounded(x.im, d))


def sums(samples: list[int]) -> Phasor:
    """A and B of a channel."""
    # "The real part comes from A = sum of x[n]C[n], the imaginary from B =
    # minus the sum of x[n]S[n]."
    return Phasor(sum_of_products(samples, COSINES),
                  -sum_of_products(samples, SINES))


def phasor_of(a_and_b: Phasor) -> Phasor:
    """The phasor of a channel with these sums."""
    result = both_rounded(a_and_b, 131072)
    # "Every component then lies within 42000 of zero."
    assert abs(result.re) <= 42000 and abs(result.im) <= 42000
    return result


def phasor(samples: list[int]) -> Phasor:
    return phasor_of(sums(samples))


def phasors(numbers: list[int], ends: int) -> list[Phasor]:
    """The phasors by channel: Va, Vb, Vc, Ia, Ib, Ic of end 1, and so on."""
    return [phasor(channel(numbers, ends, index))
            for index in range(channels(ends))]


# ---- Sequence quantities and direction (source document 002) ---------------

# "a is -1/2 + j root3/2, taken as (-8192, 14189) over 16384; a² is its
# conjugate, (-8192, -14189) over 16384, and not a square worked out."
ONE = Phasor(16384, 0)
A = Phasor(-8192, 14189)
A2 = Phasor(-8192, -14189)

# "3V1 = Va + aVb + a²Vc and 3I2 = Ia + a²Ib + aIc, and 3V2 likewise, are
# formed at scale 16384 and each component is rounded by 16384."


def positive_at_scale(a: Phasor, b: Phasor, c: Phasor) -> Phasor:
    return plus(plus(times(ONE, a), times(A, b)), times(A2, c))


def negative_at_scale(a: Phasor, b: Phasor, c: Phasor) -> Phasor:
    return plus(plus(times(ONE, a), times(A2, b)), times(A, c))


def positive(a: Phasor, b: Phasor, c: Phasor) -> Phasor:
    """3V1 of Va, Vb, Vc."""
    return both_rounded(positive_at_scale(a, b, c), 16384)


def negative(a: Phasor, b: Phasor, c: Phasor) -> Phasor:
    """3V2 of Va, Vb, Vc, or 3I2 of Ia, Ib, Ic."""
    return both_rounded(negative_at_scale(a, b, c), 16384)


def reaches_pickup(i2: Phasor, pickup: int) -> bool:
    # "Direction is none if |3I2|² is below the square of its pickup."
    return not squared(i2) < fits(pickup**2)


def T(line: Line, v2: Phasor, i2: Phasor) -> int:
    # "Otherwise let T = Re[3V2 (D 3I2)*]."
    return times(v2, conjugate(times(line.D, i2))).re


NONE, FORWARD, REVERSE = 0, 1, 2  # "0 none, 1 forward, 2 reverse"


def direction(line: Line, v2: Phasor, i2: Phasor) -> int:
    if not reaches_pickup(i2, line.pickup):
        return NONE
    # "It is forward if T < zf |3I2|², reverse if T > zr |3I2|², else none."
    t = T(line, v2, i2)
    forward_limit = fits(line.zf * squared(i2))
    reverse_limit = fits(line.zr * squared(i2))
    if t < forward_limit:
        return FORWARD
    if t > reverse_limit:
        return REVERSE
    return NONE


# ---- Mho loops (source document 002, Equation 1) ---------------------------

class Loop(NamedTuple):
    name: str
    v: Phasor
    i: Phasor
    vp: Phasor


# "loops AG 1, BG 2, CG 4, AB 8, BC 16, CA 32"
BITS = {'AG': 1, 'BG': 2, 'CG': 4, 'AB': 8, 'BC': 16, 'CA': 32}
GROUND_LOOPS, PHASE_LOOPS = ('AG', 'BG', 'CG'), ('AB', 'BC', 'CA')


def k_product(line: Line, i: list[Phasor]) -> Phasor:
    """k(Ia+Ib+Ic), in thousandths."""
    ia, ib, ic = i
    return times(line.k, plus(plus(ia, ib), ic))


def loops(line: Line, v: list[Phasor], i: list[Phasor]) -> list[Loop]:
    """The six loops of the phasors of end 1, in the order of their bits."""
    va, vb, vc = v
    ia, ib, ic = i
    # "Ground loop AG: V = Va, I = Ia + k(Ia+Ib+Ic), where each component of
    # the k product is rounded by 1000."
    k3i0 = both_rounded(k_product(line, i), 1000)
    # "Polarising quantities: P = 3V1 for AG, a²P for BG, aP for CG (rounded by
    # 16384), and for the phase loops minus j times these: aP for AB, P for BC,
    # a²P for CA, where aP and a²P are rounded first and minus j rounds
    # nothing."
    p = positive(va, vb, vc)
    ap = both_rounded(times(A, p), 16384)
    a2p = both_rounded(times(A2, p), 16384)
    # "Phase loop AB: V = Va-Vb, I = Ia-Ib. Others by turn; CA is c minus a."
    return [
        Loop('AG', va, plus(ia, k3i0), p),
        Loop('BG', vb, plus(ib, k3i0), a2p),
        Loop('CG', vc, plus(ic, k3i0), ap),
        Loop('AB', minus(va, vb), minus(ia, ib), minus_j_times(ap)),
        Loop('BC', minus(vb, vc), minus(ib, ic), minus_j_times(p)),
        Loop('CA', minus(vc, va), minus(ic, ia), minus_j_times(a2p)),
    ]


class NM(NamedTuple):
    """What a loop is judged by, at any reach."""
    n: int
    m: int


def n_and_m(line_z: Phasor, loop: Loop) -> NM:
    # "With n = Re(V Vp*) and m = Re(Z I Vp*), Z in thousandths"
    n = times(loop.v, conjugate(loop.vp)).re
    m = times(times(line_z, loop.i), conjugate(loop.vp)).re
    return NM(n, m)


def by_loop(line: Line, v: list[Phasor], i: list[Phasor]) -> dict[str, NM]:
    """n and m of the six loops, by name."""
    return {loop.name: n_and_m(line.Z, loop) for loop in loops(line, v, i)}


def asserts(r: int, loop: NM) -> bool:
    # "the loop asserts exactly when m > 0 and 1000000 n <= r m"
    left, right = fits(1000000 * loop.n), fits(r * loop.m)
    return loop.m > 0 and left <= right


def loop_bits(r: int, of_loops: dict[str, NM]) -> int:
    """The loops that assert at this reach."""
    return sum(BITS[name] for name, loop in of_loops.items()
               if asserts(r, loop))


def zone_bits(line: Line, of_loops: dict[str, NM]) -> tuple[int, int]:
    """The loop bits of the first zone and of the second."""
    first = loop_bits(line.r, of_loops)
    # Document 02, CR 2: "0 is off". "Records from before read as off."
    second = 0 if line.r2 == OFF else loop_bits(line.r2, of_loops)
    return first, second


# ---- One window ------------------------------------------------------------

def measure(record: bytes, numbers: list[int]) -> dict:
    """Everything above for one window.

    A window with a missing sample is refused; its other entries are those of
    -32768 taken as a number. 'line' and 'numbers' are what was measured.
    """
    given = line(record)
    by_channel = phasors(numbers, given.ends)
    # "Only end 1 is used, here and in the loops."
    v, i = by_channel[0:3], by_channel[3:6]
    v2, i2 = negative(*v), negative(*i)
    of_loops = by_loop(given, v, i)
    first, second = zone_bits(given, of_loops)
    return {
        'line': given,
        'numbers': numbers,
        'missing': first_missing(numbers),
        'phasors': by_channel,
        'v1': positive(*v),
        'v2': v2,
        'i2': i2,
        'reaches': reaches_pickup(i2, given.pickup),
        'direction': direction(given, v2, i2),
        'by_loop': of_loops,
        'loops': first,
        'second zone': second,
    }
