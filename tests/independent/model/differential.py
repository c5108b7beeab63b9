"""The rules of document 01 for the percentage differential, in its order and
words, with the slope c at which a phase changes of document 02, CR 6.

All arithmetic is in whole numbers, roots too. Comments in quotes are the
document's own sentences.
"""
import functools
import struct
from typing import NamedTuple

from model import measuring
from model.measuring import Phasor, channel, fits, phasor_of, plus, squared
from model.settings import first_fault

# ---- Whole roots -----------------------------------------------------------

# Document 02, CR 3, has the library work its root out "from the root of a
# quarter of the number". The way here is another one, and is to stay so.

def root_down(n: int) -> int:
    """The floor of the root: the largest whole number whose square is at most
    n."""
    assert n >= 0
    root = 1 << (n.bit_length() + 1) // 2   # not below the root
    # The mean of a number above the root and n over it is less than that
    # number, and cut to a whole one not below the floor of the root.
    while root * root > n:
        root = (root + n // root) // 2
    assert root * root <= n < (root + 1) * (root + 1)
    return root


def root_up(n: int) -> int:
    """The smallest whole number whose square is at least n."""
    root = root_down(n)
    return root if root * root == n else root + 1


# ---- Settings record -------------------------------------------------------

class Slope(NamedTuple):
    """The settings used here."""
    ends: int
    K: int       # "slope K, percent"
    pickup: int  # "differential pickup, counts"


def slope(record: bytes) -> Slope:
    """What a good record says."""
    # "32 bytes, no header, all fields 16-bit big-endian." At 0, 2 and 4.
    assert first_fault(record) is None
    return Slope(*struct.unpack('>HHH', record[:6]))


# ---- Percentage differential (source documents 000 and 003) ----------------

def s(phasors) -> int:
    # "Per phase, the differential is the sum of the N phasors, s its squared
    # magnitude."
    total = Phasor(0, 0)
    for of_end in phasors:
        total = plus(total, of_end)
    return squared(total)


def U(phasors) -> int:
    # "The restraint U is the sum over ends of the smallest whole number whose
    # square is at least 4096 times that end's squared magnitude, so in
    # sixty-fourths of a count, rounded up."
    return in_32_bits(sum(root_up(fits(4096 * squared(of_end)))
                          for of_end in phasors))


def operates(K: int, pickup: int, s: int, U: int) -> bool:
    # "The phase operates exactly when s >= pickup² and 40960000 s > (K U)²."
    left, right = fits(40960000 * s), fits((K * U)**2)
    return s >= fits(pickup**2) and left > right


# "slope K, percent | 1 to 100"
SLOPES = range(1, 100 + 1)


# It is the same for every K in force, so the last ones are kept.
@functools.lru_cache(maxsize=4096)
def slope_of_change(pickup: int, s: int, U: int) -> int:
    """The number c of a phase. Each slope is tried."""
    # Document 02, CR 6: "Each phase gets a number c from 0 to 99, in decision
    # bytes 5, 6 and 7: with all else equal the phase operates exactly for
    # slopes 1 to c."
    operating = [K for K in SLOPES if operates(K, pickup, s, U)]
    c = len(operating)
    assert operating == list(range(1, c + 1)) and c <= 99
    return c


# Demand 3, whose numbers have no largest.
#
# "Demand 3 in whole numbers, over the unrounded sums A and B of each end in
# the phase: for each m >= 1 let L be the sum over ends of the floors of the
# roots of m²(A² + B²), H = L + N, and F the floor of the root of m² times (the
# square of the sum of all A plus the square of the sum of all B)."
# They are the same for every K, so the last ones are kept.

@functools.lru_cache(maxsize=64)
def L(m: int, sums: tuple[Phasor, ...]) -> int:
    return sum(root_down(m**2 * (A**2 + B**2)) for A, B in sums)


def H(m: int, sums: tuple[Phasor, ...]) -> int:
    return L(m, sums) + len(sums)


@functools.lru_cache(maxsize=64)
def F(m: int, sums: tuple[Phasor, ...]) -> int:
    all_A, all_B = sum(A for A, B in sums), sum(B for A, B in sums)
    return root_down(m**2 * (all_A**2 + all_B**2))


# "196608 is one and a half times 131072."
BAND = 196608


def first_half(K: int, m: int, sums: tuple[Phasor, ...],
               band: int = BAND) -> bool:
    """Holds for every m if the phase operates."""
    # "If a phase operates, 100(F + 1 + 196608Nm) > K L for every m."
    N = len(sums)
    return 100 * (F(m, sums) + 1 + band * N * m) > K * L(m, sums)


def second_half(K: int, m: int, sums: tuple[Phasor, ...],
                band: int = BAND) -> bool:
    """If this holds for some m and s >= pickup², the phase operates."""
    # "If s >= pickup² and for some m, 100F >= K H + 19660800Nm, it operates."
    N = len(sums)
    return 100 * F(m, sums) >= K * H(m, sums) + 100 * band * N * m


# ---- Decision record -------------------------------------------------------

def in_32_bits(number: int) -> int:
    # "U of a, b, c, 32-bit big-endian"
    assert 0 <= number < 2**32
    return number


def differential(s: int) -> int:
    # "floor of the root of 4096 s, for a, b, c, 32-bit"
    return in_32_bits(root_down(fits(4096 * s)))


# ---- One window ------------------------------------------------------------

class Phase(NamedTuple):
    sums: tuple[Phasor, ...]     # A and B of each end, unrounded
    phasors: tuple[Phasor, ...]  # of each end
    s: int
    U: int
    differential: int


def of_ends(samples: list[list[int]]) -> Phase:
    """A phase, of the 16 samples of each end."""
    sums = tuple(measuring.sums(of_end) for of_end in samples)
    phasors = tuple(phasor_of(of_end) for of_end in sums)
    squared_sum = s(phasors)
    return Phase(sums=sums, phasors=phasors, s=squared_sum, U=U(phasors),
                 differential=differential(squared_sum))


@functools.lru_cache(maxsize=64)
def of_window(numbers: tuple[int, ...], ends: int) -> tuple[Phase, ...]:
    # "each with Va, Vb, Vc, then Ia, Ib, Ic of end 1 (the local end), then of
    # end 2, up to end N"
    return tuple(of_ends([channel(numbers, ends, 3 + 3 * end + phase)
                          for end in range(ends)]) for phase in range(3))


def by_phase(numbers: list[int], ends: int) -> list[Phase]:
    """The phases a, b, c. They are the same at every slope, so the last ones
    are kept."""
    return list(of_window(tuple(numbers), ends))


def phases_operating(record: bytes, phases: list[Phase]) -> int:
    """Bits 1, 2 and 4 of byte 1 of the decision."""
    _, K, pickup = slope(record)
    # "phases a=1, b=2, c=4"
    return sum(bit for bit, phase in zip((1, 2, 4), phases)
               if operates(K, pickup, phase.s, phase.U))


def slopes_of_change(record: bytes, phases: list[Phase]) -> list[int]:
    """Bytes 5, 6 and 7 of the decision: c of a, b and c."""
    _, K, pickup = slope(record)
    found = [slope_of_change(pickup, phase.s, phase.U) for phase in phases]
    # So a phase operates at K in force exactly if that is at most its c.
    assert phases_operating(record, phases) == sum(
        bit for bit, c in zip((1, 2, 4), found) if K <= c)
    return found
