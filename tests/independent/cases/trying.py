"""What currents.py and equalities.py build with: a window of currents, and the
pairs (K, pickup) at the edges of its phases."""
from typing import Iterable, NamedTuple

from cases.building import HIGH, LOW, largest, of_phases
from cases.windows import first_change
from model.differential import by_phase, operates, root_down, root_up

Tries = list[tuple[int, int]]       # pairs (K, pickup)
QUIET = [0] * 16
# Large, so that a voltage taken for a current would show.
VOLTS = [largest(0), largest(11), largest(5)]


class Currents(NamedTuple):
    label: str
    ends: int
    numbers: list[int]
    tries: Tries


# ---- What to try on a window -----------------------------------------------

def largest_slope(s: int, U: int) -> int:
    """The largest K at which a phase operates with pickup 1; 0 if none."""
    if operates(HIGH[2], 1, s, U):
        return HIGH[2]
    found = first_change(lambda K: operates(K, 1, s, U), LOW[2], HIGH[2])
    return 0 if found is None else found - 1


def possible(tries: Iterable[tuple[int, int]]) -> Tries:
    return [(K, pickup) for K, pickup in sorted(set(tries))
            if LOW[2] <= K <= HIGH[2] and LOW[4] <= pickup <= HIGH[4]]


def edges(ends: int, numbers: list[int]) -> Tries:
    """Both sides of each edge of each phase. Where a pickup is equal, also
    the one below."""
    found = [(LOW[2], LOW[4])]
    for phase in by_phase(numbers, ends):
        K = largest_slope(phase.s, phase.U)
        found += [(K, LOW[4]), (K + 1, LOW[4])]
        pickups = range(root_up(phase.s) - 1, root_down(phase.s) + 2)
        found += [(max(K, LOW[2]), pickup) for pickup in pickups]
    return possible(found)


def with_edges(label: str, currents: list[list[list[int]]],
               volts: list[list[int]] = VOLTS,
               more: Iterable[tuple[int, int]] = ()) -> Currents:
    """The window of these currents, given by phase and end."""
    ends, numbers = len(currents[0]), of_phases(volts, currents)
    return Currents(label, ends, numbers,
                    possible([*edges(ends, numbers), *more]))
