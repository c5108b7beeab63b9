"""Named inputs for the window program of document 01, each with what it should
print, so that a name cannot lie: check() holds them against model/program.py.
STORED names those that driving/expected.py stores. All of them are run by
driving/compare_program.py.

The record is the document's, but for what is named.
"""
from typing import Iterator, NamedTuple

from cases.building import (ENDS, HIGH, LARGEST, LINE, as_data, exact, turned,
                            window, without)
from cases.program_windows import (AG, FAULTS, HEALTHY, INTERNAL, LOAD, NONE,
                                   by_end, fed, opposite, quiet, resistive,
                                   reversed_, through)
from cases.records import ANOTHER, SAMPLE, flip, put
from cases.trying import QUIET
from cases.windows import extreme
from model.measuring import BITS, length
from model.program import run


class Case(NamedTuple):
    name: str
    data: bytes
    prints: str


# ---- Inputs, and what is printed for them ----------------------------------

def entered(*windows: list[int], record: bytes = SAMPLE) -> bytes:
    """Good entries, then windows."""
    return record + record + b''.join(map(as_data, windows))


def settings(number: int, place: int) -> str:
    return f'settings refused {number} at {place}\n'


def refused(number: int, place: int) -> str:
    return f'refused {number} at {place}'


def decided(trip: int, diff: int, mho: int, towards: int) -> str:
    return f'trip {trip} diff {diff} mho {mho} dir {towards}'


NOTHING = decided(0, 0, 0, 0)


def printed(*windows: str) -> str:
    return ''.join(f'window {number} {text}\n'
                   for number, text in enumerate(windows, 1))


# ---- Entries ---------------------------------------------------------------

def proposals() -> Iterator[Case]:
    """Each confirmed, and with a window after it that is not reached."""
    def case(name: str, record: bytes, place: int) -> Case:
        return Case(f'proposal_{name}', entered(quiet(), record=record),
                    settings(6, place))

    yield case('range', put(SAMPLE, 2, HIGH[2] + 1), 2)
    yield case('spare', flip(SAMPLE, 31, 1), 31)
    yield case('squares', put(SAMPLE, 18, 998), 18)
    yield case('limits', put(SAMPLE, 20, 300), 22)
    yield case('second_reach', put(SAMPLE, 26, 849), 26)
    yield case('resistive_reach', put(SAMPLE, 28, 1001), 28)


def confirmations() -> Iterator[Case]:
    def case(name: str, confirmation: bytes, place: int) -> Case:
        return Case(name, SAMPLE + confirmation + as_data(quiet()),
                    settings(8, place))

    yield case('confirmation_differs', ANOTHER, 3)
    yield case('confirmation_differs_first', flip(SAMPLE, 0, 128), 0)
    yield case('confirmation_differs_last', flip(SAMPLE, 31, 1), 31)


def entries() -> Iterator[Case]:
    yield Case('empty', b'', settings(5, 0))
    yield Case('good_entries', entered(), '')
    yield Case('example', entered(quiet()), printed(NOTHING))
    yield from proposals()
    yield from confirmations()


# ---- Windows that are refused ----------------------------------------------

def missing() -> Iterator[Case]:
    fault, last = through(*AG), length(2) - 1
    for name, place in (('first', 0), ('last', last)):
        yield Case(f'missing_{name}', entered(without(fault, [place])),
                   printed(refused(4, place)))
    yield Case('missing_then_good', entered(without(fault, [9]), fault),
               printed(refused(4, 9), decided(1, 0, 1, 1)))
    yield Case('missing_two', entered(without(fault, [37, 100])),
               printed(refused(4, 37)))


def other_lengths() -> Iterator[Case]:
    fault = through(*AG)
    shown = printed(decided(1, 0, 1, 1), refused(2, 0))
    yield Case('odd_byte_over', entered(fault) + b'\x00', shown)
    yield Case('window_cut_at_number', entered(fault, fault[:50]), shown)


# ---- Loops, direction, phases, trip ----------------------------------------

def of_loops() -> Iterator[Case]:
    for name, fault in FAULTS.items():
        yield Case(f'loop_{name}', entered(through(*fault)),
                   printed(decided(1, 0, BITS[name.upper()], 1)))
    yield Case('no_loop', entered(through(HEALTHY, LOAD)), printed(NOTHING))


def directions() -> Iterator[Case]:
    """None: nothing of negative sequence, then no voltage of it."""
    yield Case('forward', entered(through(*FAULTS['bg'])),
               printed(decided(1, 0, BITS['BG'], 1)))
    yield Case('reverse', entered(through(*reversed_(FAULTS['bg']))),
               printed(decided(0, 0, 0, 2)))
    windows = [through(HEALTHY, amps) for amps in (LOAD, turned(1, (0, 900)))]
    yield Case('direction_none', entered(*windows), printed(NOTHING, NOTHING))


def phases() -> Iterator[Case]:
    for phase, name in enumerate('abc'):
        numbers = fed(NONE, turned(phase, INTERNAL))
        yield Case(f'phase_{name}', entered(numbers),
                   printed(decided(1, 1 << phase, 0, 0)))
    yield Case('three_phases', entered(fed(HEALTHY, LOAD)),
               printed(decided(1, 7, 0, 0)))


def trips() -> Iterator[Case]:
    # At the largest reach BG and CG see the fault too.
    far = put(SAMPLE, 10, HIGH[10])
    yield Case('trip_by_distance', entered(through(*FAULTS['bc']), record=far),
               printed(decided(1, 0, 16 + 2 + 4, 1)))
    # Both limits lie ahead of the fault, where Z2 is -1000.
    limits = put(put(SAMPLE, 20, -2000), 22, -1500)
    yield Case('loop_but_reverse', entered(through(*AG), record=limits),
               printed(decided(0, 0, 1, 2)))
    yield Case('forward_but_no_loop',
               entered(through(*AG), record=put(SAMPLE, 10, 550)),
               printed(decided(0, 0, 0, 1)))


def second_zone() -> Case:
    """At 600 thousandths of the replica: out of the first reach, in the
    second. Nothing is printed of it, and it does not trip."""
    record = put(put(SAMPLE, 10, 550), 26, 850)
    return Case('second_zone', entered(
        through(*AG), through(*reversed_(AG)), fed(*AG), record=record),
        printed(decided(0, 0, 0, 1), decided(0, 0, 0, 2),
                decided(1, 1, 0, 1)))


def balanced() -> Case:
    """A fault on all three phases at 600 thousandths of the replica: in front
    it trips, although there is no direction; behind it does not."""
    volts = [(600, 0), (-300, -520), (-300, 520)]
    amps = [(0, -1000), (-867, 500), (867, 500)]
    return Case('balanced', entered(
        through(volts, amps), through(volts, opposite(amps)),
        fed(volts, amps)), printed(
            decided(1, 0, 63, 0), NOTHING, decided(1, 7, 63, 0)))


def quadrilaterals() -> Iterator[Case]:
    """Out of the circle's reach. R is just enough on each phase, then too
    little; then the fault is behind, and then fed from both ends."""
    windows = [*(through(*resistive(phase, 1000)) for phase in range(3)),
               through(*resistive(0, 1001)),
               through(*reversed_(resistive(0, 1000))),
               fed(*resistive(0, 1000))]
    for name, R, bits, beyond in (
            ('quadrilateral', 10, (8, 16, 32), 0),
            ('quadrilateral_wide', 18, (56, 56, 56), 56),
            ('quadrilateral_off', 0, (0, 0, 0), 0)):
        lines = [decided(int(bit > 0), bit, 0, 1) for bit in (*bits, beyond)]
        yield Case(name, entered(*windows, record=put(put(
            SAMPLE, 10, 700), 28, R)), printed(*lines, decided(0, 0, 0, 2),
                                               decided(1, 1 + bits[0], 0, 1)))


# The paper mill: 100 into the line at end 1, 40 out of it at end 2. By slope,
# whether it trips.
OUTFEED = window([*[QUIET] * 3, exact((100, 0)), QUIET, QUIET,
                  exact((-40, 0))], 2)
SLOPES = {15: 1, 50: 0}


def of_slope(slope: int) -> bytes:
    return put(put(SAMPLE, 2, slope), 4, 60)


def paper_mill() -> Iterator[Case]:
    for slope, trip in SLOPES.items():
        yield Case(f'paper_mill_{slope}',
                   entered(OUTFEED, record=of_slope(slope)),
                   printed(decided(trip, trip, 0, 0)))


def outfeed() -> Iterator[Case]:
    """The same after a quiet window, for examples/."""
    for slope, trip in SLOPES.items():
        yield Case(f'outfeed_slope_{slope}',
                   entered(quiet(), OUTFEED, record=of_slope(slope)),
                   printed(NOTHING, decided(trip, trip, 0, 0)))


# ---- More ends, more windows -----------------------------------------------

def more_ends() -> Iterator[Case]:
    """Nothing; load; a fault behind the last end; one on phase b, fed from all
    ends; one on phase c, fed from the last; one that all elements see."""
    for ends, name in zip(ENDS[1:], ('three', 'four', 'five', 'six')):
        record = put(SAMPLE, 0, ends)
        last_only = [*[NONE] * (ends - 1), turned(2, INTERNAL)]
        yield Case(f'{name}_ends', entered(
            quiet(ends), through(HEALTHY, LOAD, ends), through(*AG, ends),
            fed(NONE, turned(1, INTERNAL), ends), by_end(NONE, last_only),
            fed(*AG, ends), record=record), printed(
                NOTHING, NOTHING, decided(1, 0, 1, 1), decided(1, 2, 0, 0),
                decided(1, 4, 0, 0), decided(1, 1, 1, 1)))
    last = length(ends) - 1
    yield Case(f'{name}_ends_missing_last',
               entered(without(quiet(ends), [last]), record=record),
               printed(refused(4, last)))


def many_windows() -> Case:
    """Each fault, in front and behind, with some missing."""
    numbers, shown = [], []
    for at, (name, fault) in enumerate(FAULTS.items()):
        numbers += [through(*fault), through(*reversed_(fault)),
                    without(quiet(), [10 * at])]
        shown += [decided(1, 0, BITS[name.upper()], 1), decided(0, 0, 0, 2),
                  refused(4, 10 * at)]
    return Case('many_windows', entered(*numbers), printed(*shown))


def extremes() -> Case:
    """What is constant, and what changes at each number, has no phasor."""
    count = length(2)
    changing = [LARGEST if at % 2 == 0 else -LARGEST for at in range(count)]
    waves = [extreme(LINE, *shifts, turn=4).numbers for shifts in (
        ('alike', 'alike'), ('ACB', 'ACB'), ('ACB', 'ABC'))]
    return Case('extremes', entered(
        [LARGEST] * count, [-LARGEST] * count, changing, *waves), printed(
            NOTHING, NOTHING, NOTHING, decided(1, 7, 0, 0),
            decided(1, 7, 41, 1), decided(1, 7, 47, 2)))


# ---- One input, cut at every byte ------------------------------------------

# By how many bytes are left: cuts with names of their own, which are stored.
NAMED_CUTS = {31: 'proposal_cut', 63: 'confirmation_cut'}


def cuts() -> Iterator[Case]:
    whole = entered(fed(*AG))
    for size in range(len(whole) + 1):
        if size < len(entered()):
            shown = settings(5, 0)
        elif size == len(entered()):
            shown = ''
        elif size < len(whole):
            shown = printed(refused(2, 0))
        else:
            shown = printed(decided(1, 1, 1, 1))
        name = NAMED_CUTS.get(size, f'cut_{size:03}')
        yield Case(name, whole[:size], shown)


# ---- All of them -----------------------------------------------------------

ONE_BY_ONE = [*entries(), *missing(), *other_lengths(), *of_loops(),
              *directions(), *phases(), *trips(), second_zone(), balanced(),
              *quadrilaterals(), *paper_mill(), *more_ends(), many_windows(),
              extremes()]
CASES = [*ONE_BY_ONE, *cuts()]
INPUTS = {case.name: case.data for case in CASES}
STORED = [*(case.name for case in ONE_BY_ONE), *NAMED_CUTS.values()]
EXAMPLES = {case.name: case.data for case in outfeed()}


def check() -> None:
    """That model/program.py prints for each what its name says."""
    assert len(INPUTS) == len(CASES)
    for name, data, prints in (*CASES, *outfeed()):
        assert run(data) == prints.encode('ascii'), name
