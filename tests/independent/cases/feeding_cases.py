"""The calls of feed that are compared, in their histories: the ones that CR 1
to CR 4, CR 6 and CR 7 of document 02 suggest, one by one.

Most are long runs through one relay. A state that no run would leave is lent
as it is.
"""
from itertools import chain, cycle, islice, product
from typing import Iterator

from cases import (balanced, changes, chosen, decision_checks, quadrilateral,
                   records, resistive_reach, roots, second_reach)
from cases.building import (ENDS, HIGH, LARGEST, LINE, as_data, largest,
                            record, window)
from cases.decide_cases import ENOUGH, SMALL, repeated, strong
from cases.frames import (BEHIND, Frame, entered, faults, feeds, frames, good,
                          holding, load, missing_at, sizes_beside, steady,
                          through, wave)
from cases.records import FRESH, ROOM
from cases.second_zone import TOWARDS
from cases.steps import History
from model.differential import slope
from model.measuring import FRAMES, channels
from model.settings import NOTHING, OFF, RECORD, STATE

COUNTS = (0, 1, 14, 15, 16, 17, 200, 255, 256, 65535)
OTHER_STATES = (0, 63, 64, 65, STATE - 1, STATE + 1, 256 + STATE)


def room(size: int) -> bytes:
    return repeated(b'\x5a', size)


# ---- Changes, roots, balanced faults, and quadrilaterals -------------------

def held_and_fed(label: str, entry: bytes, numbers: list[int]) -> History:
    """A window as a steady wave that the relay holds, and the frame with which
    it is this window again."""
    given = frames(numbers, slope(entry).ends)
    held = holding(FRAMES, steady(given, FRAMES, FRAMES - 1))
    return History(records.relay(entry, NOTHING, held), feeds(given[-1:]),
                   label)


def of_changes() -> Iterator[History]:
    """And for each N a window with every slope."""
    for found in chain(changes.fixed(), islice(changes.each_slope(),
                                               len(ENDS))):
        for label, entry, numbers in chosen.tried(found):
            yield held_and_fed(label, entry, numbers)


def of_roots() -> Iterator[History]:
    for label, line, numbers in roots.fixed():
        yield held_and_fed(label, record(line), numbers)


def of_balanced() -> Iterator[History]:
    for found in balanced.fixed():
        yield held_and_fed(*found)


def of_quadrilaterals() -> Iterator[History]:
    """And for each N a window with many R."""
    at_many = chain.from_iterable(quadrilateral.each_resistance(every=False))
    for found in chain(quadrilateral.fixed(), at_many):
        yield held_and_fed(*found)


# ---- Faults that come frame by frame ---------------------------------------

def faults_coming() -> Iterator[History]:
    """Load, a fault, load again, and so on through one relay. A fault comes
    at another place of the wave each time."""
    for ends in ENDS:
        before, steps, at = load(ends), entered(good(ends)), 0
        for _, fault in faults(ends):
            for current, count in ((before, 20), (fault, 21)):
                steps += feeds(steady(current, count, at))
                at += count
        yield History(FRESH, steps, f'faults coming, {ends} ends')


def windows_fed() -> Iterator[History]:
    """Each hand check frame by frame. A confirmation before each empties the
    window, and often changes N."""
    steps = []
    for _, entry, numbers in decision_checks.windows():
        steps += entered(entry) + feeds(frames(numbers, slope(entry).ends))
    yield History(FRESH, steps, 'hand checks fed')


def extremes() -> Iterator[History]:
    """The largest numbers, and numbers of which the mark's bytes are a part
    but that are not missing."""
    for ends in ENDS:
        width = channels(ends)
        pairs = ([LARGEST, LARGEST], [-LARGEST, -LARGEST], [LARGEST, -LARGEST],
                 [128, 1], [-128, 0], [128, -LARGEST])
        flat = [as_data((pair * width)[:width]) for pair in pairs]
        squares = frames(window([largest(shift) for shift in range(width)],
                                ends), ends)
        steps = entered(good(ends))
        for frame in flat:
            steps += feeds([frame] * FRAMES)
        steps += feeds(squares) + feeds(flat * 4)
        yield History(FRESH, steps, f'extremes, {ends} ends')


# ---- The second zone -------------------------------------------------------

def second_zone() -> Iterator[History]:
    """Faults one after another in each direction, at 300 thousandths of the
    line: only the second zone sees them, both zones do, or none."""
    for ends in ENDS:
        passing = [wave(ends, fault, infeed=through(ends))
                   for fault in ('ag', 'bg', 'cg', 'ab', 'bc', 'ca')]
        fed, steps = wave(ends, 'ag'), []
        for (towards, limits), (r, r2) in product(TOWARDS.items(), (
                (200, 400), (400, 400), (200, OFF), (200, HIGH[26]))):
            line = LINE._replace(ends=ends, r=r, r2=r2, **limits)
            every = towards == 'forward' and r2 == 400
            steps += entered(record(line))
            for given in [*(passing if every else passing[:1]), fed]:
                steps += feeds(given)
        yield History(FRESH, steps, f'second zone, {ends} ends')


# ---- Missing samples -------------------------------------------------------

def missing_passing() -> Iterator[History]:
    """A sample of each channel missing, through all places until it is
    gone."""
    for ends in ENDS:
        given, at = load(ends), FRAMES
        steps = entered(good(ends)) + feeds(given)
        for index in range(channels(ends)):
            some = steady(given, FRAMES + 2, at)
            steps += feeds([missing_at(some[0], [index]), *some[1:]])
            at += len(some)
        yield History(FRESH, steps, f'missing, {ends} ends')


def patterns(ends: int) -> Iterator[dict[int, list[int]]]:
    """Channels missing, by frame: several in one frame, in the next, in many;
    the later ones at lower channels, and at higher ones."""
    last = channels(ends) - 1
    yield {0: [0, last]}
    yield {0: list(range(last + 1))}
    yield {0: [last - 1, 3, 4]}
    yield {0: [last], 1: [0]}
    yield {0: [2], 1: [last], 2: [1]}
    yield {0: [5], 7: [0, 8], 15: [2]}
    yield {0: [5], 16: [6], 33: [0]}
    yield {n: [n % (last + 1)] for n in range(20)}
    yield {n: [last - n % (last + 1)] for n in range(20)}
    yield {n: list(range(last + 1)) for n in range(17)}


def with_pattern(given: list[Frame], at: dict[int, list[int]]) -> list[Frame]:
    return [missing_at(frame, at.get(n, [])) for n, frame in enumerate(given)]


def several_missing() -> Iterator[History]:
    """The first in order is named, and when it is gone the next."""
    for ends in ENDS:
        steps = entered(good(ends)) + feeds(load(ends))
        for at in patterns(ends):
            count = max(at) + FRAMES + 2
            steps += feeds(with_pattern(steady(load(ends), count), at))
        yield History(FRESH, steps, f'several missing, {ends} ends')


def missing_at_first() -> Iterator[History]:
    """Among the first sixteen frames after a confirmation."""
    for ends in ENDS:
        steps, count = [], FRAMES + 4
        for n in range(FRAMES):
            index = 5 * n % channels(ends)
            for at in ({n: [index]}, {n: [index], 15: [0]}):
                steps += entered(good(ends)) + feeds(
                    with_pattern(steady(load(ends), count), at))
        yield History(FRESH, steps, f'missing at first, {ends} ends')


# ---- Other calls in between ------------------------------------------------

def confirmations(ends: int) -> Iterator[list]:
    """Answered 0: of the same record, of one with another slope, of one with
    another N. At the end the line's own record is in force."""
    other = ENDS[ends % len(ENDS)]
    another = records.put(good(ends), 2, 30)
    yield entered(good(ends))
    yield entered(another) + entered(good(ends))
    yield [*entered(good(other)), *feeds(load(other)[:5]),
           *entered(good(ends))]


def beside(ends: int) -> Iterator[list]:
    """What leaves the window: proposals right and wrong, refused
    confirmations, windows decided on, read-backs."""
    own = good(ends)
    another = good(ENDS[ends % len(ENDS)])
    yield [('propose', another)]
    yield [('propose', records.put(own, 2, 0))]
    yield [('propose', own[:31])]
    yield [('confirm', own)]
    yield [('confirm', own + b'\0')]
    yield [('propose', another), ('confirm', own)]
    yield [('propose', own), ('confirm', records.flip(own, 31, 1))]
    yield [('propose', own), ('confirm', b''), ('confirm', own)]
    fault = b''.join(wave(ends, 'abc'))
    yield [('decide', ROOM, fault), ('decide', ROOM, fault[:-2]),
           ('decide', b'', fault), ('read_back', ROOM), ('read_back', b'')]
    yield [('decide', ROOM, missing_at(fault, [7]))]


def calls_between() -> Iterator[History]:
    """Each with so many frames held, from none to more than 16; then it goes
    on."""
    for ends in ENDS:
        given, steps = load(ends), entered(good(ends))
        for held in range(FRAMES + 3):
            kinds = chain(confirmations(ends), beside(ends))
            for kind, between in enumerate(kinds):
                # Every kind with one frame, with fifteen, with sixteen; with
                # the other counts one in three.
                if held in (1, 15, 16) or (held + kind) % 3 == 0:
                    steps += entered(good(ends)) + feeds(steady(given, held))
                    steps += between + feeds(steady(given, 2, held))
        yield History(FRESH, steps, f'calls between, {ends} ends')


def refused_between() -> Iterator[History]:
    """Before each frame the same one cut or filled, and with little room;
    from the first frame on."""
    for ends in ENDS:
        steps, other = entered(good(ends)), cycle(sizes_beside(ends))
        for n, frame in enumerate(steady(load(ends), FRAMES + 4)):
            steps += feeds([repeated(frame, next(other))])
            steps += feeds([frame], room(SMALL[n % 2])) + feeds([frame])
        yield History(FRESH, steps, f'refused between, {ends} ends')


# ---- What competes ---------------------------------------------------------

def order() -> Iterator[History]:
    """Everything that is refused with everything else, for each N. A good
    record is pending."""
    small, enough, counts = cycle(SMALL), cycle(ENOUGH), cycle(COUNTS)
    behind = cycle(BEHIND)
    for ends in ENDS:
        bad, other = records.put(good(ends), 2, 0), cycle(sizes_beside(ends))
        states = [(STATE, count) for count in COUNTS]
        states += [(size, next(counts)) for size in OTHER_STATES]
        fault = frames(strong(ends), ends)
        oldest_missing = [missing_at(fault[0], [0]), *fault[1:]]
        later_missing = [*fault[:9], missing_at(fault[9], [4]), *fault[10:]]
        for (size, count), in_force, wrong, tight, held, gone in product(
                states, (good(ends), bad, NOTHING), (False, True),
                (False, True), (fault, oldest_missing, later_missing),
                ([], [1])):
            state = records.relay(in_force, good(ends),
                                  holding(count, held, next(behind)))
            frame = missing_at(fault[3], gone)
            yield History(
                records.cut_or_filled(state, size),
                feeds([repeated(frame, next(other)) if wrong else frame],
                      room(next(small if tight else enough))),
                f'order: state of {size} bytes, in force {in_force.hex()}, '
                f'count {count}, another length: {wrong}, missing {gone}')


def lengths() -> Iterator[History]:
    """Frames of other lengths before right ones, and frames with each little
    room and each larger one."""
    for ends, count in product(ENDS, COUNTS):
        state = records.relay(good(ends), NOTHING,
                              holding(count, load(ends), BEHIND[1]))
        right, steps = wave(ends, 'ag'), []
        for n, size in enumerate(sizes_beside(ends)):
            steps += feeds([repeated(right[n % FRAMES], size)])
            if n % 4 == 3:
                steps += feeds([right[n // 4]])
        for n, size in enumerate((*SMALL, 1, *ENOUGH, 300, 4096, 65568)):
            steps += feeds([right[n]], room(size))
        yield History(state, steps, f'lengths, {ends} ends, count {count}')


def stored() -> Iterator[History]:
    """Records at the edges of the rules found in force, with a frame of their
    own length where N is not far off, and what may be pending."""
    for in_force in chain(records.field_edges(), records.limit_edges(),
                          records.spare_bytes(), second_reach.records(),
                          resistive_reach.records()):
        ends = int.from_bytes(in_force[:2], 'big')
        given = frames(strong(ends), ends) if ends in ENDS else load(2)
        yield History(records.relay(in_force, good(2), holding(16, given)),
                      feeds(given[:2]), 'in force, at an edge')
    kinds = (good(2), good(6), NOTHING, records.put(good(2), 30, 1),
             b'\xff' * RECORD)
    for (in_force, pending), ends in product(product(kinds, kinds), ENDS):
        yield History(
            records.relay(in_force, pending, holding(15, load(ends))),
            [*feeds(load(ends)[:2]), ('confirm', pending),
             *feeds(load(ends)[:2])], 'in force and pending')


def counts() -> Iterator[History]:
    """Every count up to 20 and the larger ones, with each N, over a wave and
    over numbers that are no wave, all missing among them."""
    every = sorted({*range(21), *COUNTS, 4096, 32767, 32768})
    for ends, count, behind in product(ENDS, every, BEHIND):
        given = load(ends)
        yield History(records.relay(good(ends), good(2),
                                    holding(count, given, behind)),
                      feeds(steady(given, 20)),
                      f'count {count}, {ends} ends')
        yield History(records.relay(good(ends), good(2),
                                    holding(count, [], behind)),
                      feeds(steady(given, 18)),
                      f'count {count}, no wave, {ends} ends')


def fixed() -> Iterator[History]:
    return chain(of_changes(), of_roots(), of_balanced(), of_quadrilaterals(),
                 faults_coming(), windows_fed(), extremes(), second_zone(),
                 missing_passing(), several_missing(), missing_at_first(),
                 calls_between(), refused_between(), order(), lengths(),
                 stored(), counts())
