"""What the compared feeds showed for each N, and what all of them together should have shown: every answer, also where a refusal that
stands later in the order would have come too; every count of frames; every bit of a decision; a missing sample on its way; and what
the other calls do to a window that was fed."""
from collections import Counter
from itertools import product

from cases.building import ENDS, as_data
from driving.reach_seen import RESISTIVE, SECOND, on_or_off
from driving.tally import all_bits, bits
from model.feeding import frame_size, frames_held, newest
from model.measuring import FRAMES, MISSING, channels
from model.settings import COUNT, IN_FORCE, PENDING, RECORD, STATE, WINDOW, absent

# "Order 1, 9, 3, 10, 4", with document 01's 17 "before all others".
ORDER = (17, 1, 9, 3, 10, 4)
KEPT = (0, 4, 10)
COUNTS = [*range(FRAMES + 1), 'more than 16']
# Calls that leave a window as it was fed, with their answers.
LEAVING = {'propose': (0, 5, 6), 'confirm': (5, 7, 8), 'decide': (0, 2, 3, 4), 'read_back': (0, 3)}
CONFIRMED = ('the same record', 'another record', 'another N')


def ends_of(made):
    """N as the record in force has it, good or not; else as the frame's length has it; 0 if neither tells."""
    of_record = int.from_bytes(made.state[:2], 'big')
    by_size = {frame_size(ends): ends for ends in ENDS}
    return of_record if of_record in ENDS else by_size.get(len(made.step.samples or b''), 0)


def has_missing(data):
    """Whether one of these numbers is missing; a last odd byte is none."""
    mark, at = as_data([MISSING]), 0
    while (at := data.find(mark, at)) % 2 == 1 and at >= 0:
        at += 1
    return at >= 0


def held(state):
    """The count before a frame."""
    count = int.from_bytes(state[COUNT], 'big')
    return count if count <= FRAMES else COUNTS[-1]


def reasons(made, ends):
    """The refusals for which there is a reason, whichever of them is given."""
    in_force, frame = made.state[IN_FORCE], made.step.samples
    found = {
        17: len(made.state) != STATE,
        1: len(in_force) != RECORD or absent(in_force),
        9: len(frame) != frame_size(ends),
        3: len(made.step.other) < RECORD,
        10: frames_held(made.state) + 1 < FRAMES,
        4: has_missing(newest(made.state, ends)) or has_missing(frame)}
    return [number for number in ORDER if found[number]]


def of_feed(made, ends):
    """What one feed shows by itself."""
    number = made.wanted.number
    yield f'answer {number}'
    yield from (f'answer {number}, reason for {later}' for later in reasons(made, ends) if later != number)
    if number in KEPT:
        yield f'kept, count {held(made.state)}'
        yield f'answer {number}, count {held(made.state)}'
    elif number in (9, 3):
        yield f'answer {number}, count {held(made.state)}'
    if number == 0:
        yield from (f'{reach.name} {on_or_off(reach, made.state[IN_FORCE])}' for reach in (SECOND, RESISTIVE))
        yield from bits(made.wanted.other)


def after_4(made, before, ends):
    """What a feed shows that comes after one answered 4."""
    if made.wanted.number == 0:
        yield 'after 4: none missing any more'
    elif made.wanted.number == 4:
        fell = made.wanted.place == before.wanted.place - channels(ends)
        yield 'after 4: its place falls by a frame' if fell else 'after 4: the next missing one is named'


def of_other(made):
    """What another call shows that finds a window as a feed left it, with frames in it."""
    call, number = made.step.call, made.wanted.number
    if (call, number) == ('confirm', 0):
        before, now = made.state[IN_FORCE], made.state[PENDING]
        kind = CONFIRMED[0 if now == before else 1 if now[:2] == before[:2] else 2]
        yield f'a confirmation of {kind} empties what was fed'
    elif made.wanted.state[WINDOW] == made.state[WINDOW]:
        yield f'{call} {number} leaves what was fed'


def wanted():
    """For each N."""
    yield from (f'answer {number}' for number in (*ORDER, 0))
    yield from (f'answer {number}, reason for {later}' for at, number in enumerate(ORDER) for later in ORDER[at + 1:])
    yield from (f'kept, count {count}' for count in COUNTS)
    yield from (f'answer {number}, count {count}' for number, count in product((9, 3), COUNTS))
    yield from (f'answer {number}, count {count}' for number, count in product((0, 4), COUNTS[FRAMES - 1:]))
    yield from (f'{reach.name} {state}' for reach in (SECOND, RESISTIVE) for state in ('off', 'on'))
    yield from all_bits()
    yield from ('after 4: none missing any more', 'after 4: its place falls by a frame', 'after 4: the next missing one is named')
    yield from (f'a confirmation of {kind} empties what was fed' for kind in CONFIRMED)
    yield from (f'{call} {number} leaves what was fed' for call, numbers in LEAVING.items() for number in numbers)


class FedTally:
    def __init__(self):
        self.seen = {ends: Counter() for ends in ENDS}
        self.fed = None     # the last feed that kept its frame

    def add(self, made):
        ends = ends_of(made)
        if not ends:
            return
        if made.step.call != 'feed':
            if self.fed and made.state[WINDOW] == self.fed.wanted.state[WINDOW]:
                self.seen[ends].update(of_other(made))
            return
        self.seen[ends].update(of_feed(made, ends))
        if self.fed and self.fed.wanted.number == 4 and made.state == self.fed.wanted.state:
            self.seen[ends].update(after_4(made, self.fed, ends))
        if made.wanted.number in KEPT:
            self.fed = made

    def report(self):
        """How often each answer was seen for each N; gives what is at fault."""
        every = list(wanted())
        for ends, seen in self.seen.items():
            numbers = ', '.join(f'{number}: {seen[f"answer {number}"]}' for number in (*ORDER, 0))
            print(f'feed, {ends} ends: {numbers}; {sum(seen[what] > 0 for what in every)} of {len(every)} things to be seen')
            yield from (f'feed, {ends} ends: {what}: never seen' for what in every if not seen[what])
