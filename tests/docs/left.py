"""Holds what docs/RULES.md and the manual say that each answer of a call leaves, of the state and of the lent room, to the independent
program, which makes a call for each answer."""
import re
from functools import cache
from typing import NamedTuple

import manual
import rules
from header import HEADER, answers, state_offsets
from tree import faults, read
from worked import relay

from model import decision, feeding, settings  # of tests/independent, where worked.py looks

_, PENDING, COUNT, NUMBERS, LENGTH = state_offsets()
GOOD = bytes.fromhex('0002000F0064000003E80352029B0000000003E8FED4012C0032000000000000')  # of document 01: two ends
CHANNELS, FRAMES, MISSING = 9, 16, -32768
SAMPLES = 2 * CHANNELS * FRAMES  # the bytes of a window of two ends


def with_field(record, at, number):
    return record[:at] + number.to_bytes(2, 'big') + record[at + 2:]


def to_bytes(numbers):
    return b''.join((number % 65536).to_bytes(2, 'big') for number in numbers)


class Call(NamedTuple):
    """What a call was lent, the number and the place that it gave back, and what it left."""
    state: bytes
    lent: bytes  # an entry, a window or a frame
    room: bytes
    number: int
    place: int
    state_after: bytes
    room_after: bytes


def call(name, state, lent, room=b''):
    """A call of the independent program."""
    if name == 'read_back':
        given = settings.read_back(state, room)
        return Call(state, lent, room, given.number, given.place, given.state, given.other)
    if name in ('propose', 'confirm'):
        given = getattr(settings, name)(state, lent)
        return Call(state, lent, room, given.number, given.place, given.state, room)
    after, given = feeding.feed(state, lent, len(room)) if name == 'feed' else (state, decision.decide(state, lent, len(room)))
    written = given.written or b''
    return Call(state, lent, room, given.number, given.place, after, written + room[len(written):])


@cache
def made():
    """Each call with each of its answers, on a relay with two records and a window of numbers that tell their places."""
    pending, other, bad = (with_field(GOOD, 2, slope) for slope in (50, 42, 0))
    window, frame, room = to_bytes(range(1000, 1000 + (LENGTH - NUMBERS) // 2)), to_bytes(range(50, 50 + CHANNELS)), bytes(range(100, 140))
    samples, missing = window[:SAMPLES], to_bytes([MISSING])

    def state(force=GOOD, waiting=pending, count=FRAMES):
        return force + waiting + to_bytes([count]) + window

    slices = {
        'propose': [(state(), other), (state(), other[1:]), (state(), bad), (state()[1:], other)],
        'confirm': [(state(), pending), (state(), pending[1:]), (state(waiting=bad), bad), (state(), other), (state()[1:], pending)],
        'read_back': [(state(), b'', room), (state(force=bad), b'', room), (state(), b'', room[:31]), (state()[1:], b'', room)],
        'decide': [(state(), samples, room), (state(force=bad), samples, room), (state(), samples[1:], room), (state(), samples, room[:31]),
                   (state(), missing + samples[2:], room), (state()[1:], samples, room)],
        'feed': [(state(), frame, room), (state(count=15), frame, room), (state(count=200), frame, room), (state(count=3), frame, room),
                 (state(), frame[2:] + missing, room), (state(force=bad), frame, room), (state(), frame[1:], room), (state(), frame, room[:31]),
                 (state()[1:], frame, room)],
    }
    return {name: [call(name, *lent) for lent in each] for name, each in slices.items()}


# What a cell of the tables says that a part of the state, or the room, is after a call


def moved_on(c):
    """The window with the frame that was lent: counted, the oldest frame gone, the numbers behind as they were."""
    count = int.from_bytes(c.state[COUNT:NUMBERS], 'big')
    frames, behind = c.state[NUMBERS:NUMBERS + SAMPLES], c.state[NUMBERS + SAMPLES:]
    return to_bytes([min(count + 1, FRAMES)]) + frames[len(c.lent):] + c.lent + behind


def decided(c):
    """The decision on the window that was lent, or on the 16 frames with the one that was lent."""
    window = c.lent if len(c.lent) == SAMPLES else moved_on(c)[NUMBERS - COUNT:][:SAMPLES]
    return decision.decide(relay(c.state[:PENDING]), window, 32).written + c.room[32:]


CELLS = {
    '': lambda c, before: b'',
    'as before': lambda c, before: before,
    'the entry': lambda c, before: c.lent,
    'nothing: 32 zero bytes': lambda c, before: bytes(32),
    f'empty: {LENGTH - COUNT} zero bytes': lambda c, before: bytes(LENGTH - COUNT),
    'moved on': lambda c, before: moved_on(c),
    'first 32 bytes: the record; others as before': lambda c, before: c.state[:32] + before[32:],
    'first 32 bytes: the decision; others as before': lambda c, before: decided(c),
}
# Of the table above feed in the header: the whole state, and the room
FEED_CELLS = {
    'as it was: the frame is not kept': lambda c: c.state,
    'the frame is kept': lambda c: c.state[:COUNT] + moved_on(c),
    'as it was': lambda c: c.room,
    'as it was: no decision': lambda c: c.room,
    'first 32 bytes: the decision': decided,
}


def as_told(c, rows):
    """Whether the one row with a call's answer has what it left of the record in force, the pending one, the window and the room."""
    cuts = slice(PENDING), slice(PENDING, COUNT), slice(COUNT, None)
    before, after = ([state[cut] for cut in cuts] + [room] for state, room in ((c.state, c.room), (c.state_after, c.room_after)))
    return len(rows) == 1 and all(cell in CELLS for cell in rows[0]) and [CELLS[cell](c, part) for cell, part in zip(rows[0], before)] == after


def above_feed():
    """The table above feed in the header: each answer with its cells."""
    _, _, table = manual.comments().get('feed', '').partition('**   answer ')
    rows = re.findall(r'^\*\*   ((?:\d+, )*\d+) {2,}(\S.*?) {2,}(\S.*)$', table, flags=re.MULTILINE)
    return [(number, cells) for answer, *cells in rows for number in rules.numbers(answer)]


def check_zeros():
    """The bytes that the comments above propose and confirm call zero after an answer of 0, and after a refusal; 17 changes nothing."""
    count = 0
    for name in ('propose', 'confirm'):
        done, _, refused = manual.words(manual.comments()[name]).partition('Refused')
        for c in [c for c in made()[name] if c.number != 17 and (c.number or name == 'confirm')]:
            zeros = re.search(r'bytes (\d+) to (\d+)(?: of the state)? are zero', refused if c.number else done)
            first, end = (int(zeros[1]), int(zeros[2]) + 1) if zeros else (0, 0)
            before = (c.state if c.number else c.lent)[:first]
            count += 1
            if not zeros or c.state_after != before + bytes(end - first) + c.state[end:]:
                faults.append(f'{HEADER}: {name} answered {c.number} leaves other bytes zero than its comment says')
    return count


def check_left():
    """Each row, for every answer of every call."""
    columns = 'call', 'answer', 'in force then', 'pending then', 'window then', 'lent room then'
    rows = [(name, number, cells) for name, answer, *cells in rules.columns(*columns) for number in rules.numbers(answer)]
    for name, calls in made().items():
        if {c.number for c in calls} != answers()[name].keys():
            faults.append(f'{name}: the independent program gives {sorted({c.number for c in calls})}; the source has {sorted(answers()[name])}')
        for c in calls:
            told = [cells for calls, number, cells in rows if name in calls.split(', ') and number == c.number]
            if not as_told(c, told):
                faults.append(f'{rules.PAGE}: {name} answered {c.number} does not leave {told}')
    if sorted(number for number, _ in above_feed()) != sorted(answers()['feed']):
        faults.append(f'{HEADER}: the table above feed has the answers {[number for number, _ in above_feed()]}')
    for c in made()['feed']:
        told = [cells for number, cells in above_feed() if number == c.number]
        if [[FEED_CELLS.get(cell, repr)(c) for cell in cells] for cells in told] != [[c.state_after, c.room_after]]:
            faults.append(f'{HEADER}: feed answered {c.number} does not leave {told}')
    return len(rows) + len(above_feed()) + check_kept() + check_zeros()


def check_kept():
    """Which answers of feed keep the frame, wherever that is said in a sentence."""
    changed = {c.number for c in made()['feed'] if c.state_after != c.state}
    first, last = ', '.join(map(str, sorted(changed)[:-1])), max(changed)
    not_kept = ', '.join(str(number) for number in answers()['feed'] if number not in changed)
    page, text = ' '.join(read(rules.PAGE).split()), manual.plain('FRAME BY FRAME')
    said = [(rules.PAGE, page, f'those answered {first} or {last} |'),
            (rules.PAGE, page, f'Feed keeps a frame that it answers with {first} or {last}, and no other.'),
            (HEADER, text, f'After {first} and {last} go on with the next frame'), (HEADER, text, f'({not_kept}: not kept)')]
    faults.extend(f'{path}: it does not say "{words}"' for path, told, words in said if words not in told)
    return len(said)
