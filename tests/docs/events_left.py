"""Holds what docs/RULES.md and the manual say that each answer of a call for event files leaves, of the relay, of the reader and of the lent
room, to the independent program, which makes a call for each answer."""
import re
from functools import cache
from typing import NamedTuple

import event_files
import left
import manual
import rules
from header import HEADER, answers, channels
from tree import faults

from model import events  # of tests/independent, where worked.py looks

TABLES = {'events_open': ('reader',), 'events_read': ('state', 'reader', 'out'), 'events_end': ('reader',)}  # those above the calls
COLUMNS = {'state': 'relay then', 'reader': 'reader then', 'out': 'lent room then'}  # those of docs/RULES.md
ROOM = bytes(range(100, 140))


class Event(NamedTuple):
    """What a call was lent, the number that it gave back, and what it left. Of an answer that can come in two ways, which of them."""
    number: int
    way: str
    lent: bytes  # the bytes of a file, or a frame
    told: tuple  # what else the caller said: ends and status channels
    before: dict  # the slices that the call may change
    after: dict


def opening(reader, ends, status):
    after, given = events.open_file(reader, ends, status)
    return Event(given.number, '', b'', (ends, status), {'reader': reader}, {'reader': after})


def reading(state, reader, piece, room=ROOM):
    wanted, over = events.wanted(reader), len(reader) == events.READER and events.ended(reader)
    step = event_files.read(state, reader, piece, room)
    way = 'whole' if len(piece) >= wanted else 'not whole'
    if step.number:
        way = 'again' if over else 'now found' if step.number == 12 else ''
    return Event(step.number, way, piece, (), {'state': state, 'reader': reader, 'out': room},
                 {'state': step.state, 'reader': step.reader, 'out': step.out})


def ending(reader):
    after, given = events.end(reader)
    over = len(reader) == events.READER and events.ended(reader)
    way = 'again' if over else 'now found' if given.number == 11 else ''
    return Event(given.number, way, b'', (), {'reader': reader}, {'reader': after})


def writing(ends, written, frame, room):
    given = events.write(ends, written, 1250, frame, len(room))
    made = given.written or b''
    return Event(given.number, '', frame, (ends, written), {'out': room}, {'out': made + room[len(made):]})


def at_byte(reader, at, *values):
    return reader[:at] + bytes(values) + reader[at + len(values):]


@cache
def made():
    """Each call with each of its answers, on a relay with a window of numbers that tell their places, and on a reader that is in the midst of
    a record and holds an earlier one, with bytes behind that tell theirs."""
    window = left.to_bytes(range(1000, 1000 + (left.LENGTH - left.NUMBERS) // 2))

    def state(force=left.GOOD, count=left.FRAMES):
        return force + left.with_field(left.GOOD, 2, 50) + left.to_bytes([count]) + window

    def reader(ends=2, status=0, held=0, record=b''):
        return bytes([ends, status, 0, held, 6, 0, 0, 0]) + bytes(range(150, 150 + 48)) + record[:held] + bytes(range(104 - held))

    frame = left.to_bytes(range(50, 50 + left.CHANNELS))
    record, wrong = (event_files.record(2, number, 1250, frame) for number in (7, 8))
    lost = event_files.record(2, 7, 1250, frame[2:] + left.to_bytes([left.MISSING]))
    three = event_files.record(3, 7, 1250, left.to_bytes(range(50, 62)))
    groups = record + b'\x12\x34\x56\x78'  # of 17 status channels
    bad = left.with_field(left.GOOD, 2, 0)
    ended = [at_byte(reader(), 2, 12), at_byte(reader(), 2, 11), at_byte(reader(), 2, 5), at_byte(reader(), 3, 26), bytes(events.READER)]
    return {
        'events_open': [opening(reader(), 2, 0), opening(reader(), 6, 96), opening(reader(), 7, 0), opening(reader(), 65538, 0),
                        opening(reader(), 2, 97), opening(ended[0], 2, 0), opening(reader()[1:], 2, 0)],
        'events_read': [reading(state(), reader(), record), reading(state(), reader(held=9, record=record), record[9:] + wrong),
                        reading(state(), reader(status=17), groups), reading(state(count=15), reader(), record),
                        reading(state(count=3), reader(), record), reading(state(), reader(), lost), reading(state(force=bad), reader(), record), reading(state(), reader(ends=3), three),
                        reading(state(), reader(), record, ROOM[:31]), reading(state(), reader(), record[:3]), reading(state(), reader(), b''),
                        reading(state(), reader(held=9, record=record), record[9:-1]), reading(state(), reader(), wrong[:4]),
                        reading(state(), reader(), wrong + wrong), reading(state(), reader(held=2, record=wrong), wrong[2:5]),
                        *(reading(state(), each, record) for each in ended), reading(state()[1:], reader(), record),
                        reading(state(), reader()[1:], record)],
        'events_end': [ending(reader()), ending(reader(held=1, record=record)), ending(reader(held=25, record=record)), *map(ending, ended),
                       ending(reader()[1:])],
        'events_write': [writing(2, 0, frame, ROOM), writing(2, 4294967294, frame, ROOM[:26]), writing(7, 0, frame, ROOM),
                         writing(2, 0, frame[1:], ROOM), writing(2, 0, frame, ROOM[:25]), writing(2, 4294967295, frame, ROOM)],
    }


# What a cell of the tables says that a slice is after a call


def in_hand(c):
    """The reader with the bytes that it takes behind those in hand, and how many there are then."""
    before, held = c.before['reader'], c.before['reader'][3]
    taken = c.lent[:26 + 6 * (before[0] - 2) + 2 * (-(-before[1] // 16)) - held]
    return at_byte(before, 56 + held, *taken), held + len(taken)


def taken(c):
    reader, have = in_hand(c)
    return at_byte(reader, 3, have)


def turned(some):
    return b''.join(some[at:at + 2][::-1] for at in range(0, len(some), 2))


def held(c):
    """The reader with a whole record: nothing in hand, its number, its time and its frame."""
    reader, _ = in_hand(c)
    record = reader[56:]
    return at_byte(reader, 3, 0, *record[:4], *record[4:8][::-1], *turned(record[8:8 + 2 * channels(reader[0])]))


def fed(c):
    """The relay's part of a call with a whole record: as a call of feed with its frame."""
    frame = held(c)[12:12 + 2 * left.CHANNELS]
    return left.Call(c.before['state'], frame, c.before['out'], c.number, 0, b'', b'')


def written(c):
    ends, before = c.told
    record = (before + 1).to_bytes(4, 'little') + (1250).to_bytes(4, 'little') + turned(c.lent)
    return record + c.before['out'][len(record):]


MEANT = {
    'as it was': lambda c, before: before,
    'zeros': lambda c, before: bytes(events.READER),
    'opened': lambda c, before: bytes(c.told).ljust(events.READER, b'\0'),
    'taken': lambda c, before: taken(c),
    'ended': lambda c, before: at_byte(in_hand(c)[0], 2, 12),
    'inside': lambda c, before: at_byte(before, 2, 11),
    'held': lambda c, before: held(c),
    'kept': lambda c, before: before[:left.COUNT] + left.moved_on(fed(c)),
    'decided': lambda c, before: left.decided(fed(c)),
    'written': lambda c, before: written(c),
}
# The words for it in the manual, and in docs/RULES.md
CELLS = {
    'as it was': 'as it was', 'as it was: no decision': 'as it was', '160 zero bytes: a reader that was never opened': 'zeros',
    'ends in byte 0, status in byte 1, and 158 zero bytes': 'opened', 'the bytes are taken': 'taken', 'it has ended': 'ended',
    'byte 2 is 11, and all others are as they were': 'inside', 'the record is read': 'held', 'the frame is kept': 'kept',
    'first 32 bytes: the decision': 'decided',
    'as before': 'as it was', 'zero bytes alone': 'zeros', 'ends, status channels, then zero bytes': 'opened', 'has the bytes in hand': 'taken',
    'has the bytes; byte 2 is 12': 'ended', 'as before, but byte 2 is 11': 'inside', 'holds the record': 'held', 'window moved on': 'kept',
    'first 32 bytes: the decision; others as before': 'decided', 'first bytes: the record; others as before': 'written',
}


def of_row(answer, c):
    """Whether a call's answer is one of those that a row names: numbers, and in which way they came."""
    way = re.sub(r'\d+(?:, )?', '', answer)
    return c.number in rules.numbers(answer) and way in ('', c.way)


def check_rows(where, name, rows):
    """Each call of a kind has one row, whose cells say what it left; each row has a call; and together they have every answer."""
    for c in made()[name]:
        told = [{slice_: cell for slice_, cell in cells.items() if slice_ in c.after} for answer, cells in rows if of_row(answer, c)]
        found = [{slice_: MEANT[CELLS[cell]](c, c.before[slice_]) if cell in CELLS else cell for slice_, cell in cells.items()} for cells in told]
        if found != [c.after]:
            faults.append(f'{where}: {name} answered {c.number} {c.way} does not leave {told}')
    idle = [answer for answer, _ in rows if not any(of_row(answer, c) for c in made()[name])]
    faults.extend(f'{where}: {name} does not give "{answer}"' for answer in idle)
    return len(rows)


def above(name):
    """The table above a call in the header: each answer with its cells, by the slice that they are of."""
    _, _, table = manual.comments().get(name, '').partition('**   answer ')
    rows = re.findall(r'^\*\*   (\d+(?:, (?:\d+|[a-z]+(?: [a-z]+)?))*) {2,}(\S.*)$', table, flags=re.MULTILINE)
    return [(answer, dict(zip(TABLES[name], re.split(r' {2,}', cells)))) for answer, cells in rows]


def on_page(name):
    rows = rules.columns('call', 'answer', *COLUMNS.values())
    return [(answer, {slice_: cell for slice_, cell in zip(COLUMNS, cells)}) for calls, answer, *cells in rows if name in calls.split(', ')]


def check_left():
    """Both places, for every answer of every call."""
    for name, calls in made().items():
        found, wanted = sorted({c.number for c in calls}), sorted(answers().get(name, {}))
        if found != wanted:
            faults.append(f'{name}: the independent program gives {found}; the source has {wanted}')
    return (sum(check_rows(HEADER, name, above(name)) for name in TABLES) + sum(check_rows(rules.PAGE, name, on_page(name)) for name in made())
            + check_writer())


def check_writer():
    """What the comment above events_write says that it leaves."""
    said = ['Done (0): the record stands at the front of out; later bytes stay as they were.', 'Refused: nothing is written to out.']
    faults.extend(f'{HEADER}: events_write does not say "{words}"' for words in said if words not in manual.plain_comment('events_write'))
    for c in made()['events_write']:
        if c.after['out'] != (c.before['out'] if c.number else written(c)):
            faults.append(f'{HEADER}: events_write answered {c.number} does not leave what its comment says')
    return len(said)
