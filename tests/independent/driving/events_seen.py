"""What a call of open, wanted, end or write shows, and what all of them together should: every answer with a reason for each later one,
each limit from both sides, each kind of reader, each place within a record."""
from itertools import product

from cases.building import ENDS
from cases.event_files import GROUPS, LAST, READER, STATUS, TIMES, groups, size
from cases.event_refusals import OTHER_ENDS, OTHER_STATUS
from cases.event_writing import BEFORE, PAST
from model.events import ended
from model.feeding import frame_size

LENGTHS = (0, READER - 1, READER + 1)
# Readers, as a call finds them.
KINDS = ('between records', 'within a record', 'of zero bytes', '13 by byte 2', '13 by the ends', '13 by the status channels',
         '13 by a count equal to the size', '13 by a count above it', '12', '12 with bad bytes', '11', '11 with bad bytes')
ORDER = ('13', '9', '3', '12')      # of the writer


def kind(reader):
    """Of a reader of its own length."""
    ends, status, end, count = reader[:4]
    bad = ends not in ENDS or status > 96 or count >= size(ends, status)
    if end in (11, 12):
        return f'{end} with bad bytes' if bad else str(end)
    if not any(reader):
        return KINDS[2]
    if ended(reader) is None:
        return KINDS[1 if count else 0]
    if end:
        return KINDS[3]
    if ends not in ENDS or status > 96:
        return KINDS[4 if ends not in ENDS else 5]
    return KINDS[6 if count == size(ends, status) else 7]


def of_length(made):
    length = len(made.reader)
    yield f'a reader of {length if length in LENGTHS else "another number of"} bytes'


def of_open(made):
    (ends, status), number = made.step.numbers, made.wanted.number
    good_ends, good_status = ends in ENDS, status <= 96
    if number == 17:
        yield from (f'17, {what}' for what in of_length(made))
        yield f'17, reason for 13: {not (good_ends and good_status)}'
        return
    yield f'{number} over a reader: {kind(made.reader)}'
    if number == 0:
        yield from (f'{ends} ends', f'{status} status channels')
    elif good_status:
        yield f'13 for {ends} ends'
    elif good_ends:
        yield f'13 for {status} status channels'
    else:
        yield '13 for both'


def of_reader(made):
    """What wanted and end show of a reader."""
    if len(made.reader) != READER:
        yield from of_length(made)
    else:
        yield kind(made.reader)


def of_wanted(made):
    yield from of_reader(made)
    if made.wanted.number:
        yield f'{made.reader[0]} ends, {groups(made.reader[1])} groups: {made.wanted.number}'


def of_end(made):
    yield from of_reader(made)
    if len(made.reader) == READER and ended(made.reader) is None:
        ends, count, index = made.reader[0], made.reader[3], int.from_bytes(made.reader[4:8], 'little')
        yield f'{made.wanted.number}, index {index if index in (0, 1, LAST - 1, LAST) else "another"}'
        if count:
            yield f'{ends} ends: 11 after {count} bytes'


def of_write(made):
    (ends, before, time), number = made.step.numbers, made.wanted.number
    frame, room = len(made.step.samples), len(made.step.other)
    near = ends if ends in ENDS else ends % 256 if ends % 256 in ENDS else 2
    own, right = size(near), frame_size(near)
    found = {'13': ends not in ENDS, '9': frame != right, '3': room < own, '12': before >= LAST}
    answer = str(number) if number else 'done'
    name = f'{ends} ends' if ends in ENDS else 'other ends'
    yield f'{name}: {answer}'
    yield from (f'{name}: {answer}, reason for {later}' for later in ORDER if found[later] and later != answer)
    if number == 13:
        yield f'13 for {ends} ends'
    if number == 9:
        yield f'{name}: a frame of {frame - right if abs(frame - right) <= 2 else "none" if not frame else "far other"} bytes more'
        yield from (f'{name}: a frame of {other} ends' for other in ENDS if frame == frame_size(other))
    if number in (0, 3):
        yield f'{name}: {answer}, room {room - own if abs(room - own) <= 1 else "far"} beside'
        yield f'{answer}, room of 32 bytes: {room >= 32}'
    if number == 0:
        yield from (f'{name}: number {before + 1}', f'time {time}')
        yield from ('a missing sample' for at in range(0, frame, 2) if made.step.samples[at:at + 2] == b'\x80\0')
    if number == 12:
        yield f'12 for {before} before'


OF_CALL = {'open': of_open, 'wanted': of_wanted, 'end': of_end, 'write': of_write}


def shown(made):
    return (f'{made.step.call}: {what}' for what in OF_CALL[made.step.call](made))


# ---- What all of them together should show ---------------------------------

def lengths():
    return [f'a reader of {length} bytes' for length in (*LENGTHS, 'another number of')]


def wanted_of_open():
    yield from (f'17, {length}' for length in lengths())
    yield from (f'17, reason for 13: {either}' for either in (False, True))
    yield from (f'{number} over a reader: {found}' for number, found in product((0, 13), KINDS))
    yield from (f'{ends} ends' for ends in ENDS)
    yield from (f'{status} status channels' for status in range(97))
    yield from (f'13 for {ends} ends' for ends in OTHER_ENDS)
    yield from (f'13 for {status} status channels' for status in OTHER_STATUS)
    yield '13 for both'


def wanted_of_wanted():
    yield from (*lengths(), *KINDS)
    yield from (f'{ends} ends, {count} groups: {bytes_}' for ends, count in product(ENDS, GROUPS)
                for bytes_ in range(1, size(ends, 16 * count) + 1))


def wanted_of_end():
    yield from (*lengths(), *KINDS)
    yield from (f'{number}, index {index}' for number, index in product((0, 11), (0, 1, LAST - 1, LAST, 'another')))
    yield from (f'{ends} ends: 11 after {count} bytes' for ends in ENDS for count in range(1, size(ends, 1)))


def wanted_of_write():
    for ends in ENDS:
        yield from (f'{ends} ends: {answer}' for answer in (*ORDER[1:], 'done'))
        yield from (f'{ends} ends: {ORDER[at]}, reason for {later}' for at in (1, 2) for later in ORDER[at + 1:])
        yield from (f'{ends} ends: a frame of {more} bytes more' for more in (-2, -1, 1, 2, 'none', 'far other'))
        yield from (f'{ends} ends: a frame of {other} ends' for other in ENDS if other != ends)
        yield from (f'{ends} ends: {answer}, room {beside} beside' for answer, beside in (
            ('done', 0), ('done', 1), ('done', 'far'), ('3', -1), ('3', 'far')))
        yield from (f'{ends} ends: number {before + 1}' for before in BEFORE)
    yield from ('other ends: 13', *(f'other ends: 13, reason for {later}' for later in ORDER[1:]))
    yield from (f'13 for {ends} ends' for ends in OTHER_ENDS)
    yield from ('done, room of 32 bytes: False', '3, room of 32 bytes: True', 'a missing sample')
    yield from (f'12 for {before} before' for before in PAST)
    yield from (f'time {time}' for time in TIMES)


def wanted():
    for call, things in (('open', wanted_of_open), ('wanted', wanted_of_wanted), ('end', wanted_of_end), ('write', wanted_of_write)):
        yield from (f'{call}: {what}' for what in things())


assert {groups(status) for status in STATUS} == set(GROUPS)
