"""What a read of an event file shows, and what all of them together should: every answer with a reason for each later one, for each N and
each count of status groups; every place at which a piece may end or begin; sample numbers right and wrong; pieces and rooms of all kinds.

A reader or a state of another length is looked at as if it were cut or filled."""
from itertools import product

from cases.building import ENDS
from cases.event_files import GROUPS, LAST, READER, STATUS, groups, size
from cases.records import cut_or_filled
from driving.fed_tally import has_missing
from model.decision import PHASE_BITS
from model.events import ended
from model.feeding import frames_held, newest
from model.measuring import FRAMES, channels
from model.quadrilateral import QUADRILATERALS
from model.settings import IN_FORCE, STATE, absent

# "Checked in that order"; "they stand before CR 1's". 17 is before all others.
SLICES = ('17 by the state', '17 by the reader')
ENDING = ('13 again', '12 again', '11 again')
ORDER = (*SLICES, *ENDING, '12', '1', '9', '3', '10', '4')
FED = ('1', '9', '3', '10', '4', 'decided')
INDEXES = (0, 1, 255, 65535, LAST - 1, LAST)
WRONG = ('0', 'one less', 'one more', 'its bytes turned', *(f'byte {at} alone' for at in range(4)))
TIMES = (0, 1, 2**31, LAST)


class Parts:
    """What a read was lent, by its parts."""

    def __init__(self, made):
        self.made, self.number = made, made.wanted.number
        self.state, self.reader = cut_or_filled(made.state, STATE), cut_or_filled(made.reader, READER)
        self.piece, self.room = made.step.samples, len(made.step.other)
        self.ends, self.status, _, self.count = self.reader[:4]
        self.index = int.from_bytes(self.reader[4:8], 'little')
        self.over = ended(self.reader)
        self.size = size(self.ends, self.status)
        self.hand = self.reader[56:56 + self.count] + self.piece[:max(0, self.size - self.count)]
        self.line = int.from_bytes(self.state[:2], 'big')   # N of the record in force, good or not

    def sample_number(self):
        return int.from_bytes(self.hand[:4], 'little') if len(self.hand) >= 4 else None

    def missing(self):
        """The channels that are missing, as far as they are there: 8000 hex, low byte first."""
        return [at for at in range(channels(self.ends)) if self.hand[8 + 2 * at:10 + 2 * at] == b'\0\x80']

    def whole(self):
        return len(self.hand) >= self.size

    def reasons(self):
        """The refusals for which there is a reason, whichever of them is given."""
        in_force = self.state[IN_FORCE]
        found = {
            SLICES[0]: len(self.made.state) != STATE, SLICES[1]: len(self.made.reader) != READER,
            **{f'{number} again': bool(self.over) and self.over[0] == number for number in (13, 12, 11)},
            '12': self.sample_number() not in (None, self.index + 1), '1': absent(in_force), '9': self.ends != self.line,
            '3': self.room < 32, '10': frames_held(self.state) + 1 < FRAMES,
            '4': bool(self.missing()) or self.line in ENDS and has_missing(newest(self.state, self.line))}
        return [name for name in ORDER if found[name]]

    def answer(self):
        """By the words of ORDER; a 0 is "taken" or "decided"."""
        if self.number == 17:
            return next(name for name in self.reasons() if name in SLICES)
        if self.over:
            return f'{self.number} again'
        if self.number == 0:
            return 'decided' if self.whole() else 'taken'
        return str(self.number)


def wrong(number, right):
    """What a wrong number is instead of the right one."""
    four, wanted = (some.to_bytes(4, 'little') for some in (number, right % 2**32))
    unlike = [at for at in range(4) if four[at] != wanted[at]]
    found = {'0': number == 0, 'one less': number == right - 1, 'one more': number == right + 1, 'its bytes turned': four == wanted[::-1],
             **{f'byte {at} alone': unlike == [at] for at in range(4)}}
    return [name for name in WRONG if found[name]]


def of_number(parts):
    """Of a read that has the four bytes, or three of a wrong number."""
    number, right = parts.sample_number(), parts.index + 1
    if parts.number == 12:
        yield from (f'number {name}' for name in wrong(number, right))
        yield f'12 with {min(len(parts.hand), 5)} bytes in hand, after {min(parts.count, 4)}'
        yield f'12 at index {parts.index}'
        if parts.index == LAST:
            yield from (f'after the last number {name}' for name, some in (('0', 0), ('1', 1), ('the last', LAST)) if some == number)
        if not parts.piece:
            yield '12 by an empty piece'
    elif number == right:
        yield f'number right at index {parts.index}'
    elif len(parts.hand) == 3 and parts.hand != right.to_bytes(5, 'little')[:3]:
        yield 'three bytes of a wrong number are taken'


def of_piece(parts, answer):
    """How the piece and the room are beside what is wanted."""
    beyond = len(parts.piece) - (parts.size - parts.count)
    if not parts.piece:
        yield f'empty piece, {"within" if parts.count else "between"} records: {answer}'
    if answer in FED:
        longer = 'as many' if beyond == 0 else 'one more' if beyond == 1 else 'more'
        yield f'{longer} bytes than wanted: {answer}'
        yield from (f'a piece of {some} bytes or more' for some in (256, 65536, 131072) if len(parts.piece) >= some)
    if answer in ('taken', 'decided', '12'):
        yield f'{answer}, room of {parts.room if parts.room in (0, 31, 32, 33) else "another size"}'


def of_record(parts):
    """Of a whole record: what it holds."""
    yield from (f'time {time}' for time in TIMES if parts.hand[4:8] == time.to_bytes(4, 'little'))
    yield f'{parts.status} status channels'
    yield from (f'{parts.ends} ends: channel {at} missing' for at in parts.missing())


def shown(made):
    """Of one read."""
    parts = Parts(made)
    answer = parts.answer()
    ends = parts.ends if parts.ends in ENDS else parts.line
    yield f'{ends} ends: {answer}'
    yield from (f'{ends} ends: {answer}, reason for {later}' for later in parts.reasons() if later != answer)
    if answer in SLICES or parts.over:
        yield from of_piece(parts, answer)
        return
    count, has_status = groups(parts.status), 'with' if parts.status else 'without'
    yield f'{count} groups: {answer}'
    if answer == 'taken':
        yield f'{ends} ends, {count} groups: a piece ends after {len(parts.hand)} bytes'
    if answer in FED:
        yield f'{ends} ends, {has_status} status channels: the last piece begins after {parts.count} bytes'
        yield from of_record(parts)
    if answer == 'decided':
        trip, byte_1, circles = made.wanted.other[:3]
        yield f'{ends} ends: decided, trip {trip}'
        yield from (f'{ends} ends: decided, quadrilateral {name}' for name, bit in QUADRILATERALS.items() if byte_1 & bit)
        if trip and not byte_1 & PHASE_BITS and not circles and byte_1:
            yield f'{ends} ends: decided, a quadrilateral alone trips'
        if len(set(made.wanted.other[5:8])) == 3:
            yield f'{ends} ends: decided, three different c'
    yield from of_number(parts)
    yield from of_piece(parts, answer)


def wanted():
    for ends in ENDS:
        yield from (f'{ends} ends: {answer}' for answer in (*ORDER, 'taken', 'decided'))
        for at, answer in enumerate(ORDER):
            yield from (f'{ends} ends: {answer}, reason for {later}' for later in ORDER[at + 1:]
                        if not (answer in ENDING and later in ENDING))
        # What is refused only where a record is whole does not hinder that a piece is taken.
        yield from (f'{ends} ends: taken, reason for {later}' for later in ('1', '9', '3', '10', '4'))
        yield from (f'{ends} ends, {count} groups: a piece ends after {at} bytes'
                    for count in GROUPS for at in range(1, size(ends, 16 * count)))
        yield from (f'{ends} ends, {has_status} status channels: the last piece begins after {at} bytes'
                    for has_status, status in (('without', 0), ('with', 1)) for at in range(size(ends, status)))
        yield from (f'{ends} ends: decided, {what}' for what in ('trip 0', 'trip 1', 'three different c', *(
            f'quadrilateral {name}' for name in QUADRILATERALS), 'a quadrilateral alone trips'))
        yield from (f'{ends} ends: channel {at} missing' for at in range(channels(ends)))
    yield from (f'{count} groups: {answer}' for count, answer in product(GROUPS, ('taken', 'decided', '12', '1', '9', '3', '10', '4')))
    yield from (f'number {name}' for name in WRONG)
    yield from (f'12 with 4 bytes in hand, after {count}' for count in range(5))
    yield from (f'12 with 5 bytes in hand, after {count}' for count in range(5))
    yield from (f'12 at index {index}' for index in INDEXES)
    yield from (f'number right at index {index}' for index in INDEXES[:-1])
    yield from (f'after the last number {name}' for name in ('0', '1', 'the last'))
    yield from ('12 by an empty piece', 'three bytes of a wrong number are taken')
    yield from (f'empty piece, {where} records: {answer}' for where in ('within', 'between') for answer in ('taken', *ENDING, *SLICES))
    yield 'empty piece, within records: 12'
    yield from (f'{longer} bytes than wanted: decided' for longer in ('as many', 'one more', 'more'))
    yield from (f'more bytes than wanted: {answer}' for answer in FED)
    yield from (f'a piece of {some} bytes or more' for some in (256, 65536, 131072))
    yield from (f'{answer}, room of {room}' for answer in ('taken', '12') for room in (0, 31, 32, 33, 'another size'))
    yield from (f'decided, room of {room}' for room in (32, 33, 'another size'))
    yield from (f'time {time}' for time in TIMES)
    yield from (f'{status} status channels' for status in STATUS)
