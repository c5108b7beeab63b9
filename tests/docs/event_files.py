"""Event files as the checks of the documents hand them to the independent program: files made by it, and a caller who hands one over in
pieces, as the manual says."""
from typing import NamedTuple

from left import COUNT, GOOD, LENGTH, NUMBERS, to_bytes, with_field

from model import events  # of tests/independent, where worked.py looks

ROOM = 32  # for a decision


def relay_with(kept, ends=2):
    """A relay with document 01's record in force, for so many ends, that has kept so many frames of zeros."""
    return (with_field(GOOD, 0, ends).ljust(COUNT, b'\0') + to_bytes([kept])).ljust(LENGTH, b'\0')


def record(ends, number, time, frame, groups=b''):
    """A record of a file: as the writer makes it, with any number, and with groups of status channels behind it."""
    made = events.write(ends, 0, time, frame, 2 * len(frame) + 8).written
    return number.to_bytes(4, 'little') + made[4:] + groups


class Step(NamedTuple):
    """A call of read or end: what was wanted, what it gave back, and what is wanted then."""
    wanted: int
    number: int
    place: int
    after: int
    state: bytes
    reader: bytes
    out: bytes


def read(state, reader, piece, out=bytes(ROOM)):
    state_after, reader_after, given = events.read(state, reader, piece, len(out))
    written = given.written or b''
    return Step(events.wanted(reader), given.number, given.place, events.wanted(reader_after), state_after, reader_after,
                written + out[len(written):])


def end(state, reader):
    reader_after, given = events.end(reader)
    return Step(events.wanted(reader), given.number, given.place, events.wanted(reader_after), state, reader_after, b'')


def opened(ends, status):
    return events.open_file(bytes(events.READER), ends, status)[0]


def hand_over(state, reader, pieces):
    """The loop of the manual: what each whole record was answered, with the decision, and at last what the end was."""
    heard = []
    for piece in pieces:
        while piece and (wanted := events.wanted(reader)) > 0:
            step = read(state, reader, piece)
            state, reader = step.state, step.reader
            if len(piece) < wanted:
                break
            if not events.ended(reader):
                heard.append((step.number, step.place, step.out))
            piece = piece[wanted:]
    last = end(state, reader)
    return [*heard, (last.number, last.place)]
