"""The rules of document 02, CR 5, for event files: a reader that feeds CR 1,
and a writer.

Each call takes the lent slices as bytes, and gives what it leaves of them.
Comments in quotes are the document's own sentences. What stands without
quotes was told beforehand.
"""
from typing import Optional

from model.decision import Decided, refuse
from model.feeding import feed, frame_size
from model.settings import STATE

# ---- A record of a file ----------------------------------------------------

# "Each record is a 32-bit sample number, a 32-bit time, the analog channels as
# 16-bit two's complement, then status channels in 16-bit groups, all low byte
# first."
NUMBER = slice(0, 4)
TIME = slice(4, 8)
CHANNELS = 8                # here the analog channels begin
ENDS = range(2, 6 + 1)      # "13, ends not 2 to 6
STATUS = range(96 + 1)      # or more than 96 status channels"
LAST = 4294967295           # the last sample number


def groups(status: int) -> int:
    """One for each 16 status channels begun."""
    return (status + 15) // 16


def record_size(ends: int, status: int) -> int:
    # "The analog channels are our frame".
    return CHANNELS + frame_size(ends) + 2 * groups(status)


def unsigned(low_first: bytes) -> int:
    return int.from_bytes(low_first, 'little')


def frame_of(record: bytes, ends: int) -> bytes:
    """The frame as feed takes it, big-endian. As "the standard's mark for
    missing data, 8000 hex, is our -32768", each number stays the same."""
    frame = b''
    for at in range(CHANNELS, CHANNELS + frame_size(ends), 2):
        number = int.from_bytes(record[at:at + 2], 'little', signed=True)
        frame += number.to_bytes(2, 'big', signed=True)
    return frame


# ---- The reader ------------------------------------------------------------

# The reader is lent, as the relay is: a slice of one fixed length. It has the
# ends, the status channels, what ended the reading (11, 12 or 0 for nothing),
# and how many bytes of the record being read are in hand; the index of that
# record, low byte first; time and frame of the last whole record, high byte
# first; and the bytes in hand.
READER = 160
AT_ENDS, AT_STATUS, AT_ENDED, AT_COUNT = range(4)
AT_INDEX, AT_TIME, AT_FRAME, AT_HAND = 4, 8, 12, 56


def put(reader: bytes, at: int, some: bytes) -> bytes:
    return reader[:at] + some + reader[at + len(some):]


def index_of(reader: bytes) -> int:
    return unsigned(reader[AT_INDEX:AT_TIME])


def size_of(reader: bytes) -> int:
    """The bytes of a record of its file."""
    return record_size(reader[AT_ENDS], reader[AT_STATUS])


def ended(reader: bytes) -> Optional[tuple[int, int]]:
    """What ended the reading, and its place; None while it goes on. Any bytes
    are a reader. One of zero bytes was never opened: 13."""
    if reader[AT_ENDED] in (11, 12):
        return reader[AT_ENDED], index_of(reader)
    if (reader[AT_ENDED] != 0 or reader[AT_ENDS] not in ENDS
            or reader[AT_STATUS] not in STATUS
            or reader[AT_COUNT] >= size_of(reader)):
        return 13, 0
    return None


def open_file(reader: bytes, ends: int, status: int) -> tuple[bytes, Decided]:
    """The reader that it leaves, and what it gives back. "The caller says how
    many ends and status channels there are." """
    if len(reader) != READER:       # "before all others, changes nothing"
        return reader, refuse(17)
    if ends not in ENDS or status not in STATUS:
        return bytes(READER), refuse(13)
    opened = put(bytes(READER), AT_ENDS, bytes([ends, status]))
    return opened, Decided(0, 0, None)


def wanted(reader: bytes) -> int:
    """How many bytes are missing to the end of the record being read; 0 where
    the reading has ended. It is a count, not a number given back."""
    if len(reader) != READER or ended(reader):
        return 0
    return size_of(reader) - reader[AT_COUNT]


def read(state: bytes, reader: bytes, piece: bytes,
         room: int) -> tuple[bytes, bytes, Decided]:
    """The state and the reader that it leaves, and what it gives back. It
    takes as many bytes of the piece as are wanted."""
    if len(state) != STATE or len(reader) != READER:
        return state, reader, refuse(17)
    over = ended(reader)
    if over:        # "Refusals 11 to 13 end the reading (further bytes get the
        return state, reader, refuse(*over)                 # same refusal)"
    index, count, size = index_of(reader), reader[AT_COUNT], size_of(reader)
    # "the file may arrive cut at any byte with the same answers"
    taken = piece[:size - count]
    reader = put(reader, AT_HAND + count, taken)
    count += len(taken)
    hand = reader[AT_HAND:AT_HAND + count]
    # "12, sample number not one above the last (first is 1)", found "as soon
    # as its four bytes are there, place being the record index from 0". After
    # the last number none is one above.
    if count >= 4 and unsigned(hand[NUMBER]) != index + 1:
        return state, put(reader, AT_ENDED, bytes([12])), refuse(12, index)
    if count < size:
        return state, put(reader, AT_COUNT, bytes([count])), Decided(0, 0, None)
    frame = frame_of(hand, reader[AT_ENDS])
    reader = put(reader, AT_COUNT, bytes([0]))
    reader = put(reader, AT_INDEX, hand[NUMBER])
    reader = put(reader, AT_TIME, hand[TIME][::-1])
    reader = put(reader, AT_FRAME, frame)
    # "The reader feeds CR 1". Refusals 11 to 13 "stand before CR 1's", and
    # those of CR 1 do not end the reading. Ends that are not N of the record
    # in force are its 9.
    state, decided = feed(state, frame, room)
    return state, reader, decided


def end(reader: bytes) -> tuple[bytes, Decided]:
    """The reader that it leaves, and what it gives back."""
    if len(reader) != READER:
        return reader, refuse(17)
    over = ended(reader)
    if over:
        return reader, refuse(*over)
    if reader[AT_COUNT] > 0:        # "11, file ends inside a record"
        return (put(reader, AT_ENDED, bytes([11])),
                refuse(11, index_of(reader)))
    return reader, Decided(0, 0, None)


# ---- The writer ------------------------------------------------------------

def write(ends: int, before: int, time: int, frame: bytes,
          room: int) -> Decided:
    """ "A writer makes records without status channels from frames and times,
    numbered from 1." So many records came before. "From the writer, at 0 and
    in this order: 13 for the ends; 9, frame of another length; 3, room below
    one record; 12, number past 4294967295." """
    if ends not in ENDS:
        return refuse(13)
    if len(frame) != frame_size(ends):
        return refuse(9)
    if room < record_size(ends, 0):
        return refuse(3)
    if before + 1 > LAST:
        return refuse(12)
    record = (before + 1).to_bytes(4, 'little') + time.to_bytes(4, 'little')
    for at in range(0, len(frame), 2):
        number = int.from_bytes(frame[at:at + 2], 'big', signed=True)
        record += number.to_bytes(2, 'little', signed=True)
    return Decided(0, 0, record)
