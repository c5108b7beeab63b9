"""Event files by hand: records, files of them, the pieces in which a file may arrive, the steps by which a caller reads and writes, and
readers byte by byte.

Nothing here goes by model/events.py. A record is packed as CR 5 says: "a 32-bit sample number, a 32-bit time, the analog channels as
16-bit two's complement, then status channels in 16-bit groups, all low byte first".
"""
import random
import struct
from itertools import cycle
from typing import Iterable, Iterator, NamedTuple

from cases import records
from cases.frames import Frame, good, holding, load, steady
from cases.records import ROOM
from model.settings import NOTHING

READER = 160
ENDED = (13, 12, 11)    # what ends a reading
LAST = 4294967295       # the last sample number
TIMES = (0, 1, 255, 256, 65536, 2**31 - 1, 2**31, 2**32 - 2, 2**32 - 1, 0x01020304)
# Status channels: at least two numbers for each count of groups, its first and its last.
STATUS = (0, 1, 15, 16, 17, 31, 32, 33, 48, 49, 64, 65, 80, 81, 95, 96)
GROUPS = range(7)


def groups(status: int) -> int:
    return -(-status // 16)


def size(ends: int, status: int = 0) -> int:
    """The bytes of a record."""
    return 8 + 2 * (3 + 3 * ends) + 2 * groups(status)


def of_groups(count: int) -> list[int]:
    return [status for status in STATUS if groups(status) == count]


# ---- Records and files -----------------------------------------------------

def record(number: int, time: int, frame: Frame, bits: bytes = b'') -> bytes:
    """A frame is big-endian, as feed and write take it; the status channels are given as they stand in the file."""
    count = len(frame) // 2
    channels = struct.unpack(f'>{count}h', frame)
    return struct.pack(f'<II{count}h', number, time, *channels) + bits


class File(NamedTuple):
    ends: int
    status: int
    records: list[bytes]

    @property
    def size(self) -> int:
        return size(self.ends, self.status)

    @property
    def data(self) -> bytes:
        return b''.join(self.records)


def file(ends: int, status: int, given: Iterable[Frame]) -> File:
    """A file of these frames, with times from edge to edge and status bits of any kind."""
    times, bits = cycle(TIMES), cycle((b'\xff', b'\0', b'\x0f', b'\x80', b'\0', b'\x01', b'\xa5'))
    made = []
    for number, frame in enumerate(given, 1):
        some = b''.join(next(bits) for _ in range(2 * groups(status)))
        made.append(record(number, next(times), frame, some))
    return File(ends, status, made)


def of_load(ends: int, status: int, count: int, first: int = 0) -> File:
    """A file of steady load."""
    return file(ends, status, steady(load(ends), count, first))


def at_work(ends: int, count: int = 16) -> bytes:
    """A relay of the line with so many ends, with so many frames of its load."""
    return records.relay(good(ends), NOTHING, holding(count, load(ends)))


# ---- Pieces ----------------------------------------------------------------

def by_bytes(data: bytes) -> list[bytes]:
    return [data[at:at + 1] for at in range(len(data))]


def cut_at(data: bytes, places: Iterable[int]) -> list[bytes]:
    """In pieces, cut at these places in rising order. The same place twice makes an empty piece."""
    edges = [0, *places, len(data)]
    return [data[one:two] for one, two in zip(edges, edges[1:])]


def by_chance(rng: random.Random, data: bytes, length: int) -> list[bytes]:
    """In pieces: few or many, at times empty, some at the edges of records or of the first four bytes."""
    kind = rng.random()
    if kind < 0.1:
        return by_bytes(data)
    if kind < 0.2:
        return [data]
    count = rng.choice((1, 2, 3, len(data) // length, len(data) // 7))
    edges = [at + step for at in range(0, len(data) + 1, length) for step in (0, 0, 1, 3, 4, 5, 8, length - 1)]
    places = rng.choices([*range(len(data) + 1)] if kind < 0.7 else edges, k=count)
    return cut_at(data, sorted(min(at, len(data)) for at in places))


# ---- Steps -----------------------------------------------------------------

def opened(ends: int, status: int, reader: int = 0) -> list[tuple]:
    return [('open', b'', None, reader, (ends, status))]


def asked(reader: int = 0) -> list[tuple]:
    return [('wanted', b'', None, reader)]


def closed(reader: int = 0) -> list[tuple]:
    return [('end', b'', None, reader)]


def read(piece: bytes, room: bytes = ROOM, reader: int = 0) -> list[tuple]:
    return [('read', room, piece, reader)]


def written(ends: int, before: int, time: int, frame: Frame, room: bytes) -> list[tuple]:
    return [('write', room, frame, 0, (ends, before, time))]


def handed(pieces: Iterable[bytes], length: int, held: int = 0) -> Iterator[bytes]:
    """The pieces as a caller lends them: a record of so many bytes is taken at most, and the rest is handed over again."""
    for piece in pieces:
        more = True
        while more:
            yield piece
            taken = min(length - held, len(piece))
            held, piece = (held + taken) % length, piece[taken:]
            more = len(piece) > 0


def reading(pieces: Iterable[bytes], length: int, room: bytes = ROOM, reader: int = 0, asking: bool = False) -> list[tuple]:
    """A caller reads these pieces, and asks before each how many bytes are wanted, or does not."""
    steps = []
    for piece in handed(pieces, length):
        steps += (asked(reader) if asking else []) + read(piece, room, reader)
    return steps


def whole(given: File, pieces: Iterable[bytes], room: bytes = ROOM, reader: int = 0, asking: bool = False) -> list[tuple]:
    """A file from its start to its end."""
    return (opened(given.ends, given.status, reader) + reading(pieces, given.size, room, reader, asking)
            + closed(reader))


# ---- Readers byte by byte --------------------------------------------------

# What a reader holds for which nothing else is said: no byte of it is 0, so that a call that should leave it shows whether it does.
FILLED = bytes(1 + 7 * at % 255 for at in range(READER))
CLOSED = bytes(READER)  # it was never opened


def reader(ends: int, status: int, ended: int = 0, count: int = 0, index: int = 0, hand: bytes = b'') -> bytes:
    """Ends, status channels, what ended the reading, how many bytes are in hand, the index of the record, and at 56 the bytes in hand."""
    front = bytes([ends, status, ended, count]) + index.to_bytes(4, 'little')
    return front + FILLED[len(front):56] + hand + FILLED[56 + len(hand):]


def amid(given: File, index: int, count: int) -> bytes:
    """A reader in a file of which the next number is index + 1, with so many bytes of its first record in hand."""
    hand = struct.pack('<I', min(index + 1, LAST)) + given.records[0][4:]
    return reader(given.ends, given.status, 0, count, index, hand[:count])


def over(number: int, ends: int = 2, status: int = 0, index: int = 0) -> bytes:
    """A reader whose reading was ended by 13, 12 or 11, at this index."""
    return CLOSED if number == 13 else reader(ends, status, number, 3, index)
