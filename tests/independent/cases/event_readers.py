"""Readers of any bytes: each field at its edges beside good and bad others, and by chance. Any 160 bytes are a reader; most of these no
calls would leave."""
import random
import struct
from itertools import chain, cycle, product
from typing import Iterator

from cases.building import ENDS
from cases.event_files import FILLED, LAST, READER, STATUS, asked, at_work, closed, of_load, read, reader, size
from cases.records import FRESH, ROOM, noise
from cases.steps import History

EVERY_ENDS = (0, 1, 2, 3, 4, 5, 6, 7, 8, 127, 128, 255)
EVERY_STATUS = (0, 1, 16, 17, 95, 96, 97, 112, 128, 255)
EVERY_ENDED = (0, 1, 2, 3, 10, 11, 12, 13, 14, 17, 128, 255)
INDEXES = (0, 1, 255, 65536, LAST - 1, LAST)


def met(start: bytes, piece: bytes, label: str, state: bytes = FRESH) -> History:
    """A reader met by each call: what is wanted, a piece, the end."""
    return History(state, asked(0) + read(piece, ROOM, 0) + closed(1), label, (start, start))


def right_hand(index: int, count: int) -> bytes:
    """So many bytes of a record with the right number."""
    return (struct.pack('<I', (index + 1) % 2**32) + FILLED)[:count]


def fields() -> Iterator[History]:
    """Ends and status channels at their edges, with each way to have ended, and with counts at the edge of the record's size."""
    index, piece, state = cycle(INDEXES), cycle((b'\0\0\xff', b'\0', b'\x01\0\0', b'\0\0', b'')), at_work(2)
    for ends, status, ended in product(EVERY_ENDS, (0, 96, 97, 255), EVERY_ENDED):
        at = next(index)
        start = reader(ends, status, ended, 2, at, right_hand(at, 2))
        yield met(start, next(piece), f'ends {ends}, {status} status channels, ended {ended}', state)
    for ends, status in product((*ENDS, 1, 7), EVERY_STATUS):
        edge = size(ends, status)
        for count in sorted({0, 3, 4, edge - 1, edge, edge + 1, 104, 255}):
            at = next(index)
            start = reader(ends, status, 0, count % 256, at, right_hand(at, min(count, 104)))
            yield met(start, next(piece), f'ends {ends}, {status} status channels, {count} in hand', state)


def in_hand() -> Iterator[History]:
    """Each count of bytes in hand for each N, with the right number and with a wrong one. With four or more in hand a wrong number
    shows at once, also to an empty piece."""
    status, index, pieces = cycle(STATUS), cycle(INDEXES), cycle((b'', b'\0' * 4, b'\0', b'\x55' * 70, b'\0\0\0'))
    for ends, count in product(ENDS, range(62)):
        some, at = next(status), next(index)
        if count >= size(ends, some):
            continue
        for hand in (right_hand(at, count), (b'\xee' * 62)[:count], right_hand(at, count)[:3] + (b'\x99' * 62)[:max(0, count - 3)]):
            for piece in (next(pieces), next(pieces)):
                yield History(at_work(ends), read(piece) + closed(), f'{count} in hand, {ends} ends',
                              (reader(ends, some, 0, count, at, hand),))


def ended_whatever() -> Iterator[History]:
    """Ended by 12 or 11, whatever the other bytes are; and each other number in its place."""
    for ended, index in product((11, 12), INDEXES):
        for ends, status, count in ((0, 0, 0), (2, 0, 0), (2, 0, 26), (255, 255, 255), (6, 96, 61), (7, 97, 1)):
            for piece in (b'', b'\x01\0\0\0'):
                yield met(reader(ends, status, ended, count, index), piece, f'ended {ended} at {index}', at_work(2))
    for ended in range(256):
        yield met(reader(2, 0, ended, 0, 5), struct.pack('<I', 6), f'ended {ended}', at_work(2))


def fixed() -> Iterator[History]:
    return chain(fields(), in_hand(), ended_whatever())


# ---- By chance -------------------------------------------------------------

def damaged(rng: random.Random) -> bytes:
    """A reader within a file with one or two bytes or bits changed, or any bytes at all."""
    if rng.random() < 0.2:
        return noise(rng, READER)
    ends, status, index = rng.choice(ENDS), rng.choice(STATUS), rng.choice((*INDEXES, rng.getrandbits(32)))
    count = rng.randrange(size(ends, status))
    good = bytearray(reader(ends, status, 0, count, index, right_hand(index, count)))
    for _ in range(rng.choice((0, 1, 1, 2))):
        at = rng.choice((0, 1, 2, 3, 3, 4, 7, 56, 57, 58, 59, rng.randrange(READER)))
        good[at] = rng.choice((good[at] ^ 1 << rng.randrange(8), rng.getrandbits(8)))
    return bytes(good)


def endless(rng: random.Random) -> Iterator[History]:
    """Each read to the end of its record and beyond, and asked and ended in between."""
    while True:
        ends = rng.choice(ENDS)
        one = of_load(ends, rng.choice(STATUS), 1).records[0]
        steps = []
        for _ in range(rng.randint(1, 6)):
            piece = rng.choice((noise(rng, rng.randrange(70)), one[rng.randrange(len(one)):], b''))
            steps += rng.choice((asked(), closed(), read(piece), read(piece), read(piece, noise(rng, rng.choice((0, 31, 32, 40))))))
        yield History(at_work(ends, rng.choice((0, 14, 15, 16))), steps, 'a damaged reader', (damaged(rng),))
