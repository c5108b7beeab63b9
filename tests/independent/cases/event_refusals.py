"""What the event calls refuse: slices of other lengths, ends and status channels, sample numbers, each with reasons for what is checked
later; and each call after each refusal that ended a reading."""
import struct
from itertools import chain, cycle, product
from typing import Iterator

from cases import records
from cases.building import ENDS
from cases.event_files import (CLOSED, ENDED, FILLED, GROUPS, LAST, READER, STATUS, amid, asked, at_work, by_bytes, closed, cut_at,
                               of_groups, of_load, opened, over, read, reader)
from cases.frames import entered, good, holding, load
from cases.records import FRESH, ROOM
from cases.steps import History
from model.settings import NOTHING, STATE

OTHER_READERS = (0, 1, 26, 62, READER - 1, READER + 1, 2 * READER, 256 + READER, STATE, 65536 + READER)
OTHER_STATES = (0, 1, READER, STATE - 1, STATE + 1, 256 + STATE)
# Numbers of which a part is right are among them.
OTHER_ENDS = (0, 1, 7, 8, 255, 256, 258, 65538, 2**31, 2**32 + 2, 2**63 + 3, 2**64 - 2, 2**64 - 1)
OTHER_STATUS = (97, 98, 112, 127, 128, 255, 256, 257, 65536, 65537, 2**32, 2**32 + 96, 2**63, 2**64 - 1)
# An index and what it has of the edges of its bytes.
INDEXES = (0, 1, 2, 254, 255, 256, 65534, 65535, 2**24 - 1, 2**24, 2**31 - 1, LAST - 2, LAST - 1, LAST)


# ---- open ------------------------------------------------------------------

def readers() -> list[bytes]:
    """As any calls may have left one, and such as none would leave."""
    given = of_load(3, 20, 1)
    return [CLOSED, FILLED, b'\xff' * READER, amid(given, 0, 0), amid(given, 9, 30), *(over(number, 4, 7, 300) for number in ENDED),
            reader(7, 0), reader(2, 97), reader(2, 0, 0, 26), reader(2, 0, 0, 200), reader(1, 0, 12), reader(2, 97, 11)]


def opens() -> Iterator[History]:
    """Ends and status channels good and bad, over readers of every kind; right after it what is wanted, and the end."""
    turn = cycle(readers())
    for ends, status in product((*ENDS, *OTHER_ENDS), (*STATUS, *OTHER_STATUS)):
        bad = ends in OTHER_ENDS and status in OTHER_STATUS
        after = [] if bad else asked() + closed()
        yield History(FRESH, opened(ends, status) + after, 'open', (next(turn),))
    for start, (ends, status) in product(readers(), ((2, 0), (6, 96), (1, 0), (2, 97), (7, 97))):
        steps = opened(ends, status) + asked() + closed() + read(b'\x01')
        yield History(at_work(2), steps, 'open over any reader', (start,))


# ---- Slices of another length ----------------------------------------------

def other_lengths() -> Iterator[History]:
    """The reader, the state, and both, with all that could be refused besides."""
    given = of_load(2, 0, 1)
    for length in OTHER_READERS:
        for start in (amid(given, 0, 0), amid(given, 3, 9), CLOSED, *(over(number) for number in ENDED)):
            cut = records.cut_or_filled(start, length)
            steps = opened(2, 0) + opened(7, 97) + asked() + closed() + read(given.data) + read(b'', b'') + read(b'\xff' * 30, b'')
            yield History(at_work(2), steps, f'a reader of {length} bytes', (cut,))
    for length, start in product(OTHER_STATES, (amid(given, 0, 0), amid(given, 3, 9), amid(given, 1, 25), *(over(one) for one in ENDED))):
        for room, piece in ((ROOM, given.data), (b'', b''), (ROOM, b'\xff' * 30)):
            state = records.cut_or_filled(at_work(2), length)
            yield History(state, read(piece, room) + asked() + closed(), f'a state of {length} bytes', (start,))
    for length, other in product(OTHER_STATES, OTHER_READERS):
        state, cut = (records.cut_or_filled(some, size) for some, size in ((at_work(2), length), (amid(given, 0, 3), other)))
        yield History(state, read(given.data), f'a state of {length} bytes, a reader of {other}', (cut,))


# ---- Sample numbers --------------------------------------------------------

def wrong_numbers(index: int) -> list[int]:
    """None is index + 1: none at all, those beside it, the first, the last, its bytes turned, one byte of it wrong, a part of it
    alone."""
    right = index + 1
    four = (right % 2**32).to_bytes(4, 'little')
    some = {0, 1, 2, index, right - 2, right + 1, right + 256, LAST, int.from_bytes(four, 'big'), right % 256, right % 65536,
            right % 2**24, *(right ^ 1 << bit for bit in (0, 7, 8, 15, 16, 23, 24, 31))}
    return sorted(number for number in some if 0 <= number <= LAST and number != right)


def arrivals(one: bytes) -> list[list[bytes]]:
    """How the four bytes may come: with the whole record, alone, with one more, in two, in three, in four; three of them first."""
    return [[one], [one[:4]], [one[:5]], cut_at(one[:4], [1]), cut_at(one, [1]), cut_at(one[:4], [2]), cut_at(one, [2]),
            cut_at(one[:4], [3]), cut_at(one, [3]), by_bytes(one[:4]), [one[:3], b'', one[3:9]]]


def numbers() -> Iterator[History]:
    """The wrong ones at each index, in every way that they may come; after each the right record, which comes too late."""
    ways, every_ends, every_group = cycle(range(11)), cycle(ENDS), cycle(GROUPS)
    for index in INDEXES:
        for number in wrong_numbers(index):
            for _ in range(3):
                given = of_load(next(every_ends), of_groups(next(every_group))[-1], 1)
                body = given.records[0][4:]
                pieces = arrivals(struct.pack('<I', number) + body)[next(ways)]
                steps = [step for piece in pieces for step in read(piece)] + asked()
                steps += read(struct.pack('<I', min(index + 1, LAST)) + body) + closed()
                yield History(at_work(given.ends), steps, f'number {number} at index {index}', (amid(given, index, 0),))


def right_numbers() -> Iterator[History]:
    """At each index the right number, and the next ones up to the last: then no number is one above."""
    for ends, index in product(ENDS, INDEXES):
        given = of_load(ends, 16, 1)
        steps = []
        for number in range(index + 1, index + 4):
            one = struct.pack('<I', number % 2**32) + given.records[0][4:]
            steps += [step for piece in cut_at(one, [index % given.size]) for step in read(piece)] + asked()
        yield History(at_work(ends), steps + closed(), f'numbers from {index + 1}', (amid(given, index, 0),))
    for count in range(2, 6):
        given = of_load(2, 0, 5)
        shifted = [given.records[n] for n in (*range(count), *range(count - 1, 5))]
        steps = opened(2, 0) + [step for one in shifted for step in read(one) + closed()]
        yield History(at_work(2), steps, f'record {count} twice', (FILLED,))
        steps = opened(2, 0) + [step for one in given.records[:count - 1] + given.records[count:] for step in read(one)]
        yield History(at_work(2), steps + closed(), f'record {count} left out', (FILLED,))


# ---- What competes ---------------------------------------------------------

def order() -> Iterator[History]:
    """Everything that read refuses with everything else, for each N, at the start of a record and within one. A good record is
    pending."""
    status, counts, in_hand, index = cycle(STATUS), cycle((0, 1, 14)), cycle((1, 3, 4, 9)), 7
    small, enough = cycle((b'', bytes(31))), cycle((ROOM, bytes(33)))
    for ends in ENDS:
        other, bad = ENDS[ends % len(ENDS)], cycle((NOTHING, records.put(good(ends), 2, 0)))
        for (state_size, reader_size), start, right, in_force, tight, few, gone in product(
                ((STATE, READER), (STATE - 1, READER), (STATE, READER + 1), (STATE + 1, READER - 1)), ('start', 'within', *ENDED),
                (True, False), ('own', 'other', 'none'), (False, True), (False, True), (False, True)):
            if (state_size, reader_size) == (STATE + 1, READER - 1) and (right or tight):
                continue
            given = of_load(ends, next(status), 1)
            one = struct.pack('<I', index + (1 if right else 2)) + given.records[0][4:]
            if gone:
                one = one[:12] + b'\x00\x80' + one[14:]
            cut = 0 if start in ('start', 13) else next(in_hand) if (start, right) == ('within', True) else 3
            lent = over(start, ends, given.status, index) if start in ENDED else reader(ends, given.status, 0, cut, index, one[:cut])
            in_force = {'own': good(ends), 'other': good(other), 'none': next(bad)}[in_force]
            held = holding(next(counts) if few else 16, load(other if in_force == good(other) else ends))
            yield History(records.cut_or_filled(records.relay(in_force, good(ends), held), state_size),
                          read(one[cut:], next(small if tight else enough)),
                          f'order: {start}, number right: {right}', (records.cut_or_filled(lent, reader_size),))


def each_group() -> Iterator[History]:
    """For each N and each count of groups: a record that is taken in part and one that is whole, each with one thing or nothing
    against it."""
    for ends, count in product(ENDS, GROUPS):
        given, other = of_load(ends, of_groups(count)[0], 1), ENDS[ends % len(ENDS)]
        one = given.data
        gone = one[:10] + b'\x00\x80' + one[12:]
        full, few = (holding(frames, load(ends)) for frames in (16, 3))
        for in_force, held, piece, room in (
                (good(ends), full, one, ROOM), (NOTHING, full, one, ROOM), (good(other), full, one, ROOM),
                (good(ends), full, one, bytes(31 * (count % 2))), (good(ends), few, one, ROOM), (good(ends), full, gone, ROOM),
                (good(ends), full, b'\x07' + one[1:], bytes(33 + count))):
            relay, cut = records.relay(in_force, NOTHING, held), cut_at(piece, [given.size - 1 - count])
            yield History(relay, [step for part in cut for step in read(part, room)] + closed(), f'{ends} ends, {count} groups',
                          (amid(given, 0, 0),))
            yield History(relay, read(piece + bytes(count), room), f'the same whole, {count} bytes behind', (amid(given, 0, 0),))


# ---- Remembered ------------------------------------------------------------

def remembered() -> Iterator[History]:
    """Each refusal that ends a reading, as calls bring it about; then each call, any bytes, and a new file."""
    for ends in ENDS:
        given = of_load(ends, 50, 4)
        endings = {
            13: opened(ends, 97), 12: opened(ends, 50) + read(given.records[0]) + read(given.records[2]),
            11: opened(ends, 50) + read(given.records[0]) + read(given.records[1]) + read(given.records[2][:9]) + closed()}
        for number, ending in endings.items():
            rest = given.records[2][9:] if number == 11 else given.records[1]
            steps = asked() + closed() + read(rest) + read(b'') + asked() + read(given.data, b'') + closed() + read(b'\0' * 300)
            again = opened(ends, 50) + asked() + read(given.records[0]) + closed()
            bad = opened(1, 0) + read(given.records[0]) + closed()
            between = entered(good(ends)) + [('feed', ROOM, load(ends)[0])]
            yield History(at_work(ends), ending + steps + between + steps[:3] + again + ending + bad + again,
                          f'remembered {number}, {ends} ends', (FILLED,))
            few = holding(3, [])
            yield History(records.relay(NOTHING, NOTHING, few), ending + steps, f'remembered {number}, nothing in force', (CLOSED,))


def fixed() -> Iterator[History]:
    return chain(opens(), other_lengths(), numbers(), right_numbers(), order(), each_group(), remembered())
