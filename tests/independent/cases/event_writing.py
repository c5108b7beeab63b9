"""Records that are written: every refusal with what is checked later, numbers and times at their edges, room and frames of every length;
and round trips, in which a file is written and read, or read and written again."""
import random
from itertools import chain, cycle, product
from typing import Iterator

from cases.building import ENDS, LARGEST, as_data
from cases.decide_cases import repeated
from cases.event_files import CLOSED, LAST, TIMES, File, at_work, by_chance, closed, cut_at, opened, read, reading, record, size, written
from cases.event_refusals import OTHER_ENDS
from cases.frames import Frame, faults, good, load, missing_at, sizes_beside, steady
from cases.records import FRESH, noise, relay
from cases.steps import History
from model.measuring import MISSING, channels

BEFORE = (0, 1, 254, 255, 65535, 2**24 - 1, 2**31 - 1, 2**31, LAST - 2, LAST - 1)
PAST = (LAST, LAST + 1, LAST + 2, 2**33 - 1, 2**63 - 1, 2**63, 2**64 - 1)


def room(length: int) -> bytes:
    return repeated(b'\x5a\xa7\x0d', length)


def single(ends: int, before: int, time: int, frame: Frame, length: int) -> History:
    return History(FRESH, written(ends, before, time, frame, room(length)), f'write, {ends} ends, {before} before')


def of_ends(ends: int) -> Frame:
    """A frame of any ends, as far as there is one; else of two."""
    return load(ends)[3] if ends in ENDS else load(2)[3]


# ---- write -----------------------------------------------------------------

def edges() -> Iterator[History]:
    """Numbers and times at their edges."""
    for ends, before in product(ENDS, (*BEFORE, *PAST)):
        for time in TIMES[before % 2::2]:
            yield single(ends, before, time, of_ends(ends), size(ends) + before % 3)
    for time, ends in product((*TIMES, 0x80000000, 0x00ff00ff, 0xfffffffe), (2, 6)):
        yield single(ends, 0, time, of_ends(ends), size(ends))


def rooms() -> Iterator[History]:
    """Each room about that of a record: of 32 bytes it is not, nor of a record with status channels."""
    for ends in ENDS:
        right = size(ends)
        for length in sorted({0, 1, 7, 8, 31, 32, 33, right - 2, right - 1, right, right + 1, right + 2, right + 12, 255, 256, 4096,
                              *map(size, ENDS)}):
            yield single(ends, 3, 77, of_ends(ends), length)
    yield from (single(ends, 3, 77, of_ends(ends), length) for ends, length in ((2, 65536 + 3), (6, 131072), (6, 65536 + 1)))


def frames_written() -> Iterator[History]:
    """Frames of other lengths, odd ones too, and frames of the largest numbers, of missing ones, and of faults."""
    for ends in ENDS:
        for length in sizes_beside(ends):
            yield single(ends, 5, 6, repeated(of_ends(ends), length), 64)
        width = channels(ends)
        for some in ([LARGEST], [-LARGEST], [MISSING], [MISSING, 0], [0, MISSING], [128, -128], [1, 256], [-1], [0]):
            yield single(ends, 8, 9, as_data((some * width)[:width]), 64)
        yield from (single(ends, n, 1000 * n, missing_at(load(ends)[n % 16], [n]), size(ends)) for n in range(width))


def order() -> Iterator[History]:
    """Everything that write refuses with everything else. With ends that are not allowed a frame is of the length that a part of
    their bytes would have, or of none."""
    short, past = cycle((0, 7, 25)), cycle(PAST)
    for ends, length, tight, over, time in product(
            (*ENDS, *OTHER_ENDS), ('right', 'other', 'none', 'odd'), (False, True), (False, True), (0, LAST)):
        part = ends if ends in ENDS else ends % 256 if ends % 256 in ENDS else 2
        frame = of_ends(part)
        frame = {'right': frame, 'other': of_ends(part % 5 + 2), 'none': b'', 'odd': frame + b'\0'}[length]
        yield single(ends, next(past) if over else LAST - 1, time, frame, next(short) if tight else size(part) + 5)
    for ends in ENDS:
        yield single(ends, LAST, 5, of_ends(ends), size(ends) - 1)
        yield single(ends, 2**64 - 1, 5, of_ends(ends), size(ends))
        yield single(ends, 2**64 - 1, 5, of_ends(ends)[:-1], 0)


# ---- Round trips -----------------------------------------------------------

def trips() -> list[tuple[int, list[Frame], list[int]]]:
    """Ends, frames and times of files: a load, the largest numbers, samples missing, faults, one record alone, and none."""
    found = []
    for ends in ENDS:
        width = channels(ends)
        flat = [as_data((some * width)[:width]) for some in ([LARGEST], [-LARGEST], [MISSING], [MISSING, 1], [128], [-1, 0])]
        fault = [frame for _, some in [*faults(ends)][:3] for frame in steady(some, 6)]
        for given in (steady(load(ends), 20), flat, fault, load(ends)[:1], []):
            times = cycle(TIMES)
            found.append((ends, given, [next(times) for _ in given]))
    return found


def writing(ends: int, given: list[Frame], times: list[int], length: int) -> list[tuple]:
    """A caller writes these frames with these times, numbered from 1."""
    return [step for n, (frame, time) in enumerate(zip(given, times, strict=True))
            for step in written(ends, n, time, frame, room(length))]


def as_file(ends: int, given: list[Frame], times: list[int]) -> File:
    """What should have been written, by hand."""
    return File(ends, 0, [record(n, time, frame) for n, (frame, time) in enumerate(zip(given, times, strict=True), 1)])


def round_trip(ends: int, given: list[Frame], times: list[int], pieces, state: bytes, length: int) -> History:
    """A file is written, read in pieces, and what was read is written again."""
    file = as_file(ends, given, times)
    again = writing(ends, given, times, size(ends))
    steps = writing(ends, given, times, length) + opened(ends, 0) + reading(pieces(file), file.size) + closed()
    return History(state, steps + again, f'round trip, {ends} ends', (CLOSED,))


def round_trips() -> Iterator[History]:
    for ends, given, times in trips():
        for pieces in (lambda file: file.records, lambda file: [file.data],
                       lambda file: cut_at(file.data, range(11, len(file.data), 11))):
            yield round_trip(ends, given, times, pieces, at_work(ends, 9), 64)


def read_and_written() -> Iterator[History]:
    """Record by record: read, and the frame and time that the reader then holds written again; also where feed refuses the record."""
    for ends, given, times in trips():
        for state in (at_work(ends), FRESH, relay(good(ENDS[ends % len(ENDS)]))):
            file, steps = as_file(ends, given, times), opened(ends, 0)
            for n, one in enumerate(file.records):
                steps += read(one) + written(ends, n, times[n], given[n], room(size(ends)))
            yield History(state, steps + closed(), f'read and written, {ends} ends', (CLOSED,))


def fixed() -> Iterator[History]:
    return chain(edges(), rooms(), frames_written(), order())


def fixed_trips() -> Iterator[History]:
    return chain(round_trips(), read_and_written())


# ---- By chance -------------------------------------------------------------

def any_frame(rng: random.Random, ends: int) -> Frame:
    some = rng.choice(([-LARGEST, LARGEST, MISSING], range(-9, 10), range(-LARGEST, LARGEST + 1)))
    return as_data(rng.choices(some, k=channels(ends)))


def endless_trips(rng: random.Random) -> Iterator[History]:
    while True:
        ends = rng.choice(ENDS)
        given = [rng.choice((any_frame(rng, ends), *load(ends)[:2])) for _ in range(rng.choice((1, 2, 3, 20)))]
        times = [rng.choice((rng.choice(TIMES), rng.getrandbits(32))) for _ in given]
        yield round_trip(ends, given, times, lambda file: by_chance(rng, file.data, file.size), at_work(ends, rng.choice((0, 15, 16))),
                         size(ends) + rng.choice((0, 0, 1, 40)))


def endless(rng: random.Random) -> Iterator[History]:
    """Any numbers, most of them good."""
    while True:
        ends = rng.choice((*ENDS, *ENDS, *ENDS, rng.choice(OTHER_ENDS), rng.getrandbits(64)))
        part = ends if ends in ENDS else rng.choice(ENDS)
        frame = any_frame(rng, part)
        before = rng.choice((rng.choice(BEFORE), rng.getrandbits(32) % LAST, rng.getrandbits(16), rng.choice(PAST), rng.getrandbits(64)))
        if rng.random() < 0.15:
            frame = rng.choice((frame[:rng.randrange(len(frame))], frame + noise(rng, rng.randint(1, 9))))
        length = rng.choice((size(part), size(part), size(part) + rng.randrange(20), rng.randrange(size(part) + 1)))
        yield single(ends, before, rng.choice((rng.choice(TIMES), rng.getrandbits(32))), frame, length)
