"""Event files that are read, in their histories: cut at every byte, one after another and side by side through one relay, with other
calls between, with missing samples, with pieces of every length."""
from itertools import chain, cycle
from typing import Iterator

from cases import changes, quadrilateral, records
from cases.building import ENDS, LARGEST, as_data
from cases.event_files import (CLOSED, FILLED, GROUPS, File, amid, asked, at_work, by_bytes, closed, cut_at, file, handed, of_groups,
                               of_load, opened, read, reading, whole)
from cases.frames import entered, faults, feeds, frames, good, load, missing_at, steady, wave
from cases.records import FRESH, ROOM
from cases.steps import History
from model.measuring import FRAMES, MISSING, channels, length

WITH_STATUS = {2: 1, 3: 17, 4: 33, 5: 80, 6: 96}
ROOMS = (ROOM, bytes(33), b'\xa5' * 64)


# ---- Cut at every byte -----------------------------------------------------

def cut_in_two() -> Iterator[History]:
    """Two records, cut at every byte: the same relay goes on."""
    for ends in ENDS:
        for status in (0, WITH_STATUS[ends]):
            given, steps = of_load(ends, status, 2), []
            for at in range(len(given.data) + 1):
                one, two = cut_at(given.data, [at])
                steps += opened(ends, status) + reading([one], given.size) + asked()
                steps += [step for piece in handed([two], given.size, at % given.size) for step in read(piece, ROOMS[at % 3])]
                steps += closed()
            yield History(at_work(ends), steps, f'cut in two, {ends} ends, {status} status channels', (CLOSED,))


def cut_in_three() -> Iterator[History]:
    """A record at each pair of places about its number, its time and its end; the same place twice is an empty piece."""
    for ends in ENDS:
        status = WITH_STATUS[ends]
        given, steps = of_load(ends, status, 1), []
        places = sorted({0, 1, 2, 3, 4, 5, 8, given.size - 2, given.size - 1, given.size})
        for one in places:
            for two in places:
                if one <= two:
                    steps += whole(given, cut_at(given.data, [one, two]))
        yield History(at_work(ends), steps, f'cut in three, {ends} ends', (FILLED,))


def single_bytes() -> Iterator[History]:
    """Byte by byte, for each N with each count of groups; before each byte the caller asks."""
    turn = cycle(range(4))
    for ends in ENDS:
        for count in GROUPS:
            some = of_groups(count)
            status = some[next(turn) % len(some)]
            given = of_load(ends, status, 2)
            steps = opened(ends, status) + reading(by_bytes(given.records[0]), given.size, asking=True)
            steps += read(given.records[1]) + asked() + closed()
            yield History(at_work(ends), steps, f'single bytes, {ends} ends, {status} status channels', (CLOSED,))


def ended_inside() -> Iterator[History]:
    """The file ends after each count of bytes of a record, the first one or a later one; then all is tried again."""
    turn = cycle(GROUPS)
    for ends in ENDS:
        for first in (0, 1, 2):
            status = of_groups(next(turn))[0]
            given, steps = of_load(ends, status, 3), []
            for count in range(given.size):
                before = given.records[:first]
                steps += opened(ends, status) + reading([*before, given.records[first][:count]], given.size)
                steps += closed() + asked() + read(given.records[first][count:]) + closed()
            yield History(at_work(ends), steps, f'ended inside, {ends} ends', (CLOSED,))


def every_status() -> Iterator[History]:
    """Each number of status channels that is allowed, whole records and a cut one."""
    ends = cycle(ENDS)
    for status in range(97):
        given = of_load(next(ends), status, 2)
        pieces = cut_at(given.data, [given.size, given.size + status % given.size])
        yield History(at_work(given.ends), whole(given, pieces, asking=True), f'{status} status channels', (CLOSED,))


# ---- Several files, several readers ----------------------------------------

def one_after_another() -> Iterator[History]:
    """Files through one relay: a new file does not empty its window, a confirmation does. Files of other ends, an empty one, one that
    begins with a sample missing, and two before there are settings in force."""
    for ends in ENDS:
        other, one = ENDS[ends % len(ENDS)], of_load(ends, 0, 1)
        steps, at = 2 * whole(one, by_bytes(one.data)) + entered(good(ends)), 0
        for count, status in ((10, 0), (3, 17), (0, 0), (9, 96), (20, 1)):
            given = of_load(ends, status, count, at)
            steps += whole(given, cut_at(given.data, [len(given.data) // 2]))
            at += count
        spoiled = file(ends, 0, [missing_at(load(ends)[at % 16], [1]), *load(ends)[:2]])
        steps += whole(of_load(other, 0, 2), of_load(other, 0, 2).records) + whole(spoiled, spoiled.records)
        steps += feeds(steady(load(ends), 2, at)) + whole(of_load(ends, 0, 2, at + 2), of_load(ends, 0, 2, at + 2).records)
        steps += entered(good(ends)) + whole(of_load(ends, 5, 17), of_load(ends, 5, 17).records)
        yield History(FRESH, steps, f'files one after another, {ends} ends', (CLOSED,))


def side_by_side() -> Iterator[History]:
    """Two readers of the line, one of another line, and one that a refusal ended, in turn through one relay, record by record and in
    pieces of 7 bytes."""
    for ends in ENDS:
        other = ENDS[(ends + 1) % len(ENDS)]
        spoiled = file(ends, 40, [*steady(load(ends), 6, 9), *(missing_at(frame, [4]) for frame in load(ends)[:3])])
        files = [of_load(ends, 0, 9), spoiled, of_load(other, 1, 9), File(ends, 0, of_load(ends, 0, 3).records[1:])]
        start = [step for which, given in enumerate(files) for step in opened(given.ends, given.status, which)]
        in_sevens = [cut_at(given.data, range(7, len(given.data), 7)) for given in files]
        for cutting in ([given.records for given in files], in_sevens):
            turns = [reading(pieces, given.size, reader=which) for which, (given, pieces) in enumerate(zip(files, cutting))]
            steps = list(start)
            for n in range(max(map(len, turns))):
                steps += [turn[n] for turn in turns if n < len(turn)]
            steps += [step for which in range(4) for step in asked(which) + closed(which)]
            yield History(at_work(ends, 9), steps, f'side by side, {ends} ends', (CLOSED, FILLED, CLOSED, FILLED))


# ---- Other calls between ---------------------------------------------------

def read_on() -> Iterator[History]:
    """The end between records is no end of the reading: further bytes are read on. Empty pieces anywhere change nothing."""
    for ends in ENDS:
        given = of_load(ends, WITH_STATUS[ends], 4)
        steps = opened(ends, given.status) + closed() + closed()
        for one in given.records:
            steps += reading(cut_at(one, [0, 2, 2, 4, 4, 9, 9]), given.size) + closed() + asked() + read(b'') + closed()
        yield History(at_work(ends, 13), steps, f'read on, {ends} ends', (FILLED,))


def between() -> Iterator[History]:
    """Entries, decides, read-backs and feeds between the pieces of a record. A confirmation within a record goes for that record."""
    for ends in ENDS:
        other, given = ENDS[ends % len(ENDS)], of_load(ends, 16, 24)
        window = b''.join(load(ends))
        calls = [[('propose', good(other))], [('confirm', good(other))], [('propose', b'')], entered(good(ends)), entered(good(other)),
                 [('decide', ROOM, window)], [('read_back', ROOM)], feeds(load(ends)[:1]), entered(good(ends)),
                 [('propose', good(ends)), ('confirm', good(other))]]
        steps, turn = opened(ends, 16), cycle(calls)
        for n, one in enumerate(given.records):
            front, back = cut_at(one, [1 + 5 * n % (given.size - 1)])
            steps += read(front) + next(turn) + read(back)
        yield History(at_work(ends), steps + closed(), f'calls between, {ends} ends', (CLOSED,))


def not_ended() -> Iterator[History]:
    """CR 1's refusals do not end the reading: nothing in force, other ends, little room, few frames, then decisions."""
    for ends in ENDS:
        other, given = ENDS[ends % len(ENDS)], of_load(ends, WITH_STATUS[ends], 30)
        rest = iter(given.records)
        steps = opened(ends, given.status) + read(next(rest)) + closed() + read(next(rest)) + entered(good(other)) + read(next(rest))
        steps += entered(good(ends)) + read(next(rest), b'') + read(next(rest), bytes(31)) + read(next(rest), bytes(32))
        for n, one in enumerate(rest):
            steps += read(one, ROOMS[n % 3]) + (closed() if n % 5 == 0 else [])
        yield History(FRESH, steps, f'not ended, {ends} ends', (CLOSED,))


# ---- Samples ---------------------------------------------------------------

def changing() -> Iterator[History]:
    """Windows of changes.py one after another. Each is whole with every sixteenth record; its three phases have three different c."""
    found = list(changes.every_change())
    for ends in ENDS:
        some = [one.numbers for one in found if one.ends == ends][::15]
        given = file(ends, 0, [frame for window in some for frame in frames(window, ends)])
        yield History(at_work(ends), whole(given, given.records), f'changing, {ends} ends', (CLOSED,))


def quadrilaterals() -> Iterator[History]:
    """Windows of quadrilateral.py one after another, each with its own record, which is entered between two records of the file."""
    found = list(quadrilateral.each_byte())
    for ends in ENDS:
        some = [(record, numbers) for _, record, numbers in found if len(numbers) == length(ends)]
        given = file(ends, 0, [frame for _, numbers in some for frame in frames(numbers, ends)])
        steps = opened(ends, 0)
        for n, (record, _) in enumerate(some):
            steps += entered(record) + reading(given.records[FRAMES * n:][:FRAMES], given.size)
        yield History(at_work(ends), steps + closed(), f'quadrilaterals, {ends} ends', (CLOSED,))


def samples() -> Iterator[History]:
    """Each channel missing, alone and with others; the largest numbers; numbers of which the mark's bytes are a part; faults."""
    for ends in ENDS:
        width, at = channels(ends), load(ends)[0]
        for index in range(width):
            given = file(ends, 0, [missing_at(at, [index]), missing_at(at, [index, width - 1]), at])
            yield History(at_work(ends), whole(given, given.records), f'missing {index}, {ends} ends', (CLOSED,))
        flat = [[LARGEST], [-LARGEST], [128], [-128], [1, 256], [MISSING, 0], [0, MISSING], [MISSING], [-1], [-32640, 127]]
        given = file(ends, 20, [as_data((some * width)[:width]) for some in flat] + [at] * 18)
        yield History(at_work(ends), whole(given, cut_at(given.data, [50, 51])), f'extremes, {ends} ends', (CLOSED,))
    for ends in ENDS:
        given = file(ends, 0, [frame for _, some in [*faults(ends)][:8] for frame in steady(some, 18)])
        yield History(at_work(ends), whole(given, [given.data]), f'faults, {ends} ends', (CLOSED,))


# ---- Long pieces -----------------------------------------------------------

def long_pieces() -> Iterator[History]:
    """Pieces longer than what is wanted, up to the longest: at the start of a record, and where hardly anything or one byte is
    wanted. What is behind is not looked at."""
    for ends in ENDS:
        given = of_load(ends, 3 * ends, 3)
        for behind in (b'\0', b'\xff' * 5, bytes(255), b'\x01\0\0\0' * 64, b'\x5a' * 1000):
            steps = opened(ends, given.status)
            for one in given.records:
                steps += read(one[:ends]) + asked() + read(one[ends:] + behind) + asked()
            yield History(at_work(ends), steps + closed(), f'{len(behind)} bytes behind', (FILLED,))
    for total, count in ((65535, 0), (65536, 0), (65536 + 26, 1), (131072, 25), (256, 0), (256 + 26, 0), (131072, 0)):
        given = of_load(2, 0, 1)
        steps = read((given.data[count:] + b'\xee' * total)[:total]) + closed()
        yield History(at_work(2), steps, f'a piece of {total} bytes', (amid(given, 0, count),))


def all_in_one() -> Iterator[History]:
    """A whole file in one piece, the rest handed over again after each record; with more room than needed."""
    for ends in ENDS:
        given = file(ends, 96, steady(wave(ends, 'ag'), 20))
        yield History(at_work(ends), whole(given, [given.data], records.cut_or_filled(ROOM, 70)), f'all in one, {ends} ends', (CLOSED,))


def fixed() -> Iterator[History]:
    return chain(cut_in_two(), cut_in_three(), single_bytes(), ended_inside(), every_status(), one_after_another(), side_by_side(),
                 read_on(), between(), not_ended(), changing(), quadrilaterals(), samples(), long_pieces(), all_in_one())
