"""Event files by chance: long runs of event calls and others through one relay with four readers; and files that arrive cut in two ways,
of which the caller knows by hand what should come back."""
import random
import struct
from typing import Iterator, NamedTuple

from cases import records
from cases.building import ENDS
from cases.event_files import (CLOSED, LAST, STATUS, TIMES, File, amid, asked, by_chance, closed, groups, opened, read, record)
from cases.event_readers import damaged
from cases.event_refusals import OTHER_ENDS, OTHER_STATUS, wrong_numbers
from cases.feeding_runs import Line, any_window, buffer, lines, no_entry
from cases.frames import Frame, entered, feeds, good, load, missing_at, steady
from cases.records import ROOM, noise
from cases.steps import History
from model.measuring import channels
from model.settings import NOTHING

READERS = 4


def given_frames(rng: random.Random, line: Line, ends: int, count: int) -> list[Frame]:
    """Frames of the line, at times with samples missing; the load of a line with other ends."""
    if ends != line.ends:
        return steady(load(ends), count)
    given = line.next(count)
    if given and rng.random() < 0.3:
        at = rng.randrange(count)
        given[at] = missing_at(given[at], rng.sample(range(channels(ends)), rng.randint(1, 3)))
    return given


def any_file(rng: random.Random, line: Line, ends: int, count: int) -> File:
    status = rng.choice((0, 0, rng.choice(STATUS), rng.randrange(97)))
    made = [record(number, rng.choice((rng.choice(TIMES), rng.getrandbits(32))), frame, noise(rng, 2 * groups(status)))
            for number, frame in enumerate(given_frames(rng, line, ends, count), 1)]
    return File(ends, status, made)


# ---- Long runs -------------------------------------------------------------

class Caller:
    """One who reads a file: the bytes that are left of it, and how many of the record are in hand."""

    def __init__(self, rng: random.Random, line: Line, which: int):
        self.rng, self.line, self.which = rng, line, which
        self.file, self.rest, self.held = None, b'', 0

    def new_file(self) -> list[tuple]:
        ends = self.rng.choice((self.line.ends,) * 5 + tuple(ENDS))
        self.file = any_file(self.rng, self.line, ends, self.rng.choice((0, 1, 2, 8, 20)))
        self.rest, self.held = self.file.data, 0
        return opened(ends, self.file.status, self.which)

    def bad_file(self) -> list[tuple]:
        numbers = self.rng.choice(((self.rng.choice(OTHER_ENDS), 0), (self.line.ends, self.rng.choice(OTHER_STATUS))))
        return opened(*numbers, self.which)

    def next_piece(self) -> list[tuple]:
        """The next bytes: as many as are wanted, fewer, more, none."""
        if not self.file or not self.rest:
            return self.rng.choice((self.new_file, self.new_file, self.at_end))()
        wanted = self.file.size - self.held
        count = self.rng.choice((wanted, wanted, wanted, self.rng.randint(0, wanted), wanted + 9, self.rng.randrange(6), 400))
        piece = self.rest[:count]
        taken = min(wanted, len(piece))
        self.rest, self.held = self.rest[taken:], (self.held + taken) % self.file.size
        room = noise(self.rng, self.rng.choice((31, 0))) if self.rng.random() < 0.05 else buffer(self.rng)
        return read(piece, room, self.which) + (asked(self.which) if self.rng.random() < 0.3 else [])

    def wrong_piece(self) -> list[tuple]:
        """A record left out, or any bytes."""
        if self.file and len(self.rest) > 2 * self.file.size:
            self.rest = self.rest[self.file.size:]
            return self.next_piece()
        return read(noise(self.rng, self.rng.randrange(80)), ROOM, self.which)

    def at_end(self) -> list[tuple]:
        return closed(self.which) + (asked(self.which) if self.rng.random() < 0.3 else [])

    DOING = [next_piece] * 80 + [at_end] * 3 + [wrong_piece] * 3 + [new_file, bad_file]


def between(rng: random.Random, line: Line) -> list[tuple]:
    """Other calls on the relay."""
    return rng.choice((feeds(line.next(rng.randint(1, 3)), buffer(rng)), no_entry(rng, line), no_entry(rng, line),
                       rng.choice((entered(line.record), entered(good(rng.choice(ENDS))))), [('read_back', buffer(rng))],
                       [('decide', buffer(rng), b''.join(line.waves[0]))]))


def run(rng: random.Random, line: Line) -> History:
    callers = [Caller(rng, line, which) for which in range(READERS)]
    steps = [step for one in callers for step in one.new_file()]
    for _ in range(rng.randint(5, 60)):
        one = rng.choice(callers[:rng.choice((1, 2, READERS))])
        steps += between(rng, line) if rng.random() < 0.06 else rng.choice(Caller.DOING)(one)
    in_force = rng.choice((line.record,) * 8 + (NOTHING, records.any_record(rng)))
    start = tuple(rng.choice((CLOSED, damaged(rng))) for _ in callers)
    return History(records.relay(in_force, NOTHING, any_window(rng, line)), steps, 'files by chance', start)


def endless(rng: random.Random) -> Iterator[History]:
    for line in lines(rng):
        yield run(rng, line)


# ---- Files that arrive cut in two ways -------------------------------------

class CutFile(NamedTuple):
    """A file and two cuttings of it, each through a copy of one relay; and its frames, fed to another copy."""
    file: File
    wrong: int          # the index of the record whose number is wrong, or the count of records
    cut: int            # how many bytes of a last record are there
    cuttings: list[History]
    fed: History


def frames_by_hand(given: File, count: int) -> list[Frame]:
    """The frames of its first records."""
    width = channels(given.ends)
    return [struct.pack(f'>{width}h', *struct.unpack_from(f'<{width}h', one, 8)) for one in given.records[:count]]


def times_by_hand(given: File) -> list[bytes]:
    """As the reader holds them, high byte first."""
    return [one[4:8][::-1] for one in given.records]


def until(limit: int, pieces: list[bytes], length: int) -> list[tuple]:
    """A caller asks before each piece, hands over the rest again, and stops with the byte at which nothing more is wanted, or with the
    last piece."""
    steps, at = [], 0
    for piece in pieces:
        more = True
        while more and at < limit:
            steps += asked() + read(piece)
            taken = min(length - at % length, len(piece))
            at, piece = at + taken, piece[taken:]
            more = len(piece) > 0
    return steps + asked() + closed()


def cut_file(rng: random.Random, line: Line, n: int) -> CutFile:
    ends = rng.choice((line.ends,) * 9 + tuple(ENDS))
    given = any_file(rng, line, ends, rng.choice((0, 1, 2, 5, 20)))
    wrong, cut, limit = len(given.records), 0, 2**32
    if given.records and rng.random() < 0.2:
        wrong = rng.randrange(len(given.records))
        limit = wrong * given.size + 4
        number = rng.choice((0, wrong, wrong + 2, LAST, wrong + 257, rng.choice(wrong_numbers(wrong))))
        given.records[wrong] = struct.pack('<I', number) + given.records[wrong][4:]
    data = given.data
    if limit > len(data) and rng.random() < 0.4:
        cut = rng.randrange(given.size)
        data += (struct.pack('<I', len(given.records) + 1) + noise(rng, given.size))[:cut]
    in_force = line.record if rng.random() < 0.95 else NOTHING
    relay = records.relay(in_force, NOTHING, any_window(rng, line))
    cuttings = []
    for way in (1, 2):
        steps = opened(ends, given.status) + until(limit, by_chance(rng, data, given.size), given.size)
        start = rng.choice((CLOSED, amid(given, 5, 1) if given.records else CLOSED))
        cuttings.append(History(relay, steps, f'file {n}, cutting {way}', (start,)))
    by_hand = frames_by_hand(given, wrong)
    # A last read-back shows the relay where there is no record.
    return CutFile(given, wrong, cut, cuttings, History(relay, feeds(by_hand) + [('read_back', ROOM)], f'file {n}, fed'))


def cut_files(rng: random.Random) -> Iterator[CutFile]:
    for n, line in enumerate(lines(rng)):
        yield cut_file(rng, line, n)
