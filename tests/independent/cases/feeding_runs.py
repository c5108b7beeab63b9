"""Long runs of feeding by chance, each through one relay.

endless(rng) gives runs of all kinds. beside_decide(rng) gives runs in which a
decide on the newest 16 frames follows each frame that makes 16 or more; which
frames these are comes from a plain list.
"""
import random
from itertools import islice
from typing import Iterator

from cases import chosen, records
from cases.building import ENDS, LARGEST, as_data
from cases.decide_cases import repeated
from cases.feeding_cases import COUNTS
from cases.frames import (BEHIND, Frame, Wave, entered, feeds, frames, holding,
                          missing_at, sizes_beside, steady)
from cases.records import FRESH
from cases.steps import History
from model.differential import slope
from model.measuring import FRAMES, channels
from model.settings import EMPTY, NOTHING, RECORD

WAVES = 4   # on one line in one run


class Line:
    """A line at work: its record, the waves that it may carry, and the one
    that it carries now."""

    def __init__(self, rng: random.Random, record: bytes, waves: list[Wave]):
        self.rng, self.record, self.waves = rng, record, waves
        self.ends, self.wave, self.at = slope(record).ends, waves[0], 0

    def change(self) -> None:
        self.wave = self.rng.choice(self.waves)

    def next(self, count: int) -> list[Frame]:
        """The next frames."""
        given = steady(self.wave, count, self.at)
        self.at += count
        return given


def lines(rng: random.Random) -> Iterator[Line]:
    """Records and windows of chosen.py, the windows as steady waves on any
    line of so many ends."""
    by_ends = {ends: [] for ends in ENDS}
    for _, record, numbers in chosen.endless(rng):
        ends = slope(record).ends
        by_ends[ends].append((record, frames(numbers, ends)))
        if len(by_ends[ends]) == WAVES:
            found, by_ends[ends] = by_ends[ends], []
            yield Line(rng, found[0][0], [wave for _, wave in found])


# ---- What happens in a run -------------------------------------------------

def buffer(rng: random.Random) -> bytes:
    """Room enough."""
    return records.noise(rng, rng.choice([32, 32, 33, 64]))


def any_numbers(rng: random.Random, ends: int) -> Frame:
    """Small ones, any, or the largest."""
    size = rng.choice([9, LARGEST, LARGEST])
    few = [-LARGEST, LARGEST] if rng.random() < 0.3 else range(-size, size + 1)
    return as_data(rng.choices(few, k=channels(ends)))


def going_on(rng: random.Random, line: Line) -> list:
    return feeds(line.next(rng.randint(1, 30)), buffer(rng))


def another_wave(rng: random.Random, line: Line) -> list:
    line.change()
    return feeds(line.next(rng.randint(1, 20)), buffer(rng))


def other_numbers(rng: random.Random, line: Line) -> list:
    """A disturbance of a frame or two."""
    return feeds([any_numbers(rng, line.ends)
                  for _ in range(rng.randint(1, 2))], buffer(rng))


def some_missing(rng: random.Random, line: Line) -> list:
    """In one frame, or in several."""
    given = line.next(rng.choice([1, 1, 1, 3, 20]))
    places = range(channels(line.ends))
    return feeds([missing_at(frame, rng.sample(places, rng.randint(0, 3)))
                  for frame in given], buffer(rng))


def other_length(rng: random.Random, line: Line) -> list:
    sizes = sizes_beside(line.ends)[:-1]
    size = rng.choice([*sizes, rng.randrange(100)])
    if size == 2 * channels(line.ends):
        return []
    return feeds([repeated(line.next(1)[0], size)], records.noise(
        rng, rng.choice([0, 31, 32, 64])))


def little_room(rng: random.Random, line: Line) -> list:
    return feeds(line.next(rng.randint(1, 3)), records.noise(
        rng, rng.choice([0, 1, 31, rng.randrange(32)])))


def no_entry(rng: random.Random, line: Line) -> list:
    """Entries after which all is as before, but for what is pending."""
    one_bit = records.flip(line.record, rng.randrange(RECORD),
                           1 << rng.randrange(8))
    cut = line.record[:rng.randrange(RECORD)]
    return rng.choice([
        [('propose', records.good(rng))], [('propose', line.record)],
        [('propose', records.put(line.record, 2, 0))], [('propose', cut)],
        [('propose', line.record), ('confirm', one_bit),
         ('confirm', line.record)],
        [('confirm', cut), ('confirm', line.record)]])


def looking(rng: random.Random, line: Line) -> list:
    """A read-back, and a decide on another window of the line."""
    window = b''.join(rng.choice(line.waves))
    return rng.choice([
        [('read_back', records.noise(rng, rng.choice([0, 31, 32, 40])))],
        [('decide', buffer(rng), window)], [('decide', b'', window)],
        [('decide', buffer(rng), window[:-1])]])


def same_record(rng: random.Random, line: Line) -> list:
    return entered(line.record)


KEEPING = [going_on] * 4 + [another_wave, other_numbers, some_missing,
                            some_missing]
NOT_KEEPING = [other_length, little_room, no_entry, no_entry, looking]
EVENTS = 2 * KEEPING + 2 * NOT_KEEPING + [same_record]


# ---- Runs of all kinds -----------------------------------------------------

def any_window(rng: random.Random, line: Line) -> bytes:
    """Of a relay that is lent at any time: empty, with any count over a wave
    of the line, or any bytes."""
    count = rng.choice([*COUNTS, rng.randrange(FRAMES), rng.getrandbits(16)])
    wave = holding(count, rng.choice(line.waves), rng.choice(BEHIND))
    noise = count.to_bytes(2, 'big') + records.noise(rng, len(EMPTY) - 2)
    return rng.choice([EMPTY, wave, wave, noise])


def at_work(rng: random.Random, line: Line) -> list:
    """Events one after another."""
    steps = []
    for _ in range(rng.randint(1, 12)):
        steps += rng.choice(EVENTS)(rng, line)
    return steps


def run(rng: random.Random, found: Iterator[Line]) -> History:
    """Up to four lines one after another through one relay. The first may be
    in force when it is lent, and so may a record that counts as absent."""
    first = next(found)
    in_force = rng.choice([first.record, first.record, NOTHING,
                           records.any_record(rng)])
    pending = rng.choice([NOTHING, first.record, records.any_record(rng)])
    steps = at_work(rng, first)
    for line in islice(found, rng.randint(0, 3)):
        steps += entered(line.record) + at_work(rng, line)
    return History(records.relay(in_force, pending, any_window(rng, first)),
                   steps, 'run by chance')


def endless(rng: random.Random) -> Iterator[History]:
    found = lines(rng)
    while True:
        yield run(rng, found)


# ---- Each frame, and decide on the newest 16 -------------------------------

def decided_too(steps: list, kept: list[Frame]) -> Iterator[tuple]:
    """Frames that are kept; each is put on the list of those kept."""
    for call, out, frame in steps:
        yield call, out, frame
        kept.append(frame)
        if len(kept) >= FRAMES:
            yield 'decide', out, b''.join(kept[-FRAMES:])


def beside_decide(rng: random.Random) -> Iterator[History]:
    """From a fresh relay. A record that is entered begins a new list, also if
    it is the same one again."""
    found = lines(rng)
    while True:
        steps = []
        for line in islice(found, 3):
            for _ in range(rng.randint(1, 2)):
                steps += entered(line.record)
                kept = []
                for _ in range(rng.randint(5, 15)):
                    event = rng.choice(KEEPING)
                    steps += decided_too(event(rng, line), kept)
                    if rng.random() < 0.5:
                        steps += rng.choice(NOT_KEEPING)(rng, line)
        yield History(FRESH, steps, 'each frame and decide')
