"""Frames for feeding, as they are lent: windows cut into their frames, steady
waves, missing samples; and windows as a relay's state holds them."""
from typing import Iterable, Iterator

from cases.building import ENDS, LINE, as_data, record
from cases.faults import FAULTS, Place
from cases.records import ROOM, put
from cases.windows import fault_case
from model.measuring import FRAMES, MISSING, channels, length

LONGEST = length(ENDS[-1])
Frame = bytes
Wave = list[Frame]  # of 16 frames; the next one is the first again
Step = tuple        # the words of a step


# ---- Frames ----------------------------------------------------------------

def frames(numbers: list[int], ends: int) -> Wave:
    """The 16 frames of a window, the oldest first."""
    each = channels(ends)
    return [as_data(numbers[at:at + each])
            for at in range(0, len(numbers), each)]


def steady(wave: Wave, count: int, first: int = 0) -> list[Frame]:
    """So many frames of a wave that goes on, from this one."""
    return [wave[(first + n) % FRAMES] for n in range(count)]


def missing_at(frame: Frame, at: Iterable[int]) -> Frame:
    """The frame, missing at these channels."""
    for index in at:
        frame = put(frame, 2 * index, MISSING)
    return frame


def feeds(given: Iterable[Frame], room: bytes = ROOM) -> list[Step]:
    return [('feed', room, frame) for frame in given]


def entered(good: bytes) -> list[Step]:
    return [('propose', good), ('confirm', good)]


# ---- Waves of a line -------------------------------------------------------

def good(ends: int) -> bytes:
    """The record of the line that these waves are on."""
    return record(LINE._replace(ends=ends))


def through(ends: int) -> float:
    """What each other end has of the current of end 1 if it passes through."""
    return -1 / (ends - 1)


def wave(ends: int, fault: str, forward: bool = True,
         infeed: float = 0.5) -> Wave:
    """A fault in the first part of the line, fed from the other ends too."""
    place = Place(fault, forward, 0.3, 9000j, 0.3 + 2j, 300 + 40j)
    case = fault_case(LINE._replace(ends=ends), place, infeed)
    return frames(case.numbers, ends)


def load(ends: int) -> Wave:
    """What passes through the line when there is no fault."""
    return wave(ends, 'load', infeed=through(ends))


def faults(ends: int) -> Iterator[tuple[str, Wave]]:
    """Each fault on the line or behind it, fed from all ends or passing
    through."""
    for fault in FAULTS:
        if fault != 'load':
            for forward in (True, False):
                for infeed in (0.5, through(ends)):
                    yield (f'{fault}, forward: {forward}, infeed {infeed:.2f}',
                           wave(ends, fault, forward, infeed))


# ---- Windows as a relay's state holds them ---------------------------------

# All 336 numbers: no two alike, or all missing. Of a line with fewer than six
# ends those behind its 16 frames are never looked at.
BEHIND = (as_data(list(range(1, LONGEST + 1))), as_data([MISSING] * LONGEST))


def holding(count: int, held: Iterable[Frame],
            behind: bytes = BEHIND[0]) -> bytes:
    """A window with this count, these 16 frames at its front, and these
    numbers behind them."""
    front = b''.join(held)
    return count.to_bytes(2, 'big') + front + behind[len(front):]


def sizes_beside(ends: int) -> list[int]:
    """Other lengths of a frame, in bytes: none, a byte or a number less or
    more, those of other ends, 16 frames at once, right but for a carry."""
    right = 2 * channels(ends)
    others = [2 * channels(other) for other in (0, 1, *ENDS, 7)]
    found = {0, 1, right - 2, right - 1, right + 1, right + 2, *others,
             2 * right, 2 * length(ends), right + 256, right + 65536}
    return sorted(found - {right})
