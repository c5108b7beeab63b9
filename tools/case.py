"""A case for the window program as text: the settings, then windows given as phasors.

    window a fault on phase a        the words after 'window' are for the reader
      Va 6350 at 0                   counts of peak, and degrees
      Vb 57.7 V at -120              effective value, secondary; needs 'counts per volt'
      Ia1 200 - j 30                 of end 1, the local end; ends are counted from 1
      missing Ib2 frame 3            that sample is missing; frames are counted from 0, as n is in document 01

A channel that is not given is 0. Sample n of a phasor of size p and angle t is p cos(2 pi n/16 + t), rounded to the nearest.
A line before the windows that begins with 'confirmation' gives a setting that the second entry has otherwise, as in
'confirmation slope 50 percent, five zero'. What the second zone sees is not in the line that the window program prints.
In its diff 1, 2 and 4 are the phases that operate, and 8, 16 and 32 the quadrilaterals of A, B and C.
"""
import cmath
import math
import re
import struct
from typing import NamedTuple

from record import to_bytes
from text import Fault, Line, Scale, collect, lines, nearest, only, quantity, read

FRAMES = 16
LARGEST = 32767
MISSING = -32768
CHANNEL = re.compile(r'V([abc])|I([abc])([1-9])')


class Case(NamedTuple):
    data: bytes         # for the window program's standard input
    rounded: list[str]


def index(line: Line, name: str, ends: int) -> int:
    """The place of a channel in a frame: Va, Vb, Vc, then Ia, Ib, Ic of end 1, and so on."""
    found = CHANNEL.fullmatch(name)
    if not found:
        raise Fault(line.number, f"'{name}' is no channel, wanted Va, Vb, Vc, Ia1, Ib1 and so on, 'missing' or 'window'")
    volts, amps, end = found.groups()
    if volts:
        return 'abc'.index(volts)
    if int(end) > ends:
        raise Fault(line.number, f"'{name}' is of end {end}, but the line has {ends} ends")
    return 3 * int(end) + 'abc'.index(amps)


def wave(line: Line, counts: Scale) -> list[int]:
    """The 16 samples of the phasor on a line."""
    name = line.words[0]
    given = quantity(line, name)
    only(given, name, 2, '', 'counts', 'V' if name[0] == 'V' else 'A')
    size, angle = cmath.polar(given.value * counts.factor(given))
    samples = [nearest(size * math.cos(2 * math.pi * n / FRAMES + angle)) for n in range(FRAMES)]
    for n, sample in enumerate(samples):
        if abs(sample) > LARGEST:
            raise Fault(line.number, f"'{given.text}': {name} has {sample} in frame {n}, wanted -{LARGEST} to {LARGEST}")
    return samples


def missing(line: Line, ends: int) -> tuple[int, int]:
    """The channel and the frame of a missing sample."""
    if len(line.words) != 4 or line.words[2] != 'frame' or line.digits is not None:
        raise Fault(line.number, f"'{' '.join(line.words)}', wanted 'missing', a channel, 'frame' and a number from 0 to 15")
    _, name, _, frame = line.words
    if not re.fullmatch('[0-9]{1,2}', frame) or int(frame) >= FRAMES:
        raise Fault(line.number, f"frame '{frame}', wanted 0 to {FRAMES - 1}")
    return index(line, name, ends), int(frame)


def window(body: list[Line], ends: int, counts: Scale) -> bytes:
    """The bytes of one window, frame by frame."""
    by_channel, without = {}, []
    for line in body:
        if line.words[:1] == ['missing']:
            without.append(missing(line, ends))
            continue
        at = index(line, line.words[0] if line.words else '', ends)
        if at in by_channel:
            raise Fault(line.number, f"'{line.words[0]}' again in this window")
        by_channel[at] = wave(line, counts)
    frames = [[by_channel[at][n] if at in by_channel else 0 for at in range(3 + 3 * ends)] for n in range(FRAMES)]
    for at, n in without:
        frames[n][at] = MISSING
    return b''.join(struct.pack(f'>{len(frame)}h', *frame) for frame in frames)


def split(text: list[Line]) -> tuple[list[Line], list[Line], list[list[Line]]]:
    """The settings, those that the confirmation has otherwise, and the lines of each window."""
    settings, otherwise, windows = [], [], []
    for line in text:
        if line.words[:1] == ['window']:
            windows.append([])
        elif windows:
            windows[-1].append(line)
        elif line.words[:1] == ['confirmation']:
            otherwise.append(line._replace(words=line.words[1:]))
        else:
            settings.append(line)
    return settings, otherwise, windows


def make(text: str) -> Case:
    """The window program's input for a case: the proposal, the confirmation, the windows."""
    settings, otherwise, windows = split(lines(text))
    last = max((line.number for line in settings + otherwise), default=1)
    given = collect(settings)
    proposal, confirmation = read(given, last), read({**given, **collect(otherwise)}, last)
    (ends,) = proposal.numbers['ends']
    data = to_bytes(proposal.numbers) + to_bytes(confirmation.numbers)
    data += b''.join(window(body, ends, proposal.counts) for body in windows)
    return Case(data, list(dict.fromkeys(proposal.rounded + confirmation.rounded)))
