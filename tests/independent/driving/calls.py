"""The calls as the model makes them, in the driver's form, and what each should leave."""
import functools
from typing import NamedTuple, Optional

from cases.steps import Step
from model import decision, differential, events, feeding, measuring, settings

BEFORE, BEHIND = bytes(range(101, 118)), bytes(range(201, 218))  # odd in length, so that slices also begin at odd addresses
# Each call: its letter, and the slices that it is lent.
FORMS = {
    'propose': ('p', ('state', 'other')), 'confirm': ('c', ('state', 'other')), 'read_back': ('r', ('state', 'other')),
    'decide': ('d', ('state', 'samples', 'other')), 'feed': ('f', ('state', 'samples', 'other')),
    'open': ('O', ('reader',)), 'wanted': ('M', ('reader',)), 'end': ('E', ('reader',)),
    'read': ('R', ('state', 'samples', 'reader', 'other')), 'write': ('W', ('samples', 'other'))}
EVENTS = ('open', 'wanted', 'read', 'end', 'write')


class Left(NamedTuple):
    """What a call should leave: of settings.Result, and the reader."""
    number: int  # for wanted, the count
    place: int
    state: bytes
    other: bytes
    reader: Optional[bytes] = None

    to_c = settings.Result.to_c


class Made(NamedTuple):
    """One call as the model has it."""
    label: str
    state: bytes
    step: Step
    wanted: Left
    reader: Optional[bytes]  # that is lent, if one is


def with_decision(state, decided, out, reader=None):
    """The state that a call leaves, the buffer with what was decided, and the reader that it leaves."""
    number, place, written = decided
    # "It is written at the front of the lent buffer; later bytes stay."
    return Left(number, place, state, out if written is None else written + out[len(written):], reader)


def event_result(state, reader, step):
    """What CR 5 of document 02 wants of a step."""
    if step.call == 'wanted':
        return Left(events.wanted(reader), 0, state, step.other, reader)
    if step.call == 'open':
        reader, decided = events.open_file(reader, *step.numbers)
    elif step.call == 'end':
        reader, decided = events.end(reader)
    elif step.call == 'read':
        state, reader, decided = events.read(state, reader, step.samples, len(step.other))
    else:
        decided = events.write(*step.numbers, step.samples, len(step.other))
    return with_decision(state, decided, step.other, reader)


def result(state, reader, step):
    """What documents 01 and 02 want of a step."""
    if step.call == 'decide':
        return with_decision(state, decision.decide(state, step.samples, len(step.other)), step.other)
    if step.call == 'feed':
        return with_decision(*feeding.feed(state, step.samples, len(step.other)), step.other)
    if step.call in EVENTS:
        return event_result(state, reader, step)
    return Left(*settings.CALLS[step.call](state, step.other))


def window(made):
    """The window that a decide or a feed went by: the one that was lent, or the newest 16 frames."""
    if made.step.call == 'decide':
        return made.step.samples
    return feeding.newest(made.wanted.state, differential.slope(made.state[settings.IN_FORCE]).ends)


# What the model measures in that window. Several files look at it one after another, and often at several slopes, so the last ones are
# kept.


@functools.lru_cache(maxsize=8)
def phases(samples, ends):
    return differential.by_phase(measuring.numbers(samples), ends)


def at_slope_1(record):
    """The record with a slope and a differential pickup of 1. They have no part in what is measured below."""
    return record[:2] + bytes([0, 1, 0, 1]) + record[6:]


@functools.lru_cache(maxsize=8)
def measured(record, samples):
    """All but the differential, by a record at slope 1."""
    return measuring.measure(record, measuring.numbers(samples))


# In the driver's form


def guarded(data):
    return BEFORE + data + BEHIND


def lend(letter, data):
    """One slice."""
    return letter.encode() + bytes([len(BEFORE)]) + len(data).to_bytes(3, 'big') + guarded(data)


def give(*numbers):
    """Which reader, and the numbers that a call takes. They are no slice of a call and need no guard."""
    data = b''.join(number.to_bytes(8, 'big') for number in numbers)
    return b'n' + bytes([0]) + len(data).to_bytes(3, 'big') + data


def follow(history):
    """The model's way through a history: the calls, and the driver's input for them."""
    state, readers, made, text = history.state, list(history.readers), [], [lend('s', history.state)]
    for which, reader in enumerate(readers):
        text += [give(which), lend('e', reader)]
    for step in (Step(*words) for words in history.steps):
        letter, slices = FORMS[step.call]
        reader = readers[step.reader] if 'reader' in slices else None
        wanted = result(state, reader, step)
        made.append(Made(history.label, state, step, wanted, reader))
        if step.samples is not None:
            text.append(lend('w', step.samples))
        if step.call in EVENTS:
            text.append(give(step.reader, *step.numbers))
        text.append(lend(letter, step.other))
        state = wanted.state
        if reader is not None:
            readers[step.reader] = wanted.reader
    return made, text


def chosen(made, *slices):
    """By name, those of state, samples, reader and other that a call is lent."""
    by_name = dict(zip(('state', 'samples', 'reader', 'other'), slices, strict=True))
    return {name: by_name[name] for name in FORMS[made.step.call][1]}


def lent(made):
    return chosen(made, made.state, made.step.samples, made.reader, made.step.other)


def left(made):
    """The slices as a call should leave them, by name: a window, a frame or a piece of a file stays as it was lent."""
    return chosen(made, made.wanted.state, made.step.samples, made.wanted.reader, made.wanted.other)


def as_bytes(made):
    return made.wanted.to_c().to_bytes(8, 'big') + b''.join(map(guarded, left(made).values()))


# For a person


def shown(part):
    """A slice; the guards only where they changed."""
    before, data, behind = part[:len(BEFORE)], part[len(BEFORE):-len(BEHIND)], part[-len(BEHIND):]
    kept = (before, behind) == (BEFORE, BEHIND)
    return f'{data.hex()} ({len(data)} bytes)' + ('' if kept else f', changed around it: {before.hex()} and {behind.hex()}')


def difference(made, got, status):
    """The whole call and both results."""
    def came(raw):
        answer, at, lines = int.from_bytes(raw[:8], 'big'), 8, []
        for name, data in left(made).items():
            end = at + len(guarded(data))
            lines.append(f'\n    {name} {shown(raw[at:end])}')
            at = end
        return f'{answer % 256} at {answer // 256}' + ''.join(lines)

    wanted = as_bytes(made)
    lines = [f'    {name} {shown(guarded(data))}\n' for name, data in lent(made).items()]
    found = came(got) if len(got) == len(wanted) else f'no result: the driver ended with status {status}'
    numbers = ''.join(f' {number}' for number in made.step.numbers)
    return (f'DIFFERENCE in {made.step.call}{numbers} {made.label}\n  lent\n{"".join(lines)}'
            f'  documents 01 and 02: {came(wanted)}\n  archive: {found}')
