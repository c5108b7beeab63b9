"""The rules of document 01 for the window program: what it prints.

Comments in quotes are the document's own sentences.
"""
from typing import Iterator

from model.decision import DECISION, decide
from model.measuring import length, line
from model.settings import RECORD, STATE, confirm, propose


def windows(state: bytes, data: bytes) -> Iterator[str]:
    """A line for each window in these bytes."""
    size = 2 * length(line(state[:RECORD]).ends)
    # "Windows are numbered from 1, refused ones counted". "A cut last window
    # prints refusal 2 at 0 in the same form."
    for number, at in enumerate(range(0, len(data), size), 1):
        decided = decide(state, data[at:at + size], DECISION)
        if decided.written is None:
            yield (f'window {number} refused {decided.number} '
                   f'at {decided.place}')
        else:
            # "the numbers after trip, diff, mho and dir are decision bytes 0
            # to 3 in decimal". Of bytes 4 to 7 it prints nothing.
            trip, diff, mho, towards = decided.written[:4]
            yield (f'window {number} trip {trip} diff {diff} mho {mho} '
                   f'dir {towards}')


def lines(data: bytes) -> Iterator[str]:
    # "It reads standard input: a proposal, a confirmation, then windows as
    # big-endian 16-bit numbers."
    state = bytes(STATE)
    for enter in (propose, confirm):
        entry, data = data[:RECORD], data[RECORD:]
        number, place, state, _ = enter(state, entry)
        if number != 0:     # "A bad entry prints" this "and ends"
            yield f'settings refused {number} at {place}'
            return
    # "Good entries print nothing."
    yield from windows(state, data)


def run(data: bytes) -> bytes:
    """What it prints on standard output for this standard input."""
    return ''.join(f'{line}\n' for line in lines(data)).encode('ascii')
