"""What the archive's feed says of each frame, held against what its decide says of the newest 16 frames.

Which frames these are comes from a plain list of those kept since the last confirmation that the archive answered with 0. No byte of
the relay's state is looked at, and nothing that the model says."""
import sys

from driving import calls
from model.measuring import FRAMES

KEPT = (0, 4, 10)


def given_back(got):
    """The number and the place, by the archive's own bytes."""
    answer = int.from_bytes(got[:8], 'big')
    return answer % 256, answer // 256


def buffer(made, got):
    """The lent buffer as the archive left it, with its guards."""
    return got[-len(calls.guarded(made.step.other)):]


def unlike(fed, decided):
    """What feed and decide have unlike, for a person."""
    for name, *both in zip(('samples', 'number', 'place', 'buffer'), fed, decided, strict=True):
        one, two = (value.hex() if isinstance(value, bytes) else value for value in both)
        if one != two:
            yield f'\n  {name}\n    feed {one}\n    decide {two}'


class Newest:
    """The frames kept so far, and the answer that decide has to give next."""

    def __init__(self):
        self.kept, self.next, self.decided = [], None, 0

    def feed(self, made, got):
        number, place = given_back(got)
        if number not in KEPT:
            return
        self.kept.append(made.step.samples)
        few = len(self.kept) < FRAMES
        if few != (number == 10) or few and place != 0:
            sys.exit(f'DIFFERENCE in {made.label}: feed answers {number} at {place} with {len(self.kept)} frames kept')
        if not few:
            self.next = b''.join(self.kept[-FRAMES:]), number, place, buffer(made, got)

    def decide(self, made, got):
        found = made.step.samples, *given_back(got), buffer(made, got)
        if found != self.next:
            sys.exit(f'DIFFERENCE between feed and decide in {made.label}, after {len(self.kept)} frames'
                     + ''.join(unlike(self.next, found)))
        self.next, self.decided = None, self.decided + 1

    def hold(self, made, got):
        if self.next:
            if made.step.call != 'decide':
                sys.exit(f'{made.label}: no decide after a feed that was decided')
            self.decide(made, got)
        elif made.step.call == 'feed':
            self.feed(made, got)
        elif made.step.call == 'confirm' and given_back(got)[0] == 0:
            self.kept.clear()
