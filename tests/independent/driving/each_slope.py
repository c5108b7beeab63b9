"""What the archive says of one window at several slopes, held together: "with
all else equal the phase operates exactly for slopes 1 to c".

By its own bytes a phase has to operate exactly if K in force is at most its c,
and c has to lie where U and the root of 4096 s have it. Where one call after
another has the same window and a record that differs in the slope alone, all
bytes from 2 on have to be the same. Nothing that the model says is looked
at."""
import sys
from itertools import product

from cases.building import ENDS
from driving import calls
from driving.newest import buffer, given_back
from model.decision import DECISION, FORM
from model.differential import SLOPES, slope
from model.measuring import length
from model.settings import IN_FORCE, NUMBERS

CALLS = ('decide', 'feed')


def window_of(made, got, ends):
    """The window that was lent, or that the archive's own state holds."""
    if made.step.call == 'decide':
        return made.step.samples
    state = got[8 + len(calls.BEFORE):][:len(made.state)]
    return state[NUMBERS][:2 * length(ends)]


def contradictions(K, pickup, decision):
    """Of one decision by itself. The root is cut: 4096 s is not below its
    square, and below that of the next number. So s >= pickup² exactly if the
    root is at least 64 times the pickup."""
    _, bits, _, _, _, *nine = FORM.unpack(decision)
    for name, bit, c, U, root in zip('abc', (1, 2, 4), nine[:3], nine[3:6], nine[6:], strict=True):
        if (bits & bit > 0) != (K <= c):
            yield f'phase {name}: K={K}, c={c}, byte 1 is {bits}'
        if root < 64 * pickup and c > 0:
            yield f'phase {name}: c={c} with root {root} and pickup {pickup}'
        if root >= 64 * pickup and not c * U < 100 * (root + 1):
            yield f'phase {name}: c={c} is too large for U={U} and root {root}'
        if root >= 64 * pickup and not (c + 1) * U >= 100 * root:
            yield f'phase {name}: c={c} is too small for U={U} and root {root}'


class EachSlope:
    """The window that was decided on last, what was said of it, and the slopes
    at which it was."""

    def __init__(self):
        self.key, self.first, self.slopes = None, None, set()
        self.seen = set()       # calls and N with a window at every slope
        self.windows = 0        # so many of them

    def hold(self, made, got):
        if made.step.call not in CALLS or given_back(got)[0] != 0:
            return
        record, call = made.state[IN_FORCE], made.step.call
        ends, K, pickup = slope(record)
        said = buffer(made, got)[len(calls.BEFORE):][:DECISION]
        for fault in contradictions(K, pickup, said):
            sys.exit(f'DIFFERENCE in {made.label}: {fault}')
        key = call, record[:2] + record[4:], window_of(made, got, ends)
        if key != self.key:
            self.key, self.first, self.slopes = key, said[2:], set()
        elif said[2:] != self.first:
            sys.exit(f'DIFFERENCE in {made.label}: at another slope bytes 2 to '
                     f'31 were {self.first.hex()}, at {K} {said[2:].hex()}')
        before = len(self.slopes)
        self.slopes.add(K)
        if before < len(self.slopes) == len(SLOPES):
            self.seen.add((call, ends))
            self.windows += 1

    def blind(self):
        """What was to be seen, and was not."""
        for call, ends in product(CALLS, ENDS):
            if (call, ends) not in self.seen:
                yield f'{call}, {ends} ends: no window at every slope'
