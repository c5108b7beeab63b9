"""What the archive says of one window at several resistive reaches R, held
together: R widens the quadrilateral, and does nothing else.

By its own bytes no bit of 8, 16 and 32 may be set where R is 0 or direction is
not forward, and trip has to be set with any of them. Where one call after
another has the same window and a record that differs in R alone, bits 1, 2 and
4 of byte 1 and bytes 2 to 31 have to be the same. A bit that is set has to stay
set as R grows. So has trip, and it may change only where a bit appears.
Nothing that the model says is looked at."""
import sys
from bisect import bisect
from itertools import product

from cases.building import ENDS, HIGH
from driving import calls
from driving.each_slope import CALLS, window_of
from driving.newest import buffer, given_back
from model.decision import DECISION, PHASE_BITS
from model.measuring import FORWARD
from model.quadrilateral import QUADRILATERALS
from model.settings import IN_FORCE, OFF

AT = 28
MANY = 12   # so many R make a window count
EVERY = HIGH[AT] + 1
ALL_BITS = sum(QUADRILATERALS.values())


def parts(decision):
    """Trip, bits 8, 16 and 32, and all that R has no part in."""
    trip, byte_1 = decision[:2]
    return trip, byte_1 & ~PHASE_BITS, bytes([byte_1 & PHASE_BITS]) + decision[2:]


def contradictions(R, decision):
    """Of one decision by itself."""
    trip, bits, _ = parts(decision)
    if bits & ~ALL_BITS:
        yield f'byte 1 is {decision[1]}'
    if bits and R == OFF:
        yield f'R is 0, byte 1 is {decision[1]}'
    if bits and decision[3] != FORWARD:
        yield f'byte 1 is {decision[1]}, direction {decision[3]}'
    if bits and trip != 1:
        yield f'byte 1 is {decision[1]}, trip {trip}'


def against_each_other(low, high, same):
    """Of a decision at one R, and one at a larger R, or at the same."""
    (trip, bits, rest), (larger_trip, larger_bits, larger_rest) = parts(low), parts(high)
    if same and low != high:
        yield 'two decisions at the same R'
    if rest != larger_rest:
        yield 'other bytes than trip and bits 8, 16 and 32 of byte 1 changed'
    if bits & ~larger_bits:
        yield 'a bit of 8, 16 and 32 was lost'
    if larger_trip < trip:
        yield 'trip was lost'
    if larger_trip != trip and larger_bits == bits:
        yield 'trip changed, but no bit of 8, 16 and 32 did'


class EachResistance:
    """The window that was decided on last, and what was said of it at each
    R."""

    def __init__(self):
        self.key, self.said, self.order, self.counted = None, {}, [], False
        self.seen = set()       # calls and N with a window at many R
        self.windows = 0        # so many of them
        self.at_every = 0       # and so many at every R

    def hold(self, made, got):
        if made.step.call not in CALLS or given_back(got)[0] != 0:
            return
        record, call = made.state[IN_FORCE], made.step.call
        R, ends = int.from_bytes(record[AT:AT + 2], 'big'), int.from_bytes(record[:2], 'big')
        said = buffer(made, got)[len(calls.BEFORE):][:DECISION]
        for fault in contradictions(R, said):
            sys.exit(f'DIFFERENCE in {made.label}: {fault}')
        key = call, record[:AT] + record[AT + 2:], window_of(made, got, ends)
        if key != self.key:
            self.key, self.said, self.order, self.counted = key, {}, [], False
        at = bisect(self.order, R)
        for other in self.order[max(at - 1, 0):at + 1]:     # the next below, or the same, and the next above
            pair = (self.said[other], said) if other < R else (said, self.said[other])
            for fault in against_each_other(*pair, other == R):
                sys.exit(f'DIFFERENCE in {made.label}, R={other} and R={R}: {fault}\n  {pair[0].hex()}\n  {pair[1].hex()}')
        if R not in self.said:
            self.said[R] = said
            self.order.insert(at, R)
            self.count(call, ends)

    def count(self, call, ends):
        """A window counts, once, if A, B, C and trip were clear at the least R and set at the largest."""
        if len(self.said) < MANY:
            return
        first, last = (parts(self.said[self.order[at]])[:2] for at in (0, -1))
        if (first, last) == ((0, 0), (1, ALL_BITS)):
            self.seen.add((call, ends))
            self.windows += not self.counted
            self.counted = True
            self.at_every += len(self.said) == EVERY

    def blind(self):
        """What was to be seen, and was not."""
        for call, ends in product(CALLS, ENDS):
            if (call, ends) not in self.seen:
                yield f'{call}, {ends} ends: no window at many R'
        if not self.at_every:
            yield 'no window at every R'
