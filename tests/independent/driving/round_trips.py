"""The round trips of CR 5, held against what the archive gives: "Reading what it wrote gives the same frames and times; writing what was
read from an accepted file of that kind gives the same bytes."

Within one history each record that was written or read has a number. All that the archive wrote for this number, and all bytes that it
took for it, must be the same; so must be the frames and times that it was lent to write, and those that its reader then held. Nothing
that the model says is looked at."""
import sys
from itertools import groupby

from cases.event_files import size
from driving.cut_files import FRAME, TIME, parts


class RoundTrips:
    def __init__(self):
        self.records, self.histories = 0, 0

    def hold(self, some):
        """The calls of one history, each with what the archive left."""
        wrote, was_read, hand, count, length = {}, {}, b'', 0, None
        for made, got in some:
            answer, left = parts(made, got)
            if made.step.call == 'write':
                ends, before, time = made.step.numbers
                if answer:
                    sys.exit(f'DIFFERENCE in {made.label}: a record was not written: {answer}')
                found = left['other'][:size(ends)], time.to_bytes(4, 'big') + made.step.samples
                self.same(made.label, wrote.setdefault(before, found), found)
            elif made.step.call == 'open':
                length = size(*made.step.numbers)
            elif made.step.call == 'read':
                hand += made.step.samples[:length - len(hand)]
                if len(hand) == length:
                    was_read[count] = hand, left['reader'][TIME:FRAME + length - 8]
                    hand, count = b'', count + 1
        if set(wrote) != set(was_read):
            sys.exit(f'{some[0][0].label}: {len(wrote)} records were written, {len(was_read)} read')
        for number, found in was_read.items():
            self.same(some[0][0].label, wrote[number], found)
        self.records, self.histories = self.records + len(wrote), self.histories + 1

    @staticmethod
    def same(label, one, two):
        if one != two:
            sys.exit(f'DIFFERENCE in {label}: a record with its time and frame, written {one}, then {two}')

    def hold_all(self, compared):
        """Histories one after another, by their labels."""
        for _, group in groupby(compared, key=lambda pair: pair[0].label):
            self.hold(list(group))
