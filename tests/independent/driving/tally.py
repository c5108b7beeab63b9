"""What the compared calls gave, and what all of them together should have given: every answer that documents 01 and 02 allow, every
bit of a decision both ways, every side of a rule that a decision can show, every edge of the second reach and of R by every call, and
roots of every size and kind, all sides of a balanced fault and of a quadrilateral and every slope of change by decide and by feed. What
feeds should show beside is in fed_tally.py."""
from collections import Counter
from itertools import product

from cases.building import ENDS
from driving import balanced_seen, changes_seen, decision_shown, quadrilateral_seen, reach_seen, roots_seen
from model.measuring import BITS, channels, length, line
from model.quadrilateral import QUADRILATERALS
from model.settings import ANSWERS, RECORD

# The numbers beside 4, each at place 0. 4 has the places of a window.
AT_0 = {'decide': (0, 1, 2, 3, 17), 'feed': (0, 1, 3, 9, 10, 17)}
PHASES = {'a': 1, 'b': 2, 'c': 4}
# What decide and feed should each show.
OF_BOTH = {'roots by size and kind': roots_seen, 'sides of a balanced fault': balanced_seen, 'slopes of change': changes_seen,
           'sides of a quadrilateral': quadrilateral_seen}


def of_missing(call, ends, place):
    return f'{call} 4 at {place}, {ends} ends'


def answer(made):
    call, number, place = made.step.call, made.wanted.number, made.wanted.place
    if call in AT_0 and number == 4:
        return of_missing(call, line(made.state[:RECORD]).ends, place)
    return f'{call} {number} at {place}'


def answers():
    """All but those for missing samples."""
    yield from (f'{call} {number} at {place}' for call, numbers in ANSWERS.items() for number, places in numbers.items()
                for place in places)
    yield from (f'{call} {number} at 0' for call, numbers in AT_0.items() for number in numbers)


def missing(call, ends):
    """The answers for missing samples: every place, and those at the edges of a frame."""
    frame = channels(ends)
    places = {place: of_missing(call, ends, place) for place in range(length(ends))}
    return list(places.values()), [found for place, found in places.items() if place % frame in (0, frame - 1)]


def bits(decision):
    """Bytes 0 to 4 of a decision."""
    trip, byte_1, loops, direction, second = decision[:5]
    yield f'trip {trip}'
    yield f'direction {direction}'
    yield from (f'phase {name}: {byte_1 & bit > 0}' for name, bit in PHASES.items())
    yield from (f'quadrilateral {name}: {byte_1 & bit > 0}' for name, bit in QUADRILATERALS.items())
    yield from (f'loop {name}: {loops & bit > 0}, in the second zone {second & bit > 0}' for name, bit in BITS.items())
    yield f'second zone {second > 0}, trip {trip}, direction {direction}'


def all_bits():
    yield from ('trip 0', 'trip 1', 'direction 0', 'direction 1', 'direction 2')
    yield from (f'phase {name}: {either}' for name, either in product(PHASES, (False, True)))
    yield from (f'quadrilateral {name}: {either}' for name, either in product(QUADRILATERALS, (False, True)))
    yield from (f'loop {name}: {first}, in the second zone {second}'
                for name, first, second in product(BITS, (False, True), (False, True)))
    yield from (f'second zone {either}, trip {trip}, direction {direction}'
                for either, trip, direction in product((False, True), range(2), range(3)))


class Tally:
    def __init__(self):
        self.calls, self.answers, self.bits = Counter(), Counter(), Counter()
        # What no decide has shown yet, and how many decides were looked at until all was shown.
        self.sides = [(shown, set(wanted())) for shown, wanted in decision_shown.PARTS]
        self.looked = 0
        # The edges of the second reach and of R that no call has shown yet.
        self.reaches = {call: set(reach_seen.wanted(call)) for call in (*ANSWERS, *AT_0)}
        # What no decide has shown yet, and what no feed has.
        self.of_both = {part: {call: set(part.wanted(call)) for call in AT_0} for part in OF_BOTH.values()}

    def add(self, made):
        self.calls[made.step.call] += 1
        self.answers[answer(made)] += 1
        if self.reaches[made.step.call]:
            self.reaches[made.step.call].difference_update(reach_seen.shown(made))
        if made.step.call in AT_0 and made.wanted.number == 0:
            for part, by_call in self.of_both.items():
                if by_call[made.step.call]:
                    by_call[made.step.call].difference_update(part.shown(made))
        if made.step.call != 'decide':
            return
        if made.wanted.number == 0:
            self.bits.update(bits(made.wanted.other))
        self.looked += any(unseen for _, unseen in self.sides)
        if made.wanted.number in (0, 4):
            for shown, unseen in self.sides:
                if unseen:
                    unseen.difference_update(shown(made))

    def report(self):
        """How often each answer and each bit was seen; gives what is at fault."""
        allowed, wanted = [*answers()], [*answers(), *all_bits()]
        found = self.answers + self.bits
        for what in wanted:
            print(f'{what}: {found[what]}')
        for call, ends in product(AT_0, ENDS):
            places, edges = missing(call, ends)
            seen = [found[place] for place in places if found[place]]
            print(f'{call} 4, {ends} ends: {sum(seen)}, at {len(seen)} of {length(ends)} places')
            allowed, wanted = allowed + places, wanted + edges
        sides = sum(len(wanted()) for _, wanted in decision_shown.PARTS)
        unseen = set().union(*(unseen for _, unseen in self.sides))
        print(f'sides of the rules: {sides - len(unseen)} of {sides}, seen in the first {self.looked} decides')
        print('edges of the second reach and of R: ' + ', '.join(
            f'{call} {len([*reach_seen.wanted(call)]) - len(unseen)}' for call, unseen in self.reaches.items()))
        for title, part in OF_BOTH.items():
            print(f'{title}: ' + ', '.join(
                f'{call} {len([*part.wanted(call)]) - len(unseen)}' for call, unseen in self.of_both[part].items()))
        unseen.update(*self.reaches.values(), *(left for by_call in self.of_both.values() for left in by_call.values()))
        yield from (f'{what}: never seen' for what in [*wanted, *sorted(unseen)] if what in unseen or not found[what])
        yield from (f'{what} is no answer of documents 01 and 02' for what in sorted(set(self.answers) - set(allowed)))
        yield from (f'{what} is nothing that a decision can say' for what in sorted(set(self.bits) - set(all_bits())))
