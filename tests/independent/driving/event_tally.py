"""What the compared event calls showed, by themselves and one after another, and what all of them together should have shown. What one
call shows is in read_seen.py and events_seen.py."""
from collections import Counter
from itertools import product

from cases.building import ENDS
from driving import events_seen, read_seen
from driving.calls import EVENTS
from model.events import READER, ended
from model.settings import STATE

# Each number that an event call can give. Wanted gives a count.
ANSWERS = {'open': (0, 13, 17), 'read': (0, 1, 3, 4, 9, 10, 11, 12, 13, 17), 'end': (0, 11, 12, 13, 17), 'write': (0, 3, 9, 12, 13)}
FED = ('1', '9', '3', '10', '4')


class Following:
    """What a call shows by the calls before it in its history."""

    def __init__(self):
        self.label = None       # of the history; no two have the same
        self.last = {}          # by reader: its last call, in words
        self.whole = None       # the reader that had the last whole record
        self.confirmed = set()  # the readers that have had no whole record since a confirmation

    def shown(self, made):
        if made.label != self.label:
            self.label, self.last, self.whole, self.confirmed = made.label, {}, None, set()
        call, which, number = made.step.call, made.step.reader, made.wanted.number
        if (call, number) == ('confirm', 0):
            self.confirmed = set(self.last)
        if made.reader is not None and len(made.reader) == READER and len(made.state) == STATE:
            yield from self.of_reader(made, call, which, number)

    def of_reader(self, made, call, which, number):
        before, over = self.last.get(which), ended(made.reader)
        said = call
        if over:
            yield f'after {over[0]}: {call} {number if call == "open" else ""}'.rstrip()
            said = before or call
        elif call == 'read':
            parts = read_seen.Parts(made)
            answer = said = parts.answer()
            if before in FED and answer in (*FED, 'decided', 'taken'):
                yield f'after {before} the reading goes on'
            if before == 'end 0' and answer in ('taken', 'decided'):
                yield f'after an end answered 0: {answer}'
            if answer in (*FED, 'decided'):
                yield from self.of_record(parts, answer, which)
        elif call == 'end':
            said = f'end {number}'
        elif call == 'open' and before:
            said = 'a new file'
        if call != 'wanted':
            self.last[which] = said

    def of_record(self, parts, answer, which):
        """Of a whole record."""
        if self.whole not in (None, which):
            yield f'two readers in turn: {answer}'
        if parts.index == 0 and self.whole is not None:
            yield f'the first record of a new file: {answer}'
        if parts.count and which in self.confirmed:
            yield f'a confirmation within a record: {answer}'
        self.confirmed.discard(which)
        self.whole = which


def wanted():
    """What calls should show one after another."""
    yield from (f'after {number}: {call}' for number, call in product((13, 12, 11), ('open 0', 'open 13', 'wanted', 'read', 'end')))
    yield from (f'after {number} the reading goes on' for number in FED)
    yield from (f'after an end answered 0: {answer}' for answer in ('taken', 'decided'))
    yield from (f'two readers in turn: {answer}' for answer in ('9', '10', '4', 'decided'))
    yield from (f'the first record of a new file: {answer}' for answer in ('1', '9', '10', '4', 'decided'))
    yield from (f'a confirmation within a record: {answer}' for answer in ('9', '10'))


class EventTally:
    def __init__(self):
        self.calls, self.answers = Counter(), Counter()
        self.seen = {'read': Counter(), 'open, wanted, end and write': Counter(), 'calls one after another': Counter()}
        self.following = Following()

    def add(self, made):
        call = made.step.call
        self.calls[call] += 1
        of_read, of_others, of_both = self.seen.values()
        of_both.update(self.following.shown(made))
        if call == 'read':
            of_read.update(read_seen.shown(made))
        elif call in EVENTS:
            of_others.update(events_seen.shown(made))
        if call in ANSWERS:
            self.answers[f'{call} {made.wanted.number}'] += 1

    def report(self):
        """How often each answer was seen; gives what is at fault."""
        allowed = [f'{call} {number}' for call, numbers in ANSWERS.items() for number in numbers]
        print(', '.join(f'{what}: {self.answers[what]}' for what in allowed))
        for ends in ENDS:
            seen = self.seen['read']
            print(f'read, {ends} ends: ' + ', '.join(f'{name}: {seen[f"{ends} ends: {name}"]}'
                                                     for name in (*read_seen.ORDER, 'taken', 'decided')))
        things = zip(self.seen.items(), (read_seen.wanted, events_seen.wanted, wanted), strict=True)
        unseen = []
        for (title, seen), every in things:
            every = list(dict.fromkeys(every()))
            print(f'{title}: {sum(seen[what] > 0 for what in every)} of {len(every)} things to be seen')
            unseen += [f'{title}: {what}: never seen' for what in every if not seen[what]]
        yield from unseen
        yield from (f'{what}: never seen' for what in allowed if not self.answers[what])
        yield from (f'{what} is no answer of document 02' for what in sorted(set(self.answers) - set(allowed)))
