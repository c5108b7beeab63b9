#!/usr/bin/env python3
"""Compares the archive with model/settings.py, model/decision.py and model/feeding.py, call by call: what came back, the state, and
every byte of every slice and around it. What decide says is held against demand 3 too, what feed says against what decide says, and
what both say of a window at several slopes, and at several resistive reaches, together.

compare.py [--count N] [--feeds M] [--seed S] [--archive PATH]

It makes N calls at least of the other four functions: all fixed cases, then random ones. Then come M feeds at least, in histories
with other calls between them, fixed and random too, and an eighth as many of which each is held against a decide. The first difference
ends it, and so do a hand check of document 01 that the model does not meet, and at the end an answer of documents 01 and 02, a bit of
a decision, a side of a rule, a kind of root, a slope of change or a side of a quadrilateral that was not seen.
"""
import random
import sys
from itertools import chain
from pathlib import Path

sys.dont_write_bytecode = True
sys.path[0] = str(Path(__file__).resolve().parents[1])  # model, cases, driving
from cases import decision_checks, feeding_cases, feeding_runs, hand_checks, histories  # noqa: E402
from driving import archive, calls, demand3  # noqa: E402
from driving.each_resistance import EachResistance  # noqa: E402
from driving.each_slope import EachSlope  # noqa: E402
from driving.fed_tally import FedTally  # noqa: E402
from driving.newest import Newest  # noqa: E402
from driving.tally import Tally  # noqa: E402

BATCH = 10000
CALLS = 101016  # if nothing is said
FEEDS = 67156   # the same
MS = (1, 1000)  # for demand 3


def compared(some_histories, count, call=None):
    """So many calls at least, or so many of the one that is named, each with what the archive left."""
    for made, text in archive.batches(archive.first(map(calls.follow, some_histories), count, call), BATCH):
        yield from zip(made, archive.compare(made, text), strict=True)


def of_four(count, seed):
    """The calls of propose, confirm, read-back and decide."""
    fixed = list(histories.fixed())
    count = max(count, sum(len(history.steps) for history in fixed))
    return compared(chain(fixed, histories.endless(random.Random(seed))), count)


def of_feed(count, seed):
    """The calls of feed, and those between them."""
    fixed = list(feeding_cases.fixed())
    count = max(count, sum(step[0] == 'feed' for history in fixed for step in history.steps))
    return compared(chain(fixed, feeding_runs.endless(random.Random(seed))), count, 'feed')


def main():
    words = archive.arguments(__doc__, CALLS, '--feeds', '--archive')
    feeds = int(words.feeds or FEEDS)
    by_hand = [*hand_checks.checks(), *decision_checks.checks()]
    archive.stop_at([f'{what}: the model gives {got}, document 01 {wanted}' for what, got, wanted in by_hand if got != wanted])
    archive.build(words.archive)
    tally, fed_tally, newest, each_slope, each_resistance = Tally(), FedTally(), Newest(), EachSlope(), EachResistance()
    for one, got in of_four(words.count, words.seed):
        tally.add(one)
        demand3.hold(one, got, MS)
        each_slope.hold(one, got)
        each_resistance.hold(one, got)
    for one, got in of_feed(feeds, words.seed):
        tally.add(one)
        fed_tally.add(one)
        each_slope.hold(one, got)
        each_resistance.hold(one, got)
    for one, got in compared(feeding_runs.beside_decide(random.Random(words.seed)), feeds // 8, 'feed'):
        tally.add(one)
        newest.hold(one, got)
        each_slope.hold(one, got)
        each_resistance.hold(one, got)
    archive.stop_at([*tally.report(), *fed_tally.report(), *each_slope.blind(), *each_resistance.blind()])
    by_call = ', '.join(f'{number} {call}' for call, number in tally.calls.items())
    total = sum(tally.calls.values())
    print(f'independent comparison: {len(by_hand)} hand checks, {total} calls agree ({by_call}), '
          f'{newest.decided} feeds agree with decide, {each_slope.windows} windows at every slope, '
          f'{each_resistance.windows} at many R and {each_resistance.at_every} of them at every R, seed {words.seed}')


if __name__ == '__main__':
    main()
