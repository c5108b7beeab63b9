#!/usr/bin/env python3
"""Looks for a counterexample to demand 3 of document 01 in what decide says of
a window: at the slope in force by byte 1, and by bytes 5 to 7 at c, up to which
document 02, CR 6, has a phase operate, and at c + 1.

demand3.py [--count N] [--seed S] [--archive PATH]

It takes N windows near the edge of the demand, the closest known among them,
each with a record for every slope and pickup that is tried on it, and compares
what comes back with model/decision.py. Then each phase is held against the
halves of the demand that could be wrong about it, for m = 1, 2, 3, 10, 1000
and one more by chance. The first difference ends it, and so does the first
counterexample.
It fails at the end too if the search was blind: if no phase would have been a
counterexample to a half with 131072 in place of 196608, or the closest known
was not seen.
"""
import random
import sys
from itertools import chain, islice, product
from pathlib import Path
from typing import NamedTuple

sys.dont_write_bytecode = True
sys.path[0] = str(Path(__file__).resolve().parents[1])  # model, cases, driving
from cases import chosen, currents, equalities  # noqa: E402
from cases.building import HIGH, LINE, as_data  # noqa: E402
from cases.hunting import first_band, second_band  # noqa: E402
from cases.records import ROOM, relay  # noqa: E402
from cases.steps import History  # noqa: E402
from driving import archive, calls  # noqa: E402
from driving.sides import NAMES  # noqa: E402
from model.decision import DECISION, FORM  # noqa: E402
from model.differential import (F, H, L, first_half,  # noqa: E402
                                second_half, slope)
from model.settings import RECORD  # noqa: E402

BATCH = 5000
WITH_R = LINE._replace(R=HIGH[28])
MS = (1, 2, 3, 10, 1000)
LARGEST_M = 10**6
TOO_LITTLE = 131072


class Half:
    """One half of the demand, and what was held against it so far. A band
    stands in place of 196608."""

    def __init__(self, text, contradicted, band, closest):
        self.text = text
        self.contradicted = contradicted    # by K, m, sums, perhaps a band
        self.band = band    # the largest with which it would be
        self.closest = closest  # that band of the closest phase known
        self.looked, self.with_too_little, self.largest = 0, 0, -1

    def look(self, K, m, sums):
        """Whether it is contradicted."""
        self.looked += 1
        self.with_too_little += self.contradicted(K, m, sums, TOO_LITTLE)
        self.largest = max(self.largest, self.band(K, m, sums))
        return self.contradicted(K, m, sums)

    def report(self):
        print(f'{self.text}: {self.looked} times (phase, K, pickup, m); '
              f'{self.with_too_little} would contradict it with {TOO_LITTLE}, '
              f'and up to {self.largest} one still would')

    def blind(self):
        """What the search should have seen, and did not."""
        if self.with_too_little == 0:
            yield f'{self.text}: none would contradict it with {TOO_LITTLE}'
        if self.largest < self.closest:
            yield f'{self.text}: {self.closest}, the closest known, not seen'


# "If a phase operates, 100(F + 1 + 196608Nm) > K L for every m."
FIRST = Half('first half, of phases that operate',
             lambda *of_phase: not first_half(*of_phase), first_band,
             153543)
# "If s >= pickup² and for some m, 100F >= K H + 19660800Nm, it operates."
SECOND = Half('second half, of phases with s >= pickup² that do not operate',
              second_half, second_band, 155727)
# Document 02, CR 6: "with all else equal the phase operates exactly for slopes
# 1 to c". So what the first half says of K it says of c, and what the second
# half rules out for a phase that does not operate, it rules out for c + 1.
FIRST_AT_C = Half('first half at c, of phases with c above 0',
                  FIRST.contradicted, first_band, FIRST.closest)
SECOND_AT_C = Half('second half at c + 1, of phases with s >= pickup²',
                   second_half, second_band, SECOND.closest)
HALVES = (FIRST, SECOND, FIRST_AT_C, SECOND_AT_C)


# ---- What the archive says -------------------------------------------------

class Said(NamedTuple):
    """What the archive says of a phase."""
    operates: bool
    c: int
    U: int
    root: int   # of 4096 s


def said(made, got):
    """Of each phase, by the archive's own bytes."""
    out = got[-len(calls.guarded(made.step.other)):][len(calls.BEFORE):]
    _, bits, _, _, _, *nine = FORM.unpack(out[:DECISION])
    return [Said(bits & bit > 0, *three) for bit, *three in zip(
        (1, 2, 4), nine[:3], nine[3:6], nine[6:], strict=True)]


def halves(phase, K, pickup):
    """Those that could be wrong about a phase, each with the slope. s >=
    pickup² exactly when the floor of the root of 4096 s is at least 64 times
    the pickup."""
    if phase.operates:
        yield FIRST, K
    if phase.c > 0:
        yield FIRST_AT_C, phase.c
    if phase.root >= 64 * pickup:
        yield SECOND_AT_C, phase.c + 1
        if not phase.operates:
            yield SECOND, K


def contradiction(half, made, name, phase, sums, at, m):
    """The whole call and the numbers of the demand, for a person."""
    ends, K, pickup = slope(made.state[:RECORD])
    return (f'COUNTEREXAMPLE to demand 3 in {made.label}\n'
            f'  {half.text}: phase {name}, {ends} ends, at slope {at}, K={K}, '
            f'pickup {pickup}, m={m}\n'
            f'  state {made.state.hex()}\n'
            f'  samples {made.step.samples.hex()}\n'
            f'  archive: operates: {phase.operates}, c={phase.c}, '
            f'U={phase.U}, root of 4096 s {phase.root}\n'
            f'  A and B of each end: {[tuple(pair) for pair in sums]}\n'
            f'  L={L(m, sums)}, H={H(m, sums)}, F={F(m, sums)}')


def hold(made, got, ms):
    """What the archive says of a window, if it decided on one, against the
    demand."""
    if made.step.call != 'decide' or made.wanted.number != 0:
        return
    ends, K, pickup = slope(made.state[:RECORD])
    by_name = zip(NAMES, said(made, got),
                  calls.phases(made.step.samples, ends), strict=True)
    for name, phase, (sums, *_) in by_name:
        for (half, at), m in product(halves(phase, K, pickup), ms):
            if half.look(at, m, sums):
                sys.exit(contradiction(half, made, name, phase, sums, at, m))


# ---- The search ------------------------------------------------------------

def each(found):
    """Each window with every record that is tried on it. R is on, so that byte
    1 has other bits too."""
    for label, record, window in chosen.tried(found, WITH_R):
        yield History(relay(record), [('decide', ROOM, as_data(window))],
                      label)


def look_at(found, rng):
    """Holds windows against the demand, and gives the number of decides."""
    total, tried = 0, chain.from_iterable(map(each, found))
    for made, text in archive.batches(map(calls.follow, tried), BATCH):
        for one, got in zip(made, archive.compare(made, text), strict=True):
            hold(one, got, (*MS, rng.randint(1, LARGEST_M)))
        total += len(made)
    return total


def main():
    words = archive.arguments(__doc__, 20000, '--archive')
    archive.build(words.archive)
    rng, known = random.Random(words.seed), list(equalities.known())
    total = look_at(known, rng)
    for half in HALVES:
        half.with_too_little = 0    # the climb has to find its own
    near_edge = currents.near_edge(random.Random(words.seed))
    total += look_at(islice(near_edge, words.count - len(known)), rng)
    for half in HALVES:
        half.report()
    archive.stop_at([fault for half in HALVES for fault in half.blind()])
    print(f'demand 3: no counterexample in {words.count} windows near its '
          f'edge, {total} decides, seed {words.seed}')


if __name__ == '__main__':
    main()
