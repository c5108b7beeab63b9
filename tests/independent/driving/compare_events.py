#!/usr/bin/env python3
"""Compares the archive with model/events.py, call by call: what came back, the relay, the reader, and every byte of every slice and around
it. What the archive says of whole files is held against CR 5 too, and against its own feed.

compare_events.py [--count N] [--seed S] [--archive PATH]

It makes N event calls at least, in histories with other calls between them: all fixed cases, then random ones. Among them are files
that arrive cut in two ways, and files that are written, read and written again. The first difference ends it, and so does at the end
an answer of CR 5, a reason, a limit or a place within a record that was not seen.
"""
import random
import sys
from itertools import chain, count, islice
from pathlib import Path

sys.dont_write_bytecode = True
sys.path[0] = str(Path(__file__).resolve().parents[1])  # model, cases, driving
from cases import event_readers, event_reading, event_refusals, event_runs, event_writing  # noqa: E402
from driving import archive, calls  # noqa: E402
from driving.cut_files import CutFiles  # noqa: E402
from driving.event_tally import EventTally  # noqa: E402
from driving.round_trips import RoundTrips  # noqa: E402

BATCH = 10000
CALLS = 65364   # if nothing is said
FILES = 100     # cut in two ways
TRIPS = 30      # by chance, beside the fixed ones
# Of the other calls by chance, how many of ten are runs, damaged readers, and records that are written.
SHARES = (6, 2, 2)
NUMBERS = count(1)  # so that no two histories have the same label


def compared(some_histories, tally):
    """Each call with what the archive left."""
    numbered = (history._replace(label=f'{next(NUMBERS)}: {history.label}') for history in some_histories)
    for made, text in archive.batches(map(calls.follow, numbered), BATCH):
        for one, got in zip(made, archive.compare(made, text), strict=True):
            tally.add(one)
            yield one, got


def event_calls(tally):
    return sum(tally.calls[call] for call in calls.EVENTS)


def by_chance(seed):
    """Histories of all kinds, in turn."""
    kinds = [kind.endless(random.Random(seed)) for kind in (event_runs, event_readers, event_writing)]
    while True:
        for kind, share in zip(kinds, SHARES, strict=True):
            yield from islice(kind, share)


def main():
    words = archive.arguments(__doc__, CALLS, '--archive')
    archive.build(words.archive)
    tally, cut, trips = EventTally(), CutFiles(), RoundTrips()
    fixed = chain(event_reading.fixed(), event_refusals.fixed(), event_readers.fixed(), event_writing.fixed())
    for _ in compared(fixed, tally):
        pass
    some_files = list(islice(event_runs.cut_files(random.Random(words.seed)), FILES))
    cut.hold_all(some_files, compared((history for one in some_files for history in (*one.cuttings, one.fed)), tally))
    some_trips = islice(event_writing.endless_trips(random.Random(words.seed)), TRIPS)
    trips.hold_all(compared(chain(event_writing.fixed_trips(), some_trips), tally))
    rest = by_chance(words.seed)
    while event_calls(tally) < words.count:
        for _ in compared(islice(rest, 20), tally):
            pass
    archive.stop_at([*tally.report(), *cut.blind()])
    by_call = ', '.join(f'{number} {call}' for call, number in tally.calls.items())
    print(f'event comparison: {sum(tally.calls.values())} calls agree ({by_call}), {cut.files} files cut twice with {cut.answers} answers, '
          f'{trips.records} records in {trips.histories} round trips, seed {words.seed}')


if __name__ == '__main__':
    main()
