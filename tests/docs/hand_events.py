"""Holds "Event files" of docs/HAND-CHECKS.md to the independent program: the record that is worked out, there and back; each answer to a file
that is handed over in pieces, what is wanted before and after it, and what the reader holds; and what the writer answers."""
import re

import event_files
import rules
from hand_checks import PAGE, first_number, wrong
from header import answers, placed
from left import MISSING, to_bytes
from tree import read, tables

from model import events  # of tests/independent, where worked.py looks

ENDS, KEPT, LAST = 2, 15, 4294967295
COUNTED = 'no one two three four'.split()
SIZE = events.record_size(ENDS, 0)


def told(row):
    """The numbers of a cell like `bytes 10 to 39`, `byte 55` or `0 to 3`: the first byte and the one behind the last."""
    first, *last = rules.numbers(row)
    return first, (last or [first])[0] + 1


def has(*sentences):
    text = ' '.join(read(PAGE).split())
    for words in sentences:
        if words not in text:
            wrong(f'event files, there is no "{words}"')
    return len(sentences)


# The record


def the_record():
    """The record that is worked out: its sample number, its time, its frame and its bytes, as the table has them."""
    rows = [row for table in tables(PAGE, 'record bytes') for row in table]
    number, time, *numbers = [MISSING if row['number'] == 'missing' else int(row['number']) for row in rows]
    frame, record = (bytes.fromhex(' '.join(row[heading] for row in rows)) for heading in ('in the frame', 'in the record'))
    at = 0
    for row in rows:
        length = len(bytes.fromhex(row['in the record']))
        if told(row['record bytes']) != (at, at + length):
            wrong(f'event files, {row["what"]} does not stand in bytes {row["record bytes"]}')
        at += length
    currents = [f'I{phase} of end {end}' for end in range(1, ENDS + 1) for phase in 'abc']
    if [row['what'] for row in rows] != ['sample number', 'time', 'Va', 'Vb', 'Vc', *currents] or frame != to_bytes(numbers):
        wrong('event files, the parts of the record are not in their order, or its numbers are not those of its frame')
    return number, time, frame, record


def check_record():
    """The writer makes the record of the frame and the time, and the reader takes both out of it again."""
    number, time, frame, record = the_record()
    if events.write(ENDS, number - 1, time, frame, SIZE).written != record:
        wrong('event files, the writer makes another record')
    step = event_files.read(event_files.relay_with(KEPT), at_index(number - 1), record)
    if step.reader[8:12 + len(frame)] != time.to_bytes(4, 'big') + frame:
        wrong('event files, the reader takes another time or frame out of the record')
    low, *_ = bytes_of_time = time.to_bytes(4, 'little')
    return len(frame) // 2 + has(
        f'without status channels has 8 + 2 · 9 = {SIZE} bytes: sample number, time and 9 channels',
        f'sample number {number}, time {time}, and this frame',
        f'With 17 status channels there are two groups of 16 bits more, and it has {SIZE} + 2 · 2 = {events.record_size(ENDS, 17)} bytes',
        f'Bytes {bytes_of_time.hex(" ").upper()} are {low} + 256 · {time // 256} = {time}.', f'so the number is {number - 1} + 1 = {number}.')


# Files


def at_index(index):
    """A reader of two ends before the record with this index."""
    reader = event_files.opened(ENDS, 0)
    return reader[:4] + index.to_bytes(4, 'little') + reader[8:]


def plain(number, time=0):
    """A record with a frame of zeros."""
    return event_files.record(ENDS, number, time, bytes(18))


def files():
    """Each file that the section hands over, in its order, with the reader before it: the two records; the same without its last byte, which
    comes too late; with a record behind them that has another number; and two records about the last number there is."""
    two = plain(1) + the_record()[3]
    return [(at_index(0), two), (at_index(0), two), (at_index(0), two + plain(4)), (at_index(LAST - 1), plain(LAST) + plain(0))]


def check_rows(rows, reader, file):
    """Each row is a call of read with these bytes of the file, which begin behind those that were taken, or of end."""
    state, at = event_files.relay_with(KEPT), 0
    for row in rows:
        first, end = told(row['handed over']) if row['handed over'] != 'end' else (0, 0)
        if end and (first != at or end > len(file)):
            wrong(f'event files, "{row["handed over"]}" does not begin with byte {at}, or the file does not go so far')
        if {*re.findall(r'\brecord (\d+)', row['because'])} - {str(events.index_of(reader))}:
            wrong(f'event files, "{row["because"]}" names another record than {events.index_of(reader)}')
        at += min(end - first, events.wanted(reader) or end - first)
        step = event_files.read(state, reader, file[first:end]) if end else event_files.end(state, reader)
        answer = f'{step.number} at {step.place}' if step.number in placed() else str(step.number)
        found = [str(step.wanted), answer, str(step.after)]
        if [row[heading] for heading in ('wanted before', 'answer', 'wanted then')] != found:
            wrong(f'event files, "{row["handed over"]}" has {[*row.values()]}; the independent program gives {found}')
        if 'C gets' in row['because'] and not row['because'].endswith(f' = {256 * step.place + step.number}'):
            wrong(f'event files, of "{row["answer"]}" C gets {256 * step.place + step.number}')
        kind = 'decided' if end - first >= step.wanted else 'taken'
        if end and step.wanted and not step.number and not row['because'].startswith(kind):
            wrong(f'event files, "{row["handed over"]}" is {kind}')
        state, reader = step.state, step.reader
    if at not in (len(file), SIZE + 4):
        wrong(f'event files, {at} bytes of {len(file)} are handed over')
    return reader


def check_cuts(rows, file):
    """The file is cut where the section says. However it is cut in two, and in single bytes, what is heard of it is what the section says."""
    ends = [*dict.fromkeys(told(row['handed over'])[1] for row in rows if row['handed over'] != 'end')]
    wanted = [(0, 0), (4, 142), (0, 0)]
    cuts = [[file[:cut], file[cut:]] for cut in range(len(file))] + [[bytes([byte]) for byte in file]]
    for pieces in cuts:
        if [heard[:2] for heard in event_files.hand_over(event_files.relay_with(KEPT), at_index(0), pieces)] != wanted:
            wrong(f'event files, a file in {len(pieces)} pieces, the first of {len(pieces[0])} bytes, is heard otherwise')
    behind = ' and '.join(f'behind byte {end - 1}' for end in ends[:-1])
    (_, one), (first, two) = (told(row['handed over']) for row in rows[:2])
    return has('However the file is cut, record 0 is answered 0, record 1 is answered 4 at 142, and the end 0.',
               'Record 0 has number 1, time 0 and a frame of zeros; record 1 is the one above.', f'Together they have {len(file)} bytes',
               f'So the first 0 means "taken", since {one} bytes are fewer than {SIZE}. The second means "decided", since {two - first} are not fewer '
               f'than {SIZE - one}.', f'and {KEPT} frames of zeros have been kept.', f'in {COUNTED[len(ends)]} pieces, cut {behind}.')


def check_files():
    found = tables(PAGE, 'handed over')
    if len(found) != len(files()):
        wrong(f'event files, {len(files())} tables of what is handed over should stand')
        return 0
    readers = [check_rows(rows, reader, file) for rows, (reader, file) in zip(found, files())]
    held = [row for table in tables(PAGE, 'reader bytes') for row in table]
    for row in held:
        first, end = told(row['reader bytes'])
        if readers[0][first:end] != bytes.fromhex(row['hold']):
            wrong(f'event files, the reader holds {readers[0][first:end].hex(" ").upper()} in bytes {row["reader bytes"]}')
    return sum(map(len, found)) + len(held) + check_cuts(found[0], files()[0][1]) + has(
        f'{LAST - 1} records holds {(LAST - 1).to_bytes(4, "little").hex(" ").upper()} in bytes 4 to 7',
        f'a record with number {LAST}, bytes FF FF FF FF, and one with number 0')


# The writer


def check_writer():
    """Each row of what the writer answers where several things are wrong. Each check of it stands in its order."""
    rows = [row for table in tables(PAGE, 'ends') for row in table]
    for row in rows:
        ends, size, room, before = (first_number(row[heading]) for heading in ('ends', 'frame', 'room', 'records before'))
        given = events.write(ends, before, 0, bytes(size), room)
        if first_number(row['answer']) != given.number or given.place:
            wrong(f'event files, the writer is said to answer "{row["answer"]}"; it is {given.number}')
        if 'the number' in row['answer'].partition(': ')[2].partition('before')[0] and str(before + 1) not in row['answer']:
            wrong(f'event files, "{row["answer"]}" has not the number {before + 1}')
    found = [first_number(row['answer']) for row in rows]
    if found != [number for number in answers().get('events_write', {}) if number] + [0]:
        wrong(f'event files, the table of what the writer answers has {found}; the source has {[*answers().get("events_write", {})]}')
    return len(rows)


def check_events():
    return check_record() + check_files() + check_writer()
