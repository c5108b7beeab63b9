"""Holds what the manual says of event files, in include/gorsepetal.h: the bytes of a record and of a reader, and its figures, to the source;
what an answer does to a reading, and what is noticed of a file that was damaged and what is not, to the independent program."""
import re
from pathlib import Path

import event_files
import header
import manual
from header import HEADER, RECORD, channels, reader_parts, record_bytes
from left import MISSING, to_bytes
from tree import faults

from model import events  # of tests/independent, where worked.py looks

WRITER = Path('crates/records/specs/Writer.antt')
TITLE = 'EVENT FILES'
ALL_ENDS, FEW, MANY, MOST = range(2, 7), 2, 6, 96  # how many ends there may be, and how many status channels
COUNTED = 'none one two three four five six'.split()
KNOWS = 'Who lends fewer bytes than wanted knows that 0 means "taken", and who lends as many knows that 0 means "decided".'


def say(where, wanted):
    """A fault for each of some words that a section, or the comment of a call, does not have."""
    text = manual.plain_comment(where) if where in manual.comments() else manual.plain(where)
    faults.extend(f'{HEADER}: {where} does not say "{words}"' for words in wanted if words not in text)
    return len(wanted)


def listed(*numbers):
    """1, 9 and 3"""
    *first, last = map(str, numbers)
    return f'{", ".join(first)} and {last}'


# A record


def parts_of_record(ends):
    """Where each part of a record lies, by the definitions: the number, the time, the voltages, each end's currents, the status channels."""
    at = [re.search(pattern, header.definition(RECORD, name)) for name, pattern in
          (('number_in', r'word_at g (\d+)'), ('time_in', r'word_at g (\d+)'), ('frame_in', r'drop (\d+) g'))]
    if not all(at):
        faults.append(f'{RECORD}: `number_in`, `time_in` or `frame_in` has a form that this check does not know')
        return []
    number, time, first = (int(m[1]) for m in at)
    blocks = [(first + 6 * block, first + 6 * block + 5) for block in range(channels(ends) // 3)]
    return [(number, number + 3), (time, time + 3), *blocks, (record_bytes(ends, 0), None)]


def check_record():
    """The table of a record's bytes, for each number of ends: its rows are the first four parts, the last end's and the status channels'. Its
    length in the table below, and how many groups there are."""
    text = manual.section(TITLE)
    rows = re.findall(r'^\*\*   ([\dN +]+?)(?: to ([\dN +]+?)| on)  +(\S.*)$', text, flags=re.MULTILINE)[:6]
    for ends in ALL_ENDS:
        cells = [[re.sub(r'(\d)N', rf'\1 * {ends}', cell) for cell in row[:2]] for row in rows]
        found = [tuple(eval(cell) if cell else None for cell in row) for row in cells]
        parts = parts_of_record(ends)
        if parts and found != [*parts[:4], *parts[-2:]]:
            faults.append(f'{HEADER}: for {ends} ends the table of a record has {found}; the source has {[*parts[:4], *parts[-2:]]}')
    lengths = re.findall(rf'^\*\*   (N|no status channels|{MOST} status channels) +([\d ]+)$', text, flags=re.MULTILINE)
    found = {name: [int(word) for word in rest.split()] for name, rest in lengths}
    wanted = {'N': [*ALL_ENDS], 'no status channels': [record_bytes(ends, 0) for ends in ALL_ENDS],
              f'{MOST} status channels': [record_bytes(ends, MOST) for ends in ALL_ENDS]}
    if found != wanted:
        faults.append(f'{HEADER}: the lengths of records are {found}; the source has {wanted}')
    groups = [(record_bytes(2, status) - record_bytes(2, 0)) // 2 for status in range(MOST + 1)]
    spans = {count: [status for status, each in enumerate(groups) if each == count] for count in (1, 2, groups[MOST])}
    told = ', '.join(f'{COUNTED[count]} for {span[0]} to {span[-1]}' for count, span in spans.items())
    begun = len(spans[1])
    return len(rows) + len(lengths) + say(TITLE, [
        f'none for 0, {told}', f'There is a group for each {begun} status channels begun', f'a bit each, in groups of {begun} bits',
        'sample number, 32 bits: 1 in the first record, one more in each', 'time, 32 bits', "Va, Vb, Vc: 16 bits each, two's complement",
        'Ia, Ib, Ic of end 1', f'8000 hex, is {MISSING}, so the bytes 00 80 are a missing sample', '8000 hex is not scaled'])


# A reader


def check_reader():
    """The table of a reader's bytes; its length, wherever that is said; what makes a reading of any bytes; and how many are wanted at
    most."""
    parts, text = reader_parts(), manual.section(TITLE)
    rows = re.findall(r'^\*\*   bytes? (\d+)(?: to (\d+))?  +\S', text, flags=re.MULTILINE)
    found, wanted = [[int(first), int(last or first)] for first, last in rows], sorted([first, end - 1] for first, end in parts.values())
    if found != wanted:
        faults.append(f'{HEADER}: the table of a reader has the parts {found}; the source has {wanted}')
    length, most = header.constants('events').get('LENGTH'), record_bytes(MANY, MOST)
    for call, prototype in header.exported().items():
        lengths = re.findall(r'(?:the reader,|reader_len is not) (\d+)', manual.plain_comment(call.removeprefix('gorsepetal_')))
        if lengths != [str(length)] * (2 if '_t *reader,' in prototype else 0):
            faults.append(f'{HEADER}: {call} has {lengths} for the length of a reader, which is {length}')
    inside, other, bad = numbers('INSIDE_RECORD', 'OTHER_NUMBER', 'BAD_FILE')
    (index, end), (time, time_end) = parts.get('INDEX', (0, 0)), parts.get('TIME', (0, 0))
    table = say('WHAT COMES BACK', [f'or reader not {length}', f'ends not {FEW} to {MANY}, or above {MOST} status channels'])
    return len(rows) + table + say(TITLE, [
        f'A reader is {length} bytes that the caller owns', f'any {length} bytes have a meaning', f'of which a record takes {most} at most',
        f'what ended the reading: 0 nothing, {inside} or {other}', 'index of the record being read, from 0, low byte first',
        'its frame, each number with the upper byte first: 2(3 + 3N) bytes of these',
        f'If byte 2 is {other} or {inside}, the reading has ended with that number, at the index of bytes {index} to {end - 1}.',
        f'if byte 2 is 0, ends are {FEW} to {MANY}, status channels at most {MOST}, and byte 3 is below the record\'s length, the reading goes on',
        f'All others have ended with {bad}.', f'The time to write is then that of bytes {time} to {time_end - 1} of the reader'])


def numbers(*names):
    return [header.public('answers').get(name) for name in names]


# A reading


def check_answers():
    """What each answer does to the reading, by the table: whether it goes on, has ended, or is as it was."""
    text = manual.section(TITLE)
    rows = re.findall(r'^\*\*   ((?:\d+, )*\d+(?: at (?:0|index))?)  +\S.*?  +(goes on|has ended|as it was)$', text, flags=re.MULTILINE)
    told = {int(number): what for answer, what in rows for number in re.findall(r'\b\d+\b', answer.partition(' at')[0])}
    first, second = a_file(2)
    lost, reader = first[:-2] + to_bytes([MISSING])[::-1], event_files.opened(2, 0)
    good, few, three = event_files.relay_with(15), event_files.relay_with(0), event_files.relay_with(15, ends=3)
    lent = [(good, first), (good, first[:9]), (few, first), (good, lost), (bytes(len(good)), first), (three, first), (good, second),
            (good[1:], first)]
    steps = [event_files.read(state, reader, piece) for state, piece in lent]
    steps += [event_files.read(good, reader, first, bytes(31)), *(event_files.end(good, each) for each in (steps[1].reader, event_files.opened(7, 0)))]
    found = {step.number: 'as it was' if step.number == 17 and step.reader == reader else 'has ended' if events.ended(step.reader) else 'goes on'
             for step in steps}
    if told != found:
        faults.append(f'{HEADER}: {TITLE} says of the reading {told}; the independent program has {found}')
    return len(rows) + check_numbers() + check_comments()


def check_numbers():
    """Where the section names answers, or the last number, they are those of the source."""
    inside, other, bad, length, kept = numbers('INSIDE_RECORD', 'OTHER_NUMBER', 'BAD_FILE', 'OTHER_FRAME_LENGTH', 'TOO_FEW_FRAMES')
    last, *_ = header.definition(WRITER, 'last_number').split() or ['']
    feed = [number for number in header.answers()['feed'] if number][1:]
    *_, count, _, size = header.state_offsets()
    if events.open_file(bytes(events.READER), WIDE, 0)[1].number != bad:
        faults.append(f'{HEADER}: {WIDE} ends are not {bad}')
    return say(TITLE, [
        KNOWS, 'So go on while bytes are left and wanted is above 0.', f'(0: taken, the record is not whole yet; or {other})',
        'while (len > 0 && (wanted = gorsepetal_events_wanted(reader, sizeof reader)) > 0)', '(ended: from here on wanted is 0)', 'for (written = 0;',
        f'({", ".join(map(str, feed))}: feed\'s, and the reading goes on)', f'({inside}, {other} or {bad})',
        f'After {listed(*feed[:feed.index(kept)])} the relay has not kept the frame', 'and wanted is 0. Events_open begins anew',
        f'- {other} comes as soon as the four bytes of the number are there', 'The first number is 1.',
        f'The last is {last}: behind it no number is one above, and a record more is {other} at {last}.',
        f'- {inside} comes from events_end alone', 'events_end answers 0 and changes nothing',
        f'- {bad} comes from events_open', f'whole 64-bit numbers: {WIDE} ends are {bad}, and not {WIDE % 65536}.',
        f"- {length} comes for each record where the file's ends are not the N of the record in force. It is not {bad}",
        f'write zeros to bytes {count} to {size - 1} of the state', f'not one above the last: {other}.', f'at the end of the file is {inside}.',
        f'ends not {FEW} to {MANY}, above {MOST} status channels, or never opened', f'N comes out whole and from {FEW} to {MANY}',
        'the reading was answered 0 at its end', 'so that the numbers begin with 1', 'the year has to be 1999', 'it has to be 1'])


WIDE = 65538  # ends that 16 bits would take for two


def check_comments():
    """The figures in the comments of the calls for event files."""
    inside, other, bad = numbers('INSIDE_RECORD', 'OTHER_NUMBER', 'BAD_FILE')
    at, frames, room = header.constants('events'), header.constants('samples')['FRAMES'], header.constants('decision')['LENGTH']
    hand, held, ended, frame = (at.get(name) for name in ('HAND', 'HELD', 'ENDED', 'FRAME'))
    last, *_ = header.definition(WRITER, 'last_number').split() or ['']
    never = f'the reading has ended with {bad}: the reader was not opened, or open answered {bad}'
    ends = f'how many ends the file has, {FEW} to {MANY}'
    return sum(say(call, words) for call, words in {
        'events_open': [f'{ends}: it has 3 + 3 x ends analog channels', f'how many status channels it has, 0 to {MOST}',
                        f'ends is below {FEW} or above {MANY}, or status is above {MOST}; so {WIDE} ends, too'],
        'events_wanted': [f'1 to {record_bytes(MANY, MOST)} so many are missing', '0 the reading has ended, or the reader was never opened'],
        'events_read': [never, f'the reading has ended with {other}; or the four bytes', 'not one above its index, which counts from 0',
                        f'the reading has ended with {inside}', f'room for the decision, {room} bytes or more', f'out_len is below {room}',
                        f'fewer than {frames} frames are kept', f'missing among the newest {frames} frames', KNOWS,
                        f'from byte {hand} + (byte {held}) on, and byte {held} counts them too.',
                        f'likewise, byte {ended} is {other}, and byte {held} is as it was.', f'likewise, and byte {held} is 0.',
                        f'its frame stands from byte {frame} on.'],
        'events_end': [never, f'the reading has ended with {other}',
                       f'the reading has ended with {inside}; or it is inside a record: one byte or more', 'Done (0): the file ended between two records, or had no bytes.'],
        'events_write': [ends, f'which is {record_bytes(2, 0)} for two ends and {record_bytes(6, 0)} for six',
                         f'ends is below {FEW} or above {MANY}', 'out_len is below GORSEPETAL_EVENTS_RECORD_BYTES(ends, 0)', f'written is {last} or more: the number would be past {last}',
                         f'{MISSING}, a missing one, becomes 8000 hex'],
    }.items())


# Files that are damaged, and others


def rising(count, ends=2):
    """Frames of which each number tells its place."""
    wide = channels(ends)
    return [to_bytes(range(100 + wide * k, 100 + wide * (k + 1))) for k in range(count)]


def a_file(count, ends=2, groups=b'', times=lambda k: 1250 * k):
    return [event_files.record(ends, k + 1, times(k), frame, groups) for k, frame in enumerate(rising(count, ends))]


def heard(file, ends=2, status=0, kept=0):
    """What is heard of a file in one piece: the number and the place of each answer."""
    return [answer[:2] for answer in event_files.hand_over(event_files.relay_with(kept), event_files.opened(ends, status), [file])]


def check_damage():
    """What the manual says of files that are damaged, of several files through one relay, and of what is not noticed."""
    records = a_file(4)
    file, size = b''.join(records), len(records[0])
    whole, join = heard(file), b''.join
    lost = [file[:at] + file[at + 1:] for at in range(len(file) - 1)]
    put_in = [file[:at] + b'\x07' + file[at:] for at in range(1, len(file))]
    found = {
        'a record before the last is missing': all(heard(join(records[:k] + records[k + 1:]))[-1] == (12, k) for k in range(3)),
        'a byte was lost or put in': all(heard(other)[-1][0] in (11, 12) for other in lost + put_in),
        'a record is cut at the end': all(heard(file[:cut])[-1] == (11, cut // size) for cut in range(len(file)) if cut % size),
        'whole records are lost at the end': all(heard(join(records[:k])) == whole[:k] + [(0, 0)] for k in range(4)),
        'times are not looked at': all(heard(join(a_file(4, times=times))) == whole for times in (lambda k: 0, lambda k: 4294967295 - k)),
        'status bits are not looked at': all(heard(join(a_file(4, groups=bits)), status=5) == whole for bits in (b'\0\0', b'\xff\xff')),
        'ends that are not N': heard(join(a_file(3, ends=3)), ends=3) == [(9, 0)] * 3 + [(0, 0)],
        'a file after a confirmation': heard(join(a_file(16))) == [(10, 0)] * 15 + [(0, 0)] * 2,
        'a file behind another': heard(join(a_file(1)), kept=16) == [(0, 0)] * 2,
    }
    faults.extend(f'{HEADER}: {TITLE} or LIMITS is wrong of this: {what}' for what, is_so in found.items() if not is_so)
    frames = header.constants('samples')['FRAMES']
    rates = ', '.join(f'{hertz * frames} {"samples a second " * (hertz == 50)}at {hertz} Hz' for hertz in (50, 60))
    limits = say('LIMITS', ['Times and status bits are not looked at.', 'A file that lost whole records at its end is not noticed'])
    return len(found) + limits + say(TITLE, [
        'A new file does not empty the window; only a confirmation does.', f"(decided, on this record's frame and the {frames - 1} before it)",
        f'So the first {frames - 1} records of a file are decided on together with frames of the file before', f'10 comes for {frames - 1} records',
        f'one rate, {frames} x frequency ({rates})', f'samp, samples a second, has to be {frames} x frequency', 'N = (A - 3) / 3',
        f'with a timemult of 1 it counts microseconds, and at 50 Hz grows by {1000000 // (50 * frames)} a record'])
