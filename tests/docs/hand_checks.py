"""Holds docs/HAND-CHECKS.md: its sums come out; where it works a root out call by call, each call follows from the next; and where it works
feed out frame by frame, and where several things are wrong at once, it says what the independent program does."""
import re
from pathlib import Path

import rules
from header import answers, placed, wanted_constants
from left import CHANNELS, COUNT, FRAMES, GOOD, LENGTH, MISSING, NUMBERS, call, to_bytes, with_field
from tree import faults, read, tables

from model import measuring  # of tests/independent, where worked.py looks

PAGE = Path('docs/HAND-CHECKS.md')
CREST = to_bytes([400])  # the number that is followed through the state


def wrong(what):
    faults.append(f'{PAGE}: {what}')


def section():
    """The words of "Frame by frame"."""
    m = re.search(r'^## Frame by frame\n(.*?)(?=^## )', read(PAGE), flags=re.DOTALL | re.MULTILINE)
    return ' '.join(m[1].split()) if m else ''


def said(pattern):
    """The number that the section gives in some words; 1 where they are not there."""
    m = re.search(pattern, section())
    if not m:
        wrong(f'frame by frame, there is no "{pattern}"')
    return int(m[1]) if m else 1


# Sums


def check_sums():
    """Each sum whose two sides are numbers, as in 9 · 15 + 3 = 138."""
    found = re.findall(r'(?<![·+] )([-(\d][-\d ·+()²]*[\d)²]) = (-?\d+)(?![\d²]|[.,]\d| [·+-])', ' '.join(read(PAGE).split()))
    found = [(side, result) for side, result in found if re.search(r'[·+²(]|\d - ', side)]
    for side, result in found:
        value = eval(re.sub(r'(\d) \(', r'\1 * (', side).replace('·', '*').replace('²', '**2'))
        if value != int(result):
            wrong(f'{side} is {value}, not {result}')
    return len(found)


# A root, call by call


def call_by_call(n):
    """The rows for n, the last call's last: what each call is asked, gets back, doubles, tries and answers."""
    if n == 0:
        return [['0', '', '', '', '', '0']]
    below = call_by_call(n // 4)
    back = int(below[0][-1])
    more = 2 * back + 1
    fits = more * more <= n
    return [[str(n), str(back), str(2 * back), f'{more}² = {more * more}', 'yes' if fits else 'no', str(2 * back + fits)], *below]


def check_root():
    """The table of the root's calls."""
    found = [[[*row.values()] for row in rows] for rows in tables(PAGE, 'call')]
    for rows in found:
        if rows != [[str(k), *row] for k, row in enumerate(call_by_call(int(rows[0][1])), 1)]:
            wrong(f'the calls for the root of {rows[0][1]} are others')
    if not found:
        wrong('no root is worked out call by call')
    return sum(map(len, found))


# Frame by frame


def frames(count, numbers):
    """So many frames of zeros, but for the numbers that stand by frame, counted from 1, and channel."""
    return [[numbers.get((f, channel), 0) for channel in range(CHANNELS)] for f in range(1, count + 1)]


def run(record, each):
    """Each frame fed to a relay with a full window in which this record was just confirmed: what feed gave back and left."""
    state = record * 2 + to_bytes([FRAMES]) + to_bytes(range(1, 1 + (LENGTH - NUMBERS) // 2))
    state, found = call('confirm', state, record).state_after, []
    for frame in each:
        found.append(call('feed', state, to_bytes(frame), bytes(32)))
        state = found[-1].state_after
    return found


def spread(cell, count, step):
    """What a cell says of each of several frames: `2 to 15` and `4 at 124 to 4 at 16` go on by a step in their last number."""
    first, _, last = cell.partition(' to ')
    head, _, number = first.rpartition(' ')
    each = [f'{head} {int(number) + step * n}'.strip() for n in range(count)] if last else [first] * count
    return each if each[-1] == (last or first) else [cell] * count


def shown(c):
    """The count that a feed left, its answer, the front of its decision, and c of phase a."""
    answer = f'{c.number} at {c.place}' if c.number in placed() else str(c.number)
    front, change = ('', '') if c.number else (c.room_after[:4].hex(' ').upper(), str(c.room_after[wanted_constants()['DECISION_AT_CHANGE_A']]))
    return str(int.from_bytes(c.state_after[COUNT:NUMBERS], 'big')), answer, front, change


def check_rows(rows, found):
    """Each row of a table of frames. Together they have each frame once."""
    told = []
    for row in rows:
        first, _, last = row['fed'].partition(' to ')
        count = int(last or first) - int(first) + 1
        told += zip(range(int(first), int(first) + count), spread(row['count then'], count, 1), spread(row['answer'], count, -CHANNELS),
                    [row['bytes 0 to 3']] * count, [row['byte 5, c of a']] * count)
    wanted = [(f, *shown(c)) for f, c in enumerate(found, 1)]
    for row, other in zip(told, wanted):
        if row != other:
            wrong(f'frame by frame, it has {row}; the independent program gives {other}')
    if len(told) != len(wanted):
        wrong(f'frame by frame, it has {len(told)} frames where {len(wanted)} are fed')
    return len(rows)


def check_steps(c):
    """The differential of a feed, step by step."""
    numbers = measuring.numbers(c.state_after[NUMBERS:NUMBERS + 2 * CHANNELS * FRAMES])
    ends = [measuring.phasors(numbers, 2)[channel] for channel in (3, 6)]
    total, u, slope = measuring.plus(*ends), int.from_bytes(c.room_after[8:12], 'big'), GOOD[3]
    s = measuring.squared(total)
    steps = [f'({p.re}, {p.im})' for p in ends] + [f'he sum is ({total.re}, {total.im}), so s = ', f'= {u}', f'= {s}']
    if c.room_after[1]:
        change, left = c.room_after[wanted_constants()['DECISION_AT_CHANGE_A']], 40960000 * s
        at, next_ = (f'above ({slope} · {u})² = {slope * u}² = {(slope * u) ** 2}' for slope in (change, change + 1))
        steps += [f'40960000 · {s} = {left} is above ({slope} · {u})² = {slope * u}² = {(slope * u) ** 2}',
                  f'| c | {change}: it is {at}, and not {next_} |']
    for step in steps:
        if step not in section():
            wrong(f'frame by frame, there is no "{step}"')
    return len(steps)


def check_places(found):
    """Where a number lies in the state as the window moves on, when it is moved out, and what lies behind."""
    places = re.findall(r'[Aa]fter frame (\d+)(?: it is)? number (\d+)(?: = [^,]*)?, bytes (\d+) and (\d+)', section())
    for f, k, first, second in (map(int, place) for place in places):
        if found[f - 1].state_after[first:second + 1] != CREST or (first, second) != (NUMBERS + 2 * k, NUMBERS + 2 * k + 1):
            wrong(f'frame by frame, after frame {f} number {k} is not in bytes {first} and {second}')
    out = said(r'Frame (\d+) moves it out')
    if [CREST in c.state_after[NUMBERS:] for c in found[out - 2:out]] != [True, False]:
        wrong(f'frame by frame, the number is not moved out by frame {out}')
    behind = NUMBERS + 2 * CHANNELS * FRAMES
    for words in (f'The count is in state bytes {COUNT} and {COUNT + 1}, and number k of the window in bytes {NUMBERS} + 2k and {NUMBERS + 1} + 2k',
                  f'{CHANNELS * FRAMES} numbers, up to byte {behind - 1}; bytes {behind} to {LENGTH - 1} stay 0'):
        if words not in section() or any(any(c.state_after[behind:]) for c in found):
            wrong(f'frame by frame, there is no "{words}"')
    return len(places) + 3


def check_fed():
    """Both histories, the decision at the frames that are worked out, and where the numbers lie."""
    record = with_field(GOOD, 4, said(r'with pickup (\d+)'))
    numbers = {(int(row['frame']), int(heading.split()[-1])): MISSING if cell == 'missing' else int(cell)
               for rows in tables(PAGE, 'frame') for row in rows for heading, cell in row.items() if 'channel' in heading}
    found = run(record, frames(said(r'Then (\d+) frames are fed'), numbers))
    again = run(record, frames(said(r'once more, and (\d+) frames are fed'), {(said(r'in frame (\d+) Ib of end 2 is missing'), 7): MISSING}))
    histories = tables(PAGE, 'fed')
    if len(histories) != 2:
        wrong('frame by frame, two tables of frames should stand')
    worked = [int(f) for f in re.findall(r'\*\*At frame (\d+)\.\*\*', section())]
    return (sum(check_rows(rows, each) for rows, each in zip(histories, (found, again))) + sum(check_steps(found[f - 1]) for f in worked)
            + check_places(found))


# Several things wrong at once


def first_number(cell):
    return int((re.match(r'\d+', cell) or ['0'])[0])


def check_order(name, slice_, rows):
    """Each row is what a call answers to slices of these lengths, with these numbers missing. Each check of the call stands in its order."""
    for row in rows:
        force, size = GOOD if row['settings in force'] == 'yes' else bytes(32), first_number(row[slice_])
        state = (force.ljust(COUNT, b'\0') + to_bytes([first_number(row.get('kept before', ''))])).ljust(LENGTH, b'\0')
        missing = rules.numbers(row.get('missing', row.get('missing in the frame', '')))
        lent = to_bytes([MISSING if k in missing else 0 for k in range(size // 2 + 1)])[:size]
        c = call(name, state[:first_number(row['state'])], lent, bytes(first_number(row['room'])))
        _, answer, *_ = shown(c)
        left = re.search(r'and (\d+) in the state', row['answer'])
        if re.split('[:,]', row['answer'])[0] != answer or left and left[1] != shown(c)[0]:
            wrong(f'{name} is said to answer "{row["answer"]}"; it is {answer}')
    told = [*dict.fromkeys(first_number(row['answer']) for row in rows)]
    if told != [number for number in answers()[name] if number] + [0]:
        wrong(f'the table of what {name} answers has {told}; the source has {[*answers()[name]]}')
    return len(rows)


def check_orders():
    named = {'window': 'decide', 'frame': 'feed'}
    found = {slice_: rows for rows in tables(PAGE, 'state') for slice_ in named if slice_ in rows[0]}
    if found.keys() != named.keys():
        wrong('a table of what decide or feed answers is missing')
    return sum(check_order(named[slice_], slice_, rows) for slice_, rows in found.items())
