"""Holds docs/RULES.md to the source. Each rule has its number, the request that changed it last, and a definition. Its figures are those of
the definitions that it names, or of a section of the manual. Its tables and drawings say what the source says, as far as that can be read
off. The examples before the rules follow from their own formulas."""
import math
import re
from functools import cache
from itertools import groupby
from pathlib import Path
from typing import NamedTuple

import header
import manual
from tree import ROOT, fault, faults, read, tables

PAGE = Path('docs/RULES.md')
SESSION = Path('crates/session/src/lib.rt')
DIFFERENTIAL = Path('crates/differential/specs/Differential.antt')
RATE = Path('crates/phasors/specs/Rate.antt')
MHO = Path('crates/distance/specs/Mho.antt')
PROGRAM = Path('crates/report/specs/Program.antt')
OURS = 'ours'  # what neither document 01 nor a request has; the manual has it


class Rule(NamedTuple):
    at: int  # where its row begins in the page
    number: int
    cells: dict  # by the heading of their column


@cache
def rules():
    """The rules of the page: each row that begins with R and a number."""
    found, heading, at = [], [], 0
    for line in read(PAGE).splitlines(keepends=True):
        cells = [cell.strip() for cell in line.strip().strip('|').split('|')]
        if line.startswith('| rule |'):
            heading = cells
        elif m := re.match(r'\| R(\d+) \|', line):
            found.append(Rule(at, int(m[1]), dict(zip(heading, cells)) if len(cells) == len(heading) else {}))
        at += len(line)
    return found


def columns(*names):
    """What stands in some columns of the tables that have them all, rule by rule."""
    return [[rule.cells[name] for name in names] for rule in rules() if all(name in rule.cells for name in names)]


def table(first):
    """The rows of the table that has this heading above its first column."""
    return next(iter(tables(PAGE, first)), [])


def compare(what, found, wanted):
    for n, (row, other) in enumerate(zip(found, wanted)):
        if row != other:
            faults.append(f'{PAGE}: {what}, row {n + 1} has {row}; the source has {other}')
    if len(found) != len(wanted):
        faults.append(f'{PAGE}: {what} has {len(found)} rows; the source has {len(wanted)}')
    return len(found)


def named(rule):
    return re.findall(r'`([^`]+)`', rule.cells.get('definition', ''))


def in_manual(rule):
    """The section of the manual that a rule of ours names."""
    return manual.section(rule.cells.get('definition', '')) if rule.cells.get('by') == OURS else ''


def numbers(text):
    return [int(n) for n in re.findall(r'-?\b\d+\b', text)]


def drawn():
    """The lines of the drawings."""
    return '\n'.join(re.findall(r'^```text\n(.*?)^```', read(PAGE), flags=re.DOTALL | re.MULTILINE))


# What the definitions say


@cache
def definitions():
    """The text of each definition of the specs by name, to the next empty line; of a name that several files declare, all of them. A field or a
    constructor counts only where no definition has its name."""
    found, inner, word = {}, {}, r'(?:abbrev|unfoldable|pub|record|data)'
    for path in sorted((ROOT / 'crates').glob('*/specs/**/*.antt')):
        text = re.sub(r'--[^\n]*', '', path.read_text(encoding='utf-8')) + '\n\n'
        for m in re.finditer(rf'^( *)(?:{word} +)*([^\s:={{}}()]+)(?: +[({{][^\n]*[)}}])? +:(?=\s)', text, flags=re.MULTILINE):
            into = inner if m[1] else found
            into[m[2]] = into.get(m[2], '') + text[m.start():text.index('\n\n', m.start())] + '\n'
    return inner | found


@cache
def constants():
    """The definitions that are a number: as a numeral, or as a sum of products of such definitions and of windows' lengths."""
    found = {name: re.search(rf'^{re.escape(name)} = ([\w ()+*]+)$', text, flags=re.MULTILINE) for name, text in definitions().items()}
    written = {name: re.sub(r'\bwindow_length (\d)', lambda m: f'frames * {header.channels(int(m[1]))}', m[1]) for name, m in found.items() if m}

    def value(expression):
        names = {name: value(written[name]) if name in written else None for name in re.findall(r'[^\W\d]\w*', expression)}
        return None if None in names.values() or not re.fullmatch(r'\w+( [+*] \w+)*', expression) else eval(expression, names)

    values = {name: value(expression) for name, expression in written.items()}
    return {name: number for name, number in values.items() if number is not None}


@cache
def figures(name, further=1):
    """The numbers in a definition, in the constants and of the answers that it names, and in the definitions that it names."""
    text = re.sub(r'\bnegsuc (\d+)', lambda m: str(int(m[1]) + 1), definitions().get(name, ''))
    words = set(re.findall(r'[^\s(){},;.]+', text)) - {name}
    given = re.findall(r'^number \(Err \(?(\w+)(?: at\))?\) = (\d+)$', definitions()['number'], flags=re.MULTILINE)
    known = {**constants(), **{answer: int(n) for answer, n in given}}
    found = {abs(n) for n in numbers(text)} | {known[word] for word in {name, *words} if word in known}
    return found.union(*(figures(word, further - 1) for word in words if further and word in definitions()))


def lengths():
    return [constants()['frames'] * header.channels(ends) for ends in range(2, constants()['most_ends'] + 1)]


def worked_out(name):
    """What the figures of a definition come to, where the page has the result."""
    band, longest = constants()['band'], lengths()[-1]
    *_, count, first, end = header.state_offsets()
    return {
        'window_length': set(lengths()) | {2 * length for length in lengths()},
        'Above': {100 * band}, 'NotBelow': {band}, 'one_and_a_half': figures('sixteen', 0),
        'numbers_of_frame': {2 * header.channels(ends) for ends in range(2, constants()['most_ends'] + 1)},
        'window_at': {count, first - 1, first, end - 1, longest}, 'none': {longest}, 'emptied': {end - count},
        'kept_answer': {constants()['frames'] - 1},
        'groups': {header.record_bytes(ends, status) for ends in range(2, 7) for status in (0, 96)},
        'ChangeMovesThree': {constants()['decision_length'] - 1}, 'AtAnotherR': {constants()['decision_length'] - 1},
        'phase_byte': {*header.quadrilaterals().values()},
    }.get(name, set())


# Checks


def fields():
    """The numbers of the rules that the table of fields has."""
    return [rule.number for rule in rules() if 'at' in rule.cells]


def later_fields():
    """Those of them that do not follow the one before: fields that are newer than the page's other rules."""
    return {n for before, n, after in zip(fields(), fields()[1:], fields()[2:]) if after == before + 1 and n > after}


def requests():
    """What may have changed a rule: document 01, the requests that the page says are in this version, or neither."""
    last = re.search(r'In this version are CR 1 to CR (\d+), and no other', ' '.join(read(PAGE).split()))
    return ['01', OURS] + [f'CR {n}' for n in range(1, int(last[1]) + 1 if last else 1)]


def check_rules():
    """Rules count up from 1; the table of fields goes by offset, so in it a rule may have a later number. Each says what changed it last, and
    names definitions or a section of the manual. A rule that is referred to is there. The page has the newest version."""
    text, known = read(PAGE), definitions().keys() | set(re.findall(r'\bfn (\w+)', read(SESSION)))
    later = later_fields()
    counted = (n for n in range(1, len(rules()) + 1) if n not in later)
    for rule in rules():
        n = rule.number if rule.number in later else next(counted, 0)
        by = rule.cells.get('by')
        wrong = [
            (not rule.cells, 'has not as many cells as its table has columns'),
            (rule.number != n, f'stands where R{n} should'),
            (by not in requests(), f'is by "{by}", which is neither 01 nor a request of this version nor "{OURS}"'),
            (by == OURS and not in_manual(rule), f'names "{rule.cells.get("definition")}", where a section of the manual should stand'),
            (by != OURS and not named(rule) or not set(named(rule)) <= known, f'names {named(rule)}, where definitions should stand'),
        ]
        for is_so, what in wrong:
            if is_so:
                fault(PAGE, text, rule.at, f'R{rule.number} {what}')
    for m in re.finditer(r'\bR(\d+)\b', text):
        if not 1 <= int(m[1]) <= len(rules()):
            fault(PAGE, text, m.start(), f'there is no rule {m[0]}')
    version = header.version()['VERSION'].strip('"')
    if f'\n\nVersion {version}. ' not in text:
        faults.append(f'{PAGE}: it does not begin with "Version {version}."')
    return len(rules())


def check_figures():
    """Each number from 10 up in a rule, its unit apart, is in a definition that it names, or follows from it, or is in the section of the
    manual that it names."""
    count, apart = 0, {'rule', 'at', 'bytes', 'reader bytes', 'bit', 'answer', 'unit', 'by', 'definition'}
    for rule in rules():
        said = ' '.join(cell for column, cell in rule.cells.items() if column not in apart)
        wanted = set(map(abs, numbers(in_manual(rule)))).union(*(figures(name) | worked_out(name) for name in named(rule)))
        for n in numbers(re.sub(r'8000 hex|bytes (?:80 00|00 80)', '', said)):
            count += abs(n) >= 10
            if abs(n) >= 10 and abs(n) not in wanted:
                fault(PAGE, read(PAGE), rule.at, f'R{rule.number} has {n}, which is in none of {named(rule) or rule.cells["definition"]}')
    return count + check_back()


def check_back():
    """What the table of ways back from counts gives as examples comes out of its formulas, with the figures that the manual has too."""
    text, rows = read(PAGE), table('you have')
    given = re.search(r'The examples have (.*?)\.\n', text)
    known = {name: float(value) for name, value in re.findall(r'(\w+) = (\d+)', given[1] if given else '')}
    ours = manual.plain('A LINE OF THREE ENDS, WORKED OUT'), manual.plain('UNITS')
    wanted = re.findall(r'\b(c[vi]) = (\d+) counts', ours[0]) + [*zip(('CT', 'VT'), re.findall(r'\d+/\d+ [AV] is (\d+)', ours[1]))]
    compare('the figures of the examples', sorted(known.items()), sorted((name, float(value)) for name, value in wanted))
    for row in rows:
        given, _, result = row['example'].rpartition(': ')
        values = {name: float(value) for name, value in re.findall(r'(\w+) = (-?[\d.]+)', given)}
        formula = row['formula'].replace('·', '*').replace('²', '**2').replace('√', 'sqrt')
        if not re.fullmatch(r'[\w\s()+*/.-]+', formula) or not set(re.findall(r'[a-zA-Z]+', formula)) <= {*known, *values, 'sqrt'}:
            faults.append(f'{PAGE}: "{row["example"]}" has not what its formula needs')
            continue
        shown, exact = result.split()[0], eval(formula, {'sqrt': math.sqrt, **known, **values})
        if shown != f'{exact:.{len(shown.partition(".")[2])}f}':
            faults.append(f'{PAGE}: "{row["example"]}" does not come out; it is {exact:.4f}')
        if (written := re.match(r'((?:[0-9A-F]{2} ){4})is value', given)) and int(written[1].replace(' ', ''), 16) != values['value']:
            faults.append(f'{PAGE}: "{row["example"]}" has another value than its bytes')
    return len(rows)


def limits(rule):
    """What the table of fields has of a rule: its offset, from, to. Of one on two fields the offset is the later one's."""
    kind, *words = rule.split()
    if kind == 'Below':
        return words[1:] + ['', '']
    if kind == 'OffOrFrom':
        other, at, high = words
        named = [row.cells['field'].split()[-1] for row in rules() if row.cells.get('at') == other]
        return [at, f'0, or {named[0] if named else other}', high]
    return words[-3:]


def check_settings():
    """The table of fields is that of crates/settings: rows, offsets, limits. The rules on the checks name all of its rules."""
    text, wanted = read(manual.TABLE), []
    names = re.findall(r'\b\w+_row\b', ' '.join(re.findall(r'^\w+_rows = (.*)$', text, flags=re.MULTILINE)))
    for is_byte, group in groupby(manual.settings_rules(), key=lambda rule: rule.startswith('Byte ')):
        for rule in group:
            rule = re.sub(r'\(offset_of (\w+)\)', lambda m: re.search(rf'^{m[1]} = \w+ (\d+)', text, flags=re.MULTILINE)[1], rule)
            words = limits(rule)
            if not is_byte or wanted[-1][3] != 'spare_rows':
                wanted.append(words + ['spare_rows' if is_byte else names[len(wanted)]])
            else:
                wanted[-1][0] = f'{wanted[-1][0].split()[0]} to {words[0]}'
    found = [row[:3] + [row[3].strip('`')] for row in columns('at', 'from', 'to', 'definition')]
    first, *_, last = fields() or [0, 0]
    for rule in rules():
        if {'checked_by', 'GoodRecord'} & set(named(rule)):
            missing = [words for words in (f'R{first} to R{last}', *(f'R{n}' for n in later_fields())) if words not in rule.cells['now']]
            for words in missing:
                fault(PAGE, read(PAGE), rule.at, f'R{rule.number} does not name {words}, of the table of fields')
    return compare('the table of fields', found, wanted)


def check_answers():
    """The tables of numbers have those of crates/answers, each with its calls, and a place where it has one. Each call's order of checks,
    what each answer leaves, and the drawing of the two entries have the numbers that the call gives."""
    given = header.answers()
    wanted = [[number, name, number in header.placed(), sorted(call for call in given if number in given[call])]
              for name, number in header.public('answers').items()]
    found = [[int(number), name, place != '0', sorted(calls.split(', '))]
             for number, name, place, calls in columns('number', 'name', 'place', 'calls')]
    count = compare('the table of numbers', sorted(found), sorted(wanted))
    compare('the orders of the checks', sorted([call, numbers(order)] for call, order in columns('call', 'order of its checks')),
            sorted([call, [number for number in rows if number]] for call, rows in given.items()))
    left = columns('call', 'answer')
    for call, rows in given.items():
        told = {n for calls, answer in left if call in calls.split(', ') for n in numbers(answer)}
        if told != set(rows):
            faults.append(f'{PAGE}: what {call} leaves is told of {sorted(told)}; it gives {list(rows)}')
    arrows = re.findall(r'\b(propose|confirm): (\d(?:, \d)*)', drawn())
    for call in ('propose', 'confirm'):
        told = {n for name, answer in arrows if name == call for n in numbers(answer)}
        if told != set(given[call]) - {17}:
            faults.append(f'{PAGE}: the drawing of the two entries has {call}: {sorted(told)}')
    return count + check_said()


def meant(number, place):
    """What the row of a number has to name: the rules of the field at its place; the sample there as its N, frame, channel and name; how many
    frames or bytes there should be; the record of an event file, and its number."""
    known, frames = header.public('answers'), constants()['frames']
    if number in (known['OUT_OF_RANGE'], known['DIFFERS']):
        field = place - place % 2 if number == known['DIFFERS'] else place
        return ' or '.join(f'R{rule.number}' for rule in rules() if rule.cells.get('at') == str(field)) + ':'
    if number == known['MISSING_SAMPLE']:
        frame, channel = divmod(place, header.channels(2))
        name = f'I{"abc"[channel % 3]} of end {channel // 3}' if channel >= 3 else f'V{"abc"[channel]}'
        return f'N = 2: frame {frame}, channel {channel}, {name}'
    return {
        known['TOO_FEW_FRAMES']: f'fewer than {frames} frames', known['INSIDE_RECORD']: f'inside record {place},',
        known['OTHER_NUMBER']: f'the sample number of record {place} is not {place + 1}',
        known['NO_RELAY']: f'the state is not {constants()["state_length"]} bytes, or the reader not {constants().get("reader_length")};',
    }.get(number, '')


def check_said():
    """What the relay says: each number of crates/answers, with a place where it has one; what C gets of it; what it names. Divisions that
    leave something over come out, and are by the weight of a place or by the channels of a window."""
    rows, weight = table('said'), header.constants('answers')['PLACE_WEIGHT']
    said = [numbers(row['said']) for row in rows]
    compare('what the relay says', [*dict.fromkeys(number for number, *_ in said)], [*header.public('answers').values()])
    for row, (number, *place) in zip(rows, said):
        at = place[0] if place else 0
        wrong = [
            (row['said'] != (f'{number} at {at}' if number in header.placed() else str(number)), 'its place'),
            (row['C gets'] != str(weight * at + number), f'what C gets, {weight * at + number}'),
            (meant(number, at) not in row['means'], f'"{meant(number, at)}"'),
        ]
        faults.extend(f'{PAGE}: the row "{row["said"]}" of what the relay says lacks {what}' for is_so, what in wrong if is_so)
    divided = [[*map(int, m)] for m in re.findall(r'(\d+) / (\d+) is (\d+), (\d+) left over', read(PAGE))]
    for whole, by, *result in divided:
        if tuple(result) != divmod(whole, by) or by not in (weight, header.channels(2)):
            faults.append(f'{PAGE}: {whole} / {by} does not give {result}')
    return len(rows) + len(divided)


def check_measuring():
    """The lines of the cosines and the sines, the window that is drawn, its lengths and those of a frame, where a converter clips, and what is
    stored and fed in place of what was lost."""
    line = {name: numbers(rest) for name, rest in re.findall(r'^([CS])\[n\](.*)$', drawn(), flags=re.MULTILINE)}
    entries = re.findall(r'(neg_ℤ \()?pos (\d+)', header.definition(RATE, 'cosines'))
    table = [-int(n) if minus else int(n) for minus, n in entries]
    shift = int(re.search(r'shift = (\d+)', definitions()['sixteen'])[1])
    compare('the line of the cosines', line.get('C', []), table)
    compare('the line of the sines', line.get('S', []), table[shift:] + table[:shift])
    head = re.search(r'^N = (\d+): (\d+) channels, (\d+) numbers', drawn(), flags=re.MULTILINE)
    ends, *shown = map(int, head.groups() if head else (0, 0, 0))
    wide = header.channels(ends)
    compare('the window that is drawn', shown, [wide, constants()['frames'] * wide])
    frames = [numbers(m) for m in re.findall(r'^frame +(\d.*?)(?:  +[a-z]+)?$', drawn(), flags=re.MULTILINE)]
    compare('the indexes that are drawn', frames, [[f, *range(f * wide, (f + 1) * wide)] for f, *_ in frames])
    told = [numbers(rule.cells['now'].partition(':')[2]) for rule in rules() if ['window_length'] == named(rule) and 'now' in rule.cells]
    compare('the lengths of windows', told, [lengths() + [2 * length for length in lengths()]])
    told = [numbers(rule.cells['now'].partition('bytes:')[2]) for rule in rules() if 'numbers_of_frame' in named(rule)]
    compare('the lengths of frames', told, [[2 * header.channels(ends) for ends in range(2, constants()['most_ends'] + 1)]])
    largest, most = -header.constants('samples')['MISSING'] - 1, constants()['frames']
    *_, count, _, end = header.state_offsets()
    for words in (f'must clip at -{largest} and {largest}', f'the stored bytes 0 to {count - 1} hold',
                  f'marks: 4 for {most} frames; or zeros in state bytes {count} to {end - 1}: 10 for {most - 1} frames'):
        if words not in read(PAGE):
            faults.append(f'{PAGE}: it does not say "{words}"')
    return len(table) + len(frames)


# How the page begins to tell of a decision's parts, by the names that the header has for them
CONTENT = {'TRIP': 'trip', 'PHASES': 'phases', 'LOOPS': 'loops', 'DIRECTION': 'direction', 'SECOND': 'second zone',
           'CHANGE': 'c of a, of b, of c', 'RESTRAINT': 'restraint U', 'DIFFERENTIAL': '⌊√(4096 s)⌋'}


def check_decision():
    """The bytes of a decision, the bits of phases and loops, the numbers of directions; V, I and Vp of each loop."""
    parts = {at + k: name.split('_')[2] for name, (at, length) in header.decision_parts().items() for k in range(length)}
    wanted, rows = [], columns('bytes', 'content')
    for name, group in groupby(range(constants()['decision_length']), key=parts.get):
        first, *_, last = [*group] * 2
        wanted.append([f'{first} to {last}' if first < last else str(first), CONTENT.get(name)])
    found = [[place, next((word for word in CONTENT.values() if text.startswith(word)), text)] for place, text in rows]
    compare('the decision', found, wanted)
    said = ' '.join(text for _, text in rows)
    bits = [f'{bit} for {phase.lower()}' for phase, bit in header.weights(DIFFERENTIAL, 'operating_bits').items()]
    beside = 'and quadrilaterals that operate: ' + ', '.join(f'{bit} for {name}' for name, bit in header.quadrilaterals().items())
    directions = [f'{name.removeprefix("DIRECTION_").lower()} {number}' for name, number in header.directions().items()]
    faults.extend(f'{PAGE}: the decision does not say "{words}"' for words in (', '.join(bits), beside, ', '.join(directions)) if words not in said)
    compare('the bits of the loops', columns('loop', 'bit'), [[loop, str(bit)] for loop, bit in header.weights(MHO, 'loop_bits').items()])
    loops = header.six_loops()
    compare('the loops', columns('loop', 'V', 'I', 'Vp'), loops)
    return len(wanted) + len(loops)


def check_lines():
    """The lines of the window program, as crates/report has them."""
    wanted = re.findall(r'text "([^"]*)\\n"', read(PROGRAM))
    found = re.findall(r'`([^`\n]*#[^`\n]*)`', read(PAGE))
    return compare('the lines of the window program', sorted(found), sorted(wanted))


def check_events():
    """Of event files: the lengths of records, the parts of a reader, the record and the reader that are drawn, and figures that no definition
    has alone."""
    told = [numbers(rule.cells['now'].partition(': ')[2]) for rule in rules() if {'record_length', 'groups'} <= set(named(rule))]
    every = range(2, constants()['most_ends'] + 1)
    lengths_of = {status: [header.record_bytes(ends, status) for ends in every] for status in (0, 96)}
    compare('the lengths of records', told, [[*lengths_of[0], 96, *lengths_of[96]]])
    parts, reader = sorted(header.reader_parts().values()), header.constants('events')
    found = [cell for cell, in columns('reader bytes')]
    wanted = [f'{first} to {end - 1}' if first + 1 < end else str(first) for first, end in parts]
    count = compare('the parts of a reader', found, [*wanted, f'all {reader.get("LENGTH")}'])
    known, *_, begin, _, end = header.public('answers'), *header.state_offsets()
    inside, other, bad = (known.get(name) for name in ('INSIDE_RECORD', 'OTHER_NUMBER', 'BAD_FILE'))
    ended, held = reader.get('ENDED'), reader.get('HELD')
    said = [f'2 to 6 ends, and at most 96 status channels; else {bad} |', f'the first is 1; else {other}, as soon as these four are there',
            f'whatever comes behind it is {other} at 4294967295', f'with as many records before, or more, it answers {other}',
            '| time | its bytes 4 to 7:',
            f'| {inside}, {other}, {bad} | end the reading', f'be it one byte: {inside}. Between records, and without bytes: 0,',
            f'0 for nothing, {inside} or {other} |', f'ended with {other} or {inside} by byte {ended}; else, if byte {ended} is 0,',
            f'zeros in state bytes {begin} to {end - 1}', f'{constants()["frames"]} · line frequency', 'N = (A - 3) / 3, and D status channels',
            f'and byte {held} counts them; where {other} is found, byte {held} stays.', f'and byte {held} is 0.', '| 9 for each record |']
    page = ' '.join(read(PAGE).split())
    faults.extend(f'{PAGE}: it does not say "{words}"' for words in said if words not in page)
    return count + len(told) + len(said) + check_drawn_record()


def check_drawn_record():
    """The record of two ends that is drawn: its bytes, and where its reader holds them."""
    line = {name: [*zip(*[iter(numbers(rest))] * 2)] for name, rest in re.findall(r'^(record|reader) +(\d.*)$', drawn(), flags=re.MULTILINE)}
    head = re.search(r'^A record of two ends with (\d+) status channels, (\d+) bytes', drawn(), flags=re.MULTILINE)
    status, length = map(int, head.groups() if head else (0, 0))
    bare, whole, reader = header.record_bytes(2, 0), header.record_bytes(2, status), header.constants('events')
    first = bare - 2 * header.channels(2)
    blocks = [(at, at + 5) for at in range(first, bare, 6)]
    index, time, frame = (reader.get(name, 0) for name in ('INDEX', 'TIME', 'FRAME'))
    compare('its length', [length], [whole])
    compare('the bytes of the record that is drawn', line.get('record', []), [(0, 3), (4, 7), *blocks, (bare, whole - 1)])
    compare('the bytes of its reader', line.get('reader', []),
            [(index, index + 3), (time, time + 3), *((at - first + frame, last - first + frame) for at, last in blocks)])
    return sum(map(len, line.values()))
