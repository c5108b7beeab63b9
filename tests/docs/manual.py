"""Holds the manual, which is the first comment of include/gorsepetal.h: its tables and the figures of its rules to the source, and the
figures of its limits to the transform."""
import cmath
import math
import re
from itertools import groupby
from pathlib import Path

from header import (HEADER, answers, constants, decision_offsets, decision_parts, directions, exported, header, placed, public,
                    quadrilaterals, reader_parts, six_loops, state_offsets, wanted_constants, weights)
from tree import blank, fault, faults, read

TABLE = Path('crates/settings/specs/Table.antt')
SEQUENCE = Path('crates/direction/specs/Sequence.antt')
COLUMNS = 100
COUNTS = {'events_wanted'}  # what gives back a count, and no answer of the table


def section(title):
    """A section of the manual, from its title to the next."""
    m = re.search(rf'^\*\* {re.escape(title)}\n\*\*\n(.*?)(?=^\*\* [A-Z][A-Z\', ]+\n\*\*\n|^\*/)', read(HEADER), flags=re.DOTALL | re.MULTILINE)
    if not m:
        faults.append(f'{HEADER}: the manual has no section {title}')
    return m.group(1) if m else ''


def words(text):
    """The words of a comment, a space between any two."""
    return ' '.join(re.sub(r'^\*\*', '', text, flags=re.MULTILINE).split())


def plain(title):
    """A section's words."""
    return words(section(title))


def comments():
    """The comment above each call, by the call's name."""
    return {m[2]: m[1] for m in re.finditer(r'/\*((?:(?!\*/).)*)\*/\s*uint64_t gorsepetal_(\w+)\(', read(HEADER), flags=re.DOTALL)}


def check_columns():
    lines = read(HEADER).splitlines()
    faults.extend(f'{HEADER}:{n}: {len(line)} columns' for n, line in enumerate(lines, 1) if len(line) > COLUMNS)
    return len(lines)


# Tables


def check_number_table():
    """The table of numbers is that of crates/answers: each with its name, and a place where it has one. Who gives what, and in which order,
    is what the crates state; each call's comment lists its checks in that order too, each with or without a place. The numbers that are said
    to be free are."""
    text, given = section('WHAT COMES BACK'), answers()
    rows = re.findall(r'^\*\*   (\d+)\s+([A-Z_]+)\s.*?\s{2,}(0|(?:index|offset) of \w+)$', text, flags=re.MULTILINE)
    found = [(int(number), name, place != '0') for number, name, place in rows]
    wanted = [(number, name, number in placed()) for name, number in public('answers').items()]
    if found != wanted:
        faults.append(f'{HEADER}: the table of numbers has {found}; the source has {wanted}')
    calls = {call: [int(number) for number in order.split(', ')]
             for call, order in re.findall(r'^\*\*   ([a-z_]+) +((?:\d+, )*\d+)$', text, flags=re.MULTILINE)}
    orders = {call: [number for number in numbers if number] for call, numbers in given.items()}
    if calls != orders:
        faults.append(f'{HEADER}: the calls are said to give {calls}; the source has {orders}')
    free = [number for number in range(18) if number not in public('answers').values()]
    if free and f'{free[0]} to {free[-1]} are not in use' not in plain('WHAT COMES BACK'):
        faults.append(f'{HEADER}: WHAT COMES BACK does not say that {free[0]} to {free[-1]} are not in use')
    for call, comment in comments().items():
        listed = re.findall(r'^\*\*   (\d+) +(?:at (0|index|offset)|state_len|reader_len) ', comment, flags=re.MULTILINE)
        order = [(number, placed) for number, placed in given.get(call, {}).items() if number]
        if [(int(number), place not in ('', '0')) for number, place in listed] != order:
            faults.append(f'{HEADER}: {call} lists the checks {listed}; the source has {order}')
    declared = {name.removeprefix('gorsepetal_') for name in exported()}
    if comments().keys() != declared or given.keys() != declared - COUNTS:
        faults.append(f'{HEADER}: {[*comments()]} have a comment, and answers are stated of {[*given]}; the source exports {sorted(declared)}')
    return len(rows) + len(calls)


# The state and feed


def check_state():
    """The parts of the state as they are drawn. Where the manual and the calls' comments speak of bytes of the state, they are whole parts of
    it, and its length is the source's. The same of the reader, which alone the comments of the calls for event files speak of so."""
    offsets, text = state_offsets(), section("THE RELAY'S STATE")
    *begins, length = offsets
    drawn = [[int(at) for at in row] for row in re.findall(r'^\*\*   bytes (\d+) to (\d+)  ', text, flags=re.MULTILINE)]
    if drawn != [[first, last - 1] for first, last in zip(offsets, offsets[1:])]:
        faults.append(f'{HEADER}: the state is drawn as {drawn}; its parts begin at {begins}, and it has {length} bytes')
    told = {"THE RELAY'S STATE": words(text), 'FRAME BY FRAME': plain('FRAME BY FRAME'), **{call: words(text) for call, text in comments().items()}}
    reader = [*dict.fromkeys(at for part in reader_parts().values() for at in part)]
    for where, said in told.items():
        known = reader if where.startswith('events_') else offsets
        parts = re.findall(r'\b[Bb]ytes (\d+) (?:to|and) (\d+)', said)
        faults.extend(f'{HEADER}: {where} has bytes {first} to {last}, which are no parts of what is lent' for first, last in parts
                      if int(first) not in known or int(last) + 1 not in known)
        lengths = re.findall(r'(?:A relay is|the relay,|state_len is not|begin again with|with all) (\d+)', said)
        lent = 2 if f'gorsepetal_{where}' in exported() and '_t *state,' in exported()[f'gorsepetal_{where}'] else 0
        if set(lengths) - {str(length)} or where in comments() and len(lengths) != lent:
            faults.append(f'{HEADER}: {where} has {lengths} for the length of the state, which is {length}')
    for where, wanted, count in (("THE RELAY'S STATE", f'{length - begins[2]} zero bytes behind them', 2),
                                 ("THE RELAY'S STATE", f'store the two records, bytes 0 to {begins[2] - 1}, in permanent memory', 1),
                                 ('WHAT COMES BACK', f'state not {length} bytes', 1), ('feed', f'from byte {begins[3]} on', 1)):
        if (told.get(where) or plain(where)).count(wanted) != count:
            faults.append(f'{HEADER}: "{wanted}" should stand {count} times in {where}')
    return len(drawn) + len(told)


def check_feeding():
    """Where the frames of two ends lie in the state, as they are drawn; and what is said of how many frames are answered 10 and 4."""
    frames, (*_, count, numbers, length) = constants('samples')['FRAMES'], state_offsets()
    size, text = 2 * (3 + 3 * 2), plain('FRAME BY FRAME')
    places = [(count, numbers), *((numbers + size * f, numbers + size * (f + 1)) for f in (0, 1, frames - 1)), (numbers + size * frames, length)]
    first, second, *middle, last, behind = (f'{begin} to {end - 1}' for begin, end in places)
    lasts = [f'{1000 * (frames - 1) / (frames * hertz):g} ms at {hertz} Hz' for hertz in (50, 60)]
    wanted = [
        f'bytes {first} {second} {" ".join(middle)} .. {last} {behind} the count frame 0, oldest frame 1 frame {frames - 1}, newest behind',
        f'the first {frames}(3 + 3N) of the {(length - numbers) // 2} numbers are {frames} frames',
        f'answers 10 to the next {frames - 1} frames, and decides at the {frames}th',
        f'no decision by feed for {frames - 1} sample times, {lasts[0]} and {lasts[1]}',
        f'among the {frames}, which is {frames} frames in a row, and its place falls by 3 + 3N with each',
        f'one of the first {frames - 1} frames shows at the {frames}th: 10 stands before 4',
        f'on this frame and the {frames - 1} before it', f'4 comes for {frames} frames', f'10 comes for {frames - 1} frames',
    ]
    faults.extend(f'{HEADER}: FRAME BY FRAME does not have "{words}"' for words in wanted if words not in text)
    if f'fewer than {frames} frames yet' not in plain('WHAT COMES BACK'):
        faults.append(f'{HEADER}: the table of numbers does not say "fewer than {frames} frames yet"')
    of_confirm = f'Feed answers 10 to the next {frames - 1} frames, so there is no decision by feed for {frames - 1}/{frames} of a cycle'
    of_feed = [f'fewer than {frames} frames are kept, this one counted', f'missing among the newest {frames} frames',
               f'of the first {frames}(3 + 3N) numbers', f'at most {frames}; a count above {frames} reads as {frames}']
    for call, sentences in (('confirm', [of_confirm]), ('feed', of_feed)):
        faults.extend(f'{HEADER}: the comment of {call} does not have "{words}"' for words in sentences if words not in plain_comment(call))
    return len(wanted) + 1 + len(of_feed)


def plain_comment(call):
    return words(comments().get(call, ''))


def check_names():
    """Each name of the library in the manual is one that a compiler finds; a call that is shown has as many arguments as the function."""
    text, bare = read(HEADER), header()
    known = set(re.findall(r'\b(?:GORSEPETAL|gorsepetal)_\w+', bare))
    comment = '\n'.join(re.findall(r'/\*.*?\*/', text, flags=re.DOTALL))
    found = [name for name in re.findall(r'\b(?:GORSEPETAL|gorsepetal)_\w+', comment) if not name.endswith('_')]
    faults.extend(f'{HEADER}: a comment has {name}, which the header does not declare' for name in dict.fromkeys(found) if name not in known)
    for name, arguments in re.findall(r'\b(gorsepetal_\w+)\(([^()]*)\)', words(comment)):
        declared = re.search(rf'\b{name}\(([^)]*)\)', bare)
        if declared and declared[1].count(',') != arguments.count(','):
            faults.append(f'{HEADER}: {name}({arguments}) has not as many arguments as the function')
    return len(found)


def settings_rules():
    """The rules of the table of crates/settings, in its order, with numbers for the names of limits and for the offsets of other rows."""
    text = blank(r'--[^\n]*', read(TABLE))
    defined = dict(re.findall(r'^(\w+) =\s*(.+)$', text, flags=re.MULTILINE))
    limits = {name: value for name, value in defined.items() if re.fullmatch(r'\d+', value)}

    def rows(part):
        for piece in re.split(r'\s*(?:∷|\+\+)\s*', part):
            if piece in defined:
                yield from rows(defined[piece])
            elif piece != '[]':
                piece = re.sub(r'\b(' + '|'.join(limits) + r')\b', lambda m: limits[m[1]], piece)
                piece = re.sub(r'\(offset_of (\w+)\)', lambda m: re.match(r'\w+ (\d+)', defined[m[1]])[1], piece)
                yield re.sub(r'\((negated|pos) (\d+)\)', lambda m: '-' * (m[1] == 'negated') + m[2], piece)
    return list(rows('settings_table'))


def fields():
    """The rows of the manual's table of fields: offset, name, field, unit, from and to."""
    cells = re.findall(r'^\*\*   (\d+) +(\S+) +(\S.*?) {2,}(\S.*?) {2,}(\S.*?) {2,}(-?\d+)$', section('SETTINGS RECORD'), flags=re.MULTILINE)
    return [(int(at), *rest) for at, *rest in cells]


def letters():
    """What the manual calls the field at an offset: the last word of it in the table, as r of `reach r`."""
    return {at: field.removesuffix(', signed').split()[-1] for at, _, field, *_ in fields()}


def field_rows():
    """The offset of each field and its limits as the manual writes them, by the table of crates/settings. A field that is off or from another
    on has that one's letter; bytes in a row with one range are one row."""
    rows = []
    for kind, *numbers in map(str.split, settings_rules()):
        if kind in ('Unsigned', 'Signed', 'Byte'):
            rows.append((kind, *numbers))
        elif kind == 'OffOrFrom':
            other, at, high = numbers
            rows.append((kind, at, f'0 or {letters().get(int(other))}', high))
    return [next(group)[1:] for _, group in groupby(rows, key=lambda r: r if r[0] != 'Byte' else (r[0], *r[2:]))]


def rules_on_fields():
    """What the manual has to say of the rules that the table of fields has no columns for: of two fields, and of the spare bytes."""
    called = letters()
    for kind, *numbers in map(str.split, settings_rules()):
        x, y = (called.get(int(number)) for number in numbers[:2])
        if kind == 'Squares':
            yield f'sum to {numbers[2]} at least and {numbers[3]} at most; an error is reported at {numbers[1]}'
        elif kind == 'Below':
            yield f'{x} is below {y}; an error is reported at {numbers[1]}'
        elif kind == 'OffOrFrom':
            yield (f'{y} is 0, which switches the second zone off, or from {x} to {numbers[2]}, {x} itself too; '
                   f'every error of it is reported at {numbers[1]}')
        elif kind not in ('Unsigned', 'Signed', 'Byte'):
            faults.append(f'{TABLE}: {kind} is a rule of a kind that this check does not know')
    spare = [rule.split()[1] for rule in settings_rules() if rule.startswith('Byte ')]
    yield f'A spare byte that is not zero is reported at its own offset, {spare[0]} to {spare[-1]}'
    yield f'{"no one two three four five six".split()[len(spare)]} spare bytes'
    for at, low, high in field_rows():
        if int(at) == wanted_constants().get('AT_RESISTIVE_REACH'):
            yield f'R is {low}, which switches the quadrilateral ground loops off, or from {int(low) + 1} to {high}; an error is reported at {at}'


def check_settings_table():
    """The table of fields has the names of crates/settings, and its offsets and limits; the rules on two fields and on spare bytes are
    beside it."""
    names, told = {value: name for name, value in constants('settings', 'at.rt').items()}, plain('SETTINGS RECORD')
    found = [(at, name, low, high) for at, name, _, _, low, high in fields()]
    wanted = [(int(at), names.get(int(at), '-'), low, high) for at, low, high in field_rows()]
    if found != wanted:
        faults.append(f'{HEADER}: the table of fields has {found}; crates/settings has {wanted}')
    rules = [*rules_on_fields()]
    faults.extend(f'{HEADER}: SETTINGS RECORD does not say "{rule}"' for rule in rules if rule not in told)
    return len(found) + len(rules)


def largest_slope():
    """By the table of crates/settings."""
    at = str(wanted_constants()['AT_SLOPE'])
    return next((int(high) for kind, *words in map(str.split, settings_rules()) if words[0] == at for high in words[2:]), 0)


def check_window():
    """The lengths of windows, and the indexes of the window that is drawn."""
    text, frames = section('WINDOW'), constants('samples')['FRAMES']
    rows = {name: [int(word) for word in rest.split()] for name, rest in re.findall(r'^\*\*   (N|numbers|bytes) +([\d ]+)$', text, flags=re.MULTILINE)}
    numbers = [frames * (3 + 3 * ends) for ends in rows.get('N', [])]
    if rows != {'N': [*range(2, 7)], 'numbers': numbers, 'bytes': [2 * n for n in numbers]}:
        faults.append(f'{HEADER}: the lengths of windows are {rows}')
    drawn = [[int(word) for word in line.split()] for line in re.findall(r'^\*\*   frame ([\d ]+)$', text, flags=re.MULTILINE)]
    if [row[0] for row in drawn] != [0, 1, frames - 1] or any(row[1:] != [*range(12 * row[0], 12 * row[0] + 12)] for row in drawn):
        faults.append(f'{HEADER}: the window that is drawn has {drawn}')
    if f'{frames} frames in time order, the oldest first: {50 * frames} frames a second at 50 Hz, {60 * frames} at 60 Hz' not in plain('WINDOW'):
        faults.append(f'{HEADER}: WINDOW does not say how many frames a second has')
    return len(drawn) + len(rows)


def check_decision_table():
    """The table of a decision has its parts at their offsets, and the bits and numbers of the definitions."""
    rows = re.findall(r'^\*\*   (\d+)(?: to (\d+))?  +(\S.*)$', section('DECISION'), flags=re.MULTILINE)
    told = plain('DECISION')
    found = [(int(first), int(last or first)) for first, last, _ in rows]
    wanted = [(at, at + length - 1) for at, length in decision_parts().values()]
    if found != wanted:
        faults.append(f'{HEADER}: the table of a decision has {found}; the source has {wanted}')
    phases = weights('crates/differential/specs/Differential.antt', 'operating_bits')
    loops = weights('crates/distance/specs/Mho.antt', 'loop_bits')
    at = decision_offsets()
    second = f'in the second zone, added up as in byte {at.get("DECISION_AT_LOOPS")}; 0 where r2 is 0'
    change = (f'c of phase a, 0 to {largest_slope() - 1}: the phase operates at the slopes 1 to c, and at no other '
              f'{at["DECISION_AT_CHANGE_B"]} the same of phase b {at["DECISION_AT_CHANGE_C"]} the same of phase c')
    beside, most = ', '.join(f'{name}={bit}' for name, bit in quadrilaterals().items()), sum(phases.values()) + sum(quadrilaterals().values())
    for words in (', '.join(f'{name.lower()}={bit}' for name, bit in phases.items()), ', '.join(f'{name} {bit}' for name, bit in loops.items()),
                  ', '.join(f'{bit} {name.removeprefix("DIRECTION_").lower()}' for name, bit in directions().items()), second, change,
                  f'and to these the quadrilateral ground loops that operate: {beside}', f'it is 0 to {most}. Where R is 0 it is the phases alone'):
        if words not in told:
            faults.append(f'{HEADER}: the table of a decision does not say "{words}"')
    return len(rows)


# Rules


def check_loops():
    """V, I and Vp of each loop in the table, which has two loops a row."""
    cell = r'([A-Z]{2}) +((?:V\w)(?: - V\w)?) +(I\w (?:-|\+) \w+) +(-j )?(P|aP|a2P)'
    found = [[loop, v, i, (turned + p).replace('a2', 'a²')] for loop, v, i, turned, p in re.findall(cell, section('RULES'))]
    if sorted(found) != sorted(six_loops()):
        faults.append(f'{HEADER}: the loops are {sorted(found)}; the source has {sorted(six_loops())}')
    return len(found)


def cosines():
    """The table of crates/phasors."""
    table = re.search(r'const COSINES: \[i16; 16\] = \[(.*?)\];', blank(r'//[^\n]*', read(Path('crates/phasors/src/lib.rt'))), flags=re.DOTALL)
    return [int(word) for word in table.group(1).replace(',', ' ').split()] if table else []


def check_rules():
    """The figures that the rules have are those of the source: each formula stands in the manual with the source's constants."""
    text = plain('RULES')
    mho, scale = constants('distance', 'mho.rt'), constants('direction', 'sequence.rt')['SCALE']
    differential, phasors, quadrilateral = (constants(crate) for crate in ('differential', 'phasors', 'quadrilateral'))
    turn = re.findall(r'pos (\d+)', re.search(r'^a = .*$', read(SEQUENCE), flags=re.MULTILINE).group())
    wanted = [
        'C[n] ' + ' '.join(map(str, cosines())) + ' S[n]',
        f'C[(n + {phasors["SHIFT"]}) mod {len(cosines())}]', f'minus the sum of x[n] S[n]) by {phasors["DIVISOR"]}',
        f'a = (-{turn[0]}, {turn[1]}) and a2 = (-{turn[0]}, -{turn[1]})',
        f'3V1 ({scale} Va + a Vb + a2 Vc) by {scale}', f'3V2 ({scale} Va + a2 Vb + a Vc) by {scale}', f'3I2 ({scale} Ia + a2 Ib + a Ic) by {scale}',
        f'aP = a P by {scale} and a2P = a2 P by {scale} are rounded first', f'E = k (Ia + Ib + Ic) by {mho["K_SCALE"]}',
        f'asserts exactly when m > 0 and {mho["REACH_SCALE"]} n <= r m',
        f'in the second zone, exactly when r2 > 0 and m > 0 and {mho["REACH_SCALE"]} n <= r2 m', f'at least {differential["SIXTY_FOURTHS_SQUARED"]} |I|^2',
        f's >= pickup^2 and {differential["SLOPE_SCALE"]} s > (K U)^2',
        f'from 1 to {largest_slope()} with s >= pickup^2 and {differential["SLOPE_SCALE"]} s > (x U)^2; 0 if there is none. It is '
        f'{largest_slope() - 1} at most, since {math.isqrt(differential["SIXTY_FOURTHS_SQUARED"])} times the root of s is at most U',
        f'X = Im[(r Z I - {quadrilateral["REACH_SCALE"]} V) Ir*], n = Im[V (Z I)*], q = Im[Ir (Z I)*]',
        f'exactly when R > 0, X > 0, q is not 0, {quadrilateral["TENTHS"]} |n| <= R |q|, and the direction is forward. A is of AG, B of BG, C of CG',
        'or a quadrilateral ground loop operates. The second zone has no part in it.',
    ]
    faults.extend(f'{HEADER}: RULES does not have "{formula}"' for formula in wanted if formula not in text)
    return len(wanted)


# Limits


def transform(samples):
    """What the sums of a channel come to, before they are rounded, in counts."""
    table = cosines()
    return sum(x * complex(table[n], -table[(n + 12) % 16]) for n, x in enumerate(samples)) / 131072


def off_nominal(ratio):
    """The smallest and the largest magnitude of a wave of peak 1 at a multiple of the nominal frequency."""
    sizes = [abs(transform([math.cos(2 * math.pi * ratio * n / 16 + phase * math.pi / 90) for n in range(16)])) for phase in range(180)]
    return min(sizes), max(sizes)


def offset_wave():
    """The same of cos(t + p) - cos(p) exp(-t / T), for a window that begins up to a cycle after the fault, over p and T."""
    sizes = []
    for constant in [hundredths / 100 for hundredths in range(5, 300, 5)]:
        decayed = transform([math.exp(-n / 16 / constant) for n in range(16)])
        for begin in [sixteenths / 16 for sixteenths in range(16)]:
            left = decayed * math.exp(-begin / constant)
            sizes += [abs(cmath.exp(1j * (phase + 2 * math.pi * begin)) - math.cos(phase) * left)
                      for phase in [math.radians(degrees) for degrees in range(0, 360, 6)]]
    return min(sizes), max(sizes)


def negative_sequence(samples):
    """3I2 of three phases, each a third of a cycle after the one before; by each its samples."""
    third = cmath.exp(2j * math.pi / 3)
    return abs(sum(transform(of) * third ** (2 * phase) for phase, of in enumerate(samples)))


def balanced_off_nominal(ratio):
    """3I2 of a balanced current of peak 1 at a multiple of the nominal frequency."""
    return negative_sequence([[math.cos(2 * math.pi * (ratio * n / 16 - phase / 3)) for n in range(16)] for phase in range(3)])


def balanced_offset(constant):
    """3I2 of a balanced fault of peak 1 in the first window that lies in it, by the time constant of its offsets in cycles."""
    return negative_sequence([[math.cos(2 * math.pi * (n / 16 - phase / 3)) - math.cos(2 * math.pi * phase / 3) * math.exp(-n / 16 / constant)
                               for n in range(16)] for phase in range(3)])


def harmonic(order):
    return max(abs(transform([math.cos(2 * math.pi * order * n / 16 + phase) for n in range(16)])) for phase in (0, 1, 2))


def outward(low, high, places):
    """Bounds with so many decimals that hold for both."""
    return f'between {math.floor(low * 10 ** places) / 10 ** places:.{places}f} and {math.ceil(high * 10 ** places) / 10 ** places:.{places}f}'


def check_limits():
    """What the manual says of another frequency, of direct current and of harmonics is what the transform gives, to three phases too."""
    text = plain('LIMITS')
    wanted = [f'At 0.98 of the nominal one (49 Hz for 50) the magnitude reads {outward(*off_nominal(0.98), 3)}', f'at 0.95 {outward(*off_nominal(0.95), 3)}',
              f'The magnitude reads {outward(*offset_wave(), 2)} in a window that lies wholly in the fault']
    wanted.append(f'a balanced current has a 3I2 of {balanced_off_nominal(0.98):.3f} of it at 0.98, and of {balanced_off_nominal(0.95):.3f} at 0.95')
    most, cycle = max(balanced_offset(hundredths / 100) for hundredths in range(5, 300, 5)), balanced_offset(1)
    wanted.append(f'a 3I2 of up to {math.ceil(100 * most) / 100} of its current in the first such window, {cycle:.2f} with a time constant of one '
                  f'cycle. It falls by that time constant, to {cycle * math.exp(-2):.3f} after two cycles more')
    passed = [order for order in range(2, 19) if harmonic(order) > 0.001]
    wanted.append(f'Harmonics 2 to {passed[0] - 1} are taken out. The ' + ' and the '.join(f'{order}th' for order in passed) + ' count in full')
    faults.extend(f'{HEADER}: LIMITS does not say "{sentence}"' for sentence in wanted if sentence not in text)
    return len(wanted)
