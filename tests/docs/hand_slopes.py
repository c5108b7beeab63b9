"""Holds what docs/HAND-CHECKS.md works out of c, the slope at which a phase changes (document 02, CR 6), and the decisions that it works out
to their 32 bytes, to the independent program."""
import re
from itertools import product

import rules
from hand_checks import PAGE, wrong
from header import constants
from left import CHANNELS, GOOD, with_field
from manual import largest_slope
from slopes import AT, CHANGE, COUNT, HEARD, MILL, P10, SAID, change, has, on, s_and_u, within_band
from tree import read, tables
from worked import decided

from model import differential, measuring  # of tests/independent, where worked.py looks

COUNTED = 'no one two three four five six seven eight nine'.split()


def page():
    return ' '.join(read(PAGE).split())


def rows_of(first, *headings):
    """The rows of the tables that have this above their first column, and these above others."""
    return [row for table in tables(PAGE, first) for row in table if {*headings} <= row.keys()]


# c by trying slopes


def check_table_of_slopes():
    """Each slope with its product, and whether the phase operates there: of the paper mill and of P10."""
    rows = [(rules.numbers(row['slope'])[0], row) for row in rows_of('slope')]
    for name, answer, currents in (('paper mill', 'it operates', MILL), ('P10', 'P10 operates', P10)):
        s, u = s_and_u(currents)
        for slope, row in rows:
            edge = ', equal' if (slope * u) ** 2 == 40960000 * s else ''
            wanted = [f'{slope * u}{edge}', 'yes' if on(currents, slope)[1] else 'no']
            if [row.get(f'{name}: slope · {u}'), row.get(answer)] != wanted:
                wrong(f'of the {name} the slope {slope} has {wanted}')
        if not {1, change(currents), change(currents) + 1, largest_slope()} <= {slope for slope, _ in rows}:
            wrong(f'the table of slopes lacks one of 1, c and c + 1 of the {name}, and {largest_slope()}')
    named = {slope: row['slope'].partition(', ')[2] for slope, row in rows if ', ' in row['slope']}
    if named != {SAID: 'as said', HEARD: 'as heard'}:
        wrong(f'the table of slopes has {named}')
    return len(rows)


def currents_in(cell):
    """`100 and -40`, `(3, 0) and (0, 1)`, or `(1, 1) twice`."""
    pairs = [tuple(map(int, pair)) for pair in re.findall(r'\((-?\d+), (-?\d+)\)', cell)] or [(n, 0) for n in rules.numbers(cell)]
    return tuple(pairs * (2 if cell.endswith('twice') else 1))


def check_edges():
    """The table of edges: s, U, both squares and c of each row; and what is said of them."""
    rows = rows_of('currents')
    for row in rows:
        currents, pickup = currents_in(row['currents']), int(row['pickup'])
        (s, u), c = s_and_u(currents), change(currents, pickup)
        reached = s >= pickup ** 2
        below, above = (f'{k * u}² = {(k * u) ** 2}' if reached and k else '' for k in (c, c + 1))
        wanted = [str(s), str(u), f'{40960000 * s}' if reached else f'pickup not reached: {pickup}² = {pickup ** 2}', below, above, str(c)]
        if [*row.values()][2:] != wanted:
            wrong(f'{row["currents"]} with pickup {pickup} has {wanted}')
    c, p10, two, one = (change(currents) for currents in (MILL, P10, ((102, 0), (-98, 0)), ((101, 0), (-99, 0))))
    aslant = (3, 0), (0, 1)
    s, u = s_and_u(aslant)
    cut = differential.differential(s)
    return len(rows) + has(PAGE, page(), f'So c is {c} for the paper mill, and {p10} for P10.',
                           f'for (3, 0) and (0, 1) that root is cut to {cut}, 100 · {cut} / {u} is {100 * cut / u:.1f}, and c is {change(aslant)}.',
                           f'it can be {c} - {SAID} = {c - SAID} too large. It was {HEARD} - {SAID} = {HEARD - SAID} too large.',
                           f"a differential of 50 percent, P10's, has c = {p10}; one of 2 percent has {two}, and one of 1 percent has {one}.",
                           f'it is 100 percent, and c is {change(((100, 0), (0, 0)))}: at slope {largest_slope()} no phase operates.')


# c by halving


def halved(s, u, pickup):
    """The rows of the search by halving, as the code that the page quotes does it."""
    least, width, rows = 0, constants('differential', 'change.rt')['CANDIDATES'], []
    while 1 < width:
        half = width // 2
        slope = least + half
        found = differential.operates(slope, pickup, s, u)
        rows.append([str(len(rows) + 1), str(least), str(width), str(half), f'{least} + {half} = {slope}',
                     f'{"yes" if found else "no"}: {slope} · {u} = {slope * u}'])
        least, width = slope if found else least, width - half
    return rows + [['end', str(least), str(width), '', '', f'c = {least}']]


def check_halving():
    """The search by halving on the paper mill. It ends with c, in as many steps, for others too."""
    found, wanted = [[*row.values()] for row in rows_of('step', 'width')], halved(*s_and_u(MILL), 1)
    for row, other in zip(found, wanted):
        if row != other:
            wrong(f'the search by halving has {row} where {other} should stand')
    if len(found) != len(wanted):
        wrong(f'the search by halving has {len(found)} rows where {len(wanted)} should stand')
    for p, q, pickup in product((3, 100), range(-100, 101, 7), (1, 61)):
        rows = halved(*s_and_u(((p, 0), (q, 0))), pickup)
        if rows[-1][-1] != f'c = {change(((p, 0), (q, 0)), pickup)}' or len(rows) != len(wanted):
            wrong(f'the search by halving does not end with c of {p} and {q}')
    return len(found) + has(PAGE, page(), f'c is one of the {wanted[0][2]} numbers from 0 to {largest_slope()}.',
                            f'It takes {COUNTED[len(wanted) - 1]} steps, whatever flows.')


# Demand 3 of c


def named_window():
    """Each end's samples of the window of six ends, as the page gives them."""
    given = re.search(r'end 1 has (x\[.*?)\. Each of the other five ends has (x\[.*?) \(theorems', page())
    ends = [{int(n): int(x) for n, x in re.findall(r'x\[(\d+)\] = (-?\d+)', text)} for text in (given.groups() if given else ('', ''))]
    first, other = ([of.get(n, 0) for n in range(16)] for of in ends)
    return [first] + [other] * 5


def at_fineness_1(phase):
    """What the table has of a phase, by the words in its first column. Of L and F it may have a sum besides."""
    n, c, band = len(phase.sums), differential.slope_of_change(1, phase.s, phase.U), rules.constants()['band']
    low, high, f = (of(1, phase.sums) for of in (differential.L, differential.H, differential.F))
    return {
        's, U, c': f'{phase.s}, {phase.U}, {c}', 'N': str(n), 'L': str(low), 'H = L + N': f'{low} + {n} = {high}', 'F': str(f),
        'c L': f'{c} · {low} = {c * low}', '100 F': f'100 · {f} = {100 * f}',
        f'100 (F + 1 + {band} N)': f'100 ({f} + 1 + {band} · {n}) = {100 * (f + 1 + band * n)}, above c L',
        f'(c + 1) H + {100 * band} N': f'{c + 1} · {high} + {100 * band} · {n} = {(c + 1) * high + 100 * band * n}, above 100 F',
    }


def exact(phase):
    """c, the differential and the restraint before rounding, and the band, in counts."""
    sums, band = phase.sums, rules.constants()['band']
    return (differential.slope_of_change(1, phase.s, phase.U), differential.F(1, sums) / COUNT, differential.L(1, sums) / COUNT,
            len(sums) * band / COUNT)


def check_demand_3():
    """What demand 3 says of c at m = 1, of the paper mill and of the window of six ends, in a table and in words."""
    mill, six = (differential.of_ends(samples) for samples in ([[8 * x] + [0] * 15 for x, _ in MILL], named_window()))
    told = {(row['what'], column): cell for row in rows_of('what', 'paper mill') for column, cell in row.items()}
    for column, phase in (('paper mill', mill), ('the window above', six)):
        for what, result in at_fineness_1(phase).items():
            cell = told.get((what, column), '')
            if (cell.rpartition(' = ')[2] if what in ('L', 'F') else cell) != result:
                wrong(f'demand 3 of c, {column}: it does not have "{result}" for {what}')
        if not within_band(exact(phase)[0], phase, 1):
            wrong(f'demand 3 of c does not hold of the {column}')
    (c, f, low, band), (c_six, f_six, low_six, band_six) = exact(mill), exact(six)
    return len(told) + has(
        PAGE, page(), f'between {c} percent less {band:g} counts of {low:g}, and {c + 1} percent and {band:g} counts more: between '
        f'{c - 100 * band / low:.1f} and {c + 1 + 100 * band / low:.1f} percent. They are at {100 * f / low:.1f}.',
        f'they are at {100 * f_six / low_six:.0f} percent, and c says {c_six}: of the {low_six:.1f} counts of its exact restraint the band is '
        f'{band_six:g},')


# The decisions

# Each that is worked out to its bytes: what the record has otherwise than document 01's, the voltages, and the currents of both ends
SAG = (1000, 0), (-1000, -1732), (-1000, 1732)
IN, OUT = [(0, -1000)], [(0, 1000)]
BALANCED = (0, -1000), (-866, 500), (866, 500)
DECISIONS = {
    'The paper mill': ({'AT_PICKUP': 60}, (), ([MILL[0]], [MILL[1]])),
    'The fault of "Sequence quantities"': ({}, SAG, (IN, OUT)),
    'The same fault farther away': ({'AT_SECOND_REACH': 1200}, ((1600, 0), *SAG[1:]), (IN, OUT)),
    'A balanced fault': ({}, ((500, 0), (-250, -433), (-250, 433)), (BALANCED, [(-x, -y) for x, y in BALANCED])),
    'A fault with resistance': ({'AT_RESISTIVE_REACH': 25}, ((600, -1500), *SAG[1:]), ([(0, -600)], [(0, 600)])),
}


def decided_on(fields, volts, currents):
    record, numbers = GOOD, [0] * measuring.length(2)
    for name, value in fields.items():
        record = with_field(record, AT[name], value)
    channels = [*enumerate(volts)] + [(3 + 3 * end + phase, current) for end, of in enumerate(currents) for phase, current in enumerate(of)]
    for channel, (x, y) in channels:
        numbers[channel], numbers[4 * CHANNELS + channel] = 8 * x, -8 * y
    return decided(record, numbers)


def check_decisions():
    """Each byte of the decisions, and what is said of the mill's at another slope and with another pickup."""
    section = re.search(r'^## Decision record\n(.*?)(?=^## )', read(PAGE), flags=re.DOTALL | re.MULTILINE)
    parts, told = re.split(r'^\*\*(.*?)\*\*', section[1] if section else '', flags=re.MULTILINE), 0
    for title, given in DECISIONS.items():
        found, text = decided_on(*given), parts[parts.index(title) + 1] if title in parts else ''
        for first, last, shown in re.findall(r'^\| (\d+)(?: to (\d+))? \| ((?:[0-9A-F]{2} ?)+) \|', text, flags=re.MULTILINE):
            wanted = found[int(first):int(last or first) + 1]
            told += len(wanted)
            if bytes.fromhex(shown) != wanted:
                wrong(f'{title}: bytes {first} to {last or first} are {wanted.hex(" ").upper()}, and not {shown}')
    if told != 32 * len(DECISIONS):
        wrong(f'{len(DECISIONS)} decisions of 32 bytes should be worked out, and {told} bytes are')
    mill, others = on(MILL, SAID, 60), [on(MILL, HEARD, 60), on(MILL, SAID, 61)]
    if [[k for k in range(32) if mill[k] != other[k]] for other in others] != [[0, 1], [0, 1, CHANGE]] or any(others[0][:2] + others[1][:8]):
        wrong('at another slope, or with another pickup, the decision on the mill differs in other bytes than is said')
    fields, *fault = DECISIONS['A fault with resistance']
    inside, beyond = (decided_on({'AT_RESISTIVE_REACH': r}, *fault) for r in (fields['AT_RESISTIVE_REACH'], fields['AT_RESISTIVE_REACH'] - 1))
    if bytes(2) + inside[2:] != beyond or not all(inside[:2]):
        wrong('at a resistive reach that is one less, the decision on the fault with resistance differs in other bytes than is said')
    return told + has(PAGE, page(), f'Byte {CHANGE} stays too: at the slope as heard it still says {mill[CHANGE]}. With pickup 61 bytes 0, 1 and '
                      f'{CHANGE} are 0.', f'c of a: {mill[CHANGE]} = {mill[CHANGE]:02X} hex',
                      f'At a resistive reach of {fields["AT_RESISTIVE_REACH"] - 1} bytes 0 and 1 are 0, and all others stay as they are.',
                      f'with a resistive reach of {fields["AT_RESISTIVE_REACH"]}, bytes 28 and 29 = {fields["AT_RESISTIVE_REACH"]:04X}.',
                      f'{COUNTED[len(DECISIONS)].capitalize()} windows, by the record at the top of this page')


def check_hand_slopes():
    return check_table_of_slopes() + check_edges() + check_halving() + check_demand_3() + check_decisions()
