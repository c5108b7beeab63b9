"""Holds what docs/HAND-CHECKS.md works out of the quadrilateral ground loops (document 02, CR 7) to the independent program, and its fault to
the equation of a fault."""
import re
from typing import NamedTuple

from hand_checks import PAGE, wrong
from header import wanted_constants
from left import CHANNELS, GOOD, with_field
from slopes import has
from tree import read, tables
from worked import decided, shown

from model import measuring, quadrilateral  # of tests/independent, where worked.py looks

AT = wanted_constants()
BYTE = AT['DECISION_AT_PHASES']
BITS = {name: AT[f'QUADRILATERAL_{name}'] for name in 'ABC'}
SCALE = 1000000  # of r Z, in millionths


def with_reach(record, r):
    return with_field(record, AT['AT_RESISTIVE_REACH'], r)


def reach_of(record):
    return int.from_bytes(record[AT['AT_RESISTIVE_REACH']:][:2], 'big')


def operating(decision):
    """The quadrilaterals that operate, by their letters."""
    return ''.join(name for name, bit in BITS.items() if decision[BYTE] & bit)


# A record and a window

FIELDS = {'R': 'AT_RESISTIVE_REACH', 'r': 'AT_REACH', 'r2': 'AT_SECOND_REACH', 'pickup of 3I2': 'AT_NEGATIVE_SEQUENCE_PICKUP',
          'zf': 'AT_FORWARD_LIMIT'}
CHANNEL = {'Va': 0, 'Vb': 1, 'Vc': 2, 'Ia': 3, 'Ib': 4, 'Ic': 5}
SOUND_PHASES = {'Vb': (-1000, -1732), 'Vc': (-1000, 1732)}  # those of the fault that the page works out before


def section():
    m = re.search(r'^## Quadrilateral ground loops\n(.*?)(?=^## )', read(PAGE), flags=re.DOTALL | re.MULTILINE)
    return ' '.join(m[1].split()) if m else ''


def phasors_in(text):
    return {name: (int(x), int(y)) for name, x, y in re.findall(r'([VI][abc](?: of end 2)?) = \((-?\d+), (-?\d+)\)', text)}


def fault_with(cell):
    """The record and the numbers of the window: document 01's record, and the fault that the page gives, with what a cell says. What flows in
    at end 1 flows out at end 2, unless the cell has what flows there."""
    given = re.search(r'\*\*A fault that the circles miss\*\*,.*?at end 1', section())
    record, phasors = GOOD, {**SOUND_PHASES, **phasors_in(given[0] if given else '')}
    for name, value in re.findall(rf'(?<![\w ])({"|".join(FIELDS)}) = (-?\d+)', f',{cell}'.replace(', ', ',')):
        record = with_field(record, AT[FIELDS[name]], int(value) % 65536)
    phasors |= phasors_in(cell)
    flowing = {f'{name} of end 2': (-x, -y) for name, (x, y) in phasors.items() if name in ('Ia', 'Ib', 'Ic')}
    numbers = [0] * measuring.length(2)
    for name, (x, y) in {**flowing, **phasors}.items():
        channel = CHANNEL['I' + name[1]] + 3 if name.endswith('end 2') else CHANNEL[name]
        numbers[channel], numbers[4 * CHANNELS + channel] = 8 * x, -8 * y
    return record, numbers


class Of(NamedTuple):
    """What the independent program has of a loop."""
    loop: measuring.Loop
    zi: measuring.Phasor
    measured: quadrilateral.Measured  # X, n and q

    def least(self):
        """The least R at which its sides take the fault in."""
        return -(-10 * abs(self.measured.n) // abs(self.measured.q))


def at_end_1(record, numbers):
    """What the record says, and the voltages and the currents of end 1."""
    phasors = measuring.phasors(numbers, 2)
    return measuring.line(record), phasors[:3], phasors[3:6]


def found_in(record, numbers):
    """Each quadrilateral by its letter."""
    line, v, i = at_end_1(record, numbers)
    loops, by_phase = {loop.name: loop for loop in measuring.loops(line, v, i)}, quadrilateral.by_phase(line, v, i)
    return {name: Of(loops[f'{name}G'], measuring.times(line.Z, loops[f'{name}G'].i), by_phase[name]) for name in BITS}


# The page


def check_edges():
    """Each row of the table of edges: X, n and q of A, and four bytes of the decision."""
    rows = [row for table in tables(PAGE, 'with') for row in table]
    for row in rows:
        record, numbers = fault_with(row['with'])
        found, a = decided(record, numbers), found_in(record, numbers)['A'].measured
        wanted = [str(n) for n in (*a, *(found[k] for k in (1, 2, 3, 0)))]
        if [row[column] for column in ('X', 'n', 'q', 'byte 1', 'byte 2', 'byte 3', 'byte 0')] != wanted:
            wrong(f'quadrilaterals, with {row["with"]} there is {wanted}')
        if (told := re.search(r'byte 4 is (\d+)', row['because'])) and int(told[1]) != found[4]:
            wrong(f'quadrilaterals, with {row["with"]} byte 4 is {found[4]}')
        if re.match(r'on the (?:other )?side', row['because']) and 10 * abs(a.n) != reach_of(record) * abs(a.q):
            wrong(f'quadrilaterals, with {row["with"]} the fault is not on a side')
    if len(rows) < 20:
        wrong('quadrilaterals, the table of edges is not there')
    return len(rows) + has(PAGE, section(), ', '.join(f'{bit} {name}' for name, bit in BITS.items()).replace(' A', f' in byte {BYTE} is A') + '.')


def check_loops():
    """The three loops of the fault, with the least R that takes it in; and byte 1 at every R."""
    rows = [row for table in tables(PAGE, 'loop') for row in table if 'ZI' in row]
    record, numbers = fault_with('')
    loops = found_in(record, numbers)
    wanted = [[name, shown(of.loop.v), shown(of.loop.i), shown(of.zi), *map(str, of.measured), f'R = {of.least()}'] for name, of in loops.items()]
    if [[*row.values()] for row in rows] != wanted:
        wrong(f'quadrilaterals, the loops of the fault are {wanted}')
    by_reach = [decided(with_reach(record, r), numbers)[BYTE] for r in range(1001)]
    first, second = sorted({of.least() for of in loops.values()})
    if by_reach != [by_reach[0]] * first + [by_reach[first]] * (second - first) + [by_reach[second]] * (1001 - second):
        wrong(f'quadrilaterals, byte 1 does not change at R = {first} and {second} alone')
    return len(rows) + has(PAGE, section(), f'So up to R = {first - 1} byte 1 is {by_reach[0]}, from {first} to {second - 1} it is {by_reach[first]}, and '
                           f'from {second} on it is {by_reach[second]}:')


def check_steps():
    """The fault that the circles miss, step by step."""
    record, numbers = fault_with('')
    (line, v, i), (loop, zi, (x, n, q)) = at_end_1(record, numbers), found_in(record, numbers)['A']
    v1, v2, i2 = measuring.positive(*v), measuring.negative(*v), measuring.negative(*i)
    others, least = [shown(measuring.minus(of, v[0])) for of in (v1, v2)], found_in(record, numbers)['A'].least()
    circle, t, square = measuring.n_and_m(line.Z, loop), measuring.T(line, v2, i2), measuring.squared(i2)
    return has(PAGE, section(), f'| {others[0]} and {others[1]}, as before; so 3V1 = {shown(v1)} and 3V2 = {shown(v2)} |',
               f'| Ir, 3I2 | {shown(i2)} both |', f'rounded by 1000: {shown(measuring.minus(loop.i, i[0]))} |', f'| I of AG | {shown(loop.i)}, since',
               f'| ZI | {shown(line.Z)}{shown(loop.i)} = {shown(zi)} |', f'= {circle.n}, {zi.re} · {v1.re} = {circle.m} |',
               f'is above {line.r} · {circle.m} = {line.r * circle.m}; it would from r = {-(-SCALE * circle.n // circle.m)} on |',
               f'= {t} is below {line.zf} · {square} = {line.zf * square}: forward |',
               f'X = Im[(r ZI - {SCALE} V) Ir*] n = Im[V (ZI)*] q = Im[Ir (ZI)*]',
               f'| r ZI - {SCALE} V | real: {line.r} · {zi.re} - {SCALE} · {v[0].re} =', f'= {x}, above 0: the fault is below the top |',
               f'= {n} |', f'= {q} |', f'| the sides at R = {least} | 10 · {abs(n)} = {10 * abs(n)} and {least} · {abs(q)} = {least * abs(q)} are equal: '
               'A operates |', f'| the sides at R = {least - 1} | {least - 1} · {abs(q)} = {(least - 1) * abs(q)} is below it: A does not operate |')


def check_equation():
    """The same fault by the equation: its part m of Z, in thousandths, and its resistance F, in tenths, which give V, n and X."""
    record, numbers = fault_with('')
    (line, v, i), (loop, zi, (x, n, q)) = at_end_1(record, numbers), found_in(record, numbers)['A']
    circle = measuring.n_and_m(line.Z, loop)
    m, f = x // q + line.r, 10 * n // q
    along, across = measuring.Phasor(m * zi.re // SCALE, m * zi.im // SCALE), measuring.Phasor(f * i[0].re // 10, f * i[0].im // 10)
    if measuring.plus(along, across) != v[0] or x != (m - line.r) * q or 10 * n != f * q:
        wrong('quadrilaterals, the fault is not one by the equation')
    return has(PAGE, section(), f'Here ZI is ({zi.re // 1000}, {zi.im // 1000}) in counts, m is {m} thousandths, and F is {f} tenths: V is {shown(along)} '
               f'and {shown(across)} together.', f'so 10 n is {f} · {q} = {10 * n}, as above.', f'({m} - {line.r}) · {q} = {x}, as above.',
               f'would have to reach {-(-SCALE * circle.n // circle.m)} thousandths for a fault at {m}.')


def check_hand():
    return check_edges() + check_loops() + check_steps() + check_equation()
