"""Holds what the manual in include/gorsepetal.h says of the quadrilateral ground loops (document 02, CR 7) to the independent program: what a
loop sees, how to choose R, faults beyond the line on which it trips, and the test at the panel."""
import cmath
import math
import re

from hand_quadrilaterals import AT, BITS, BYTE, fault_with, operating, reach_of, with_reach
from header import CHANGES as VERSIONS, HEADER, decision_parts
from manual import field_rows, plain
from slopes import has
from tree import faults, read
from worked import AMPERE, LOOP, SOUND, TURNS, Z1, decided, from_test_set, in_all_phases, with_wave, worked_record

from model import measuring  # of tests/independent, where worked.py looks

TITLE = 'THE QUADRILATERAL GROUND LOOPS'
OHM = 0.5  # V/I of an ohm, on the worked line: cv / ci


# Faults on the worked line, in secondary volts and amperes

THIRD = cmath.rect(1, 2 * math.pi / 3)
Z0 = 2.0 + 11.6j


def in_phases(zero, one, two):
    return [zero + one * THIRD ** -phase + two * THIRD ** phase for phase in range(3)]


def sequences(x):
    return [sum(x) / 3, sum(of * THIRD ** phase for phase, of in enumerate(x)) / 3, sum(of * THIRD ** -phase for phase, of in enumerate(x)) / 3]


def through(record, volts, amperes):
    """The decision when what flows in at end 1 flows out at end 2."""
    numbers = [0] * measuring.length(3)
    values = [100 * volt for volt in volts] + [200 * ampere for ampere in amperes] + [-200 * ampere for ampere in amperes]
    for channel, value in enumerate(values):
        with_wave(numbers, channel, math.sqrt(2) * value)
    return decided(record, numbers)


def behind(source, one, amperes):
    """The voltages at end 1, by a source with this impedance in each sequence that has `one` there in the positive one."""
    zero, _, two = sequences(amperes)
    return in_phases(-source * zero, one, -source * two)


def fed(source, place, phases, ohms=0.0):
    """A fault to ground at so many Z1, of phase a or of b and c, through a resistance, fed from end 1 alone: voltages and currents there."""
    z1, z0 = source + place * Z1, source + place * Z0 + 3 * ohms
    one = SOUND / (2 * z1 + z0) if phases == 'a' else SOUND / (z1 + z1 * z0 / (z1 + z0))
    zero, two = (one, one) if phases == 'a' else (-one * z1 / (z1 + z0), -one * z0 / (z1 + z0))
    amperes = in_phases(zero, one, two)
    return behind(source, SOUND - source * one, amperes), amperes


def least_reach(record, given):
    """The least R at which each loop takes a fault in, by its letter."""
    found = {}
    for name in 'ABC':
        found[name] = next((r for r in range(1, 1001) if name in operating(through(with_reach(record, r), *given))), None)
    return found


def most_reach():
    """The largest R, by the table of crates/settings."""
    return next(int(high) for at, _, high in field_rows() if int(at) == AT['AT_RESISTIVE_REACH'])


def check_measuring():
    """The unit, the four sides, and the places in a decision."""
    r, least, most = (n / 10 / OHM for n in (reach_of(worked_record()), 1, most_reach()))
    parts = [decision_parts()[f'DECISION_AT_DIFFERENTIAL_{name}'] for name in 'ABC']
    of_parts = [f'{at} to {at + length - 1} for {name}' for name, (at, length) in zip('ABC', parts)]
    return has(HEADER, plain(TITLE), f'With cv / ci = {OHM}, R = {10 * OHM * r:g} is {r:g} ohm, and its range is {least:g} to {most:g} ohm.',
               'top the reactance test, X > 0:', '2 sides 10 |n| <= R |q|:', 'bottom the direction is forward: byte 3 is 1',
               'Then n = F q, and X = (m - r) q, with m and r in thousandths.', 'm is below r, and F is from -R / 10 to R / 10.',
               'R = 10 allows one voltage count for each count of Ir.', 'a fault at m is seen at about m + F x Im(If / Ir) / Im[Z (1 + k)].',
               f'in which byte {BYTE} & GORSEPETAL_PHASES and byte {AT["DECISION_AT_LOOPS"]} are 0,', f'bytes {", ".join(of_parts)}.')


def check_infeed():
    """How far the top is tilted, by the manual's formula and by the loop itself."""
    given = re.search(r'with F = (\d+) ohm and an If of twice Ir and (\d+) degrees behind it, that is ([\d.]+) of Z nearer', plain(TITLE))
    if not given:
        faults.append(f'{HEADER}: {TITLE} does not give a fault with infeed')
        return 0
    ohms, degrees, nearer = map(float, given.groups())
    flows = cmath.rect(2, -math.radians(degrees))
    moved = ohms * flows.imag / LOOP.imag
    if given[3] != f'{-moved:.3f}':
        faults.append(f'{HEADER}: {TITLE}, the top is tilted by {moved:.3f} of Z')
    record, top = with_reach(worked_record(), 1000), 0.8
    for m, told in ((top - moved - 0.01, True), (top - moved + 0.01, False)):
        found = from_test_set(record, *injection(m * LOOP + ohms * flows))
        if ('A' in operating(found)) != told:
            faults.append(f'{HEADER}: {TITLE}, the tilted top is not where it is said')
    return 1


def check_open_phase():
    """Load with one phase open: the figure by the manual's formula; and no bit at it, but one a little beyond."""
    given = re.search(r'with R = (\d+), at (\d+) V and a load angle of (\d+) degrees, such a load sets no bit up to ([\d.]+) A', plain(TITLE))
    if not given:
        faults.append(f'{HEADER}: {TITLE} does not give a load with one phase open')
        return 0
    r, volts, degrees, amperes = map(float, given.groups())
    angle, record = cmath.phase(Z1), with_reach(worked_record(), int(r))
    formula = volts * math.sin(angle - math.radians(degrees)) / math.sin(angle) / (r / 10 / OHM)

    def bits(ampere):
        flowing = [0] + [cmath.rect(ampere, -math.radians(degrees)) * THIRD ** -phase for phase in (1, 2)]
        return operating(through(record, behind(0.9j, volts, flowing), flowing))

    if record != worked_record() or given[4] != f'{math.floor(10 * formula) / 10}' or bits(amperes) or not bits(1.06 * formula):
        faults.append(f'{HEADER}: {TITLE}, with a phase open the load sets a bit elsewhere than at {formula:.2f} A')
    return 1


def check_sound_phases():
    """What the loops of sound phases see of a solid fault at the far end, by the manual's formula and by their bits; and the faults beyond the
    line that no R keeps out. None of these has a differential."""
    text, record = plain(TITLE), worked_record()
    given = re.search(r'through j ([\d.]+) ohm in each sequence, a solid fault at the far end has an Ir of ([\d.]+) A: ([\d.]+) ohm', text)
    range_ = re.search(r'a fault of a at the far end sets B if it has (\d+) to (\d+) ohm', text)
    if not given or not range_:
        faults.append(f'{HEADER}: {TITLE} does not give the faults at the far end')
        return 0
    source, r = complex(0, float(given[1])), reach_of(record)
    solid = fed(source, 1, 'a')
    ir = abs(sum(solid[1]))
    seen = 0.87 * SOUND / (ir * math.sin(cmath.phase(Z1)))
    least = least_reach(record, solid)
    if [given[2], given[3]] != [f'{ir:.2f}', f'{seen:.1f}'] or least['A'] or any(abs(least[name] / 10 / OHM - seen) > 0.05 * seen for name in 'BC'):
        faults.append(f'{HEADER}: {TITLE}, a solid fault at the far end has an Ir of {ir:.2f} A: {seen:.2f} ohm; the bits are set from R = {least}')
    first, last = map(int, range_.groups())
    told = {ohms: 'B' if first <= ohms <= last else '' for ohms in range(0, 2 * last)}
    if any(operating(through(record, *fed(source, 1, 'a', ohms))) != bits for ohms, bits in told.items()):
        faults.append(f'{HEADER}: {TITLE}, a fault of a at the far end sets other bits')
    for place in (1, 1.5, 2, 3):
        found = through(with_reach(record, 2), *fed(source, place, 'bc'))
        if operating(found) != 'A' or found[AT['DECISION_AT_LOOPS']] or any(found[AT['DECISION_AT_DIFFERENTIAL_A']:]):
            faults.append(f'{HEADER}: {TITLE}, a solid fault of b and c at {place} Z does not set A alone')
    return has(HEADER, text, f'with R = {r}: a solid fault of b and c to ground at three times Z sets A;',
               'the loops of the other two see about 0.87 E / (Ir x sin(line angle))', 'where the line angle is above 60 degrees')


# The tests at the panel


def injection(impedance, phase=0):
    """What the test set gives: two sound voltages, and on one phase a current behind that phase's usual angle by the line angle, with the voltage
    that the current has over an impedance."""
    volts, amperes = [cmath.rect(SOUND, turn) for turn in TURNS], [0, 0, 0]
    amperes[phase] = cmath.rect(AMPERE, TURNS[phase] - cmath.phase(Z1))
    volts[phase] = impedance * amperes[phase]
    return volts, amperes


def passes(record, ohms):
    """Whether a record passes the test of sides and top on every phase, by an R of so many ohms and a reach of 0.8."""
    for phase, name in enumerate('ABC'):
        for f, told in ((0.95, True), (1.05, False)):
            tests = 0.4 * LOOP + f * ohms, 0.4 * LOOP - f * ohms, f * 0.8 * LOOP + ohms / 2
            if any((name in operating(from_test_set(record, *injection(impedance, phase)))) != told for impedance in tests):
                return False
    return True


def check_panel():
    """The test tells R: the worked record passes, and none with an R in tenths of an ohm, with one a tenth off, or with Z in thousandths of an
    ohm. In the tests of the limits no bit is set without a forward direction."""
    record, text = worked_record(), plain('TESTS AT THE PANEL')
    r = reach_of(record)
    ohms = r / 10 / OHM
    others = [with_reach(record, other) for other in (0, round(0.9 * r), round(1.1 * r), round(10 * ohms))]
    others.append(record[:AT['AT_REPLICA_REAL']] + bytes.fromhex('03200FA0') + record[AT['AT_REACH']:])
    if not passes(record, ohms) or any(passes(other, ohms) for other in others):
        faults.append(f'{HEADER}: the test of the quadrilaterals does not tell the right record from others')
    line = cmath.rect(AMPERE, -cmath.phase(Z1))
    for volts, ampere in ((SOUND - 0.95 * 0.45 * AMPERE, line), (SOUND - 0.95 * 1.3 * AMPERE, -line), (SOUND - 1.05 * 1.3 * AMPERE, -line)):
        sound = [cmath.rect(SOUND, turn) for turn in TURNS[1:]]
        if operating(from_test_set(with_reach(record, 1000), [volts, *sound], [ampere, 0, 0])):
            faults.append(f'{HEADER}: in a test of the limits a quadrilateral operates without a forward direction')
    return has(HEADER, text, 'Va = |m Z (1 + k) + F| x Ia, ahead of Ia by the angle of m Z (1 + k) + F.',
               'For the sides let m = r / 2, and F = f x R, and then F = -f x R. For the top let m = f x r, and F be half of R.',
               f'In byte {BYTE} GORSEPETAL_QUADRILATERAL_A has to be set at f = 0.95 and not at f = 1.05, each time.')


NO_VOLTAGE = 'Va = (0, 0), Vb = (0, 0), Vc = (0, 0)'
TURNED_ROUND = 'Ia = (0, -1400), Ib = (0, 800)'  # the current of b is large and turned round, so q of B is above 0

# What the section says of faults, each with a fault like that of the hand checks, and the bits it has
SAID = (
    ('where V is 0, it operates.', 'R = 1, Va = (0, 0)', 'A'),
    ('Where 3V1 is 0 it may operate, and no circle can.', 'R = 1, Va = (-200, 0), Vb = (100, -173), Vc = (100, 173)', 'A'),
    ('Below the pickup of 3I2, and with T between the limits, none operates.', 'R = 1000, pickup of 3I2 = 601', ''),
    ('Below the pickup of 3I2, and with T between the limits, none operates.', 'R = 1000, zf = -2334', ''),
    ('With no voltage at all T is 0, and the direction is forward only if zf is above 0.', f'R = 1000, zf = 0, {NO_VOLTAGE}', ''),
    ('With no voltage at all T is 0, and the direction is forward only if zf is above 0.', f'R = 1000, zf = 1, {NO_VOLTAGE}', 'ABC'),
    ('Where Ir is 0, none is set.', 'R = 1000, Ib = (0, 600)', ''),
    ('q is above 0 and the top is upside down: the loop operates on what it sees beyond r.', f'R = 10, Vb = (-341, -600), {TURNED_ROUND}', 'B'),
    ('q is above 0 and the top is upside down: the loop operates on what it sees beyond r.', f'R = 10, Vb = (-339, -600), {TURNED_ROUND}', ''),
    ('On the top itself a loop does not operate, and on a side itself it does.', 'R = 25, Va = (850, -1500)', ''),
    ('On the top itself a loop does not operate, and on a side itself it does.', 'R = 25', 'A'),
    ('A larger R keeps each bit that is set.', 'R = 1000', 'ABC'),
    ('The least R that sets the bit is the resistance that this loop sees, in tenths of V/I, rounded up, and 1 at least.', 'R = 25', 'A'),
    ('The least R that sets the bit is the resistance that this loop sees, in tenths of V/I, rounded up, and 1 at least.', 'R = 25, Va = (600, -1501)', ''),
    ('The least R that sets the bit is the resistance that this loop sees, in tenths of V/I, rounded up, and 1 at least.', 'R = 26, Va = (600, -1501)', 'A'),
)


def check_said():
    for sentence, cell, bits in SAID:
        if operating(decided(*fault_with(cell))) != bits:
            faults.append(f'{HEADER}: {TITLE}, "{sentence}" is not so with {cell}')
    return has(HEADER, plain(TITLE), *dict.fromkeys(sentence for sentence, *_ in SAID))


def reasons(decision):
    """Which rows of the table of reasons hold of a trip."""
    phases, beside = (decision[BYTE] & AT[name] for name in ('PHASES', 'QUADRILATERALS'))
    _, whole, loops, towards, *_ = decision
    return [phases != 0, beside != 0, towards == 1 and loops != 0, towards == 0 and whole == 0]


def check_reasons():
    """Why a relay has tripped: each of the four reasons alone on some window, and what else is said of it."""
    at_half = in_all_phases(worked_record(), 0.4 * abs(Z1) * AMPERE, AMPERE * abs(Z1) / Z1)
    shown = [decided(*fault_with(cell)) for cell in ('R = 0, Va = (2000, 0), Ia of end 2 = (0, -600)', 'R = 25', 'R = 0, Va = (600, 0)')] + [at_half]
    found = [[k for k, holds in enumerate(reasons(decision)) if holds] for decision in shown]
    if found != [[0], [1], [2], [3]] or not all(decision[0] for decision in shown) or shown[1][3] != 1 or not 56 <= at_half[2] <= 63:
        faults.append(f'{HEADER}: DECISION, the reasons of four trips are {found}')
    return has(HEADER, plain('DECISION'), f'byte {BYTE} & GORSEPETAL_PHASES is not 0 the differential of these phases operates',
               f'byte {BYTE} & GORSEPETAL_QUADRILATERALS is not 0 a fault to ground ahead; byte 3 is 1',
               'byte 3 is 1, and byte 2 is not 0 a fault ahead, in the first zone',
               f'byte 3 is 0, and byte {BYTE} is 0 too a balanced fault, in the first zone; byte 2 is 56 to 63')


def check_manual():
    return check_measuring() + check_said() + check_reasons() + check_infeed() + check_open_phase() + check_sound_phases()


# docs/CHANGES.md


def check_version():
    """What the page of versions says of the version that brought the quadrilaterals."""
    told = re.search(r'^## 6\.0\.0\b.*?(?=^## )', read(VERSIONS), flags=re.DOTALL | re.MULTILINE)
    a, b, c = BITS.values()
    return has(VERSIONS, ' '.join(told[0].split()) if told else '', f'0 is off, else it is from 1 to {most_reach()}.',
               f'bits {a}, {b} and {c} of byte {BYTE} of a decision', f'`diff {a}` is A alone')
