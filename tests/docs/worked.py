"""Holds what the manual in include/gorsepetal.h works out: its record to its own formulas, and its decisions and its tests at the panel to
the independent program."""
import cmath
import math
import re
import sys
from typing import NamedTuple

from header import HEADER, constants, wanted_constants
from manual import plain, section, words
from tree import ROOT, faults, read

sys.path.insert(0, str(ROOT / 'tests/independent'))
from model import decision, measuring, quadrilateral  # noqa: E402

# The record


def check_example():
    """The line of three ends: from the secondary values that the manual gives, by its formulas, to the 32 bytes that it shows."""
    text = section('A LINE OF THREE ENDS, WORKED OUT')

    def given(pattern):
        m = re.search(pattern, text)
        if not m:
            faults.append(f'{HEADER}: the worked line does not give {pattern}')
        return [float(word) for word in m.groups()] if m else [1.0, 1.0]

    volt, ampere = given(r'cv = (\d+)')[0], given(r'ci = (\d+)')[0]
    z1, z0 = complex(*given(r'where it is smallest:\n\*\* +(\S+) \+ j (\S+) ohm')), complex(*given(r'Z0 of the same part: (\S+) \+ j (\S+) ohm'))
    farthest, over = complex(*given(r'that seems farthest:\n\*\* +(\S+) \+ j (\S+) ohm')), 10 * given(r'second zone covers (\d+) percent')[0]
    ratio, k, angle = 1000 * volt / ampere, 1000 * (z0 - z1) / (3 * z1), 1000 * z1 / abs(z1)
    peak, second = math.sqrt(2) * ampere, over * abs(farthest) / abs(z1)
    of_fault, ohms = given(r'faults to ground of (\S+) ohm, half of whose current\n\*\* +comes from the other ends: (\S+) ohm')
    resistive = 10 * ohms * volt / ampere
    wanted = [3, given(r'slope (\d+) percent')[0], peak * given(r'differential pickup (\S+) A')[0], ratio * z1.real, ratio * z1.imag,
              10 * given(r'zone 1 covers (\d+) percent')[0], k.real, k.imag, angle.real, angle.imag,
              -ratio * given(r'source behind: (\S+) ohm')[0] / 2, ratio * given(r'what lies ahead: (\S+) ohm')[0] / 2,
              peak * given(r'pickup of 3I2 (\S+) A')[0], second, resistive, 0]
    shown = re.search(r'^\*\*   ((?:[0-9A-F]{4} ?){16})$', text, flags=re.MULTILINE)
    record = ' '.join(f'{round(value) % 65536:04X}' for value in wanted)
    if not shown or shown.group(1) != record:
        faults.append(f'{HEADER}: the worked line comes to {record}')
    for value in map(round, wanted[:15]):
        if not re.search(rf'(?<!\d){value}(?!\d)'.replace('-', r'-'), text):
            faults.append(f'{HEADER}: the worked line does not show {value}')
    for sum_ in (f'{over:.0f} x {abs(farthest):.3f} / {abs(z1):.3f} = {second:.0f}', f'ends: {2 * of_fault:g} ohm R = 10 x {ohms:g} x {volt / ampere:g} = {resistive:.0f}'):
        if sum_ not in words(text):
            faults.append(f'{HEADER}: the worked line does not show "{sum_}"')
    return len(wanted)


def relay(record):
    """A relay with this record in force, and nothing else."""
    return record.ljust(constants('gorsepetal')['STATE_LENGTH'], b'\0')


def worked_record():
    """The 32 bytes that the manual comes to for the line of three ends."""
    shown = re.search(r'^\*\*   ((?:[0-9A-F]{4} ?){16})$', read(HEADER), flags=re.MULTILINE)
    return bytes.fromhex(shown.group(1)) if shown else bytes(32)


# The decision


def given_phasors(text):
    """The twelve phasors of the worked window."""
    found = [(0, 0)] * 12
    names = {'Va': 0, 'Vb': 1, 'Vc': 2, 'Ia of end 1': 3, 'Ia of end 2': 6}
    for name, re_, im in re.findall(r'(V[abc]|Ia of end \d) \((-?\d+), (-?\d+)\)', text):
        found[names[name]] = (int(re_), int(im))
    return found


def to_window(phasors):
    """The numbers of a window of three ends with these phasors."""
    numbers = [0] * measuring.length(3)
    for channel, (x, y) in enumerate(phasors):
        numbers[channel], numbers[4 * 12 + channel] = 8 * x, -8 * y
    return numbers


def decided(record, numbers):
    """The 32 bytes that the independent program decides on a window, by a record."""
    return decision.decide(relay(record), b''.join((x % 65536).to_bytes(2, 'big') for x in numbers), 32).written


def shown(p):
    return f'({p.re}, {p.im})'


def compared(n, reach, m):
    """A loop at a reach, as the manual compares it."""
    return f'{1000000 * n} {"<=" if 1000000 * n <= reach * m else ">"} {reach} m = {reach * m}'


class Worked(NamedTuple):
    """What the independent program finds in a window on the way to its decision."""
    line: measuring.Line
    currents: list   # of end 1 and of end 2, phase a
    i: list          # of end 1
    v1: measuring.Phasor
    v2: measuring.Phasor
    i2: measuring.Phasor
    T: int
    loops: dict      # each by its name
    quadrilaterals: dict   # X, n and q of A, B and C
    decided: bytes


def worked_out(record, phasors):
    numbers = to_window(phasors)
    line, by_channel = measuring.line(record), measuring.phasors(numbers, 3)
    v, i = by_channel[0:3], by_channel[3:6]
    v2, i2 = measuring.negative(*v), measuring.negative(*i)
    return Worked(line, [by_channel[3], by_channel[6]], i, measuring.positive(*v), v2, i2, measuring.T(line, v2, i2),
                  {loop.name: loop for loop in measuring.loops(line, v, i)}, quadrilateral.by_phase(line, v, i), decided(record, numbers))


def against_sides(w, name, ends=''):
    """A quadrilateral's n against its sides, as the manual compares them; which has to be what the decision says."""
    _, n, q = w.quadrilaterals[name]
    inside, bit = 10 * abs(n) <= w.line.R * abs(q), wanted_constants()[f'QUADRILATERAL_{name}']
    if inside != bool(w.decided[1] & bit):
        faults.append(f'{HEADER}: the worked decision compares {name} with its sides, and they do not decide')
    return f'10 |n| = {10 * abs(n)} {"<=" if inside else ">"} {w.line.R} |q| = {w.line.R * abs(q)}: {"operates" if inside else "does not operate"}{ends}'


def steps_on_the_line(text, record, r2):
    """Each step of the fault on the line, and the 32 bytes."""
    w = worked_out(record, given_phasors(text))
    line, square, ag, slope = w.line, measuring.squared(w.i2), w.loops['AG'], record[3]
    e = measuring.k_product(line, w.i)
    (n, m), (n_ab, m_ab) = (measuring.n_and_m(line.Z, w.loops[name]) for name in ('AG', 'AB'))
    s, u, c = measuring.squared(measuring.plus(*w.currents)), int.from_bytes(w.decided[8:12], 'big'), w.decided[5]
    (x_a, n_a, q_a), (x_b, n_b, q_b), _ = w.quadrilaterals.values()
    of_a, of_b = (shown(measuring.times(line.Z, w.loops[name].i)) for name in ('AG', 'BG'))
    return [
        f'A: Ir = {shown(quadrilateral.residual(w.i))} Z I = {of_a} X = {x_a}, above 0 n = {n_a} q = {q_a} {against_sides(w, "A")}',
        f'B: Z I = {of_b} X = {x_b}, above 0 n = {n_b} q = {q_b} {against_sides(w, "B", ", nor does C")}',
        f'3V1 = {shown(w.v1)}', f'3V2 = {shown(w.v2)}', f'3I2 = {shown(w.i2)}', f'|3I2|^2 = {square}, above {line.pickup}^2',
        f'T = {w.T}, below {line.zf} x {square} = {line.zf * square}: forward',
        f'E = {shown(e)} by 1000 = ({ag.i.re - w.i[0].re}, {ag.i.im - w.i[0].im})',
        f'n = {n} m = {m} 1000000 n = {compared(n, line.r, m)}: asserts, and so in the second zone too',
        f'n = {n_ab} m = {m_ab}: {1000000 * n_ab} > {line.r * m_ab}, does not assert {compared(n_ab, r2, m_ab)}: nor in the second zone',
        f'= {s}, above {record[5]}^2', f'= {u}', f'40960000 s = {40960000 * s} > ({slope} x {u})^2 = {(slope * u) ** 2}: operates',
        f'{40960000 * s} > ({c} x {u})^2 = {(c * u) ** 2}, and not > ({c + 1} x {u})^2 = {((c + 1) * u) ** 2}: c = {c} = {c:02X} hex',
        f'root of 4096 s: {int.from_bytes(w.decided[20:24], "big")}', w.decided.hex(' ').upper(),
    ]


def steps_beyond(text, first, record, r2):
    """The steps that are new for the fault beyond the line, and the 32 bytes: AG of the second zone sees it, and nothing trips."""
    phasors = [other if other != (0, 0) else one for one, other in zip(given_phasors(first), given_phasors(text))]
    w = worked_out(record, phasors)
    n, m = measuring.n_and_m(w.line.Z, w.loops['AG'])
    s, u = measuring.squared(measuring.plus(*w.currents)), [math.isqrt(4096 * measuring.squared(i) - 1) + 1 for i in w.currents]
    square = measuring.squared(w.i2)
    if [*w.decided[:5]] != [0, 0, 0, 1, measuring.BITS['AG']] or 1000000 * n <= 1000 * m:
        faults.append(f'{HEADER}: the fault beyond the line is not one that AG sees beyond Z, in the second zone alone, without a trip')
    x, *_ = w.quadrilaterals['A']
    return [
        f'A: X = {x}, not above 0: does not operate B: {against_sides(w, "B", ", nor does C")}',
        f'3V1 = {shown(w.v1)} 3V2 = {shown(w.v2)} 3I2 = {shown(w.i2)} |3I2|^2 = {square}',
        f'T = {w.T}, below {w.line.zf} x {square} = {w.line.zf * square}: forward',
        f'AG: n = {n} m = {m}, so it seems to lie at {1000000 * n // m} thousandths of Z {compared(n, w.line.r, m)}: does not assert {compared(n, r2, m)}: asserts in the second zone',
        f's = {s}; U = {u[0]} + {u[1]} = {int.from_bytes(w.decided[8:12], "big")}; c = {w.decided[5]}, since s is below {record[5]}^2',
        w.decided.hex(' ').upper(),
    ]


def check_decision():
    """The worked decisions: each step and the 32 bytes are what the independent program makes of the record and the windows shown."""
    on_the_line, _, beyond = plain('A DECISION, WORKED OUT').partition('Then a fault beyond the line:')
    record = worked_record()
    r2 = int.from_bytes(record[26:28], 'big')
    steps = [(on_the_line, step) for step in steps_on_the_line(on_the_line, record, r2)]
    steps += [(beyond, step) for step in steps_beyond(beyond, on_the_line, record, r2)]
    faults.extend(f'{HEADER}: the worked decision does not have "{step}"' for told, step in steps if step not in told)
    return len(steps)


# The tests at the panel


def with_wave(numbers, channel, phasor):
    """A steady wave of that peak in a channel, as a converter gives it."""
    for n in range(16):
        numbers[12 * n + channel] = round((phasor * cmath.exp(2j * math.pi * n / 16)).real)


def from_test_set(record, volts, amperes):
    """The decision by a record on these three voltages and currents of end 1, secondary and effective: cv = 100, ci = 200."""
    numbers = [0] * measuring.length(3)
    for channel, value in enumerate([100 * volt for volt in volts] + [200 * ampere for ampere in amperes]):
        with_wave(numbers, channel, math.sqrt(2) * value)
    return decided(record, numbers)


TURNS = 0, -2 * math.pi / 3, 2 * math.pi / 3  # of phases a, b, c


def tested(record, va, ia):
    """The same when two voltages are sound, and phase a has this Va and Ia."""
    return from_test_set(record, [va, *(cmath.rect(SOUND, turn) for turn in TURNS[1:])], [ia, 0, 0])


SOUND, AMPERE = 57.7, 4
Z1, K = 0.8 + 4.0j, complex(0.628, 0.026)
LOOP = Z1 * (1 + K)


def at_reach(record, r, f):
    """Loop AG in the first and in the second zone, at a part f of a reach."""
    found = tested(record, f * r * abs(LOOP) * AMPERE, AMPERE * abs(LOOP) / LOOP)
    return found[2] & 1, found[4] & 1


def reach(record, f):
    return at_reach(record, 0.8, f)[0]


def second_reach(record, f):
    return at_reach(record, 1.5, f)


def forward(record, f):
    return tested(record, SOUND - f * 0.45 * AMPERE, AMPERE * abs(Z1) / Z1)[3]


def reverse(record, f):
    return tested(record, SOUND - f * 1.3 * AMPERE, -AMPERE * abs(Z1) / Z1)[3]


def without_differential(record):
    """The same record with a slope of 100, at which no phase operates."""
    return record[:2] + bytes([0, 100]) + record[4:]


def in_all_phases(record, volt, ampere, lost=(), larger=0):
    """The decision on three voltages alike, but for those that are lost, and three currents, the first larger by so much, by distance
    alone."""
    turns = [cmath.rect(1, turn) for turn in TURNS]
    return from_test_set(without_differential(record), [0 if phase in lost else volt * turn for phase, turn in enumerate(turns)],
                         [ampere * turn + (0 if phase else larger * ampere / abs(ampere)) for phase, turn in enumerate(turns)])


def balanced(record, f):
    """The trip, the loops and the direction at a part f of the reach, and the loops with the currents turned round."""
    volts, ampere = f * 0.8 * abs(Z1) * AMPERE, AMPERE * abs(Z1) / Z1
    ahead, turned_round = in_all_phases(record, volts, ampere), in_all_phases(record, volts, -ampere)
    return ahead[0], ahead[2], ahead[3], turned_round[2]


def check_pickup_test():
    """The test of the pickup of 3I2 tells the pickup: of the worked record, and one that is twice as large does not pass it."""
    sentence = 'Byte 0 has to be 1 at x = 0.95 and 0 at x = 1.05, and byte 3 has to be 0 at both'
    if sentence not in plain('TESTS AT THE PANEL'):
        faults.append(f'{HEADER}: the tests at the panel do not say "{sentence}"')
    right, at = worked_record(), wanted_constants()['AT_NEGATIVE_SEQUENCE_PICKUP']
    pickup = int.from_bytes(right[at:at + 2], 'big')
    twice = right[:at] + (2 * pickup).to_bytes(2, 'big') + right[at + 2:]

    def found(record, x):
        ampere = AMPERE * abs(Z1) / Z1
        told = in_all_phases(record, 0.9 * 0.8 * abs(Z1) * AMPERE, ampere, larger=x * pickup / (math.sqrt(2) * 200))
        return told[0], told[3]

    if [found(right, x) for x in (0.95, 1.05)] != [(1, 0), (0, 0)] or found(twice, 1.05) == (0, 0):
        faults.append(f'{HEADER}: the test of the pickup of 3I2 does not tell it')
    return 1


def check_tests():
    """Each test of the manual gives what it says by the worked record, and something else by the same in thousandths of an ohm."""
    right = worked_record()
    wrong = right[:6] + bytes.fromhex('03200FA0') + right[10:20] + bytes.fromhex('FE3E0514') + right[24:]
    text = plain('TESTS AT THE PANEL')
    of_reach = 'GORSEPETAL_LOOP_AG has to be set at f = 0.95 and not at f = 1.05'
    tests = ((reach, f'|Z (1 + k)| x Ia. In byte 2 {of_reach}', {0.95: 1, 1.05: 0}),
             (second_reach, f'In byte 4 {of_reach}. In byte 2 it has to be clear at both', {0.95: (0, 1), 1.05: (0, 0)}),
             (forward, 'The direction has to be forward at f = 1.05 and none at f = 0.95', {1.05: 1, 0.95: 0}),
             (reverse, 'The direction has to be reverse at f = 1.05 and none at f = 0.95', {1.05: 2, 0.95: 0}),
             (balanced, 'Byte 2 has to be 63 at f = 0.95 and 0 at f = 1.05, and byte 3 has to be 0 at both',
              {0.95: (1, 63, 0, 0), 1.05: (0, 0, 0, 0)}))
    for test, sentence, wanted in tests:
        if sentence not in text:
            faults.append(f'{HEADER}: the tests at the panel do not say "{sentence}"')
        if any(test(right, f) != said for f, said in wanted.items()) or all(test(wrong, f) == said for f, said in wanted.items()):
            faults.append(f'{HEADER}: the test of {test.__name__} does not tell the right record from the one in thousandths of an ohm')
    return len(tests)
