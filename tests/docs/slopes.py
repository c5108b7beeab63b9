"""Holds what the manual in include/gorsepetal.h and docs/RULES.md say of c, the slope at which a phase changes (document 02, CR 6), to the
independent program."""
import cmath
import math
import re
from functools import cache
from itertools import product

import rules
from header import CHANGES as VERSIONS, HEADER, decision_parts, wanted_constants
from left import GOOD, with_field
from manual import largest_slope, plain, section, transform
from tree import faults, read
from worked import decided, given_phasors, to_window, with_wave, worked_record

from model import differential, measuring  # of tests/independent, where worked.py looks

TITLE = 'HOW FAR OFF THE SLOPE CAN BE'
SLOPES = range(1, largest_slope() + 1)
MOST = largest_slope() - 1  # the largest c
AT = wanted_constants()
CHANGE = AT['DECISION_AT_CHANGE_A']
CHANGES = slice(CHANGE, CHANGE + 3)
MILL = (100, 0), (-40, 0)  # what flows in on phase a, at each end
P10 = (90, 0), (-30, 0)
SAID, HEARD = 15, 50
COUNT = 131072  # a count, in the sums A and B


def has(page, told, *sentences):
    """Each of these stands in what a page tells."""
    faults.extend(f'{page}: it does not say "{sentence}"' for sentence in sentences if sentence not in told)
    return len(sentences)


# Records, windows and decisions


def with_slope(record, slope):
    return with_field(record, AT['AT_SLOPE'], slope)


def set_to(ends, slope, pickup):
    """Document 01's record, with these three."""
    return with_field(with_slope(with_field(GOOD, AT['AT_ENDS'], ends), slope), AT['AT_PICKUP'], pickup)


def on_phase_a(currents):
    """The numbers of a window with these phasors on phase a, one of each end, and nothing else."""
    ends = len(currents)
    numbers, wide = [0] * measuring.length(ends), 3 + 3 * ends
    for end, (x, y) in enumerate(currents):
        numbers[3 + 3 * end], numbers[4 * wide + 3 + 3 * end] = 8 * x, -8 * y
    return numbers


@cache
def on(currents, slope=SAID, pickup=1):
    """The decision on such a window."""
    return decided(set_to(len(currents), slope, pickup), on_phase_a(currents))


def change(currents, pickup=1):
    """c of phase a."""
    return on(currents, pickup=pickup)[CHANGE]


def s_and_u(currents):
    phasors = [measuring.Phasor(*current) for current in currents]
    return differential.s(phasors), differential.U(phasors)


def within_band(c, phase, m):
    """What demand 3 says of c at a fineness, with a pickup of 1."""
    return differential.first_half(c, m, phase.sums) and not (phase.s and differential.second_half(c + 1, m, phase.sums))


# The manual


def shown_windows():
    """Records and windows with a c of many kinds, some of which trip by distance too: the worked ones, and currents on phase a."""
    first, _, beyond = plain('A DECISION, WORKED OUT').partition('Then a fault beyond the line:')
    edges = ((MILL, 60), (MILL, 61), (P10, 1), (((1, 1), (1, 1)), 1), (((101, 0), (-99, 0)), 1), (((102, 0), (-98, 0)), 1))
    return ([(worked_record(), to_window(given_phasors(text))) for text in (first, first + beyond)] +
            [(set_to(2, SAID, pickup), on_phase_a(currents)) for currents, pickup in edges])


def check_meaning():
    """What the section says of c, of byte 1 and of the trip at a slope holds at every slope, on some windows."""
    for record, numbers in shown_windows():
        each = {slope: decided(with_slope(record, slope), numbers) for slope in SLOPES}
        last = each[largest_slope()]
        for slope, found in each.items():
            bits = sum(bit for bit, c in zip((1, 2, 4), found[CHANGES]) if slope <= c)
            others = found[1] & AT['QUADRILATERALS'], found[2:]
            if (found[1] & AT['PHASES'] != bits or others != (last[1] & AT['QUADRILATERALS'], last[2:])
                    or found[0] != int(last[0] == 1 or max(last[CHANGES]) >= slope)):
                faults.append(f'{HEADER}: {TITLE}, at slope {slope} bytes 0 to 7 are {found[:8].hex(" ")}, which is not what is said of c')
    return has(HEADER, plain(TITLE), f'Bytes {CHANGE}, {CHANGE + 1} and {CHANGE + 2} have a number c for each phase (document 02, CR 6)',
               'the phase operates at the slopes 1 to c and at no other', "The phase's bit in byte 1 is set exactly if K is at most c.",
               'at slope c it operates, and at slope c + 1 it does not', 'c does not depend on K.',
               f'Decide on it with a K of {largest_slope()}, in a relay that guards no line: no phase operates then, and byte 0 is by distance '
               'alone.',
               f'exactly if byte 0 is 1, or one of bytes {CHANGE} to {CHANGE + 2} is x or more',
               '0 it operates at no slope: the differential is below the pickup, or at most 1 percent of the restraint '
               f'1 to {MOST - 1} it operates up to slope c {MOST} it operates at every slope but {largest_slope()}, at which no phase does')


def check_mill():
    """The paper mill's fault, in the words of the commissioning desk."""
    c, into, out = change(MILL), MILL[0][0], -MILL[1][0]
    return has(HEADER, plain(TITLE), f'{into} counts flowed into the line at end 1, and {out} out of it at end 2. The slope was said as {SAID} '
               f'and heard as {HEARD}, which is {HEARD - SAID} off. This fault has c = {c}. So a slope up to {c - SAID} too large would still '
               f'have operated: {c} does, and {c + 1} does not.', 'a fault that has to trip: K can be up to c - K too large',
               'a current through the line that must not trip: K can be up to K - c - 1 too small, since at slope c it operates')


def check_in_and_out():
    """The currents p in and q out, with x and c of each."""
    rows = re.findall(r'^\*\*   (\d+) +(\d+) +([\d.]+) +(\d+)$', section(TITLE), flags=re.MULTILINE)
    for p, q, *told in rows:
        p, q = int(p), int(q)
        x, c = 100 * (p - q) / (p + q), change(((p, 0), (-q, 0)))
        if told != [f'{round(x, 2):g}', str(c)] or c != math.ceil(x) - 1:
            faults.append(f'{HEADER}: {TITLE}, {p} in and {q} out are {x:.4f} percent and have c = {c}, and not {told}')
    if len(rows) < 3:
        faults.append(f'{HEADER}: {TITLE} has no table of currents p and q')
    return len(rows) + has(HEADER, plain(TITLE), 'x = 100 (p - q) / (p + q) and c is the largest whole number below x.')


def check_from_decision():
    """What D and U of a decision tell of c: on two ends with each two of some phasors."""
    least, each = 100, [*product((-3, 0, 1, 2, 7, 40), repeat=2)]
    found = {(s, u) for s, u in map(s_and_u, product(each, each)) if s and u > least}
    over = {differential.slope_of_change(1, s, u) - (math.ceil(100 * differential.differential(s) / u) - 1) for s, u in found}
    if over != {0, 1}:
        faults.append(f'{HEADER}: {TITLE}, c is above the largest whole number below 100 D / U by {sorted(over)}')
    places = [decision_parts()[f'DECISION_AT_{name}_A'] for name in ('DIFFERENTIAL', 'RESTRAINT')]
    d, u = (int.from_bytes(on(MILL)[at:at + length], 'big') for at, length in places)
    of_d, of_u = (f'bytes {at} to {at + length - 1}' for at, length in places)
    return has(HEADER, plain(TITLE), f'let D be the number of {of_d} and U that of {of_u}, for phase a.',
               f'If the pickup is reached and U is above {least}, c is the largest whole number below 100 D / U, or one more than that',
               f'For {MILL[0][0]} and {-MILL[1][0]} they are {d} and {u}.')


def steady(peak, turn):
    """The 16 samples of a wave, as a converter gives them."""
    return [round(peak * math.cos(2 * math.pi * (n / 16 + turn))) for n in range(16)]


def check_rounding():
    """What demand 3 says of c holds of steady waves like the mill's, small and large; what is said of the mill's own; and the figures of the
    band."""
    found, peaks, band = {}, [x for x, _ in MILL], rules.constants()['band']
    for scale, turn in product((0.04, 0.5, 1, 7), range(128)):
        phase = differential.of_ends([steady(scale * peak, turn / 128) for peak in peaks])
        c = differential.slope_of_change(1, phase.s, phase.U)
        found.setdefault(scale, set()).add(c)
        if not all(within_band(c, phase, m) for m in (1, 2, 1000)):
            faults.append(f'{HEADER}: {TITLE}, c = {c} is farther from the currents before rounding than is said')
    counts, percent, large = band / COUNT, 100 * band / COUNT, 3000
    restraint, least = sum(map(abs, peaks)), change(MILL)
    if found[1] != {least, least + 1}:
        faults.append(f"{HEADER}: {TITLE}, a steady wave of the mill's currents has c = {sorted(found[1])}")
    return has(HEADER, plain(TITLE), 'within one and a half counts an end', f'at least c percent of their restraint, less {counts:g} N counts',
               f'at most c + 1 percent of it, and {counts:g} N counts more',
               f'Of a restraint of W counts these counts are {percent:g} N / W percent. For the mill, with {restraint} counts at two ends, '
               f'that is {2 * percent / restraint:.1f} percent, and for {large} counts it is {2 * percent / large:g}.',
               f"A steady wave of the mill's currents has c = {least} in some windows and c = {least + 1} in others.",
               'L = the sum over the ends of the floor of the root of m^2 (A^2 + B^2), H = L + N',
               'F = the floor of the root of m^2 ((sum of all A)^2 + (sum of all B)^2)', f'for every m: 100 (F + 1 + {band} N m) > c L',
               f'for every m, if s >= pickup^2: 100 F < (c + 1) H + {100 * band} N m')


def check_manual():
    return check_meaning() + check_mill() + check_in_and_out() + check_from_decision() + check_rounding()


# The tests at the panel


def injected(record, counts, x, turn, off):
    """Byte 5, and whether phase a operates: with so many counts in all, of which x percent are differential, q off by a factor, and the window
    beginning at some turn."""
    p, numbers = counts * (100 + x) / 200, [0] * measuring.length(3)
    q = off * p * (100 - x) / (100 + x)
    for channel, current in ((3, p), (6, -q)):
        with_wave(numbers, channel, cmath.rect(current, turn))
    found = decided(record, numbers)
    return found[CHANGE], found[1] & 1


def field(record, name):
    return int.from_bytes(record[AT[name]:AT[name] + 2], 'big')


def off_by(counts):
    """How many percent x can be off at most, with so many counts at two ends: by the rounding of phasors, by samples that are off by half a
    count, in the differential and in the restraint, and by half a percent in q."""
    of_each = [transform([n == k for n in range(16)]) for k in range(16)]
    of_samples = max(sum(abs((one * cmath.rect(1, turn / 50)).real) / 2 for one in of_each) for turn in range(158))
    return 100 * 2 * (rules.constants()['band'] / COUNT + 2 * of_samples) / counts + 0.5 / 2


def check_slope_test():
    """The test of the slope tells it: the worked record passes, also with q a little off, and none with a slope beside its own does. Its counts
    are enough for every record."""
    text, record = plain('TESTS AT THE PANEL'), worked_record()
    given, slope = re.search(r'Let p \+ q be (\d+) counts of peak or more', text), field(record, 'AT_SLOPE')
    counts, wanted = int(given[1]) if given else 1, {slope + 0.5: (slope, 1), slope - 0.5: (slope - 1, 0)}

    def passes(tested, off=1.0):
        return all(injected(tested, counts, x, 2 * math.pi * k / 40, off) == told for x, told in wanted.items() for k in range(40))

    if off_by(counts) >= 0.5 or not all(passes(record, off) for off in (1.0, 0.995, 1.005)):
        faults.append(f'{HEADER}: with {counts} counts the worked record does not pass the test of the slope, or another may not')
    if any(passes(with_slope(record, other)) for other in (slope - 1, slope + 1)):
        faults.append(f'{HEADER}: the test of the slope does not tell it from the ones beside it')
    return has(HEADER, text, f'for a K below {largest_slope()}',
               'q = p (100 - x) / (100 + x): the differential is then x percent of the restraint.',
               f'At x = K + 0.5 byte {CHANGE} has to be K, with GORSEPETAL_PHASE_A set in byte 1. At x = K - 0.5 byte {CHANGE} has to be K - 1, '
               'with that bit clear. Half a percent of error in q / p is no harm.')


def check_one_end():
    """A current at one end alone: c from its pickup on, and below, at some slopes."""
    record = worked_record()
    pickup = field(record, 'AT_PICKUP')
    for slope, (counts, c) in product((1, field(record, 'AT_SLOPE'), largest_slope()), ((1, 0), (pickup - 1, 0), (pickup, MOST), (4000, MOST))):
        found = decided(with_slope(record, slope), to_window([(0, 0)] * 3 + [(counts, 0)] + [(0, 0)] * 8))
        if found[CHANGE] != c:
            faults.append(f'{HEADER}: {counts} counts at one end alone have c = {found[CHANGE]} at slope {slope}')
    return has(HEADER, plain('TESTS AT THE PANEL'), f'There c goes from 0 to {MOST} at once, in byte {CHANGE} for phase a, {CHANGE + 1} for b, '
               f'{CHANGE + 2} for c, at every K.')


# docs/RULES.md and docs/CHANGES.md


def check_version():
    """What docs/CHANGES.md says of the version that brought c."""
    told = re.search(r'^## 5\.0\.0\b.*?(?=^## )', read(VERSIONS), flags=re.DOTALL | re.MULTILINE)
    return has(VERSIONS, ' '.join(told[0].split()) if told else '',
               f'Bytes {CHANGE}, {CHANGE + 1} and {CHANGE + 2} of a decision are c of phases a, b and c, from 0 to {MOST}:',
               f'bytes 0 to {CHANGE - 1} and {CHANGE + 3} to {rules.constants()["decision_length"] - 1} of every decision.')


def check_asked():
    """The table of what is asked on the telephone: what it has of the paper mill."""
    rows, c, reached = rules.table('they ask'), change(MILL), math.isqrt(s_and_u(MILL)[0])
    if [change(MILL, reached), change(MILL, reached + 1), change((MILL[0], (0, 0)))] != [c, 0, MOST]:
        faults.append(f'{rules.PAGE}: what is said of the mill with another pickup, or with nothing out at end 2, is not so')
    operates = {slope: 'yes' if on(MILL, slope)[1] else 'no' for slope in (SAID, HEARD)}
    wanted = [f'up to {c - SAID}; it was {HEARD - SAID}', f'had {HEARD} been meant: up to {HEARD - c - 1}', f'{operates[SAID]}, at {SAID}',
              f'{operates[HEARD]}, at {HEARD}; it would at {c}, not at {c + 1}', f'at {SAID} {operates[SAID]}, at {HEARD} {operates[HEARD]}',
              f'with a pickup above {reached}', 'with nothing out at end 2', f'{c + 1} in some windows']
    rules.compare('what is said of the paper mill', [[*row.values()][-1] for row in rows], wanted)
    opening, text = next((rule.at for rule in rules.rules() if 'slope_of_change' in rules.named(rule)), 0), read(rules.PAGE)
    first, *_, last = [rule.number for rule in rules.rules() if opening <= rule.at < text.find('\n## ', opening)] * 2 or [0, 0]
    return len(rows) + check_version() + has(
        rules.PAGE, ' '.join(read(rules.PAGE).split()), f'| the paper mill: {SAID} was meant, {HEARD} was heard, c = {c} |',
        f'byte {CHANGE} of the decision if it is about phase a, byte {CHANGE + 1} for phase b, byte {CHANGE + 2} for phase c.',
        f'R{first} to R{last} have the rules.', f'| why is c {MOST}? | nothing flows out again, or next to nothing; at {largest_slope()} no phase operates |',
        f'with K = {largest_slope()}: exactly if byte 0 is 1, or one of bytes {CHANGE} to {CHANGE + 2} is x or more',
        f'| {MOST}, since at {largest_slope()} no phase operates |', f'has zeros in bytes {CHANGE} to {CHANGE + 2}',
        f'0 to {CHANGE - 1} and {CHANGE + 3} to {rules.constants()["decision_length"] - 1} are what they were without c')
