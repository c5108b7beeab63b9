"""Holds what the manual in include/gorsepetal.h says of balanced faults to the independent program: what load does, with all voltages and
with some of them lost, and a fault close behind the relay."""
import cmath
import math
import re

from header import HEADER, wanted_constants
from manual import plain
from tree import faults
from worked import SOUND, Z1, in_all_phases, worked_record


def behind_by(degrees, ampere):
    """A current behind its voltage by so many degrees."""
    return cmath.rect(ampere, -math.radians(degrees))


def begins_at(record, volts, amperes, degrees, byte, lost=()):
    """Whether a byte of the decision is 0 at this load, and not with a tenth of an ampere more."""
    return [bool(in_all_phases(record, volts, behind_by(degrees, amperes + more), lost)[byte]) for more in (0, 0.1)] == [False, True]


LAMP, TRIP = 'the lamp stays dark', 'load does not trip'


def named_load(said):
    """The load of the worked line of which the manual says this: the degrees by which it is behind, volts, and amperes."""
    given = re.search(rf'load angle of (\d+) degrees [^:]* at (\d+) V {said} up to ([\d.]+) A', plain('A LINE OF THREE ENDS, WORKED OUT'))
    return map(float, given.groups() if given else (0, 0, 0))


def check_zone_under_load(said, reach_at, byte):
    """How far a zone of the worked line goes under load, by the manual's formula; and the decision's byte is 0 at the current that the
    manual names, and not at the next tenth of an ampere."""
    record, text = worked_record(), plain('A LINE OF THREE ENDS, WORKED OUT')
    degrees, volts, amperes = named_load(said)
    part, angle = int.from_bytes(record[reach_at:reach_at + 2], 'big') / 1000, math.degrees(cmath.phase(Z1))
    ends = part * abs(Z1)
    at_load = ends * math.cos(math.radians(angle - degrees))
    wanted = [f'{part:g} x {abs(Z1):.3f} = {ends:.2f} ohm', f'{ends:.2f} x cos({angle:.2f} - {degrees:g}) = {at_load:.2f} ohm',
              f'{said} up to {math.floor(10 * volts / at_load) / 10} A']
    faults.extend(f'{HEADER}: the worked line does not show "{sum_}"' for sum_ in wanted if sum_ not in text)
    if not begins_at(record, volts, amperes, degrees, byte):
        faults.append(f'{HEADER}: at {volts:g} V and {degrees:g} degrees byte {byte} is not first set between {amperes} A and a tenth more')
    return len(wanted)


def check_fuses():
    """What the manual says of a load that trips, with each of the voltages lost, with each two, and with all."""
    record, text = worked_record(), plain('BALANCED FAULTS')
    degrees, volts, amperes = named_load(TRIP)
    said = ('With one voltage lost, one of the three loops still sees load at V / I, and it trips as said before.',
            'it trips at half the current', 'With all three lost and nothing left, no loop asserts')
    faults.extend(f'{HEADER}: BALANCED FAULTS does not say "{sentence}"' for sentence in said if sentence not in text)
    for phase in range(3):
        alone = {0, 1, 2} - {phase}
        if not begins_at(record, volts, amperes, degrees, 0, (phase,)) or not begins_at(record, volts, amperes / 2, degrees, 0, alone):
            faults.append(f'{HEADER}: with the voltage of phase {phase} lost, or that alone left, load trips elsewhere than BALANCED FAULTS says')
    if any(in_all_phases(record, volts, behind_by(degrees, ampere), (0, 1, 2))[2] for ampere in (1, 10, 100)):
        faults.append(f'{HEADER}: with no voltage a loop asserts')
    return len(said)


def check_behind():
    """The fault at the busbar behind, between two sources: whether it trips, by how far the far one is ahead."""
    given = re.search(r'with j ([\d.]+) ohm behind the relay and j ([\d.]+) ohm beyond the far end, ([\d.]+) ohm at the busbar behind '
                      r'trips if the far source is ahead by (\d+) degrees, and not if it is ahead by (\d+)\.', plain('BALANCED FAULTS'))
    if not given:
        faults.append(f'{HEADER}: BALANCED FAULTS does not give the fault at the busbar behind')
        return 0
    source, beyond, resistance, *ahead = map(float, given.groups())
    path = Z1 + 1j * beyond

    def trips(degrees):
        far = cmath.rect(SOUND, math.radians(degrees))
        volt = (SOUND / (1j * source) + far / path) / (1 / (1j * source) + 1 / path + 1 / resistance)
        return in_all_phases(worked_record(), volt, (volt - far) / path)[0]

    if [trips(degrees) for degrees in ahead] != [1, 0]:
        faults.append(f'{HEADER}: the fault at the busbar behind does not trip as BALANCED FAULTS says')
    return 1


def check_load():
    """The lamp, and the trip of a balanced fault."""
    at = wanted_constants()
    return (check_zone_under_load(LAMP, at['AT_SECOND_REACH'], at['DECISION_AT_SECOND_ZONE']) +
            check_zone_under_load(TRIP, at['AT_REACH'], at['DECISION_AT_TRIP']))
