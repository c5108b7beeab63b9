"""Texts that tools/desk.py must refuse, each with the error it must give: every kind of fault in settings and in windows."""
from typing import Iterator, NamedTuple

IMPEDANCE = 'thousandths of a voltage count per current count'
RESISTANCE = 'tenths of a voltage count per current count'
OF_REPLICA = 'thousandths of the replica'
# A text from before the second reach and the resistive reach: it has no line for them.
SETTINGS = f'''ends 2
slope 15 percent, one five
differential pickup 100 counts, one zero zero
replica 400 + j 2000 {IMPEDANCE}
reach 850 {OF_REPLICA}
k 667 - j 40 thousandths
line angle 158 + j 987 thousandths
forward limit -300 {IMPEDANCE}, minus three zero zero
reverse limit 300 {IMPEDANCE}
pickup of 3I2 50 counts
'''
COUNTS = 'counts per volt 100\ncounts per ampere 200\n'
NUMBER = 'wanted digits, nine at most before the point and after it'
NEEDED = ('ends', 'slope', 'differential pickup', 'replica', 'reach', 'k', 'line angle', 'forward limit', 'reverse limit',
          'pickup of 3I2')
IN_ORDER = (*NEEDED, 'second reach', 'resistive reach')
NAMES = ('counts per ampere, counts per volt, differential pickup, ends, forward limit, k, line, line angle, line zero sequence, '
         'pickup of 3I2, reach, replica, resistive reach, reverse limit, second reach, slope')


class Bad(NamedTuple):
    """A text, and the error it must give."""
    command: str    # record or make
    text: str
    error: str


def without(name: str) -> str:
    return ''.join(f'{line}\n' for line in SETTINGS.splitlines() if not line.startswith(f'{name} '))


# Each line takes the place of the line of SETTINGS that begins with its first word, and gets this error.
LINES = {
    # digits
    'slope 15 percent, five zero': "line 2: 15 is 'one five', not 'five zero'",
    'slope 15 percent, one five zero': "line 2: 15 is 'one five', not 'one five zero'",
    'slope 15 percent, fifteen': "line 2: 15 is 'one five', not 'fifteen'",
    'slope 15 percent,': "line 2: 15 is 'one five', not ''",
    f'forward limit -300 {IMPEDANCE}, three zero zero': "line 8: -300 is 'minus three zero zero', not 'three zero zero'",
    'k 667 - j 40 thousandths, six six seven plus j four zero':
        "line 6: 667 - j 40 is 'six six seven minus j four zero', not 'six six seven plus j four zero'",
    # numbers
    'slope fifteen percent': f"line 2: 'fifteen' after 'slope' is no number, {NUMBER}",
    'slope 15% percent': f"line 2: '15%' after 'slope' is no number, {NUMBER}",
    'slope 1234567890 percent': f"line 2: '1234567890' after 'slope' is no number, {NUMBER}",
    'slope 1e1 percent': f"line 2: '1e1' after 'slope' is no number, {NUMBER}",
    'slope': f"line 2: 'slope' has no number, {NUMBER}",
    f'replica 400 + j 2000 {IMPEDANCE} at 5': f"line 4: '400 + j 2000 {IMPEDANCE} at 5' has both '+ j' and 'at', wanted one of them",
    'slope 15 + j 2 percent': "line 2: '15 + j 2 percent': slope is one number",
    f'replica 400 {IMPEDANCE}': f"line 4: '400 {IMPEDANCE}': replica is two numbers, wanted '+ j' or '- j' or 'at'",
    # units
    'slope 15': "line 2: slope 15 has no unit, wanted 'percent'",
    'slope 15 ohm': "line 2: 'ohm' is no unit of slope, wanted 'percent'",
    'ends 2 lines': "line 1: 'lines' is no unit of ends, wanted none",
    'differential pickup 100 V': "line 3: 'V' is no unit of differential pickup, wanted 'counts' or 'A'",
    'k 667 - j 40': "line 6: k 667 - j 40 has no unit, wanted 'thousandths'",
    'differential pickup 0.5 A': "line 3: '0.5 A' needs 'counts per ampere', which is not given",
    'replica 0.8 + j 4.0 ohm': "line 4: '0.8 + j 4.0 ohm' needs 'counts per volt', which is not given",
    # ranges, each side once, and the two rules over two numbers
    'ends 1': "line 1: '1': ends 1, wanted 2 to 6",
    'ends 7': "line 1: '7': ends 7, wanted 2 to 6",
    'slope 101 percent': "line 2: '101 percent': slope 101, wanted 1 to 100",
    'slope 0 percent': "line 2: '0 percent': slope 0, wanted 1 to 100",
    'differential pickup 42001 counts': "line 3: '42001 counts': differential pickup 42001, wanted 1 to 42000",
    f'replica -1 + j 2000 {IMPEDANCE}': f"line 4: '-1 + j 2000 {IMPEDANCE}': replica real part -1, wanted 0 to 20000",
    f'replica 400 + j 0 {IMPEDANCE}': f"line 4: '400 + j 0 {IMPEDANCE}': replica imaginary part 0, wanted 1 to 20000",
    'k 667 - j 501 thousandths': "line 6: '667 - j 501 thousandths': k imaginary part -501, wanted -500 to 500",
    'line angle 158 + j 900 thousandths':
        "line 7: '158 + j 900 thousandths': line angle 158 + j 900, sum of squares 834964, wanted 998000 to 1002000",
    f'reverse limit -300 {IMPEDANCE}':
        f"line 9: '-300 {IMPEDANCE}': forward limit -300, reverse limit -300, wanted forward below reverse",
    # words
    'slop 15 percent': f"line 2: 'slop 15' is no setting, wanted one of: {NAMES}",
    'pickup 100 counts': f"line 10: 'pickup 100' is no setting, wanted one of: {NAMES}",
    ', one five': f"line 2: '' is no setting, wanted one of: {NAMES}",
}
PLACES = {'slop': 'slope', 'pickup': 'pickup of', ',': 'slope'}  # where the place is not that of the first word


def in_place() -> Iterator[Bad]:
    """One line of the settings is wrong."""
    for line, error in LINES.items():
        first = PLACES.get(line.split()[0], line.split()[0])
        lines = [line if own.startswith(f'{first} ') else own for own in SETTINGS.splitlines()]
        yield Bad('record', ''.join(f'{own}\n' for own in lines), error)


def whole_texts() -> Iterator[Bad]:
    """A setting twice, each setting missing that is needed, nothing at all, a window where only settings are wanted."""
    twice = "line 11: 'slope' again, it stands on line 2"
    yield Bad('record', SETTINGS + 'slope 50 percent\n', twice)
    yield Bad('record', SETTINGS + 'slope 15 percent\n', twice)
    for number, (line, name) in enumerate(zip(SETTINGS.splitlines(), NEEDED, strict=True), 1):
        yield Bad('record', SETTINGS.replace(line, '# left out'),
                  f"line {10 if number < 10 else 9}: the settings end, and '{name}' is missing")
    yield Bad('record', '', "line 1: the settings end, and 'ends' is missing")
    yield Bad('record', SETTINGS + 'window quiet\n', f"line 11: 'window quiet' is no setting, wanted one of: {NAMES}")


# Each is line 11, after SETTINGS, in which the reach is 850.
SECOND_REACHES = {
    f'second reach 849 {OF_REPLICA}':
        f"'849 {OF_REPLICA}': reach 850, second reach 849, wanted off or the second not below the first",
    'second reach 84.9 percent of the replica':
        "'84.9 percent of the replica': reach 850, second reach 849, wanted off or the second not below the first",
    f'second reach 2001 {OF_REPLICA}': f"'2001 {OF_REPLICA}': second reach 2001, wanted off or 1 to 2000",
    f'second reach -1 {OF_REPLICA}': f"'-1 {OF_REPLICA}': second reach -1, wanted off or 1 to 2000",
    f'second reach 0 {OF_REPLICA}': f"'0 {OF_REPLICA}': second reach 0 is off, wanted 'off' if it is meant",
    'second reach 0.04 percent of the replica':
        "'0.04 percent of the replica': second reach 0 is off, wanted 'off' if it is meant",
    'second reach off, zero': "off is 'off', not 'zero'",
    f'second reach 1200 {OF_REPLICA}, one two zero': "1200 is 'one two zero zero', not 'one two zero'",
    f'second reach off {OF_REPLICA}': f"'off' after 'second reach' is no number, {NUMBER}",
    'second reach on': f"'on' after 'second reach' is no number, {NUMBER}",
    'second reach': f"'second reach' has no number, {NUMBER}",
    'second reach 1200': f"second reach 1200 has no unit, wanted '{OF_REPLICA}' or 'percent of the replica'",
    'second reach 3 ohm': f"'ohm' is no unit of second reach, wanted '{OF_REPLICA}' or 'percent of the replica'",
    f'second reach 1200 + j 3 {OF_REPLICA}': f"'1200 + j 3 {OF_REPLICA}': second reach is one number",
    'second 1200': f"'second 1200' is no setting, wanted one of: {NAMES}",
}


def second_reaches() -> Iterator[Bad]:
    """What can be wrong with the second reach, and that no other setting can be off."""
    for line, error in SECOND_REACHES.items():
        yield Bad('record', f'{SETTINGS}{line}\n', f'line 11: {error}')
    yield Bad('record', f'{SETTINGS}second reach off\nsecond reach off\n', "line 12: 'second reach' again, it stands on line 11")
    yield Bad('record', SETTINGS.replace(f'reach 850 {OF_REPLICA}', 'reach off'), f"line 5: 'off' after 'reach' is no number, {NUMBER}")
    yield Bad('record', SETTINGS.replace('reach 850', 'reach 1201') + f'second reach 1200 {OF_REPLICA}\n',
              f"line 11: '1200 {OF_REPLICA}': reach 1201, second reach 1200, wanted off or the second not below the first")
    yield Bad('make', f'{SETTINGS}confirmation second reach 849 {OF_REPLICA}\n',
              f"line 11: '849 {OF_REPLICA}': reach 850, second reach 849, wanted off or the second not below the first")


# Each is line 11, after SETTINGS.
RESISTIVE_REACHES = {
    f'resistive reach 1001 {RESISTANCE}': f"'1001 {RESISTANCE}': resistive reach 1001, wanted off or 1 to 1000",
    f'resistive reach 65535 {RESISTANCE}': f"'65535 {RESISTANCE}': resistive reach 65535, wanted off or 1 to 1000",
    f'resistive reach -1 {RESISTANCE}': f"'-1 {RESISTANCE}': resistive reach -1, wanted off or 1 to 1000",
    f'resistive reach 0 {RESISTANCE}': f"'0 {RESISTANCE}': resistive reach 0 is off, wanted 'off' if it is meant",
    f'resistive reach 0.4 {RESISTANCE}': f"'0.4 {RESISTANCE}': resistive reach 0 is off, wanted 'off' if it is meant",
    'resistive reach off, zero': "off is 'off', not 'zero'",
    f'resistive reach 20 {RESISTANCE}, two': "20 is 'two zero', not 'two'",
    f'resistive reach off {RESISTANCE}': f"'off' after 'resistive reach' is no number, {NUMBER}",
    'resistive reach': f"'resistive reach' has no number, {NUMBER}",
    'resistive reach 20': f"resistive reach 20 has no unit, wanted '{RESISTANCE}' or 'ohm'",
    f'resistive reach 20 {IMPEDANCE}': f"'{IMPEDANCE}' is no unit of resistive reach, wanted '{RESISTANCE}' or 'ohm'",
    'resistive reach 20 tenths': f"'tenths' is no unit of resistive reach, wanted '{RESISTANCE}' or 'ohm'",
    f'resistive reach 20 + j 3 {RESISTANCE}': f"'20 + j 3 {RESISTANCE}': resistive reach is one number",
    'resistive reach 4 ohm': "'4 ohm' needs 'counts per volt', which is not given",
}


def resistive_reaches() -> Iterator[Bad]:
    """What can be wrong with the resistive reach, and that another fault of a smaller offset comes before it."""
    for line, error in RESISTIVE_REACHES.items():
        yield Bad('record', f'{SETTINGS}{line}\n', f'line 11: {error}')
    yield Bad('record', f'{SETTINGS}{COUNTS}resistive reach 200.2 ohm\n',
              "line 13: '200.2 ohm': resistive reach 1001, wanted off or 1 to 1000")
    yield Bad('record', f'{SETTINGS}{COUNTS}resistive reach 0.09 ohm\n',
              "line 13: '0.09 ohm': resistive reach 0 is off, wanted 'off' if it is meant")
    yield Bad('record', f'{SETTINGS}resistive reach off\nresistive reach off\n',
              "line 12: 'resistive reach' again, it stands on line 11")
    yield Bad('record', f'{SETTINGS}resistive reach 1001 {RESISTANCE}\nsecond reach 2001 {OF_REPLICA}\n',
              f"line 12: '2001 {OF_REPLICA}': second reach 2001, wanted off or 1 to 2000")
    yield Bad('make', f'{SETTINGS}confirmation resistive reach 1001 {RESISTANCE}\n',
              f"line 11: '1001 {RESISTANCE}': resistive reach 1001, wanted off or 1 to 1000")


def secondary() -> Iterator[Bad]:
    """What can be wrong with the counts and the line's impedances."""
    line, zero = 'line 0.8 + j 4.0 ohm\n', 'line zero sequence 2.0 + j 13.0 ohm\n'
    for counts in (0, -100):
        yield Bad('record', SETTINGS + f'counts per volt {counts}\n', f'line 11: counts per volt {counts}, wanted more than 0')
    yield Bad('record', SETTINGS + 'counts per ampere 5 A\n', "line 11: 'A' is no unit of counts per ampere, wanted none")
    yield Bad('record', SETTINGS + COUNTS + line, "line 13: 'replica' again, line 4 gives it already")
    yield Bad('record', COUNTS + line + SETTINGS, "line 7: 'replica' again, line 3 gives it already")
    yield Bad('record', SETTINGS + COUNTS + zero, "line 13: 'line zero sequence' needs 'line', which is not given")
    yield Bad('record', SETTINGS + 'line 0 + j 0 ohm\n', 'line 11: line 0 + j 0 ohm, wanted more than 0')
    yield Bad('record', SETTINGS + 'line 4.0 ohm\n',
              "line 11: '4.0 ohm': line is two numbers, wanted '+ j' or '- j' or 'at'")
    yield Bad('record', without('replica') + 'counts per volt 100\nreplica 0.8 + j 4.0 ohm\n',
              "line 11: '0.8 + j 4.0 ohm' needs 'counts per ampere', which is not given")
    yield Bad('record', without('replica') + COUNTS + 'replica 0.8 + j 50.0 ohm\n',
              "line 12: '0.8 + j 50.0 ohm': replica imaginary part 25000, wanted 1 to 20000")


# Each is a line of a window on line 12, after 'window' on line 11.
WINDOW_LINES = {
    'Vd 1 at 0': "'Vd' is no channel, wanted Va, Vb, Vc, Ia1, Ib1 and so on, 'missing' or 'window'",
    'Ia 1 at 0': "'Ia' is no channel, wanted Va, Vb, Vc, Ia1, Ib1 and so on, 'missing' or 'window'",
    'slope 15 percent': "'slope' is no channel, wanted Va, Vb, Vc, Ia1, Ib1 and so on, 'missing' or 'window'",
    ', one': "'' is no channel, wanted Va, Vb, Vc, Ia1, Ib1 and so on, 'missing' or 'window'",
    'Ia3 1 at 0': "'Ia3' is of end 3, but the line has 2 ends",
    'Va 40000 at 0': "'40000 at 0': Va has 40000 in frame 0, wanted -32767 to 32767",
    'Va 32768 at 180': "'32768 at 180': Va has -32768 in frame 0, wanted -32767 to 32767",
    'Va 57.7 A at 0': "'A' is no unit of Va, wanted none or 'counts' or 'V'",
    'Ia1 1 V at 0': "'V' is no unit of Ia1, wanted none or 'counts' or 'A'",
    'Va 57.7 V at 0': "'57.7 V at 0' needs 'counts per volt', which is not given",
    'Ia1 1 A at 0': "'1 A at 0' needs 'counts per ampere', which is not given",
    'Va 100': "'100': Va is two numbers, wanted '+ j' or '- j' or 'at'",
    'Va at 0': f"'at' after 'Va' is no number, {NUMBER}",
    'Va off': f"'off' after 'Va' is no number, {NUMBER}",
    'Va 15 at -120, one five at one two zero': "15 at -120 is 'one five at minus one two zero', not 'one five at one two zero'",
    'missing Ia1': "'missing Ia1', wanted 'missing', a channel, 'frame' and a number from 0 to 15",
    'missing Ib 2 frame 3': "'missing Ib 2 frame 3', wanted 'missing', a channel, 'frame' and a number from 0 to 15",
    'missing Ia1 frame 16': "frame '16', wanted 0 to 15",
    'missing Ia1 frame -1': "frame '-1', wanted 0 to 15",
    'missing Ia1 frame 3, three': "'missing Ia1 frame 3', wanted 'missing', a channel, 'frame' and a number from 0 to 15",
    'missing Ia7 frame 3': "'Ia7' is of end 7, but the line has 2 ends",
}


def windows() -> Iterator[Bad]:
    """What can be wrong with a window, and with a confirmation that differs."""
    for line, error in WINDOW_LINES.items():
        yield Bad('make', f'{SETTINGS}window\n  {line}\n', f'line 12: {error}')
    yield Bad('make', f'{SETTINGS}window\n  Va 1 at 0\n  Va 1 at 0\n', "line 13: 'Va' again in this window")
    yield Bad('make', f'{SETTINGS}confirmation slope 500 percent\n', "line 11: '500 percent': slope 500, wanted 1 to 100")
    yield Bad('make', f'{SETTINGS}confirmation slope 1 percent\nconfirmation slope 2 percent\n',
              "line 12: 'slope' again, it stands on line 11")
    yield Bad('make', without('slope') + 'confirmation slope 15 percent\n', "line 10: the settings end, and 'slope' is missing")
    yield Bad('make', 'window\n', "line 1: the settings end, and 'ends' is missing")


def texts() -> Iterator[Bad]:
    yield from in_place()
    yield from whole_texts()
    yield from second_reaches()
    yield from resistive_reaches()
    yield from secondary()
    yield from windows()
