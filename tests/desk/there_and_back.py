"""Records to text and back, and settings from the secondary side, held to the independent model and to what was worked out by hand."""
import random
from itertools import chain, islice

from bad import COUNTS, IMPEDANCE, IN_ORDER, OF_REPLICA, RESISTANCE, SETTINGS
from cases import records, second_reach
from held import Ran, hold, ran
from model import settings

# ---- Records to text and back ----------------------------------------------

TEN = 'zero one two three four five six seven eight nine'.split()
DIGITS = {**{word: str(digit) for digit, word in enumerate(TEN)}, 'minus': '-', 'plus': '', 'j': ' '}
OFF = {'second reach off': 26, 'resistive reach off': 28}    # the lines that say so, and where the number is


def heard(text: str) -> bytes:
    """The record that a listener writes down from the digits alone: what follows the comma of each line. Off is 0."""
    numbers = []
    for line, name in zip(text.splitlines(), IN_ORDER, strict=True):
        said, _, digits = line.partition(', ') if line not in OFF else (line, '', 'zero')
        hold(said.startswith(f'{name} '), f"'{line}' does not begin with '{name}'")
        written = ''.join(DIGITS[word] for word in digits.replace('minus j', 'j minus').split())
        numbers += [int(part) for part in written.split()]
    return b''.join((number % 65536).to_bytes(2, 'big') for number in numbers) + bytes(2)


def good_record(data: bytes) -> None:
    """Bytes, text, bytes, text: each again as it was, in every form that a record is taken in."""
    text = ran('read', data.hex())
    shown = f'record {data.hex()}: '
    hold(text.status == 0 and not text.errors, f'{shown}not read: {text.errors}')
    hold(heard(text.out.decode()) == data, f'{shown}read as {text.out.decode()}')
    back = ran('record', '-', '--binary', given=text.out)
    hold(back == Ran(0, data, ''), f'{shown}its text gives {back}')
    written = ran('record', '-', given=text.out).out
    hold(written.decode() == data.hex(' ', 2).upper() + '\n', f'{shown}as hex it is {written}')
    hold(ran('read', '-', given=written) == text, f'{shown}another text from its hex')
    hold(ran('read', '-', given=data) == text, f'{shown}another text from its bytes')
    lines = text.out.decode().splitlines()
    for line, at in OFF.items():
        hold((line in lines) == (not any(data[at:at + 2])), f'{shown}read as {text.out.decode()}')
    before = ''.join(f'{line}\n' for line in lines if line not in OFF)
    hold(ran('record', '-', '--binary', given=before.encode()) == back, f'{shown}another record without a line for what is off')


def another(rng: random.Random, kinds: list[str], among: list[str], start: int) -> list[str]:
    """One of the digits from a place on changed to another of its kind."""
    place = rng.choice([place for place, one in enumerate(among) if place >= start and one in kinds])
    return among[:place] + [rng.choice([kind for kind in kinds if kind != among[place]])] + among[place + 1:]


def misheard(rng: random.Random, data: bytes) -> None:
    """One digit of a text said otherwise, or written otherwise: the two no longer fit, and nothing comes out."""
    lines = ran('read', data.hex()).out.decode().splitlines()
    at = rng.choice([at for at, line in enumerate(lines) if line not in OFF])
    written, _, said = lines[at].partition(', ')
    if rng.random() < 0.5:
        said = ' '.join(another(rng, TEN, said.split(), 0))
    else:
        written = ''.join(another(rng, list('0123456789'), list(written), len(IN_ORDER[at])))
    lines[at] = f'{written}, {said}'
    found = ran('record', '-', given='\n'.join(lines).encode())
    hold(found.status == 2 and not found.out and f"not '{said}'" in found.errors, f'{lines[at]}: {found}')


def bad_record(data: bytes, at: int) -> None:
    """Refused at the offset that the model gives."""
    refused = ran('read', data.hex())
    hold(refused.status == 1 and not refused.out and refused.errors.startswith(f'desk: refused 6 at {at}: '),
         f'record {data.hex()} should be refused 6 at {at}: {refused}')


def edges():
    """Records at the edges of the rules, each fifth or seventh where there are thousands."""
    return chain(records.field_edges(), islice(records.angle_edges(), 0, None, 7), records.limit_edges(), records.spare_bytes(),
                 second_reach.records(), islice(records.two_faults(), 0, None, 5))


def round_trips(rng: random.Random, count: int) -> int:
    """All edges, and so many records by chance; gives how many there were."""
    total = 0
    for data in chain(edges(), (rng.choice((records.good, records.damaged))(rng) for _ in range(count))):
        at = settings.first_fault(data)
        if at is None:
            good_record(data)
            misheard(rng, data)
        else:
            bad_record(data, at)
        total += 1
    return total


# What a refused record is told, word by word.
REFUSED = {
    '0002 0065 0064 0000 03E8 0352 029B 0000 0000 03E8 FED4 012C 0032 0000 0000 0000': '6 at 2: slope 101, wanted 1 to 100',
    '0002 000F 0064 0000 0000 0352 029B 0000 0000 03E8 FED4 012C 0032 0000 0000 0000':
        '6 at 8: replica imaginary part 0, wanted 1 to 20000',
    '0002 000F 0064 0000 03E8 0352 029B FE0B 0000 03E8 FED4 012C 0032 0000 0000 0000':
        '6 at 14: k imaginary part -501, wanted -500 to 500',
    '0002 000F 0064 0000 03E8 0352 029B 0000 0001 0001 FED4 012C 0032 0000 0000 0000':
        '6 at 18: line angle 1 + j 1, sum of squares 2, wanted 998000 to 1002000',
    '0002 000F 0064 0000 03E8 0352 029B 0000 0000 03E8 FED4 FED4 0032 0000 0000 0000':
        '6 at 22: forward limit -300, reverse limit -300, wanted forward below reverse',
    '0002 000F 0064 0000 03E8 0352 029B 0000 0000 03E8 FED4 012C 0032 0351 0000 0000':
        '6 at 26: reach 850, second reach 849, wanted off or the second not below the first',
    '0002 000F 0064 0000 03E8 0352 029B 0000 0000 03E8 FED4 012C 0032 07D1 0000 0000':
        '6 at 26: second reach 2001, wanted off or 1 to 2000',
    '0002 000F 0064 0000 03E8 0352 029B 0000 0000 03E8 FED4 012C 0032 0001 03E9 0000':
        '6 at 26: reach 850, second reach 1, wanted off or the second not below the first',
    '0002 000F 0064 0000 03E8 0352 029B 0000 0000 03E8 FED4 012C 0032 0000 03E9 0000':
        '6 at 28: resistive reach 1001, wanted off or 1 to 1000',
    '0002 000F 0064 0000 03E8 0352 029B 0000 0000 03E8 FED4 012C 0032 04B0 FFFF 0007':
        '6 at 28: resistive reach 65535, wanted off or 1 to 1000',
    '0002 000F 0064 0000 03E8 0352 029B 0000 0000 03E8 FED4 012C 0032 0000 0000 0007': '6 at 31: spare byte 7, wanted 0',
    '0002 000F 0064 0000 03E8 0352 029B 0000 0000 03E8 FED4 012C 0032 04B0 03E8 0100': '6 at 30: spare byte 1, wanted 0',
    '0002 000F': '5 at 0: 4 bytes, wanted 32',
    300 * '00': '5 at 0: 300 bytes, wanted 32',
}


# ---- The secondary side ----------------------------------------------------

# With 100 counts a volt and 200 an ampere: what is given, and the lines in the record's units that were worked out by hand.
BY_HAND = {
    'differential pickup 0.5 A': 'differential pickup 141 counts',                  # root 2 times 0.5 times 200 = 141.42
    'pickup of 3I2 0.3 A, zero point three': 'pickup of 3I2 85 counts',             # 84.85
    'replica 0.8 + j 4.0 ohm': f'replica 400 + j 2000 {IMPEDANCE}',                 # 1000 times 0.8 times 100 over 200
    'replica 5 ohm at 53.130102354': f'replica 1500 + j 2000 {IMPEDANCE}',          # 3 + j 4 ohm
    'reach 82.5 percent of the replica': f'reach 825 {OF_REPLICA}',
    'second reach 120 percent of the replica': f'second reach 1200 {OF_REPLICA}, one two zero zero',
    'second reach 85 percent of the replica, eight five': f'second reach 850 {OF_REPLICA}',     # equal to the reach
    'second reach off': 'second reach off, off',
    'resistive reach 4 ohm, four': f'resistive reach 20 {RESISTANCE}, two zero',    # 10 times 4 times 100 over 200
    'resistive reach 200 ohm': f'resistive reach 1000 {RESISTANCE}, one zero zero zero',
    'resistive reach 0.3 ohm': f'resistive reach 2 {RESISTANCE}, two',              # 1.5, away from zero
    'resistive reach off': 'resistive reach off, off',
    'line angle 60 degrees': 'line angle 500 + j 866 thousandths',
    'forward limit -0.611 ohm': f'forward limit -306 {IMPEDANCE}',                  # -305.5, away from zero
    'reverse limit 0.611 ohm': f'reverse limit 306 {IMPEDANCE}',
    'slope 14.5 percent': 'slope 15 percent',
    'line 0.8 + j 4.0 ohm': f'replica 400 + j 2000 {IMPEDANCE}\nline angle 196 + j 981 thousandths',   # 1000 over root 26
    'line 3 + j 4 ohm\nline zero sequence 9 + j 9 ohm':     # (6 + j 5)/(9 + j 12) = (114 - j 27)/225 = 0.507 - j 0.120
        f'replica 1500 + j 2000 {IMPEDANCE}\nline angle 600 + j 800 thousandths\nk 507 - j 120 thousandths',
}
# What is said of the rounding, for some of them.
ROUNDED = {
    'differential pickup 0.5 A': 'desk: line 12: 0.5 A: differential pickup is 141.421356, rounded to 141\n',
    'replica 0.8 + j 4.0 ohm': '',
    'slope 14.5 percent': 'desk: line 12: 14.5 percent: slope is 14.500000, rounded to 15\n',
    'line angle 60 degrees': 'desk: line 12: 60 degrees: line angle imaginary part is 866.025404, rounded to 866\n',
}


def secondary() -> int:
    """What is given from the secondary side makes the same record as the numbers worked out by hand."""
    for given, plain in BY_HAND.items():
        rest = SETTINGS.splitlines()
        for line in plain.splitlines():
            name = next(name for name in IN_ORDER if line.startswith(f'{name} '))
            rest = [own for own in rest if not own.startswith(f'{name} ')]
        rest = ''.join(f'{line}\n' for line in rest)
        one = ran('record', '-', given=f'{rest}{COUNTS}{given}\n'.encode())
        two = ran('record', '-', given=f'{rest}{plain}\n'.encode())
        hold(one.status == 0 and one.out == two.out, f"'{given}' should be '{plain}': {one}, {two}")
        hold(one.errors == ROUNDED.get(given, one.errors), f"'{given}': on standard error {one.errors}")
    return len(BY_HAND)
