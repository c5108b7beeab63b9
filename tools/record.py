"""The settings record of document 01 with the second reach and the resistive reach of document 02: its table, its 32 bytes as
numbers and back, and what is wrong with a record.

tests/desk/check.py holds the table to the independent model's, offset by offset.
"""
from typing import NamedTuple, Optional

LENGTH = 32
SPARE = range(30, 32)
SQUARES = range(998000, 1002000 + 1)


class Part(NamedTuple):
    """One 16-bit number of the record. It is signed if it may be below zero."""
    at: int
    low: int
    high: int


class Setting(NamedTuple):
    """A setting as it is said: one number, or a real and an imaginary part."""
    name: str
    unit: str       # of the numbers in the record
    also: str       # another unit that a text may give it in, or none
    parts: tuple[Part, ...]
    may_be_off: bool = False    # it is off where its number is 0


IMPEDANCE = 'thousandths of a voltage count per current count'
RESISTANCE = 'tenths of a voltage count per current count'
SETTINGS = (
    Setting('ends', '', '', (Part(0, 2, 6),)),
    Setting('slope', 'percent', '', (Part(2, 1, 100),)),
    Setting('differential pickup', 'counts', 'A', (Part(4, 1, 42000),)),
    Setting('replica', IMPEDANCE, 'ohm', (Part(6, 0, 20000), Part(8, 1, 20000))),
    Setting('reach', 'thousandths of the replica', 'percent of the replica', (Part(10, 1, 2000),)),
    Setting('k', 'thousandths', '', (Part(12, 0, 1000), Part(14, -500, 500))),
    Setting('line angle', 'thousandths', 'degrees', (Part(16, 0, 1000), Part(18, 0, 1000))),
    Setting('forward limit', IMPEDANCE, 'ohm', (Part(20, -20000, 20000),)),
    Setting('reverse limit', IMPEDANCE, 'ohm', (Part(22, -20000, 20000),)),
    Setting('pickup of 3I2', 'counts', 'A', (Part(24, 1, 42000),)),
    Setting('second reach', 'thousandths of the replica', 'percent of the replica', (Part(26, 0, 2000),), may_be_off=True),
    Setting('resistive reach', RESISTANCE, 'ohm', (Part(28, 0, 1000),), may_be_off=True),
)

Numbers = dict[str, tuple[int, ...]]  # by the setting's name


class Wrong(NamedTuple):
    """A fault of a record."""
    at: int     # the offset that document 01 gives the fault
    name: str   # the setting, or 'spare bytes'
    says: str


class Refused(Exception):
    """Propose would refuse this record."""


def out_of_range(setting: Setting, numbers: tuple[int, ...]) -> Optional[Wrong]:
    """The first number of a setting that is outside its range."""
    for part, number, which in zip(setting.parts, numbers, (' real part', ' imaginary part')):
        if not part.low <= number <= part.high:
            which = which if len(setting.parts) == 2 else ''
            low = 'off or 1' if setting.may_be_off else part.low
            return Wrong(part.at, setting.name, f'{setting.name}{which} {number}, wanted {low} to {part.high}')
    return None


def angle_wrong(numbers: Numbers) -> Optional[Wrong]:
    """The line angle is a direction: the squares of its parts sum to about 1000 squared."""
    re, im = numbers['line angle']
    if re * re + im * im in SQUARES:
        return None
    return Wrong(18, 'line angle', f'line angle {re} + j {im}, sum of squares {re * re + im * im}, '
                 f'wanted {SQUARES[0]} to {SQUARES[-1]}')


def limits_wrong(numbers: Numbers) -> Optional[Wrong]:
    """The forward limit is below the reverse limit."""
    (forward,), (reverse,) = numbers['forward limit'], numbers['reverse limit']
    if forward < reverse:
        return None
    return Wrong(22, 'reverse limit', f'forward limit {forward}, reverse limit {reverse}, wanted forward below reverse')


def reaches_wrong(numbers: Numbers) -> Optional[Wrong]:
    """The second reach is off, or not below the first."""
    (first,), (second,) = numbers['reach'], numbers['second reach']
    if second == 0 or first <= second:
        return None
    return Wrong(26, 'second reach', f'reach {first}, second reach {second}, wanted off or the second not below the first')


def first_wrong(numbers: Numbers) -> Optional[Wrong]:
    """The first fault in the order of offsets. A rule over two numbers comes when both ranges have passed."""
    over_two = {'line angle': angle_wrong, 'reverse limit': limits_wrong, 'second reach': reaches_wrong}
    for setting in SETTINGS:
        wrong = out_of_range(setting, numbers[setting.name])
        if wrong is None and setting.name in over_two:
            wrong = over_two[setting.name](numbers)
        if wrong:
            return wrong
    return None


def to_bytes(numbers: Numbers) -> bytes:
    """The record of numbers that are in range."""
    return b''.join(number.to_bytes(2, 'big', signed=part.low < 0)
                    for setting in SETTINGS
                    for part, number in zip(setting.parts, numbers[setting.name])) + bytes(len(SPARE))


def from_bytes(record: bytes) -> Numbers:
    """The numbers of a record that propose would take; Refused says why it would not."""
    if len(record) != LENGTH:
        raise Refused(f'refused 5 at 0: {len(record)} bytes, wanted {LENGTH}')
    numbers = {setting.name: tuple(int.from_bytes(record[part.at:part.at + 2], 'big', signed=part.low < 0)
                                   for part in setting.parts) for setting in SETTINGS}
    spare = next((Wrong(at, 'spare bytes', f'spare byte {record[at]}, wanted 0') for at in SPARE if record[at]), None)
    wrong = first_wrong(numbers) or spare
    if wrong:
        raise Refused(f'refused 6 at {wrong.at}: {wrong.says}')
    return numbers
