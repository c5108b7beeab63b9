"""Settings as text: a name, a number, a unit, and the number digit by digit, as it is said over the telephone.

Each setting stands on a line of its own. write() gives the one text of a record, in the record's own units. collect() and
read() take that text, and also numbers from the secondary side, which need the counts of the converter:

    counts per volt 100                  a step of a sample for each secondary volt, instantaneous
    counts per ampere 200
    line 0.8 + j 4.0 ohm                 positive sequence, secondary: gives the replica and the line angle
    line zero sequence 2.4 + j 12.0 ohm  gives k
    differential pickup 0.2 A            effective value, secondary

The second reach and the resistive reach are each a number or the word 'off'. A text from before one of them was there has no line
for it: then it is off.
'#' begins a remark. The digits may be left out; if they are there, they must be those of the number.
"""
import cmath
import math
import re
from typing import Callable, NamedTuple, Optional

from record import IMPEDANCE, RESISTANCE, SETTINGS, Numbers, Setting, first_wrong

# ---- Digits as they are said -----------------------------------------------

SAID = dict(zip('0123456789.+-', 'zero one two three four five six seven eight nine point plus minus'.split()))
OFF = 'off'


def spoken(written: str) -> str:
    """-300 is 'minus three zero zero', 667 - j 40 is 'six six seven minus j four zero', and off is 'off'."""
    return ' '.join(word if word in ('j', 'at', OFF) else ' '.join(SAID[sign] for sign in word) for word in written.split())


# ---- Lines, and the quantities on them -------------------------------------

class Fault(Exception):
    """What is wrong with a text, and on which line."""

    def __init__(self, line: int, says: str):
        super().__init__(f'line {line}: {says}')


class Line(NamedTuple):
    """A line of a text, without its remark."""
    number: int     # in the file, from 1
    words: list[str]
    digits: Optional[str]   # what stands after the comma


class Quantity(NamedTuple):
    """A number with its unit, as a line gives it."""
    line: int
    text: str       # as it stands: 15 percent, 0.8 + j 4.0 ohm, 57.7 V at -120
    written: str    # without its unit: 15, 0.8 + j 4.0, 57.7 at -120
    value: complex
    parts: int      # 2 if an imaginary part or an angle was given
    unit: str


def off(line: int) -> Quantity:
    """In place of a number: the setting is off."""
    return Quantity(line, OFF, OFF, 0j, 1, '')


def lines(text: str) -> list[Line]:
    """The lines that say something."""
    found = []
    for number, line in enumerate(text.splitlines(), 1):
        said, comma, digits = line.partition('#')[0].partition(',')
        if said.strip() or comma:
            found.append(Line(number, said.split(), ' '.join(digits.split()) if comma else None))
    return found


MAY_BE_OFF = [setting.name for setting in SETTINGS if setting.may_be_off]
SIZE = r'[0-9]{1,9}(?:\.[0-9]{1,9})?'
QUANTITY = re.compile(rf'(?P<real>-?{SIZE})(?: (?P<sign>[+-]) j (?P<imaginary>{SIZE}))?'
                      rf'(?P<unit>(?: \S+)*?)(?: at (?P<angle>-?{SIZE}))?')


def check_digits(line: Line, written: str) -> None:
    """Refuses digits that are not those of the number."""
    if line.digits not in (None, spoken(written)):
        raise Fault(line.number, f"{written} is '{spoken(written)}', not '{line.digits}'")


def quantity(line: Line, name: str) -> Quantity:
    """What a line gives after the name."""
    words = line.words[len(name.split()):]
    if words == [OFF] and name in MAY_BE_OFF:
        check_digits(line, OFF)
        return off(line.number)
    found = QUANTITY.fullmatch(' '.join(words))
    if not found:
        says = f"'{words[0]}' after '{name}' is no number" if words else f"'{name}' has no number"
        raise Fault(line.number, f'{says}, wanted digits, nine at most before the point and after it')
    real, sign, imaginary, unit, angle = found.groups()
    if sign and angle:
        raise Fault(line.number, f"'{' '.join(words)}' has both '{sign} j' and 'at', wanted one of them")
    written, value = real, complex(float(real))
    if sign:
        written, value = f'{real} {sign} j {imaginary}', complex(float(real), float(sign + imaginary))
    if angle:
        written, value = f'{real} at {angle}', cmath.rect(float(real), math.radians(float(angle)))
    check_digits(line, written)
    return Quantity(line.number, ' '.join(words), written, value, 2 if sign or angle else 1, unit.strip())


def only(given: Quantity, name: str, parts: int, *units: str) -> None:
    """Refuses a quantity of another unit, or with other parts, than the name takes."""
    if given.unit not in units:
        wanted = ' or '.join(f"'{unit}'" if unit else 'none' for unit in units)
        raise Fault(given.line, f"'{given.unit}' is no unit of {name}, wanted {wanted}" if given.unit
                    else f'{name} {given.written} has no unit, wanted {wanted}')
    if given.parts != parts:
        raise Fault(given.line, f"'{given.text}': {name} is "
                    + ('one number' if parts == 1 else "two numbers, wanted '+ j' or '- j' or 'at'"))


# ---- From the secondary side to counts -------------------------------------

COUNTS = ('counts per volt', 'counts per ampere')
# What one of a unit is in the record's units; v and a are the counts per volt and per ampere. An ohm is so many voltage counts per
# current count, of which the record has thousandths or tenths.
FACTORS: dict[str, tuple[str, Callable[[float, float], float]]] = {
    'V': ('v', lambda v, a: math.sqrt(2) * v),
    'A': ('a', lambda v, a: math.sqrt(2) * a),
    'ohm': ('va', lambda v, a: v / a),
    'percent of the replica': ('', lambda v, a: 10),
}
IN_ONE = {('ohm', IMPEDANCE): 1000, ('ohm', RESISTANCE): 10}


class Scale(NamedTuple):
    """The counts of the converter, where they are given."""
    volt: Optional[float]
    ampere: Optional[float]

    def factor(self, given: Quantity, unit: str = 'counts') -> float:
        """What one of a quantity's unit is in the unit named: 1 for the record's own units and for counts."""
        needs, rule = FACTORS.get(given.unit, ('', lambda v, a: 1))
        for letter, counts, name in zip('va', self, COUNTS):
            if letter in needs and counts is None:
                raise Fault(given.line, f"'{given.text}' needs '{name}', which is not given")
        return IN_ONE.get((given.unit, unit), 1) * rule(self.volt, self.ampere)


def nearest(value: float) -> int:
    """The nearest whole number, a half away from zero. What is left of a millionth is the arithmetic's, not the number's."""
    return int(math.copysign(math.floor(abs(round(value, 6)) + 0.5), value))


# ---- Text to numbers -------------------------------------------------------

SECONDARY = ('line', 'line zero sequence')
NAMES = sorted((*(setting.name for setting in SETTINGS), *COUNTS, *SECONDARY), key=len, reverse=True)


def named(line: Line) -> tuple[str, Quantity]:
    """The setting that a line names, and its number."""
    for name in NAMES:
        words = name.split()
        if line.words[:len(words)] == words:
            return name, quantity(line, name)
    raise Fault(line.number, f"'{' '.join(line.words[:2])}' is no setting, wanted one of: {', '.join(sorted(NAMES))}")


def collect(text: list[Line]) -> dict[str, Quantity]:
    """What each line gives, by name; none is named twice."""
    found: dict[str, Quantity] = {}
    for line in text:
        name, given = named(line)
        if name in found:
            raise Fault(line.number, f"'{name}' again, it stands on line {found[name].line}")
        found[name] = given
    return found


def scale(given: dict[str, Quantity]) -> Scale:
    """What a text says of the converter."""
    for name in COUNTS:
        if name in given:
            only(given[name], name, 1, '')
            if given[name].value.real <= 0:
                raise Fault(given[name].line, f'{name} {given[name].written}, wanted more than 0')
    return Scale(*(given[name].value.real if name in given else None for name in COUNTS))


def direct(setting: Setting, given: Quantity, counts: Scale) -> complex:
    """A setting that is given by its own name, in the record's units. Off is said by its word, and by no number that comes to 0."""
    if given.written == OFF:
        return given.value
    units = (setting.unit, setting.also) if setting.also else (setting.unit,)
    only(given, setting.name, 1 if given.unit == 'degrees' else len(setting.parts), *units)
    if given.unit == 'degrees':
        return cmath.rect(1000, math.radians(given.value.real))
    value = given.value * counts.factor(given, setting.unit)
    if setting.may_be_off and nearest(value.real) == 0:
        raise Fault(given.line, f"'{given.text}': {setting.name} 0 is off, wanted '{OFF}' if it is meant")
    return value


def of_line(given: dict[str, Quantity], counts: Scale) -> dict[str, complex]:
    """What the line's own impedances give: replica and line angle from the positive sequence, k from the zero sequence."""
    for name in SECONDARY:
        if name in given:
            only(given[name], name, 2, 'ohm')
            if given[name].value == 0:
                raise Fault(given[name].line, f'{name} {given[name].text}, wanted more than 0')
    if 'line' not in given:
        if 'line zero sequence' in given:
            raise Fault(given['line zero sequence'].line, "'line zero sequence' needs 'line', which is not given")
        return {}
    one = given['line'].value
    found = {'replica': one * counts.factor(given['line'], IMPEDANCE), 'line angle': 1000 * one / abs(one)}
    if 'line zero sequence' in given:
        found['k'] = 1000 * (given['line zero sequence'].value - one) / (3 * one)
    return found


class Entered(NamedTuple):
    """A settings text as it was understood."""
    numbers: Numbers
    counts: Scale
    rounded: list[str]  # what did not come out whole, for the user to see


def whole(setting: Setting, value: complex, given: Quantity, rounded: list[str]) -> tuple[int, ...]:
    """The numbers of the record nearest to a value; says what was rounded."""
    exact = (value.real, value.imag)[:len(setting.parts)]
    numbers = tuple(map(nearest, exact))
    for number, part, which in zip(numbers, exact, (' real part', ' imaginary part')):
        if round(part, 6) != number:
            which = which if len(exact) == 2 else ''
            rounded.append(f'line {given.line}: {given.text}: {setting.name}{which} is {part:.6f}, rounded to {number}')
    return numbers


def source(setting: Setting, given: dict[str, Quantity], last: int) -> Quantity:
    """The line that gives a setting: its own, or one of the line's impedances, and not both. What may be off is off without one."""
    through = {'replica': 'line', 'line angle': 'line', 'k': 'line zero sequence'}.get(setting.name)
    both = [given[name] for name in (setting.name, through) if name in given]
    if not both and setting.may_be_off:
        return off(last)
    if not both:
        raise Fault(last, f"the settings end, and '{setting.name}' is missing")
    if len(both) == 2:
        one, two = sorted(quantity.line for quantity in both)
        raise Fault(two, f"'{setting.name}' again, line {one} gives it already")
    return both[0]


def read(given: dict[str, Quantity], last: int) -> Entered:
    """The numbers of the settings collected; the text ends at the line named last."""
    counts = scale(given)
    derived, numbers, rounded, origin = of_line(given, counts), {}, [], {}
    for setting in SETTINGS:
        origin[setting.name] = by = source(setting, given, last)
        value = derived[setting.name] if setting.name in derived else direct(setting, by, counts)
        numbers[setting.name] = whole(setting, value, by, rounded)
    wrong = first_wrong(numbers)
    if wrong:
        raise Fault(origin[wrong.name].line, f"'{origin[wrong.name].text}': {wrong.says}")
    return Entered(numbers, counts, rounded)


# ---- Numbers to text -------------------------------------------------------

def write(numbers: Numbers) -> str:
    """The one text of a record, as it is read aloud. read() takes it back to the same numbers."""
    said = []
    for setting in SETTINGS:
        real, *imaginary = numbers[setting.name]
        if setting.may_be_off and real == 0:
            said.append(f'{setting.name} {OFF}\n')
            continue
        written = str(real) + ''.join(f' {"-" if part < 0 else "+"} j {abs(part)}' for part in imaginary)
        said.append(' '.join(f'{setting.name} {written} {setting.unit}'.split()) + f', {spoken(written)}\n')
    return ''.join(said)
