"""Windows of phasors by chance: the samples that `desk.py make` writes, held to the wave and to the model's measuring."""
import cmath
import math
import random

from bad import COUNTS, OF_REPLICA, RESISTANCE, SETTINGS
from cases import building, records
from held import hold, ran
from model import measuring
from model.program import run

PLAIN = {'': 1, 'counts': 1}
UNITS = {'V': {**PLAIN, 'V': 100 * math.sqrt(2)}, 'I': {**PLAIN, 'A': 200 * math.sqrt(2)}}  # counts of peak in one of each


def a_phasor(rng: random.Random, name: str) -> tuple[str, complex]:
    """A line of a case, and the phasor in counts that it means."""
    unit, factor = rng.choice(list(UNITS[name[0]].items()))
    size = round(rng.choice([1, 100, 32000]) * rng.random() / factor, 3)
    if rng.random() < 0.5:
        angle = round(rng.uniform(-360, 360), 2)
        return f'{name} {size} {unit} at {angle}', factor * cmath.rect(size, math.radians(angle))
    im = round(0.2 * size * rng.random(), 3)
    sign = rng.choice('+-')
    return f'{name} -{size / 2:.4f} {sign} j {im} {unit}', factor * complex(-round(size / 2, 4), im if sign == '+' else -im)


def a_window(rng: random.Random, ends: int) -> tuple[list[str], dict[int, complex], set[int]]:
    """Its lines, the phasor of each channel given, and the places of the missing samples."""
    names = ['Va', 'Vb', 'Vc', *(f'I{phase}{end}' for end in range(1, ends + 1) for phase in 'abc')]
    lines, phasors, missing = [f'window {rng.random()}'], {}, set()
    for at in rng.sample(range(len(names)), rng.randint(0, len(names))):
        line, phasors[at] = a_phasor(rng, names[at])
        lines.append(f'  {line}')
    for _ in range(rng.choice([0, 0, 1, 2])):
        at, frame = rng.randrange(len(names)), rng.randrange(16)
        lines.append(f'missing {names[at]} frame {frame}')
        missing.add(len(names) * frame + at)
    return lines, phasors, missing


def window_holds(numbers: list[int], ends: int, phasors: dict[int, complex], missing: set[int], says: str) -> None:
    """Each sample is the wave's, to a half, and the model measures the phasor, to two counts; what was not given is zero."""
    hold({at for at, number in enumerate(numbers) if number == measuring.MISSING} == missing, f'missing samples of {says}')
    for at in range(measuring.channels(ends)):
        p = phasors.get(at, 0j)
        true = [p.real * math.cos(math.pi * n / 8) - p.imag * math.sin(math.pi * n / 8) for n in range(16)]
        samples = measuring.channel(numbers, ends, at)
        here = [n for n in range(16) if samples[n] != measuring.MISSING]
        hold(all(abs(samples[n] - true[n]) <= 0.500001 for n in here), f'samples of channel {at} of {says}')
        if len(here) == 16:
            found = measuring.phasor_of(measuring.sums(samples))
            hold(abs(complex(*found) - p) < 2, f'channel {at} measures {found}, not {p}, of {says}')


def a_confirmation(rng: random.Random, data: bytes) -> tuple[str, bytes]:
    """The second entry: mostly the first again, else with a slope, a second reach or a resistive reach of its own. Its line, and its
    record."""
    kind, slope = rng.random(), rng.randint(1, 100)
    second, resistive = building.any_second(rng, int.from_bytes(data[10:12], 'big')), building.any_resistive(rng)
    if kind < 0.15:
        return f'confirmation slope {slope} percent\n', records.put(data, 2, slope)
    if kind < 0.3:
        return f'confirmation second reach {f"{second} {OF_REPLICA}" if second else "off"}\n', records.put(data, 26, second)
    if kind < 0.45:
        return f'confirmation resistive reach {f"{resistive} {RESISTANCE}" if resistive else "off"}\n', records.put(data, 28, resistive)
    return '', data


def a_case(rng: random.Random) -> None:
    """Settings from the model's random records, windows by chance, and at times a confirmation that differs."""
    data = records.good(rng)
    ends = data[1]
    windows = [a_window(rng, ends) for _ in range(rng.randint(0, 3))]
    again, second = a_confirmation(rng, data)
    text = ran('read', data.hex()).out.decode() + COUNTS + again
    text += ''.join(f'{line}\n' for lines, _, _ in windows for line in lines)
    made = ran('make', '-', given=text.encode())
    hold(made.status == 0 and not made.errors and made.out[:64] == data + second, f'entries of {text}{made}')
    numbers = measuring.numbers(made.out[64:])
    size = measuring.length(ends)
    hold(len(numbers) == size * len(windows), f'length of {text}')
    for at, (_, phasors, missing) in enumerate(windows):
        window_holds(numbers[size * at:size * (at + 1)], ends, phasors, missing, text)
    shown = [line for line in run(made.out).decode().splitlines() if 'refused' in line]
    wanted = [f'window {at} refused 4 at {min(missing)}' for at, (_, _, missing) in enumerate(windows, 1) if missing]
    differs = next((at for at in range(len(data)) if data[at] != second[at]), None)
    hold(shown == (wanted if differs is None else [f'settings refused 8 at {differs}']), f'the model prints {shown} for {text}')


def halves() -> None:
    """A half is rounded away from zero, on both sides."""
    made = ran('make', '-', given=(SETTINGS + 'window\nVa 2.5 at 0\nIc2 0.5 at 90\n').encode()).out
    numbers = measuring.numbers(made[64:])
    hold([numbers[9 * n] for n in (0, 4, 8, 12)] == [3, 0, -3, 0], 'samples of Va 2.5 at 0')
    hold([numbers[9 * n + 8] for n in (0, 4, 8, 12)] == [0, -1, 0, 1], 'samples of Ic2 0.5 at 90')
