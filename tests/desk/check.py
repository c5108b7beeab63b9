#!/usr/bin/env python3
"""Holds tools/desk.py to document 01, as the independent model has it, and to what it promises.

check.py [--program] [--count N] [--seed S]

- The table of tools/record.py is the model's.
- Records at the edges of the rules and N by chance: a good one becomes text and the same bytes again, the digits that are said give
  the bytes too, and text becomes bytes and the same text; a bad one is refused at the model's offset.
- Settings from the secondary side are the numbers that were worked out by hand.
- Each bad text of bad.py gets its error, status 2 and no output, and each fault that the tool can raise has been raised.
- Texts damaged by chance are taken or refused, and nothing else happens.
- Windows of phasors by chance have those phasors, by the model's measuring, and the missing samples where they were said to be.
- The line that the manual works out, from the secondary side, is the manual's record.
- The cases of examples/cases print what is stored, in the model; with --program also in build/window, through `desk.py try`.

The first fault ends it, with status 1.
"""
import argparse
import random
import re
import subprocess
import sys
import tempfile
from pathlib import Path

sys.dont_write_bytecode = True
from held import ROOT, hold, ran  # noqa: E402
import faults_raised  # noqa: E402
import phasors  # noqa: E402
import record  # noqa: E402
import there_and_back  # noqa: E402
from cases import records  # noqa: E402
from model import settings  # noqa: E402
from model.program import run  # noqa: E402

DESK = [sys.executable, str(ROOT / 'tools' / 'desk.py')]
EXAMPLES = ROOT / 'examples' / 'cases'


def table() -> None:
    """Offsets, limits and signs are the model's."""
    own = [(part.at, part.low, part.high, part.low < 0) for setting in record.SETTINGS for part in setting.parts]
    hold(own == [(field.at, field.low, field.high, field.signed) for field in settings.FIELDS],
         "the table of tools/record.py is not the model's")
    hold((record.SPARE, record.SQUARES, record.LENGTH) == (settings.SPARE, settings.SQUARES, settings.RECORD),
         "spare bytes, squares or length in tools/record.py are not the model's")


def manual() -> None:
    """The line that the manual works out, entered as examples/cases/three_ends.txt has it, is the manual's 32 bytes."""
    header = (ROOT / 'include' / 'gorsepetal.h').read_text(encoding='utf-8')
    wanted = re.search(r'As 32 bytes.*:\n\*\*\n\*\* +((?:[0-9A-F]{4} ?){16})\n', header)
    hold(wanted is not None, "the manual's record, 'As 32 bytes', is not found in include/gorsepetal.h")
    made = ran('make', str(EXAMPLES / 'three_ends.txt')).out[:record.LENGTH]
    hold(made == bytes.fromhex(wanted.group(1)), f"three_ends.txt gives {made.hex(' ', 2)}, the manual {wanted.group(1)}")


def examples(program: bool) -> int:
    """Each stored case prints what is stored beside it."""
    cases = sorted(EXAMPLES.glob('*.txt'))
    hold([path.with_suffix('.expected') for path in cases] == sorted(EXAMPLES.glob('*.expected')) and cases != [],
         'each case of examples/cases/ needs its .expected, and each .expected its case')
    for path in cases:
        wanted = path.with_suffix('.expected').read_bytes()
        made = ran('make', str(path))
        hold(made.status == 0 and run(made.out) == wanted, f'{path.name}: the model prints\n{run(made.out).decode()}')
        if program:
            tried = subprocess.run(DESK + ['try', str(path)], stdout=subprocess.PIPE, stderr=subprocess.PIPE, check=False)
            hold((tried.returncode, tried.stdout) == (0, wanted),
                 f'{path.name}: build/window prints\n{tried.stdout.decode()}{tried.stderr.decode()}')
    return len(cases)


def command_line() -> None:
    """The tool as a program: a record as hex, in a file and as bytes; standard input; and the status of a fault."""
    def called(*words: str, given: bytes = b'') -> tuple[int, bytes]:
        done = subprocess.run([*DESK, *words], input=given, stdout=subprocess.PIPE, stderr=subprocess.DEVNULL, check=False)
        return done.returncode, done.stdout

    text = ran('read', records.SAMPLE.hex()).out
    with tempfile.TemporaryDirectory() as folder:
        for name, data in (('bytes', records.SAMPLE), ('hex', records.SAMPLE.hex().encode()), ('text', text)):
            (Path(folder) / name).write_bytes(data)
        for name in ('bytes', 'hex'):
            hold(called('read', f'{folder}/{name}') == (0, text), f'read FILE, as {name}')
        hold(called('record', f'{folder}/text', '--binary') == (0, records.SAMPLE), 'record FILE --binary')
        hold(called('make', f'{folder}/text') == (0, 2 * records.SAMPLE), 'make FILE')
    hold(called('record', '-', given=b'ends 1') == (2, b''), 'the status of a text with a fault')
    hold(called('read', '00') == (1, b''), 'the status of a refused record')
    hold(called('make', '-', given=b'window') == (2, b''), 'the status of a case with a fault')
    hold(called('try', '-', given=b'window') == (2, b''), 'the status of a case with a fault, tried')


def main() -> None:
    parser = argparse.ArgumentParser(description=__doc__, formatter_class=argparse.RawDescriptionHelpFormatter)
    parser.add_argument('--program', action='store_true')
    parser.add_argument('--count', type=int, default=1000)
    parser.add_argument('--seed', type=int, default=1)
    given = parser.parse_args()
    rng = random.Random(given.seed)
    table()
    trips = there_and_back.round_trips(rng, given.count)
    converted = there_and_back.secondary()
    wrong = faults_raised.bad_texts()
    taken, refused = faults_raised.either_way(rng, given.count // 2)
    phasors.halves()
    cases = given.count // 4
    for _ in range(cases):
        phasors.a_case(rng)
    manual()
    stored = examples(given.program)
    command_line()
    print(f'desk: {trips} records, {converted} settings from the secondary side, {wrong} bad inputs, {cases} cases by chance and '
          f'{stored} stored ones agree{" with the model and build/window" if given.program else " with the model"}; '
          f'of {taken + refused} damaged texts {taken} were taken and {refused} refused')



if __name__ == '__main__':
    main()
