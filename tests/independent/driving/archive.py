"""What the comparisons share: a driver that build.sh builds and runs, calls in batches, and the end at the first difference."""
import argparse
import os
import subprocess
import sys
import tempfile
from pathlib import Path

from driving import calls

ROOT = Path(__file__).resolve().parents[3]
BUILD_SH = ['sh', str(ROOT / 'build.sh')]
# Each program has a driver of its own, so that two may run at once.
DRIVER = 'driver_' + os.path.splitext(os.path.basename(sys.argv[0]))[0]


def arguments(description, count, *more):
    """The words of the command line; count is what is compared if nothing is said."""
    parser = argparse.ArgumentParser(description=description, formatter_class=argparse.RawDescriptionHelpFormatter)
    parser.add_argument('--count', type=int, default=count)
    parser.add_argument('--seed', type=int, default=1)
    for word in more:
        parser.add_argument(word)
    return parser.parse_args()


def build(archive):
    """Links the driver with the archive that is named, else with the library's."""
    if archive:
        os.environ['GORSEPETAL_ARCHIVE'] = os.path.abspath(archive)
    if subprocess.run(BUILD_SH + ['program', 'tests/independent/driving/driver.c', DRIVER], check=False).returncode != 0:
        sys.exit('the driver was not built')


def first(followed, count, call=None):
    """As many of the first as make so many calls together, or so many of the one that is named."""
    total = 0
    for made, lines in followed:
        yield made, lines
        total += sum(call in (None, one.step.call) for one in made)
        if total >= count:
            return


def batches(followed, most):
    """Calls and the driver's input for them, so many at a time."""
    made, text = [], []
    for some, lines in followed:
        made += some
        text += lines
        if len(made) >= most:
            yield made, b''.join(text)
            made, text = [], []
    if made:
        yield made, b''.join(text)


def compare(made, text):
    """Runs one batch, and gives what each call left; ends at the first difference."""
    with tempfile.TemporaryFile() as out:
        run = subprocess.run(BUILD_SH + ['run', DRIVER], input=text, stdout=out, check=False)
        out.seek(0)
        answers = out.read()
    at, left = 0, []
    for one in made:
        wanted = calls.as_bytes(one)
        got = answers[at:at + len(wanted)]
        if got != wanted:
            sys.exit(calls.difference(one, got, run.returncode))
        at += len(wanted)
        left.append(got)
    if run.returncode != 0 or at != len(answers):
        sys.exit(f'the driver ended with status {run.returncode} and {len(answers) - at} bytes too many')
    return left


def stop_at(faults):
    if faults:
        sys.exit('\n'.join(faults))
