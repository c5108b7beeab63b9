#!/usr/bin/env python3
"""Writes the stored inputs of the window program and what it should print, by
model/program.py: document 01's example, the cases that cases/program_cases.py
names as stored, and the inputs of examples/.

expected.py [--check]

With --check nothing is written: the first stored file that is other than it
should be, missing, or one too many is named and ends it with status 1.
"""
import argparse
import os
import sys
from pathlib import Path

sys.dont_write_bytecode = True
sys.path[0] = str(Path(__file__).resolve().parents[1])  # model, cases, driving
from cases import program_cases  # noqa: E402
from driving.archive import ROOT  # noqa: E402
from model.program import run  # noqa: E402

EXAMPLE = os.path.join('crates', 'window')
NAMED = os.path.join('crates', 'window_cases')
DATA = os.path.join(NAMED, 'data')
NAMES = os.path.join(DATA, 'names')  # the order in which they are run


def stored() -> dict[str, bytes]:
    """The named cases that are stored."""
    return {name: program_cases.INPUTS[name] for name in program_cases.STORED}


def printed() -> bytes:
    """For each case its name, and what is printed for it."""
    return b''.join(f'case {name}\n'.encode('ascii') + run(data)
                    for name, data in stored().items())


def wanted() -> dict[str, bytes]:
    """What each stored file should hold, by its path in the repository."""
    example = program_cases.INPUTS['example']
    files = {os.path.join(EXAMPLE, 'stdin'): example,
             os.path.join(EXAMPLE, 'stdout'): run(example)}
    for name, data in stored().items():
        files[os.path.join(DATA, name)] = data
    files[NAMES] = ''.join(f'{name}\n' for name in stored()).encode('ascii')
    files[os.path.join(NAMED, 'stdout')] = printed()
    for name, data in program_cases.EXAMPLES.items():
        files[os.path.join('examples', f'{name}.bin')] = data
        files[os.path.join('examples', f'{name}.expected')] = run(data)
    return files


def too_many(files: dict[str, bytes]) -> list[str]:
    """What lies beside the named cases."""
    folder = os.path.join(ROOT, DATA)
    found = sorted(os.listdir(folder)) if os.path.isdir(folder) else []
    return [path for path in (os.path.join(DATA, name) for name in found)
            if path not in files]


def write(files: dict[str, bytes]) -> None:
    for path, data in files.items():
        whole = os.path.join(ROOT, path)
        os.makedirs(os.path.dirname(whole), exist_ok=True)
        with open(whole, 'wb') as file:
            file.write(data)
    for path in too_many(files):
        os.remove(os.path.join(ROOT, path))


def compare(files: dict[str, bytes]) -> None:
    for path, data in files.items():
        whole = os.path.join(ROOT, path)
        if not os.path.isfile(whole):
            sys.exit(f'{path}: missing')
        with open(whole, 'rb') as file:
            if file.read() != data:
                sys.exit(f'{path}: differs')
    for path in too_many(files):
        sys.exit(f'{path}: one too many')


def main() -> None:
    parser = argparse.ArgumentParser(
        description=__doc__,
        formatter_class=argparse.RawDescriptionHelpFormatter)
    parser.add_argument('--check', action='store_true')
    words = parser.parse_args()
    program_cases.check()
    files = wanted()
    if words.check:
        compare(files)
    else:
        write(files)
    print(f'{len(files)} stored files {"agree" if words.check else "written"}')


if __name__ == '__main__':
    main()
