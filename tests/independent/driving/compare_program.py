#!/usr/bin/env python3
"""Runs build/window, the window program, and compares what it prints with
model/program.py.

compare_program.py [--count N] [--seed S]

Each input is a run of its own: all fixed inputs, the cut at every byte among
them, then N by chance. They come from a file, from a pipe at once, or from a
pipe in pieces, of which the program has to take each before the next comes.
The first difference ends it, and so do another exit status than 0, anything on
standard error, and at the end a line that the program can print and did not.
"""
import fcntl
import os
import re
import struct
import subprocess
import sys
import tempfile
import termios
import time
from collections import Counter
from concurrent.futures import ThreadPoolExecutor
from itertools import chain, cycle, islice
from pathlib import Path
from typing import Iterator, NamedTuple

sys.dont_write_bytecode = True
sys.path[0] = str(Path(__file__).resolve().parents[1])  # model, cases, driving
from cases import program_cases, program_inputs  # noqa: E402
from cases.building import ENDS  # noqa: E402
from driving import archive, reach_seen  # noqa: E402
from model.decision import PHASE_BITS  # noqa: E402
from model.measuring import BITS, length  # noqa: E402
from model.program import run  # noqa: E402
from model.settings import FAULTS, RECORD  # noqa: E402

AT_ONCE = os.cpu_count() or 1
PATIENCE = 60   # seconds for one run
SHORT = 400     # bytes, to be given one by one


# ---- One run ---------------------------------------------------------------

class Ran(NamedTuple):
    label: str
    data: bytes
    printed: bytes
    errors: bytes
    status: int


def begin(words: list[str], given) -> subprocess.Popen:
    return subprocess.Popen(words, stdin=given, stdout=subprocess.PIPE,
                            stderr=subprocess.PIPE)


def end(running: subprocess.Popen, data: bytes = None):
    """What it prints to its end; one that does not end is ended."""
    try:
        return running, running.communicate(data, timeout=PATIENCE)
    except subprocess.TimeoutExpired:
        running.kill()
        raise


def from_file(words: list[str], data: bytes):
    with tempfile.TemporaryFile() as file:
        file.write(data)
        file.seek(0)
        return end(begin(words, file))


def at_once(words: list[str], data: bytes):
    return end(begin(words, subprocess.PIPE), data)


def waiting(pipe: int) -> int:
    """How many bytes are in a pipe."""
    return struct.unpack('i', fcntl.ioctl(pipe, termios.FIONREAD, bytes(4)))[0]


def given_in(sizes: list[int]):
    """In pieces of these sizes, over and over."""
    def pieces(words: list[str], data: bytes):
        out, into = os.pipe()
        running, latest = begin(words, out), time.monotonic() + PATIENCE
        at, each = 0, cycle(sizes)
        while at < len(data) and running.poll() is None:
            at += os.write(into, data[at:at + next(each)])
            while waiting(out) and running.poll() is None:
                if time.monotonic() > latest:
                    running.kill()
                time.sleep(0)
        os.close(into)
        os.close(out)
        return end(running)
    return pieces


WAYS = (from_file, at_once, given_in([1]), given_in([7, 1, 33, 64, 5]),
        given_in([RECORD]), given_in([63, 289, 3]))


def ran(words: list[str], number: int, label: str, data: bytes) -> Ran:
    """The way goes by turns; one by one only what is short."""
    way = WAYS[number % len(WAYS)]
    if way is WAYS[2] and len(data) > SHORT:
        way = WAYS[3]
    running, (printed, errors) = way(words, data)
    return Ran(label, data, printed, errors, running.returncode)


def difference(found: Ran, wanted: bytes) -> str:
    return (f'DIFFERENCE in {found.label}\n'
            f'  input {found.data.hex()} ({len(found.data)} bytes)\n'
            f'  document 01: status 0, nothing on standard error, printed\n'
            f'{wanted.decode("ascii")}'
            f'  build/window: status {found.status}, on standard error '
            f'{found.errors!r}, printed\n'
            f'{found.printed.decode("ascii", "backslashreplace")}')


# ---- What was seen ---------------------------------------------------------

DECIDED = re.compile(r'window (\d+) trip (\d) diff (\d+) mho (\d+) dir (\d)')
REFUSED = re.compile(r'window (\d+) (refused \d+ at \d+)')


def shown(printed: bytes) -> Iterator[str]:
    """What the lines of a run are, each part of one by itself."""
    lines = printed.decode('ascii').splitlines()
    if not lines:
        yield 'nothing is printed'
    for line in lines:
        found = DECIDED.fullmatch(line)
        if found:
            number, trip, diff, mho, towards = map(int, found.groups())
            phases = diff & PHASE_BITS
            yield from (f'trip {trip}', f'diff {diff}', f'dir {towards}')
            if trip and not diff and not towards:
                yield 'trip by a balanced fault'
            if trip and not phases and not mho and towards:
                yield f'trip by a quadrilateral alone, diff {diff}'
            yield from (f'mho {name}: {mho & bit > 0}'
                        for name, bit in BITS.items())
            yield f'number of {len(str(number))} digits'
        else:
            found = REFUSED.fullmatch(line)
            yield f'window {found.group(2)}' if found else line


def wanted() -> list[str]:
    """Decide has a record in force and room, and confirm has one pending, so
    1, 3, 7 and 17 are never printed."""
    return [
        'nothing is printed', 'settings refused 5 at 0',
        *(f'settings refused 6 at {place}' for place in FAULTS),
        *(f'settings refused 8 at {place}' for place in range(RECORD)),
        'window refused 2 at 0',
        *(f'window refused 4 at {place}' for place in range(length(ENDS[-1]))),
        'trip 0', 'trip 1', 'trip by a balanced fault',
        *(f'trip by a quadrilateral alone, diff {bits}'
          for bits in range(8, 64, 8)),
        *(f'diff {bits}' for bits in range(64)),
        *(f'mho {name}: {either}' for name in BITS
          for either in (False, True)),
        'dir 0', 'dir 1', 'dir 2',
        *(f'number of {digits} digits' for digits in range(1, 5)),
        *reach_seen.wanted('window program')]


def report(seen: Counter) -> None:
    for what in ('refused 5', 'refused 6', 'refused 8', 'window refused 2',
                 'window refused 4', 'nothing', 'trip', 'diff', 'mho', 'dir',
                 'number of', 'second reach', 'resistive reach'):
        kinds = {kind: seen[kind] for kind in seen if what in kind}
        print(f'{what}: {sum(kinds.values())}, {len(kinds)} kinds')
    archive.stop_at([f'{what}: never seen' for what in wanted()
                     if not seen[what]]
                    + [f'{what}: nothing that the program can print'
                       for what in sorted(set(seen) - set(wanted()))])


def main() -> None:
    given = archive.arguments(__doc__, 1000)
    program_cases.check()
    words = subprocess.run(archive.BUILD_SH + ['words', 'window'], check=True,
                           stdout=subprocess.PIPE, text=True
                           ).stdout.splitlines()
    seen, total = Counter(), 0
    inputs = enumerate(chain(program_inputs.fixed(), program_inputs.by_chance(
        given.count, given.seed)))
    with ThreadPoolExecutor(AT_ONCE) as pool:
        while some := list(islice(inputs, 100)):
            for found in pool.map(lambda one: ran(words, one[0], *one[1]),
                                  some):
                text = run(found.data)
                if (found.printed, found.errors, found.status) != (
                        text, b'', 0):
                    sys.exit(difference(found, text))
                seen.update(shown(text))
                seen.update(reach_seen.of_run(found.data, text))
                total += 1
    report(seen)
    print(f'window program: {total} runs agree, {given.count} of them on '
          f'inputs by chance, seed {given.seed}')


if __name__ == '__main__':
    main()
