#!/usr/bin/env python3
"""The commissioning desk's tool: settings as text that is read aloud, and inputs for the window program.

desk.py record FILE|- [--binary]   settings text to a record: 32 bytes as hex, or as they are
desk.py read HEX|FILE|-            a record, as hex or as 32 bytes, to settings text: name, number, unit, digit by digit
desk.py make FILE|-                a case, settings and windows of phasors, to the window program's input
desk.py try FILE|-                 the same, and runs the window program on it (it is built first if need be)

tools/text.py says how settings are written, tools/case.py how windows are; examples/cases/ has cases to begin from.
What was rounded is said on standard error. On a fault nothing is written to standard output. The exit status is 2 for a text that
is not understood or out of range, and 1 for a record that propose would refuse, with the refusal's number and place.
"""
import argparse
import functools
import os
import re
import subprocess
import sys
from pathlib import Path

sys.dont_write_bytecode = True
import case  # noqa: E402
import record  # noqa: E402
import text  # noqa: E402

BUILD = ['sh', str(Path(__file__).resolve().parent.parent / 'build.sh')]


class Unreadable(Exception):
    """No file, or nothing that can be taken for what is wanted."""


def contents(name: str) -> bytes:
    """A file, or standard input."""
    try:
        return sys.stdin.buffer.read() if name == '-' else Path(name).read_bytes()
    except OSError as error:
        raise Unreadable(f'{name}: {error.strerror}') from error


def text_of(name: str) -> str:
    """The same as text."""
    try:
        return contents(name).decode('utf-8-sig')
    except UnicodeDecodeError as error:
        raise Unreadable(f'{name}: not text, from byte {error.start} on') from error


def say(rounded: list[str]) -> None:
    """Tells the user what was rounded."""
    for line in rounded:
        print(f'desk: {line}', file=sys.stderr)


def from_hex(written: bytes, name: str) -> bytes:
    """The bytes that hex digits give; spaces and line ends between them do not count."""
    digits = b''.join(written.split())
    if not re.fullmatch(rb'(?:[0-9A-Fa-f]{2})*', digits):
        raise Unreadable(f'{name}: neither {record.LENGTH} bytes nor hex, two digits a byte')
    return bytes.fromhex(digits.decode('ascii'))


def to_hex(data: bytes) -> str:
    """As document 01 writes a record: four digits, and a space."""
    return data.hex(' ', 2).upper() + '\n'


def record_bytes(words: list[str]) -> bytes:
    """The record that the command line gives: a file, standard input, or hex in one word or more."""
    name = ' '.join(words)
    if name == '-' or os.path.exists(name):
        data = contents(name)
        return data if len(data) == record.LENGTH else from_hex(data, name)
    return from_hex(name.encode(), f"'{name}'")


def make_record(name: str) -> bytes:
    """The record of a settings text."""
    given = text.lines(text_of(name))
    entered = text.read(text.collect(given), given[-1].number if given else 1)
    say(entered.rounded)
    return record.to_bytes(entered.numbers)


def make_case(name: str) -> bytes:
    """The window program's input for a case."""
    made = case.make(text_of(name))
    say(made.rounded)
    return made.data


def run_window(data: bytes) -> int:
    """Builds the window program if need be, and runs it on this input; it prints on our standard output."""
    built = subprocess.run(BUILD + ['window_ready'], check=False).returncode
    return built or subprocess.run(BUILD + ['run', 'window'], input=data, check=False).returncode


@functools.cache
def command_line() -> argparse.ArgumentParser:
    """The words that the tool takes."""
    parser = argparse.ArgumentParser(prog='desk.py', description=__doc__, formatter_class=argparse.RawDescriptionHelpFormatter)
    commands = parser.add_subparsers(dest='command', required=True)
    commands.add_parser('record').add_argument('file')
    commands.choices['record'].add_argument('--binary', action='store_true')
    commands.add_parser('read').add_argument('record', nargs='+')
    commands.add_parser('make').add_argument('file')
    commands.add_parser('try').add_argument('file')
    return parser


def done(given: argparse.Namespace) -> int:
    """Does what the command line asks for, and gives the exit status."""
    if given.command == 'try':
        return run_window(make_case(given.file))
    if given.command == 'read':
        out = text.write(record.from_bytes(record_bytes(given.record))).encode()
    elif given.command == 'make':
        out = make_case(given.file)
    else:
        out = make_record(given.file)
        out = out if given.binary else to_hex(out).encode()
    sys.stdout.buffer.write(out)
    sys.stdout.buffer.flush()
    return 0


def main(words: list[str]) -> int:
    """The exit status; a fault is said on standard error."""
    try:
        return done(command_line().parse_args(words))
    except (text.Fault, Unreadable) as fault:
        print(f'desk: {fault}', file=sys.stderr)
        return 2
    except record.Refused as refused:
        print(f'desk: {refused}', file=sys.stderr)
        return 1


if __name__ == '__main__':
    sys.exit(main(sys.argv[1:]))
