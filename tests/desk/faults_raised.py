"""Bad inputs: each gets its error and its status and no output, and every fault that the tool can raise has been raised. And texts
damaged by chance, which are either taken or refused."""
import ast
import io
import random
import sys
import traceback
from pathlib import Path

import bad
import desk
from held import ROOT, Ran, hold, ran
from there_and_back import REFUSED


def raised_at(words: list[str], given: bytes) -> tuple[str, int]:
    """The file and the line at which the tool finds the fault."""
    kept, sys.stdin = sys.stdin, io.TextIOWrapper(io.BytesIO(given))
    try:
        desk.done(desk.command_line().parse_args(words))
    except Exception as fault:
        last = traceback.extract_tb(fault.__traceback__)[-1]
        return Path(last.filename).name, last.lineno
    finally:
        sys.stdin = kept
    raise AssertionError('no fault')


def faults_in_source() -> list[tuple[str, int, int]]:
    """Each statement of the tool that raises a fault, with its first and its last line."""
    return [(path.name, node.lineno, node.end_lineno) for path in sorted((ROOT / 'tools').glob('*.py'))
            for node in ast.walk(ast.parse(path.read_text(encoding='utf-8'))) if isinstance(node, ast.Raise)]


def bad_inputs() -> list[tuple[list[str], bytes, int, str]]:
    """The command line, standard input, the status and the error of each."""
    found = [([one.command, '-'], one.text.encode(), 2, one.error) for one in bad.texts()]
    found += [(['read', *words.split()], b'', 1, f'refused {says}') for words, says in REFUSED.items()]
    return found + [
        (['record', 'no such file'], b'', 2, 'no such file: No such file or directory'),
        (['make', '-'], b'ends \xff\n', 2, '-: not text, from byte 5 on'),
        (['read', 'fifteen'], b'', 2, "'fifteen': neither 32 bytes nor hex, two digits a byte"),
        (['read', '-'], b'0002 000', 2, '-: neither 32 bytes nor hex, two digits a byte')]


def bad_texts() -> int:
    """Each bad input, and whether all faults were seen."""
    inputs, seen = bad_inputs(), set()
    for words, given, status, error in inputs:
        found = ran(*words, given=given)
        hold(found == Ran(status, b'', f'desk: {error}\n'), f'{words} {given.decode(errors="replace")}\nshould say: {error}\nbut: {found}')
        seen.add(raised_at(words, given))
    for name, first, last in faults_in_source():
        hold(any(file == name and first <= line <= last for file, line in seen),
             f'tools/{name}:{first}: no bad text reaches this fault')
    return len(inputs)


def damaged(rng: random.Random, text: str) -> str:
    """A word or a sign of it left out, doubled, or taken from another line."""
    lines = [line.split(' ') for line in text.splitlines()]
    for _ in range(rng.randint(1, 3)):
        line, other = rng.choice(lines), rng.choice(lines)
        at = rng.randrange(len(line))
        line[at] = rng.choice(['', line[at][1:], f'{line[at]} {line[at]}', rng.choice(other), rng.choice(['j', 'at', ',', '-', '0', '#'])])
    return ''.join(' '.join(line) + '\n' for line in lines)


def either_way(rng: random.Random, count: int) -> tuple[int, int]:
    """How many damaged texts were taken, and how many refused."""
    text, refused = (ROOT / 'examples' / 'cases' / 'three_ends.txt').read_text(encoding='utf-8'), 0
    for _ in range(count):
        one = damaged(rng, text)
        found = ran('make', '-', given=one.encode())
        taken = found.status == 0 and len(found.out) >= 64
        left = found.status == 2 and not found.out and found.errors.startswith('desk: line ')
        hold(taken or left, f'{one}{found.status} {found.errors}')
        refused += left
    return count - refused, refused
