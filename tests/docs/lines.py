#!/usr/bin/env python3
"""How many lines of proof a line of code takes. `python3 tests/docs/lines.py` prints the table; the docs check holds two limits, which
docs/ARCHITECTURE.md names."""
import re
import sys
from pathlib import Path

sys.dont_write_bytecode = True
from layers import crates, files  # noqa: E402
from tree import ROOT, faults, read  # noqa: E402

ARCHITECTURE = Path('docs/ARCHITECTURE.md')
PARTS = ('src', 'specs', 'proofs')
MOST_IN_A_CRATE, MOST_IN_ALL = 8, 4.5


def text(path):
    return path.read_text(encoding='utf-8')


def lines(paths):
    return sum(len(text(path).splitlines()) for path in paths)


def has_code(crate):
    return any(re.search(r'\bfn\s', text(path)) for path in files(crate, 'src'))


def served(crate, others):
    """The files of proofs that another crate names."""
    folder = ROOT / 'crates' / crate / 'proofs'
    for path in files(crate, 'proofs'):
        module = '.'.join(path.relative_to(folder).with_suffix('').parts)
        if f'Rattle.{crate}.proofs.{module}.' in others:
            yield path


def counted():
    """Each crate's lines of each part, and of proofs that serve no other crate; and those of all."""
    whole = {crate: ''.join(text(path) for part in PARTS for path in files(crate, part)) for crate in crates()}
    each = {}
    for crate in crates():
        others = ''.join(words for name, words in whole.items() if name != crate)
        of_parts = [lines(files(crate, part)) for part in PARTS]
        each[crate] = [*of_parts, of_parts[2] - lines(served(crate, others))]
    return each, [sum(column) for column in zip(*each.values())]


def check_lines():
    each, total = counted()
    page = ' '.join(read(ARCHITECTURE).split())
    if f'at most {MOST_IN_A_CRATE} lines of its own proofs a line of code in a crate, and {MOST_IN_ALL} of all proofs over all' not in page:
        faults.append(f'{ARCHITECTURE}: it does not say that a crate may have {MOST_IN_A_CRATE} lines of its own proofs, and all {MOST_IN_ALL}')
    faults.extend(f'crates/{name}: {own} lines of its own proofs for {src} of code' for name, (src, _, _, own) in each.items()
                  if has_code(name) and own > MOST_IN_A_CRATE * src)
    if total[2] > MOST_IN_ALL * total[0]:
        faults.append(f'{total[2]} lines of proof for {total[0]} of code in all crates')
    return len(each)


def main():
    each, total = counted()
    print(f'{"crate":14}{"src":>6}{"specs":>7}{"proofs":>8}{"own":>7}{"proofs/src":>12}{"own/src":>9}')
    for name, counts in [*each.items(), ('all', total)]:
        ratios = [f'{counts[part] / counts[0]:.1f}' if name == 'all' or has_code(name) else 'no code' for part in (2, 3)]
        print(f'{name:14}{counts[0]:6}{counts[1]:7}{counts[2]:8}{counts[3]:7}{ratios[0]:>12}{ratios[1]:>9}')


if __name__ == '__main__':
    main()
