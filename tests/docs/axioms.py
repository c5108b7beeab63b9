"""Holds the count of assumed C functions in each crate to docs/CLAIMS.md.

The last line of a crate's check says how many the check reached, as `axioms=`, where there are any. Crates that neither read nor print have
none, stand on none of the kit's crates, and name nothing of the standard library that reads or prints. `sh build.sh crates` keeps what the
checks say.
"""
import re
from pathlib import Path

from layers import crates, direct, files
from tree import ROOT, faults, read, sources

CLAIMS = Path('docs/CLAIMS.md')
CHECKS = Path('build/check')
READ_OR_PRINT = {'report', 'session', 'window', 'window_cases'}
OF_STD = re.compile(r'\bstd::(?:\{[^;]*\b)?(?:io|fs|env|net|os|process|rt|thread|time)\b|\b(?:HostRuntime|e?print(?:ln)?!)')


def is_stale(log, crate):
    """Whether a file of a crate, or of one that it stands on, is newer than what its check said."""
    named = [crate, *(crates()[crate] & direct().keys())]
    return any(path.stat().st_mtime > log.stat().st_mtime for name in named for path in files(name, 'src', 'specs', 'proofs'))


def counted(name):
    """How many the check of a crate reached; None where it has not been proved as it stands."""
    log = ROOT / CHECKS / f'{name}.log'
    if not log.is_file() or is_stale(log, name):
        return None
    verdict = next((line for line in reversed(log.read_text(encoding='utf-8').splitlines()) if line.startswith('logic=')), '')
    if not verdict.startswith('logic=proved ') or 'foreign=' in verdict:
        return None
    count = re.search(r'\baxioms=(\d+)', verdict)
    return int(count.group(1)) if count else 0


def claimed():
    """The counts that the table in docs/CLAIMS.md gives."""
    table = re.search(r'^\| crates \| `axioms=` \|\n\|.*\n((?:\|.*\n)+)', read(CLAIMS), flags=re.MULTILINE)
    counts = {}
    for row in table.group(1).splitlines() if table else ():
        names, count = row.strip('|').split('|')
        for name in re.findall(r'`(\w+)`', names):
            counts[name] = int(re.match(r' *(\d+)', count).group(1))
    return counts


def check_axioms():
    said, reached = claimed(), crates()
    for name, needed in reached.items():
        count = counted(name)
        if count is None:
            faults.append(f'crates/{name} has not been proved here as it stands, or declares C functions of its own: run sh build.sh crates')
        elif count != said.get(name):
            faults.append(f'crates/{name}: axioms={count}, but docs/CLAIMS.md says {said.get(name)}')
        if name in READ_OR_PRINT:
            continue
        of_std = sorted({m[0] for _, text in sources(name) for m in OF_STD.finditer(text)})
        if count or needed - reached.keys() or of_std:
            faults.append(f'crates/{name} neither reads nor prints, but stands on {[*sorted(needed - reached.keys()), *of_std]}, axioms={count}')
    faults.extend(f'docs/CLAIMS.md gives axioms= of {name}, which is no crate' for name in said.keys() - reached.keys())
    return len(reached)
