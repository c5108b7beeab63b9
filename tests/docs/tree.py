"""What the checks share: the tree's files, and the faults found so far."""
import re
from pathlib import Path

ROOT = Path(__file__).resolve().parent.parent.parent
faults = []


def fault(path, text, at, message):
    """A fault at a position of a file's text."""
    faults.append(f'{path}:{text.count(chr(10), 0, at) + 1}: {message}')


def read(path):
    if (ROOT / path).is_file():
        return (ROOT / path).read_text(encoding='utf-8')
    faults.append(f'{path}: this file is missing')
    return ''


def blank(pattern, text):
    """The text with all matches made spaces; positions and lines stay."""
    return re.sub(pattern, lambda m: re.sub(r'[^\n]', ' ', m.group()), text, flags=re.DOTALL | re.MULTILINE)


def tables(path, first):
    """The tables of a page that have this heading above their first column: the rows of each, by the headings of the columns."""
    found = []
    for m in re.finditer(rf'^(\| {first} \|.*)\n\|[-|]+\n((?:\|.*\n)*)', read(path), flags=re.MULTILINE):
        heading, *rows = ([cell.strip() for cell in line.strip('|').split('|')] for line in (m[1], *m[2].splitlines()))
        found.append([dict(zip(heading, row)) for row in rows])
    return found


def sources(*crates):
    """Each .rt file of some crates, without its comments."""
    for crate in crates:
        for path in sorted((ROOT / 'crates' / crate / 'src').glob('*.rt')):
            yield path.relative_to(ROOT), blank(r'//[^\n]*', path.read_text(encoding='utf-8'))
