"""Which crate stands on which: crates.txt names what each uses, and nothing more; and which function calls itself."""
import re
from pathlib import Path

from header import EXPORTS
from tree import ROOT, blank, faults, read, sources

CRATES = Path('crates.txt')
HEADER = Path('include/gorsepetal.h')


def lines():
    """The lines of crates.txt: the words before the colon, of which the first is the crate's name, and those behind it."""
    rows = (line.partition('#')[0].partition(':') for line in read(CRATES).splitlines())
    return [(head.split(), needed.split()) for head, _, needed in rows if head.strip()]


def direct():
    """Each crate of crates.txt with the crates that it names."""
    return {name: needed for (name, *_), needed in lines()}


def archives():
    """The crates that are built for C, as static libraries."""
    return [name for (name, *words), _ in lines() if 'staticlib' in words]


def crates():
    """Each crate of crates.txt with what it stands on, directly or not."""
    named, reached = direct(), {}
    for name in named:
        found, open_ = set(), [name]
        while open_:
            more = set(named.get(open_.pop(), ())) - found
            found |= more
            open_ += more
        reached[name] = found
    return reached


def of_std(text):
    """The names that a file takes in from the standard library: `std::io` is no crate of crates.txt, though one has that name."""
    taken = re.findall(r'^\s*(?:pub )?use std::([^;]+);', text, flags=re.MULTILINE)
    return {word for words in taken for word in re.findall(r'\w+', words)}


def files(crate, *parts):
    """A crate's files of Rattle and of antt, in these of its folders; what the check keeps in out/ is none of them."""
    return [path for part in parts for path in sorted((ROOT / 'crates' / crate / part).rglob('*')) if path.suffix in ('.rt', '.antt')]


def used(crate):
    """The crates that a crate's code, definitions and proofs name."""
    found = set()
    for path in files(crate, 'src', 'specs', 'proofs'):
        text = blank(r'(?://|--)[^\n]*', path.read_text(encoding='utf-8'))
        found |= set(re.findall(r'\bRattle\.(\w+)', text)) - OF_RATTLE
        if path.suffix == '.rt':
            found |= set(re.findall(r'(?<![\w:])(\w+)::', text)) & KNOWN - of_std(text)
    return found - {crate}


OF_RATTLE = {'std', 'core'}  # what every crate has, and crates.txt never lists
KNOWN = set(direct()).union(*direct().values())


def check_layers():
    if archives() != [EXPORTS]:
        faults.append(f'{CRATES}: the static library is {EXPORTS} alone, but it has {archives()}')
    for name, needed in direct().items():
        uses = used(name)
        faults.extend(f'{CRATES}: {name} names {other}, which it does not use' for other in needed if other not in uses)
        faults.extend(f'{CRATES}: {name} uses {other}, which it does not name' for other in sorted(uses - set(needed)))
    return len(direct())


def calls():
    """Each function of the crates with those of its crate and of others that its body names before a parenthesis. A method, with a dot before its
    name where it is called, counts as one only where the crate has a method of that name."""
    found = {}
    for crate in direct():
        for path, text in sources(crate):
            begins = [*re.finditer(r'^[ ]*(?:pub(?:\([a-z]+\))? )?(?:extern "C" )?fn (\w+)(?:<[^(]*>)?\(\s*(&?(?:mut )?self\b)?', text, flags=re.MULTILINE)]
            for m, end in zip(begins, [*(m.start() for m in begins[1:]), len(text)]):
                body = text[m.end():end]
                body = body[body.index('\n{'):] if '\n{' in body else body.partition('{')[2]
                named = [(path.split('::')[0], dot + name) for path, dot, name in re.findall(r'((?:\b\w+::)*)(\.?)(?<![\w!])(\w+)\(', body)]
                function = crate, '.' * bool(m[2]) + m[1]
                found[function] = found.get(function, set()) | {(scope if scope in KNOWN else crate, name) for scope, name in named}
    return found


def in_rings():
    """The functions that come back to themselves by what they call."""
    called, rings = calls(), []
    for function in called:
        reached, open_ = set(), [function]
        while open_:
            more = called.get(open_.pop(), set()) - reached
            reached |= more
            open_ += more
        if function in reached:
            rings.append(function)
    return rings


def check_rings():
    """One function of the library calls itself, the root, and no others each other in a ring. A function that does has its proof in a folder with
    a plus before its name. The header has this."""
    rings, folders = in_rings(), [path.name for path in sorted(ROOT.glob('crates/*/proofs/**/+*'))]
    if rings != [('whole', 'floor_root')] or folders != ['+floor_root']:
        faults.append(f'{HEADER}: one function calls itself, the root, but the code has {rings}, and the proofs have {folders}')
    if 'One function of the library calls itself: the root. No other does' not in ' '.join(read(HEADER).replace('**', '').split()):
        faults.append(f'{HEADER}: it does not say which function calls itself')
    return len(rings)
