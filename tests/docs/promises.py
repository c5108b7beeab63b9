"""Holds docs/CLAIMS.md to the one statement at the top: its fields are the list of promises."""
import re
from pathlib import Path

import header
from documents import declares
from tree import ROOT, faults, read
from witness import WITNESS, theorems

STATEMENT = Path('crates/promises/specs/Promises.antt')
CONTRACTS = Path('crates/gorsepetal/proofs')
OF_EXPORTS = Path('crates') / header.EXPORTS / 'proofs'
CLAIMS = Path('docs/CLAIMS.md')


def fields():
    """Each promise of the statement, with its type."""
    return dict(re.findall(r'^  pub (\S+) : (.+)$', read(STATEMENT), flags=re.MULTILINE))


def named(page):
    """Each promise that the page's table of them names, with the files that the heading row above it gives."""
    section = re.search(r'^## The one statement$.*?(?=^## )', page, flags=re.DOTALL | re.MULTILINE)
    found, files = {}, []
    for first, second in re.findall(r'^\|([^|]*)\|([^|]*)\|$', section.group() if section else '', flags=re.MULTILINE):
        if first.startswith(' **'):
            files = [Path(path) for path in re.findall(r'`([^`]+)`', second)]
        found |= {name: files for name in re.findall(r'`([^`]+)`', first)}
    return found


def contracts(folder=CONTRACTS):
    """What says that a function's contract is its claim: all of it."""
    return ''.join(path.read_text(encoding='utf-8') for path in sorted((ROOT / folder).glob('*Contracts.antt')))


def claims_of(text, statement):
    """The claims that a function's contract is said to be, of lent slices: one."""
    return set(re.findall(r"\((\w+) (?:\w+ )*\w+'?\.now\b", header.definition_in(text, statement)))


# What is stated in these crates as a part of promises, and is none itself.
PARTS = {'Claim', 'Complex', 'OneResult'}


def unused(promised):
    """Statements of the crates of claims that no promise is made of."""
    types = ' '.join(promised.values())
    for path in sorted(path for crate in header.CLAIMS for path in (ROOT / 'crates' / crate / 'specs').glob('*.antt')):
        for name in re.findall(r'^abbrev pub (\w+) : (?:Claim → )?Type [01]$', path.read_text(encoding='utf-8'), flags=re.MULTILINE):
            if name not in PARTS and not re.search(rf'(?<![\w-]){name}(?![\w-])', types):
                yield path.relative_to(ROOT), name


def proved(file, name):
    """Whether a file has the theorem of a promise: it has the promise's name, or that name and _lem where a definition has it. Of a theorem with
    another name the file is that of the one statement, and the promise's row names the theorem."""
    path, theorem = theorems().get(name, (None, ''))
    if theorem in (name, f'{name}_lem'):
        return file == path and declares(file, theorem)
    row = next((line for line in read(CLAIMS).splitlines() if line.startswith(f'| `{name}` |')), '')
    return file == STATEMENT and declares(file, name) and f'the theorem is `{theorem}` in `{path}`' in row and declares(path, theorem)


def check_promises():
    """The page names each promise and no other, below the file that proves it; the witness gives each; each exported function has its
    contract and its one result among them; and no statement of the crates of claims is left out."""
    page, promised = read(CLAIMS), fields()
    if len(promised) != len(re.findall(r'^  pub ', read(STATEMENT), flags=re.MULTILINE)):
        faults.append(f'{STATEMENT}: a promise is not on one line, and this check does not see it')
    table = named(page)
    faults.extend(f'{CLAIMS}: its table does not name the promise `{name}` of {STATEMENT}' for name in promised if name not in table)
    faults.extend(f'{CLAIMS}: its table names `{name}`, which is no promise of {STATEMENT}' for name in table if name not in promised)
    faults.extend(f'{CLAIMS}: `{name}` is proved in no file that stands above it in the table' for name, files in table.items()
                  if not any(proved(file, name) for file in files))
    faults.extend(f'{CLAIMS}: `{file}` stands in the table, but proves no promise below it' for files in table.values() for file in files
                  if not any(proved(file, name) or theorems().get(name, ())[:1] == (file,) for name, above in table.items() if above == files))
    faults.extend(f'{WITNESS}: no `{name}`' for name in promised if name not in theorems())
    told = {}
    for function in header.exported():
        call = function.removeprefix('gorsepetal_')
        statement = ''.join(word.capitalize() for word in call.split('_')) + 'Contract'
        if promised.get(f'{call}_contract') != statement:
            faults.append(f'{STATEMENT}: {function}, which C can call, has no contract of type {statement} among the promises')
        claimed = claims_of(contracts(), statement)
        if claims_of(contracts(OF_EXPORTS), statement) != claimed or f'\npub {call}_contract : {statement}\n' not in contracts(OF_EXPORTS):
            faults.append(f'{OF_EXPORTS}: no theorem {call}_contract says that the contract of the export {function} is {sorted(claimed)}')
        told |= {claim: [*told.get(claim, []), function] for claim in claimed}
        if not any(f'One{claim}' in promised.values() for claim in claimed):
            faults.append(f'{STATEMENT}: no promise that {function} has one result')
    faults.extend(f'{CONTRACTS}: {" and ".join(names)} have one claim, {claim}' for claim, names in told.items() if len(names) > 1)
    faults.extend(f'{path}: no promise of {STATEMENT} is `{name}`' for path, name in unused(promised))
    return len(promised)
