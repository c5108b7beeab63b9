"""Holds tests/independent/ to its boundary, which goes one way: the model knows the model alone, the cases know the model, and what drives
them may know all. Its README.md is the index: it names each file, and says what each folder may import."""
import ast
import re
import sys
from pathlib import Path

from tree import ROOT, faults, read

FOLDER = Path('tests/independent')
INDEX = FOLDER / 'README.md'
MAY_IMPORT = {'model': {'model'}, 'cases': {'model', 'cases'}, 'driving': {'model', 'cases', 'driving'}}
# Modules and functions with which a file could go round that: by importing what this check does not see, or, in the model and the cases,
# by reading a file or starting a program.
IMPORTERS = {'importlib', 'runpy', 'pkgutil', 'imp', '__import__', 'exec', 'eval'}
OUTSIDE = {'os', 'io', 'pathlib', 'tempfile', 'subprocess', 'ctypes', 'socket', 'open'}
AROUND = {'model': IMPORTERS | OUTSIDE, 'cases': IMPORTERS | OUTSIDE, 'driving': IMPORTERS}


def imported(tree):
    """Each line of a file that imports, with the first name of what it imports; '' for an import by dots."""
    for node in ast.walk(tree):
        if isinstance(node, ast.Import):
            yield from ((node.lineno, name.name.split('.')[0]) for name in node.names)
        elif isinstance(node, ast.ImportFrom):
            yield node.lineno, '' if node.level else node.module.split('.')[0]


def check_imports(path, folder):
    tree = ast.parse(read(path))
    for line, name in imported(tree):
        if name in AROUND[folder] or name not in MAY_IMPORT[folder] | sys.stdlib_module_names:
            faults.append(f'{path}:{line}: {folder}/ may not import {name or "by dots"}')
    faults.extend(f'{path}:{node.lineno}: {folder}/ may not use {node.id}' for node in ast.walk(tree)
                  if isinstance(node, ast.Name) and node.id in AROUND[folder])


def sections():
    """The index by folder: the text under each heading that is a folder's name."""
    parts = re.split(r'^## (.*)\n', read(INDEX), flags=re.MULTILINE)
    return {head.strip('`/'): text for head, text in zip(parts[1::2], parts[2::2])}


def check_index(folder, files, text):
    """The index has a line for each file of a folder and for nothing else, and says what the folder may import."""
    named = re.findall(r'^- `([^`]+)`: \S', text, flags=re.MULTILINE)
    faults.extend(f'{INDEX}: {folder}/{name} has no line' for name in files if name not in named)
    faults.extend(f'{INDEX}: {folder}/{name} is not there' for name in named if name not in files)
    faults.extend(f'{INDEX}: {folder}/{name} has more than one line' for name in sorted(set(named)) if named.count(name) > 1)
    said = re.search(r'^May import: (.*)$', text, flags=re.MULTILINE)
    if not said or {name.strip('/') for name in re.findall(r'`([^`]+)`', said.group(1))} != MAY_IMPORT[folder]:
        faults.append(f'{INDEX}: under {folder}/ no line says "May import:" and names {sorted(MAY_IMPORT[folder])}')


def found():
    """The files of each folder. What lies elsewhere in tests/independent/ is a fault."""
    files = {folder: [] for folder in MAY_IMPORT}
    for path in sorted((ROOT / FOLDER).rglob('*')):
        parts = path.relative_to(ROOT / FOLDER).parts
        if path.is_dir() or '__pycache__' in parts:
            continue
        if len(parts) == 2 and parts[0] in files:
            files[parts[0]].append(parts[1])
        elif parts != (INDEX.name,):
            faults.append(f'{FOLDER.joinpath(*parts)}: it lies in none of {", ".join(files)}')
    return files


def check_boundary():
    files, index = found(), sections()
    for folder, names in files.items():
        check_index(folder, names, index.get(folder, ''))
        for name in names:
            if name.endswith('.py'):
                check_imports(FOLDER / folder / name, folder)
            elif folder != 'driving':
                faults.append(f'{FOLDER / folder / name}: {folder}/ is Python alone')
    return sum(map(len, files.values()))
