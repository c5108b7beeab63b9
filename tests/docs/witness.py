"""What crates/promises gives as the proof of each promise: the theorem's name, and the file that declares it."""
import re
from functools import cache
from pathlib import Path

from tree import read

WITNESS = Path('crates/promises/proofs/Promises.antt')


@cache
def theorems():
    """Each promise that has a proof, with the theorem's file and its name there."""
    text = read(WITNESS)
    modules = {alias: path for path, alias in re.findall(r'^use Rattle\.(\S+) as (\S+)$', text, flags=re.MULTILINE)}
    found = {}
    for promise, module, theorem in re.findall(r'^  (\w+) = (\S+)\.(\w+);$', text, flags=re.MULTILINE):
        crate, *parts = modules.get(module, '').split('.')
        found[promise] = Path('crates', crate, *parts).with_suffix('.antt'), theorem
    return found
