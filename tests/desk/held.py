"""What the checks of tools/desk.py share: where things are, the tool called within this process, and the end at the first fault."""
import io
import sys
from pathlib import Path
from typing import NamedTuple

ROOT = Path(__file__).resolve().parent.parent.parent
sys.path[1:1] = [str(ROOT / 'tools'), str(ROOT / 'tests' / 'independent')]
import desk  # noqa: E402


def hold(true: bool, says: str) -> None:
    """Ends the check if something does not hold."""
    if not true:
        sys.exit(f'desk: {says}')


class Ran(NamedTuple):
    """One call of the tool."""
    status: int
    out: bytes
    errors: str


def ran(*words: str, given: bytes = b'') -> Ran:
    """What the tool gives for a command line and a standard input."""
    kept = sys.stdin, sys.stdout, sys.stderr
    sys.stdin, sys.stdout, sys.stderr = (io.TextIOWrapper(io.BytesIO(data), encoding='utf-8') for data in (given, b'', b''))
    try:
        status = desk.main(list(words))
        sys.stdout.flush()
        sys.stderr.flush()
        return Ran(status, sys.stdout.buffer.getvalue(), sys.stderr.buffer.getvalue().decode())
    finally:
        sys.stdin, sys.stdout, sys.stderr = kept
