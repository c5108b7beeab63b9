"""What a history is: one relay that is lent, at times with readers of event files, and the calls made on them, each on what the call
before left. A single call is a history of one step."""
from typing import List, NamedTuple, Optional, Tuple


class Step(NamedTuple):
    call: str
    other: bytes                     # the entry or the buffer that is lent
    samples: Optional[bytes] = None  # the window, for decide; the frame, for feed and write; the piece of a file, for read
    reader: int = 0                  # which of the readers, for the event calls
    numbers: Tuple[int, ...] = ()    # those that open and write take


class History(NamedTuple):
    state: bytes
    steps: List[tuple]  # the words of each Step
    label: str = ''
    readers: Tuple[bytes, ...] = ()  # as they are lent at first
