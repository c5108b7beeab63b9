"""The rules of document 01 for settings, in its order and words, with the
second reach of document 02, CR 2, and the resistive reach of CR 7; and the
parts of the relay's state.

Each call takes the relay's state and the other lent slice as bytes, and gives
what it leaves of both. Comments in quotes are the document's own sentences.
"""
from typing import NamedTuple, Optional

# ---- First paragraph -------------------------------------------------------

# "The relay's state is lent from C too, as a slice of one fixed length; all
# zero bytes are a fresh relay."
RECORD = 32
IN_FORCE = slice(0, 32)     # the record in force
PENDING = slice(32, 64)     # the pending one
# Document 02, CR 1: "The relay's state gains a window of 336 numbers with a
# count of frames." Both as 16-bit big-endian numbers, the count in front.
WINDOW = slice(64, 738)
COUNT = slice(64, 66)
NUMBERS = slice(66, 738)
STATE = 738
NOTHING = bytes(RECORD)             # a record that was dropped
EMPTY = bytes(STATE - 2 * RECORD)   # a window that holds no frame


class Result(NamedTuple):
    number: int   # the number given back
    place: int
    state: bytes  # the relay's state as the call leaves it
    other: bytes  # the entry, or the lent buffer, as the call leaves it

    def to_c(self) -> int:
        # "C gets one number back: 256 times the place, plus the number given
        # back."
        return 256 * self.place + self.number


# ---- Settings record -------------------------------------------------------

# "32 bytes, no header, all fields 16-bit big-endian."
class Field(NamedTuple):
    at: int
    name: str
    low: int
    high: int
    signed: bool = False


FIELDS = (
    Field(0, 'ends N', 2, 6),
    Field(2, 'slope K', 1, 100),
    Field(4, 'differential pickup', 1, 42000),
    Field(6, 'replica impedance real', 0, 20000),
    Field(8, 'replica impedance imaginary', 1, 20000),
    Field(10, 'reach r', 1, 2000),
    Field(12, 'k real', 0, 1000),
    Field(14, 'k imaginary', -500, 500, signed=True),
    Field(16, 'line angle D real', 0, 1000),
    Field(18, 'line angle D imaginary', 0, 1000),
    Field(20, 'forward limit zf', -20000, 20000, signed=True),
    Field(22, 'reverse limit zr', -20000, 20000, signed=True),
    Field(24, 'pickup of 3I2', 1, 42000),
    # Document 02, CR 2: "Settings bytes 26 and 27 become its reach: 0 is off,
    # else 1 to 2000 and not below the first reach."
    Field(26, 'second reach', 0, 2000),
    # CR 7: "Settings bytes 28 and 29 hold R: 0 is off, 1 to 1000." "Refusals:
    # 6 at 28 in the offset order."
    Field(28, 'resistive reach R', 0, 1000),
)
OFF = 0                                # a second or resistive reach that is off
SPARE = range(30, 31 + 1)              # "26 to 31 | zero bytes | 0", from 30
SQUARES = range(998000, 1002000 + 1)   # "sum of squares 998000 to 1002000"


def first_fault(record: bytes) -> Optional[int]:
    """The offset of the first fault of a record of 32 bytes, or None."""
    passed = {}  # the fields that have passed their own range, by offset
    # "Checks go by offset."
    for field in FIELDS:
        two = record[field.at:field.at + 2]
        number = int.from_bytes(two, 'big', signed=field.signed)
        if not field.low <= number <= field.high:
            return field.at
        passed[field.at] = number
        # "A sum-of-squares fault is at 18, zf not below zr at 22, each found
        # when that offset's own range has passed."
        if field.at == 18 and passed[16]**2 + passed[18]**2 not in SQUARES:
            return 18
        if field.at == 22 and not passed[20] < passed[22]:
            return 22
        # CR 2: "Refusals: 6 at 26 in the offset order."
        if field.at == 26 and passed[26] != OFF and passed[26] < passed[10]:
            return 26
    # "A nonzero spare byte is at its own offset."
    for at in SPARE:
        if record[at] != 0:
            return at
    return None


def absent(stored: bytes) -> bool:
    # "A stored record that propose would refuse counts as absent." So do the
    # zero bytes of a fresh relay: N = 0 is out of range.
    return first_fault(stored) is not None


def refuse(number: int, place: int, state: bytes, entry: bytes) -> Result:
    # "Any refused propose or confirm leaves nothing pending and the record in
    # force unchanged (17 apart: there no relay was lent)."
    return Result(number, place, state[IN_FORCE] + NOTHING + state[WINDOW],
                  entry)


# ---- Numbers given back ----------------------------------------------------

# "No refusal writes to a lent buffer other than the relay's own state, which
# changes only as its rules say, and none is given in any other condition."
# 17, in all three calls: "from C, state slice of another length; before all
# others, changes nothing".

def propose(state: bytes, other: bytes) -> Result:
    """The other slice is the entry. "Propose: 5, 6." """
    if len(state) != STATE:
        return Result(17, 0, state, other)
    if len(other) != RECORD:        # "settings entry not 32 bytes"
        return refuse(5, 0, state, other)
    fault = first_fault(other)
    if fault is not None:           # "a field out of range (propose)"
        return refuse(6, fault, state, other)
    # "To propose a good record makes it pending, in place of any earlier
    # pending one."
    return Result(0, 0, state[IN_FORCE] + other + state[WINDOW], other)


def confirm(state: bytes, other: bytes) -> Result:
    """The other slice is the entry. "Confirm: 5, 7, 8." """
    if len(state) != STATE:
        return Result(17, 0, state, other)
    if len(other) != RECORD:        # "settings entry not 32 bytes"
        return refuse(5, 0, state, other)
    pending = state[PENDING]
    if absent(pending):             # "nothing pending (confirm)"
        return refuse(7, 0, state, other)
    for at in range(RECORD):        # "confirmation differs",
        if other[at] != pending[at]:    # at the "first differing offset"
            return refuse(8, at, state, other)
    # "To confirm with the same 32 bytes puts it in force and leaves nothing
    # pending." Document 02, CR 1: "A confirmation answered 0 empties it", the
    # window.
    return Result(0, 0, pending + NOTHING + EMPTY, other)


def read_back(state: bytes, other: bytes) -> Result:
    """The other slice is the lent buffer. "Read-back: 1, 3." """
    if len(state) != STATE:
        return Result(17, 0, state, other)
    in_force = state[IN_FORCE]
    if absent(in_force):            # "no settings in force"
        return Result(1, 0, state, other)
    if len(other) < RECORD:         # "room below 32 bytes"
        return Result(3, 0, state, other)
    # "Read-back writes the 32 bytes of the record in force there in the same
    # way": "at the front of the lent buffer; later bytes stay".
    return Result(0, 0, state, in_force + other[RECORD:])


CALLS = {'propose': propose, 'confirm': confirm, 'read_back': read_back}

# Each number a call can give, with every place it can have there: 6 at the
# offset of a field or of a spare byte, 8 at any byte, all others at 0.
FAULTS = [field.at for field in FIELDS] + list(SPARE)
ANSWERS = {
    'propose': {0: [0], 5: [0], 6: FAULTS, 17: [0]},
    'confirm': {0: [0], 5: [0], 7: [0], 8: list(range(RECORD)), 17: [0]},
    'read_back': {0: [0], 1: [0], 3: [0], 17: [0]},
}
