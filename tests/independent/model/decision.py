"""The rules of document 01 for decide: what it refuses, in its order, and the
decision record, with byte 4, the trip, bytes 5 to 7, and bits 8, 16 and 32 of
byte 1 of document 02, CR 2, CR 4, CR 6 and CR 7.

Comments in quotes are the document's own sentences.
"""
import functools
import struct
from typing import NamedTuple, Optional

from model.differential import (by_phase, phases_operating,
                                slopes_of_change)
from model.measuring import (BITS, FORWARD, PHASE_LOOPS, by_loop, channel,
                             direction, first_missing, length, line, negative,
                             numbers, phasor, reaches_pickup, zone_bits)
from model.quadrilateral import quadrilateral_bits
from model.settings import IN_FORCE, STATE, absent

# ---- Decision record -------------------------------------------------------

DECISION = 32   # its bytes
# Bytes 0 to 3, byte 1 with what CR 7 adds: "Bits 8, 16 and 32 of decision byte
# 1 report A, B and C"; CR 2: "Decision byte 4 becomes its six loop bits"; CR 6:
# "Each phase gets a number c from 0 to 99, in decision bytes 5, 6 and 7"; "U of
# a, b, c, 32-bit big-endian"; "floor of the root of 4096 s, for a, b, c,
# 32-bit".
FORM = struct.Struct('>5B3B3I3I')
assert FORM.size == DECISION
PHASE_BITS = 1 + 2 + 4  # of byte 1: "phases a=1, b=2, c=4"


def balanced(loops: int, reaches: bool) -> bool:
    # Document 02, CR 4: "if |3I2|² is below its pickup squared and AB, BC and
    # CA all assert in the first zone, that also sets trip". "If direction is
    # none because T lies between the limits, nothing changes."
    return not reaches and all(loops & BITS[name] != 0
                               for name in PHASE_LOOPS)


def trip(phases: int, quadrilaterals: int, loops: int, towards: int,
         reaches: bool) -> int:
    """By both parts of byte 1, the loops of the first zone, the direction, and
    whether 3I2 reaches its pickup."""
    # "trip: 1 if any phase operates, or direction is forward and any loop
    # asserts; else 0", with what CR 4 adds. Of bits 8, 16 and 32 CR 7 says:
    # "any of them sets trip". Of the second zone CR 2 says: "It does not trip."
    return int(phases != 0 or (towards == FORWARD and loops != 0)
               or balanced(loops, reaches) or quadrilaterals != 0)


def decision_record(record: bytes, samples: list[int]) -> bytes:
    """Of a good record, and a window of its length with nothing missing."""
    given = line(record)
    phases = by_phase(samples, given.ends)
    # "Only end 1 is used, here and in the loops."
    v = [phasor(channel(samples, given.ends, index)) for index in range(3)]
    i = [phase.phasors[0] for phase in phases]
    operating = phases_operating(record, phases)
    first, second = zone_bits(given, by_loop(given, v, i))
    v2, i2 = negative(*v), negative(*i)
    # CR 4 leaves it as it is: "Direction still reads 0."
    towards = direction(given, v2, i2)
    quadrilaterals = quadrilateral_bits(given, v, i, towards)
    tripping = trip(operating, quadrilaterals, first, towards,
                    reaches_pickup(i2, given.pickup))
    return FORM.pack(tripping, operating + quadrilaterals, first, towards,
                     second, *slopes_of_change(record, phases),
                     *(phase.U for phase in phases),
                     *(phase.differential for phase in phases))


# ---- Numbers given back ----------------------------------------------------

class Decided(NamedTuple):
    number: int                     # the number given back
    place: int
    written: Optional[bytes]        # at the front of the buffer, if done


def refuse(number: int, place: int = 0) -> Decided:
    # "No refusal writes to a lent buffer other than the relay's own state".
    return Decided(number, place, None)


# A steady wave that is fed comes round to the same windows, so the last ones
# are kept.
@functools.lru_cache(maxsize=1024)
def of_window(record: bytes, samples: tuple[int, ...]) -> Decided:
    """Of a good record, and a window of its length."""
    missing = first_missing(samples)
    if missing is not None:         # "a missing sample", at its "index in
        return refuse(4, missing)   # the slice"
    return Decided(0, 0, decision_record(record, list(samples)))


def decide(state: bytes, samples: bytes, room: int) -> Decided:
    """ "Decide checks 1, 2, 3, 4." The state stays as it is."""
    if len(state) != STATE:         # "before all others, changes nothing"
        return refuse(17)
    in_force = state[IN_FORCE]
    if absent(in_force):            # "no settings in force"
        return refuse(1)
    found = numbers(samples)
    if found is None or len(found) != length(line(in_force).ends):
        return refuse(2)            # "window of another length"
    if room < DECISION:             # "room below 32 bytes"
        return refuse(3)
    return of_window(in_force, tuple(found))
