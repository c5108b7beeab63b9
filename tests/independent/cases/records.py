"""Records of settings: document 01's own and what is made of it, those at the edges of the rules, and random ones; and what lent
slices are filled with."""
from itertools import combinations

from cases.building import any_resistive, any_second
from model.settings import EMPTY, FIELDS, NOTHING, RECORD, SPARE, SQUARES, STATE

# The record of "Window program", and the same with slope 50.
SAMPLE = bytes.fromhex('0002000F0064000003E80352029B0000000003E8FED4012C0032000000000000')
ANOTHER = SAMPLE[:3] + b'\x32' + SAMPLE[4:]
ROOM = bytes([0x5A]) * RECORD
SHORT_LENGTHS = [*range(81), 128, 255, 256, 257, 256 + RECORD, 256 + STATE]
LENGTHS = [*SHORT_LENGTHS, STATE - 1, STATE, STATE + 1, 4096, 65535, 65536, 65536 + RECORD, 65536 + STATE]
FRESH = bytes(STATE)
# The window of a relay for which nothing else is said: nine frames kept, and no byte of its numbers 0, so that a call that should
# leave it shows whether it does.
HELD = bytes([0, 9]) + bytes(1 + at % 251 for at in range(len(EMPTY) - 2))
ANGLES = {re: [im for im in range(1001) if re * re + im * im in SQUARES] for re in range(1001)}  # real part: imaginary parts


def relay(in_force, pending=NOTHING, window=HELD):
    """The state of a relay."""
    return in_force + pending + window


def put(record, at, number):
    """A record with one number changed; a negative one is two's complement."""
    return record[:at] + (number % 65536).to_bytes(2, 'big') + record[at + 2:]


def flip(record, at, bits):
    return record[:at] + bytes([record[at] ^ bits]) + record[at + 1:]


def cut_or_filled(data, length):
    return data[:length] + bytes(max(0, length - len(data)))


# Records at the edges of the rules


def field_edges():
    for field in FIELDS:
        edges = (field.low - 1, field.low, field.high, field.high + 1)
        for number in edges + (0, 32767, 32768, 65535, field.low + 256, field.low * 256):
            yield put(SAMPLE, field.at, number)


def angle_edges():
    """For each real part the imaginary parts on both sides of both bounds of the sum of squares."""
    for re, inside in ANGLES.items():
        for im in sorted({near + step for near in inside[:1] + inside[-1:] for step in (-1, 0, 1)}):
            yield put(put(SAMPLE, 16, re), 18, im)


def limit_edges():
    """zf against zr, around each end of the range and around zero."""
    for zf in (-20001, -20000, -19999, -256, -255, -2, -1, 0, 1, 2, 255, 256, 19999, 20000, 20001):
        for zr in (zf - 1, zf, zf + 1, -zf, -20000, 20000):
            yield put(put(SAMPLE, 20, zf), 22, zr)


def spare_bytes():
    for at in SPARE:
        for bit in range(8):
            yield flip(SAMPLE, at, 1 << bit)


def two_faults():
    """Every pair of faults, each with its bytes: the one with the first offset must be reported. Every fault also with a second
    reach and a resistive reach that are good."""
    faults = [{field.at: number} for field in FIELDS for number in (field.low - 1, field.high + 1)]
    faults += [{16: 1000, 18: 1000}, {20: 300, 22: 300}, {20: 20000, 22: -20000}, {26: 1}, {26: 849}, {26: 1200}, {28: 200}]
    faults += [{at - at % 2: 1 if at % 2 else 256} for at in SPARE]
    for one, two in combinations(faults, 2):
        record = SAMPLE
        for at, number in {**one, **two}.items():
            record = put(record, at, number)
        yield record
    yield from (flip(flip(SAMPLE, a, 1), b, 1) for a, b in combinations(SPARE, 2))


# Random records


def noise(rng, length):
    return bytes(rng.getrandbits(8) for _ in range(length))


def good(rng):
    """A record that documents 01 and 02 allow, any number of each range as likely as another, the second reach and the resistive
    reach apart."""
    record = NOTHING
    for field in FIELDS:
        record = put(record, field.at, rng.randint(field.low, field.high))
    re = rng.randrange(1001)
    im = rng.choice(ANGLES[re])
    zf, zr = sorted(rng.sample(range(-20000, 20001), 2))
    second = any_second(rng, int.from_bytes(record[10:12], 'big'))
    for at, number in ((16, re), (18, im), (20, zf), (22, zr), (26, second), (28, any_resistive(rng))):
        record = put(record, at, number)
    return record


def damaged(rng):
    """A good record with one to three of its numbers or bits changed, each at times to an edge."""
    record = good(rng)
    for _ in range(rng.randint(1, 3)):
        field = rng.choice(FIELDS)
        number = rng.choice((field.low - 1, field.low, field.high, field.high + 1, rng.getrandbits(16)))
        changed = (put(record, field.at, number), flip(record, rng.randrange(RECORD), 1 << rng.randrange(8)))
        record = rng.choice(changed)
    return record


def any_record(rng):
    return rng.choice((good, good, damaged, damaged, lambda _: NOTHING, lambda r: noise(r, RECORD)))(rng)
