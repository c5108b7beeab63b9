"""All calls of propose, confirm, read-back and decide that are compared, as histories: first the ones that document 01's rules
suggest, one by one, then random ones without end."""
from cases import chosen, decide_cases, decision_checks, program_cases, records, settings_cases
from cases.building import as_data
from cases.records import FRESH
from cases.steps import History
from model.measuring import length, line
from model.settings import RECORD, absent


def single(call):
    """One decide, its buffer not empty before."""
    room = (records.ROOM * (call.room // RECORD + 1))[:call.room]
    return History(call.state, [('decide', room, call.samples)], call.label)


# One by one


def at_work(found, start):
    """A window before, between and after two entries, and while another record is pending, mistyped and dropped: the record in
    force alone decides."""
    label, record, numbers = found
    decide = ('decide', records.ROOM + b'later', as_data(numbers))
    another = records.put(record, 2, 101 - int.from_bytes(record[2:4], 'big'))
    return History(start, [
        decide, ('propose', record), decide, ('confirm', record), decide, ('read_back', records.ROOM), ('propose', another), decide,
        ('confirm', record), decide, ('confirm', another), decide, ('read_back', records.ROOM)], label)


def lengths():
    """Each slice of decide at each length, with the rest as it should be and with the rest wrong."""
    window, state = bytes(288), records.relay(records.SAMPLE)
    for n in records.LENGTHS:
        for samples, room in ((window, records.ROOM), (b'', b'')):
            yield History(records.cut_or_filled(state, n), [('decide', room, samples)])
        for lent in (state, FRESH):
            yield History(lent, [('decide', records.ROOM, bytes(n)), ('decide', b'', b'\x80\x00' * (n // 2))])
            yield History(lent, [('decide', b'\x5a' * n, window), ('decide', b'\x5a' * n, b'')])


def of_program(name, data):
    """The calls that the window program makes for an input, and all others that it would make if it went on."""
    proposed, confirmed, rest = data[:RECORD], data[RECORD:2 * RECORD], data[2 * RECORD:]
    record = records.cut_or_filled(proposed, RECORD)
    size = 2 * length(2 if absent(record) else line(record).ends)
    windows = [rest[at:at + size] for at in range(0, len(rest), size)]
    decides = [('decide', records.ROOM, each) for each in windows]
    return History(FRESH, [('propose', proposed), ('confirm', confirmed), *decides], name)


def fixed():
    yield from settings_cases.fixed()
    yield from lengths()
    yield from (of_program(*named) for named in program_cases.INPUTS.items())
    for name, record, numbers in decision_checks.windows():
        yield at_work(chosen.Chosen(name, record, numbers), FRESH)
    yield from map(single, decide_cases.fixed())


# Random calls


def spoiled(rng, call):
    """Now and then with numbers missing, of another length, or with little room."""
    if rng.random() < 0.8:
        return call
    return rng.choice((decide_cases.some_missing, decide_cases.other_length, decide_cases.small_room))(rng, call)


def long(rng, found):
    """A desk and a line at work on one relay: proposals, confirmations right and wrong, third entries, read-backs, and windows
    after any of them."""
    label, wanted, numbers = next(found)
    state = rng.choice((FRESH, records.relay(records.good(rng)), records.relay(records.any_record(rng), records.any_record(rng))))
    steps = rng.choice(([], [('propose', wanted), ('confirm', wanted)]))
    for _ in range(rng.randint(4, 40)):
        one_bit = records.flip(wanted, rng.randrange(RECORD), 1 << rng.randrange(8))
        slip = rng.choice((one_bit, records.any_record(rng), wanted[:rng.randrange(RECORD)]))
        room = rng.choice((0, 31, 32, 33, 64))
        call = spoiled(rng, decide_cases.Call(label, state, as_data(numbers), max(room, RECORD)))
        steps.append(rng.choice((
            ('propose', wanted), ('propose', wanted), ('propose', slip),
            ('confirm', wanted), ('confirm', wanted), ('confirm', slip),
            ('read_back', records.noise(rng, room)),
            *[('decide', records.noise(rng, call.room), call.samples)] * 3,
        )))
        if rng.random() < 0.1:
            label, wanted, numbers = next(found)
    return History(state, steps, label)


def endless(rng):
    decides, found = decide_cases.endless(rng), chosen.endless(rng)
    while True:
        chance = rng.random()
        if chance < 0.45:
            yield settings_cases.single(rng)
        elif chance < 0.9:
            yield single(next(decides))
        else:
            yield long(rng, found)
