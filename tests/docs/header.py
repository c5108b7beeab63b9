"""Holds what a compiler reads of include/gorsepetal.h to the source: its prototypes, its constants and its macros."""
import math
import re
from functools import cache
from pathlib import Path
from typing import NamedTuple

from tree import ROOT, blank, fault, faults, read, sources

HEADER = Path('include/gorsepetal.h')
CHANGES = Path('docs/CHANGES.md')
CLAIMS = ('claims', 'decision_claims', 'worked', 'event_claims')  # the crates that state what a reader may rely on
STORED = Path('crates/stream/specs/Stored.antt')
WINDOW = Path('crates/samples/specs/Window.antt')
RECORD = Path('crates/records/specs/Record.antt')
READER = Path('crates/files/specs/Reader.antt')
ANSWERS = Path('crates/answers/specs/Answers.antt')
DECISION_RECORD = Path('crates/findings/specs/DecisionRecord.antt')
QUADRILATERAL = Path('crates/quadrilateral/specs/Quadrilateral.antt')
C_TYPES = {'usize': 'size_t', **{f'{kind}{bits}': f'{"u" * (kind == "u")}int{bits}_t' for kind in 'ui' for bits in (8, 16, 32, 64)}}


def header():
    """The header without its comments."""
    return blank(r'/\*.*?\*/|//[^\n]*', read(HEADER))


# Functions


def squeezed(declaration):
    return re.sub(r'\s*([(),*])\s*', r'\1', ' '.join(declaration.split()))


def c_parameter(parameter):
    """`x: &mut [u8]` as `uint8_t *x, size_t x_len`; `x: u64` as `uint64_t x`."""
    name, kind = (part.strip() for part in parameter.split(':'))
    lent = re.fullmatch(r"&(?:'\w+)?\s*(mut\b)?\s*\[(\w+)\]", kind)
    if lent:
        return f'{"" if lent.group(1) else "const "}{C_TYPES[lent.group(2)]} *{name}, size_t {name}_len'
    return f'{C_TYPES[kind]} {name}'


EXPORTS = 'gorsepetal_c'  # the static library: what C can call, over the library crates/gorsepetal


class Function(NamedTuple):
    """A function of the source: its parameters, what it gives back, its contract and its body."""
    parameters: str
    result: str
    contract: str
    body: str


FUNCTION = re.compile(r'\bfn\s+(\w+)\s*\(([^)]*)\)\s*->\s*(\w+)(?: \{|(.*?)\n\{)\n(.*?)\n\}', flags=re.DOTALL)


def functions(crate):
    """Each function of a crate that others can call, by name. As rt fmt lays it out, its clauses stand before a brace that begins a line."""
    return {m[1]: Function(*(' '.join((part or '').split()).removesuffix(',') for part in m.groups()[1:]))
            for _, text in sources(crate) for m in FUNCTION.finditer(text)}


def exported():
    """Each function that crates/gorsepetal_c exports, as C declares it."""
    found = {}
    for path, text in sources(EXPORTS):
        for m in re.finditer(r'\bfn\b', text):
            whole = re.compile(r'#\[unsafe\(no_mangle\)\]\s*pub\s+extern\s+"C"\s+fn\s+(\w+)\s*\(([^)]*)\)\s*->\s*(\w+)')
            f = next((f for f in whole.finditer(text) if f.start() < m.start() < f.end()), None)
            try:
                parameters = [c_parameter(p) for p in f.group(2).split(',') if p.strip()]
                found[f.group(1)] = f'{C_TYPES[f.group(3)]} {f.group(1)}({", ".join(parameters) or "void"})'
            except (AttributeError, KeyError, ValueError):
                fault(path, text, m.start(), 'wanted #[unsafe(no_mangle)] pub extern "C" fn NAME(numbers and lent slices) -> a number')
    return found


def meant_by(crate):
    """The words that a crate's clauses take from specs/, each with where it is from."""
    imports = re.compile(r'^ghost use (Rattle\.[\w.]+)\.\{([^}]*)\};', flags=re.MULTILINE)
    return {word.split()[-1]: (module, word.split()[0]) for _, text in sources(crate) for module, words in imports.findall(text)
            for word in words.split(',') if word.strip()}


def check_exports():
    """Each export has the parameters, the result and the contract of the library's function of its name, by the same words, and only calls it. So
    what is promised of the library is promised of what C calls."""
    library, exports, words, ours_mean = functions('gorsepetal'), functions(EXPORTS), meant_by('gorsepetal'), meant_by(EXPORTS)
    for name in exported():
        ours, theirs = exports.get(name), library.get(name)
        if not ours or not theirs:
            faults.append(f'crates/{EXPORTS}: {name} is no function of crates/gorsepetal, or has a form that this check does not know')
            continue
        given = ', '.join(part.split(':')[0].strip() for part in ours.parameters.split(',') if part.strip())
        faults.extend(f'crates/{EXPORTS}: {name} has not the {part} that it has in crates/gorsepetal' for part in ('parameters', 'result', 'contract')
                      if getattr(ours, part) != getattr(theirs, part) or not getattr(ours, part))
        faults.extend(f'crates/{EXPORTS}: {word} in the contract of {name} is not that of crates/gorsepetal'
                      for word in re.findall(r'[^\W\d]\w*', ours.contract) if ours_mean.get(word) != words.get(word))
        if not re.fullmatch(rf'gorsepetal::(?:event_files::)?{name}\({re.escape(given)}\)', ours.body):
            faults.append(f'crates/{EXPORTS}: {name} does something else than to call gorsepetal::{name} with what it was handed')
    return len(exports)


def check_functions():
    wanted, text, seen = exported(), header(), set()
    bare = blank(r'^[ \t]*#(?:[^\n]*\\\n)*[^\n]*|extern\s+"C"\s*\{|\}', text)
    for m in re.finditer(r'[^;\s][^;]*;?', bare):
        name = re.search(r'(\w+)\s*\(', m.group())
        name = name.group(1) if name else ''
        seen.add(name)
        if name not in wanted:
            fault(HEADER, text, m.start(), f'{squeezed(m.group())} is no function that crates/gorsepetal_c exports')
        elif squeezed(m.group()) != squeezed(wanted[name]) + ';':
            fault(HEADER, text, m.start(), f'the source has {wanted[name]};')
    faults.extend(f'{HEADER}: {wanted[name]}; is missing' for name in sorted(set(wanted) - seen))
    return len(wanted)


# Constants


def number(text):
    """The value of a whole number as C or Rattle writes it; None for anything else."""
    bare = re.sub(r'^\((.*)\)$', r'\1', text.strip()).replace('_', '')
    m = re.fullmatch(r'(-?(?:0[xX][0-9a-fA-F]+|0|[1-9][0-9]*))(?:[uUlL]+|[ui](?:8|16|32|64|size))?', bare)
    return int(m.group(1), 0) if m else None


@cache
def constants(crate, file='lib.rt'):
    """The constants of a crate's file, by name. A value is a sum of products of numbers and of constants: its own, those that it takes in by
    `use`, and other crates', as in `entry::RECORD_LENGTH`."""
    text = blank(r'//[^\n]*', read(Path('crates') / crate / 'src' / file))
    written = dict(re.findall(r'\bconst\s+(\w+)\s*:\s*\w+\s*=\s*([^;]+);', text))
    used = re.findall(r'^use (\w+)::(?:\{([^}]*)\}|([A-Z_]+));', text, flags=re.MULTILINE)
    taken = {name: other for other, several, one in used for name in re.findall(r'\b[A-Z_]+\b', several or one)}

    def value(word):
        other = re.fullmatch(r'(\w+)::(\w+)', f'{taken[word]}::{word}' if word in taken else word)
        return total(written[word]) if word in written else constants(other[1]).get(other[2]) if other else number(word)

    def total(expression):
        terms = [[value(word.strip()) for word in term.split('*')] for term in expression.split('+')]
        return None if any(None in term for term in terms) else sum(map(math.prod, terms))

    return {name: total(expression) for name, expression in written.items()}


def public(crate, file='lib.rt'):
    text = read(Path('crates') / crate / 'src' / file)
    return {name: value for name, value in constants(crate, file).items() if re.search(rf'\bpub const {name}\b', text)}


def definition_in(text, name):
    """The text of a definition, its equations in one line."""
    m = re.search(rf'^{name}(?: [^:=\n]*)? =((?:.*\n)(?:[ ]+.*\n)*)', blank(r'--[^\n]*', text), flags=re.MULTILINE)
    return ' '.join(m.group(1).split()) if m else ''


@cache
def definition(path, name):
    """The same of a file in specs/."""
    return definition_in(read(Path(path)), name)


def weights(path, name):
    """The bit of each member in a definition made by `bits (.. x.ag ∷ .. ∷ [])`, by the member's name."""
    return {member.upper(): 2 ** i for i, member in enumerate(re.findall(r'\b\w+\.(\w+)\)? ∷', definition(path, name)))}


def directions():
    found = re.findall(r'^direction_number (\w+) = (\d+)$', read(Path('crates/direction/specs/Direction.antt')), flags=re.MULTILINE)
    return {f'DIRECTION_{name.upper()}': int(value) for name, value in found}


def six_loops():
    """Each loop's name, V, I and Vp, by `six_of`: E is the k product, and P, aP and a²P are those of document 01."""
    polarised = {'p': 'P', 'ap': 'aP', 'a²p': 'a²P'}
    made = r'(\w+) = (ground|phase)_loop ((?:[vi]\.\w )+)(?:k )?(\S+);'
    found = []
    for loop, kind, members, p in re.findall(made, definition('crates/distance/specs/Mho.antt', 'six_of')):
        v, i = ([quantity.upper() + phase for quantity, phase in re.findall(r'(\w)\.(\w)', members) if quantity == q] for q in 'vi')
        found.append([loop.upper(), ' - '.join(v), ' - '.join(i) + ' + E' * (kind == 'ground'), '-j ' * (kind == 'phase') + polarised[p]])
    return found


# Each part of a decision that has one byte, by the definition of its bytes. What the trip is made of stands there too: the second zone is
# not among it.
PARTS = {'trip f.operating f.quadrilaterals f.asserting f.direction f.unbalanced': 'TRIP',
         'phase_byte f.operating f.quadrilaterals': 'PHASES', 'f.asserting': 'LOOPS',
         'direction_number f.direction': 'DIRECTION', 'f.overreaching': 'SECOND_ZONE',
         **{f'f.changes.{phase}': f'CHANGE_{phase.upper()}' for phase in 'abc'}}


def quadrilaterals():
    """The bit of each quadrilateral in the byte of the phases, by its letter: its bit among the three, times what that byte says."""
    beside = re.fullmatch(r'operating \+ (\d+) \* quadrilaterals', definition(DECISION_RECORD, 'phase_byte'))
    if not beside:
        faults.append(f'{DECISION_RECORD}: `phase_byte` has a form that this check does not know')
    return {loop[0]: bit * int(beside[1] if beside else 0) for loop, bit in weights(QUADRILATERAL, 'seeing').items()}


def decision_parts():
    """The offset of each part and its length, by `decision_bytes`: a `word` has four bytes, all else one."""
    at, found = 0, {}
    for part in re.split(r' (?:∷|\+\+) ', definition(DECISION_RECORD, 'decision_bytes')):
        word = re.fullmatch(r'word (?:(\(magnitude )f\.comparisons\.(\w)\)|f\.comparisons\.(\w)\.restraint)', part)
        name = PARTS.get(part)
        if word:
            name = f'{"DIFFERENTIAL" if word[1] else "RESTRAINT"}_{(word[2] or word[3]).upper()}'
        length = 4 if word else 1
        if name:
            found[f'DECISION_AT_{name}'] = at, length
        else:
            faults.append(f'decision_bytes has a part that this check does not know: {part}')
        at += length
    return found


def decision_offsets():
    return {name: at for name, (at, _) in decision_parts().items()}


def state_offsets():
    """Where each part of the state begins, the two records and the count and the numbers of the window, and where the last one ends."""
    relay = constants('gorsepetal')
    numbers = re.search(r'drop \(at \+ (\d+)\) state', definition(STORED, 'window_at'))
    if not numbers:
        faults.append(f'{STORED}: `window_at` has a form that this check does not know')
    return [relay['MAIN'], relay['PENDING'], relay['WINDOW'], relay['WINDOW'] + int(numbers[1] if numbers else 0), relay['STATE_LENGTH']]


def channels(ends):
    """The numbers of a frame, by the definition."""
    return eval(definition(WINDOW, 'channels') or '0', {'N': ends})


@cache
def record_bytes(ends, status):
    """The bytes of a record of an event file, by the definitions of crates/records: with channels of 16 bits."""
    width = re.search(r'width = (\d+)', definition(RECORD, 'narrow'))
    groups, length = (definition(RECORD, name).replace('/', '//') for name in ('groups', 'record_length'))
    length = re.sub(r'\bsh\.(\w+)', r'(\1)', length)
    if not width or not re.fullmatch(r'[\w\s()+*/]+', groups + length):
        faults.append(f'{RECORD}: `narrow`, `groups` or `record_length` has a form that this check does not know')
        return 0
    known = {'width': int(width[1]), 'ends': ends, 'status': status, 'channels': channels}
    return eval(length, {**known, 'groups': lambda status: eval(groups, {'status': status})})


def reader_parts():
    """Where each part of a reader lies, by its name in crates/events: the first byte and the one behind the last. Behind the frame of six ends
    and before the bytes in hand some are not used."""
    at = constants('events')
    names = ['ENDS', 'STATUS', 'ENDED', 'HELD', 'INDEX', 'TIME', 'FRAME', 'HAND', 'LENGTH']
    if any(at.get(name) is None for name in names):
        faults.append(f'crates/events/src/lib.rt: not all of {", ".join(names)} are constants with a number')
        return {}
    begins = [at[name] for name in names]
    parts = {name: (first, end) for name, first, end in zip(names, begins, begins[1:])}
    behind = at['FRAME'] + 2 * channels(6)
    return {**parts, 'FRAME': (at['FRAME'], behind), 'UNUSED': (behind, at['HAND'])}


def endings():
    """The numbers that end the reading of an event file, in the order of the definitions, each with whether it has a place."""
    numbered = dict(re.findall(r'^number \(Err \(?(\w+)(?: at\))?\) = (\d+)$', read(ANSWERS), flags=re.MULTILINE))
    found = re.findall(r'^refusal_of (\(?)\w+(?: \w+\))? = refused\.(\w+)', read(READER), flags=re.MULTILINE)
    return {int(numbered[name]): bool(placed) for placed, name in found}


def rows(name, blocks):
    """The numbers of a data type of rows, in the order of its constructors, each with whether it has a place: a number, 256 times a place plus
    a number, what ended a reading, or what another type of rows gives where a relay was lent."""
    found = {}
    for value in re.finditer(rf'{name}Row(?: \w+)+? (\d+|n|\(.*\))$', blocks[name], flags=re.MULTILINE):
        placed, other = re.fullmatch(r'\(256 \* \w+ \+ (\d+)\)', value[1]), re.findall(r'(\w+)Row [^→]* n →', blocks[name][:value.start()])
        if value[1].isdigit() or placed:
            more = {int(placed[1] if placed else value[1]): bool(placed)}
        elif value[1] == 'n' and other:
            more = {number: has_place for number, has_place in rows(other[-1], blocks).items() if number != constants('answers')['NO_RELAY']}
        elif value[1] == '(given_back (answer_of e))':
            more = endings()
        else:
            faults.append(f'{name}Row has a row that this check does not know: {value[0]}')
            continue
        found |= {number: has_place or found.get(number, False) for number, has_place in more.items()}
    return found


@cache
def answers():
    """Each call with the numbers that it gives, in its order of checks, each with whether it has a place: the rows that the crates of claims
    state of it."""
    texts = [path.read_text(encoding='utf-8') for crate in CLAIMS for path in sorted((ROOT / 'crates' / crate / 'specs').glob('*.antt'))]
    data = r'^pub data (\w+)Row .*?\n(.*?)(?=^\S|\Z)'
    blocks = dict(block for text in texts for block in re.findall(data, text, flags=re.DOTALL | re.MULTILINE))
    found = {}
    for text in texts:
        for statement in re.findall(r'^abbrev pub (\w+)Answers : Type 0$', text, flags=re.MULTILINE):
            call = re.sub(r'(?<=.)([A-Z])', r'_\1', statement).lower()
            of_call = re.findall(r'\b(\w+)Row\b', definition_in(text, f'{statement}Answers'))
            found[call] = rows(of_call[-1], blocks) if of_call else {}
    return found


def placed():
    """The numbers that have a place."""
    return {number for call in answers().values() for number, has_place in call.items() if has_place}


def version():
    """The newest version of docs/CHANGES.md, as text and as a number."""
    m = re.search(r'^## (\d+)\.(\d+)\.(\d+)\b', read(CHANGES), flags=re.MULTILINE)
    major, minor, patch = (int(part) for part in m.groups()) if m else (0, 0, 0)
    return {'VERSION': f'"{major}.{minor}.{patch}"', 'VERSION_NUMBER': 10000 * major + 100 * minor + patch}


def wanted_constants():
    """Each constant that the header should have: public ones of the source, and what the definitions say."""
    samples = constants('samples')
    in_force, pending, count, numbers, _ = state_offsets()
    phases = weights('crates/differential/specs/Differential.antt', 'operating_bits')
    loops = weights('crates/distance/specs/Mho.antt', 'loop_bits')
    return {
        **version(), **public('answers'), **public('gorsepetal'),
        **{f'AT_{name}': value for name, value in public('settings', 'at.rt').items()},
        **{f'EVENTS_{name}': value for name, value in public('events').items()},
        'FRAMES': samples['FRAMES'], 'MISSING': samples['MISSING'], 'LARGEST_SAMPLE': -samples['MISSING'] - 1,
        'STATE_AT_IN_FORCE': in_force, 'STATE_AT_PENDING': pending, 'STATE_AT_COUNT': count, 'STATE_AT_NUMBERS': numbers, **decision_offsets(),
        **{f'PHASE_{name}': bit for name, bit in phases.items()}, 'PHASES': sum(phases.values()),
        **{f'QUADRILATERAL_{name}': bit for name, bit in quadrilaterals().items()}, 'QUADRILATERALS': sum(quadrilaterals().values()),
        **{f'LOOP_{name}': bit for name, bit in loops.items()}, **directions(),
    }


def check_constants():
    wanted, text, seen = wanted_constants(), header(), set()
    for m in re.finditer(r'^[ \t]*#[ \t]*define[ \t]+GORSEPETAL_(\w+)[ \t]+(\S[^\n]*)', text, flags=re.MULTILINE):
        name, written = m.group(1), m.group(2).strip()
        seen.add(name)
        if name not in wanted:
            fault(HEADER, text, m.start(), f'GORSEPETAL_{name}: neither the crates nor docs/CHANGES.md have it')
        elif wanted[name] not in (written, number(written)):
            fault(HEADER, text, m.start(), f'GORSEPETAL_{name} is {written}; it should be {wanted[name]}')
    faults.extend(f'{HEADER}: #define GORSEPETAL_{name} {wanted[name]} is missing' for name in sorted(set(wanted) - seen))
    return len(wanted)


def macro(name, arguments, text):
    """What the header's macro NAME(x, ..) comes to, for whole numbers; None where it has no such macro of numbers and of these alone."""
    m = re.search(rf'^[ \t]*#[ \t]*define[ \t]+GORSEPETAL_{name}\(([\w, ]+)\)[ \t]+(.+)$', text.replace('\\\n', ' '), flags=re.MULTILINE)
    expression = m[2].replace('/', '//') if m else ''
    for parameter, argument in zip(m[1].split(', ') if m else (), arguments):
        expression = re.sub(rf'\b{parameter}\b', str(argument), expression)
    return eval(expression) if re.fullmatch(r'[\d\s()+*/%-]+', expression) else None


def check_macros():
    """The macros that reckon, at values that tell: a frame's numbers and bytes and a window's bytes for each number of ends, a record's bytes
    of an event file, and what a call gives back taken apart."""
    text, source = header(), ' '.join(text for _, text in sources('answers', 'gorsepetal', 'samples'))
    weight = number(re.search(r'\bconst PLACE_WEIGHT: u64 = (\d+);', source).group(1))
    frames, all_ends = constants('samples')['FRAMES'], range(2, 7)
    wanted = {('WINDOW_BYTES', (ends,)): 2 * frames * (3 + 3 * ends) for ends in all_ends}
    wanted |= {('CHANNELS', (ends,)): 3 + 3 * ends for ends in all_ends}
    wanted |= {('FRAME_BYTES', (ends,)): 2 * (3 + 3 * ends) for ends in all_ends}
    wanted |= {('EVENTS_RECORD_BYTES', (ends, status)): record_bytes(ends, status) for ends in all_ends
               for status in (0, 1, 15, 16, 17, 32, 33, 80, 81, 95, 96)}
    wanted |= {('NUMBER', (given,)): given % weight for given in (0, 17, 335 * weight + 4, 4294967295 * weight + 12)}
    wanted |= {('PLACE', (given,)): given // weight for given in (0, 17, 335 * weight + 4, 4294967295 * weight + 12)}
    if wanted['WINDOW_BYTES', (6,)] != 2 * public('gorsepetal')['LONGEST_WINDOW_NUMBERS']:
        faults.append('crates/samples: the longest window is not that of six ends')
    faults.extend(f'{HEADER}: GORSEPETAL_{name}{arguments} is {macro(name, arguments, text)}; the source has {value}'
                  for (name, arguments), value in wanted.items() if macro(name, arguments, text) != value)
    return len({name for name, _ in wanted})
