"""Holds README.md and docs/ to the tree: paths, links, names, must-fail edits, commands and the output that they show.

A page says in one of two forms where its names are declared:
- `name` in `path`, or `a`, `b` in `path`;
- a paragraph that begins with "Files:" and lists files. Up to the next such paragraph or the next heading of level 1 or 2, each word in
  backticks that looks like a name is declared in one of these files; or it is a promise, and its theorem is declared there; or it is a
  must-fail edit, a crate, or a symbol that C sees.
"""
import re
from collections import Counter
from functools import cache
from pathlib import Path

import header
import layers
from tree import ROOT, blank, fault, faults, read
from witness import theorems

README = Path('README.md')
WRONG_RELAYS = Path('docs/WRONG-RELAYS.md')
OF_THE_COMPARISON = Path('tests/independent/README.md')
WORKED = Path('crates/worked/specs/Worked.antt')
FOLDERS = ('crates', 'docs', 'tests', 'tools', 'include', 'examples', 'bench', '.ci')
ROOT_FILES = ('build.sh', 'crates.txt', 'README.md', 'LICENSE')
NAME = re.compile(r"[^\W\d][\w'·-]*")


def documents():
    """The pages whose names are checked."""
    return [README] + sorted(p.relative_to(ROOT) for p in (ROOT / 'docs').rglob('*.md'))


def pages():
    """The pages whose paths and links are checked."""
    return documents() + [OF_THE_COMPARISON]


source = cache(read)


@cache
def document(path):
    """A document's text without its fenced blocks."""
    return blank(r'^```.*?^```', source(path))


def spans(text):
    return list(re.finditer(r'`([^`\n]+)`', text))


# Paths and links


def is_path(page, word):
    """Whether a word in backticks is meant as a path: of the tree, or beside the page."""
    first = word.split('/')[0]
    beside = page.parent != Path('.') and first.isidentifier() and (ROOT / page.parent / first).is_dir()
    return word in ROOT_FILES or '/' in word and (first in FOLDERS or beside)


def is_there(page, word):
    return any(next(base.glob(word.rstrip('/')), None) for base in (ROOT, ROOT / page.parent))


def check_paths():
    """Each path in backticks is there, one within a command too."""
    count = 0
    for page in pages():
        text = document(page)
        for m in spans(text):
            for word in m.group(1).split():
                if is_path(page, word):
                    count += 1
                    if not is_there(page, word):
                        fault(page, text, m.start(), f'`{word}` is not there')
    return count


def anchors(page):
    """What a link may name behind the # of a page: its headings, as they are shown on a page of the web."""
    seen = Counter()
    for title in re.findall(r'^#+ +(.+?) *$', document(page), flags=re.MULTILINE):
        slug = re.sub(r'[^\w -]', '', title.lower()).replace(' ', '-')
        yield f'{slug}-{seen[slug]}' if seen[slug] else slug
        seen[slug] += 1


def check_links():
    """Each link leads to a file that is there, and to a heading that it has."""
    count = 0
    for page in pages():
        text = document(page)
        for m in re.finditer(r'\]\(([^)\s]+)\)', text):
            count += 1
            target, _, heading = m.group(1).partition('#')
            file = page.parent / target if target else page
            if not (ROOT / file).exists():
                fault(page, text, m.start(), f'the link to {target} leads nowhere')
            elif heading and heading not in anchors(file):
                fault(page, text, m.start(), f'{file} has no heading #{heading}')
    return count


# Names


def claimed(text):
    """Each (names, path) of the form `a`, `b` in `path`, as matches of backticks."""
    found, paths = spans(text), set()
    between = [' '.join(text[a.end():b.start()].split()) for a, b in zip(found, found[1:])]
    for i, word in enumerate(between):
        if word == 'in' and not NAME.fullmatch(found[i + 1].group(1)):
            paths.add(i + 1)
            first = i
            while first > 0 and between[first - 1] in (',', 'and', ', and') and first - 1 not in paths:
                first -= 1
            yield found[first:i + 1], found[i + 1]


def listed(text):
    """Each "Files:" paragraph: the matches of its paths, and of the names in its range."""
    ends = [m.start() for m in re.finditer(r'^(?:Files:|##? )', text, flags=re.MULTILINE)] + [len(text)]
    for paragraph in re.finditer(r'^Files:.*?(?=\n[ \t]*\n|\Z)', text, flags=re.DOTALL | re.MULTILINE):
        end = next(at for at in ends if at > paragraph.start())
        yield (spans_within(text, paragraph.start(), paragraph.end()),
               [m for m in spans_within(text, paragraph.end(), end) if NAME.fullmatch(m.group(1))])


def spans_within(text, start, end):
    return [m for m in spans(text) if start <= m.start() < end]


@cache
def declares(path, name):
    text, word = source(path), re.escape(name)
    if path.suffix == '.rt':
        return bool(re.search(rf'\b(fn|const|enum|struct)\s+{word}(?!\w)', text))
    if path.suffix == '.antt':
        words = r'(?:(?:pub|abbrev|unfoldable|record|data)\s+)+'
        return bool(re.search(rf'^\s*(?:{words}{word}(?=[\s({{]|$)|{word}\s+:(?=\s|$))', text, re.MULTILINE))
    if path.suffix == '.py':
        return bool(re.search(rf'^\s*(?:def|class)\s+{word}\b|^{word}\b.*=', text, re.MULTILINE))
    return bool(re.search(rf'(?<![\w-]){word}(?![\w-])', text))


@cache
def edits():
    """Each must-fail edit's name, with its file."""
    return {edit.stem: edit.relative_to(ROOT) for edit in sorted((ROOT / 'crates').glob('*/must-fail/*.edit'))}


@cache
def known():
    """The names that stand in no file of a list: of edits, of crates, and what C sees."""
    symbols = re.findall(r'[A-Za-z_]\w*', header.header())
    return {*edits(), *layers.direct(), *symbols, 'memcpy', 'memset'}


def has(file, name):
    """Whether a file declares a name, or the theorem of the promise that has it."""
    path, theorem = theorems().get(name, (None, ''))
    return declares(file, name) or path == file and declares(file, theorem)


def check_list(page, text, paths, names):
    """Each name in a list's range is declared in one of its files, and each file has one of them."""
    files = {m: Path(m.group(1)) for m in paths if (ROOT / m.group(1)).is_file()}
    for m in paths:
        if m not in files:
            fault(page, text, m.start(), f'`{m.group(1)}` is no file')
        elif not any(has(files[m], name.group(1)) for name in names):
            fault(page, text, m.start(), f'`{m.group(1)}` is listed, but no name below is declared in it')
    for m in names:
        if m.group(1) not in known() and not any(has(file, m.group(1)) for file in files.values()):
            fault(page, text, m.start(), f'`{m.group(1)}` is declared in none of the files that are listed above it')
    return len(names)


def check_names():
    count = 0
    for page in documents():
        text, beside = document(page), set()
        for names, path in claimed(text):
            beside |= {name.start() for name in names}
            file = Path(path.group(1))
            if not (ROOT / file).is_file():
                fault(page, text, path.start(), f'`{file}` is no file')
                continue
            for name in names:
                count += 1
                if not declares(file, name.group(1)):
                    fault(page, text, name.start(), f'`{name.group(1)}` is not declared in `{file}`')
        for paths, names in listed(text):
            count += check_list(page, text, paths, [m for m in names if m.start() not in beside])
    return count


# What C sees


def newest():
    """The part of docs/CHANGES.md on the newest version."""
    m = re.search(r'^## .*?(?=^## |\Z)', document(header.CHANGES), flags=re.DOTALL | re.MULTILINE)
    return m[0] if m else ''


def check_symbols():
    """Each name of the library in a page is one that C sees; and where docs/CHANGES.md has a constant's number for the newest version, it is
    the header's."""
    count, symbols, constants = 0, set(re.findall(r'\w+', header.header())), header.wanted_constants()
    for page in documents():
        text = document(page)
        for m in re.finditer(r'`((?:GORSEPETAL|gorsepetal)_\w*\w)`', text):
            count += 1
            if m[1] not in symbols and m[1] not in layers.direct() and not m[1].endswith('_'):
                fault(page, text, m.start(), f'`{m[1]}` is not in {header.HEADER}')
    said = re.findall(r'(\d+), `GORSEPETAL_(\w+)`', newest()) + [pair[::-1] for pair in re.findall(r'`GORSEPETAL_(\w+)` is (\d+)', newest())]
    faults.extend(f'{header.CHANGES}: GORSEPETAL_{name} is said to be {number}' for number, name in said if constants.get(name) != int(number))
    return count


def check_relay():
    """What README.md says of the relay's state and of feed; and in the newest version of docs/CHANGES.md, where bytes of the state, of a reader,
    of a decision or of an event file's record, or frames are counted, their count."""
    *begins, length = header.state_offsets()
    records, empty, text = begins[2], header.constants('samples')['FRAMES'] - 1, newest()
    reader = [header.constants('events').get('LENGTH'), *(at for part in header.reader_parts().values() for at in part)]
    decision = [at for begin, size in header.decision_parts().values() for at in (begin, begin + size)]
    wanted = f'a relay is {length} bytes', f'for {empty} frames after it there is no decision by feed'
    faults.extend(f'{README}: it does not say "{words}"' for words in wanted if words not in ' '.join(document(README).split()))
    parts = re.findall(r'\bbytes (\d+) to (\d+)', text)
    lengths = {records, length - records, length, reader[0], *(header.record_bytes(ends, status) for ends in range(2, 7) for status in range(97))}
    wrong = [f'{number} bytes' for number in re.findall(r'\b(\d+)(?: zero)? bytes', text) if int(number) not in lengths]
    wrong += [f'bytes {first} to {last}' for first, last in parts
              if not any(int(first) in known and int(last) + 1 in known for known in ((*begins, length), reader, decision))]
    wrong += [f'{number} frames' for number in re.findall(r'\b(\d+) frames', text) if int(number) not in (empty, empty + 1)]
    faults.extend(f'{header.CHANGES}: {words} are not what the state, a reader, a decision or a record has' for words in wrong)
    return 2 + len(parts)


def check_worked():
    """How many decisions README.md says are proved examples, and which bytes of each."""
    lists = re.findall(r'\w+', header.definition(WORKED, 'worked'))
    bodies = [re.search(rf'^{name} =\n((?:    .*\n)+)', blank(r'--[^\n]*', read(WORKED)), flags=re.MULTILINE) for name in lists]
    rows = [line.strip() for body in bodies if body for line in body[1].splitlines() if line.strip() not in ('', '∷ []')]
    taken = re.search(r'take (\d+) \(decision ', header.definition(WORKED, 'WorkedDecisions'))
    words = f'bytes 0 to {int(taken[1]) - 1 if taken else 31} of {len(rows)} decisions stand as proved examples'
    if words not in ' '.join(document(README).split()):
        faults.append(f'{README}: it does not say "{words}"')
    return len(rows)


# Must-fail edits


def check_edits():
    """Each must-fail edit stands on the page of wrong relays, under its crate; each name in the first column of a table there is an edit;
    and the crates stand in the order of the layers."""
    text, crate, named, order = document(WRONG_RELAYS), '', {}, []
    for m in re.finditer(r'^### `(\w+)`|^\|([^|\n]*)\|', text, flags=re.MULTILINE):
        if m.group(1):
            crate = m.group(1)
            order.append(crate)
        else:
            named |= {span.group(1): (m.start(), crate) for span in spans(m.group(2))}
    faults.extend(f'{WRONG_RELAYS}: no table names the edit `{name}`, {file}' for name, file in edits().items() if name not in named)
    for name, (at, crate) in named.items():
        if name not in edits():
            fault(WRONG_RELAYS, text, at, f'`{name}` is no must-fail edit')
        elif edits()[name].parts[1] != crate:
            fault(WRONG_RELAYS, text, at, f'`{name}` is an edit of {edits()[name].parts[1]}')
    if order != [crate for crate in layers.direct() if any(file.parts[1] == crate for file in edits().values())]:
        faults.append(f'{WRONG_RELAYS}: its crates are not those that have edits, in the order of {layers.CRATES}')
    if f'{len(edits())} edits' not in text:
        faults.append(f'{WRONG_RELAYS}: it does not say that there are {len(edits())} edits')
    return len(edits())


# Quotations and commands


def blocks(path, language):
    return re.findall(rf'^```{language}\n(.*?)^```', source(path), flags=re.DOTALL | re.MULTILINE)


QUOTED = {'rust': '*/src/*.rt', 'antt': '*/proofs/**/*.antt', 'edit': '*/must-fail/*.edit'}


def check_quoted():
    """Each block of a page that is marked as code, as a law or as an edit stands so in some file of its kind, however its lines are
    broken; a line with two dots in it is left out."""
    count = 0
    for language, pattern in QUOTED.items():
        files = [' '.join(path.read_text(encoding='utf-8').split()) for path in (ROOT / 'crates').glob(pattern)]
        for page in documents():
            for block in blocks(page, language):
                count += 1
                parts = [' '.join(part.split()) for part in re.split(r'^.*\.\..*$', block, flags=re.MULTILINE)]
                if not any(all(part in text for part in parts) for text in files):
                    faults.append(f'{page}: no file crates/{pattern} has the block that begins with {block.splitlines()[0].strip()}')
    return count


def check_commands():
    """The commands that README shows name files that are there, and what it shows as printed is an example's output or a part of one."""
    commands = [line.split('#')[0].split() for block in blocks(README, 'sh') for line in block.splitlines() if line.strip()]
    for words in commands:
        paths = [word for word in words if is_path(README, word)] or words[-1:]
        faults.extend(f'{README}: `{" ".join(words)}`: {word} is not there' for word in paths if not (ROOT / word).is_file())
    printed = ['\n' + path.read_text(encoding='utf-8') for path in (ROOT / 'examples').glob('*.expected')]
    shown = blocks(README, 'text')
    if not shown or not all(any('\n' + block in output for output in printed) for block in shown):
        faults.append(f'{README}: a block shows what no file examples/*.expected has, or there is none')
    return len(commands)
