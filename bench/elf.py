"""What the measurements read of compiled files, all of them 64-bit and little-endian: sections and symbols."""
import collections
import struct

EXECUTABLE = 4  # SHF_EXECINSTR
SYMBOLS = 2  # SHT_SYMTAB

Section = collections.namedtuple('Section', 'name kind flags address offset size link')


def members(content):
    """The objects in a file: those of an archive, or the file itself."""
    if not content.startswith(b'!<arch>\n'):
        yield content
        return
    at = 8
    while at < len(content):
        size = int(content[at + 48 : at + 58])
        body = content[at + 60 : at + 60 + size]
        if body.startswith(b'\x7fELF'):
            yield body
        at += 60 + size + size % 2


def sections(elf):
    (table,) = struct.unpack_from('<Q', elf, 40)
    size, count = struct.unpack_from('<HH', elf, 58)
    return [Section(*struct.unpack_from('<IIQQQQI', elf, table + size * n)) for n in range(count)]


def code_bytes(elf):
    return sum(section.size for section in sections(elf) if section.flags & EXECUTABLE)


def places(elf):
    """The place of each symbol, by its name."""
    found = {}
    for table in sections(elf):
        if table.kind != SYMBOLS:
            continue
        names = sections(elf)[table.link].offset
        for at in range(table.offset, table.offset + table.size, 24):
            name, _, _, _, place, _ = struct.unpack_from('<IBBHQQ', elf, at)
            start = names + name
            found[elf[start : elf.index(b'\0', start)].decode()] = place
    return found
