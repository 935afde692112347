"""What types and definitions are told in words, as docs/WORDS.md says."""
import struct
from harness import FIRST
from small_files import CLASS, DECLARED, ENUMERATION, INTERFACE, STRUCTURE, UNION

# The names of simple types, by their kinds.
SIMPLE = {
    0x00: 'no type', 0x01: 'absolute symbol', 0x02: 'segment', 0x03: 'void', 0x04: 'currency',
    0x05: 'near BASIC string', 0x06: 'far BASIC string', 0x07: 'type not translated', 0x08: 'HRESULT',
    0x10: 'signed char', 0x11: 'short', 0x12: 'long', 0x13: '__int64', 0x14: '__int128', 0x20: 'unsigned char',
    0x21: 'unsigned short', 0x22: 'unsigned long', 0x23: 'unsigned __int64', 0x24: 'unsigned __int128', 0x30: 'bool',
    0x31: '__bool16', 0x32: '__bool32', 0x33: '__bool64', 0x34: '__bool128', 0x40: 'float', 0x41: 'double',
    0x42: 'long double', 0x43: '__float128', 0x44: '__float48', 0x45: 'float of less precision', 0x46: '__half',
    0x50: 'complex float', 0x51: 'complex double', 0x52: 'complex long double', 0x53: 'complex __float128',
    0x54: 'complex __float48', 0x55: 'complex float of less precision', 0x56: 'complex __half', 0x60: 'bit',
    0x61: 'Pascal char', 0x62: '__bool32ff', 0x68: '__int8', 0x69: 'unsigned __int8', 0x70: 'char',
    0x71: 'wchar_t', 0x72: '__int16',
    0x73: 'unsigned __int16', 0x74: 'int', 0x75: 'unsigned int', 0x76: 'int64_t', 0x77: 'uint64_t',
    0x78: 'int128_t', 0x79: 'uint128_t', 0x7A: 'char16_t', 0x7B: 'char32_t', 0x7C: 'char8_t',
}
# What a record defines, by its kind, and the offset of its size, or of its name in an enumeration.
DEFINED = {CLASS: ('class', 16), STRUCTURE: ('structure', 16), UNION: ('union', 8), ENUMERATION: ('enumeration', 12),
           INTERFACE: ('interface', 16)}
# How the numbers of numeric leaves are packed.
NUMERIC = {0x8000: 'b', 0x8001: 'h', 0x8002: 'H', 0x8003: 'i', 0x8004: 'I', 0x8009: 'q', 0x800A: 'Q'}
ACCESS = {1: 'private ', 2: 'protected '}
METHODS = {1: 'virtual method', 2: 'static method', 3: 'friend method', 4: 'new virtual method',
           5: 'pure virtual method', 6: 'new pure virtual method'}
POINTERS = {0: 'pointer to ', 1: 'reference to ', 2: 'pointer to member of ', 3: 'pointer to method of ', 4: 'rvalue reference to '}
# The words before the name of a simple type, by its mode.
MODES = ('', 'near pointer to ', 'far pointer to ', 'huge pointer to ', 'pointer to ', 'far pointer of 48 bits to ', 'pointer to ',
         'pointer of 128 bits to ')
# The bits of the attributes of a pointer that are told.
FLAGS = {10: 'const ', 9: 'volatile ', 11: 'unaligned ', 12: 'restrict '}
# How deep an expression is told, and how many bytes it has at most.
DEEP, LONG = 8, 400


def number(size, data, at):
    """The number of so many bytes at an offset, or 0 where it does not fit."""
    return int.from_bytes(data[at:at + size], 'little') if at + size <= len(data) else 0


def numeric(data, at):
    """The value of the numeric leaf at an offset as it is told, and where it ends."""
    if at + 2 <= len(data):
        kind = number(2, data, at)
        if kind < 0x8000:
            return str(kind), at + 2
        code = '<' + NUMERIC.get(kind, '0s')
        if kind in NUMERIC and at + 2 + struct.calcsize(code) <= len(data):
            return str(struct.unpack_from(code, data, at + 2)[0]), at + 2 + struct.calcsize(code)
    return '?', None


def name_at(data, at):
    """The name at an offset, or None, and where it ends with its NUL."""
    end = -1 if at is None else data.find(b'\0', at)
    return (None, at) if end < 0 else (data[at:end], end + 1)


def quoted(name):
    """A name in quotes, or a question mark where there is none."""
    plain = lambda byte: 0x20 <= byte <= 0x7E and byte not in b'"\\'
    return '?' if name is None else '"' + ''.join(chr(byte) if plain(byte) else f'\\x{byte:02x}' for byte in name) + '"'


def kind_and_body(record):
    return number(2, record, 2), record[4:]


def name_start(record):
    """The body of a class, a structure, a union, an interface or an enumeration, and where its name begins."""
    kind, body = kind_and_body(record)
    _, at = DEFINED[kind]
    return body, at if kind == ENUMERATION else numeric(body, at)[1]


def name_place(record):
    """The name of such a record, and where it ends."""
    return name_at(*name_start(record))


def own_name(record):
    return name_place(record)[0]


def shown_name(record):
    """The name as an expression shows it: no NUL is looked for behind its first bytes."""
    body, at = name_start(record)
    name = name_at(body, at)[0]
    return name if at is None or len(body) - at <= LONG else body[at:at + LONG].split(b'\0')[0]


def properties_of(record):
    return number(2, kind_and_body(record)[1], 2)


def declares(record):
    """Whether such a record only declares."""
    return bool(properties_of(record) & DECLARED)


class Full(Exception):
    """An expression is longer than it is told."""


class Expression:
    """The words of a type of some records. No more are made than are told."""

    def __init__(self, records, index):
        self.records, self.text = records, ''
        try:
            self.tell(index, DEEP)
        except Full:
            self.text = self.text[:LONG] + '..'

    def put(self, words):
        self.text += words
        if len(self.text) > LONG:
            raise Full

    def tell(self, index, deep):
        if index < FIRST:
            self.put(simple(index))
        elif deep == 0:
            self.put('..')
        else:
            self.tell_record(*kind_and_body(self.records[index - FIRST]), self.records[index - FIRST], deep - 1)

    def tell_all(self, indices, separator, deep):
        for k, index in enumerate(indices):
            self.put(separator * (k > 0))
            self.put('...') if index == 0 and separator == ', ' else self.tell(index, deep)

    def tell_parts(self, body, deep, *parts):
        """Words, and the types at these offsets."""
        for part in parts:
            self.put(part) if isinstance(part, str) else self.tell(number(4, body, part), deep)

    def tell_record(self, kind, body, record, deep):
        flags = number(4, body, 4)
        if kind in DEFINED:
            self.put(quoted(shown_name(record)))
        elif kind == 0x1001:
            self.tell_parts(body, deep, ''.join(word * (flags >> bit & 1) for bit, word in enumerate(('const ', 'volatile ', 'unaligned '))), 0)
        elif kind == 0x1002:
            mode = flags >> 5 & 7
            said = ''.join(word for bit, word in FLAGS.items() if flags >> bit & 1)
            self.put(said + POINTERS.get(mode, f'pointer of mode {mode} to '))
            self.tell_parts(body, deep, *([8, ', ', 0] if mode in (2, 3) else [0]))
        elif kind == 0x1008:
            self.tell_parts(body, deep, 'function ', 8, ' giving ', 0)
        elif kind == 0x1009:
            self.tell_parts(body, deep, 'method ', 16, ' of ', 4, ' giving ', 0)
        elif kind == 0x1201:
            self.put('(')
            self.tell_all((number(4, body, 4 + 4 * k) for k in range(number(4, body, 0))), ', ', deep)
            self.put(')')
        elif kind == 0x1206:
            self.tell_all(methods(body), ' or ', deep)
        elif kind == 0x1205:
            self.tell_parts(body, deep, 0, f', bits {body[5]} to {max(body[5] + body[4] - 1, 0)}')
        elif kind == 0x1503:
            self.tell_parts(body, deep, f'array of {numeric(body, 8)[0]} bytes of ', 0)
        else:
            self.put({0x000A: f'virtual table of {number(2, body, 0)}', 0x000E: 'label', 0x1203: 'fields', 0x151D: 'virtual table'}[kind])


def simple(index):
    """The words of a simple type."""
    name, mode = SIMPLE.get(index % 256), index // 256
    if index == 0x103:
        return 'nullptr_t'
    if name is None or mode >= len(MODES):
        return f'0x{index:03x}'
    return MODES[mode] + name


def introduces(attributes):
    return attributes >> 2 & 7 in (4, 6)


def methods(body):
    """The types of a list of methods."""
    at = 0
    while at < len(body):
        yield number(4, body, at + 4)
        at += 12 if introduces(number(2, body, at)) else 8


def member(records, body, at):
    """The line of the member at an offset, where it ends, and the list in which the members go on."""
    kind, attributes, index = number(2, body, at), number(2, body, at + 2), number(4, body, at + 4)
    who, words = ACCESS.get(attributes & 3, ''), lambda: Expression(records, index).text
    if kind == 0x1404:
        return None, at + 8, index
    if kind == 0x1409:
        return f'- virtual functions {words()}', at + 8, None
    if kind == 0x1502:
        value, end = numeric(body, at + 4)
        name, end = name_at(body, end)
        return f'{value} value {quoted(name)}', end, None
    if kind in (0x1400, 0x151A):
        offset, end = numeric(body, at + 8)
        return f'{offset} {who}base {words()}', end, None
    if kind in (0x1401, 0x1402):
        offset, end = numeric(body, at + 12)
        number_there, end = numeric(body, end)
        return f'{offset} {who}{"indirect " * (kind == 0x1402)}virtual base {number_there} {words()}', end, None
    place, end = numeric(body, at + 8) if kind == 0x150D else ('-', at + 8)
    if kind == 0x1511 and introduces(attributes):
        place, end = str(number(4, body, at + 8)), at + 12
    name, end = name_at(body, end)
    what = {0x150D: f'{who}member', 0x150E: f'{who}static', 0x150F: f'{attributes} methods', 0x1510: 'nested',
            0x1511: who + METHODS.get(attributes >> 2 & 7, 'method')}[kind]
    return f'{place} {what} {quoted(name)} {words()}', end, None


def members(records, index):
    """The lines of the members of a field list, and of those in which it goes on."""
    while index >= FIRST and kind_and_body(records[index - FIRST])[0] == 0x1203:
        _, body = kind_and_body(records[index - FIRST])
        at, index = 0, 0
        while at < len(body):
            if body[at] >= 0xF0:
                at += body[at] & 15
                continue
            line, at, following = member(records, body, at)
            index = index if following is None else following
            if line is not None:
                yield line


def definition_parts(records, position):
    """What the head of a definition says before its size, its size or the type of its values, and the lines of its
    members."""
    kind, body = kind_and_body(records[position])
    what, at = DEFINED[kind]
    if kind == ENUMERATION:
        between, size = 'of', Expression(records, number(4, body, 4)).text
    else:
        between, size = 'size', numeric(body, at)[0]
    lines = members(records, number(4, body, 8 if kind == ENUMERATION else 4))
    return f'{what} {quoted(own_name(records[position]))} {between} ', size, tuple(f'  {line}' for line in lines)


def definition(records, position):
    """The lines of the definition at a position, whether it only declares, and its name; None of any other record."""
    record = records[position]
    if kind_and_body(record)[0] not in DEFINED:
        return None
    title, size, lines = definition_parts(records, position)
    return [f'{title}{size}{" declared only" * declares(record)}', *lines], declares(record), own_name(record)
