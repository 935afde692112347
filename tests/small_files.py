"""Small PDB files for the tests: records, and the streams and the file that hold them."""
import struct
from harness import FIRST, GUID, blocks_of, container, words

# The type index of int, the kinds of the records of definitions, and bits of their properties: that a record only
# declares, and that a unique name stands behind the name.
INT = 0x74
CLASS, STRUCTURE, UNION, ENUMERATION, INTERFACE = 0x1504, 0x1505, 0x1506, 0x1507, 0x1519
DECLARED, UNIQUE = 0x80, 0x200
# Records: const int and volatile int.
CONST = bytes.fromhex('0a000110 74000000 0100f2f1')
VOLATILE = bytes.fromhex('0a000110 74000000 0200f2f1')


def pointer(to):
    """The record of a pointer to the type of this index."""
    return bytes.fromhex('0a000210') + words(to) + bytes.fromhex('0c000100')


def procedure(returned, arguments):
    """The record of a procedure that returns a type and takes a list of arguments."""
    return bytes.fromhex('0e000810') + words(returned, 0, arguments)


def filled(part):
    """Bytes, and what fills them up to a multiple of four."""
    return part + bytes(0xF0 + left for left in range(-len(part) % 4, 0, -1))


def record(kind, body):
    """A record of this kind."""
    body = filled(body)
    return struct.pack('<2H', 2 + len(body), kind) + body


def member(name, offset=0, to=INT):
    """A member of a field list: a public one of this type at this offset."""
    return struct.pack('<2HIH', 0x150D, 3, to, offset) + name + b'\0'


def value(name, number):
    """A member of a field list: a value of an enumeration."""
    return struct.pack('<3H', 0x1502, 3, number) + name + b'\0'


def going_on(index):
    """A member of a field list: it goes on in the list of this index."""
    return struct.pack('<2HI', 0x1404, 0, index)


def field_list(*members):
    """A field list of these members."""
    return record(0x1203, b''.join(map(filled, members)))


def class_of(name, size, fields=0, properties=0, kind=STRUCTURE, unique=None):
    """A class, or what else this kind is, whose members are those of a field list. The size of an enumeration is the
    type of its values. A unique name stands behind the name, and its bit is set."""
    front = {UNION: struct.pack('<IH', fields, size), ENUMERATION: struct.pack('<2I', size, fields)}
    front = front.get(kind, struct.pack('<3IH', fields, 0, 0, size))
    names = [name] if unique is None else [name, unique]
    properties |= UNIQUE * (unique is not None)
    return record(kind, struct.pack('<2H', 0, properties) + front + b''.join(part + b'\0' for part in names))


def chain(count):
    """Const int, and pointers that each name the record before."""
    return [CONST, *(pointer(FIRST + k) for k in range(count - 1))]


def forward_chain(count):
    """Pointers that each name the next record, and const int at the end."""
    return [*(pointer(FIRST + 1 + k) for k in range(count - 1)), CONST]


def types(records):
    """A type stream of these records, as docs/WRITTEN.md says."""
    body = b''.join(records)
    hashes = struct.pack('<2H8I', 0xFFFF, 0xFFFF, 4, 0x3FFFF, 0, 0, 0, 0, 0, 0)
    return words(20040203, 56, FIRST, FIRST + len(records), len(body)) + hashes + body


def info(age=1):
    """An info stream without names, as docs/WRITTEN.md says."""
    return words(20000404, 0, age) + GUID + words(0, 0, 8, 0, 0, 0)


def named_info(text, offsets):
    """An info stream with this buffer, and a name at each of these offsets in it."""
    count = len(offsets)
    present = blocks_of(count, 32)
    bits = words(*((1 << min(32, count - 32 * k)) - 1 for k in range(present)))
    pairs = b''.join(words(offset, 5) for offset in offsets)
    return info()[:28] + words(len(text)) + text + words(count, count, present) + bits + words(0) + pairs + bytes(4)


def written(records, block=4096):
    """The file that `merge` writes for these records, if they are in canonical order. In any order
    it is a file that holds them."""
    return container([b'', info(), types(records), b'', b''], block)


# The records of the file that is merged and shown where nothing is to be refused.
TO_INT = pointer(INT)
GOOD_RECORDS = [CONST, TO_INT]


def put_good(runs):
    """Makes the small file that is merged and shown, where nothing is to be refused."""
    return runs.put('good.pdb', written(GOOD_RECORDS))
