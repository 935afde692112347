"""Makes damaged PDB files, for tests/campaign.

A case is a few files and the settings of their merges. Its bytes depend on the seed and the number of
the case alone. The tables of leaves, members and numbers are read from docs/FORMAT.md: damage needs to
know where a record names other types. No answer of the program is made from them."""
import pathlib, random, re, struct
from typing import NamedTuple
import harness
from harness import FIRST, entry_of, format_rows, leaves, refuse, superblock, words

SIZES = [512, 1024, 2048, 4096, 8192, 16384, 32768]
HEADER = 56
INT = 0x74
NIL = 0xFFFFFFFF
MOST_BYTES = 1 << 30
# The leaves whose places the table tells in words: `places_of` and `some_body` have a case for each.
IN_WORDS = (0x1002, 0x1201, 0x1203, 0x1206)
# What the table of members has of the fields after the indices: how many numeric leaves and names. `member_end` and
# `some_member` have a case for the four bytes of an LF_ONEMETHOD.
FIELDS = {
    'a numeric leaf': (1, 0), 'two numeric leaves': (2, 0), 'a name': (0, 1), '': (0, 0),
    'four bytes if bits 2 to 4 of the attributes are 4 or 6 (an introduced virtual)': (0, 0),
}


def fixed_places(leaf):
    """The offsets in the body of a leaf at which there is always a type index."""
    if leaf.others and leaf.kind not in IN_WORDS:
        refuse(f'no case in tests/damage.py for the places of {leaf.name}: {leaf.others}')
    return leaf.places


def member_parts(indices, fields):
    """How many type indices, numeric leaves and names a member has."""
    numerics, names = zip(*(entry_of(FIELDS, field) for field in fields.split(', ')))
    return int(re.sub('^none', '0', indices).partition(':')[0]), sum(numerics), sum(names)


# The fixed places of each leaf: offsets in its body at which there is a type index.
LEAVES = {leaf.kind: fixed_places(leaf) for leaf in leaves()}
KINDS = list(LEAVES)
# The parts of each member after its first four bytes: how many type indices, numeric leaves and names.
MEMBERS = {int(kind, 16): member_parts(indices, fields)
           for _, kind, indices, fields in format_rows('Members of a field list')}
# How many bytes follow the kind of a numeric leaf.
NUMERICS = {int(kind, 16): int(size)
            for kinds, size in format_rows('Numeric leaves') for kind in re.findall(r' (0x\w+)', kinds)}
# How many bytes of records fit in a file with the smallest blocks.
ROOM = {512: 8_384_968, 1024: 67_101_640, 2048: 536_856_520}


def u16_at(data, at):
    return data[at] | data[at + 1] << 8


def u32_at(data, at):
    return int.from_bytes(data[at:at + 4], 'little')


# ---- Files

def blocks_of(size, block):
    """How many blocks a stream of this size takes, which may be nil."""
    return 0 if size == NIL else harness.blocks_of(size, block)


def streams_of(file):
    """The block size of a sound file, and the bytes of its streams."""
    block, _, _, length, _, at = struct.unpack_from('<6I', file, 32)
    numbers = struct.unpack_from(f'<{blocks_of(length, block)}I', file, at * block)
    listed = struct.unpack(f'<{length // 4}I', b''.join(file[n * block:(n + 1) * block] for n in numbers)[:length])
    sizes, place, streams = listed[1:1 + listed[0]], 1 + listed[0], []
    for size in sizes:
        many = blocks_of(size, block)
        parts = [file[n * block:(n + 1) * block] for n in listed[place:place + many]]
        streams.append(b''.join(parts)[:0 if size == NIL else size])
        place += many
    return block, streams


class Plan:
    """Where the parts of a file are: its block map, the blocks of its directory, and for each stream its
    size and its blocks. What is in the blocks of a stream is in `streams`. The blocks are in any order, and
    damage may move each of them, so this is no `image` of the harness."""

    def __init__(self, block, streams, rng, map_last=False):
        self.block, self.streams = block, streams
        self.sizes = [NIL if stream is None else len(stream) for stream in streams]
        wanted = [blocks_of(size, block) for size in self.sizes]
        self.rest = b''
        many = blocks_of(4 * (1 + len(streams) + sum(wanted)), block)
        total = 1 + many + sum(wanted)
        free = [n for n in range(3, 3 + total + 2 * (total // block + 2)) if n % block not in (1, 2)][:total]
        self.count = free[-1] + 1
        if not map_last:
            rng.shuffle(free)
        self.block_map = free.pop()
        self.directory = [free.pop() for _ in range(many)]
        self.lists = [[free.pop() for _ in range(many)] for many in wanted]
        self.parts = [(n, stream[k * block:(k + 1) * block]) for stream, blocks in zip(streams, self.lists) for k, n in enumerate(blocks)]

    def file(self):
        block = self.block
        directory = words(len(self.sizes), *self.sizes, *(n for blocks in self.lists for n in blocks)) + self.rest
        file = bytearray(self.count * block)
        file[:56] = superblock(block, self.count, len(directory), self.block_map)
        for n, part in self.parts:
            file[n * block:n * block + len(part)] = part
        for k, n in enumerate(self.directory):
            part = directory[k * block:(k + 1) * block]
            file[n * block:n * block + len(part)] = part
        base, numbers = self.block_map * block, words(*self.directory)
        file[base:base + len(numbers)] = numbers
        return bytes(file)


def file_of(block, streams, rng):
    """A sound file with these streams, whose blocks are in any order."""
    return Plan(block, streams, rng).file()


def records_of(stream):
    """The records of a sound type stream."""
    at, records = HEADER, []
    end = HEADER + u32_at(stream, 16)
    while at < end:
        length = 2 + u16_at(stream, at)
        records.append(stream[at:at + length])
        at += length
    return records


def stream_of(records, header):
    """A type stream of these records, with the other fields of a header."""
    body = b''.join(records)
    first = u32_at(header, 8)
    return header[:8] + words(first, (first + len(records)) & NIL, len(body)) + header[20:HEADER] + body


# ---- Records

def record(kind, body):
    """A record with this body, and padding up to a multiple of four bytes."""
    pad = -len(body) % 4
    body += bytes(0xF0 + k for k in range(pad, 0, -1))
    return struct.pack('<HH', 2 + len(body), kind) + body


def numeric_end(body, at):
    """Where the numeric leaf at an offset ends. None where it does not fit, or is not known."""
    if at + 2 > len(body):
        return None
    kind = u16_at(body, at)
    if kind < 0x8000:
        return at + 2
    return at + 2 + NUMERICS[kind] if kind in NUMERICS and at + 2 + NUMERICS[kind] <= len(body) else None


def is_introduced(attributes):
    """Whether a method with these attributes has the offset of a virtual function."""
    return attributes >> 2 & 7 in (4, 6)


def member_end(body, at):
    """Where the member at an offset ends, with its padding. None where it has a fault."""
    indices, numerics, names = MEMBERS[u16_at(body, at)]
    end = at + 4 + 4 * indices + 4 * (u16_at(body, at) == 0x1511 and is_introduced(u16_at(body, at + 2)))
    for _ in range(numerics):
        end = numeric_end(body, end) if end is not None else None
    if end is None or end > len(body):
        return None
    if names:
        end = body.find(b'\0', end) + 1
    if end and end < len(body) and body[end] > 0xF0:
        end += body[end] & 15
    return end or None


def member_places(body):
    """The places of a field list, up to the first member with a fault."""
    at, places = 0, []
    while at is not None and at + 4 <= len(body) and u16_at(body, at) in MEMBERS:
        places += range(at + 4, at + 4 + 4 * MEMBERS[u16_at(body, at)][0], 4)
        at = member_end(body, at)
    return places


def method_places(body):
    at, places = 0, []
    while at + 8 <= len(body):
        places.append(at + 4)
        at += 12 if is_introduced(u16_at(body, at)) else 8
    return places


def places_of(one):
    """The offsets in the body of a record at which it names other types."""
    kind, body = u16_at(one, 2), one[4:]
    places = LEAVES.get(kind, ())
    if kind == 0x1002 and len(body) >= 8 and u32_at(body, 4) >> 5 & 7 in (2, 3):
        places = (0, 8)
    elif kind == 0x1201:
        places = range(4, 4 + 4 * u32_at(body, 0), 4) if 4 + 4 * u32_at(body, 0) <= len(body) else ()
    elif kind == 0x1203:
        places = member_places(body)
    elif kind == 0x1206:
        places = method_places(body)
    return [place for place in places if place + 4 <= len(body)]


def renamed(one, new):
    """The record, naming other types in place of each type that `new` has."""
    changed = None
    for place in places_of(one):
        to = u32_at(one, 4 + place)
        if to in new:
            changed = changed or bytearray(one)
            changed[4 + place:8 + place] = words(new[to])
    return one if changed is None else bytes(changed)


def some_index(rng, count):
    """A type index: most times a simple type or a record."""
    turn = rng.random()
    if turn < 0.5 or not count:
        return rng.choice([0, 3, INT, 0x470, 0xFFF])
    return FIRST + rng.randrange(count) if turn < 0.97 else rng.getrandbits(32)


def some_numeric(rng, known=True):
    """A numeric leaf, of a kind that is known or of any kind."""
    kind = rng.choice([0, 1, 0x7FFF, *NUMERICS] + ([] if known else [0x8005, 0x8006, 0x8008, 0x800B, 0x8010, 0xFFFF, rng.getrandbits(16) | 0x8000]))
    return struct.pack('<H', kind) + rng.randbytes(NUMERICS.get(kind, 0))


def some_name(rng):
    return bytes(rng.choice(b'abcdefghi:<>\xf1\xff') for _ in range(rng.randrange(9))) + b'\0'


def some_member(rng, count, kind=None):
    """A member with a right head, and any indices, numbers and names."""
    kind = kind or rng.choice(list(MEMBERS))
    indices, numerics, names = MEMBERS[kind]
    attributes = rng.choice([0, 3, 3, 0x10, 0x13, 0x18, rng.getrandbits(16)])
    body = struct.pack('<HH', kind, attributes) + words(*(some_index(rng, count) for _ in range(indices)))
    if kind == 0x1511 and is_introduced(attributes):
        body += rng.randbytes(4)
    body += b''.join(some_numeric(rng, rng.random() < 0.95) for _ in range(numerics))
    body += b''.join(some_name(rng) for _ in range(names))
    pad = bytes(0xF0 + k for k in range(-len(body) % 4, 0, -1))
    turn = rng.random()
    if turn < 0.05:
        body = body.rstrip(b'\0') if names else body  # the name has no end, or another one
    elif turn < 0.1:
        pad = rng.choice([b'', bytes([rng.randrange(0xF0, 0x100)]), b'\xf0' * len(pad), b'\xff\xfe'])
    return body + pad


def some_methods(rng, count):
    entries = []
    for _ in range(rng.randrange(6)):
        attributes = rng.choice([0, 3, 0x10, 0x18, 0x13, rng.getrandbits(16)])
        entries.append(struct.pack('<HHI', attributes, 0, some_index(rng, count)) + (rng.randbytes(4) if is_introduced(attributes) else b''))
    return b''.join(entries)


def some_body(rng, kind, count):
    """A body for a leaf, most times one that fits."""
    if kind == 0x1201:
        many = rng.randrange(6)
        return words(many, *(some_index(rng, count) for _ in range(many)))
    if kind == 0x1203:
        return b''.join(some_member(rng, count) for _ in range(rng.randrange(6)))
    if kind == 0x1206:
        return some_methods(rng, count)
    places = LEAVES[kind]
    body = bytearray(rng.randbytes(4 * rng.randrange(8)).ljust(max((place + 4 for place in places), default=0) + 4, b'\0'))
    for place in places:
        body[place:place + 4] = words(some_index(rng, count))
    if kind == 0x1002:
        body[4:] = words(rng.choice([0x1000C, 0x4C, 0x6C, rng.getrandbits(32)]), some_index(rng, count), 0)
    return bytes(body) + some_numeric(rng, False) + some_name(rng)


# ---- Damage to the bytes of a file

def changed_bytes(file, rng):
    file = bytearray(file)
    for _ in range(rng.choice([1, 1, 1, 2, 8])):
        file[rng.randrange(len(file))] = rng.randrange(256)
    return bytes(file)


def changed_number(file, rng):
    """A number of the superblock, the block map, the directory or the front of a stream is another."""
    block = u32_at(file, 32)
    if block not in SIZES or len(file) < block:
        return changed_bytes(file, rng)
    base = rng.choice([32, 32, block * rng.randrange(len(file) // block)])
    at = base + 4 * rng.randrange(6 if base == 32 else 16)
    number = rng.choice([0, 1, 2, 3, NIL, 0xFFFFFFFE, 0x80000000, 0x1000, rng.randrange(64), rng.getrandbits(32), block, block - 1])
    return file[:at] + words(number) + file[at + 4:] if at + 4 <= len(file) else file


def swapped_blocks(file, rng):
    block = 512
    count = len(file) // block
    if count < 2:
        return file
    one, other = (block * n for n in rng.sample(range(count), 2))
    file = bytearray(file)
    file[one:one + block], file[other:other + block] = file[other:other + block], file[one:one + block]
    return bytes(file)


def cut_file(file, rng):
    return file[:rng.randrange(len(file))]


def grown_file(file, rng):
    return file + bytes(rng.randrange(10_000))


# ---- Damage to where the streams of a sound file are

def one_block_twice(plan, rng):
    """A block of one stream is a block of another."""
    full = [blocks for blocks in plan.lists if blocks]
    if full:
        rng.choice(full)[0] = rng.choice(rng.choice(full))


def one_block_often(plan, rng):
    """A stream is one block, many times."""
    at, many = rng.randrange(len(plan.lists)), rng.choice([2, 3, 40])
    plan.lists[at] = [rng.randrange(3, plan.count)] * many
    plan.sizes[at] = many * plan.block - rng.randrange(plan.block)


def stream_in_directory(plan, rng):
    """A stream has a block of the directory, or the block map."""
    full = [blocks for blocks in plan.lists if blocks]
    if full:
        blocks = rng.choice(full)
        blocks[rng.randrange(len(blocks))] = rng.choice([plan.block_map, *plan.directory])


def directory_in_stream(plan, rng):
    """The block map, or a block of the directory, is a block of a stream, which it overwrites."""
    full = [blocks for blocks in plan.lists if blocks]
    if full and rng.random() < 0.5:
        plan.block_map = rng.choice(rng.choice(full))
    elif full:
        plan.directory[rng.randrange(len(plan.directory))] = rng.choice(rng.choice(full))


def directory_twice(plan, rng):
    """Two blocks of the directory, or the directory and its block map, are one block."""
    plan.directory[rng.randrange(len(plan.directory))] = rng.choice([plan.block_map, *plan.directory])


def strange_size(plan, rng):
    """A stream has no blocks, and the greatest sizes."""
    plan.sizes[rng.randrange(len(plan.sizes))] = rng.choice([NIL, NIL, 0xFFFFFFFE, NIL - plan.block, 0x80000000])


def map_block_in_stream(plan, rng):
    """A stream has a block of the free block maps."""
    full = [blocks for blocks in plan.lists if blocks]
    if full:
        blocks = rng.choice(full)
        blocks[rng.randrange(len(blocks))] = rng.choice([1, 2])


# ---- Damage to the streams of a sound file

def cut_stream(streams, rng):
    at = rng.randrange(len(streams))
    streams[at] = streams[at][:rng.randrange(len(streams[at]) + 1)]


def grown_stream(streams, rng):
    at = rng.randrange(len(streams))
    streams[at] += rng.randbytes(rng.randrange(100))


def swapped_streams(streams, rng):
    one, other = rng.randrange(len(streams)), rng.randrange(len(streams))
    streams[one], streams[other] = streams[other], streams[one]


def changed_stream(streams, rng):
    at = rng.choice([1, 2, 2, 2])
    if at < len(streams) and streams[at]:
        stream = bytearray(streams[at])
        stream[rng.randrange(min(len(stream), rng.choice([60, 200, len(stream)])))] = rng.randrange(256)
        streams[at] = bytes(stream)


def changed_header(streams, rng):
    """A number of the header of the type stream is another, mostly by little."""
    if len(streams) > 2 and len(streams[2]) >= HEADER:
        at = 4 * rng.randrange(5)
        number = rng.choice([u32_at(streams[2], at) + rng.choice([-4, -1, 1, 4]) & NIL, 0, FIRST - 1, FIRST, HEADER, NIL])
        streams[2] = streams[2][:at] + words(number) + streams[2][at + 4:]


def bits_of(buckets):
    """Bit vectors: the number of words, and then the words in which the bits of these buckets are 1."""
    many = max(buckets, default=-1) // 32 + 1
    return words(many, *(sum(1 << b % 32 for b in buckets if b // 32 == k) for k in range(many)))


def random_names(streams, rng):
    """The info stream has a random map of names, right or wrong in one part, and feature codes."""
    buffer = b''.join(some_name(rng) for _ in range(rng.randrange(8)))
    capacity = rng.choice([1, 8, 32, 33, 100])
    present = rng.sample(range(capacity), rng.randrange(min(capacity, 9))) if buffer else []
    wrong = rng.choice(['', '', '', 'size', 'offset', 'nul', 'pairs', 'words', 'length', 'capacity'])
    offsets = [rng.randrange(len(buffer)) for _ in present]
    if wrong == 'offset' and offsets:
        offsets[-1] = rng.choice([len(buffer), len(buffer) + 1, NIL, rng.getrandbits(32)])
    buffer = buffer[:-1] if wrong == 'nul' else buffer
    said = len(present) + (rng.choice([-1, 1, 7]) if wrong == 'size' else 0) & NIL
    pairs = b''.join(words(offset, rng.choice([0, 5, 12, NIL])) for offset in offsets)
    pairs = pairs[:rng.randrange(len(pairs) + 1)] if wrong == 'pairs' else pairs
    vectors = bits_of(present) + bits_of(rng.sample(range(capacity), rng.randrange(min(capacity, 4))))
    vectors = words(rng.choice([NIL, 0x40000000, 1000])) + vectors[4:] if wrong == 'words' else vectors
    length = rng.choice([NIL, len(buffer) + 1000]) if wrong == 'length' else len(buffer)
    capacity = rng.choice([0, NIL, 1]) if wrong == 'capacity' else capacity
    features = rng.choice([b'', words(0), words(0, 20140508), words(0, 20091201, 0, 20140508), rng.randbytes(rng.randrange(12))])
    front = (streams[1] if len(streams) > 1 else b'')[:28].ljust(28, b'\0')
    streams[1:2] = [front + words(length) + buffer + words(said, capacity) + vectors + pairs + features]


# ---- Damage to the records of a sound file

def cut_records(records, rng, _):
    del records[rng.randrange(len(records) + 1):]


def doubled_records(records, rng, _):
    records += records[:rng.randrange(len(records) + 1)]


def removed_record(records, rng, _):
    if records:
        del records[rng.randrange(len(records))]


def shuffled_records(records, rng, _):
    rng.shuffle(records)


def spliced_records(records, rng, donor):
    at, low = rng.randrange(len(records) + 1), rng.randrange(len(donor) + 1)
    records[at:at] = donor[low:low + rng.randrange(20)]


def changed_record(records, rng, _):
    if records:
        at = rng.randrange(len(records))
        one = bytearray(records[at])
        one[rng.randrange(2, len(one))] = rng.randrange(256)
        records[at] = bytes(one)


def changed_kind(records, rng, _):
    if records:
        at = rng.randrange(len(records))
        records[at] = records[at][:2] + struct.pack('<H', rng.choice(KINDS + [rng.getrandbits(16)])) + records[at][4:]


def changed_length(records, rng, _):
    if records:
        at = rng.randrange(len(records))
        records[at] = struct.pack('<H', rng.choice([0, 1, 2, 3, 6, 0xFFFE, 0xFFFF, rng.getrandbits(16)])) + records[at][2:]


def cut_record(records, rng, _):
    """A record ends earlier, and its length says so."""
    if records:
        at = rng.randrange(len(records))
        length = 4 * rng.randrange(1, len(records[at]) // 4 + 1)
        records[at] = struct.pack('<H', length - 2) + records[at][2:length]


def changed_references(records, rng, _):
    """Some references name other records, earlier or later ones."""
    for _ in range(rng.choice([1, 1, 5, 50])):
        at = rng.randrange(len(records)) if records else 0
        for place in places_of(records[at]) if records else []:
            to = FIRST + rng.randrange(len(records) + (rng.random() < 0.1))
            records[at] = records[at][:4 + place] + words(to) + records[at][8 + place:]


def moved(records, order):
    """The records in another order, which name each other by their new indices."""
    new = {FIRST + old: FIRST + at for at, old in enumerate(order)}
    return [renamed(records[old], new) for old in order]


def turned_references(records, rng, _):
    """The records are in reverse order, and name each other by their new indices."""
    records[:] = moved(records, range(len(records) - 1, -1, -1))


def permuted_records(records, rng, _):
    """The records are in any order, and name each other by their new indices."""
    order = list(range(len(records)))
    rng.shuffle(order)
    records[:] = moved(records, order)


def added_leaves(records, rng, _):
    """Records of any kinds at the end, with a right head and any rest."""
    count = len(records) + 3
    for _ in range(rng.choice([1, 1, 3])):
        kind = rng.choice(KINDS)
        body = some_body(rng, kind, count)
        if rng.random() < 0.1:
            body = rng.choice([rng.randbytes(rng.randrange(24)), body[:rng.randrange(len(body) + 1)]])
        records.append(record(kind, body))


def added_members(records, rng, _):
    """A field list that has a member of each of some kinds, or all kinds."""
    kinds = rng.choice([list(MEMBERS), rng.sample(list(MEMBERS), 3), [rng.choice(list(MEMBERS))]])
    body = b''.join(some_member(rng, len(records) + 1, kind) for kind in kinds)
    records.append(record(0x1203, body + (rng.randbytes(4) if rng.random() < 0.1 else b'')))


def added_methods(records, rng, _):
    """Method lists, with and without the offset of a virtual function, and a class that names them."""
    body = some_methods(rng, len(records))
    records.append(record(0x1206, body[:rng.choice([len(body), rng.randrange(len(body) + 1)])]))
    member = struct.pack('<HHI', 0x150F, 2, FIRST + len(records) - 1) + some_name(rng)
    records.append(record(0x1203, member))


def added_lists(records, rng, _):
    """Field lists that go on in others: to the end, or in a circle."""
    many, first = rng.randrange(2, 6), FIRST + len(records)
    last = rng.choice([None, None, first, first + rng.randrange(many)])
    for k in range(many):
        body = some_member(rng, len(records), rng.choice([0x1502, 0x150D, 0x1409]))
        to = first + k + 1 if k + 1 < many else last
        records.append(record(0x1203, body + (b'' if to is None else struct.pack('<HHI', 0x1404, 0, to))))


def added_numeric(records, rng, _):
    """A field list, or a record with a name, whose body ends with a numeric leaf that is cut anywhere."""
    leaf = some_numeric(rng, False)
    leaf = leaf[:rng.randrange(len(leaf) + 1)]
    front = rng.choice([struct.pack('<HH', 0x1502, 3), struct.pack('<HHI', 0x150D, 3, INT), struct.pack('<HHI', 0x1400, 3, INT),
                        struct.pack('<HHII', 0x1401, 3, INT, INT) + some_numeric(rng), struct.pack('<HHI', 0x151A, 3, INT)])
    name = b'n' * (-(7 + len(front + leaf)) % 4) + b'\0'
    kind, body = 0x1203, struct.pack('<HHH', 0x1502, 3, 0) + name + front + leaf
    if rng.random() < 0.3:
        kind, many = rng.choice([(0x1503, 8), (0x1504, 16), (0x1505, 16), (0x1519, 16), (0x1506, 8)])
        body = bytes(many) + leaf
    records.append(record(kind, body))


def naming(rng, to):
    """A record that names this one."""
    return rng.choice([
        record(0x1002, words(to, 0x1000C)), record(0x1002, words(INT, 0x1004C, to, 0)), record(0x1001, words(to) + b'\1\0'), record(0x1201, words(2, INT, to)),
        record(0x1203, struct.pack('<HHIH', 0x150D, 3, to, 0) + b'm\0'), record(0x1203, struct.pack('<HHI', 0x1404, 0, to)),
        record(0x1206, struct.pack('<HHIHHII', 3, 0, INT, 0x10, 0, to, 8)), record(0x1008, words(INT, 0, to)), record(0x1009, words(INT, to, 0, 0, 0, 0)),
        record(0x1503, words(to, INT) + b'\4\0\0'), record(0x1505, words(0, to, 0, 0) + b'\4\0s\0'), record(0x1205, words(to) + b'\1\0'), record(0x151D, words(INT, to)),
    ])


def added_ring(records, rng, _):
    """Two to six records that name each other in a ring, or in a chain whose end names a simple type."""
    many, first = rng.randrange(2, 7), FIRST + len(records)
    order = [first + k for k in range(many)]
    rng.shuffle(order)
    last = rng.choice([order[0], INT])
    after = dict(zip(order, order[1:] + [last]))
    records += [naming(rng, after[first + k]) for k in range(many)]


OF_FILES = [changed_bytes, changed_number, changed_number, swapped_blocks, cut_file, grown_file]
OF_PLANS = [one_block_twice, one_block_often, stream_in_directory, directory_in_stream, directory_twice, strange_size, map_block_in_stream]
OF_STREAMS = [cut_stream, grown_stream, swapped_streams, changed_stream, changed_stream, changed_header, random_names, random_names]
# After these the records are still cut where their lengths say.
KEEP_LENGTHS = [cut_records, doubled_records, removed_record, shuffled_records, spliced_records, changed_record, changed_kind, cut_record,
                changed_references, changed_references, turned_references, permuted_records, added_leaves, added_leaves, added_members,
                added_members, added_methods, added_lists, added_lists, added_numeric, added_numeric, added_ring, added_ring]
OF_RECORDS = [*KEEP_LENGTHS, changed_length]
# The levels of damage, in the order in which they are made.
LEVELS = [(), ('file',), ('plan',), ('streams',), ('records',), ('records',), ('records',), ('records',), ('records', 'streams'), ('records', 'plan'),
          ('streams', 'plan'), ('records', 'file'), ('streams', 'file'), ('plan', 'file'), ('records', 'streams', 'plan', 'file')]


class Example:
    """A sound file: its bytes, its streams and its records."""

    def __init__(self, path):
        self.file = path.read_bytes()
        self.block, self.streams = streams_of(self.file)
        self.records = records_of(self.streams[2])

    def with_records(self, records):
        """The streams of this file with other records."""
        return [*self.streams[:2], stream_of(records, self.streams[2]), *self.streams[3:]]

    def size(self, rng):
        return rng.choice([self.block, self.block, 512, 512, 4096, rng.choice(SIZES)])

    def changed_records(self, rng, donor, kinds):
        """The records after up to three kinds of damage."""
        records = list(self.records)
        for _ in range(rng.choice([1, 1, 2, 3])):
            rng.choice(kinds)(records, rng, donor.records)
        return records

    def damaged(self, rng, donor):
        """This file after damage at some levels, and up to three kinds of damage at each."""
        levels = rng.choice(LEVELS)
        if levels == ('file',):
            return damaged_file(self.file, rng)
        streams = list(self.streams)
        if 'records' in levels:
            streams[2] = stream_of(self.changed_records(rng, donor, OF_RECORDS), streams[2])
        if rng.random() < 0.5:
            # Streams above 4 are not read, and cost time.
            del streams[5:]
        if 'streams' in levels:
            for _ in range(rng.choice([1, 1, 2])):
                rng.choice(OF_STREAMS)(streams, rng)
        plan = Plan(self.size(rng), streams, rng)
        if 'plan' in levels:
            for _ in range(rng.choice([1, 1, 2])):
                rng.choice(OF_PLANS)(plan, rng)
        return damaged_file(plan.file(), rng) if 'file' in levels else plan.file()


def damaged_file(file, rng):
    for _ in range(rng.choice([1, 1, 2, 3])):
        file = rng.choice(OF_FILES)(file, rng) or b'\0'
    return file


# ---- Files at the limits of the format

def full_directory(example, rng):
    """A file whose directory fills one block, or several, or all that one block can list, or one number
    more or less. Most of its streams are nil or have no bytes. Its block map is at its end."""
    block = rng.choice([512, 512, 512, 1024, 4096])
    streams = example.streams[:5]
    used = 1 + len(streams) + sum(blocks_of(len(stream), block) for stream in streams)
    many = rng.choice([1, 1, 2, 3, block // 4 if block == 512 else 4])
    wanted = many * block // 4 + rng.choice([-1, 0, 0, 0, 1])
    while wanted < used:
        wanted += block // 4
    streams += rng.choices([None, b''], k=min(wanted, block * block // 16) - used)
    plan = Plan(block, streams, rng, map_last=True)
    if rng.random() < 0.2:
        plan.rest = rng.randbytes(4 * rng.randrange(4))
    if rng.random() < 0.2:
        strange_size(plan, rng)
    return plan.file()


def heavy_records(rng):
    """Records whose bytes are as many as fit in a file with blocks of 512 bytes, or a few more or less."""
    total = ROOM[512] + 4 * rng.choice([-2, -1, 0, 0, 1, 2])
    records = []
    while total:
        length = min(total, 65_532)
        length -= 16 if 0 < total - length < 16 else 0
        many = (length - 8) // 4
        records.append(struct.pack('<HHI', length - 2, 0x1201, many) + words(*[len(records)] * min(many, 1)) + words(INT) * (many - 1))
        total -= length
    return records


# ---- Cases

class Case(NamedTuple):
    """The files of a case, and the settings of their merges. The first two files are twins where they
    mean the same types. `cut` says how many files the first part of the list has."""
    name: str
    files: list
    twins: bool = False
    block: int = 4096
    limit: int = MOST_BYTES
    cut: int = 0

    def room(self):
        """How many bytes the records of a merge may have together."""
        return min(self.limit, ROOM.get(self.block, MOST_BYTES))


def some_file(examples, rng):
    if rng.random() < 0.03:
        return full_directory(rng.choice(examples), rng)
    return rng.choice(examples).damaged(rng, rng.choice(examples))


def twins(examples, rng):
    """Two files that mean the same types: their records are in another order."""
    example = rng.choice(examples)
    records = example.changed_records(rng, rng.choice(examples), KEEP_LENGTHS) if rng.random() < 0.7 else list(example.records)
    others = list(records)
    permuted_records(others, rng, None)
    return [file_of(example.size(rng), example.with_records(each)[:5], rng) for each in (records, others)]


def is_heavy(number):
    """Whether the case with this number has about as many bytes as fit with blocks of 512 bytes."""
    return number % 2000 == 300


def files_of(number, examples, rng):
    """The files of a case, and whether the first two are twins."""
    if is_heavy(number):
        example = examples[-1]
        return [file_of(4096, example.with_records(heavy_records(rng))[:5], rng)], False
    if rng.random() < 0.12:
        return twins(examples, rng) + [some_file(examples, rng) for _ in range(rng.choice([0, 0, 1]))], True
    return [some_file(examples, rng) for _ in range(rng.choice([1, 1, 2, 2, 2, 3, 3, 4, 6]))], False


def case_of(seed, number, examples):
    """The case with this number."""
    rng = random.Random(f'{seed}:{number}')
    files, are_twins = files_of(number, examples, rng)
    # Files of any size fit with blocks of 4,096 bytes. Then the limits are tried.
    block = 4096 if is_heavy(number) else rng.choice([4096, 4096, 512, rng.choice(SIZES)])
    return Case(f'{seed}-{number}', files, are_twins, block, MOST_BYTES, rng.randrange(len(files)))


def examples_in(folder):
    """The sound files of a folder, and the names of the others."""
    examples, others = [], []
    for path in sorted(pathlib.Path(folder).glob('*.pdb')):
        try:
            examples.append(Example(path))
        except (struct.error, IndexError):
            others.append(path.name)
    return examples, others
