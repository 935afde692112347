"""PDB files of any size for the benchmarks, made from nothing (blocks of 4,096 bytes unless another size is given)."""
import itertools, pathlib, struct, sys

sys.path.append(str(pathlib.Path(__file__).resolve().parent.parent / 'tests'))
from harness import blocks_of, cut, image, numbers, superblock, words

BLOCK = 4096
# Stream 1: version, signature, age, GUID, and a map of no named streams.
INFO = struct.pack('<3I16s5I', 20000404, 0, 1, bytes(16), 0, 0, 1, 0, 0)


def records(size):
    """Record bytes of at least this length, and how many records they are: pointers, modifiers and
    argument lists in turn, each a whole number of words. An argument list says how many it has."""
    parts, length, count = [], 0, 0
    while length < size:
        body = 8 + 4 * (count * 7 % 13)
        kind = (0x1002, 0x1001, 0x1201)[count % 3]
        first = (body - 4) // 4 if kind == 0x1201 else count & 0xFFF
        record = struct.pack('<HH', 2 + body, kind) + struct.pack('<I', first) + bytes(body - 4)
        parts.append(record)
        length += len(record)
        count += 1
    return b''.join(parts), count


def padded(text):
    """These bytes, and padding to a multiple of four, as producers write it."""
    left = -len(text) % 4
    return text + bytes(0xF0 + left - k for k in range(left))


def record(kind, body):
    """A record of this kind, whose body is padded."""
    body = padded(body)
    return struct.pack('<HH', 2 + len(body), kind) + body


def structure(name, fields=0):
    """A structure of this name, with one field or none."""
    return record(0x1505, struct.pack('<HHIIIH', fields > 0, 0, fields, 0, 0, 8) + name + b'\0')


def classes(names, first):
    """Record bytes of classes with these names, four records each: the fields, the structure, a
    pointer to it and a list of arguments. The first record has the type index `first`."""
    parts = []
    for number, name in enumerate(names):
        at = first + 4 * number
        parts += [
            record(0x1203, struct.pack('<HHIH', 0x150D, 3, 0x74, 0) + b'field_of_' + name + b'\0'),
            structure(name, at),
            record(0x1002, struct.pack('<II', at + 1, 0x1000C)),
            record(0x1201, struct.pack('<III', 2, at + 2, 0x74)),
        ]
    return b''.join(parts)


def chain(root, count, first=0x1000, forward=False):
    """Record bytes of so many records: this one, and pointers that each name the record before.
    If it goes forward, each pointer names the next record, and `root` comes last. The first record
    has the type index `first`."""
    first += forward
    pointers = b''.join(struct.pack('<HHII', 10, 0x1002, first + i, 0x1000C) for i in range(count - 1))
    return pointers + root if forward else root + pointers


def tpi(body, count):
    """A TPI stream of these record bytes, without hashes (their keys have four bytes)."""
    hashes = struct.pack('<HHII', 0xFFFF, 0xFFFF, 4, 0x1000) + bytes(24)
    return struct.pack('<5I', 20040203, 56, 0x1000, 0x1000 + count, len(body)) + hashes + body


def pdb(stream, order=lambda blocks: blocks, info=b'', block=BLOCK):
    """A container with five streams: the second has the bytes of info, at most one block, and the third these
    bytes, in blocks of this order. The third stream is in consecutive blocks if its order is the plain one and it
    ends before the next pair of map blocks. There is one pair in `block` blocks."""
    infos, data = cut(info, block), cut(stream, block)
    # The place of each block of the third stream.
    places = order(list(range(len(infos), len(infos) + len(data))))
    parts = dict(zip(places, data))
    sizes = [0, len(info), len(stream), 0, 0]
    lists = [[], range(len(infos)), places, [], []]
    return image(sizes, lists, [*infos, *(parts[place] for place in sorted(places))], block)


def taken(free, count):
    """The first numbers of this list, which are removed from it."""
    numbers = free[:count]
    del free[:count]
    return numbers


def write_beside(path, streams, count, fill=b'', block=BLOCK):
    """Writes a file of so many blocks with these streams, and with one more that has all blocks that
    are left. Each block of this last stream holds `fill`. Without it they are holes, as are the free
    block maps, and the file is sparse: an `image` of the harness would hold it in memory. Returns how many
    bytes the directory has."""
    free = [n for n in itertools.takewhile(lambda n: n < count, numbers(block)) if n]
    placed = [(stream, taken(free, blocks_of(len(stream), block))) for stream in streams]
    # There is room for the numbers of all these blocks. The directory may end one block earlier.
    listed = sum(len(blocks) for _, blocks in placed) + len(free)
    room = taken(free, blocks_of(4 * (2 + len(streams) + listed), block))
    [block_map] = taken(free, 1)
    sizes = [*map(len, streams), len(free) * block]
    directory = words(len(sizes), *sizes, *(n for _, blocks in placed for n in blocks), *free)
    used = room[:blocks_of(len(directory), block)]
    front = superblock(block, count, len(directory), block_map)
    placed += [(front, [0]), (words(*used), [block_map]), (directory, used)]
    with open(path, 'wb') as file:
        file.truncate(count * block)
        for n in free if fill else []:
            file.seek(n * block)
            file.write(fill)
        for text, blocks in placed:
            for n, part in zip(blocks, cut(text, block)):
                file.seek(n * block)
                file.write(part)
    return len(directory)


def write_pdb(path, body, count, block=BLOCK):
    """Writes a file with so many records."""
    with open(path, 'wb') as file:
        file.write(pdb(tpi(body, count), info=INFO, block=block))


def write_classes(path, number, count):
    """A file with so many records of classes. One class of ten is its own, and they come first. No
    two files have as many of these, so that shared records have other type indices in each."""
    own = count // 40 + number
    names = [f'own{number}::Class{k}'.encode() for k in range(own)]
    names += [f'shared::Class{k}'.encode() for k in range(count // 4 - own)]
    write_pdb(path, classes(names, 0x1000), 4 * len(names))
