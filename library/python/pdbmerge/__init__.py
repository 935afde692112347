"""The types of Program Database (PDB) files: checked, merged, compared and shown.

Each call takes files as they are in memory: bytes, bytearray, memoryview or mmap. No copy of them is
made. Their bytes must not change while a call runs, so a mapped file must not be written or truncated
meanwhile. Any number of threads may call at the same time, and they run side by side.

A call that refuses raises PdbError. The numbers and texts are those of the program `pdbmerge`.
"""
from __future__ import annotations

import array
import builtins
import ctypes as c
import dataclasses
import itertools
import os
import uuid
from typing import (
    TYPE_CHECKING, Callable, Dict, Iterable, Iterator, List, Optional, Sequence, Tuple, Type, TypeVar, Union, overload,
)

from . import _definitions, _library
from ._definitions import Change, Definition, Member
from ._library import Buffer

__all__ = [
    'Buffer',
    'Change',
    'Counts',
    'Definition',
    'Difference',
    'Identity',
    'Layout',
    'Member',
    'Merged',
    'NamedStream',
    'OutOfMemory',
    'PdbError',
    'Record',
    'Records',
    'Reference',
    'References',
    'SettingsError',
    'Stream',
    'changes',
    'check',
    'diff',
    'features',
    'guid_of_types',
    'identify',
    'layout',
    'members',
    'merge',
    'named_streams',
    'record',
    'records',
    'references',
    'stream',
    'types',
    'version',
]

# At run time an array takes no type of its items before Python 3.12.
if TYPE_CHECKING:
    _Words = array.array[int]
else:
    _Words = array.array

# The stream that holds the names of streams and the feature codes.
_INFO = 1
# The stream that holds the type records, and the type index of the first of them.
_TYPES = 2
_FIRST = 0x1000
_LARGEST = 2**32 - 1
_LARGEST_BLOCK = 32768
# Few records have less bytes, and few references stand in less of them. Where there are more than the room holds,
# a call is made once more.
_RECORD = 8
# What a GUID that is made of the types is called, and what stands for it until it is made.
_BY_TYPES, _NO_GUID = 'types', uuid.UUID(int=0)
# Room for a text at first. What changed between two files mostly takes less.
_TEXT = 2**20


class PdbError(Exception):
    """A refusal. `number` is that of the fault, `index` the position of the input at fault, if there is one."""

    def __init__(self, text: str, number: int, index: Optional[int] = None) -> None:
        super().__init__(text, number, index)
        self.number = number
        self.index = index

    def __str__(self) -> str:
        return str(self.args[0])


class OutOfMemory(PdbError, MemoryError):
    """There was not enough memory for a call."""


class SettingsError(PdbError, ValueError):
    """The limit or the block size is none that a file can have. The text says which."""


@dataclasses.dataclass(frozen=True)
class Identity:
    """What identifies a file. A symbol server matches on the GUID and the age."""

    guid: uuid.UUID
    age: int
    block_size: int


@dataclasses.dataclass(frozen=True)
class Stream:
    """A stream of a file: its size in bytes, and the numbers of its blocks, in the order of its bytes."""

    size: int
    blocks: List[int]


@dataclasses.dataclass(frozen=True)
class Layout:
    """What the container of a file has. The streams are in the order of their numbers.

    `block_size` is in bytes. `blocks` is how many blocks there are, and `free_blocks` how many of them
    are free. `directory_bytes` is the length of the stream directory.
    """

    block_size: int
    blocks: int
    free_blocks: int
    directory_bytes: int
    streams: List[Stream]


@dataclasses.dataclass(frozen=True)
class NamedStream:
    """A stream that has a name, and its number."""

    name: bytes
    number: int


@dataclasses.dataclass(frozen=True)
class Counts:
    """How many type records an accepted file has, their bytes, and the types in the longest chain of references."""

    records: int
    bytes: int
    levels: int


@dataclasses.dataclass(frozen=True)
class Merged:
    """A file that was written, how many types it has, and how many bytes their records have.

    `maps` is None unless they were asked for. The map of a file has for each of its type records the type
    index of its type in the file that was written: `maps[0][index - 0x1000]` for one of the first file.
    """

    file: builtins.bytes
    types: int
    bytes: int
    maps: Optional[Tuple[_Words, ...]] = dataclasses.field(default=None, repr=False)


@dataclasses.dataclass(frozen=True)
class Reference:
    """A type that a record names. `place` is where in the record, counted behind its first four bytes."""

    place: int
    index: int


@dataclasses.dataclass(frozen=True)
class Difference:
    """A type that only one of two files has: `input` 0 or 1. `origin` says that the difference begins here."""

    input: int
    index: int
    origin: bool


@dataclasses.dataclass(frozen=True)
class Record:
    """A type record. `data` is the whole record: its length, its kind and its body."""

    index: int
    data: memoryview

    @property
    def kind(self) -> int:
        """The kind, as 0x1505 for a structure."""
        return int.from_bytes(self.data[2:4], 'little')

    def references(self) -> List[Reference]:
        """The types that the record names, in the order of their places."""
        with _library.lent(self.data) as [data]:
            named, count = _listed(
                _library.Reference,
                16,
                lambda *answer: _library.references(data.bytes, data.length, self.index, *answer),
            )
        return [Reference(each.place, each.index) for each in itertools.islice(named, count)]

    def name(self) -> Optional[bytes]:
        """The name of the type, or None where there is none, or none that can be read."""
        size, fault = c.c_uint64(), _library.Fault()
        with _library.lent(self.data) as [data]:
            made = _made(
                256,
                lambda: 0 if size.value == _library.NO_NAME else size.value,
                lambda out, room: _done(
                    _library.name(data.bytes, data.length, self.index, out, room, size, fault), fault
                ),
            )
        return None if size.value == _library.NO_NAME else made

    def __reduce__(self) -> Tuple[Callable[[int, builtins.bytes], Record], Tuple[int, builtins.bytes]]:
        # A view can't be pickled.
        return _record_of, (self.index, self.data.tobytes())


def _record_of(index: int, data: bytes) -> Record:
    return Record(index, memoryview(data))


class Records(Sequence[Record]):
    """The type records of a file, in the order of their type indices: the first has 0x1000.

    Each is cut out of one copy of their stream when it is asked for. `next` gives one after the other, from the
    first one on, as it does of an iterator.
    """

    def __init__(self, held: memoryview, offsets: Sequence[int]) -> None:
        self._held, self._offsets, self._given = held, offsets, 0

    def __len__(self) -> int:
        return len(self._offsets)

    @overload
    def __getitem__(self, at: int) -> Record: ...
    @overload
    def __getitem__(self, at: slice) -> List[Record]: ...
    def __getitem__(self, at: Union[int, slice]) -> Union[Record, List[Record]]:
        places = range(len(self))[at]
        return self._at(places) if isinstance(places, int) else [self._at(place) for place in places]

    def __iter__(self) -> Iterator[Record]:
        return map(self._at, range(len(self)))

    def __next__(self) -> Record:
        if self._given == len(self):
            raise StopIteration
        self._given += 1
        return self._at(self._given - 1)

    def _at(self, place: int) -> Record:
        return _cut(self._held, _FIRST + place, self._offsets[place])


class References(Sequence[List[Reference]]):
    """The types that each record of a file names, in the order of the type indices of the records.

    The list of a record is made when it is asked for. It is in the order of the places. What stands in the lists is
    in two arrays, one record after the other: `places` and `indices`. `ends` has where that of each record ends.
    """

    def __init__(self, places: _Words, indices: _Words, ends: _Words) -> None:
        self.places, self.indices, self.ends = places, indices, ends

    def __len__(self) -> int:
        return len(self.ends)

    @overload
    def __getitem__(self, at: int) -> List[Reference]: ...
    @overload
    def __getitem__(self, at: slice) -> List[List[Reference]]: ...
    def __getitem__(self, at: Union[int, slice]) -> Union[List[Reference], List[List[Reference]]]:
        records = range(len(self))[at]
        return self._at(records) if isinstance(records, int) else [self._at(record) for record in records]

    def _at(self, record: int) -> List[Reference]:
        begin, end = self.ends[record - 1] if record else 0, self.ends[record]
        return list(map(Reference, self.places[begin:end], self.indices[begin:end]))


_EXCEPTIONS: Dict[int, Type[PdbError]] = {_library.MEMORY: OutOfMemory, _library.SETTINGS: SettingsError}


def _done(status: int, fault: _library.Fault) -> bool:
    """Raises the exception of a fault. Otherwise it says whether there was enough room."""
    if status in (0, _library.ROOM):
        return status == 0
    text = fault.text.decode('ascii', 'backslashreplace') + ('...' if fault.length > len(fault.text) else '')
    index = None if fault.input == _library.NO_INPUT else fault.input
    raise _EXCEPTIONS.get(status, PdbError)(text, status, index)


_Item = TypeVar('_Item', c.c_uint32, c.c_uint64, _library.Reference, _library.Difference)


def _listed(
    item: Type[_Item], room: int, call: Callable[[c.Array[_Item], int, c.c_uint64, _library.Fault], int]
) -> Tuple[c.Array[_Item], int]:
    """The items of a call, and how many there are. If there was too little room, it is called once more."""
    while True:
        items, count, fault = (item * room)(), c.c_uint64(), _library.Fault()
        if _done(call(items, room, count, fault), fault):
            return items, count.value
        room = count.value


def _numbers(
    room: int, call: Callable[[c.Array[c.c_uint32], int, c.c_uint64, _library.Fault], int]
) -> List[int]:
    """The numbers that a call lists."""
    numbers, count = _listed(c.c_uint32, room, call)
    return numbers[:count]


def _made(room: int, length: Callable[[], int], call: Callable[[int, int], bool]) -> bytes:
    """The bytes that a call writes. If there was too little room, it is called once more."""
    while True:
        with _library.NewBytes(room) as made:
            if call(made.address, room):
                return made.cut(length())
        room = length()


def _copied(call: Callable[[int, int, c.c_uint64, _library.Fault], int], room: int = 0) -> bytes:
    """The bytes that a call copies."""
    size, fault = c.c_uint64(), _library.Fault()
    return _made(room, lambda: size.value, lambda out, room: _done(call(out, room, size, fault), fault))


def _word(number: int, what: str) -> int:
    """A number that has 32 bits. ctypes would cut it without a word."""
    if not 0 <= number <= _LARGEST:
        raise ValueError(f'{what} is not in 0..{_LARGEST}: {number}')
    return number


def _setting(number: int) -> int:
    """A limit or a block size. What has more than 32 bits is refused as the largest number is."""
    return number if 0 <= number <= _LARGEST else _LARGEST


def _seed() -> _library.Seed:
    return _library.Seed.from_buffer_copy(os.urandom(16))


def _settings(guid: Union[uuid.UUID, str], age: int, limit: int, block_size: int) -> _library.Settings:
    """The settings of a merge, as a call takes them."""
    guid = guid if isinstance(guid, uuid.UUID) else uuid.UUID(guid)
    return _library.Settings(
        guid=(c.c_uint8 * 16)(*guid.bytes),
        age=_word(age, 'age'),
        limit=_setting(limit),
        block_size=_setting(block_size),
        seed=_seed(),
    )


def version() -> Tuple[int, int, int]:
    """The version of the library: major, minor and patch."""
    number = _library.version()
    return number >> 16, number >> 8 & 255, number & 255


__version__ = '.'.join(map(str, version()))


def identify(file: Buffer) -> Identity:
    """What identifies a file. Its types are not looked at."""
    identity, fault = _library.Identity(), _library.Fault()
    with _library.lent(file) as [data]:
        _done(_library.identify(data.bytes, data.length, identity, fault), fault)
    return Identity(uuid.UUID(bytes=bytes(identity.guid)), identity.age, identity.block_size)


def layout(file: Buffer) -> Layout:
    """The container of a file: its blocks, and which of them each stream has."""
    container = _library.Container()

    def listed(sizes: c.Array[c.c_uint32], room: int, count: c.c_uint64, fault: _library.Fault) -> int:
        status = _library.layout(data.bytes, data.length, container, sizes, room, fault)
        count.value = container.streams
        return status

    with _library.lent(file) as [data]:
        sizes = _numbers(256, listed)
        needed = [-(-size // container.block_size) for size in sizes]
        blocks = iter(
            _numbers(sum(needed), lambda *answer: _library.blocks(data.bytes, data.length, *answer))
        )
    streams = [Stream(size, list(itertools.islice(blocks, count))) for size, count in zip(sizes, needed)]
    return Layout(
        container.block_size, container.blocks, container.free_blocks, container.directory_bytes, streams
    )


def check(file: Buffer) -> Counts:
    """Checks whether the types of a file can be trusted, as the command `check` does."""
    counts, fault = _library.Counts(), _library.Fault()
    with _library.lent(file) as [data]:
        _done(_library.check(data.bytes, data.length, counts, fault), fault)
    return Counts(counts.records, counts.bytes, counts.levels)


def merge(
    files: Iterable[Buffer],
    *,
    guid: Union[uuid.UUID, str],
    age: int,
    limit: int = 2**30,
    block_size: int = 4096,
    maps: bool = False,
) -> Merged:
    """One file with exactly the types of all files, each once, in canonical order.

    The same types give the same bytes, whatever the order of the files and however often one is given.
    A GUID that is a `str` is read as `uuid.UUID` reads it; 'types' is the one of `guid_of_types`, which is
    made of the types. `limit` is the most bytes that the type records may have together. With `maps` the
    answer also has the map of each file, in the order of the files.
    """
    files, by_types = list(files), guid == _BY_TYPES
    if by_types:
        # Only a merge without maps makes it.
        guid = guid_of_types(files) if maps else _NO_GUID
    settings, report, fault = _settings(guid, age, limit, block_size), _library.Report(), _library.Fault()
    with _library.lent(*files) as slices:
        table = (_library.Slice * len(slices))(*slices)
        mapping = _Maps(slices) if maps else None

        def call(out: int, room: int) -> int:
            merging = (table, len(table), settings, out, room)
            if mapping is not None:
                return _library.merge_map(*merging, *mapping.rooms(), report, mapping.total, fault)
            merge = _library.merge_by_types if by_types else _library.merge
            return merge(*merging, report, fault)

        file = _made(
            _room(slices, settings.limit),
            lambda: report.length,
            lambda out, room: _done(call(out, room), fault),
        )
    return Merged(file, report.types, report.bytes, mapping.each() if mapping else None)


def guid_of_types(files: Iterable[Buffer]) -> uuid.UUID:
    """The GUID that is made of the types of all files: that of a merge of them with the GUID 'types'.

    The same types give the same GUID. No file is made.
    """
    guid, fault = _library.Guid(), _library.Fault()
    with _library.lent(*files) as slices:
        table = (_library.Slice * len(slices))(*slices)
        _done(_library.guid_of_types(table, len(table), _seed(), guid, fault), fault)
    return uuid.UUID(bytes=bytes(guid.bytes))


class _Maps:
    """Room for the maps of files."""

    def __init__(self, files: List[_library.Slice]) -> None:
        self._counts = (c.c_uint32 * len(files))()
        self._indices = _words_of(sum(file.length for file in files) // _RECORD)
        self.total = c.c_uint64()

    def rooms(self) -> Tuple[c.Array[c.c_uint32], int, c.Array[c.c_uint32], int]:
        """Room for the indices and for the counts, as a call takes them."""
        if len(self._indices) < self.total.value:
            self._indices = _words_of(self.total.value)
        return _lent_words(self._indices), len(self._indices), self._counts, len(self._counts)

    def each(self) -> Tuple[_Words, ...]:
        """The map of each file."""
        ends = list(itertools.accumulate(self._counts))
        return tuple(self._indices[end - count:end] for end, count in zip(ends, self._counts))


def _words_of(count: int) -> _Words:
    """So many numbers of 32 bits."""
    return array.array('I', [0]) * count


def _lent_words(words: _Words) -> c.Array[c.c_uint32]:
    """The memory of an array, as a call takes it."""
    return (c.c_uint32 * len(words)).from_buffer(words)


def _room(files: List[_library.Slice], limit: int) -> int:
    """Room for what is merged, unless streams share blocks: the types, the lists of blocks, and the other streams."""
    types = min(sum(file.length for file in files), limit)
    return types + types // 64 + 16 * _LARGEST_BLOCK


def stream(file: Buffer, number: int) -> bytes:
    """A copy of a stream of a file, by its number from 0."""
    _word(number, 'number')
    with _library.lent(file) as [data]:
        return _copied(lambda *answer: _library.stream(data.bytes, data.length, number, *answer))


def named_streams(file: Buffer) -> List[NamedStream]:
    """The streams of a file that have a name, in the order of its named stream map."""
    with _library.lent(stream(file, _INFO)) as [data]:
        numbers = _numbers(0, lambda *answer: _library.named_streams(data.bytes, data.length, *answer))
        names = _copied(lambda *answer: _library.stream_names(data.bytes, data.length, *answer))
    # A NUL ends each name.
    return [NamedStream(name, number) for name, number in zip(names.split(b'\0'), numbers)]


def features(file: Buffer) -> List[int]:
    """The feature codes of a file, in the order in which they stand there."""
    with _library.lent(stream(file, _INFO)) as [data]:
        return _numbers(0, lambda *answer: _library.features(data.bytes, data.length, *answer))


def records(file: Buffer) -> Records:
    """The type records of a file, which are not checked as types. A fault is raised at once."""
    held = memoryview(stream(file, _TYPES))
    with _library.lent(held) as [data]:
        offsets, count = _listed(
            c.c_uint64, 0, lambda *answer: _library.records(data.bytes, data.length, *answer)
        )
    return Records(held, array.array('Q', offsets[:count]))


def _cut(held: memoryview, index: int, at: int) -> Record:
    """The record that begins at this offset."""
    end = at + 2 + int.from_bytes(held[at:at + 2], 'little')
    return Record(index, held[at:end])


def record(file: Buffer, index: int) -> Record:
    """The type record of a type index, which is not checked as a type. Fault 39 says that there is none."""
    _word(index, 'index')
    held, offset, fault = memoryview(stream(file, _TYPES)), c.c_uint64(), _library.Fault()
    with _library.lent(held) as [data]:
        _done(_library.record(data.bytes, data.length, index, offset, fault), fault)
    return _cut(held, index, offset.value)


def references(file: Buffer) -> References:
    """What each type record of a file names, as `Record.references` tells it, by one call for all records.

    The records are not checked as types, but each has to be one whose references can be read.
    """
    with _library.lent(stream(file, _TYPES)) as [data]:
        total, records = c.c_uint64(data.length // _RECORD), c.c_uint64(data.length // _RECORD)
        fault, is_done = _library.Fault(), False
        while not is_done:
            # A reference is a place and a type index.
            found, counts = _words_of(2 * total.value), _words_of(records.value)
            room = (_library.Reference * total.value).from_buffer(found)
            rooms = (room, len(room), _lent_words(counts), len(counts))
            is_done = _done(_library.all_references(data.bytes, data.length, *rooms, total, records, fault), fault)
    end, ends = 2 * total.value, itertools.accumulate(counts[:records.value])
    return References(found[:end:2], found[1:end:2], array.array('I', ends))


def types(file: Buffer) -> Records:
    """The type records of a file that `check` accepts. A fault is raised at once."""
    check(file)
    return records(file)


def diff(first: Buffer, second: Buffer) -> List[Difference]:
    """The types that only one of two files has, those of the first file first.

    There are none exactly where both files have the same types.
    """
    seed = _seed()
    with _library.lent(first, second) as [one, other]:
        found, count = _listed(
            _library.Difference,
            256,
            lambda *answer: _library.diff(one.bytes, one.length, other.bytes, other.length, seed, *answer),
        )
    return [Difference(each.input, each.index, each.origin != 0) for each in itertools.islice(found, count)]


def members(file: Buffer, name: Union[bytes, str, None] = None) -> List[Definition]:
    """The definitions of a file, in the order of their records.

    With a name they are those that have it or, where the file only declares it, the declaration. The list
    is empty where no type has the name. A `str` is encoded by `name.encode()`, as UTF-8.
    """
    names = [] if name is None else [name.encode() if isinstance(name, str) else name]
    with _library.lent(file, *names) as [data, *asked]:
        table = (_library.Slice * len(asked))(*asked)
        text = _copied(
            lambda *answer: _library.members(data.bytes, data.length, table, len(table), *answer), _TEXT
        )
    return _definitions.definitions_of(text)


def changes(first: Buffer, second: Buffer) -> List[Change]:
    """The definitions that came, went or changed, in the order in which `diff --members` prints them.

    There are none exactly where both files have the same definitions.
    """
    seed = _seed()
    with _library.lent(first, second) as [one, other]:
        text = _copied(
            lambda *answer: _library.changes(one.bytes, one.length, other.bytes, other.length, seed, *answer),
            _TEXT,
        )
    return _definitions.changes_of(text)
