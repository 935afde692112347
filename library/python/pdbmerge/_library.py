"""The declarations of pdbmerge.h, and how memory of Python is lent to a call."""
from __future__ import annotations

import contextlib
import ctypes as c
import mmap
import os
import pathlib
import sys
from typing import Callable, Iterator, List, Optional, Union

Buffer = Union[bytes, bytearray, memoryview, mmap.mmap]

SONAME = 'pdbmerge.dll' if sys.platform == 'win32' else 'libpdbmerge.so.1'

MEMORY = 33
ROOM = 100
SETTINGS = 101
NO_INPUT = 2**64 - 1
NO_NAME = 2**64 - 1


class Fault(c.Structure):
    input: int
    length: int
    number: int
    text: bytes
    _fields_ = [('input', c.c_uint64), ('length', c.c_uint64), ('number', c.c_uint32), ('text', c.c_char * 236)]


class Slice(c.Structure):
    bytes: Optional[int]
    length: int
    _fields_ = [('bytes', c.c_void_p), ('length', c.c_size_t)]


class Seed(c.Structure):
    _fields_ = [('bytes', c.c_uint8 * 16)]


class Identity(c.Structure):
    guid: c.Array[c.c_uint8]
    age: int
    block_size: int
    _fields_ = [('guid', c.c_uint8 * 16), ('age', c.c_uint32), ('block_size', c.c_uint32)]


class Container(c.Structure):
    block_size: int
    blocks: int
    free_blocks: int
    directory_bytes: int
    streams: int
    _fields_ = [
        ('block_size', c.c_uint32),
        ('blocks', c.c_uint32),
        ('free_blocks', c.c_uint32),
        ('directory_bytes', c.c_uint32),
        ('streams', c.c_uint32),
    ]


class Counts(c.Structure):
    records: int
    bytes: int
    levels: int
    _fields_ = [('records', c.c_uint32), ('bytes', c.c_uint32), ('levels', c.c_uint32)]


class Settings(c.Structure):
    limit: int
    _fields_ = [
        ('guid', c.c_uint8 * 16),
        ('age', c.c_uint32),
        ('limit', c.c_uint32),
        ('block_size', c.c_uint32),
        ('seed', Seed),
    ]


class Report(c.Structure):
    length: int
    types: int
    bytes: int
    _fields_ = [('length', c.c_uint64), ('types', c.c_uint32), ('bytes', c.c_uint32)]


class Plan(c.Structure):
    settings: Settings
    guid: int
    refused: int
    maps: int
    _fields_ = [('settings', Settings), ('guid', c.c_uint32), ('refused', c.c_uint32), ('maps', c.c_uint32)]


class LeftOut(c.Structure):
    file: int
    number: int
    _fields_ = [('file', c.c_uint64), ('number', c.c_uint64)]


class Totals(c.Structure):
    indices: int
    counts: int
    left_out: int
    _fields_ = [('indices', c.c_uint64), ('counts', c.c_uint64), ('left_out', c.c_uint64)]


class Guid(c.Structure):
    bytes: c.Array[c.c_uint8]
    _fields_ = [('bytes', c.c_uint8 * 16)]


class Reference(c.Structure):
    place: int
    index: int
    _fields_ = [('place', c.c_uint32), ('index', c.c_uint32)]


class Difference(c.Structure):
    input: int
    index: int
    origin: int
    _fields_ = [('input', c.c_uint32), ('index', c.c_uint32), ('origin', c.c_uint32)]


def _opened() -> c.CDLL:
    """The library that PDBMERGE_LIBRARY names, else the one beside this file, else that of the system."""
    beside = pathlib.Path(__file__).with_name(SONAME)
    return c.CDLL(os.environ.get('PDBMERGE_LIBRARY') or (str(beside) if beside.exists() else SONAME))


_library = _opened()


def _declared(name: str, *arguments: type) -> Callable[..., int]:
    """A call of the library, which other threads run beside."""
    function = _library[name]
    function.argtypes, function.restype = arguments, c.c_uint32
    return function


_bytes = (c.c_void_p, c.c_size_t)
_words = (c.POINTER(c.c_uint32), c.c_size_t)
_fault = c.POINTER(Fault)
_size = c.POINTER(c.c_uint64)

version = _declared('pdbmerge_version')
identify = _declared('pdbmerge_identify', *_bytes, c.POINTER(Identity), _fault)
layout = _declared('pdbmerge_layout', *_bytes, c.POINTER(Container), *_words, _fault)
blocks = _declared('pdbmerge_blocks', *_bytes, *_words, _size, _fault)
check = _declared('pdbmerge_check', *_bytes, c.POINTER(Counts), _fault)
_merging = (c.POINTER(Slice), c.c_size_t, c.POINTER(Settings), *_bytes)
merge = _declared('pdbmerge_merge', *_merging, c.POINTER(Report), _fault)
merge_by_types = _declared('pdbmerge_merge_by_types', *_merging, c.POINTER(Report), _fault)
merge_map = _declared('pdbmerge_merge_map', *_merging, *_words, *_words, c.POINTER(Report), _size, _fault)
merge_plan = _declared(
    'pdbmerge_merge_plan', c.POINTER(Slice), c.c_size_t, c.POINTER(Plan), *_bytes, *_words, *_words,
    c.POINTER(LeftOut), c.c_size_t, c.POINTER(Report), c.POINTER(Totals), _fault
)
guid_of_types = _declared(
    'pdbmerge_guid_of_types', c.POINTER(Slice), c.c_size_t, c.POINTER(Seed), c.POINTER(Guid), _fault
)
stream = _declared('pdbmerge_stream', *_bytes, c.c_uint32, *_bytes, _size, _fault)
named_streams = _declared('pdbmerge_named_streams', *_bytes, *_words, _size, _fault)
stream_names = _declared('pdbmerge_stream_names', *_bytes, *_bytes, _size, _fault)
features = _declared('pdbmerge_features', *_bytes, *_words, _size, _fault)
records = _declared('pdbmerge_records', *_bytes, _size, c.c_size_t, _size, _fault)
record = _declared('pdbmerge_record', *_bytes, c.c_uint32, _size, _fault)
references = _declared(
    'pdbmerge_references', *_bytes, c.c_uint32, c.POINTER(Reference), c.c_size_t, _size, _fault
)
all_references = _declared(
    'pdbmerge_all_references', *_bytes, c.POINTER(Reference), c.c_size_t, *_words, _size, _size, _fault
)
name = _declared('pdbmerge_name', *_bytes, c.c_uint32, *_bytes, _size, _fault)
diff = _declared(
    'pdbmerge_diff', *_bytes, *_bytes, c.POINTER(Seed), c.POINTER(Difference), c.c_size_t, _size, _fault
)
members = _declared('pdbmerge_members', *_bytes, c.POINTER(Slice), c.c_size_t, *_bytes, _size, _fault)
changes = _declared('pdbmerge_changes', *_bytes, *_bytes, c.POINTER(Seed), *_bytes, _size, _fault)


class _View(c.Structure):
    """`Py_buffer` of Python's C API."""

    buf: Optional[int]
    len: int
    _fields_ = [
        ('buf', c.c_void_p),
        ('obj', c.c_void_p),
        ('len', c.c_ssize_t),
        ('itemsize', c.c_ssize_t),
        ('readonly', c.c_int),
        ('ndim', c.c_int),
        ('format', c.c_void_p),
        ('shape', c.c_void_p),
        ('strides', c.c_void_p),
        ('suboffsets', c.c_void_p),
        ('internal', c.c_void_p),
    ]


# A handle of its own: what is declared on c.pythonapi is seen by all modules.
if sys.platform == 'win32':
    _python = c.PyDLL('Python', handle=sys.dllhandle)
else:
    _python = c.PyDLL(None)
_python.PyObject_GetBuffer.argtypes = [c.py_object, c.POINTER(_View), c.c_int]
_python.PyBuffer_Release.argtypes = [c.POINTER(_View)]
_python.PyBuffer_Release.restype = None
_python.PyBytes_FromStringAndSize.argtypes = [c.c_void_p, c.c_ssize_t]
_python.PyBytes_FromStringAndSize.restype = c.c_void_p
_python.PyBytes_AsString.argtypes = [c.c_void_p]
_python.PyBytes_AsString.restype = c.c_void_p
_python._PyBytes_Resize.argtypes = [c.POINTER(c.c_void_p), c.c_ssize_t]
_python.Py_DecRef.argtypes = [c.c_void_p]
_python.Py_DecRef.restype = None


@contextlib.contextmanager
def lent(*buffers: Buffer) -> Iterator[List[Slice]]:
    """The memory of buffers, which can be neither moved nor freed before the end of the block."""
    with contextlib.ExitStack() as held:
        slices = []
        for buffer in buffers:
            view = _View()
            _python.PyObject_GetBuffer(buffer, view, 0)
            held.callback(_python.PyBuffer_Release, view)
            slices.append(Slice(view.buf, view.len))
        yield slices


class NewBytes:
    """A bytes object that nobody else has yet, for a call to write into."""

    def __init__(self, room: int) -> None:
        self._object = c.c_void_p(_python.PyBytes_FromStringAndSize(None, room))
        self.address: int = _python.PyBytes_AsString(self._object)

    def __enter__(self) -> NewBytes:
        return self

    def __exit__(self, *_: object) -> None:
        _python.Py_DecRef(self._object)

    def cut(self, length: int) -> bytes:
        """The object, which has so many bytes from now on. It is not written again."""
        _python._PyBytes_Resize(self._object, length)
        made: bytes = c.cast(self._object, c.py_object).value
        return made
