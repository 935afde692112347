#!/usr/bin/env python3
"""Prints the size of each struct of the Python module and the offset of each field, in the order of pdbmerge.h.

usage: PYTHONPATH=library/python python3 library/python/tests/layout.py

Where the module is installed, PYTHONPATH is not needed. `tests/library` compares the lines with those of C."""
import ctypes
import sys

from pdbmerge import _library

STRUCTS = [
    ('pdbmerge_fault', _library.Fault),
    ('pdbmerge_slice', _library.Slice),
    ('pdbmerge_seed', _library.Seed),
    ('pdbmerge_identity', _library.Identity),
    ('pdbmerge_container', _library.Container),
    ('pdbmerge_counts', _library.Counts),
    ('pdbmerge_settings', _library.Settings),
    ('pdbmerge_report', _library.Report),
    ('pdbmerge_plan', _library.Plan),
    ('pdbmerge_left_out', _library.LeftOut),
    ('pdbmerge_totals', _library.Totals),
    ('pdbmerge_guid', _library.Guid),
    ('pdbmerge_reference', _library.Reference),
    ('pdbmerge_difference', _library.Difference),
]


def show(name, struct):
    """Prints the lines of a struct."""
    print(name, 'size', ctypes.sizeof(struct))
    for field, _ in struct._fields_:
        print(f'{name}.{field}', 'offset', getattr(struct, field).offset)


def main():
    if len(sys.argv) != 1:
        print(__doc__, file=sys.stderr)
        sys.exit(2)
    for name, struct in STRUCTS:
        show(name, struct)


main()
