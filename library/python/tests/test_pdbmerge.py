#!/usr/bin/env python3
"""Holds the Python module to the answers of the shipped tables, and to what it promises besides.

usage: PYTHONPATH=library/python PDBMERGE_LIBRARY=SO python3 library/python/tests/test_pdbmerge.py [TEST..]

Where the wheel is installed, neither variable is needed. The answers are those of EXPECTED.tsv in
examples, examples/faults and examples/differences, and of MEMBERS.tsv there, and no row is left out: one
whose command is not known here is an error. Besides: definitions of shipped files, each form of a line that
tells of one, each kind of buffer, each exception, answers that don't fit at first, the order and repetition
of files, threads, and the examples of docs/LIBRARY.md. Each difference is printed. The status is 1 where
there is one, and 2 where the library is not there. The tests need Python 3.9; the module needs 3.8."""
import hashlib
import mmap
import os
import pathlib
import pickle
import re
import subprocess
import sys
import tempfile
import textwrap
import threading
import unittest
import uuid
from unittest import mock

ROOT = pathlib.Path(__file__).resolve().parents[3]
sys.path.append(str(ROOT / 'tests'))

import small_files

try:
    import pdbmerge
except (ImportError, OSError) as missing:
    print(missing, file=sys.stderr)
    sys.exit(2)

from pdbmerge import Change, Definition, Member

EXAMPLES = ROOT / 'examples'
GUID = uuid.UUID('00112233-4455-6677-8899-aabbccddeeff')
# The type index of the first record of a file.
FIRST = 0x1000
# Two files that share some types.
PAIR = ['chain-200.1.pdb', 'chain-200.2.pdb']
# What the refusal of a row begins with: the position of a file, a type index, and the number.
REFUSED = re.compile(r'pdbmerge: (?:file (\d+): )?(?:index 0x[0-9a-f]+: )?(\d+) ')
# Runs in a process that gets no more memory.
STARVED = """
import resource, sys, pdbmerge
file = sys.stdin.buffer.read()
with open('/proc/self/statm') as pages:
    most = int(pages.read().split()[0]) * resource.getpagesize()
resource.setrlimit(resource.RLIMIT_AS, (most, most))
try:
    pdbmerge.check(file)
except MemoryError as fault:
    print(type(fault).__name__, fault, fault.number, fault.index)
"""


def leaf_names():
    """The name of each kind of record, by the table of docs/FORMAT.md."""
    text = (ROOT / 'docs' / 'FORMAT.md').read_text(encoding='utf-8')
    names = {}
    for leaves, kinds in re.findall(r'^\| (LF_\w+(?:, LF_\w+)*) \| (0x\w+(?:, 0x\w+)*) \|', text, re.MULTILINE):
        names.update((int(kind, 16), leaf) for leaf, kind in zip(leaves.split(', '), kinds.split(', ')))
    return names


LEAVES = leaf_names()


def content(name):
    return (EXAMPLES / name).read_bytes()


def rows(folder, name='EXPECTED.tsv'):
    """The rows of a table: the names and the bytes of the files, the command, the status, the answer."""
    with open(EXAMPLES / folder / name, encoding='utf-8', newline='\n') as table:
        lines = [line.rstrip('\n').split('\t') for line in table]
    for names, command, status, answer in lines[1:]:
        files = [content(pathlib.Path(folder, name)) for name in names.split()]
        yield f'{command} {names}', files, command.split(), int(status), answer


def merged(files, **settings):
    return pdbmerge.merge(files, **{'guid': GUID, 'age': 1, **settings})


def summed(lines):
    """How the tables tell the lines that a command prints."""
    text = ''.join(line + '\n' for line in lines).encode()
    return f'{len(lines)} lines, sha256 {hashlib.sha256(text).hexdigest()}'


def quoted(name):
    """A name as the program prints it."""
    plain = lambda byte: 0x20 <= byte < 0x7F and byte not in b'"\\'
    return '"' + ''.join(chr(byte) if plain(byte) else f'\\x{byte:02x}' for byte in name) + '"'


def type_line(record):
    """The line of a type, as the commands `types` and `diff` print it."""
    named = [f'{reference.index:#x}' for reference in record.references()]
    name = record.name()
    shown = [] if name is None else [quoted(name)]
    leaf = LEAVES.get(record.kind, 'no leaf')
    return ' '.join([f'{record.index:#x}', leaf, str(len(record.data)), *named, *shown])


def title(definition):
    """The head of a definition, up to its size or the type of its values."""
    name = '?' if definition.name is None else quoted(definition.name)
    return f'{definition.kind} {name} ' + ('of ' if definition.kind == 'enumeration' else 'size ')


def size_words(definition):
    """The size of a definition, or the type of its values."""
    if definition.type is not None:
        return definition.type
    return '?' if definition.size is None else str(definition.size)


def member_line(member):
    """The line of a member, as the command `members` prints it."""
    name = None if member.name is None else quoted(member.name)
    place = '-' if member.offset is None else str(member.offset)
    return '  ' + ' '.join(word for word in [place, member.what, name, member.type] if word is not None)


def definition_lines(definition):
    """The lines of a definition, as the command `members` prints them."""
    head = title(definition) + size_words(definition) + ' declared only' * definition.declared
    return [head, *map(member_line, definition.members)]


def change_lines(change):
    """The lines of a change, as `diff --members` prints them."""
    both = [each for each in (change.old, change.new) if each is not None]
    if len(both) == 1:
        sign = '+' if change.old is None else '-'
        return [f'{sign} {line}' for line in definition_lines(*both)]
    [head] = set(map(title, both))
    sizes = ' -> '.join(dict.fromkeys(map(size_words, both)))
    lines = [f'  {sign} {member_line(each)}' for sign, side in zip('-+', both) for each in side.members]
    return [f'~ {head}{sizes}', *lines]


def lines_of(tell, found):
    """The lines of all that was found."""
    return [line for each in found for line in tell(each)]


def type_differences(files):
    """The types that only one of two files has, and the line of each."""
    records = [list(pdbmerge.types(file)) for file in files]
    for each in pdbmerge.diff(*files):
        yield each, '-+'[each.input] + ' ' + type_line(records[each.input][each.index - 0x1000])


# What `diff` prints of two files, by its option.
DIFFERENCES = {
    None: lambda files: [line for _, line in type_differences(files)],
    '--origins': lambda files: [line for each, line in type_differences(files) if each.origin],
    '--members': lambda files: lines_of(change_lines, pdbmerge.changes(*files)),
}


def answer_of_check(files):
    counts = pdbmerge.check(files[0])
    return f'accepted records {counts.records} bytes {counts.bytes} levels {counts.levels}'


def answer_of_merge(files):
    made = merged(files)
    sha256 = hashlib.sha256(made.file).hexdigest()
    return f'types {made.types} bytes {made.bytes} file {len(made.file)} sha256 {sha256}'


def answer_of_records(files):
    return summed([f'{each.index:#x} {each.kind:#06x} {len(each.data)}' for each in pdbmerge.records(files[0])])


def answer_of_types(files):
    return summed([type_line(each) for each in pdbmerge.records(files[0])])


def answer_of_record(files, index):
    record = pdbmerge.record(files[0], int(index, 16))
    lines = [record.data.hex()]
    lines += [f'{reference.place} {reference.index:#x}' for reference in record.references()]
    name = record.name()
    return '\\n'.join(lines if name is None else [*lines, f'name {quoted(name)}'])


def answer_of_diff(files, option=None):
    return '\\n'.join(DIFFERENCES[option](files))


def answer_of_members(files):
    return '\\n'.join(lines_of(definition_lines, pdbmerge.members(files[0])))


def answer_of_info(files):
    identity, stream = pdbmerge.identify(files[0]), pdbmerge.stream(files[0], 1)
    version, signature = (int.from_bytes(stream[at:at + 4], 'little') for at in (0, 4))
    lines = [f'version {version}', f'signature {signature:#x}', f'age {identity.age}', f'guid {identity.guid}']
    lines += [f'name {quoted(each.name)} {each.number}' for each in pdbmerge.named_streams(files[0])]
    lines += [f'feature {code}' for code in pdbmerge.features(files[0])]
    return summed(lines)


def answer_of_streams(files):
    layout = pdbmerge.layout(files[0])
    lines = [f'block-size {layout.block_size}', f'blocks {layout.blocks}', f'free {layout.free_blocks}',
             f'directory {layout.directory_bytes}', f'streams {len(layout.streams)}']
    for number, stream in enumerate(layout.streams):
        lines.append(' '.join(map(str, [number, stream.size, *stream.blocks])))
    return summed(lines)


ANSWERS = {name[10:]: call for name, call in list(globals().items()) if name.startswith('answer_of_')}


def info_of_names(count, codes):
    """An info stream with feature codes, and with names that share their bytes: of `count - 1` letters the name
    of stream n lacks the first n."""
    words = small_files.words
    buffer = words(count) + b'x' * (count - 1) + b'\0'
    present = ((1 << count) - 1).to_bytes(4 * -(-count // 32), 'little')
    buckets = words(count, count, len(present) // 4) + present + words(0)
    pairs = words(*(number for n in range(count) for number in (n, n)))
    return small_files.info()[:28] + buffer + buckets + pairs + words(0, *codes)


def contents(file, layout):
    """The bytes of each stream, by the numbers of its blocks."""
    size = layout.block_size
    blocks = [file[at:at + size] for at in range(0, len(file), size)]
    return [b''.join(blocks[number] for number in each.blocks)[:each.size] for each in layout.streams]


class Checks(unittest.TestCase):
    """Checks that are counted, and that go on after a difference."""

    count = 0

    def hold(self, what, got, want):
        Checks.count += 1
        with self.subTest(what):
            if got != want:
                self.fail(f'\n  got    {str(got)[:300]}\n  wanted {str(want)[:300]}')

    def refuses(self, what, kind, number, index, call, *arguments, **settings):
        """Holds a call to its exception."""
        try:
            got = call(*arguments, **settings)
        except pdbmerge.PdbError as fault:
            got = type(fault), fault.number, fault.index
        self.hold(what, got, (kind, number, index))


class Tables(Checks):
    def hold_row(self, what, files, command, status, answer):
        try:
            text = ANSWERS[command[0]](files, *command[1:])
            got = (3 if command[0] == 'diff' and text else 0), text
        except pdbmerge.PdbError as fault:
            got = 1, f'pdbmerge: {fault}'
            index, number = REFUSED.match(answer).groups() if status == 1 else (None, 0)
            wanted = int(number), None if index is None else int(index)
            self.hold(f'{what}: number and index', (fault.number, fault.index), wanted)
        self.hold(what, got, (status, answer))

    def hold_table(self, folder, *name):
        table = list(rows(folder, *name))
        self.assertTrue(table)
        for row in table:
            self.hold_row(*row)

    def test_examples(self):
        self.hold_table('')

    def test_faults(self):
        self.hold_table('faults')

    def test_differences(self):
        self.hold_table('differences')

    def test_members(self):
        self.hold_table('differences', 'MEMBERS.tsv')

    def test_types_are_checked_first(self):
        for what, files, command, status, answer in rows('faults'):
            if command == ['check']:
                try:
                    got = 'accepted records {}'.format(len(list(pdbmerge.types(files[0]))))
                except pdbmerge.PdbError as fault:
                    got = f'pdbmerge: {fault}'
                self.hold(f'types after {what}', got, answer.split(' bytes')[0] if status == 0 else answer)


# Definitions of examples/differences/edited-1.pdb, by edited-1.h and edited.cpp, and of examples/inherit.pdb, by
# inherit.cpp, which has what is static or not public.
EDITED = [
    Definition('structure', b'Echo', 24, None, False, (
        Member(0, 'base', None, '"Handler"'),
        Member(16, 'member', b'seen', 'unsigned int'),
        Member(None, 'virtual method', b'on_packet',
               'method (reference to "Connection", reference to const "Packet") of "Echo" giving int'),
    )),
    Definition('structure', b'Handler', 16, None, False, (
        Member(None, 'virtual functions', None, 'pointer to virtual table of 2'),
        Member(8, 'member', b'refs', 'int'),
        Member(0, 'new pure virtual method', b'on_packet',
               'method (reference to "Connection", reference to const "Packet") of "Handler" giving int'),
        Member(8, 'new virtual method', b'on_close', 'method (reference to "Connection") of "Handler" giving void'),
    )),
    Definition('structure', b'Header', 12, None, False, (
        Member(0, 'member', b'kind', '"Kind"'),
        Member(1, 'member', b'version', 'unsigned char'),
        Member(2, 'member', b'length', 'unsigned short'),
        Member(4, 'member', b'sequence', 'unsigned int'),
        Member(8, 'member', b'flags', 'unsigned int, bits 0 to 3'),
        Member(8, 'member', b'window', 'unsigned int, bits 4 to 15'),
    )),
    Definition('enumeration', b'Kind', None, 'unsigned char', False, (
        Member(1, 'value', b'Hello', None),
        Member(2, 'value', b'Data', None),
        Member(3, 'value', b'Bye', None),
    )),
]
INHERITED = [
    Definition('class', b'Both', 72, None, False, (
        Member(0, 'base', None, '"Left"'),
        Member(24, 'protected base', None, '"Right"'),
        Member(8, 'indirect virtual base 1', None, '"Root"'),
        Member(48, 'member', b'b', 'int'),
        Member(52, 'private member', b'hidden', 'int'),
        Member(None, '3 methods', b'right',
               'method () of "Both" giving void or method (int, ...) of "Both" giving int or '
               'method (rvalue reference to "Both") of "Both" giving int'),
    )),
    Definition('structure', b'Root', 16, None, False, (
        Member(None, 'virtual functions', None, 'pointer to virtual table of 3'),
        Member(8, 'member', b'r', 'int'),
        Member(None, 'static', b'count', 'int'),
        Member(None, '2 methods', b'id', 'method () of "Root" giving int or method (int) of "Root" giving int'),
        Member(16, 'new virtual method', b'~Root', 'method () of "Root" giving void'),
        Member(None, 'static method', b'make', 'method (int) of "Root" giving int'),
    )),
]
# S is only declared in examples/differences/declared-1.pdb.
DECLARED = Definition('structure', b'S', 0, None, True, ())


def texts_of(call, *files):
    """The lines of the text that is behind the objects of a call, and those that the objects are told in."""
    tell = definition_lines if call is pdbmerge.members else change_lines
    with mock.patch.multiple(pdbmerge._definitions, definitions_of=bytes.decode, changes_of=bytes.decode):
        text = call(*files)
    return text.splitlines(), lines_of(tell, call(*files))


class Definitions(Checks):
    def test_shipped(self):
        for name, definitions in ('differences/edited-1.pdb', EDITED), ('inherit.pdb', INHERITED):
            found = pdbmerge.members(content(name))
            for want in definitions:
                what = f'{name} {want.name}'
                self.hold(what, [each for each in found if each.name == want.name], [want])
                self.hold(f'{what} alone', pdbmerge.members(content(name), want.name), [want])
                self.hold(f'{what} as str', pdbmerge.members(content(name), want.name.decode()), [want])
            self.hold(f'{name} without the name', pdbmerge.members(content(name), 'Gone'), [])

    def test_declared(self):
        file = content('differences/declared-1.pdb')
        self.hold('none', pdbmerge.members(file), [])
        self.hold('the declaration', pdbmerge.members(file, 'S'), [DECLARED])

    def test_names(self):
        names = [b'S', b'', 'é'.encode(), b'a"b\\c\nd\xff', b'\\x41', b'S']
        sizes = range(1, 1 + len(names))
        file = small_files.written([small_files.class_of(*each) for each in zip(names, sizes)])
        wanted = [Definition('structure', name, size, None, False, ()) for name, size in zip(names, sizes)]
        self.hold('all', pdbmerge.members(file), wanted)
        for name in names:
            self.hold(str(name), pdbmerge.members(file, name), [each for each in wanted if each.name == name])
        self.hold('as str', pdbmerge.members(file, 'é'), wanted[2:3])
        self.hold('empty str', pdbmerge.members(file, ''), wanted[1:2])

    def test_order(self):
        # The definitions of edited-1.h and edited.cpp, in the order of their records.
        names = [record.name() for record in pdbmerge.records(content('differences/edited-1.pdb'))
                 if record.kind in (0x1504, 0x1505, 0x1506, 0x1507) and not record.data[6] & 0x80]
        self.hold('names', [each.name for each in pdbmerge.members(content('differences/edited-1.pdb'))], names)
        self.hold('count', len(names), 12)

    def test_told_again(self):
        """Nothing is lost of what the text tells of the shipped files, and of changes from each to the next."""
        accepted = [what[6:] for what, _, command, status, _ in rows('') if (command, status) == (['check'], 0)]
        paths = [EXAMPLES / name for name in accepted] + sorted(EXAMPLES.glob('differences/*.pdb'))
        files = [(path.name, path.read_bytes()) for path in paths]
        for name, file in files:
            self.hold(f'members {name}', *texts_of(pdbmerge.members, file))
        for (name, first), (other, second) in zip(files, files[1:]):
            self.hold(f'changes {name} {other}', *texts_of(pdbmerge.changes, first, second))


# A type that is cut, in a name with an arrow.
CUT = 'pointer to "a -> ' + 'b' * 383 + '..'
METHODS = ['method', 'virtual method', 'static method', 'friend method', 'new virtual method', 'pure virtual method',
           'new pure virtual method']
# Lines of members, and what they tell.
MEMBERS = [
    *((f'{place} {who}{what} {words}', Member(offset, who + what, None, words))
      for who in ('', 'private ', 'protected ')
      for place, offset, what, words in [
          ('0', 0, 'base', '"B"'), ('8', 8, 'base', '?'), ('8', 8, 'virtual base 1', '"B"'),
          ('?', None, 'virtual base ?', '"B"'), ('16', 16, 'indirect virtual base 2', '"B"'),
          ('?', None, 'indirect virtual base ?', '?')]),
    *((f'{place} {who}{what} "m" {words}', Member(offset, who + what, b'm', words))
      for who in ('', 'private ', 'protected ')
      for place, offset, what, words in [
          ('8', 8, 'member', 'int'), ('?', None, 'member', '?'), ('-', None, 'static', 'const "T"'),
          *(('-', None, method, 'method () of "C" giving "m"') for method in METHODS),
          *(('24', 24, method, 'method () of "C" giving int') for method in METHODS if method.startswith('new '))]),
    ('- virtual functions pointer to virtual table of 2',
     Member(None, 'virtual functions', None, 'pointer to virtual table of 2')),
    ('- 2 methods "f" method () of "C" giving int or method (int) of "C" giving int',
     Member(None, '2 methods', b'f', 'method () of "C" giving int or method (int) of "C" giving int')),
    ('- 0 methods "f" ', Member(None, '0 methods', b'f', '')),
    ('- nested "N" "C::N"', Member(None, 'nested', b'N', '"C::N"')),
    ('- nested "" "C::<unnamed-tag>"', Member(None, 'nested', b'', '"C::<unnamed-tag>"')),
    ('1 value "v"', Member(1, 'value', b'v', None)),
    ('-1 value "v"', Member(-1, 'value', b'v', None)),
    (f'{-2**63} value "lowest"', Member(-2**63, 'value', b'lowest', None)),
    (f'{2**64 - 1} value "greatest"', Member(2**64 - 1, 'value', b'greatest', None)),
    ('? value "v"', Member(None, 'value', b'v', None)),
    ('? value ?', Member(None, 'value', None, None)),
    ('8 member ? "T"', Member(8, 'member', None, '"T"')),
    ('-8 member "m" pointer to member of "C", int', Member(-8, 'member', b'm', 'pointer to member of "C", int')),
    ('8 member "" unsigned int, bits 0 to 3', Member(8, 'member', b'', 'unsigned int, bits 0 to 3')),
    (r'8 member "a\x22b\xff\x00" "a\x22b\xff"', Member(8, 'member', b'a"b\xff\0', r'"a\x22b\xff"')),
    (r'8 member "\x5cx41\x5c\x5c" int', Member(8, 'member', b'\\x41\\\\', 'int')),
    ('8 member "value ? int" "8 member"', Member(8, 'member', b'value ? int', '"8 member"')),
    ('8 member "m" function (pointer to "a -> b", ...) giving "T"',
     Member(8, 'member', b'm', 'function (pointer to "a -> b", ...) giving "T"')),
    (f'8 member "m" {CUT}', Member(8, 'member', b'm', CUT)),
    # A member of a kind that is not known may lack the name.
    ('- method int', Member(None, 'method', None, 'int')),
    ('- private static method "T"', Member(None, 'private static method', None, '"T"')),
]
# Heads, and what they tell.
HEADS = [
    ('class "C" size 8', Definition('class', b'C', 8, None, False, ())),
    ('structure ? size ?', Definition('structure', None, None, None, False, ())),
    (f'union "" size {2**64 - 1}', Definition('union', b'', 2**64 - 1, None, False, ())),
    ('interface "I" size 0 declared only', Definition('interface', b'I', 0, None, True, ())),
    (r'class "a size 4\x22\xff declared only" size 8',
     Definition('class', b'a size 4"\xff declared only', 8, None, False, ())),
    ('enumeration "E" of "T of int"', Definition('enumeration', b'E', None, '"T of int"', False, ())),
    ('enumeration ? of void declared only', Definition('enumeration', None, None, 'void', True, ())),
    (f'enumeration "E" of {CUT}', Definition('enumeration', b'E', None, CUT, False, ())),
    (f'enumeration "E" of {CUT} declared only', Definition('enumeration', b'E', None, CUT, True, ())),
    ('enumeration "E" of ', Definition('enumeration', b'E', None, '', False, ())),
]
# Sizes and types of values behind `~`, and what they are in both files.
SIZES = [('8', 8, 8), ('8 -> 16', 8, 16), ('? -> 4', None, 4), ('4 -> ?', 4, None), ('?', None, None)]
# Types that are not cut. Behind another one and an arrow they have two points where a cut type would end.
DEEP, POINTS = f'function ("{"b" * 372}") giving ..', f'"{"b" * 383}.. -> c"'
VALUES = [
    ('int', 'int', 'int'),
    ('int -> unsigned int', 'int', 'unsigned int'),
    ('"a -> b"', '"a -> b"', '"a -> b"'),
    ('"a -> b" -> "c -> d"', '"a -> b"', '"c -> d"'),
    ('"a -> b" -> int', '"a -> b"', 'int'),
    (' -> int', '', 'int'),
    ('int -> ', 'int', ''),
    (CUT, CUT, CUT),
    (f'{CUT} -> int', CUT, 'int'),
    (f'{CUT} -> "c -> d"', CUT, '"c -> d"'),
    (f'int -> {CUT}', 'int', CUT),
    (f'{CUT} -> {CUT[:-3]}c..', CUT, f'{CUT[:-3]}c..'),
    (f'int -> {DEEP}', 'int', DEEP),
    (f'unsigned int -> {POINTS}', 'unsigned int', POINTS),
    (f'{DEEP} -> {POINTS}', DEEP, POINTS),
]


class Texts(Checks):
    """Each form of a line of the texts."""

    def holds(self, lines, *wanted):
        """Holds the objects of lines that tell of definitions, or of changes."""
        read = pdbmerge._definitions.changes_of if lines[0][0] in '~-+' else pdbmerge._definitions.definitions_of
        text = ''.join(line + '\n' for line in lines)
        self.hold(lines, read(text.encode('ascii')), list(wanted))

    def test_members(self):
        for line, member in MEMBERS:
            whole = Definition('class', b'C', 8, None, False, (member, member))
            none = Definition('class', b'C', 8, None, False, ())
            self.holds(['class "C" size 8', f'  {line}', f'  {line}'], whole)
            self.holds(['- class "C" size 8', f'-   {line}', f'-   {line}'], Change(whole, None))
            self.holds(['+ class "C" size 8', f'+   {line}', f'+   {line}'], Change(None, whole))
            self.holds(['~ class "C" size 8', f'  -   {line}', f'  -   {line}'], Change(whole, none))
            self.holds(['~ class "C" size 8', f'  +   {line}', f'  +   {line}'], Change(none, whole))

    def test_heads(self):
        for head, definition in HEADS:
            self.holds([head], definition)
            self.holds([f'- {head}'], Change(definition, None))
            self.holds([f'+ {head}'], Change(None, definition))

    def test_sizes(self):
        for sizes, *both in SIZES:
            self.holds([f'~ union "a -> b" size {sizes}'],
                       Change(*(Definition('union', b'a -> b', size, None, False, ()) for size in both)))
        for words, *both in VALUES:
            self.holds([f'~ enumeration ? of {words}'],
                       Change(*(Definition('enumeration', None, None, each, False, ()) for each in both)))

    def test_several(self):
        some, other = Member(0, 'member', b'a', 'int'), Member(-1, 'value', b'b', None)
        values, empty = (Definition('enumeration', b'E', None, 'int', False, has) for has in ((other, other), ()))
        fields, field = (Definition('class', b'C', 8, None, False, has) for has in ((some,), (some, other)))
        self.holds(['enumeration "E" of int', '  -1 value "b"', '  -1 value "b"', 'enumeration "E" of int',
                    'class "C" size 8', '  0 member "a" int'], values, empty, fields)
        self.holds(['- enumeration "E" of int', '~ class "C" size 8', '  -   0 member "a" int',
                    '  -   -1 value "b"', '  +   0 member "a" int', '- class "C" size 8', '-   0 member "a" int',
                    '+ enumeration "E" of int', '+   -1 value "b"', '+   -1 value "b"', '+ class "C" size 8',
                    '+   0 member "a" int'],
                   Change(empty, None), Change(field, fields), Change(fields, None), Change(None, values),
                   Change(None, fields))

    def test_none(self):
        self.hold('definitions', pdbmerge._definitions.definitions_of(b''), [])
        self.hold('changes', pdbmerge._definitions.changes_of(b''), [])

    def test_unknown(self):
        # A newer library may tell what this module does not know.
        for text in b'module "M" size 8\n', b'class "C" size 8\n  0 word "x" int\n', b'class "C" size 8 or so\n':
            with self.subTest(text), self.assertRaises(ValueError):
                pdbmerge._definitions.definitions_of(text)


class Buffers(Checks):
    def lend(self, use):
        """Calls with each kind of buffer that holds a file, and with its name."""
        file = content('memptr.pdb')
        use('bytes', file)
        use('bytearray', bytearray(file))
        use('memoryview', memoryview(file))
        use('part of a memoryview', memoryview(b'123' + file + b'4')[3:-1])
        use('memoryview of words', memoryview(file).cast('I'))
        for name, access in ('read', mmap.ACCESS_READ), ('written', mmap.ACCESS_WRITE), ('copied', mmap.ACCESS_COPY):
            with tempfile.TemporaryFile() as copy:
                copy.write(file)
                copy.flush()
                with mmap.mmap(copy.fileno(), 0, access=access) as mapped:
                    use(f'mmap that is {name}', mapped)

    def test_each_kind(self):
        want, sample = content('memptr.pdb'), content('sample.pdb')
        # The counts are those of EXPECTED.tsv.
        counts = pdbmerge.Counts(records=96, bytes=1996, levels=8)

        def use(what, file):
            self.hold(f'check {what}', pdbmerge.check(file), counts)
            self.hold(f'identify {what}', pdbmerge.identify(file), pdbmerge.identify(want))
            self.hold(f'merge {what}', merged([file, file]), merged([want]))
            self.hold(f'GUID of types {what}', pdbmerge.guid_of_types([file]), pdbmerge.guid_of_types([want]))
            self.hold(f'layout {what}', pdbmerge.layout(file), pdbmerge.layout(want))
            self.hold(f'stream {what}', pdbmerge.stream(file, 2), pdbmerge.stream(want, 2))
            self.hold(f'named streams {what}', pdbmerge.named_streams(file), pdbmerge.named_streams(want))
            self.hold(f'features {what}', pdbmerge.features(file), pdbmerge.features(want))
            self.hold(f'record {what}', pdbmerge.record(file, 0x1007), pdbmerge.record(want, 0x1007))
            self.hold(f'types {what}', len(list(pdbmerge.types(file))), 96)
            self.hold(f'references {what}', len(pdbmerge.references(file)), 96)
            self.hold(f'diff {what}', pdbmerge.diff(file, want), [])
            self.hold(f'members {what}', pdbmerge.members(file), pdbmerge.members(want))
            self.hold(f'changes {what}', pdbmerge.changes(file, want), [])
            self.hold(f'changes {what} second', pdbmerge.changes(sample, file), pdbmerge.changes(sample, want))

        self.lend(use)

    def test_empty(self):
        for file in b'', bytearray(), memoryview(b''):
            what = type(file).__name__
            sound = content('sample.pdb')
            for call in pdbmerge.identify, pdbmerge.layout, pdbmerge.check, pdbmerge.named_streams, \
                    pdbmerge.features, pdbmerge.records, pdbmerge.references, pdbmerge.types, pdbmerge.members:
                self.refuses(f'{call.__name__} {what}', pdbmerge.PdbError, 1, None, call, file)
            for call in pdbmerge.stream, pdbmerge.record:
                self.refuses(f'{call.__name__} {what}', pdbmerge.PdbError, 1, None, call, file, 2)
            self.refuses(f'merge {what}', pdbmerge.PdbError, 1, 1, merged, [sound, file])
            for call in pdbmerge.diff, pdbmerge.changes:
                self.refuses(f'{call.__name__} {what}', pdbmerge.PdbError, 1, 1, call, sound, file)

    def test_released(self):
        sound, cut = bytearray(content('sample.pdb')), bytearray(55)
        pdbmerge.check(sound)
        merged([sound, sound])
        records = list(pdbmerge.records(sound))
        for call in pdbmerge.check, pdbmerge.records, lambda file: merged([sound, file]):
            with self.assertRaises(pdbmerge.PdbError):
                call(cut)
        with self.assertRaises(TypeError):
            merged([sound, 'no bytes'])
        # A bytearray that is lent can't grow.
        sound.append(0)
        cut.append(0)
        self.hold('grown', (len(sound), len(cut), len(records)), (3585, 56, 2))

    def test_no_buffer(self):
        for what, kind, file in ('str', TypeError, 'x'), ('steps', BufferError, memoryview(b'1234')[::2]):
            with self.subTest(what), self.assertRaises(kind):
                pdbmerge.check(file)


class Faults(Checks):
    def test_settings(self):
        for name, number in ('limit', 2**30 + 1), ('limit', 2**40), ('limit', -1), ('block_size', 0), \
                ('block_size', 4097), ('block_size', 65536), ('block_size', 2**32 + 4096):
            self.refuses(f'{name} {number}', pdbmerge.SettingsError, 101, None, merged, [b''], **{name: number})
        self.assertTrue(issubclass(pdbmerge.SettingsError, ValueError))
        for settings, text in ({'limit': 2**30 + 1}, 'limit 1073741825'), ({'block_size': 100}, 'block_size 100'), \
                ({'block_size': 0, 'limit': 2**32 - 1}, 'limit 4294967295'):
            with self.assertRaises(pdbmerge.SettingsError) as caught:
                merged([b''], **settings)
            self.hold(text, str(caught.exception), f'101 Settings {text}')

    def test_words(self):
        sample = content('sample.pdb')
        for call in lambda n: merged([sample], age=n), lambda n: pdbmerge.stream(sample, n), \
                lambda n: pdbmerge.record(sample, n):
            for number in -1, 2**32:
                with self.subTest(number), self.assertRaises(ValueError):
                    call(number)

    def test_too_large(self):
        # docs/FAULTS.md has the text; the bytes are those that `check` tells in EXPECTED.tsv.
        sample, plain = content('sample.pdb'), content('plain.pdb')
        self.hold('what just fits', merged([sample], limit=24).bytes, 24)
        self.refuses('limit', pdbmerge.PdbError, 32, 1, merged, [sample, plain], limit=24)
        with self.assertRaises(pdbmerge.PdbError) as caught:
            merged([sample], limit=23)
        self.hold('text', str(caught.exception), 'file 0: 32 TooLarge bytes 24')

    def test_no_stream(self):
        self.refuses('stream', pdbmerge.PdbError, 11, None, pdbmerge.stream, content('sample.pdb'), 2**32 - 1)

    def test_no_record(self):
        # EXPECTED.tsv says that sample.pdb has two records.
        for index in 0, 0xFFF, 0x1002, 2**32 - 1:
            self.refuses(f'record {index:#x}', pdbmerge.PdbError, 39, None, pdbmerge.record,
                         content('sample.pdb'), index)

    def test_the_file_is_named(self):
        sound, magic = content('sample.pdb'), content('faults/02-magic.pdb')
        for call in pdbmerge.diff, pdbmerge.changes:
            self.refuses(f'first of {call.__name__}', pdbmerge.PdbError, 2, 0, call, magic, sound)
            self.refuses(f'second of {call.__name__}', pdbmerge.PdbError, 2, 1, call, sound, magic)

    def test_long_text(self):
        # A cycle of 100 records: its text has more bytes than a fault holds.
        pointers = [small_files.pointer(0x1000 + (n + 1) % 100) for n in range(100)]
        want = '34 Cycle ' + ' '.join(f'{0x1000 + n:#x}' for n in range(100))
        with self.assertRaises(pdbmerge.PdbError) as caught:
            pdbmerge.check(small_files.written(pointers))
        self.hold('text', str(caught.exception), want[:235] + '...')

    def test_memory(self):
        file = small_files.written(small_files.chain(200_000))
        self.hold('with memory', pdbmerge.check(file).records, 200_000)
        ended = subprocess.run([sys.executable, '-c', STARVED], input=file, stdout=subprocess.PIPE, check=True)
        self.hold('without memory', ended.stdout, b'OutOfMemory 33 Memory 33 None\n')

    def test_pickled_records(self):
        records = list(pdbmerge.types(content('memptr.pdb')))
        again = pickle.loads(pickle.dumps(records))
        self.hold('records', again, records)
        self.hold('their lines', [type_line(one) for one in again], [type_line(one) for one in records])

    def test_guid_as_text(self):
        for text in str(GUID), '{' + str(GUID) + '}', GUID.hex:
            self.hold(text, merged([content('sample.pdb')], guid=text), merged([content('sample.pdb')]))
        with self.assertRaises(ValueError):
            merged([], guid='no GUID')

    def test_pickled(self):
        for kind in pdbmerge.PdbError, pdbmerge.OutOfMemory, pdbmerge.SettingsError:
            fault = pickle.loads(pickle.dumps(kind('file 1: 2 Magic', 2, 1)))
            got = type(fault), str(fault), fault.number, fault.index
            self.hold(kind.__name__, got, (kind, 'file 1: 2 Magic', 2, 1))


class Room(Checks):
    """Answers that don't fit at first."""

    def test_layout(self):
        streams = [bytes([n % 256]) * (7 * n % 1200) for n in range(400)]
        file = small_files.container(streams, 512)
        layout = pdbmerge.layout(file)
        self.hold('streams', contents(file, layout), streams)
        blocks = sum(len(each.blocks) for each in layout.streams)
        got = layout.block_size, layout.blocks, layout.directory_bytes
        self.hold('container', got, (512, len(file) // 512, 4 * (1 + 400 + blocks)))

    def test_info(self):
        codes = list(range(300))
        file = small_files.container([b'', info_of_names(300, codes)])
        want = [pdbmerge.NamedStream(b'x' * (299 - n), n) for n in range(300)]
        self.hold('named streams', pdbmerge.named_streams(file), want)
        self.hold('features', pdbmerge.features(file), codes)

    def test_references(self):
        arguments = bytes.fromhex('aa000112') + small_files.words(41, *[0x74] * 41)
        record = pdbmerge.Record(0x1000, memoryview(arguments))
        self.hold('count', record.references(), [pdbmerge.Reference(4 + 4 * n, 0x74) for n in range(41)])

    def test_all_references(self):
        files = [content(name) for name in ('inherit.pdb', 'memptr.pdb', 'faults/31-ref.pdb')]
        # A list of many arguments has more references than the room holds at first, and a label has none.
        arguments = bytes.fromhex('aa000112') + small_files.words(41, *[0x74] * 41)
        label = bytes.fromhex('06000e00 00000000')
        for file in [*files, small_files.written([arguments, label, arguments]), small_files.written([])]:
            named = pdbmerge.references(file)
            want = [each.references() for each in pdbmerge.records(file)]
            self.hold('each', list(named), want)
            self.hold('the arrays', (list(named.places), list(named.indices)),
                      ([each.place for one in want for each in one], [each.index for one in want for each in one]))
            self.hold('how many', (len(named), len(named.places)), (len(want), sum(map(len, want))))
            self.hold('a part', (named[-2:], named[::2]), (want[-2:], want[::2]))
            self.hold('pickled', list(pickle.loads(pickle.dumps(named))), want)
        with self.assertRaises(IndexError):
            pdbmerge.references(files[0])[2**20]
        with mock.patch.object(pdbmerge, '_RECORD', 2**20):
            self.hold('little room', list(pdbmerge.references(files[0])), list(pdbmerge.references(files[0])[:]))

    def test_faults_of_references(self):
        for what, [file], _, status, answer in rows('faults'):
            if what.startswith('types ') and status == 1:
                with self.assertRaises(pdbmerge.PdbError) as caught:
                    pdbmerge.references(file)
                self.hold(what, f'pdbmerge: {caught.exception}', answer)

    def test_name(self):
        # A structure: no members, no property, three indices, a size of 0, its name.
        body = bytes.fromhex('0515 0000 0000') + small_files.words(0, 0, 0) + bytes(2) + b'n' * 1001 + b'\0'
        structure = (len(body)).to_bytes(2, 'little') + body
        self.hold('name', pdbmerge.Record(0x1000, memoryview(structure)).name(), b'n' * 1001)

    def test_diff(self):
        first, second = (small_files.written(small_files.chain(count)) for count in (400, 1))
        want = [pdbmerge.Difference(1, 0x1000 + n, n == 1) for n in range(1, 400)]
        self.hold('differences', pdbmerge.diff(second, first), want)

    def test_members(self):
        # Twenty structures that share a list of sixty members, whose names have 1000 bytes each.
        names = [b'%01000d' % n for n in range(60)]
        listed = small_files.field_list(*(small_files.member(name, 4 * n) for n, name in enumerate(names)))
        file = small_files.written([listed, *(small_files.class_of(b'S', n, 0x1000) for n in range(20))])
        members = tuple(Member(4 * n, 'member', name, 'int') for n, name in enumerate(names))
        want = [Definition('structure', b'S', n, None, False, members) for n in range(20)]
        self.hold('room', 20 * sum(map(len, names)) > pdbmerge._TEXT, True)
        self.hold('members', pdbmerge.members(file), want)
        changes = [Change(each, None) for each in want]
        self.hold('changes', pdbmerge.changes(file, small_files.written([])), changes)

    def test_merge(self):
        files = [content('chain-200.1.pdb'), content('chain-200.2.pdb')]
        want = merged(files)
        with mock.patch.object(pdbmerge, '_room', return_value=0):
            self.hold('merge', merged(files), want)


class ByTypes(Checks):
    """Merges whose GUID is made of their types."""

    def guid_of(self, file):
        """The GUID that hashlib makes of the records of a merged file."""
        records = b''.join(each.data for each in pdbmerge.records(file))
        digest = bytearray(hashlib.sha256(records).digest()[:16])
        digest[6], digest[8] = 0x80 | digest[6] & 0x0F, 0x80 | digest[8] & 0x3F
        return uuid.UUID(bytes=bytes(digest))

    def test_guid(self):
        one, other = map(content, PAIR)
        for files in [one], [one, other], [other, one, one], [merged([one, other]).file], []:
            made = merged(files, guid='types')
            guid = self.guid_of(made.file)
            self.hold('GUID of the file', pdbmerge.identify(made.file).guid, guid)
            self.hold('GUID alone', pdbmerge.guid_of_types(iter(files)), guid)
            self.hold('a merge with it', merged(files, guid=guid), made)
            with_maps = merged(iter(files), guid='types', maps=True)
            self.hold('a merge with maps', with_maps, merged(files, guid=guid, maps=True))
            self.hold('its file', with_maps.file, made.file)
        self.hold('no types', str(pdbmerge.guid_of_types([])), 'e3b0c442-98fc-8c14-9afb-f4c8996fb924')

    def test_refusals(self):
        one, magic = content('sample.pdb'), content('faults/02-magic.pdb')
        self.refuses('GUID', pdbmerge.PdbError, 2, 1, pdbmerge.guid_of_types, [one, magic])
        for maps in False, True:
            self.refuses('file', pdbmerge.PdbError, 2, 1, merged, [one, magic], guid='types', maps=maps)
            self.refuses('limit', pdbmerge.PdbError, 32, 0, merged, [one], guid='types', limit=23, maps=maps)
            self.refuses('settings', pdbmerge.SettingsError, 101, None, merged, [one], guid='types', block_size=1,
                         maps=maps)


class Merges(Checks):
    def test_order_and_repetition(self):
        one, other = content('chain-200.1.pdb'), content('chain-200.2.pdb')
        want = merged([one, other]).file
        for what, files in ('order', [other, one]), ('repetition', [other, one, one, other]), \
                ('earlier merge', [want, other]), ('again', [want]), ('an iterator', iter([one, other])):
            self.hold(what, merged(files).file == want, True)

    def test_no_files(self):
        made = merged([])
        self.hold('nothing', (made.types, made.bytes), (0, 0))
        self.hold('accepted', pdbmerge.check(made.file), pdbmerge.Counts(0, 0, 0))

    def hold_map(self, what, file, numbers, types):
        """Each record of the file has the kind and the name of the record to which the map leads."""
        told = [(each.kind, each.name(), len(each.data)) for each in pdbmerge.types(file)]
        found = [types[index - FIRST] for index in numbers]
        self.hold(what, [(each.kind, each.name(), len(each.data)) for each in found], told)

    def test_maps(self):
        for pair in (PAIR, ['memptr.pdb', 'data.pdb'], ['differences/edited-1.pdb', 'differences/edited-2.pdb']):
            one, other = map(content, pair)
            made = merged([one, other, one], maps=True)
            plain = merged([one, other, one])
            self.hold(f'file of {pair}', (made.file, made.types, made.bytes), (plain.file, plain.types, plain.bytes))
            self.hold('how many maps', (len(made.maps), plain.maps), (3, None))
            self.hold('the same map twice', made.maps[0] == made.maps[2], True)
            self.hold('a map is an array', [each.typecode for each in made.maps], ['I', 'I', 'I'])
            types = list(pdbmerge.types(made.file))
            for name, file, numbers in zip(pair, [one, other], made.maps):
                self.hold_map(f'map of {name}', file, numbers, types)
            self.hold('all types', {n for each in made.maps for n in each}, {FIRST + n for n in range(made.types)})

    def test_maps_of_a_merge(self):
        made = merged(map(content, PAIR))
        again = merged([made.file], maps=True)
        self.hold('each type stays', list(again.maps[0]), [FIRST + n for n in range(made.types)])
        self.hold('no files', merged([], maps=True).maps, ())
        self.hold('no types', list(merged([small_files.written([])], maps=True).maps[0]), [])
        self.refuses('a refusal', pdbmerge.PdbError, 1, 1, merged, [made.file, b''], maps=True)

    def test_room_for_maps(self):
        files = [content(name) for name in PAIR]
        want = merged(files, maps=True)
        for what, patched in ('the file', {'_room': lambda *_: 0}), ('the maps', {'_RECORD': 2**20}):
            with mock.patch.multiple(pdbmerge, **patched):
                self.hold(f'little room for {what}', merged(files, maps=True), want)

    def test_identity(self):
        guid = uuid.uuid4()
        for block_size in 512, 1024, 2048, 4096, 8192, 16384, 32768:
            made = merged([content('data.pdb')], guid=guid, age=2**32 - 1, block_size=block_size)
            want = pdbmerge.Identity(guid, 2**32 - 1, block_size)
            self.hold(f'blocks of {block_size}', pdbmerge.identify(made.file), want)

    def test_every_byte(self):
        # docs/WRITTEN.md describes the file.
        records = small_files.chain(2)
        self.hold('chain', merged([small_files.written(records, 512)]).file, small_files.written(records))


class Others(Checks):
    def part_of_page(self, begin, end):
        """What stands between two lines of docs/LIBRARY.md."""
        page = (ROOT / 'docs' / 'LIBRARY.md').read_text(encoding='utf-8')
        return textwrap.dedent(page.split(f'\n{begin}\n')[1].split(f'\n{end}\n')[0])

    def run_example(self, lines):
        """Runs an example in a folder that has the shipped files. Returns what it prints, and what it merges."""
        with tempfile.TemporaryDirectory() as folder:
            pathlib.Path(folder, 'examples').symlink_to(EXAMPLES)
            module = pathlib.Path(pdbmerge.__file__).parents[1]
            setting = {**os.environ, 'PYTHONPATH': str(module)}
            words = [sys.executable, '-c', lines]
            told = subprocess.run(words, cwd=folder, env=setting, check=True, stdout=subprocess.PIPE, text=True)
            made = pathlib.Path(folder, 'merged.pdb')
            return told.stdout, made.read_bytes() if made.exists() else None

    def test_page(self):
        """Runs the examples of docs/LIBRARY.md. The merged file is that of a row of EXPECTED.tsv."""
        [want] = [row[4] for row in rows('') if row[0] == 'merge plain.pdb inherit.pdb']
        _, made = self.run_example(self.part_of_page('In Python:', 'In Rust:'))
        self.hold('sum', hashlib.sha256(made).hexdigest(), want.split(' ')[-1])
        begin = 'This tells in Python which types have another size in a second build:'
        told, _ = self.run_example(self.part_of_page(begin, 'It prints this:'))
        self.hold('sizes', told, self.part_of_page('It prints this:', '## The calls').strip() + '\n')

    def test_version(self):
        header = (ROOT / 'include' / 'pdbmerge.h').read_text(encoding='utf-8')
        number = int(re.search(r'#define PDBMERGE_VERSION (0x\w+)', header)[1], 16)
        self.hold('version', pdbmerge.version(), tuple(number.to_bytes(3, 'big')))
        self.hold('version in words', pdbmerge.__version__, '.'.join(map(str, pdbmerge.version())))

    def test_records(self):
        records = list(pdbmerge.records(content('faults/25-leaf.pdb')))
        self.hold('no types', [(each.index, each.kind) for each in records], [(0x1000, 0x1609)])
        stream = pdbmerge.stream(content('plain.pdb'), 2)
        together = b''.join(each.data for each in pdbmerge.records(content('plain.pdb')))
        self.hold('all bytes', together, stream[56:56 + len(together)])

    def test_sequence(self):
        for call in pdbmerge.records, pdbmerge.types:
            records = call(content('plain.pdb'))
            each = list(records)
            self.hold('one after the other', [next(records) for _ in each], each)
            self.hold('and no more', next(records, None), None)
            self.hold('length and indices', (len(records), [one.index for one in each]),
                      (len(each), list(range(FIRST, FIRST + len(each)))))
            self.hold('at a place', (records[0], records[2], records[-1]), (each[0], each[2], each[-1]))
            self.hold('a part', records[1:-1:2], each[1:-1:2])
            self.hold('contains', (each[3] in records, pdbmerge.record(content('sample.pdb'), FIRST) in records),
                      (True, False))
            for place in len(each), -len(each) - 1:
                with self.assertRaises(IndexError):
                    records[place]
        self.hold('no records', list(pdbmerge.records(merged([]).file)), [])

    def test_record(self):
        for name in 'plain.pdb', 'faults/25-leaf.pdb':
            records = list(pdbmerge.records(content(name)))
            found = [pdbmerge.record(content(name), each.index) for each in records]
            self.hold(f'records of {name}', found, records)

    def test_threads(self):
        files = [content('chain-200.1.pdb'), content('chain-200.2.pdb'), content('faults/02-magic.pdb')]
        want, got = [merged(files[:2]).file, 2] * 20, [[] for _ in range(8)]

        def work(made):
            for _ in range(20):
                made.append(merged(files[1::-1]).file)
                try:
                    pdbmerge.check(files[2])
                except pdbmerge.PdbError as fault:
                    made.append(fault.number)

        threads = [threading.Thread(target=work, args=[made]) for made in got]
        for thread in threads:
            thread.start()
        for thread in threads:
            thread.join()
        self.hold('8 threads', [made == want for made in got], [True] * 8)


def main():
    result = unittest.main(exit=False).result
    wrong = len(result.failures) + len(result.errors)
    print(f'library/python/tests/test_pdbmerge.py: {Checks.count} checks, {wrong} not as wanted')
    sys.exit(wrong != 0 or Checks.count == 0)


if __name__ == '__main__':
    main()
