"""What is told of definitions, and how it is read from the texts of the library. docs/WORDS.md has their form."""
from __future__ import annotations

import dataclasses
import re
from typing import List, Optional, Tuple


@dataclasses.dataclass(frozen=True)
class Member:
    """A member of a definition, in the words of the program.

    `offset` is in bytes from the front of the type. Of a new virtual method it is the place in the virtual
    table, and of an enumerator the value. It is None where there is none. `what` says what the member is,
    as 'member' or 'private virtual method'. `name` is None where it has none, or none that can be read.
    `type` is None for an enumerator.
    """

    offset: Optional[int]
    what: str
    name: Optional[bytes]
    type: Optional[str]


@dataclasses.dataclass(frozen=True)
class Definition:
    """A class, structure, union, interface or enumeration, as `kind` says.

    `name` is None where it can't be read. `size` is in bytes. It is None where it can't be read, and for an
    enumeration, which has the `type` of its values instead. `declared` says that the file only declares it:
    a compiler gives it no members then.
    """

    kind: str
    name: Optional[bytes]
    size: Optional[int]
    type: Optional[str]
    declared: bool
    members: Tuple[Member, ...]


@dataclasses.dataclass(frozen=True)
class Change:
    """A definition that only one of two files has, or that changed.

    Where it changed, both `old` and `new` are there. Each has the members that only its file has, and the
    kind and the name are those of the first file.
    """

    old: Optional[Definition]
    new: Optional[Definition]


_NAME = r'\?|"[^"]*"'
_WHO = '(?:private |protected )?'
_NUMBER = r'(?:-?\d+|\?)'
# The size of an enumeration is the type of its values.
_HEAD = re.compile(
    rf'(?P<front>(?P<kind>class|structure|union|interface|enumeration) (?P<name>{_NAME}) (?:size|of) )'
    r'(?P<size>.*?)(?P<declared> declared only)?'
)
# A value has no type, and a base and the virtual functions have no name. A method is tried before a static.
_MEMBER = re.compile(
    rf'  (?P<place>-|{_NUMBER}) (?P<what>'
    rf'{_WHO}(?:member|(?:static |friend |(?:new )?(?:pure )?virtual )?method|static)|\d+ methods|nested'
    rf'|(?P<value>value)|(?P<nameless>{_WHO}(?:base|(?:indirect )?virtual base {_NUMBER})|virtual functions))'
    rf'(?(nameless)|(?: (?P<name>{_NAME}))?)(?(value)| (?P<type>.*))'
)
# A type that is cut has so many characters, and any other one has fewer.
_LONGEST = 402
_ARROW = ' -> '
# Up to an arrow that is not part of a name.
_BEFORE_ARROW = re.compile(rf'((?:[^"]|"[^"]*")*?){_ARROW}')


def _parts(form: re.Pattern[str], line: str) -> re.Match[str]:
    """The parts of a line. A library that is newer than this module may have other lines."""
    found = form.fullmatch(line)
    if found is None:
        raise ValueError(f'a line that is not known: {line}')
    return found


def _number(text: str) -> Optional[int]:
    """A number, or None where a dash or a question mark stands in its place."""
    return None if text in ('-', '?') else int(text)


def _name(text: Optional[str]) -> Optional[bytes]:
    """The bytes of a name, without its quotes and its escapes."""
    if text is None or text == '?':
        return None
    return text[1:-1].encode().decode('unicode_escape').encode('latin-1')


def _member(line: str) -> Member:
    parts = _parts(_MEMBER, line)
    return Member(_number(parts['place']), parts['what'], _name(parts['name']), parts['type'])


def _definition(head: str, lines: List[str]) -> Definition:
    parts = _parts(_HEAD, head)
    name, members = _name(parts['name']), tuple(map(_member, lines))
    has_values = parts['kind'] == 'enumeration'
    size, of = (None, parts['size']) if has_values else (_number(parts['size']), None)
    return Definition(parts['kind'], name, size, of, parts['declared'] is not None, members)


def _both(sizes: str) -> Tuple[str, str]:
    """The sizes in both files, which stand on both sides of an arrow where they differ."""
    # Where no arrow is found, the first type may be a cut one that left a quote open.
    found = _BEFORE_ARROW.match(sizes, 0, _LONGEST + len(_ARROW))
    end = found.end(1) if found else _LONGEST
    old, new = sizes[:end], sizes[end + len(_ARROW):]
    return old, (new if len(sizes) > end else old)


def _after(sign: str, lines: List[str]) -> List[str]:
    """What follows the sign, in the lines that have it."""
    return [line[len(sign):] for line in lines if line.startswith(sign)]


def _change(line: str, lines: List[str]) -> Change:
    sign, head = line[0], line[2:]
    if sign == '-':
        return Change(_definition(head, _after('- ', lines)), None)
    if sign == '+':
        return Change(None, _definition(head, _after('+ ', lines)))
    parts = _parts(_HEAD, head)
    old, new = (parts['front'] + size for size in _both(parts['size']))
    return Change(_definition(old, _after('  - ', lines)), _definition(new, _after('  + ', lines)))


def _blocks(text: bytes) -> List[List[str]]:
    """The lines of each definition, its head first."""
    blocks: List[List[str]] = []
    for line in text.decode('ascii').splitlines():
        # The line of a member begins with spaces, or has several after its sign.
        if line[0] != ' ' and line[2] != ' ':
            blocks.append([])
        blocks[-1].append(line)
    return blocks


def definitions_of(text: bytes) -> List[Definition]:
    """The definitions that a text of `pdbmerge_members` tells."""
    return [_definition(head, lines) for head, *lines in _blocks(text)]


def changes_of(text: bytes) -> List[Change]:
    """The changes that a text of `pdbmerge_changes` tells."""
    return [_change(head, lines) for head, *lines in _blocks(text)]
