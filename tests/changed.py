"""Which definitions two files differ in, and how `diff --members` tells it, as docs/COMMANDS.md says."""
from collections import Counter
from typing import NamedTuple
from small_files import UNIQUE
from words import DEFINED, declares, definition_parts, kind_and_body, name_at, name_place, properties_of


class Definition(NamedTuple):
    """What is compared of a definition: its key, what its head says before its size, its size or the type of its
    values, and the lines of its members."""
    key: tuple
    title: str
    size: str
    members: tuple

    def lines(self):
        return self.title + self.size, *self.members


def key_of(record):
    """The kind of a record, and its unique name, or its name where it has none or none can be read."""
    name, end = name_place(record)
    kind, body = kind_and_body(record)
    has_unique = name is not None and properties_of(record) & UNIQUE
    unique = name_at(body, end)[0] if has_unique else None
    return kind, name or b'' if unique is None else unique


def definitions_of(records):
    """The definitions of some records, each once, in the order of their first records."""
    found = {}
    for position, record in enumerate(records):
        if kind_and_body(record)[0] in DEFINED and not declares(record):
            found[Definition(key_of(record), *definition_parts(records, position))] = None
    return list(found)


def whole(sign, definition):
    """A definition that came or went."""
    return [f'{sign} {line}' for line in definition.lines()]


def halves(old, new):
    """A definition that changed."""
    grown = f' -> {new.size}' * (old.size != new.size)
    lost = [f'  - {line}' for line in old.members if line not in new.members]
    gained = [f'  + {line}' for line in new.members if line not in old.members]
    return [f'~ {old.title}{old.size}{grown}', *lost, *gained]


def changes(one, other):
    """The lines for the definitions of two files."""
    lone = [[it for it in some if it not in others] for some, others in ((one, set(other)), (other, set(one)))]
    counts, others = (Counter(it.key for it in some) for some in lone)
    changed = {key for key in counts if counts[key] == others[key] == 1}
    new = {it.key: it for it in lone[1] if it.key in changed}
    told = [halves(it, new[it.key]) if it.key in changed else whole('-', it) for it in lone[0]]
    told += [whole('+', it) for it in lone[1] if it.key not in changed]
    return sum(told, [])
