"""Types by what they mean: a record whose type indices are replaced by the types that they name, down to the simple
types. Such trees are numbered here, so that they can be compared. Where a record names others is told by
tests/damage.py, from docs/FORMAT.md."""
from damage import places_of, records_of, streams_of, u32_at
from harness import FIRST
from small_files import CONST, INT, pointer, procedure


class Numbers:
    """One number for each type. Two records have the same number if they are the same type."""

    def __init__(self):
        self.numbers = {}

    def of_file(self, records):
        """The number of the type of each record. A record is its bytes without type indices, and the
        indices. Those that a record names are numbered first, in whatever order they come."""
        found, open_records = {}, list(range(len(records)))[::-1]
        while open_records:
            k = open_records[-1]
            blank, named = records[k]
            missing = [to - FIRST for to in named if to >= FIRST and to - FIRST not in found]
            if k in found or not missing:
                found.setdefault(k, self.numbers.setdefault(
                    (blank, tuple(('type', found[to - FIRST]) if to >= FIRST else ('simple', to) for to in named)), len(self.numbers)))
                open_records.pop()
            else:
                open_records += missing
        return [found[k] for k in range(len(records))]


def blank_records(file):
    """The records of a sound file, as they are numbered."""
    found = []
    for record in records_of(streams_of(file)[1][2]):
        blank, named = bytearray(record), []
        for place in places_of(record):
            # The body begins after the first four bytes.
            named.append(u32_at(record, 4 + place))
            blank[4 + place:8 + place] = bytes(4)
        found.append((bytes(blank), named))
    return found


def random_records(choose, count):
    """Records that name each other without a cycle, in any order, some of them several times."""
    made = []
    for k in range(count):
        named = lambda: choose.choice([INT, 0x75, *([FIRST + choose.randrange(k)] * 4 if k else [])])
        made.append(choose.choice([
            lambda: pointer(named()), lambda: procedure(named(), named()),
            lambda: CONST[:4] + named().to_bytes(4, 'little') + CONST[8:]])())
    order = list(range(count))
    choose.shuffle(order)
    place = {old: new for new, old in enumerate(order)}
    moved = []
    for old in order:
        record = made[old]
        for at in [4] if record[2:4] != b'\x08\x10' else [4, 12]:
            to = int.from_bytes(record[at:at + 4], 'little')
            if to >= FIRST:
                record = record[:at] + (FIRST + place[to - FIRST]).to_bytes(4, 'little') + record[at + 4:]
        moved.append(record)
    return moved + [choose.choice(moved) for _ in range(choose.randrange(4)) if moved]
