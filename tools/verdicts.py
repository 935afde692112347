"""What a check of a crate says of its functions."""
import re
from typing import NamedTuple

LINE = re.compile(r'^fn (\S+): (.*)$', re.MULTILINE)
# An open goal, where it is in the source, and its name.
GOAL = re.compile(r'^note: src/(\S+?):(\d+):\d+: .*\(`([^`]+)`\)', re.MULTILINE)
ERROR = re.compile(r'^(?:\./)?src/(\S+?):(\d+):\d+: error\b(.*)$|^error\b(.*)\n *--> src/(\S+?):(\d+):', re.MULTILINE)
UNPROVED = re.compile(r'`search` did not prove ((?:`[^`]+`(?:, )?)+)')
# It rests on a function that is refused; or the prover met a limit of its own, as that of memory.
MASKED = re.compile(r'which (?:is|are) not proved|it waits for the proof of')
NO_VERDICT = re.compile(r'^could not tell|ran out of|outgrew the|stopped at the')


class Verdict(NamedTuple):
    """What a check says of a function: `proved`, `open` with the names of its open goals, `misfit` where no goal is left
    open and an answer no longer fits, `masked` where nothing is said of its own body, or `unknown`; and why."""
    kind: str
    goals: frozenset = frozenset()
    why: str = ''


class Said:
    """What a check printed."""

    def __init__(self, text, status):
        self.text, self.status = text, status
        self.lines = dict(LINE.findall(text))

    def reached_the_prover(self):
        last = self.text.rstrip('\n').rpartition('\n')[2]
        return self.status == 0 or self.status == 1 and last.startswith('logic=not-proved')

    def last_line(self):
        return self.text.rstrip('\n').rpartition('\n')[2]

    def goals(self):
        """The place of each open goal, and its name."""
        return [(file, int(line), name) for file, line, name in GOAL.findall(self.text)]

    def errors(self):
        """The place of each error in a source, and what it is."""
        return [(one[1] or one[5], int(one[2] or one[6]), (one[3] or one[4]).strip(': ')) for one in ERROR.finditer(self.text)]

    def of(self, function):
        """The verdict on a function."""
        line = self.lines.get(function.name)
        if line is None:
            return Verdict('unknown', why='the check names no such function')
        goals = {name for file, at, name in self.goals() if function.holds(file, at)}
        if found := UNPROVED.search(line):
            goals |= set(re.findall('`([^`]+)`', found[1]))
        if goals:
            return Verdict('open', frozenset(goals))
        if line == 'proved':
            return Verdict('proved')
        if NO_VERDICT.search(line):
            return Verdict('unknown', why=line[:200])
        return Verdict('masked' if MASKED.search(line) else 'misfit', why=line[:200])

    def strays(self, edits):
        """The functions that have an open goal and that none of these edits changes."""
        ours = [function for edit in edits for function in edit.functions]
        return sorted({f'src/{file}:{line}' for file, line, _ in self.goals()
                       if not any(function.holds(file, line) for function in ours)})


def joined(verdicts):
    """The verdict on all functions that one edit changes."""
    goals = frozenset().union(*(one.goals for one in verdicts))
    if goals:
        return Verdict('open', goals)
    for kind in ('unknown', 'masked', 'misfit'):
        for one in verdicts:
            if one.kind == kind:
                return one
    return Verdict('proved')
