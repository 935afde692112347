"""What the scripts share that test a build for another system: the scripts of tests/ on that build, and counts."""
import os, pathlib, re, subprocess, sys
from harness import EXAMPLES, FIRST, ROOT, container
from small_files import pointer, written

# The folders that have a table of answers.
TABLES = ['examples', 'examples/faults', 'examples/differences']
# The scripts of tests/ that ask a program for nothing but answers, by what they try.
SCRIPTS = {'help': 'help and usage', 'rows': 'files that are known byte by byte', 'guid': 'GUIDs of types',
           'difference': 'what differs, beside another way to find it', 'maps': 'maps of inputs',
           'members': 'definitions and their members', 'cookbook': 'the commands of the pages'}
# The records of a file, each of which names itself: enough for a text that is cut.
CYCLES = 100
# How a test ends.
ENDS = re.compile(r'(\d+) (\w+), (\d+) not as wanted$', re.MULTILINE)


class Port:
    """A build, by the name that `make` and `tests/ports` have for it. Each part of its test counts what it tried,
    and what was not as wanted. tests/ports reads these lines."""

    def __init__(self, name):
        self.name, self.wrong = name, 0

    def count(self, part, count, noun, wrong):
        """Prints the line of a part. A part that tried nothing is not as wanted."""
        print(f'{self.name}: {part}: {count} {noun}, {wrong} not as wanted', flush=True)
        self.wrong += wrong + (count == 0)

    def counted(self, part, *words, **variables):
        """Runs a test, and counts what it counts in its last line. What it prints is shown where something was not as
        wanted."""
        ended = subprocess.run([str(word) for word in words], cwd=ROOT, env={**os.environ, **variables}, text=True,
                               errors='replace', stdin=subprocess.DEVNULL, stdout=subprocess.PIPE,
                               stderr=subprocess.STDOUT)
        told = ENDS.findall(ended.stdout)
        count, noun, wrong = (int(told[-1][0]), told[-1][1], int(told[-1][2])) if told else (0, 'runs', 1)
        if ended.returncode or wrong:
            print(ended.stdout)
        self.count(part, count, noun, max(wrong, int(ended.returncode != 0)))

    def script(self, part, program, *words):
        """Runs a script of tests/ on a program of this build, as tests/examples, and counts what it counted."""
        self.counted(part, ROOT / 'tests' / words[0], *words[1:], PDBMERGE=str(program))

    def tables(self, what, program):
        """Asks a program for every row of the tables of examples/."""
        for table in TABLES:
            self.script(f'{what}, every row of {table}', program, 'examples', table)

    def scripts(self, program, names=SCRIPTS):
        """Runs scripts of tests/ on a program."""
        for name in names:
            self.script(SCRIPTS[name], program, name)

    def library(self, run, folder):
        """Runs the tests in C and C++ of the library. `run` gives what runs a test, by its name."""
        cycles, empty = folder / 'cycles.pdb', folder / 'empty.pdb'
        cycles.write_bytes(written([pointer(FIRST + k) for k in range(CYCLES)]))
        empty.write_bytes(container([]))
        chains = EXAMPLES / 'chain-200.1.pdb', EXAMPLES / 'chain-200.2.pdb'
        others = EXAMPLES / 'memptr.pdb', EXAMPLES / 'data.pdb'
        refused = EXAMPLES / 'faults' / '34-cycle-led-into.pdb'
        self.counted('the library, each failing allocation', run('failing'), *chains, refused)
        self.counted('the library, too little room', run('room'), *others, cycles, CYCLES, empty)
        self.counted('the library, many threads', run('threads'), *chains)
        self.counted('the library, maps of a merge', run('maps'), *others)

    def end(self):
        sys.exit(1 if self.wrong else 0)


def write_program(path, text):
    """Writes a script that can be run. Returns its path."""
    path = pathlib.Path(path)
    path.write_text(text)
    path.chmod(0o755)
    return path
