"""What the scripts that run the program share: their command line, the program, its runs and its commands, the
checks of what came, and the containers of PDB files."""
import csv, functools, hashlib, itertools, os, pathlib, re, resource, shutil, struct, subprocess, sys, tempfile
from typing import NamedTuple

ROOT = pathlib.Path(__file__).resolve().parent.parent
sys.path.append(str(ROOT / 'tools'))
import usage

EXAMPLES = ROOT / 'examples'
# The settings of every merge of the tests, as arguments, and the bytes of the GUID in a file.
GUID_TEXT, AGE = '00112233-4455-6677-8899-aabbccddeeff', '1'
SETTINGS = ['--guid', GUID_TEXT, '--age', AGE]
MERGE = ['merge', *SETTINGS]
GUID = bytes.fromhex('33221100 5544 7766 8899aabbccddeeff')
# The status of `diff` where two files differ, and that of `members` where no type has a name.
DIFFERENT, MISSING = 3, 3
# How much of a value is printed that is not as wanted.
SHOWN_LENGTH = 2000
THE_PROGRAM = 'The program is build/pdbmerge, or the one that the variable PDBMERGE names.'


# ---- The command line

def parser(doc):
    """The parser of a script that runs the program."""
    return usage.parser(doc, THE_PROGRAM)


def refuse(message):
    """Ends the script where something that it needs is missing."""
    print(f'{usage.name()}: {message}', file=sys.stderr)
    sys.exit(2)


def program():
    """The path of the program under test."""
    path = pathlib.Path(os.environ.get('PDBMERGE') or ROOT / 'build' / 'pdbmerge').resolve()
    if not (path.is_file() and os.access(path, os.X_OK)):
        refuse(f'{path}: no such program')
    return str(path)


# ---- Runs

def run(*words, **settings):
    """Makes a run. Returns its status, and what it wrote to standard output and to standard error. The settings
    are those of `subprocess.run`."""
    settings = {'stdin': subprocess.DEVNULL, 'stdout': subprocess.PIPE, 'stderr': subprocess.PIPE, 'text': True,
                **settings}
    if settings['text']:
        settings.setdefault('errors', 'replace')
    ended = subprocess.run([word if isinstance(word, bytes) else str(word) for word in words], **settings)
    return ended.returncode, ended.stdout, ended.stderr


def run_in_one(*words, **settings):
    """Makes a run. Returns its status, and what it wrote to either stream."""
    return run(*words, stderr=subprocess.STDOUT, **settings)[:2]


# Little memory for a run.
LOW_MEMORY = 64 << 20


def limited(size):
    """What gives a new process so much address space."""
    return lambda: resource.setrlimit(resource.RLIMIT_AS, (size, size))


def failing_library(folder):
    """Compiles tests/failing.c into a folder. Returns the library that lets a call of a process fail."""
    library = pathlib.Path(folder) / 'failing.so'
    subprocess.run(['cc', '-shared', '-fPIC', '-O1', '-o', library, ROOT / 'tests' / 'failing.c', '-ldl'], check=True)
    return str(library)


def content(path):
    """The bytes of a file, or None where there is no file."""
    path = pathlib.Path(path)
    return path.read_bytes() if path.exists() else None


def sum_of(path):
    """The SHA-256 of a file, or None where there is no file."""
    data = content(path)
    return None if data is None else hashlib.sha256(data).hexdigest()


# ---- The commands of the program

# The arguments of commands that are files to read, and what stands for each other argument and required option.
INPUTS = ('FILE', 'A', 'B', 'IN')
VALUES = {'OUT': 'out.pdb', 'INDEX': '0x1000', 'N': '2', '--guid': GUID_TEXT, '--age': AGE}
# The commands that do not read one file and show something of it.
OTHERS = ('merge', 'diff', 'explain')


def help_part(text, head):
    """The lines of a help text below a head."""
    found = re.search(rf'^{head}:\n((?:  .*\n)+)', text, re.MULTILINE)
    return found[1] if found else ''


def usage_of(command):
    """The required options and the arguments of a command, as the usage in its help has them."""
    text = run(program(), command, '--help')[1]
    text = re.search(rf'^Usage: pdbmerge {command} \[OPTIONS\] (.*)$', text, re.MULTILINE)
    if not text:
        refuse(f'the help of the command {command} has no usage')
    return [option or argument for option, argument in re.findall(r'(--[a-z-]+) <\w+>|[<[](\w+)[]>]', text[1])]


@functools.cache
def commands():
    """Each command that the help of the program lists, but `help`, with its required options and its arguments."""
    names = re.findall(r'^  ([a-z]+) ', help_part(run(program(), '--help')[1], 'Commands'), re.MULTILINE)
    if 'help' not in names or len(names) < 2:
        refuse(f'the help of {program()} lists no commands')
    return {name: usage_of(name) for name in names if name != 'help'}


@functools.cache
def shown_commands():
    """The commands that read one file and show something of it. Where a command does neither that nor is one of
    OTHERS, no script has runs of it, and the script ends."""
    shown = [name for name, arguments in commands().items() if 'FILE' in arguments]
    for name in commands():
        entry_of(dict.fromkeys([*shown, *OTHERS]), name)
    return shown


def words_of(command, *files):
    """The words of a run of a command. Its arguments that are files are these, one after the other, and from the
    last one on always that one; IN are all of them."""
    words, left = [command], list(files)
    for argument in commands()[command]:
        if argument == 'IN':
            words += files
        elif argument in INPUTS:
            words.append(left.pop(0) if len(left) > 1 else left[0])
        elif argument in VALUES:
            words += [argument] * argument.startswith('--') + [VALUES[argument]]
        elif argument == 'NAME':
            # Where no name is asked for, all definitions are shown.
            continue
        else:
            refuse(f'the command {command} takes {argument}, for which VALUES has no word')
    return words


def lines_on(*files):
    """The words of each command that reads files, on these, by its name."""
    return {name: words_of(name, *files) for name, arguments in commands().items() if {*INPUTS} & {*arguments}}


def entry_of(cases, name):
    """What a table of a script has for a command, or for another name. Where it has nothing, the script ends."""
    if name not in cases:
        refuse(f'no case for: {name}')
    return cases[name]


def last_fault():
    """The greatest number of a fault, by the help of the program."""
    told = re.search(r'<N> .* from 1 to (\d+)$', run(program(), 'explain', '--help')[1], re.MULTILINE)
    return int(told[1]) if told else refuse('the help of explain tells no number of a fault')


# ---- The tables of docs/FORMAT.md

def format_rows(heading):
    """The cells of each row of the table below a heading of docs/FORMAT.md, where a row begins with the name of a
    leaf, of a member or of a kind of number."""
    part = (ROOT / 'docs' / 'FORMAT.md').read_text().partition(f'\n### {heading} (')[2].partition('\n### ')[0]
    rows = [[cell.strip() for cell in row.split(' | ')] for row in re.findall(r'^\| (LF_.*)\|$', part, re.MULTILINE)]
    return rows or refuse(f'docs/FORMAT.md has no table below the heading {heading}')


class Leaf(NamedTuple):
    """A leaf of docs/FORMAT.md: its places that are always there, what is said of others, and where its name is."""
    name: str
    kind: int
    places: tuple
    others: str
    naming: str


def leaves():
    """The leaves of docs/FORMAT.md."""
    found = []
    for names, kinds, text, naming in format_rows('Leaves'):
        fixed, others = re.fullmatch(r'(none|\d+(?:, \d+)*|)(.*)', text).groups()
        places = tuple(map(int, re.findall(r'\d+', fixed)))
        pairs = zip(names.split(', '), kinds.split(', '), strict=True)
        found += [Leaf(name, int(kind, 16), places, others, naming) for name, kind in pairs]
    return found


# ---- Checks

def shown(value):
    """A value as it is printed: texts with their line breaks, and the first part of what is long."""
    text = value if isinstance(value, str) else repr(value)
    return text[:SHOWN_LENGTH]


class Checks:
    """Counts what is held, and prints what is not as wanted."""

    def __init__(self):
        self.count, self.wrong = 0, 0

    def hold(self, what, got, wanted):
        """Compares what came with what is wanted. Returns whether they are the same."""
        self.count += 1
        if got != wanted:
            self.wrong += 1
            print(f'{what}\n  got    {shown(got)}\n  wanted {shown(wanted)}', flush=True)
        return got == wanted

    def add(self, count, wrong):
        """Adds what another script counted."""
        self.count += count
        self.wrong += wrong

    def end(self, noun='checks'):
        """Prints what was counted, and ends the script."""
        usage.end(self.count, noun, self.wrong)


class Runs(Checks):
    """Runs of the program in a folder, and checks of what they gave."""

    def __init__(self, folder):
        super().__init__()
        self.program, self.folder = program(), folder

    def put(self, name, data):
        """Makes a file. Returns its name."""
        (self.folder / name).write_bytes(data)
        return name

    def take(self, name):
        """Removes a file. Returns its bytes, or None where there is no such file."""
        taken = content(self.folder / name)
        (self.folder / name).unlink(missing_ok=True)
        return taken

    def streams(self, *words, **settings):
        """Status, standard output and standard error of a run of the program."""
        return run(self.program, *words, **{'cwd': self.folder, **settings})

    def run(self, *words, **settings):
        """Status, standard output and standard error of a run of the program, and the bytes of OUT, if it is
        there."""
        self.take('out.pdb')
        return *self.streams(*words, **settings), content(self.folder / 'out.pdb')

    def shows(self, what, text, *words):
        """Holds a run to what it prints."""
        self.hold(f'{what}: {" ".join(words)}', self.run(*words), (0, text, '', None))

    def refuses(self, what, fault, *words):
        """Holds a run to its fault."""
        self.hold(f'{what}: {" ".join(words)}', self.run(*words), (1, '', f'pdbmerge: {fault}\n', None))


def main(doc, noun, *parts):
    """Makes the runs of each part, in a folder that is new, for a script without arguments."""
    parser(doc).parse_args()
    with tempfile.TemporaryDirectory() as folder:
        runs = Runs(pathlib.Path(folder))
        for part in parts:
            part(runs)
    runs.end(noun)


# ---- Refusals

# What is said of a word that a command can't use.
WRONG_WORD = 'pdbmerge: wrong word\n'


def told(fault):
    """What standard error has of a fault."""
    return f'pdbmerge: {fault}\n'


def number_of(line):
    """The number of the fault that a refusal names."""
    return int(re.fullmatch(r'pdbmerge: (?:file \d+: |map: )?(?:index 0x[0-9a-f]+: )?(\d+) .*\n', line)[1])


def quoted(path):
    """A path as it is told: in quotes. The quote, the backslash and each byte that is not printable ASCII are
    written by their numbers."""
    plain = lambda byte: 0x20 <= byte <= 0x7E and byte not in b'"\\'
    return '"' + ''.join(chr(byte) if plain(byte) else f'\\x{byte:02x}' for byte in path.encode()) + '"'


# What the system says, in words, and what it says in the usual runs: there is no file, it is a folder, or the device is
# full.
MISSING_FILE, FOLDER, FULL = 'No such file or directory', 'Is a directory', 'No space left on device'
THERE, NO_FOLDER, NOT_REGULAR = (
    'File exists', 'Not a directory', 'it is no regular file')
USUAL = {36: FULL, 37: FOLDER, 40: MISSING_FILE, 41: MISSING_FILE}


def more(line, paths=(), refused_list=None, of=None, why=USUAL):
    """The lines that -v adds to a refusal: of an input, where the inputs have these paths, of this list, or of
    another file; of standard output where it is none of them. `why` is what the system said, or None."""
    number, counted = number_of(line), re.match(r'pdbmerge: file (\d+): ', line)
    path = paths[int(counted[1])] if counted else of if refused_list is None else refused_list
    named = f'file {counted[1]} is {quoted(path)}\n' if counted else ''
    listed = '' if refused_list is None else f'LIST is {quoted(path)}\n'
    words = why.get(number) if why is USUAL else why
    said = '' if words is None else f'{"standard output" if path is None else quoted(path)}: {words}\n'
    return f'{listed}{named}{said}pdbmerge explain {number} says more\n'


def hold_refusal(runs, what, error, given, **settings):
    """Holds a refused run to all that it writes to standard error."""
    runs.hold(f'{what}: {" ".join(given)}', runs.run(*given, **settings), (1, '', error, None))


def says_more(runs, what, line, paths, command, *others, refused_list=None, of=None, why=USUAL, **settings):
    """Holds a refusal to its line, and with -v to the lines that follow it."""
    verbose = line + more(line, paths, refused_list, of, why)
    hold_refusal(runs, what, line, [command, *others], **settings)
    for given in [command, '-v', *others], [command, '--verbose', *others], [command, *others, '-v']:
        hold_refusal(runs, what, verbose, given, **settings)


def wants(runs, what, wanted, command, *others):
    """Holds a wrong word to its line, and with -v to the line that says what is wanted there."""
    for option in '-v', '--verbose':
        answer = runs.run(command, option, *others)
        runs.hold(f'{what}: {command} {option}', answer, (2, '', f'{WRONG_WORD}{wanted}\n', None))
    runs.hold(f'{what}: {command}', runs.run(command, *others), (2, '', WRONG_WORD, None))
    answer = runs.run(command, *others, '-v')
    runs.hold(f'{what}: {command} .. -v', answer, (2, '', f'{WRONG_WORD}{wanted}\n', None))


def refused_by_parser(runs, first, *given):
    """Holds arguments that the parser refuses to the first line of its text."""
    status, text, error, file = runs.run(*given)
    what = ' '.join(given)
    runs.hold(what, (status, text, error.partition('\n')[0], file), (2, '', first, None))
    runs.hold(f'{what}: no more lines', 'wants' in error or 'says more' in error, False)


# ---- The examples, and merges of them

# A merge whose GUID is made of its types, up to its age.
BY_TYPES = ['merge', '--guid', 'types', '--age']
# Three files of examples that are merged.
LISTED = ('plain.pdb', 'memptr.pdb', 'sample.pdb')


def table_rows(folder, name='EXPECTED.tsv'):
    """The rows of a table of a folder: inputs, command, status and answer."""
    with open(folder / name, newline='') as file:
        head, *rows = csv.reader(file, delimiter='\t', quoting=csv.QUOTE_NONE)
    if head != ['input', 'command', 'status', 'answer']:
        refuse(f'{folder}/{name} has the head {head}')
    return rows


def copy_examples(runs, names):
    """Copies files of examples. Returns their names."""
    for name in names:
        shutil.copy(EXAMPLES / name, runs.folder / name)
    return list(names)


def report_of(file, records):
    """What a merge prints of its file."""
    return f'types {len(records)}\nbytes {len(b"".join(records))}\nfile {len(file)}\n'


# ---- Containers

MAGIC = b'Microsoft C/C++ MSF 7.00\r\n\x1aDS\0\0\0'
# The first type index that is no simple type.
FIRST = 0x1000


def words(*numbers):
    """Numbers of four bytes, the lowest byte first."""
    return struct.pack(f'<{len(numbers)}I', *numbers)


def superblock(block, count, length, block_map):
    """The superblock of a file with so many blocks, and a directory of this length."""
    return MAGIC + words(block, 1, count, length, 0, block_map)


def free_map(interval, count, block):
    """The map block of an interval, in a file of so many blocks: the bits of its blocks are 0."""
    used = min(max(count - 8 * block * interval, 0), 8 * block)
    return ((1 << 8 * block) - (1 << used)).to_bytes(block, 'little')


def numbers(block):
    """The numbers of the blocks that are no free block maps, as streams take them."""
    return (n for n in itertools.count() if n % block not in (1, 2))


def blocks_of(size, block):
    """How many blocks so many bytes take."""
    return -(-size // block)


def cut(data, block):
    """The bytes of each block of a stream."""
    return [data[at:at + block] for at in range(0, len(data), block)]


def length(sizes, block=4096):
    """The length of the file that `merge` writes for streams of these sizes."""
    listed = sum(blocks_of(size, block) for size in sizes)
    # The superblock and the block map come first.
    used = 2 + blocks_of(4 * (1 + len(sizes) + listed), block) + listed
    return (next(itertools.islice(numbers(block), used - 1, None)) + 1) * block


def image(sizes, lists, parts, block=4096):
    """A file with streams of these sizes. The list of a stream has the positions of its blocks in `parts`, so that
    streams may share blocks. After the superblock come the block map, the directory and then the parts."""
    size = 4 * (1 + len(sizes) + sum(map(len, lists)))
    free = numbers(block)
    next(free)
    block_map = next(free)
    room = [next(free) for _ in range(blocks_of(size, block))]
    places = [next(free) for _ in parts]
    directory = words(len(sizes), *sizes, *(places[n] for blocks in lists for n in blocks))
    count = max([block_map, *room, *places]) + 1
    blocks = {0: superblock(block, count, size, block_map), block_map: words(*room)}
    blocks |= dict(zip(room, cut(directory, block)))
    blocks |= dict(zip(places, parts))
    for first in range(0, count, block):
        blocks |= {first + 1: free_map(first // block, count, block), first + 2: b'\xff' * block}
    return b''.join(blocks[n].ljust(block, b'\0') for n in range(count))


def container(streams, block=4096):
    """The file of these streams, as docs/WRITTEN.md says."""
    parts = [cut(stream, block) for stream in streams]
    ends = list(itertools.accumulate(map(len, parts), initial=0))
    lists = [range(first, end) for first, end in zip(ends, ends[1:])]
    return image(list(map(len, streams)), lists, list(itertools.chain(*parts)), block)
