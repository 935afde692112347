"""Wrong bodies and their controls: what an edit changes, and which of them can be tried in one check."""
import functools, pathlib, re
from typing import NamedTuple

# Where the edits of a crate are. Those of must-fail/ are tried by `rt ci` too.
FOLDERS = ('wrong', 'must-fail')
# A line that begins a function, in the layout of `rt fmt`.
HEAD = re.compile(r'( *)(?:pub(?:\([^)]*\))? )?(?:const |unsafe |extern "C" )*fn (\w+)')
CONTAINER = re.compile(r'(?:unsafe )?impl\b|(?:pub(?:\([^)]*\))? )?trait\b')
CYCLE = re.compile(r' *#\[cycle\((\w+)\)\]')


class BadEdit(Exception):
    """An edit that can't be tried, and why."""


class Function(NamedTuple):
    """A function of a crate: its file below src/, the numbers of its first line, of the first line of its body and of
    its last line, its name as a check tells it, and the cycle of calls that is proved with it, or again its name."""
    file: str
    start: int
    body: int
    last: int
    name: str
    proof: str

    def bare(self):
        return self.name.rpartition('::')[2]

    def holds(self, file, line):
        return self.file == file and self.start <= line <= self.last


# ---- The functions of a file

def word_of(type_text):
    """A type as the names of a check have it: `&'a [u8]` is RefSliceU8, `Canon<A>` is Canon."""
    text = re.sub(r"'\w+ ?|\bmut |\b\w+::", '', type_text)
    while (shorter := re.sub(r'<[^<>]*>', '', text)) != text:
        text = shorter
    signs = {'&': 'Ref', '[': 'Slice'}
    parts = re.findall(r'[&[]|\w+', text)
    return ''.join(signs.get(part) or part[:1].upper() + part[1:] for part in parts)


def container_of(head):
    """How the names of a check call the `impl` or the `trait` that begins with these words."""
    text = head.partition(' where ')[0].removesuffix('{').strip()
    if not re.match(r'(?:unsafe )?impl\b', text):
        return re.search(r'\btrait (\w+)', text)[1]
    text = re.sub(r'^(?:unsafe )?impl', '', text)
    depth, start = 0, 0
    if text.startswith('<'):
        for start, sign in enumerate(text, 1):
            depth += (sign == '<') - (sign == '>' and text[start - 2] != '-')
            if not depth:
                break
    trait, of, kind = text[start:].rpartition(' for ')
    return word_of(kind) + (word_of(trait) if of else '')


def module_of(file):
    """The path of the module that a file below src/ holds."""
    return [part for part in file[:-len('.rt')].split('/') if part not in ('lib', 'main', 'mod')]


def functions_of(crate, file, lines):
    """The functions of a file, in the layout of `rt fmt`: a function ends at the first line that is a brace under its
    head, and its body begins at the last line so far indented that ends with a brace."""
    found, container = [], None
    for at, line in enumerate(lines):
        if CONTAINER.match(line):
            container = container_of(' '.join(lines[at:next_brace(lines, at) + 1]))
        elif line == '}':
            container = None
        if not (head := HEAD.match(line)):
            continue
        indent, name = head[1], head[2]
        last = next((k for k in range(at, len(lines)) if lines[k] == f'{indent}}}'), None)
        if last is None or any(HEAD.match(it) and HEAD.match(it)[1] == indent for it in lines[at + 1:last]):
            continue
        first = next(k for k in range(at, last) if lines[k].endswith('{') and re.match(rf'{indent}\S', lines[k]))
        path = '::'.join([crate, *module_of(file), *([container] if indent and container else []), name])
        top = first_above(lines, at)
        cycle = next((CYCLE.match(it)[1] for it in lines[top:at] if CYCLE.match(it)), None)
        found.append(Function(file, top + 1, first + 2, last + 1, path, cycle or path))
    return found


def next_brace(lines, at):
    return next(k for k in range(at, len(lines)) if lines[k].endswith('{') or lines[k].endswith('}'))


def first_above(lines, at):
    """The first of the comments and attributes that stand right above a line, or that line."""
    while at and re.match(r' *(#\[|//)', lines[at - 1]):
        at -= 1
    return at


class Sources:
    """The files of a crate, by lines, and their functions."""

    def __init__(self, name, folder):
        self.name, self.folder = name, pathlib.Path(folder)

    @functools.cache
    def lines(self, file):
        path = self.folder / 'src' / file
        if not path.is_file():
            raise BadEdit(f'there is no file src/{file}')
        return path.read_text().split('\n')

    @functools.cache
    def functions(self):
        files = sorted(path.relative_to(self.folder / 'src').as_posix() for path in self.folder.glob('src/**/*.rt'))
        return [one for file in files for one in functions_of(self.name, file, self.lines(file))]

    def function_at(self, file, line):
        """The function whose body has this line."""
        for one in self.functions():
            if one.holds(file, line) and one.body <= line < one.last:
                return one
        raise BadEdit(f'line {line} of src/{file} is in no body of a function')

    @functools.cache
    def called(self, function):
        """The bare names of what a function calls."""
        body = '\n'.join(self.lines(function.file)[function.body - 1:function.last])
        return set(re.findall(r'(\w+)(?:::<[^;{}]*?>)?\(', body))

    @functools.cache
    def answers(self, function):
        """Whether a return of a function is proved by hand."""
        *above, name = function.name.split('::')[1:]
        name = name if function.proof == function.name else f'+{function.proof}'
        path = self.folder.joinpath('proofs', *above, name, 'Answers.antt')
        return path.is_file() and re.search(r'^pub returns', path.read_text(), re.MULTILINE) is not None


# ---- An edit

class Edit:
    """A wrong body, or a control of one: the lines that it changes, all of them in bodies of functions. `why` says why
    it can't be tried, where that is so."""

    def __init__(self, sources, path):
        self.sources, self.path, self.is_control = sources, path, path.suffix == '.right'
        self.name = f'{sources.name}/{path.name}'
        self.changed, self.functions, self.why = {}, [], None
        try:
            self.read()
        except BadEdit as error:
            self.why = str(error)

    def read(self):
        """Takes the lines `file: src/NAME`, `old: TEXT` and `new: TEXT`: an old text stands once in its file, as the
        edits before it left that."""
        file = old = None
        for line in self.path.read_text().splitlines():
            word, _, text = line.partition(': ' if not line.endswith('new:') else ':')
            if word == 'file' and text.startswith('src/'):
                file = text.removeprefix('src/')
            elif word == 'old':
                old = text
            elif word == 'new' and file and old:
                self.change(file, old, text)
            else:
                raise BadEdit(f'no line of an edit of src/: {line[:60]}')
        if not self.changed:
            raise BadEdit('it changes nothing')
        found = {self.sources.function_at(*place) for place in self.changed}
        self.functions = sorted(found)

    def change(self, file, old, new):
        lines = [self.changed.get((file, number), line) for number, line in enumerate(self.sources.lines(file), 1)]
        found = [number for number, line in enumerate(lines, 1) if old in line]
        if len(found) != 1 or lines[found[0] - 1].count(old) != 1:
            raise BadEdit(f'an old text is not once in src/{file}: {old[:60]}')
        self.changed[file, found[0]] = lines[found[0] - 1].replace(old, new)

    def proofs(self):
        return {one.proof for one in self.functions}

    def wants_control(self):
        """Whether it returns on a path of its own where returns are proved by hand: no answer is there for that path,
        so the prover may refuse the right value too."""
        if not any(self.sources.answers(one) for one in self.functions):
            return False
        return any(count_returns(text) > count_returns(self.sources.lines(file)[number - 1])
                   for (file, number), text in self.changed.items())

    def control(self):
        return self.path.parent.parent / 'wrong' / f'{self.path.stem}.right'


def count_returns(text):
    return len(re.findall(r'\breturn\b', text))


def edits_of(sources):
    """The edits of a crate and their controls, by their names."""
    paths = [path for folder in FOLDERS for path in sources.folder.glob(f'{folder}/*.*')]
    return [Edit(sources, path) for path in sorted(paths, key=lambda it: (it.stem, it.suffix))]


# ---- Rounds

def go_together(one, other):
    """Whether two edits can be tried in one check: they change other functions, and none calls one of the other's. A
    function that calls a refused one may be told as no more than that."""
    if one.proofs() & other.proofs():
        return False
    calls = lambda a, b: any(f.bare() in a.sources.called(g) for g in a.functions for f in b.functions)
    return not calls(one, other) and not calls(other, one)


def rounds_of(edits):
    """Shares out edits over checks: those of the functions that have the most first."""
    many = lambda edit: max(sum(proof in other.proofs() for other in edits) for proof in edit.proofs())
    rounds = []
    for edit in sorted(edits, key=lambda it: (-many(it), it.name)):
        fit = next((part for part in rounds if all(go_together(edit, other) for other in part)), None)
        if fit is None:
            rounds.append(fit := [])
        fit.append(edit)
    return rounds
