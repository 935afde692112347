"""The kit's own steps, for scripts that compile one crate over the libraries that `rt ci` or `make` left."""
import os, pathlib, shutil, sys
from usage import ROOT, name

# The folder is another one later, so the path of the script is told now.
SCRIPT = name()


def refuse(message):
    sys.exit(f'{SCRIPT}: {message}')


def kit():
    """The kit's module of steps. RT is the kit's command, `rt` where it is not set."""
    command = shutil.which(os.environ.get('RT', 'rt'))
    if command is None:
        refuse('there is no kit')
    sys.path.insert(0, str(pathlib.Path(command).resolve().parent))
    import rtlib
    return rtlib


def crate_of(name):
    """A crate by its name. Its folder is the one that the script is in from then on, as the kit wants it."""
    found = [one for one in kit().crates_below(str(ROOT)) if one.name == name]
    if not found:
        refuse(f'{name}: no such crate')
    os.chdir(found[0].folder)
    return found[0]


def jobs():
    return ['--jobs', str(min(4, len(os.sched_getaffinity(0))))]


def build(crate, toolchain, out, *more):
    """Proves a crate again, and compiles it with the compiler of a folder. Ends the script where that fails."""
    words = [*crate.words(jobs()), '--backend', 'llvm', '--toolchain', str(toolchain), *more]
    if crate.call(kit().RATTLE, 'build', *words, *kit().KEPT, '-o', str(out)):
        refuse(f'{crate.name} was not compiled')
