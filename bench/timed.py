"""What the benchmarks share: compiling a program in plain Rust, and timing programs."""
import collections, contextlib, multiprocessing, os, pathlib, shutil, subprocess, sys, tempfile, time

ROOT = pathlib.Path(__file__).resolve().parent.parent
sys.path.append(str(ROOT / 'tests'))
from harness import MERGE

# Seconds, processor seconds, the greatest resident memory in bytes, and the text that was printed.
Run = collections.namedtuple('Run', 'seconds processor memory text')


def compiled(folder, source):
    """The program of a source of bench/, compiled with `rustc -O` into a folder; None without rustc."""
    if not shutil.which('rustc'):
        return None
    program = os.path.join(folder, os.path.splitext(source)[0])
    path = os.path.join(os.path.dirname(os.path.abspath(__file__)), source)
    subprocess.run(['rustc', '--edition', '2021', '-O', '-o', program, path], check=True)
    return program


def aside(function, *values):
    """Calls a function in a process of its own: what this process once held would count as the
    greatest memory of each program that it runs."""
    process = multiprocessing.get_context('fork').Process(target=function, args=values)
    process.start()
    process.join()
    if process.exitcode:
        sys.exit(f'{function.__name__}: status {process.exitcode}')


def llvm_pdbutil():
    """The program llvm-pdbutil, which is installed if it can be. None where there is none."""
    for package in (None, 'llvm', 'llvm-14'):
        if package and shutil.which('apt-get'):
            words = ['apt-get', 'install', '-y', package]
            subprocess.run(words, stdout=subprocess.DEVNULL, stderr=subprocess.DEVNULL)
        program = shutil.which('llvm-pdbutil') or shutil.which('llvm-pdbutil-14')
        if program:
            return program
    print('llvm-pdbutil is not there and was not installed: pdbmerge is timed alone')
    return None


def written(folder, name, write, *values):
    """The four files of a set that is made, each written by this function."""
    files = [os.path.join(folder, f'{name}{number}.pdb') for number in range(4)]
    for number, file in enumerate(files):
        aside(write, file, number, *values)
    return files


def unpacked(source, folder):
    """The PDB files of a folder, or of an archive, which is unpacked somewhere in `folder`."""
    if not os.path.isdir(source):
        archive, source = source, tempfile.mkdtemp(dir=folder)
        aside(shutil.unpack_archive, archive, source)
    found = (os.path.join(place, name) for place, _, names in os.walk(source) for name in names)
    return sorted(path for path in found if path.lower().endswith('.pdb'))


def merging(pdbmerge, out, files):
    """The words that make pdbmerge merge these files."""
    return [pdbmerge, *MERGE, out, *files]


def run(words, out=None, status=0):
    """One run, which has to end with this status, or one of these. Where `out` names a file,
    standard output goes there, and the text is empty."""
    with open(out, 'wb') if out else contextlib.nullcontext(subprocess.PIPE) as to:
        begin = time.perf_counter()
        child = subprocess.Popen(words, stdout=to, stderr=subprocess.DEVNULL if status else None)
        text = '' if out else child.stdout.read().decode()
        _, ended, usage = os.wait4(child.pid, 0)
        seconds = time.perf_counter() - begin
    child.returncode = os.waitstatus_to_exitcode(ended)
    if child.returncode not in (status if isinstance(status, tuple) else (status,)):
        sys.exit(f'{" ".join(words)}: status {child.returncode}, not {status}')
    return Run(seconds, usage.ru_utime + usage.ru_stime, usage.ru_maxrss * 1024, text)


# Starts a program from a process that holds little, and prints the greatest memory of it in kilobytes.
STARTER = '''import os, sys
child = os.fork()
if child == 0:
    os.execv(sys.argv[1], sys.argv[1:])
_, ended, usage = os.wait4(child, 0)
os.write(2, b'%d' % usage.ru_maxrss)
os._exit(ended != 0)'''


def peak(words, out):
    """The greatest resident memory of a run in bytes. Standard output goes to this file. The memory of
    a process begins with what the one holds that starts it. So a small one starts it, which holds
    about 5 MB; `run` can't tell less than the script itself holds."""
    with open(out, 'wb') as to:
        words = [sys.executable, '-I', '-S', '-c', STARTER, *words]
        ended = subprocess.run(words, stdout=to, stderr=subprocess.PIPE, text=True)
    if not ended.stderr.strip().isdigit():
        sys.exit(f'{" ".join(words[5:])}: {ended.stderr}')
    return int(ended.stderr.split()[-1]) * 1024


def best_of(runs, out=None, times=5, status=0):
    """For each name the best of some runs: the least seconds and processor seconds, the greatest
    memory, the last text. Each command is run once in a turn, so that none has a quieter machine."""
    best = {}
    for _ in range(times):
        for name, words in runs.items():
            now = run(words, out, status)
            old = best.get(name, now)
            best[name] = Run(
                min(old.seconds, now.seconds), min(old.processor, now.processor), max(old.memory, now.memory), now.text
            )
    return best
