#!/usr/bin/python3
"""Merges PDB files on a Dask cluster. The result has the bytes of one merge on one machine.

usage: merge_dask.py [--send] [--fan-in N] [--program P] [--map MAP] [--skip-refused] --guid G --age N
                     SCHEDULER OUT IN...

SCHEDULER is the address of the scheduler, for example tcp://host:8786. Each worker needs the program,
which is `pdbmerge`, or what --program names. The Debian package is python3-distributed.

The files are merged in a tree: N of them (8, if nothing else is said) into one, N of these into one,
and so on. Each merge is a task that depends on its inputs alone. So it doesn't matter which worker
runs it, or how often: if a worker is lost, the scheduler runs its tasks again somewhere else, and the
bytes are the same.

Without --send the workers read IN by its path, so it has to have the same path on all machines, and
its contents must not change meanwhile. With --send the client reads the files and sends their bytes.
Merged bytes go from worker to worker, and the last ones to the client. The client writes them to a
temporary name in the folder of OUT, and renames it.

With --map the file MAP gets the map of one merge of all files, in the same way. Each task follows the
maps of the tasks before it through its own, as the script `follow` in the folder above this one does.

With --skip-refused a file that has a fault of its own is left out, as one merge does it: the lines on
standard error have the positions among all files, the report has the number of these files, and the
status is 4.

If a file is refused, the client merges all files itself, as one merge. So the line of the refusal, its
position and the status are those of this one merge. So it is too where MAP can't be written, and where
it is OUT, an input or no plain file, no task is made. The status is 3 if the cluster fails: it can't be
reached, a worker lacks the program, or a task has lost more workers than the scheduler allows (three,
if nothing else is configured)."""
import argparse, collections, io, logging, os, pathlib, re, runpy, subprocess, sys, tempfile

from distributed import Client

# The status of a merge that left out files.
LEFT_OUT = 4
FOLLOW = pathlib.Path(__file__).resolve().parent.parent / 'follow'


# What a merge gave: its report and its bytes, how many files they are of, the map of these files or None, and the
# files that were left out, each with its position and its fault.
Merged = collections.namedtuple('Merged', 'report contents count map left_out')


def left_out_in(text):
    """The files that lines of standard error tell of."""
    return [(int(position), fault) for position, fault in re.findall(r'^file (\d+): (.*)$', text.decode(), re.MULTILINE)]


def gathered(inputs):
    """The files that earlier merges left out, with their positions among the files of all these merges."""
    found, before = [], 0
    for earlier in inputs:
        found += [(before + position, fault) for position, fault in earlier.left_out]
        before += earlier.count
    return found


def merge(settings, skips, follow, inputs):
    """One merge, or None if it is refused. An input is a path, or bytes, or what an earlier merge gave; only
    others than these are left out. There is no map where there is no function that follows maps."""
    if None in inputs:
        return None
    is_first = not isinstance(inputs[0], tuple)
    with tempfile.TemporaryDirectory() as folder:
        paths = []
        for number, contents in enumerate(inputs):
            if isinstance(contents, str):
                paths.append(contents)
                continue
            paths.append(os.path.join(folder, f'{number}.pdb'))
            with open(paths[-1], 'wb') as file:
                file.write(contents if is_first else contents.contents)
        out, mapping = pathlib.Path(folder, 'merged.pdb'), pathlib.Path(folder, 'map')
        given = [f'--map={mapping}'] if follow else []
        given += ['--skip-refused'] if skips and is_first else []
        done = subprocess.run([*settings, *given, '--', out, *paths], stdin=subprocess.DEVNULL, capture_output=True)
        if done.returncode not in (0, LEFT_OUT):
            return None
        merged, lines = out.read_bytes(), mapping.read_bytes() if follow else None
    if is_first:
        return Merged(done.stdout, merged, len(inputs), lines, left_out_in(done.stderr))
    if follow:
        lines = b''.join(follow(io.BytesIO(lines), ((earlier.count, io.BytesIO(earlier.map)) for earlier in inputs)))
    left_out = gathered(inputs)
    report = done.stdout + (b'refused %d\n' % len(left_out) if skips else b'')
    return Merged(report, merged, sum(earlier.count for earlier in inputs), lines, left_out)


def merge_tree(client, settings, skips, follow, inputs, fan_in):
    """What the last merge of the tree gives."""
    while True:
        groups = [inputs[at:at + fan_in] for at in range(0, len(inputs), fan_in)]
        inputs = [client.submit(merge, settings, skips, follow, group) for group in groups]
        if len(inputs) == 1:
            return inputs[0].result()


def write_whole(path, contents):
    """Writes a file under a temporary name, and renames it."""
    part = tempfile.NamedTemporaryFile(dir=os.path.dirname(path), prefix='.merge_dask.', delete=False)
    try:
        with part:
            part.write(contents)
        # A temporary file can be read by its owner alone; a new file has the rights that are usual.
        mask = os.umask(0)
        os.umask(mask)
        os.chmod(part.name, 0o666 & ~mask)
        os.replace(part.name, path)
    except BaseException:
        os.unlink(part.name)
        raise


def is_taken(path, others):
    """Whether MAP is one of these paths, or is there and no plain file."""
    def is_one(other):
        return path == other or os.path.exists(path) and os.path.exists(other) and os.path.samefile(path, other)

    return os.path.exists(path) and not os.path.isfile(path) or any(map(is_one, others))


def writes_map(path, others, lines):
    """Writes MAP, if it can be written, and is none of these paths. Returns whether it did."""
    if is_taken(path, others):
        return False
    try:
        write_whole(os.path.abspath(path), lines)
    except OSError:
        return False
    return True


def arguments():
    parser = argparse.ArgumentParser(description='Merges PDB files on a Dask cluster.')
    parser.add_argument('--send', action='store_true', help='send the bytes of the files to the workers')
    parser.add_argument('--fan-in', type=int, default=8, metavar='N', help='how many files a task merges (8)')
    parser.add_argument('--program', default='pdbmerge', metavar='P', help='the program on the workers and here (pdbmerge)')
    parser.add_argument('--map', metavar='MAP', help='write the map of all files into MAP')
    parser.add_argument('--skip-refused', action='store_true', help='leave out files that have a fault of their own')
    parser.add_argument('--guid', required=True, metavar='G')
    parser.add_argument('--age', required=True, metavar='N')
    parser.add_argument('scheduler', metavar='SCHEDULER')
    parser.add_argument('out', metavar='OUT')
    parser.add_argument('inputs', nargs='+', metavar='IN')
    words = parser.parse_args()
    if words.fan_in < 2:
        parser.error('--fan-in has to be 2 or more')
    return words


def merge_here(settings, words):
    """One merge of all files by the client, as which the script ends."""
    given = [] if words.map is None else [f'--map={words.map}']
    given += ['--skip-refused'] if words.skip_refused else []
    sys.exit(subprocess.run([*settings, *given, '--', words.out, *words.inputs]).returncode)


def main():
    words = arguments()
    # A client that ends leaves futures that nobody waits for, and says so on standard error.
    logging.getLogger('asyncio').setLevel(logging.CRITICAL)
    settings = [words.program, 'merge', '--guid', words.guid, '--age', words.age]
    paths = [os.path.abspath(name) for name in words.inputs]
    # One merge refuses OUT and inputs, and gives a stream nothing but the map.
    named = ['/dev/stdout', '/dev/stderr', words.out, *words.inputs]
    if words.map is not None and is_taken(words.map, named):
        merge_here(settings, words)
    follow = runpy.run_path(str(FOLLOW))['followed'] if words.map is not None else None
    merged = None
    # A file that the client can't read is refused below, by the merge of all files.
    if not words.send or all(os.access(path, os.R_OK) and os.path.isfile(path) for path in paths):
        inputs = [pathlib.Path(path).read_bytes() for path in paths] if words.send else paths
        try:
            with Client(words.scheduler, timeout='30s') as client:
                merged = merge_tree(client, settings, words.skip_refused, follow, inputs, words.fan_in)
        except Exception as error:
            print(f'merge_dask.py: the cluster fails: {error}', file=sys.stderr)
            sys.exit(3)
    if merged is None:
        merge_here(settings, words)
    write_whole(os.path.abspath(words.out), merged.contents)
    if follow and not writes_map(words.map, named, merged.map):
        merge_here(settings, words)
    for position, fault in merged.left_out:
        print(f'file {position}: {fault}', file=sys.stderr)
    sys.stdout.buffer.write(merged.report)
    sys.exit(LEFT_OUT if merged.left_out else 0)


main()
