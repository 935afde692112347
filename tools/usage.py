"""The command line of a script, as the docstring of the script tells it, and its end."""
import argparse, pathlib, sys

ROOT = pathlib.Path(__file__).resolve().parent.parent


def name():
    """The path of the script that runs, from the top of the repository."""
    return pathlib.Path(sys.argv[0]).resolve().relative_to(ROOT).as_posix()


def parser(doc, end=None):
    """A parser whose help is this docstring: its second paragraph is the usage. Wrong words end the script with
    the usage and the status 2."""
    what, usage, *rest = doc.split('\n\n')
    return argparse.ArgumentParser(
        prog=name(), usage=usage.removeprefix('usage: '), description='\n\n'.join([what, *rest]), epilog=end,
        formatter_class=argparse.RawDescriptionHelpFormatter, allow_abbrev=False)


def end(count, noun, wrong):
    """Prints what a script counted, and ends it: with 1 where something was not as wanted, or nothing was looked at."""
    print(f'{name()}: {count} {noun}, {wrong} not as wanted')
    sys.exit(1 if wrong or not count else 0)
