"""The proved programs: where `rt` puts them, whether one can be run, and whether it was built from the sources as they are."""
import os
import pathlib
import subprocess
import sys

ROOT = pathlib.Path(__file__).resolve().parent.parent


def program(name):
    """Where `rt run` in the crate's folder puts the program, and `rt ci` too."""
    return ROOT / 'crates' / name / 'out' / name


def build(name):
    """Proves and builds the program, and has it read its crate's stdin; what went wrong, '' if nothing did."""
    folder = ROOT / 'crates' / name
    given = folder / 'stdin'
    with open(given if given.exists() else os.devnull, 'rb') as stdin:
        ran = subprocess.run(['rt', 'run'], cwd=folder, stdin=stdin, stdout=subprocess.DEVNULL, stderr=subprocess.PIPE, text=True, errors='replace')
    return f'`rt run` in crates/{name} failed: run it to see why.' if ran.returncode else ''


def unusable(path):
    """What is wrong with a program that cannot be run, '' if nothing is."""
    if not path.is_file():
        return 'is not a file' if path.exists() else 'is not there'
    return '' if path.suffix == '.py' or os.access(path, os.X_OK) else 'is not executable'


def wanted(path):
    """A sentence for whoever has to build a program of a crate first, '' if it can be run; warns if a source is newer than it."""
    wrong, own = unusable(path), path == program(path.name)
    if wrong:
        name = path.name if own else 'rounds'
        shown = path.relative_to(ROOT) if own else path
        return f'The program {shown} {wrong}: `rt run` in crates/{name} proves and builds {program(name).relative_to(ROOT)}, and runs it.'
    sources = (it for it in ROOT.glob('crates/*/*/**/*') if it.suffix in ('.rt', '.antt') and 'out' not in it.parts)
    newer = next((it for it in sources if own and it.stat().st_mtime > path.stat().st_mtime), None)
    if newer:
        print(f'{path.name} is older than {newer.relative_to(ROOT)}: `rt run` in crates/{path.name} builds it again if it is to. Going on with it as it is.',
              file=sys.stderr)
    return ''
