"""What `./run` and `./class` share: the path that a call names, the proved programs, and a text turned into a sheet."""
import os
import re
import subprocess
import sys

ROOT = os.path.dirname(os.path.dirname(os.path.abspath(__file__)))
LOG = os.path.join(ROOT, 'target', 'build.log')
# What text_to_sheet prints in place of a sheet. A sheet that begins with 1, as each should, never looks like it.
NO_SHEET = re.compile(rb'(line [0-9]+|more than [0-9]+ bytes)\n')


def turn_down(usage, why):
    """Says what is wrong with the call, and how to call it."""
    print(f'{usage.split()[1]}: {why}\n{usage}', file=sys.stderr)
    sys.exit(2)


def named(words, usage, kind, otherwise):
    """The file or folder (the kind) that a call names, None if none; `otherwise` says what the other kind is."""
    if len(words) > 1:
        turn_down(usage, f'one {kind} at a time, and not {len(words)}')
    if not words:
        return None
    path = words[0]
    if not os.path.exists(path):
        turn_down(usage, f"there is no {kind} '{path}'")
    if os.path.isdir(path) != (kind == 'folder'):
        turn_down(usage, f"'{path}' is {otherwise}")
    if not os.access(path, os.R_OK):
        turn_down(usage, f"'{path}' may not be read")
    return os.path.abspath(path)


def program(name):
    """Where a proved program stands once it is built: `rt ci` and `rt run` leave it in its crate."""
    return os.path.join(ROOT, 'crates', name, 'out', name)


def build(names):
    """Proves and builds each program that is missing; where that fails, shows the end of the log and ends."""
    missing = [name for name in names if not os.access(program(name), os.X_OK)]
    if not missing:
        return
    print(f'proving and building {" ".join(missing)}: some minutes, the first time', file=sys.stderr)
    os.makedirs(os.path.dirname(LOG), exist_ok=True)
    with open(LOG, 'w') as log:
        if all(run(name, ROOT, log) for name in missing):
            return
    with open(LOG, errors='replace') as log:
        sys.exit(''.join(log.readlines()[-20:]).rstrip())


def run(name, root, log):
    """Whether a program of the tree at `root` is proved and built, by `rt run`, which then runs it; here on no input."""
    folder = os.path.join(root, 'crates', name)
    built = os.path.join(folder, 'out', name)
    if os.path.exists(built):
        os.remove(built)
    try:
        subprocess.run(['rt', 'run'], cwd=folder, stdin=subprocess.DEVNULL, stdout=log, stderr=subprocess.STDOUT)
    except FileNotFoundError:
        sys.exit('rt is not found: the programs are proved and built with the Rattle kit')
    return os.access(built, os.X_OK)


def sheet_of(path):
    """The sheet of a text file, and None; or None, and what text_to_sheet says in its place, say `line 3`."""
    with open(path, 'rb') as text:
        printed = subprocess.run([program('text_to_sheet')], stdin=text, stdout=subprocess.PIPE, check=True).stdout
    if NO_SHEET.fullmatch(printed):
        return None, printed.decode().rstrip()
    return printed, None
