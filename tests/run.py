#!/usr/bin/env python3
"""run.py: the README's first command, `./run`.

Document 01's listing as text must give the lines of document 01, with the names of its operations on standard error; a text
with a word that is no number must give that line's number and nothing else. `--help` says how to call it. A file that is not
there, a folder and a second file are told in one line, and how to call it in another, with status 2 and nothing printed.
Prints `N passed, M failed`.
"""
import os
import subprocess
import sys
import tempfile

from verdict import verdict

ROOT = os.path.dirname(os.path.dirname(os.path.abspath(__file__)))
LISTING = os.path.join(ROOT, 'crates', 'ocr_sheet', 'stdout')
NAMES = ['grant', 'start', 'template', 'task', 'event', 'dependence', 'satisfy', 'deliver', 'grant', 'release', 'grant', 'end']


def run(folder, *files):
    """The exit status, standard output and standard error of `./run`, called from a folder."""
    command = [os.path.join(ROOT, 'run'), *files]
    done = subprocess.run(command, cwd=folder, stdout=subprocess.PIPE, stderr=subprocess.PIPE, text=True)
    return done.returncode, done.stdout, done.stderr


def turned_down(told, why):
    """Whether a call printed nothing, with status 2, and says in two lines why and how it is called."""
    status, printed, lines = told[0], told[1], told[2].splitlines()
    return status == 2 and printed == '' and len(lines) == 2 and why in lines[0] and lines[1].startswith('usage: ./run [FILE]')


def named(told):
    """The operations' names, in the order in which they are told."""
    return [line.split('# ')[1] for line in told.splitlines() if '# ' in line]


def main():
    with open(LISTING) as file:
        lines = file.read()
    with tempfile.TemporaryDirectory() as folder:
        with open(os.path.join(folder, 'bad.txt'), 'w') as file:
            file.write('1\n10 2\n11 two\n')
        listing, bad = run(ROOT), run(folder, 'bad.txt')
        helped, missing = run(folder, '--help'), run(folder, 'none.txt')
        unnamed, nested, two = run(folder, ''), run(folder, '.'), run(folder, 'bad.txt', 'bad.txt')
    tests = [
        ('the listing', listing[:2], (0, lines)),
        ('its names', named(listing[2]), NAMES),
        ('a word that is no number', bad[:2], (1, 'line 3\n')),
        ('--help', (helped[0], len(helped[1].splitlines()), helped[2]), (0, 1, '')),
        ('--help says how to call it', helped[1].startswith('usage: ./run [FILE]'), True),
        ('a file that is not there', turned_down(missing, "there is no file 'none.txt'"), True),
        ('no name at all', turned_down(unnamed, 'there is no file'), True),
        ('a folder', turned_down(nested, "'.' is a folder"), True),
        ('two files', turned_down(two, 'one file at a time'), True),
    ]
    return verdict(tests)


if __name__ == '__main__':
    sys.exit(main())
