#!/usr/bin/env python3
"""class.py: the tutor's command, `./class`.

The sheets of examples/class must give the table below, whose counts were worked out by hand from document 01; the
byte sheet among them is document 01's listing. Then folders made here: how names are read and in which order, the
class file's bytes, every file that is left out and the line that tells it, folders without a sheet, and calls that are
turned down. A report that stops cannot come from a folder, so it is shown to the table's maker alone. Prints
`N passed, M failed`.
"""
import os
import runpy
import subprocess
import sys
import tempfile

from verdict import verdict

ROOT = os.path.dirname(os.path.dirname(os.path.abspath(__file__)))
CLASS = os.path.join(ROOT, 'class')
EXAMPLE = """\
learner  sheets  turn  records  refused  starts  dropped
      3       2     2       13        0       2        0
      7       2     2       19        0       2        0
     11       2     2       12        1       1        0
     15       2     2       15        3       2        0
    all       8             59        4       7        0
"""
# Main is granted and started.
GOOD = {'1-1.txt': b'1\n10 2\n11 2\n'}
GOOD_TABLE = """\
learner  sheets  turn  records  refused  starts  dropped
      1       1     1        2        0       1        0
    all       1              2        0       1        0
"""
UNNAMED = 'not named LEARNER-TURN.txt, .sheet or .bin, say 07-2.txt'
LARGE = 'its name has a number above 4294967295'
WORD = 'has a word that is no number up to 4294967295'
LONG = 'its sheet has more than 32768 bytes'
GONE = 'cannot be read (No such file or directory)'
FOLDER = 'a folder and not a sheet'
# Files beside GOOD, and the lines that tell them. None is a sub-folder, a string what a link points to.
LEFT_OUT = [
    ('no turn', {'07.txt': b'1'}, [f'07.txt: {UNNAMED}']),
    ('a name', {'notes.txt': b'1'}, [f'notes.txt: {UNNAMED}']),
    ('a sign', {'7--2.txt': b'1'}, [f'7--2.txt: {UNNAMED}']),
    ("an editor's copy", {'1-1.txt~': b'1'}, [f'1-1.txt~: {UNNAMED}']),
    ('another kind', {'1-2.pdf': b'1'}, [f'1-2.pdf: {UNNAMED}']),
    ('a name of two lines', {'1-2\n.txt': b'1'}, [f"'1-2\\n.txt': {UNNAMED}"]),
    ('a learner too large', {'4294967296-1.txt': b'1'}, [f'4294967296-1.txt: {LARGE}']),
    ('a turn too large', {'1-4294967296.bin': b'\1'}, [f'1-4294967296.bin: {LARGE}']),
    ('one turn in three files', {'7-2.txt': b'1', '07-2.sheet': b'\1', '7-02.bin': b'\1'},
     ['07-2.sheet: learner 7, turn 2 is in 7-02.bin, 7-2.txt too',
      '7-02.bin: learner 7, turn 2 is in 07-2.sheet, 7-2.txt too',
      '7-2.txt: learner 7, turn 2 is in 07-2.sheet, 7-02.bin too']),
    ('a bad word', {'09-1.txt': b'1\n10 2\n11 two\n'}, [f'09-1.txt: line 3 {WORD}']),
    ('a number too large', {'09-1.txt': b'4294967296'}, [f'09-1.txt: line 1 {WORD}']),
    ('a text too long', {'09-1.txt': b' ' * 262145}, ['09-1.txt: it has more than 262144 bytes']),
    ('a sheet too long', {'09-1.sheet': bytes(32769)}, [f'09-1.sheet: {LONG}']),
    ('a text of a sheet too long', {'09-1.txt': b'1 ' * 32769}, [f'09-1.txt: {LONG}']),
    ('a link to nothing', {'09-1.txt': 'none'}, [f'09-1.txt: {GONE}']),
    ('bytes that are not there', {'09-1.bin': 'none'}, [f'09-1.bin: {GONE}']),
    ('a device', {'09-1.bin': '/dev/zero'}, ['09-1.bin: not a plain file']),
    ('sub-folders', {'09-1.txt': None, 'old': None}, [f'09-1.txt: {FOLDER}', f'old: {FOLDER}']),
    ('two reasons', {'a': b'', '09-1.txt': b'x'}, [f'09-1.txt: line 1 {WORD}', f'a: {UNNAMED}']),
]
# In text order 10 comes before 2, of learners and of turns: turn 10 counts. A sheet of 32,768 bytes is taken (its first number, 0,
# gives 5); so is an empty one.
ORDERED = {'10-1.txt': b'1', '2-10.txt': b'1', '002-9.txt': b'', '4294967295-0.bin': bytes(32768)}
ORDERED_ROWS = [['2', '2', '10', '0', '0', '0', '0'], ['10', '1', '1', '0', '0', '0', '0'],
                ['4294967295', '1', '0', '1', '1', '0', '0'], ['all', '4', '1', '1', '0', '0']]
# Three turns: the highest counts, though it is the shortest and has a refusal; the others are not in the sums.
TURNS = {'5-1.txt': GOOD['1-1.txt'], '5-3.txt': b'1\n10 3\n', '5-2.txt': GOOD['1-1.txt'], '6-0.txt': GOOD['1-1.txt']}
TURNS_ROWS = [['5', '3', '3', '1', '1', '0', '0'], ['6', '1', '0', '2', '0', '1', '0'], ['all', '4', '3', '1', '1', '0']]
# Three sheets: learner 2, turn 1, 1 byte; learner 128, turn 0, no byte; learner 300, turn 1, 130 bytes.
CODED = {'300-1.bin': bytes(130), '2-1.txt': b'1 # a comment', '128-0.sheet': b''}
CODED_FILE = bytes([3, 2, 1, 1, 1, 128, 1, 0, 0, 172, 2, 1, 130, 1]) + bytes(130)


def run(place, *words):
    """The exit status, standard output and standard error of `./class`, called from a folder."""
    done = subprocess.run([CLASS, *words], cwd=place, stdout=subprocess.PIPE, stderr=subprocess.PIPE)
    return done.returncode, done.stdout, done.stderr


def turned_down(told, why):
    """Whether a call printed nothing, with status 2, and says in two lines why and how it is called."""
    status, printed, lines = told[0], told[1], told[2].decode().splitlines()
    return (status, printed, len(lines)) == (2, b'', 2) and why in lines[0] and lines[1].startswith('usage: ./class ')


def of_folder(files, *words):
    """What `./class` tells of a folder with these files; it is named by a relative path with a blank."""
    with tempfile.TemporaryDirectory() as place:
        folder = os.path.join(place, 'my class')
        os.mkdir(folder)
        for name, content in files.items():
            path = os.path.join(folder, name)
            if content is None:
                os.mkdir(path)
            elif isinstance(content, str):
                os.symlink(content, path)
            else:
                with open(path, 'wb') as file:
                    file.write(content)
        return run(place, *words, 'my class')


def rows(printed):
    """A table's words, row by row, without the columns' names."""
    return [line.split() for line in printed.decode().splitlines()[1:]]


def left_out(lines):
    """What is told where the files of these lines are left out, and the good sheet beside them is reported."""
    return 1, GOOD_TABLE.encode(), ''.join(line + '; left out\n' for line in lines).encode()


def no_sheet(files, lines):
    """Whether a folder without a sheet prints nothing and is told in a line, after the lines of what is left out."""
    status, printed, told = of_folder(files)
    told = told.decode().splitlines()
    return (status, printed, len(told)) == (1, b'', lines + 1) and told[-1].startswith('./class: there is no sheet in ')


def calls(place):
    """The example, and calls that are turned down."""
    helped, example = run(place, '--help'), (0, EXAMPLE.encode(), b'')
    return [
        ('examples/class by default', run(ROOT), example),
        ('examples/class by default from elsewhere', run(place), example),
        ('examples/class by name', run(ROOT, 'examples/class/'), example),
        ('--help', (helped[0], helped[1].startswith(b'usage: ./class [--file] [FOLDER]'), helped[2]), (0, True, b'')),
        ('a folder that is not there', turned_down(run(place, 'none'), "./class: there is no folder 'none'"), True),
        ('no name at all', turned_down(run(place, ''), 'there is no folder'), True),
        ('a file', turned_down(run(place, CLASS), 'is a file and not a folder of sheets'), True),
        ('two folders', turned_down(run(place, '.', '.'), 'one folder at a time, and not 2'), True),
        ('--file and two folders', turned_down(run(place, '--file', '.', '.'), 'one folder at a time'), True),
    ]


def folders():
    """Folders made here."""
    ordered, turns = of_folder(ORDERED), of_folder(TURNS)
    hidden = of_folder({**GOOD, '.1-2.txt': b'x', '.git': None})
    return [
        ('by learner and turn, as numbers', (ordered[0], rows(ordered[1]), ordered[2]), (0, ORDERED_ROWS, b'')),
        ('the turn that counts', (turns[0], rows(turns[1]), turns[2]), (0, TURNS_ROWS, b'')),
        ('the class file', of_folder(CODED, '--file'), (0, CODED_FILE, b'')),
        ('hidden files', hidden, (0, GOOD_TABLE.encode(), b'')),
        ('an empty folder', no_sheet({}, 0), True),
        ('only hidden files', no_sheet({'.1-1.txt': b'1'}, 0), True),
        ('only files left out', no_sheet({'a': b'1', '1-1.txt': b'x'}, 2), True),
    ] + [(name, of_folder({**GOOD, **files}), left_out(lines)) for name, files, lines in LEFT_OUT]


def reports():
    """Reports that no folder gives."""
    table = runpy.run_path(CLASS)['table']
    page, wrong = table(b'class 1\n1 1 2 0 1 0\nstop 22\n', {1: 1})
    return [
        ('a stop has the lines before it', page.decode(), ''.join(GOOD_TABLE.splitlines(keepends=True)[:2])),
        ('a stop is told', wrong, 'class_report stopped with 22: there are no sums'),
        ('no report', table(b'class 1\n1 1 2 0 1\n2 0 1 0\n', {1: 1}), (b'', 'class_report printed no report')),
    ]


def main():
    with tempfile.TemporaryDirectory() as place:
        tests = calls(place) + folders() + reports()
    return verdict(tests)


if __name__ == '__main__':
    sys.exit(main())
