#!/usr/bin/env python3
"""mains.py [PROGRAM..]: wrong programs. A contract refuses those that it can see, and a test fails on the others.

What a program reads and writes is under the contract of a function over any reader and writer; the line that hands it the process's
own streams is under none (docs/PROMISES.md). Here each program is tried on inputs whose output was worked out from documents 01, 02
and docs/TEXT.md alone: as it stands and with a harmless edit of its code the outputs must be right. A wrong edit that a contract
sees must be refused; with any other it must still be proved, so that the edit shows what proofs do not see, and an output must be
wrong.

The edits are made in copies of the tree, which begin with what was proved of it. Prints a line a try, and last `N passed, M failed`.
"""
import concurrent.futures
import os
import pathlib
import re
import shutil
import subprocess
import sys
import tempfile

from by_hand import shortest

ROOT = os.path.dirname(os.path.dirname(os.path.abspath(__file__)))
sys.path.insert(0, os.path.join(ROOT, 'tools'))
import commands  # noqa: E402  (what ./run and ./class share, in tools)

# Link 1 was never made: deliveries of it are refused with 9. Their lines take more than one part of 16,384 bytes, and the last
# byte is the 32,769th: without it the last record is cut short.
DELIVERIES = 16384
REFUSED = b''.join(b'%d 9 0\n' % (k + 1) for k in range(DELIVERIES - 1)) + b'%d 3 0\n1 0 0\n' % DELIVERIES

# A class of learners with an empty sheet each, whose lines take more than one part of 16,384 bytes; and one of longest sheets: of learner
# 7 the second, whose first number is 0, is superseded by the first, whose records deliver link 1; learner 8 hands in an empty one.
EMPTY = 1500
CLASS = shortest(EMPTY) + b''.join(shortest(k) + b'\1\0' for k in range(EMPTY))
REPORT = b'class 1\n' + b''.join(b'%d 1 1 1 0 0\n' % k for k in range(EMPTY)) + b'%d %d 0 0\n' % (EMPTY, EMPTY)
LONG = shortest(32768)
LONGEST = b'\3\7\2' + LONG + bytes([1] + [9, 1] * 16383 + [9]) + b'\7\1' + LONG + bytes(32768) + b'\10\1\0'
LONGEST_REPORT = b'class 1\n7 2 16384 16384 0 0\n8 1 1 1 0 0\n16385 16385 0 0\n'

# A sheet of edition 2 with a counted event for one link, which goes when that is delivered: 24, 14, and then 11 three times.
COUNTED = bytes([2, 10, 2, 11, 2, 13, 2, 1, 1, 2, 1, 2, 2, 4, 17, 0, 0, 5, 2, 3, 5, 0, 1, 5, 2, 3, 3, 0, 1, 6, 2, 3, 1, 0,
                 6, 2, 3, 0, 0, 9, 1, 6, 2, 3, 0, 0, 5, 2, 3, 3, 0, 1, 8, 2, 3])
COUNTED_LINES = (b'1 0 0\n2 0 0\n3 0 3\n4 0 4\n5 0 5\n6 0 1\n7 24 0\n8 0 0\n9 14 0\n10 0 0\n11 11 0\n12 11 0\n13 11 0\n'
                 b'2 0 0\n')

# a program: what it reads, and what it must print
TRIES = {
    'class_report': [(b'', b'class 1\nstop 3\n'), (CLASS, REPORT), (LONGEST, LONGEST_REPORT)],
    'ocr_sheet': [(b'', b'0 3 0\n1 0 0\n'), (bytes([3]), b'0 5 0\n1 0 0\n'), (bytes([1] + [9, 1] * DELIVERIES), REFUSED),
                  (COUNTED, COUNTED_LINES), (bytes([1, 13, 2, 1]), b'1 6 0\n1 0 0\n')],
    'text_to_sheet': [(b'1 # a sheet\n10 2\n', bytes([1, 10, 2])), (b'1\n10 two\n', b'line 2\n')],
    'sheet_to_text': [(bytes([1, 10, 2]), b'1\n10 2  # grant\n'), (bytes([2, 13, 2, 1]), b'2\n13 2 1  # counted\n')],
}

# What an edit is: harmless, wrong but not seen by any contract, or refused by one.
HARMLESS, UNSEEN, REFUSED_BY_PROOF = 'harmless', 'unseen', 'refused'

# a program, what the edit is, the file below crates, old text, new text
EDITS = [
    ('ocr_sheet', HARMLESS, 'ocr_sheet/src/main.rt',
     'run(&mut rt.stdin(), &mut rt.stdout())', 'let mut printed = rt.stdout(); run(&mut rt.stdin(), &mut printed)'),
    ('ocr_sheet', UNSEEN, 'ocr_sheet/src/main.rt',
     'run(&mut rt.stdin(), &mut rt.stdout())', 'run(&mut rt.stdin(), &mut rt.stderr())'),
    ('ocr_sheet', REFUSED_BY_PROOF, 'ocr_sheet/src/main.rt',
     'let mut next = Next::At(0, 0);', 'let mut next = Next::LastLine;'),
    ('ocr_sheet', REFUSED_BY_PROOF, 'ocr_sheet/src/main.rt',
     'const SHEET: usize = 32768;', 'const SHEET: usize = 16384;'),
    ('text_to_sheet', HARMLESS, 'text_to_sheet/src/main.rt',
     'run(&mut rt.stdin(), &mut rt.stdout())', 'let mut printed = rt.stdout(); run(&mut rt.stdin(), &mut printed)'),
    ('text_to_sheet', UNSEEN, 'text_to_sheet/src/main.rt',
     'run(&mut rt.stdin(), &mut rt.stdout())', 'run(&mut rt.stdin(), &mut rt.stderr())'),
    ('sheet_to_text', UNSEEN, 'sheet_to_text/src/main.rt',
     'run(&mut rt.stdin(), &mut rt.stdout())', 'run(&mut rt.stdin(), &mut rt.stderr())'),
    ('class_report', HARMLESS, 'class_report/src/main.rt',
     'run(&mut rt.stdin(), &mut rt.stdout())', 'let mut printed = rt.stdout(); run(&mut rt.stdin(), &mut printed)'),
    ('class_report', UNSEEN, 'class_report/src/main.rt',
     'run(&mut rt.stdin(), &mut rt.stdout())', 'run(&mut rt.stdin(), &mut rt.stderr())'),
    ('class_report', REFUSED_BY_PROOF, 'class_input/src/lib.rt',
     'let got = reader.read(&mut input[..most])?;', 'let got = b"".as_slice().read(&mut input[..most])?;'),
    ('class_report', REFUSED_BY_PROOF, 'class_input/src/lib.rt',
     'let n = streams::read_full(reader, &mut room[from..to])?;',
     'let n = streams::read_full(&mut b"".as_slice(), &mut room[from..to])?;'),
    ('class_report', UNSEEN, 'class_report/src/main.rt',
     'for _ in (0..u64::MAX).rev() {', 'for _ in (0..4096u64).rev() {'),
]

# edits that are tried one after the other, in one copy of the tree
AT_A_TIME = 3


def copy_of_tree(folder):
    """The crates, with the libraries that were built of them."""
    shutil.copy(os.path.join(ROOT, 'crates.txt'), folder)
    names = shutil.ignore_patterns('incremental', 'must-fail', 'twins')
    shutil.copytree(os.path.join(ROOT, 'crates'), os.path.join(folder, 'crates'), ignore=names)


def is_proved(folder, program):
    """Whether a program of the copy is proved and built."""
    return commands.run(program, folder, subprocess.DEVNULL)


def is_right(folder, program):
    """Whether a program of the copy prints what it must, and nothing on standard error."""
    path = os.path.join(folder, 'crates', program, 'out', program)
    if not os.path.exists(path):
        return False
    runs = [(subprocess.run([path], input=read, stdout=subprocess.PIPE, stderr=subprocess.PIPE), wanted)
            for read, wanted in TRIES[program]]
    return all(run.stdout == wanted and run.stderr == b'' for run, wanted in runs)


def is_refused(folder, crate):
    """Whether a crate of the copy is not proved: it was read, and a proof of it fails."""
    place = os.path.join(folder, 'crates', crate)
    run = subprocess.run(['rt', 'check'], cwd=place, stdout=subprocess.PIPE, stderr=subprocess.STDOUT, text=True)
    return run.returncode == 1 and re.search(r'^logic=not-proved', run.stdout, re.M) is not None


def tried(folder, program, kind, source, old, new):
    """Whether an edit does as it must: refused, or proved and seen in an output exactly if it is wrong; and in words."""
    path = pathlib.Path(folder, 'crates', source)
    text = path.read_text(encoding='utf-8')
    if text.count(old) != 1:
        return False, '`%s` stands %d times in %s' % (old, text.count(old), source)
    path.write_text(text.replace(old, new), encoding='utf-8')
    if kind == REFUSED_BY_PROOF:
        refused = is_refused(folder, source.split('/')[0])
        path.write_text(text, encoding='utf-8')
        return refused, '`%s`: %s' % (new, 'refused' if refused else 'NOT refused')
    proved, right = is_proved(folder, program), is_right(folder, program)
    path.write_text(text, encoding='utf-8')
    if not proved:
        return False, '`%s` is not proved' % new
    return right == (kind == HARMLESS), '`%s`: proved, and prints what is %s' % (new, 'right' if right else 'wrong')


def answers(job):
    """What was tried of a program, in a copy of its own: whether it went as it must, and in words."""
    program, edits = job
    with tempfile.TemporaryDirectory() as folder:
        copy_of_tree(folder)
        first = (is_proved(folder, program) and is_right(folder, program), 'as it stands')
        return [first] + [tried(folder, *edit) for edit in edits]


def jobs(programs):
    """The programs, each with all its edits or, where it has more, with some of them at a time."""
    for program in programs:
        edits = [edit for edit in EDITS if edit[0] == program]
        for first in range(0, len(edits), AT_A_TIME):
            yield program, edits[first:first + AT_A_TIME]


def main():
    programs = sys.argv[1:] or list(TRIES)
    todo, passed, failed = list(jobs(programs)), 0, 0
    # once here, so that no copy has to prove the libraries
    for program in programs:
        subprocess.run(['rt', 'check'], cwd=os.path.join(ROOT, 'crates', program), stdout=subprocess.DEVNULL)
    with concurrent.futures.ThreadPoolExecutor(2) as pool:
        for (program, _), told in zip(todo, pool.map(answers, todo)):
            for holds, words in told:
                passed, failed = passed + holds, failed + (not holds)
                print('%s, %s%s' % (program, words, '' if holds else ': FAILED'), flush=True)
    print('%d passed, %d failed' % (passed, failed))
    return 1 if failed or not passed else 0


if __name__ == '__main__':
    sys.exit(main())
