#!/usr/bin/env python3
"""twins.py [CRATE..]: the harmless twin of each must-fail edit is proved.

A must-fail edit shows something only if it is refused for what it says and not for its form: a proof follows the code's form,
so that any change of it would be refused. Its twin has the edit's form and the right value, and must be proved. Where an edit
puts one number, constant or variable in the place of another, the code itself is its twin. Of every other edit, that changes
an operator or adds something, crates/NAME/twins/LABEL.edit is the twin of crates/NAME/must-fail/LABEL.edit, and is tried here in a
copy of the tree. (`rt must-fail` tries the edits.) Prints a line an edit, and last `N passed, M failed`.

It is no part of ./test, as each twin costs a check of its crate. Run it when an edit or a twin was changed.
"""
import os
import re
import shutil
import subprocess
import sys
import tempfile
import time

ROOT = os.path.dirname(os.path.dirname(os.path.abspath(__file__)))

TOKEN = re.compile(r'b"[^"]*"|\*?[A-Za-z_]\w*(?:(?:::|\.)\w+)*|\d+|\S')
WORDS = {'rt': ['if', 'while', 'return', 'as', 'match', 'let', 'mut'], 'antt': ['and', 'or', 'then', 'each', 'some', 'never', 'let', 'in']}


def edits_in(folder):
    """The edits of a folder by their labels, each a list of file, old text and new text."""
    found = {}
    for name in sorted(os.listdir(folder)) if os.path.isdir(folder) else []:
        with open(os.path.join(folder, name), encoding='utf-8') as file:
            lines = file.read().splitlines()
        path = old = None
        pairs = found.setdefault(name[:-len('.edit')], [])
        for line in lines:
            if line.startswith('file: '):
                path = line[len('file: '):]
            elif line.startswith('old: '):
                old = line[len('old: '):]
            elif line.startswith('new: '):
                pairs.append((path, old, line[len('new: '):]))
    return found


def form(text, words):
    """The text with every number, constant and variable replaced by one mark; a variant of an enum by another."""
    marks = []
    for token in TOKEN.findall(text):
        if token in words or not re.match(r'\*?\w', token):
            marks.append(token)
        else:
            marks.append('variant' if re.search(r'::[A-Z][a-z]', token) else 'operand')
    return marks


def keeps_form(edit):
    """Whether an edit only puts operands in the place of others."""
    sorts = [(WORDS[path.split('.')[-1]], old, new) for path, old, new in edit]
    return all(form(old, words) == form(new, words) for words, old, new in sorts)


def copy_of_tree(into):
    """A copy of the crates. A check there begins with what checks here kept, which rt finds by itself."""
    shutil.copy(os.path.join(ROOT, 'crates.txt'), into)
    shutil.copytree(os.path.join(ROOT, 'crates'), os.path.join(into, 'crates'), ignore=shutil.ignore_patterns('out'))


def proved(folder, crate, edit):
    """Whether a crate of the copy is proved under an edit; else what was said first."""
    whole = {}
    for name, old, new in edit:
        path = os.path.join(folder, 'crates', crate, name)
        with open(path, encoding='utf-8') as file:
            text = file.read()
        if text.count(old) != 1:
            return False, '`%s` stands %d times in %s' % (old, text.count(old), name)
        whole.setdefault(path, text)
        with open(path, 'w', encoding='utf-8') as file:
            file.write(text.replace(old, new))
    place = os.path.join(folder, 'crates', crate)
    run = subprocess.run(['rt', 'check'], cwd=place, stdout=subprocess.PIPE, stderr=subprocess.STDOUT, text=True)
    for path, text in whole.items():
        with open(path, 'w', encoding='utf-8') as file:
            file.write(text)
    errors = re.findall(r'^\S*?((?:src|specs|proofs)/\S+: error.{0,300})', run.stdout, re.M)
    return run.returncode == 0, (errors or ['rt ended with %d' % run.returncode])[0]


def verdicts(folder, crate):
    """Of each edit of a crate whether its twin is proved, and a line that says so."""
    edits = edits_in(os.path.join(ROOT, 'crates', crate, 'must-fail'))
    twins = edits_in(os.path.join(ROOT, 'crates', crate, 'twins'))
    for label in sorted(set(edits) | set(twins)):
        began = time.time()
        if label not in edits:
            yield False, '%s/%s: a twin of no edit' % (crate, label)
        elif label in twins:
            holds, why = proved(folder, crate, twins[label])
            yield holds, '%s/%s: %s (%d s)' % (crate, label, 'proved' if holds else 'REFUSED, ' + why, time.time() - began)
        elif keeps_form(edits[label]):
            yield True, '%s/%s: the code itself' % (crate, label)
        else:
            yield False, '%s/%s: it changes the form and has no twin' % (crate, label)


def main():
    names = sys.argv[1:] or sorted(os.listdir(os.path.join(ROOT, 'crates')))
    passed = failed = 0
    with tempfile.TemporaryDirectory() as folder:
        copy_of_tree(folder)
        for crate in names:
            for holds, line in verdicts(folder, crate):
                passed, failed = passed + holds, failed + (not holds)
                print(line, flush=True)
    print('%d passed, %d failed' % (passed, failed))
    return 1 if failed or not passed else 0


if __name__ == '__main__':
    sys.exit(main())
