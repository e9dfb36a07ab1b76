#!/usr/bin/env python3
"""Brings the repository's own definitions and lemmas to today's spelling, by respell.tsv: an old name and a new one a line.

usage: python3 tools/respell.py [FOLDER]      in the repository, once, after port.py

Words in snake case, types in camel case. A name is a whole word of the antt text: in crates/*/specs and crates/*/proofs and in the clauses of
crates/*/src, and in comments, README.md and docs/ only between backticks. Functions of src/, strings, inputs and outputs keep their names.
"""
import glob
import os
import re
import sys

HERE = os.path.dirname(os.path.abspath(__file__))
ENDS = r'\s(){}.;,@"«»\[\]|`'


def table():
    with open(os.path.join(HERE, 'respell.tsv'), encoding='utf-8') as rows:
        return dict(row.rstrip('\n').split('\t') for row in rows)


def pattern(names, ends):
    words = '|'.join(re.escape(name) for name in sorted(names, key=len, reverse=True))
    return re.compile(r"(?<![^%s])(%s)(?![^%s])" % (ends, words, ends))


def code(text, find, names, comment):
    """The text with each name respelled; in comments only between backticks."""
    lines = []
    for line in text.split('\n'):
        at = comment_at(line, comment)
        kept = re.sub('`[^`]*`', lambda m: find.sub(lambda n: names[n.group(1)], m.group(0)), line[at:])
        lines.append(find.sub(lambda n: names[n.group(1)], line[:at]) + kept)
    return '\n'.join(lines)


def comment_at(line, comment):
    found = re.search(r'(^|\s)' + re.escape(comment), line)
    return found.start() if found else len(line)


def main():
    root = sys.argv[1] if len(sys.argv) > 1 else os.path.dirname(HERE)
    names = table()
    antt, rust = pattern(names, ENDS), pattern(names, ENDS + r':&*<>!?=+/')
    files = glob.glob(os.path.join(root, 'crates', '*', '**', '*.antt'), recursive=True)
    files += glob.glob(os.path.join(root, 'crates', '*', 'src', '**', '*.rt'), recursive=True)
    pages = [os.path.join(root, 'README.md')] + glob.glob(os.path.join(root, 'docs', '**', '*.md'), recursive=True)
    changed = 0
    for path in [f for f in files if '/out/' not in f] + pages:
        with open(path, encoding='utf-8') as f:
            text = f.read()
        if path.endswith('.md'):
            new = re.sub('`[^`\n]*`', lambda m: antt.sub(lambda n: names[n.group(1)], m.group(0)), text)
        elif path.endswith('.rt'):
            new = code(text, rust, names, '//')
        else:
            new = code(text, antt, names, '--')
        if new != text:
            changed += 1
            with open(path, 'w', encoding='utf-8') as f:
                f.write(new)
    print('respell: %d names, %d files changed' % (len(names), changed))


if __name__ == '__main__':
    main()
