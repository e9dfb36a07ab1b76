#!/usr/bin/env python3
"""Holds docs/RULES.md to the repository: every name in it is there, and every sentence has one or says why not.

A name in backquotes is `File.name` of crates/rules, `crate/File.name` of that crate, `name` of the file named before it in the
same row, each in specs/ or, of a theorem, in proofs/; `crate::name` or `crate::module::name` of the code; or a path. It must be
declared there.
  rules_page.py [PAGE]    another page than docs/RULES.md
Prints each name that is not there, and last `N passed, M failed`.
"""
import os
import re
import sys

ROOT = os.path.dirname(os.path.dirname(os.path.abspath(__file__)))
SPEC = re.compile(r'(?:(\w+)/)?([A-Z]\w*)\.([^\s.]+)')
# a signature: the names before the colon, without what they take
SIGNATURE = re.compile(r' *(?!--|let )(?:(?:abbrev|unfoldable|pub|record|data) )*([^=:(){}]+?)(?: [({][^=]*)? :(?: |$)')
ITEM = r'\b(?:fn|const|struct|enum) %s\b'
# what a row may have for a name
REASONS = ('docs/', 'tests/', 'no definition', 'with its request')


def text(*path):
    """The text of a file of the repository, empty if there is none."""
    path = os.path.join(ROOT, *path)
    if not os.path.isfile(path):
        return ''
    with open(path, encoding='utf-8') as file:
        return file.read()


def declared(crate, file):
    """The names that a crate's file of definitions declares, or of theorems."""
    names = set()
    for folder in ('specs', 'proofs'):
        for line in text('crates', crate, folder, file + '.antt').splitlines():
            match = SIGNATURE.match(line)
            if match:
                names.update(match.group(1).split())
    return names


def in_code(name):
    """Whether a crate's code has an item: in its module, or in its root."""
    parts = name.split('::')
    files = [parts[1] + '.rt'] if len(parts) == 3 else ['lib.rt', 'main.rt']
    item = re.compile(ITEM % re.escape(parts[-1]))
    return any(item.search(text('crates', parts[0], 'src', file)) for file in files)


def is_there(name, before):
    """Whether a name is there, and the file that names after it may be of."""
    match = SPEC.fullmatch(name)
    if name.startswith(('crates/', 'docs/', 'tests/')):
        return os.path.exists(os.path.join(ROOT, name)), before
    if '::' in name:
        return in_code(name), before
    if match:
        file = (match.group(1) or 'rules', match.group(2))
        return match.group(3) in declared(*file), file
    return before is not None and name in declared(*before), before


def parts_of(page):
    """The page's rows as (number of the line, sentence, right cell), and its other lines without a sentence."""
    for number, line in enumerate(page.splitlines(), 1):
        cells = re.split(r' (?<!\\)\| ', line.removeprefix('| ').removesuffix(' |'))
        if line.startswith('| ') and not line.startswith('| sentence'):
            yield number, cells[0], cells[1] if len(cells) == 2 else ''
        elif not line.startswith('|'):
            yield number, None, line


def main():
    page = sys.argv[1] if len(sys.argv) > 1 else os.path.join(ROOT, 'docs', 'RULES.md')
    with open(page, encoding='utf-8') as file:
        page = file.read()
    passed, failed, file = 0, 0, None
    for number, sentence, cell in parts_of(page):
        names = re.findall('`([^`]+)`', cell)
        # a row begins anew; the lines of a paragraph go on
        file = file if sentence is None and cell else None
        for name in names:
            there, file = is_there(name, file)
            passed, failed = passed + there, failed + (not there)
            if not there:
                print('docs/RULES.md:%d: there is no %s' % (number, name))
        if sentence is not None and not names and not any(reason in cell for reason in REASONS):
            failed += 1
            print('docs/RULES.md:%d: no name and no reason: %s' % (number, sentence))
    print('%d passed, %d failed' % (passed, failed))
    return 1 if failed or not passed else 0


if __name__ == '__main__':
    sys.exit(main())
