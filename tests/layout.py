#!/usr/bin/env python3
"""Holds docs/LAYOUT.md to the code: every field's first word and size, the number of words, and every named number.

Reads crates/session/src/lib.rt (base_of, WORDS), crates/session/specs/Table.antt (class) and crates/session/src/names.rt.
"""
import os
import re
import sys

ROOT = os.path.dirname(os.path.dirname(os.path.abspath(__file__)))


def text(*path):
    with open(os.path.join(ROOT, *path)) as file:
        return file.read()


def code_fields():
    """Field -> (first word, places), as the code and the specs have them."""
    bases = dict(re.findall(r'Field::(\w+) => (\d+),', text('crates', 'session', 'src', 'lib.rt')))
    classes = dict(re.findall(r'^class (\w+) = (.+)$', text('crates', 'session', 'specs', 'Table.antt'), re.M))
    assert bases and list(bases) == list(classes), 'the code and Table.antt name other fields'
    numbers = code_numbers()
    handles, links = int(numbers['MOST_OBJECTS']) + 1, int(numbers['MOST_LINKS']) + 1
    places = {'always 1': 1, 'per_handle': handles, 'per_slot': 16 * handles, 'per_link': links}
    sizes = {name: places[a_class] for name, a_class in classes.items()}
    words = 0
    for name in bases:
        assert bases[name] == str(words), 'base_of does not put %s behind the field before it' % name
        words += sizes[name]
    assert numbers['WORDS'] == str(words), 'WORDS is not what the fields take'
    return {name: (bases[name], str(sizes[name])) for name in bases}


def page_fields(page):
    """The rows `| Field | first word | places | ..` of the page."""
    rows = re.findall(r'^\| (\w+) \| ([\d,]+) \| ([\d,]+) \|', page, re.M)
    return {name: (base.replace(',', ''), size.replace(',', '')) for name, base, size in rows}


def code_numbers():
    code = text('crates', 'session', 'src', 'names.rt') + text('crates', 'session', 'src', 'lib.rt')
    return dict(re.findall(r'^pub const (\w+): \w+ = (\d+);', code, re.M))


def page_numbers(page):
    """The pairs `NAME number` in backquotes."""
    return dict(re.findall(r'`([A-Z_]+) (\d+)`', page))


def main():
    page = text('docs', 'LAYOUT.md')
    passed, failed = 0, 0
    for what, code, said in (('field', code_fields(), page_fields(page)), ('number', code_numbers(), page_numbers(page))):
        for name in sorted(code.keys() | said.keys()):
            if code.get(name) == said.get(name):
                passed += 1
            else:
                failed += 1
                print('%s %s: the code has %s, docs/LAYOUT.md %s' % (what, name, code.get(name), said.get(name)))
    print('%d passed, %d failed' % (passed, failed))
    return 1 if failed or not passed else 0


if __name__ == '__main__':
    sys.exit(main())
