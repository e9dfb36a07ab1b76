#!/usr/bin/env python3
"""The places in crates/*/src that docs/DESIGN-PASS.md counts, by point, found by their form.

  tools/places.py [FOLDER]          a line for each kind: its count
  tools/places.py [FOLDER] KIND     each place of a kind
FOLDER is a checkout (this one if none is given). A place is a line of code, or for twins a group of functions.
"""
import glob
import os
import re
import sys

IDENT = re.compile(r"[A-Za-z_][A-Za-z0-9_]*")
KEYWORDS = set('fn pub let mut if else while for in return match loop break continue true false as const'.split())


def files(folder):
    for path in sorted(glob.glob(os.path.join(folder, 'crates', '*', 'src', '*.rt'))):
        text = open(path, encoding='utf-8').read()
        yield os.path.relpath(path, folder), text.split('#[cfg(test)]')[0]


def functions(text):
    """Name, line and body of each function, by its first line and the closing brace at its indent."""
    lines = text.split('\n')
    for i, line in enumerate(lines):
        m = re.match(r'(\s*)(?:pub )?(?:extern "C" )?fn (\w+)', line)
        if not m:
            continue
        end = next(j for j in range(i + 1, len(lines)) if lines[j] == m.group(1) + '}')
        opening = next((j for j in range(i, end) if lines[j] == m.group(1) + '{'), i)
        yield m.group(2), i + 1, lines[opening + 1:end]


def by_line(pattern):
    def find(folder):
        for path, text in files(folder):
            for n, line in enumerate(text.split('\n'), 1):
                if re.search(pattern, line):
                    yield f'{path}:{n}: {line.strip()}'
    return find


def index_loops(folder):
    """A `while` whose body steps a variable of its condition by a number."""
    for path, text in files(folder):
        lines = text.split('\n')
        for n, line in enumerate(lines, 1):
            m = re.match(r"(\s*)(?:'\w+: )?while (.*) \{$", line)
            if not m:
                continue
            end = next(j for j in range(n, len(lines)) if lines[j] == m.group(1) + '}')
            names = set(IDENT.findall(m.group(2)))
            for inner in lines[n:end]:
                step = re.match(r'\s*(\w+) [+-]= \d+;', inner)
                if step and step.group(1) in names:
                    yield f'{path}:{n}: {line.strip()}'
                    break


def shape(body):
    text = '\n'.join(line for line in body if not line.strip().startswith('//'))
    text = re.sub(r'\b\d+\b', '0', text)
    return re.sub(r'\s+', ' ', IDENT.sub(lambda m: m.group(0) if m.group(0) in KEYWORDS else 'x', text))


def twins(folder):
    """Functions of three lines or more whose bodies differ in names and numbers alone."""
    groups = {}
    for path, text in files(folder):
        for name, n, body in functions(text):
            if len(body) >= 3:
                groups.setdefault(shape(body), []).append(f'{path}:{n} {name}')
    for group in groups.values():
        if len(group) > 1:
            yield '  ~  '.join(group)


def clauses(pattern, least):
    """A fact that stands in the clauses of so many functions of a crate, counted by clause."""
    def find(folder):
        found = {}
        for path, text in files(folder):
            for n, line in enumerate(text.split('\n'), 1):
                if re.search(pattern, line) and 'ghost use' not in line:
                    found.setdefault(path.split('/')[1], []).append(f'{path}:{n}: {line.strip()}')
        for places in found.values():
            if len(places) >= least:
                yield from places
    return find


def copies(folder):
    """A struct literal in which three fields or more are copied one by one from one value."""
    for path, text in files(folder):
        for n, body in ((n, '\n'.join(b)) for _, n, b in functions(text)):
            fields = re.findall(r'^\s*(\w+): (\w+)\.\1,$', body, re.M)
            if len(fields) >= 3:
                yield f'{path}:{n}: {len(fields)} fields'


KINDS = [
    ('1 enums', 'own enums', by_line(r'^\s*(pub )?enum ')),
    ('1 flags', 'a number in a struct that is a refusal, or 0 for none', by_line(r'^\s*(pub )?(refused|ending|stop|found): u')),
    ('1 refusals', 'a refusal as a number', by_line(r'refusals::[A-Z]|fn \w*refusal\w*\(.*-> u64|Answer::|Arity::')),
    ('1 none', 'a result that a number says is none', by_line(r'^\s*// .*(, 0 if|, or 0 |or `end`|or n if|0 if there is none|else l\.|0 where)')),
    ('2 twins', 'functions that differ in names and numbers alone', twins),
    ('2 eights', 'one of eight places, tested in a row', by_line(r'while \w+ < 8 \{')),
    ('3 loops', 'a loop that counts an index by hand', index_loops),
    ('3 whiles', 'every while', by_line(r"^\s*('\w+: )?while ")),
    ('4 copies', 'a struct copied field by field', copies),
    ('4 arms', 'arms that only answer true or false', by_line(r'=> (true|false),$')),
    ('4 bits', 'a number made of a yes or no, a least or a difference, by hand', by_line(r'fn (one|is_start|is_held|least_of|records_before|one_less|capped)\(.*-> u')),
    ('5 memory', "a clause that tells the memory's length", clauses(r'words ≤ length', 3)),
    ('5 rows', "a clause that tells an array's length", clauses(r'length \w+(\.\w+)? ≡ object_places', 1)),
    ('5 sound', 'a clause that the session is sound', clauses(r'requires .*Holds \(sound', 3)),
    ('6 used', 'memory with a used length beside it', by_line(r'out: &mut \[u8\], (at|used|start): usize|lines: &mut \[u8\], used: usize')),
    ('6 parallel', 'parallel arrays', by_line(r'(FIELD_COUNTS|NAME_ENDS|NAMES): \[|(made|served): &(mut )?\[')),
    ('7 switches', 'a switch on a code', by_line(r'^\s*match code \{')),
]


def main(words):
    folder = os.path.dirname(os.path.dirname(os.path.abspath(__file__)))
    if words and os.path.isdir(words[0]):
        folder = words.pop(0)
    for kind, what, find in KINDS:
        places = list(find(folder))
        if not words:
            print(f'{kind:12} {len(places):4}  {what}')
        elif words[0] in kind:
            print('\n'.join(places))


main(sys.argv[1:])
