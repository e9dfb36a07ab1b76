#!/usr/bin/env python3
"""refusals.py PROGRAM: runs every example of docs/REFUSALS.md through a sheet program.

The last answer line of each must have the refusal that the example stands under. An example that begins with the line `2` is run in
edition 2. The mode rule's sentence stands under 18 word for word as it stands over the definition `conflict`. Prints
`N passed, M failed`.
"""
import os
import re
import subprocess
import sys

sys.path.insert(0, os.path.dirname(os.path.abspath(__file__)))
import sheets  # noqa: E402  (the reader of sheet lines, in this folder)

ROOT = os.path.dirname(os.path.dirname(os.path.abspath(__file__)))
PAGE = os.path.join(ROOT, 'docs', 'REFUSALS.md')
MODES = os.path.join(ROOT, 'crates', 'rules', 'specs', 'Modes.antt')
STARTED = ['10 2', '11 2']
NO_SHEET = {1, 2, 19, 22, 23}
LAST = 24


def text_of(path):
    with open(path, encoding='utf-8') as file:
        return file.read()


def refusals():
    """The refusals of the page, each with what stands under it."""
    parts = re.split(r'^### (\d+)$', text_of(PAGE), flags=re.M)
    return [(int(number), body) for number, body in zip(parts[1::2], parts[2::2])]


def example_in(body):
    """The lines of an example, none where no sheet gives the refusal."""
    block = re.search(r'```\n(.*?)```', body, re.S)
    return block.group(1).splitlines() if block else []


def has_mode_rule(body):
    """Whether the sentence quoted over the definition of a conflict is there, wherever lines break."""
    quoted = re.search(r'^-- "([^"]+)"[^\n]*\nabbrev pub conflict :', text_of(MODES), re.M).group(1)
    return quoted + '.' in ' '.join(body.split())


def sheet_of(lines, whole):
    """The bytes of an example, behind the lines that start main unless it is the whole sheet."""
    if not whole:
        edition, *records = lines if lines[0] == '2' else ['1'] + lines
        lines = [edition] + STARTED + records
    first, last_code = sheets.first_bytes(lines[0].split())
    return first + b''.join(sheets.record_bytes(line.split(), last_code) for line in lines[1:])


def answered(program, data):
    """The refusal of the last answer line."""
    printed = subprocess.run([program], input=data, stdout=subprocess.PIPE, check=True).stdout.decode().splitlines()
    return int(printed[-2].split()[1])


def main():
    if len(sys.argv) != 2:
        print(__doc__)
        return 2
    passed, failed, seen = 0, 0, set()
    for number, body in refusals():
        seen.add(number)
        lines = example_in(body)
        if number in NO_SHEET and not lines:
            continue
        got = answered(sys.argv[1], sheet_of(lines, number == 5)) if lines else None
        if got == number:
            passed += 1
        else:
            failed += 1
            print('docs/REFUSALS.md: the example of %d gives %s' % (number, got))
        if number == 18 and has_mode_rule(body):
            passed += 1
        elif number == 18:
            failed += 1
            print('docs/REFUSALS.md: under 18 the mode rule is not told in the words of its definition')
    if seen != set(range(1, LAST + 1)):
        failed += 1
        print('docs/REFUSALS.md: not every refusal from 1 to %d is there' % LAST)
    print('%d passed, %d failed' % (passed, failed))
    return 1 if failed or not passed else 0


if __name__ == '__main__':
    sys.exit(main())
