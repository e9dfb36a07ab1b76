#!/usr/bin/env python3
"""Sheets of edition 1, with the lines that the sheet program printed before E4 (tests/edition1).

    python3 tests/edition1.py PROGRAM          compare PROGRAM's lines with those that are kept
    python3 tests/edition1.py --make PROGRAM   write the files anew, with the lines of PROGRAM

The format of the files is described in tests/edition1/README.md. Since E5 the third number of an accepted end, and of an accepted
destroying of a task, is the steps climbed: there it was 0 and may be any number, and all else must be as it was kept. Prints each sheet
with other lines, and last `N passed, M failed`.
"""
import os
import pathlib
import re
import subprocess
import sys

import text
from by_hand import SECONDS, difference

HERE = pathlib.Path(__file__).resolve().parent
KEPT = HERE / 'edition1'
GENERATE = HERE / 'second' / 'target' / 'release' / 'generate'

# What is kept: of the second engine's generator, sheets of this seed, so many to a file and in all. Of a longer one the whole records
# within so many bytes are kept, and so many bytes where it ends with a bad record.
SEED = '20261128'
TO_A_FILE, COUNT = 50, 300
BYTES, ENDING = 1500, 32
LAST_CODE = 12

# Digits to a line of a sheet.
DIGITS = 120

# The operations that climb, if the one names a task, and the one that makes tasks; the task that is there from the beginning.
DESTROY, END, MAKE = 8, 12, 2
MAIN = 2

# The line of an accepted record, with what is before its third number.
ACCEPTED = re.compile(rb'(\d+ 0 )(?:0|[1-9]\d*)\n')


def printed(program, sheet):
    return subprocess.run([program], input=sheet, stdout=subprocess.PIPE, timeout=SECONDS, check=True).stdout


def read_kept(path):
    """The sheets of a file, each with its lines: digits have no blank between them, lines have."""
    for block in path.read_text(encoding='ascii').split('\n\n'):
        rows = block.splitlines()
        lines = [row for row in rows if ' ' in row]
        yield bytes.fromhex(''.join(rows[:len(rows) - len(lines)])), ''.join(line + '\n' for line in lines).encode()


def block_of(sheet, lines):
    digits = sheet.hex()
    rows = [digits[place:place + DIGITS] + '\n' for place in range(0, len(digits), DIGITS)]
    return ''.join(rows) + lines.decode()


def shortened(sheet):
    """A sheet that is not too long: of a longer one the first whole records and, if it can not be read to its end, the record that ends
    it behind them."""
    refused, _, at = text.read_number(sheet, 0)
    if len(sheet) <= BYTES or refused:
        return sheet[:BYTES]
    end = at
    while not refused and at < len(sheet):
        refused, _, behind = text.read_record(sheet, at, LAST_CODE)
        at = at if refused else behind
        end = at if at <= BYTES else end
    return sheet[:end] + sheet[at:at + ENDING]


def drawn():
    """Sheets of the generator whose first number is not 2, which was refused with 5 and is an edition now."""
    run = subprocess.run([GENERATE, SEED, str(2 * COUNT), '-'], stdout=subprocess.PIPE, text=True, check=True)
    sheets = [bytes.fromhex(line) for line in run.stdout.splitlines()]
    return [shortened(sheet) for sheet in sheets if text.read_number(sheet, 0)[:2] != (0, 2)][:COUNT]


def make(program):
    KEPT.mkdir(exist_ok=True)
    blocks = [block_of(sheet, printed(program, sheet)) for sheet in drawn()]
    for number, first in enumerate(range(0, COUNT, TO_A_FILE)):
        path = KEPT / f'sheets-{number:02}.txt'
        path.write_text('\n'.join(blocks[first:first + TO_A_FILE]), encoding='ascii')
    print(f'{len(blocks)} sheets written')
    return 0


def records_of(sheet):
    """The numbers of each record, up to one that can not be read."""
    refused, _, at = text.read_number(sheet, 0)
    while not refused and at < len(sheet):
        refused, numbers, at = text.read_record(sheet, at, LAST_CODE)
        if not refused:
            yield numbers


def climbing(sheet, lines):
    """The places of the kept lines, as rows, that have an accepted end or an accepted destroying of a task. The last row is no record's."""
    tasks = {MAIN}
    for place, (numbers, row) in enumerate(zip(records_of(sheet), lines[:-1])):
        _, refused, made = map(int, row.split())
        if numbers[0] == MAKE and not refused:
            tasks.add(made)
        if not refused and (numbers[0] == END or numbers[0] == DESTROY and numbers[2] in tasks):
            yield place


def before_climbs(sheet, kept, got):
    """What a program printed, with 0 in place of the steps climbed, as it was before E5."""
    rows = got.splitlines(keepends=True)
    for place in climbing(sheet, kept.splitlines()):
        line = ACCEPTED.fullmatch(rows[place]) if place < len(rows) else None
        if line:
            rows[place] = line[1] + b'0\n'
    return b''.join(rows)


def main():
    if len(sys.argv) == 3 and sys.argv[1] == '--make':
        return make(os.path.abspath(sys.argv[2]))
    if len(sys.argv) != 2:
        print(__doc__)
        return 2
    program, passed, failed = os.path.abspath(sys.argv[1]), 0, 0
    for path in sorted(KEPT.glob('*.txt')):
        for number, (sheet, lines) in enumerate(read_kept(path), 1):
            wrong = difference(lines, before_climbs(sheet, lines, printed(program, sheet)))
            passed, failed = passed + (wrong is None), failed + (wrong is not None)
            if wrong is not None:
                print(f'{path.name}, sheet {number}: {wrong}')
    print(f'{passed} passed, {failed} failed')
    return 0 if passed >= COUNT and not failed else 1


if __name__ == '__main__':
    sys.exit(main())
