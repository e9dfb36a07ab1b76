#!/usr/bin/env python3
"""random_sheets.py PROGRAM: the sheet program beside the second engine's, on random sheets, lines compared byte by byte.

2,000 sheets of each edition of the second engine's generator (some cut short, some with bits flipped), and 1,000 of nested tasks, whose
ends climb; then of some short ones of each kind every cut, and every byte changed. Prints each difference and last
`N passed, M failed`.
"""
import os
import sys

from random_files import compared

ROOT = os.path.dirname(os.path.dirname(os.path.abspath(__file__)))
BUILT = os.path.join(ROOT, 'tests', 'second', 'target', 'release')
SEED = '20261115'
FEW = 6
KINDS = [(2000, ['1']), (2000, ['2']), (1000, ['nested'])]


def main():
    if len(sys.argv) != 2:
        print(__doc__)
        return 2
    program = os.path.abspath(sys.argv[1])
    return compared(program, os.path.join(BUILT, 'sheet'), os.path.join(BUILT, 'generate'), SEED, FEW, KINDS)


if __name__ == '__main__':
    sys.exit(main())
