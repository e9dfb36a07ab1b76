#!/usr/bin/env python3
"""random_classes.py PROGRAM SECOND: two class programs on random class files, their reports compared byte by byte.

SECOND is the second engine's program; the generator, generate-classes, lies beside it. 600 of its class files (half
of them damaged); then of some short ones every cut, and every byte changed. Prints each difference and last
`N passed, M failed`.
"""
import os
import sys

from random_files import compared

KINDS = [(600, [])]
SEED = '20261116'
FEW = 4


def main():
    if len(sys.argv) != 3:
        print(__doc__)
        return 2
    program, second = map(os.path.abspath, sys.argv[1:])
    return compared(program, second, os.path.join(os.path.dirname(second), 'generate-classes'), SEED, FEW, KINDS)


if __name__ == '__main__':
    sys.exit(main())
