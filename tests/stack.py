#!/usr/bin/env python3
"""The stack that include/faltxigor.h tells is enough for each of its functions.

Compiles tests/stack.c against the static library and runs it with so much stack, then with a third of it, on which it has to
die: so that a test that goes nowhere deep would be seen. The last line is `N passed, M failed`.
"""
import os
import re
import subprocess
import sys
import tempfile

ROOT = os.path.dirname(os.path.dirname(os.path.abspath(__file__)))
SOURCE = os.path.join(ROOT, 'tests', 'stack.c')
HEADER = os.path.join(ROOT, 'include', 'faltxigor.h')
LIBRARY = os.environ.get('FALTXIGOR_LIBRARY', os.path.join(ROOT, 'target', 'staticlib', 'liblibrary.a'))
FLAGS = ['-std=c99', '-D_GNU_SOURCE', '-O2', '-Wall', '-Wextra', '-Werror', '-pthread']


def main():
    with open(HEADER) as file:
        told = int(re.search(r'#define FALTXIGOR_STACK (\d+)', file.read()).group(1))
    with tempfile.TemporaryDirectory() as folder:
        program = os.path.join(folder, 'stack')
        subprocess.run(['cc'] + FLAGS + [SOURCE, LIBRARY, '-o', program], check=True)
        enough = subprocess.run([program], stdout=subprocess.PIPE, text=True)
        little = subprocess.run([program, str(told // 3)], stdout=subprocess.DEVNULL)
    if enough.returncode:
        print('dies or fails with %d bytes of stack: %s' % (told, enough.stdout.strip()))
    if little.returncode >= 0:
        print('does not die with %d bytes of stack' % (told // 3))
    counted = re.search(r'(\d+) passed, 0 failed', enough.stdout)
    passed = int(counted.group(1)) if counted and not enough.returncode else 0
    failed = (enough.returncode != 0) + (little.returncode >= 0)
    print('%d passed, %d failed' % (passed + (little.returncode < 0), failed))
    return 1 if failed else 0


if __name__ == '__main__':
    sys.exit(main())
