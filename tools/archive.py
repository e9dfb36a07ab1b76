#!/usr/bin/env python3
"""archive.py CRATE FILE: proves and builds a static library (`rt lib` in its crate), and puts its archive in target/staticlib under that name."""
import os
import shutil
import subprocess
import sys

ROOT = os.path.dirname(os.path.dirname(os.path.abspath(__file__)))


def main(words):
    if len(words) != 2:
        print(__doc__)
        return 2
    crate, name = words
    folder = os.path.join(ROOT, 'crates', crate)
    built = os.path.join(folder, 'out', 'lib%s.a' % crate)
    if os.path.exists(built):
        os.remove(built)
    status = subprocess.run(['rt', 'lib'], cwd=folder, stdin=subprocess.DEVNULL).returncode
    if status or not os.path.exists(built):
        return status or 1
    target = os.path.join(ROOT, 'target', 'staticlib')
    os.makedirs(target, exist_ok=True)
    shutil.copyfile(built, os.path.join(target, name))
    return 0


if __name__ == '__main__':
    sys.exit(main(sys.argv[1:]))
