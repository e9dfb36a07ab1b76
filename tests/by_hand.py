"""What the cases worked out by hand share: numbers, how a program is held to a case, and the command line.

A case is a text file: what a program reads, a line `---`, and what it must print (tests/sheets/README.md, tests/classes/README.md).
"""
import pathlib
import re
import shlex
import subprocess
import sys

SECONDS = 60


class BadCase(Exception):
    """A case file that does not keep to the format."""


def number(word, most=None):
    """A decimal number without needless zeros, at most `most` if that is given."""
    if not re.fullmatch(r"0|[1-9][0-9]*", word) or (most is not None and int(word) > most):
        raise BadCase(f"not a number{'' if most is None else f' up to {most}'}: {word!r}")
    return int(word)


def shortest(value):
    """The fewest bytes that write the number: seven bits a byte, lowest first."""
    out = bytearray()
    while value > 127:
        out.append(value % 128 + 128)
        value //= 128
    out.append(value)
    return bytes(out)


def difference(expected, got):
    """The first differing line, in words; None if there is none."""
    if expected == got:
        return None
    want, have = expected.splitlines(keepends=True), got.splitlines(keepends=True)
    for place in range(max(len(want), len(have))):
        one, other = (part[place] if place < len(part) else b"" for part in (want, have))
        if one != other:
            return f"line {place + 1}: expected {shown(one)}, got {shown(other)}"


def shown(line):
    """A line as it is shown to the reader; what is not plain is shown byte by byte."""
    if not line:
        return "no line"
    plain = re.fullmatch(rb"[ -~]*\n", line)
    return f"`{line[:-1].decode()}`" if plain else repr(line)[:80]


def fault(program, path, read_case):
    """What is wrong with the program on this case; None if nothing is."""
    try:
        given, expected = read_case(path)
    except (BadCase, OSError, UnicodeError) as bad:
        return f"malformed case: {bad}"
    try:
        run = subprocess.run(program, input=given, stdout=subprocess.PIPE, timeout=SECONDS)
    except (OSError, subprocess.TimeoutExpired) as bad:
        return f"the program did not run to its end: {bad}"
    if run.returncode < 0:
        return f"the program was ended by signal {-run.returncode}"
    return difference(expected, run.stdout)


def run_cases(program, paths, read_case):
    """Run all cases, print the failing ones and the sum; the exit status."""
    failed = 0
    for path in paths:
        wrong = fault(program, path, read_case)
        if wrong is not None:
            failed += 1
            print(f"{path.stem}: {wrong}")
    print(f"{len(paths) - failed} passed, {failed} failed")
    return 0 if paths and not failed else 1


def main(words, usage, folder, read_case):
    """The command line of a kind of case, which stand in a folder beside this file; the exit status."""
    if not words or (words[0] == "--bytes" and len(words) != 2):
        print(usage, file=sys.stderr)
        return 2
    if words[0] == "--bytes":
        try:
            sys.stdout.buffer.write(read_case(pathlib.Path(words[1]))[0])
        except (BadCase, OSError, UnicodeError) as bad:
            print(f"{words[1]}: malformed case: {bad}", file=sys.stderr)
            return 1
        return 0
    named = [pathlib.Path(word) for word in words[1:]]
    here = pathlib.Path(__file__).resolve().parent
    return run_cases(shlex.split(words[0]), named or sorted((here / folder).glob("*.txt")), read_case)
