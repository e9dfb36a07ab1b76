#!/usr/bin/env python3
"""Run the hand-written sheets of tests/sheets against a sheet program.

    python3 tests/sheets.py PROGRAM [FILES..]   compare PROGRAM's output with each case (default: tests/sheets)
    python3 tests/sheets.py --bytes FILE        write the bytes of one case's sheet to standard output

PROGRAM may carry arguments ("python3 engine.py"). The format of a case is described in tests/sheets/README.md.
The expected lines were worked out by hand from documents 01 and 02; no engine made them.
"""
import sys

from by_hand import BadCase, main, number, shortest

# How many fields follow each operation code, 1 to 13: a record written short or long by mistake would shift all
# records after it. A record that is wrong on purpose is given by `bytes`.
FIELDS = (2, 5, 2, 2, 5, 4, 2, 2, 1, 1, 1, 2, 2)
# The last of these codes that a sheet may use, by its first number, and if that is no edition.
LAST_CODE = {1: 12, 2: 13}
NO_EDITION = 12
LIMIT = 4294967295
# Those that a line can have: 22 and 23 are of class files.
REFUSALS = (*range(22), 24)


def first_bytes(words):
    """The bytes of the sheet's first number, and the last code that the records after it may have."""
    if words[0] == "repeat" or (words[0] != "bytes" and len(words) != 1):
        raise BadCase(f"{' '.join(words)!r} is not a first number alone")
    edition = None if words[0] == "bytes" else number(words[0], LIMIT)
    return record_bytes(words, 0), LAST_CODE.get(edition, NO_EDITION)


def record_bytes(words, last_code):
    """The bytes of one line of the sheet; fields are counted for the codes up to the last one."""
    if words[0] == "repeat":
        if len(words) < 3 or words[2] == "repeat" or words[1] == "0":
            raise BadCase("repeat wants a count from 1 and then one record")
        return number(words[1], LIMIT) * record_bytes(words[2:], last_code)
    if words == ["bytes"]:
        raise BadCase("bytes wants at least one byte")
    if words[0] == "bytes":
        return bytes(number(word, 255) for word in words[1:])
    values = [number(word, LIMIT) for word in words]
    if 1 <= values[0] <= last_code and len(values) != 1 + FIELDS[values[0] - 1]:
        raise BadCase(f"{' '.join(words)!r} wants {FIELDS[values[0] - 1]} numbers after the first")
    return b"".join(map(shortest, values))


def expected_lines(words):
    """The output lines that one line of the case stands for, as tuples of three numbers."""
    if len(words) != 3:
        raise BadCase(f"an expected line has three numbers: {' '.join(words)!r}")
    second, rises = number(words[1], LIMIT), words[2].endswith("+")
    third = number(words[2].removesuffix("+"), LIMIT)
    low, dots, high = words[0].partition("..")
    low, high = number(low, LIMIT), number(high if dots else low, LIMIT)
    if (dots and low >= high) or (rises and not dots):
        raise BadCase(f"not a range of lines: {' '.join(words)!r}")
    return [(k, second, third + rises * (k - low)) for k in range(low, high + 1)]


def check_order(lines, last):
    """Records are numbered from 1, or one line, 0, is that of the first number; the last line is no range."""
    if ".." in last[0]:
        raise BadCase("the last line is no range")
    numbers = [line[0] for line in lines[:-1]]
    if numbers != [0] and numbers != list(range(1, len(lines))):
        raise BadCase("the expected lines are not numbered 1, 2, ..")
    if any(line[1] not in REFUSALS for line in lines[:-1]):
        raise BadCase("refusals go to 21, and 24")


def read_case(path):
    """The sheet's bytes and the expected output's bytes."""
    sheet, lines, half, last_code, last = bytearray(), [], 0, None, []
    for place, text in enumerate(path.read_text(encoding="ascii").splitlines(), 1):
        words = text.split("#", 1)[0].split()
        try:
            if words == ["---"]:
                half += 1
            elif words and half == 0 and last_code is None:
                first, last_code = first_bytes(words)
                sheet += first
            elif words and half == 0:
                sheet += record_bytes(words, last_code)
            elif words:
                lines += expected_lines(words)
                last = words
        except BadCase as bad:
            raise BadCase(f"line {place}: {bad}") from None
    if half != 1 or not lines:
        raise BadCase("wants one line --- and expected lines after it")
    check_order(lines, last)
    return bytes(sheet), b"".join(b"%d %d %d\n" % line for line in lines)


if __name__ == "__main__":
    sys.exit(main(sys.argv[1:], __doc__, "sheets", read_case))
