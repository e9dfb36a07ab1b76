#!/usr/bin/env python3
"""Run the two text programs on the sheets of tests/sheets, and on texts that are wrong.

    python3 tests/text.py TEXT_TO_SHEET SHEET_TO_TEXT

Of each sheet, of either edition, the text is made here, from documents 01 and 02 and docs/TEXT.md alone: `sheet_to_text` must print
it, and `text_to_sheet` must give the bytes back (those that could be read, where the sheet can not be read to its end).
"""
import pathlib
import subprocess
import sys

import by_hand
import sheets

NAMES = "template task event block dependence satisfy release destroy deliver grant start end counted".split()

# what is typed, and what is answered
TEXTS = [
    (b"", b""),
    (b"# nothing but a comment", b""),
    (b"1 # one\n10 2#grant\r\n\t007", bytes([1, 10, 2, 7])),
    (b"2\n13 2 16  # counted\n", bytes([2, 13, 2, 16])),
    (b"4294967295", bytes([255, 255, 255, 255, 15])),
    (b"4294967296", b"line 1\n"),
    (b"1\n# x\n10 2x\n-", b"line 3\n"),
    (b"1\n\n\n+2", b"line 4\n"),
    (b"1 " * 131072, bytes([1]) * 131072),
    (b"1 " * 131072 + b"1", b"more than 262144 bytes\n"),
    (b"\n" * 262143 + b"x", b"line 262144\n"),
    (b"x" * 300000, b"more than 262144 bytes\n"),
]


def read_number(data, at):
    """The number at a place and the place behind it; or refusal 3, or 4 and the place behind it."""
    end = at
    while end < len(data) and data[end] > 127:
        end += 1
    if end == len(data):
        return 3, None, None
    value = sum((data[i] & 127) << 7 * (i - at) for i in range(at, end + 1))
    good = value <= sheets.LIMIT and by_hand.shortest(value) == data[at:end + 1]
    return 0 if good else 4, value, end + 1


def read_record(data, at, last_code):
    """The refusal of the record at a place, where codes go up to the last one, its numbers, and the place behind it."""
    refused, code, at = read_number(data, at)
    if refused or not 1 <= code <= last_code:
        return refused or 6, None, None
    values, refusals = [code], []
    for _ in range(sheets.FIELDS[code - 1]):
        refused, value, at = read_number(data, at)
        if refused == 3:
            return 3, None, None
        refusals.append(refused)
        values.append(value)
    return max(refusals), values, at


def text_of(data):
    """The text of a sheet, and the bytes that could be read."""
    refused, first, at = read_number(data, 0)
    if refused or first not in sheets.LAST_CODE:
        return f"# record 0: refusal {refused or 5}\n".encode(), b""
    lines = [f"{first}\n"]
    while at < len(data):
        refused, values, behind = read_record(data, at, sheets.LAST_CODE[first])
        if refused:
            return "".join(lines + [f"# record {len(lines)}: refusal {refused}\n"]).encode(), data[:at]
        lines.append(f"{' '.join(map(str, values))}  # {NAMES[values[0] - 1]}\n")
        at = behind
    return "".join(lines).encode(), data


def run(program, data):
    """What the program writes to descriptors 1 and 2."""
    ran = subprocess.run([program], input=data, capture_output=True, timeout=by_hand.SECONDS, check=True)
    return ran.stdout, ran.stderr


def main():
    if len(sys.argv) != 3:
        print(__doc__)
        return 2
    to_sheet, to_text = sys.argv[1:]
    passed, failed = 0, 0
    checks = [(typed[:20], to_sheet, typed, wanted) for typed, wanted in TEXTS]
    for path in sorted(pathlib.Path(__file__).with_name("sheets").glob("*.txt")):
        data = sheets.read_case(path)[0][:32768]
        text, readable = text_of(data)
        checks += [(path.name, to_text, data, text), (path.name, to_sheet, text, readable)]
    for name, program, given, wanted in checks:
        if run(program, given) == (wanted, b""):
            passed += 1
        else:
            failed += 1
            print(f"{name}: {pathlib.Path(program).name} differs")
    print(f"{passed} passed, {failed} failed")
    return 1 if failed else 0


if __name__ == "__main__":
    sys.exit(main())
