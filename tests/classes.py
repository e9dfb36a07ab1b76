#!/usr/bin/env python3
"""Run the hand-written class files of tests/classes against a class program.

    python3 tests/classes.py PROGRAM [FILES..]   compare PROGRAM's report with each case (default: tests/classes)
    python3 tests/classes.py --bytes FILE        write the bytes of one case's class file to standard output

PROGRAM may carry arguments ("python3 class.py"). The format of a case is described in tests/classes/README.md.
The expected reports were worked out by hand from documents 01 and 02; no program made them.
"""
import sys

from by_hand import BadCase, main, number, shortest

STOPS = ("3", "4", "22", "23")


def file_bytes(words):
    """The bytes that one line of the case's upper half stands for."""
    out, rest = bytearray(), [word for word in words if word != "|"]
    while rest:
        word = rest.pop(0)
        if word == "repeat":
            if len(rest) < 2:
                raise BadCase("repeat wants a byte and how many times")
            byte, times = number(rest.pop(0), 255), number(rest.pop(0))
            out += times * bytes([byte])
        elif word.startswith("n:"):
            out += shortest(number(word[2:]))
        else:
            out.append(number(word, 255))
    return bytes(out)


def report_line(words):
    """One line of the case's lower half, as a tuple of words."""
    if words[0] not in ("class", "stop"):
        for word in words:
            number(word)
    return tuple(words)


def check_report(lines):
    """`class 1`, six numbers a learner, and last a stop or the sums, which add up."""
    if len(lines) < 2 or lines[0] != ("class", "1"):
        raise BadCase("the report begins with `class 1` and has a last line")
    sheets = [[int(word) for word in line] for line in lines[1:-1] if line[0] not in ("class", "stop")]
    if len(sheets) != len(lines) - 2 or any(len(sheet) != 6 for sheet in sheets):
        raise BadCase("each sheet has a line of six numbers")
    if any(one[0] >= after[0] for one, after in zip(sheets, sheets[1:])):
        raise BadCase("a learner has one line, and learners rise")
    if any(refused + starts > records for _, _, records, refused, starts, _ in sheets):
        raise BadCase("more refused records and starts than records")
    if lines[-1][0] == "stop":
        if lines[-1][1:] not in [(stop,) for stop in STOPS]:
            raise BadCase(f"a stop has one of the numbers {', '.join(STOPS)}")
    elif lines[-1] != tuple(str(sum(sheet[place] for sheet in sheets)) for place in range(2, 6)):
        raise BadCase("the last line is not the sums of the lines before it")


def read_case(path):
    """The class file's bytes and the expected report's bytes."""
    texts = path.read_text(encoding="ascii").splitlines()
    if not texts or not texts[0].startswith("# "):
        raise BadCase("the first line says in a comment what the case shows")
    file, lines, half = bytearray(), [], 0
    for place, text in enumerate(texts, 1):
        words = text.split("#", 1)[0].split()
        try:
            if words == ["---"]:
                half += 1
            elif words and half == 0:
                file += file_bytes(words)
            elif words:
                lines.append(report_line(words))
        except BadCase as bad:
            raise BadCase(f"line {place}: {bad}") from None
    if half != 1:
        raise BadCase("wants one line ---")
    check_report(lines)
    return bytes(file), "".join(" ".join(line) + "\n" for line in lines).encode()


if __name__ == "__main__":
    sys.exit(main(sys.argv[1:], __doc__, "classes", read_case))
