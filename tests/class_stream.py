#!/usr/bin/env python3
"""class_stream.py PROGRAM: a class program takes its input as a stream.

A class of 200,000 sheets, made while it is read and never whole anywhere, is reported right, in under 8 MB of resident
memory and in no more than a class of two takes: as many learners with a sheet each, and a fourth of them with four
turns each, of which the third counts. Of standard input no byte after the last sheet is read: each class is followed by
other bytes, which must be left in the pipe, in a file that is read from a place on, and where each read gives one byte.
Nor is one waited for: the report of a class, and of a stop, comes while the pipe stays open. (The lines are gathered
before they are written: they need not come as the sheets come. Of a class that stops, bytes behind the stop may have
been read, if they are of entries that its first number told.) Prints `N passed, M failed`.
"""
import fcntl
import os
import re
import socket
import struct
import subprocess
import sys
import tempfile
import termios
import time

from by_hand import shortest

MANY = 200000
MOST_KB = 8192
NOISE_KB = 512
SECONDS = 60
AFTER = b'\1\2\3 bytes after the last sheet\n'
# Main is granted and started: two records, one start.
SHEET = bytes([1, 10, 2, 11, 2])


def entry(learner, sheet, turn=1):
    return shortest(learner) + shortest(turn) + shortest(len(sheet)) + sheet


def turned_in(learner, turns):
    """A learner's sheets, of the turns told; all but the highest are a first number alone."""
    return b''.join(entry(learner, SHEET if turn == max(turns) else SHEET[:1], turn) for turn in turns)


def parts(learners, turns):
    """A class file of so many learners with these turns, some at a time."""
    yield shortest(learners * len(turns))
    for first in range(0, learners, 1000):
        yield b''.join(turned_in(k, turns) for k in range(first, min(first + 1000, learners)))


def report(learners, turns):
    """The class report of such a file."""
    yield b'class 1\n'
    for first in range(0, learners, 1000):
        yield b''.join(b'%d %d 2 0 1 0\n' % (k, max(turns)) for k in range(first, min(first + 1000, learners)))
    yield b'%d 0 %d 0\n' % (2 * learners, learners)


def streamed(program, learners, turns):
    """What the program prints of a class that is written into a pipe; and how much memory was resident, in KB, at most, when it
    waited for the last byte."""
    with tempfile.TemporaryFile() as printed:
        run = subprocess.Popen([program], stdin=subprocess.PIPE, stdout=printed)
        last = b''
        for part in parts(learners, turns):
            run.stdin.write(last + part[:-1])
            last = part[-1:]
        run.stdin.flush()
        while struct.unpack('i', fcntl.ioctl(run.stdin, termios.FIONREAD, bytes(4)))[0]:
            time.sleep(0.01)
        with open('/proc/%d/status' % run.pid, encoding='ascii') as status:
            resident = int(re.search(r'VmHWM:\s*(\d+) kB', status.read()).group(1))
        run.stdin.write(last)
        run.stdin.close()
        run.wait(SECONDS)
        printed.seek(0)
        return printed.read(), resident


def left_in_pipe(program, file):
    """What the program prints of a class file in a pipe, and what it leaves there."""
    reading, writing = os.pipe()
    os.write(writing, file + AFTER)
    os.close(writing)
    with open(reading, 'rb', buffering=0) as pipe:
        printed = subprocess.run([program], stdin=pipe, stdout=subprocess.PIPE, timeout=SECONDS).stdout
        return printed, pipe.read()


def left_in_file(program, file):
    """The same of a class file that begins at a place of another file."""
    with tempfile.TemporaryFile(buffering=0) as whole:
        whole.write(AFTER + file + AFTER)
        whole.seek(len(AFTER))
        printed = subprocess.run([program], stdin=whole, stdout=subprocess.PIPE, timeout=SECONDS).stdout
        return printed, whole.read()


def by_bytes(program, file):
    """What the program prints of a class file of which each read gives one byte, and what it leaves."""
    ours, its = socket.socketpair(socket.AF_UNIX, socket.SOCK_SEQPACKET)
    with ours, its:
        run = subprocess.Popen([program], stdin=its, stdout=subprocess.PIPE)
        for byte in file + AFTER:
            ours.send(bytes([byte]))
        ours.shutdown(socket.SHUT_WR)
        printed = run.communicate(timeout=SECONDS)[0]
        return printed, b''.join(iter(lambda: its.recv(1), b''))


def while_open(program, file):
    """What the program prints of a class file in a pipe that nobody closes."""
    reading, writing = os.pipe()
    os.write(writing, file)
    with open(reading, 'rb', buffering=0) as pipe, open(writing, 'wb', buffering=0):
        try:
            return subprocess.run([program], stdin=pipe, stdout=subprocess.PIPE, timeout=SECONDS).stdout
        except subprocess.TimeoutExpired:
            return b''


# What a class file has, its bytes, and its report. A sheet that is cut short reads nothing of what follows it.
CLASSES = [
    ('two sheets', b'\2' + entry(7, SHEET) + entry(300, SHEET), b'class 1\n7 1 2 0 1 0\n300 1 2 0 1 0\n4 0 2 0\n'),
    ('no sheets', b'\0', b'class 1\n0 0 0 0\n'),
    ('an empty sheet', b'\1' + entry(7, b''), b'class 1\n7 1 1 1 0 0\n1 1 0 0\n'),
    ('a sheet cut short', b'\1' + entry(7, SHEET[:-1]), b'class 1\n7 1 2 1 0 0\n2 1 0 0\n'),
    ('a sheet of 32,768 bytes', b'\1' + entry(7, bytes(32768)), b'class 1\n7 1 1 1 0 0\n1 1 0 0\n'),
    ('a later turn', b'\2' + entry(7, SHEET) + entry(7, b'', 2), b'class 1\n7 2 1 1 0 0\n1 1 0 0\n'),
    ('an earlier turn', b'\2' + entry(7, SHEET, 2) + entry(7, b'\1'), b'class 1\n7 2 2 0 1 0\n2 0 1 0\n'),
    ('a lower learner', b'\2' + entry(7, SHEET) + entry(6, SHEET), b'class 1\n7 1 2 0 1 0\nstop 23\n'),
]

# Classes of a hundred sheets that stop at the first or the second.
STOPS = [
    ('a number with a group too many', b'\x64\x80\0', b'class 1\nstop 4\n'),
    ('a sheet that is too long', b'\x64\7\1' + shortest(32769), b'class 1\nstop 22\n'),
    ('a lower learner of many', b'\x64' + entry(7, SHEET) + entry(6, SHEET), b'class 1\n7 1 2 0 1 0\nstop 23\n'),
]


def tests(program):
    """Each test: what it shows, what came, what must come."""
    few, least = streamed(program, 2, [1])
    yield 'two sheets in a pipe', few, b''.join(report(2, [1]))
    for learners, turns in [(MANY, [1]), (MANY // 4, [1, 0, 3, 2])]:
        many, most = streamed(program, learners, turns)
        print('resident: %d KB for 2 sheets, %d KB for %d' % (least, most, MANY))
        yield '%d learners with turns %s in a pipe' % (learners, turns), many, b''.join(report(learners, turns))
        yield 'less than %d KB' % MOST_KB, most < MOST_KB, True
        yield 'as much as for two sheets', most <= least + NOISE_KB, True
    for name, file, wanted in CLASSES:
        yield name + ' in a pipe', left_in_pipe(program, file), (wanted, AFTER)
        yield name + ' in a file', left_in_file(program, file), (wanted, AFTER)
        yield name + ' byte by byte', by_bytes(program, file), (wanted, AFTER)
    for name, file, wanted in CLASSES + STOPS:
        yield name + ' in an open pipe', while_open(program, file), wanted


def main():
    if len(sys.argv) != 2:
        print(__doc__)
        return 2
    passed, failed = 0, 0
    for name, got, wanted in tests(os.path.abspath(sys.argv[1])):
        passed, failed = passed + (got == wanted), failed + (got != wanted)
        if got != wanted:
            print('%s: got %.200r, not %.200r' % (name, got, wanted))
    print('%d passed, %d failed' % (passed, failed))
    return 1 if failed or not passed else 0


if __name__ == '__main__':
    sys.exit(main())
