#!/usr/bin/env python3
"""make_cases.py [--check]: writes the computed cases of crates/cases from the second engine's lists and answers.

The second engine (tests/second, built with `cargo build --release`) draws lists of calls and answers them; each becomes
one declaration of antt, closed by `refl`, that the rules answer the same and, for some lists, keep more than that:
  Answers*.antt      60 calls: the answers
  SoundAlong*.antt   25 calls: the answers, and that the session is sound after each call
  DemandAlong*.antt  60 calls, then moves until nothing moves: the answers, and the claims of demand 3
Lists of edition 1, then in files of their own lists of edition 2, which have counted events.
With --check it writes nothing and says whether the files are as it would write them.
"""
import os
import re
import subprocess
import sys

ROOT = os.path.dirname(os.path.dirname(os.path.abspath(__file__)))
SPECS = os.path.join(ROOT, 'crates', 'cases', 'specs')
BUILT = os.path.join(ROOT, 'tests', 'second', 'target', 'release')
MOST_IN_A_SHEET = 2 ** 32 - 1
LAST_CODE = {1: 12, 2: 13}
# The codes that make objects.
MAKERS = (1, 2, 3, 4, 13)
MADE = re.compile(r'(Answers|SoundAlong|DemandAlong)\d+\.antt')

# The kinds of case: file, what it shows, the claim, calls drawn, lists to a file, seeds of each edition. The first
# thirteen seeds of Answers meet between them every pair of operation and refusal that lists of 60 calls meet at the seeds
# below 1,500 (refusals 19 to 21 need longer ones); 366 and 493 have an end
# that climbs 2 steps and destroyed tasks that climb 2 and 3. The others were taken for few objects and many kinds of call. Those of
# edition 2 meet between them, in each kind of case: operation 13, accepted and refused; 24; 14 and 11 on a counted event;
# links from it, after it fired too, and one to itself; its last delivery, of count 1 and more; deliveries that are
# dropped and count, the last one too; one destroyed open and one fired, which still delivers.
KINDS = [
    ('Answers', 'the answers', 'answered fresh_session', 60, 7,
     {1: [292, 923, 354, 1459, 636, 62, 2, 31, 80, 164, 267, 315, 440, 1, 3, 4, 5, 6, 7, 366, 493],
      2: [10111, 4232, 14331, 8872, 1851, 8933, 4124]}),
    ('SoundAlong', 'the answers, and a sound session after each call', 'sound_along fresh_session', 25, 5,
     {1: [925, 1156, 2361, 2784, 3168, 3296, 3991, 4356, 4415, 6252], 2: [20036, 5003, 11783, 44253, 11612]}),
    ('DemandAlong', 'the answers, and the claims of demand 3', 'demand_along fresh_session opening', 60, 5,
     {1: [775, 1194, 1405, 1701, 1909, 3804, 4320, 6031, 6552, 6677], 2: [7671, 16724, 3579, 19080, 12488]}),
]

HEAD = """-- Made by `python3 tests/make_cases.py` from lists and answers of the second engine: edit that and not this file.
-- Each list of calls is that of its seed%s: %s.
use Rattle.std.specs.Prelude.{◌≡◌, refl, true, [], ◌∷◌}
use Rattle.rules.specs.Step.{fresh_session}
%suse Rattle.cases.specs.Along.{line, %s}
"""


def output(program, words, given=b''):
    run = subprocess.run([os.path.join(BUILT, program)] + words, input=given, stdout=subprocess.PIPE, check=True)
    return run.stdout.decode().splitlines()


def drawn(edition, seed, calls):
    """The calls of a seed with their answers: code, fields, refusal, made."""
    lines = []
    for line in output('generate-ops', [str(seed), str(calls), str(edition)]):
        call, answer = line.split(' -> ')
        code, *fields = [int(word) for word in call.split()]
        lines.append((code, fields) + tuple(int(word) for word in answer.split()))
    return lines


def number(n):
    """Document 01's number: groups of seven bits, lowest first, high bit set on all but the last byte."""
    groups = bytearray()
    while n >= 128:
        groups.append(n % 128 + 128)
        n //= 128
    groups.append(n)
    return bytes(groups)


def answered(edition, calls):
    """The calls with the answers that the second engine's sheet program gives."""
    sheet = number(edition) + b''.join(number(n) for code, fields in calls for n in [code] + fields)
    lines = [[int(word) for word in line.split()] for line in output('sheet', [], sheet)]
    assert len(lines) == len(calls) + 1, 'the sheet ended early'
    return [(code, fields, refused, made) for (code, fields), (_, refused, made) in zip(calls, lines)]


def is_for_sheets(edition, lines):
    return all(1 <= code <= LAST_CODE[edition] and max(fields) <= MOST_IN_A_SHEET for code, fields, _, _ in lines)


def made_by(lines):
    """How many objects and links there are after the calls: a task with output makes two objects."""
    objects = 2 + sum(1 + (code == 2 and fields[4]) for code, fields, _, made in lines if code in MAKERS and made)
    return objects, sum(1 for code, _, _, made in lines if code == 5 and made)


def drained(edition, lines):
    """The list, and after it moves, each accepted, until no move is accepted."""
    while True:
        calls = [(code, fields) for code, fields, _, _ in lines]
        objects, links = made_by(lines)
        moves = [(9, [n]) for n in range(1, links + 1)]
        moves += [move for t in range(1, objects + 1) for move in [(10, [t]), (11, [t]), (12, [t, 0])]]
        tried = answered(edition, calls + moves)
        assert tried[:len(lines)] == lines, 'the generator and the sheet program disagree'
        accepted = [line for line in tried[len(lines):] if line[2] == 0]
        if not accepted:
            return lines
        lines = lines + accepted


def listed(name, edition, seed, calls):
    lines = drawn(edition, seed, calls)
    if name != 'DemandAlong':
        return lines
    assert is_for_sheets(edition, lines), 'seed %d has calls that no sheet can have' % seed
    return drained(edition, lines)


def case(formula, seed, lines):
    rows = ['line %d (%s) %d %d' % (code, ' ∷ '.join([str(n) for n in fields] + ['[]']), refused, made)
            for code, fields, refused, made in lines]
    return '\nseed%d : %s (\n    %s\n    ∷ []) ≡ true\nunfolding %s\nseed%d = refl\n' % (
        seed, formula, '\n    ∷ '.join(rows), formula.split()[0], seed)


def files():
    """Every file's name and text."""
    for name, shows, formula, calls, to_a_file, seeds in KINDS:
        book = 'use Rattle.rules.specs.Book.{opening}\n' if 'opening' in formula else ''
        parts = [(edition, some[k:k + to_a_file]) for edition, some in seeds.items() for k in range(0, len(some), to_a_file)]
        for place, (edition, part) in enumerate(parts, 1):
            text = HEAD % (', of edition 2' if edition == 2 else '', shows, book, formula.split()[0])
            text += ''.join(case(formula, seed, listed(name, edition, seed, calls)) for seed in part)
            yield '%s%d' % (name, place), text


def standing():
    """The files of cases that stand there now."""
    names = [name for name in os.listdir(SPECS) if name == 'Lib.antt' or MADE.fullmatch(name)]
    return {name[:-5]: open(os.path.join(SPECS, name), encoding='utf-8').read() for name in names}


def main():
    made = dict(files())
    made['Lib'] = ''.join('pub mod %s\n' % name for name in ['Along', 'DocumentListing'] + list(made))
    old = standing()
    changed = [name for name in made if old.get(name) != made[name]] + [name for name in old if name not in made]
    if '--check' in sys.argv:
        for name in changed:
            print('not as made: crates/cases/specs/%s.antt' % name)
        print('%d passed, %d failed' % (max(len(made) - len(changed), 0), len(changed)))
        return 1 if changed else 0
    for name in changed:
        path = os.path.join(SPECS, name + '.antt')
        if name not in made:
            os.remove(path)
            continue
        with open(path, 'w', encoding='utf-8') as file:
            file.write(made[name])
    print('%d files of cases, %d of them written or removed' % (len(made), len(changed)))
    return 0


if __name__ == '__main__':
    sys.exit(main())
