#!/usr/bin/env python3
"""mutants.py [NAME..]: wrong rules, each with a computed counterexample to demand 3.

A mutant is an edit of one rule, with a short list of calls. Under the mutant a claim about that list computes to false: a
clause of demand 3 (crates/rules/specs/Demand.antt), or that the session after the list is sound (`sound_used`), where the rule of
soundness that fails is named too. Under the rules it computes to true. Both are shown by `refl`, in a copy of the definitions
with the edit and in one without. From the computed fact, tests/mutants/Counterexample.antt.txt proves under the mutant that
demand 3 does not hold of every list, `((os : List Operation) → Demand3 os) → ⊥`: what is shown false is the theorem, and not
only its proof. Harmless edits, which say the same in other words, are tried in the same way: there the claim of their mutant
must compute to true.

The copies have the files that Demand.antt needs and the types of the code, so that no edit is refused for something else.
Prints a line an edit, and last `N passed, M failed`. It takes some minutes on two cores.
"""
import concurrent.futures
import os
import queue
import re
import shutil
import subprocess
import sys
import tempfile
import time

ROOT = os.path.dirname(os.path.dirname(os.path.abspath(__file__)))
RULES = os.path.join(ROOT, 'crates', 'rules')
COUNTEREXAMPLE = os.path.join(ROOT, 'tests', 'mutants', 'Counterexample.antt.txt')

# Main is granted and starts; a task 4 without pre-slots, with one, with two; the same with an output event 5, a finish task.
RUNS = [(10, 2), (11, 2)]
NO_SLOT, ONE_SLOT, TWO_SLOTS = [RUNS + [(1, 2, n), (2, 2, 3, 17, 0, 0)] for n in (0, 1, 2)]
FINISH = RUNS + [(1, 2, 0), (2, 2, 3, 17, 1, 1), (10, 4), (11, 4)]
# Sticky 3 and idempotent 4; once 3 and a task 5 whose slot waits for it; two events of type once, 4 waiting for 3.
STICKY = RUNS + [(3, 2, 3), (3, 2, 2)]
LINKED = RUNS + [(3, 2, 1), (1, 2, 1), (2, 2, 4, 17, 0, 0), (5, 2, 3, 5, 0, 1)]
CHAINED = RUNS + [(3, 2, 1), (3, 2, 1), (5, 2, 3, 4, 0, 1)]
# Counted event 3 for one link, which leads to idempotent 4, or to itself.
COUNTED = RUNS + [(13, 2, 1), (3, 2, 2), (5, 2, 3, 4, 0, 1)]
TO_ITSELF = RUNS + [(13, 2, 1), (5, 2, 3, 3, 0, 1)]

# name; the claim that fails; the calls; the file of `rules`, old text, new text. The claims, with what they are about:
# sound, the rule that fails, a live task that lacks nothing; starts-once, starts-ready, stuck: the task; finish-fires: the
# call and the task; bounded: the further moves.
MUTANTS = [
    # a start that leaves granted: here it is taken twice, and below without end
    ('start-is-repeated', ('starts_once', 2), RUNS + [(11, 2)],
     'Effects', 'start s t = put s TaskState t running', 'start s t = put s TaskState t (s TaskState t)'),
    ('start-while-waiting', ('starts_ready', 4), ONE_SLOT,
     'Checks', '(s TaskState t ≐ granted) ∷ []', '(s TaskState t ≼ granted) ∷ []'),
    ('second-claim-replaces', ('starts_ready', 4), ONE_SLOT + [(5, 2, 0, 4, 0, 1), (5, 2, 0, 4, 0, 1), (10, 4)],
     'Checks', '(is_kind s task d then s SlotMode (at d j) ≐ 0)', '(is_kind s task d then s SlotMode (at d j) ≼ 4)'),
    ('book-does-not-count-deliveries', ('starts_ready', 5), LINKED + [(6, 2, 3, 0, 0), (9, 1), (10, 5)],
     'Book',
     'enter_deliver b l = satisfies (enter b Struck l 1) (b LinkTarget l) (b LinkSlot l) (b Has (b LinkSource l))',
     'enter_deliver b l = enter b Struck l 1'),
    ('finish-waits-for-children-alone', ('finish_fires', (12, 4, 0), 4),
     FINISH + [(2, 4, 3, 17, 0, 0), (10, 6), (11, 6), (2, 6, 3, 17, 0, 0), (12, 6, 0)],
     'Effects', 'and not (busy s (e - 1))',
     'and each (s Objects 0 + 1) '
     '(λ h. not (is_kind s task h and s TaskState h ≼ running and s TaskCreator h ≐ e - 1))'),
    ('link-stays-ready', ('bounded', [(9, 1)] * 4), STICKY + [(6, 2, 3, 0, 0), (5, 2, 3, 4, 0, 1), (9, 1)],
     'Effects', 'put s LinkState l delivered', 'put s LinkState l ready'),
    ('start-leaves-granted', ('bounded', [(11, 2)] * 4), [(10, 2)],
     'Effects', 'start s t = put s TaskState t running', 'start s t = put s TaskState t (s TaskState t)'),
    # grants that never come, from task 3 on
    ('no-grant-but-to-main', ('stuck', 4), NO_SLOT + [(12, 2, 0)],
     'Checks', 'check 11 (remains t) ∷ check 16 (s TaskState t ≐ resolved)',
     'check 11 (not (3 ≼ t)) ∷ check 16 (s TaskState t ≐ resolved)'),
    # what is granted never starts
    ('start-from-resolved', ('stuck', 2), [(10, 2)],
     'Checks', '(s TaskState t ≐ granted) ∷ []', '(s TaskState t ≐ resolved) ∷ []'),
    ('count-is-not-kept', ('sound', 'counts', 2), RUNS + [(1, 2, 0)],
     'Effects', 'new s h kind = put (put s Objects 0 h) Kind h kind', 'new s h kind = put (put s Objects 0 0) Kind h kind'),
    ('two-holds-at-creation', ('sound', 'objects', 2), RUNS + [(4, 2, 2)],
     'Checks', 'check 7 (hold ≼ 1)', 'check 7 (hold ≼ 2)'),
    ('release-empties-the-slot', ('sound', 'roots', 2), RUNS + [(7, 2, 1)],
     'Effects', 'which (s SlotPayload i)) satisfied (s SlotMark i)', 'which (s SlotPayload i)) 0 (s SlotMark i)'),
    ('running-task-destroyed', ('sound', 'creators', 2), NO_SLOT + [(10, 4), (11, 4), (2, 4, 3, 17, 0, 0), (8, 2, 4)],
     'Checks', '(is_kind s task h then s TaskState h ≼ resolved)', '(is_kind s task h then s TaskState h ≼ running)'),
    ('finish-never-fires', ('sound', 'outputs', 2), FINISH + [(12, 4, 0)],
     'Effects', 'fire_finished (choose (s TaskOutput t ≐ 1 and s TaskFinish t ≐ 0) (fire_one r (t + 1) b) r)',
     'choose (s TaskOutput t ≐ 1 and s TaskFinish t ≐ 0) (fire_one r (t + 1) b) r'),
    ('delivery-leaves-the-slot-unsatisfied', ('sound', 'slots', 2), LINKED + [(6, 2, 3, 0, 0), (9, 1)],
     'Effects', '(satisfy r d j (s EventPayload (s LinkSource l)))',
     '(choose (is_kind s task d) r (satisfy r d j (s EventPayload (s LinkSource l))))'),
    ('fired-links-stay-open', ('sound', 'links', 2), CHAINED + [(6, 2, 3, 0, 0)],
     'Effects', 'fires (s LinkSource l)) ready (s LinkState l)', 'fires (s LinkSource l)) link_open (s LinkState l)'),
    ('destroyed-event-drops-ready-links', ('sound', 'links', 2),
     STICKY + [(5, 2, 3, 4, 0, 1), (6, 2, 3, 0, 0), (8, 2, 3)],
     'Effects', '(s LinkState l ≐ link_open)) cut', '(s LinkState l ≼ ready)) cut'),
    ('second-link-to-a-slot', ('sound', 'one_link', 2), LINKED + [(5, 2, 3, 5, 0, 1)],
     'Checks', '(is_kind s task d then s SlotMode (at d j) ≐ 0)', '(is_kind s task d then s SlotMode (at d j) ≼ 4)'),
    ('grant-holds-one-slot', ('sound', 'states', 2), TWO_SLOTS + [(5, 2, 1, 4, 0, 2), (5, 2, 1, 4, 1, 2), (10, 4)],
     'Effects', '((i / 16 ≐ t) and (1 ≼ s SlotPayload i)) held', '((i ≐ at t 0) and (1 ≼ s SlotPayload i)) held'),
    ('end-keeps-holds', ('sound', 'states', 2), ONE_SLOT + [(5, 2, 1, 4, 0, 2), (10, 4), (11, 4), (12, 4, 0)],
     'Effects', 'let r = put (let_go s t (λ k. 0 ≐ 0)) TaskState t ended in', 'let r = put s TaskState t ended in'),
    ('doomed-blocks-stay', ('sound', 'blocks', 2),
     ONE_SLOT + [(4, 2, 0), (5, 2, 5, 4, 0, 2), (10, 4), (11, 4), (8, 2, 5), (12, 4, 0)],
     'Effects', 'doomed and not (is_held s b)) block_destroyed', 'doomed and not (is_held s b)) doomed'),
    ('grant-checks-one-slot', ('sound', 'compatible', 2), TWO_SLOTS + [(5, 2, 0, 4, 0, 1), (5, 2, 1, 4, 1, 3), (10, 4)],
     'Checks', '(each (s TaskSlots t) (λ j. slot_free t (at t j)))', '(each 1 (λ j. slot_free t (at t j)))'),
    # what check 18 asks no longer keeps what soundness asks
    ('hold-in-RW-stops-nobody', ('sound', 'compatible', 2), ONE_SLOT + [(5, 2, 1, 4, 0, 3), (10, 4)],
     'Modes', 'stopped_by asked held = conflict asked held', 'stopped_by asked held = conflict asked held and 3 ≼ held'),
    ('latch-fires-at-1', ('sound', 'latches', 2), RUNS + [(3, 2, 4), (6, 2, 3, 0, 1)],
     'Effects', 'choose (n ≐ even_tally) (fire_one r e 0) r', 'choose (n ≐ even_tally + 1) (fire_one r e 0) r'),
    ('drop-counts-twice', ('sound', 'dropped', 2),
     RUNS + [(3, 2, 3), (3, 2, 3), (6, 2, 3, 0, 0), (6, 2, 4, 0, 0), (5, 2, 3, 4, 0, 1), (9, 1)],
     'Effects', '(s Dropped 0 + 1)', '(s Dropped 0 + 2)'),
    # a counted event that has served its count and is there still
    ('served-event-stays', ('sound', 'counted_events', 2), COUNTED + [(6, 2, 3, 0, 0), (9, 1)],
     'Effects', 'choose (serves_last s l) destroyed_fired (s EventState e)', 'choose (serves_last s l) fired (s EventState e)'),
    ('dropped-delivery-does-not-count', ('sound', 'counted_events', 2), TO_ITSELF + [(6, 2, 3, 0, 0), (9, 1)],
     'Effects', 'deliver s l = bring (expire s l) l',
     'deliver s l = bring (choose (drops s (s LinkTarget l) (s LinkSlot l)) s (expire s l)) l'),
    ('served-event-goes-unfired', ('sound', 'links', 2), COUNTED + [(6, 2, 3, 0, 0), (9, 1)],
     'Effects', 'choose (serves_last s l) destroyed_fired (s EventState e)', 'choose (serves_last s l) destroyed_unfired (s EventState e)'),
    ('link-past-the-count', ('sound', 'counted_events', 2), COUNTED + [(5, 2, 3, 4, 0, 1)],
     'Checks', 'check 24 (makes_link source then not (has_its_count s source))', 'check 24 (makes_link source then made s source)'),
    ('link-more-than-the-count', ('sound', 'counted_events', 2), COUNTED + [(5, 2, 3, 4, 0, 1)],
     'Reading', 'has_its_count e = is_counted e and s EventCount e ≼ links_from e',
     'has_its_count e = is_counted e and s EventCount e + 1 ≼ links_from e'),
    ('count-0-admitted', ('sound', 'objects', 2), RUNS + [(13, 2, 0)],
     'Checks', 'check 7 (is_link_count n)', 'check 7 (n ≐ 0 or is_link_count n)'),
]

# name of the mutant whose claim is tried, old text (in the mutant's file), new text that says the same
HARMLESS = [
    ('drop-counts-twice', '(s Dropped 0 + 1)', '(1 + s Dropped 0)'),
    ('grant-holds-one-slot', '((i / 16 ≐ t) and (1 ≼ s SlotPayload i)) held', '((1 ≼ s SlotPayload i) and (i / 16 ≐ t)) held'),
    ('grant-checks-one-slot', '(each (s TaskSlots t) (λ j. slot_free t (at t j)))', '(each 16 (λ j. slot_free t (at t j)))'),
    ('start-from-resolved', '(s TaskState t ≐ granted) ∷ []', '(granted ≐ s TaskState t) ∷ []'),
    ('hold-in-RW-stops-nobody', 'stopped_by asked held = conflict asked held', 'stopped_by asked held = conflict held asked'),
    ('served-event-stays', 'choose (serves_last s l) destroyed_fired (s EventState e)',
     'choose (not (serves_last s l)) (s EventState e) destroyed_fired'),
    ('link-past-the-count', 'check 24 (makes_link source then not (has_its_count s source))',
     'check 24 (not (makes_link source and has_its_count s source))'),
    ('count-0-admitted', 'check 7 (is_link_count n)', 'check 7 (1 ≼ n and is_link_count n)'),
]

# of each claim: the claim itself; what is computed with it; the law of Counterexample.antt.txt that refutes demand 3
CLAIMS = {
    'sound': ('sound_used (S os)', ['Able os {1}', 'test ({0} (S os)) ≡ false'], 'unsound os {1} steadily also0 fact'),
    'starts_once': ('starts_once os {0}', [], 'starts_twice os {0} steadily fact'),
    'starts_ready': ('is_start_ready os {0}', ['Able os 2'], 'starts_unready os {0} steadily also0 fact'),
    'finish_fires': ('fires_done os ({0}) {1}', ['Able os 2'], 'fires_early os ({0}) {1} steadily also0 fact'),
    'bounded': ('bounded os ({0})', ['steady (S os) (B os) ({0}) ≡ true', 'test (all_moves ({0})) ≡ true'],
                'moves_on os ({0}) steadily also0 also1 fact'),
    'stuck': ('unstuck os {0}', [], 'stuck_able os {0} steadily fact'),
}

NEEDED = re.compile(r'^(?:unfoldable |pub )*use Rattle\.rules\.(?:specs|proofs)\.(\w+)(?:\.| as )', re.M)
UNFOLDABLE = re.compile(r'^ *unfoldable pub (?:use \S+\.\{(\w+)\}|(\S+) :)', re.M)
FUNCTION = re.compile(r'^(?:#\[tactic\([^\n]*\n)?(?:(?:pub )?fn|impl) .*?^}\n', re.M | re.S)


def text_of(path):
    with open(path, encoding='utf-8') as file:
        return file.read()


def write(path, text):
    os.makedirs(os.path.dirname(path), exist_ok=True)
    with open(path, 'w', encoding='utf-8') as file:
        file.write(text)


def spec(name):
    return os.path.join(RULES, 'specs', name + '.antt')


def modules():
    """The files of `rules` that demand 3 needs, and the laws of formulas, in the order of its Lib.antt."""
    wanted, found = ['Demand', 'FormulaLaws'], set()
    while wanted:
        name = wanted.pop()
        if name not in found and os.path.exists(spec(name)):
            found.add(name)
            wanted += NEEDED.findall(text_of(spec(name)))
    return [name for name in re.findall(r'mod (\w+)', text_of(spec('Lib'))) if name in found]


def copy_of_session(folder):
    """The crate that the definitions stand on, without what checks kept of it: a check in the copy finds that by itself."""
    session = os.path.join(ROOT, 'crates', 'session')
    shutil.copytree(session, os.path.join(folder, 'crates', 'session'), ignore=shutil.ignore_patterns('out'))


def copy_of_rules(folder):
    """The definitions in a repository of their own: the files that demand 3 needs, and of the code the types."""
    crates = os.path.join(folder, 'crates')
    for name in os.listdir(os.path.join(RULES, 'src')):
        code = text_of(os.path.join(RULES, 'src', name))
        write(os.path.join(crates, 'rules', 'src', name), FUNCTION.sub('', re.sub(r'ghost use .*\n', '', code)))
    for name in modules():
        write(os.path.join(crates, 'rules', 'specs', name + '.antt'), text_of(spec(name)))
    write(os.path.join(crates, 'rules', 'specs', 'Lib.antt'), ''.join('pub mod %s\n' % name for name in modules()))
    write(os.path.join(folder, 'crates.txt'), 'session:\nrules: session\nwitness: rules session\n')
    witness = os.path.join(crates, 'witness')
    write(os.path.join(witness, 'src', 'lib.rt'), 'pub const FACTS: u64 = 1;\n')
    write(os.path.join(witness, 'proofs', 'Lib.antt'), 'pub mod Counterexample\npub mod Facts\n')
    write(os.path.join(witness, 'proofs', 'Counterexample.antt'), text_of(COUNTEREXAMPLE))


def operation(call):
    return 'call %d (%s)' % (call[0], ''.join('%d ∷ ' % field for field in call[1:]) + '[]')


def listed(calls):
    return ''.join(operation(call) + ' ∷ ' for call in calls) + '[]'


def argument(value):
    """A claim's argument as antt: a rule or a task, a call, a list of calls."""
    return listed(value) if isinstance(value, list) else operation(value) if isinstance(value, tuple) else str(value)


def head():
    """The head of the file of facts: all that a call computes with is unfolded."""
    uses, unfolded = [], ['put', 'change']
    for name in modules():
        names = [a or b for a, b in UNFOLDABLE.findall(text_of(spec(name)))]
        if names and name != 'Demand':
            uses.append('use Rattle.rules.specs.%s.{%s}' % (name, ', '.join(names)))
            unfolded += names
    own = ['leaves', 'entry', 'entries', 'takes', 'steady']
    claims = ['call', 'S', 'B', 'Steady', 'Able', 'Demanded', 'all_moves']
    claims += re.findall(r'^pub (\w+) :', text_of(COUNTEREXAMPLE), re.M)
    claims += [claim[0].split()[0] for name, claim in CLAIMS.items() if name != 'sound']
    rules = sorted({mutant[1][1] for mutant in MUTANTS if mutant[1][0] == 'sound'})
    return '\n'.join([
        'use Rattle.std.specs.Prelude.{ℕ, ◌≡◌, refl, true, false, List, [], ◌∷◌}',
        'use Rattle.session.specs.Table.{put, change}',
        'use Rattle.rules.specs.declared.Operation.{Operation}'] + uses + [
        'use Rattle.rules.specs.Sound.{%s}' % ', '.join(rules),
        'use Rattle.witness.proofs.Counterexample.{%s}' % ', '.join(own + claims), '',
        'unfoldable computed : ℕ', 'unfolding ' + ' '.join(unfolded + own), 'computed = 0', ''])


def facts(mutant, verdict, mark=''):
    """What is computed of a mutant's list: under the rules (true) the claim alone; under the mutant (false) what refutes
    demand 3 with it. The mark tells the lists of one file apart."""
    _, (name, *about), calls = mutant[:3]
    claim, computed, law = CLAIMS[name]
    stated = [('fact', 'test (%s) ≡ %s' % (claim, verdict))]
    if verdict == 'false':
        stated += [('steadily', 'Steady os')] + [('also%d' % i, text) for i, text in enumerate(computed)]
    lines = ['', 'os%s : List Operation' % mark, 'os%s = %s' % (mark, listed(calls))]
    words = [argument(value) for value in about]
    for title, text in stated:
        text = re.sub(r'\bos\b', 'os' + mark, text.format(*words))
        lines += ['', '%s%s : %s' % (title, mark, text), 'unfolding computed os' + mark, title + mark + ' = refl']
    if verdict == 'false':
        lines += ['', 'refuted : Demanded → ⊥', 'refuted = ' + law.format(*words)]
    return '\n'.join(lines) + '\n'


def proved(folder, text):
    """Whether the facts are proved of the rules as they stand in the copy; else what was said."""
    witness = os.path.join(folder, 'crates', 'witness')
    write(os.path.join(witness, 'proofs', 'Facts.antt'), head() + text)
    run = subprocess.run(['rt', 'check'], cwd=witness, stdout=subprocess.PIPE, stderr=subprocess.STDOUT, text=True)
    errors = re.findall(r'^\S*(?:specs|proofs)/(\S+: error: .*)', run.stdout, re.M)
    return run.returncode == 0, (errors or run.stdout.splitlines())[0]


def tried(folder, mutant, old, new, verdict):
    """Whether the facts of a mutant are proved under an edit of its file."""
    path = os.path.join(folder, 'crates', 'rules', 'specs', mutant[3] + '.antt')
    text = text_of(path)
    if text.count(old) != 1:
        return False, '`%s` stands %d times in %s.antt' % (old, text.count(old), mutant[3])
    write(path, text.replace(old, new))
    answer = proved(folder, facts(mutant, verdict))
    write(path, text)
    return answer


def broken(mutant):
    """What a mutant breaks, in words."""
    name, *about = mutant[1]
    return '`%s` of a sound session' % about[0] if name == 'sound' else 'the clause `%s` of demand 3' % name


def edits(names):
    """Each edit to try: its line when it passes, when it fails, and what it is."""
    for mutant in MUTANTS:
        if not names or mutant[0] in names:
            yield ('%s: caught, %s is false (calls: %d)' % (mutant[0], broken(mutant), len(mutant[2])),
                   '%s: NOT caught' % mutant[0], (mutant, mutant[4], mutant[5], 'false'))
    for name, old, new in HARMLESS:
        if not names or name in names:
            mutant = next(mutant for mutant in MUTANTS if mutant[0] == name)
            yield ('%s, written `%s`: harmless, %s stays true' % (name, new, broken(mutant)),
                   '%s, written `%s`: taken for a mutant' % (name, new), (mutant, old, new, 'true'))


def tries(names):
    """All that is tried: the line of each when it holds, when it does not, and what it is, of a copy."""
    chosen = [mutant for mutant in MUTANTS if not names or mutant[0] in names]
    claims = ''.join(facts(mutant, 'true', str(i)) for i, mutant in enumerate(chosen))
    yield 'the rules: every claim is true', 'the rules: a claim is NOT shown true', lambda folder: proved(folder, claims)
    for good, bad, edit in edits(names):
        yield good, bad, lambda folder, edit=edit: tried(folder, *edit)


def copies(folder, count):
    """So many copies of the definitions, for as many tries at a time."""
    free = queue.Queue()
    for name in range(count):
        copy = os.path.join(folder, str(name))
        copy_of_session(copy)
        copy_of_rules(copy)
        free.put(copy)
    return free


def main():
    passed = failed = 0
    with tempfile.TemporaryDirectory() as folder, concurrent.futures.ThreadPoolExecutor(2) as pool:
        free = copies(folder, 2)

        def told(entry):
            good, bad, test = entry
            copy, began = free.get(), time.time()
            holds, why = test(copy)
            free.put(copy)
            return holds, '%s (%d s)' % (good if holds else '%s: %s' % (bad, why), time.time() - began)

        for holds, line in pool.map(told, tries(sys.argv[1:])):
            passed, failed = passed + holds, failed + (not holds)
            print(line, flush=True)
    print('%d passed, %d failed' % (passed, failed))
    return 1 if failed or not passed else 0


if __name__ == '__main__':
    sys.exit(main())
