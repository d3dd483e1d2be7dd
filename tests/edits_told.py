#!/usr/bin/env python3
"""What tests/edits.py makes of what the prover says: which wrong programs count, and which do not. No prover is asked: a small crate, edits of each sort, and
what is said of them, in the prover's words.

usage: edits_told.py     the last line is `N passed, M failed`
"""
import contextlib
import io
import os
import sys
import tempfile

sys.dont_write_bytecode = True
sys.path.insert(0, os.path.dirname(os.path.abspath(__file__)))
import edit_counts
import edits
import kit

SOURCE = '''// Numbers.
pub fn next(x: u32) -> u32
    requires { x < 9 }
    ensures { result ≡ x + 1 }
{
    x + 1
}

pub fn sum(n: u32) -> u32
    ensures { result ≡ n }
{
    let mut s = 0;
    for _k in 0..n {
        s = next(s);
    }
    s
}
'''
NEXT, SUM = 'fn next\nfile: src/lib.rt\nold:     x + 1\nnew:     %s\n', 'fn sum\nfile: src/lib.rt\nold:         s = next(s);\nnew:         %s\n'
STUB = 'fn sum\nfile: src/lib.rt\nold: pub fn sum(n: u32) -> u32\nnew: fn other(x: u32) -> u32 requires { x < 9 } { x } pub fn sum(n: u32) -> u32\nfile: src/lib.rt\nold: next(s)\nnew: other(s)\n'
SAME = STUB.replace('requires { x < 9 }', 'ensures { result ≡ result }')
CONTRACT = 'fn next\nfile: src/lib.rt\nold: result ≡ x + 1\nnew: result ≡ x\n'
DEFINITION = 'fn next\nfile: specs/Next.antt\nold: suc n\nnew: n\n'


def open_goal(line, goal, name):
    """Of a goal the prover says where it stands, and right behind that what it says of the function."""
    return 'note: src/lib.rt:%d:5: it is not proved that so it is (`%s`)\nfn small::%s: not proved\n' % (line, goal, name)


def by_proof(file, goal, fact):
    return './proofs/%s:3:1: error: `%s`: %s\n' % (file, goal, fact)


# label, edit, what the prover says, and what becomes of it: counted at a return or in a loop, not counted and why, or not refused
ROWS = (
    ('a_return', NEXT % 'x + 2', open_goal(6, 'returns', 'next'), 'ensures'),
    ('a_return_by_a_proof', NEXT % 'x + 3', by_proof('next/Answers.antt', 'returns-then-x-lt9', 'the two types differ'), 'ensures'),
    ('a_loop', SUM % 's = next(s) - 1;', open_goal(14, 'for-preserved', 'sum'), 'loops'),
    ('a_loop_by_a_proof', SUM % 's += 0;', by_proof('sum/Invariants.antt', 'for-init', 'does not follow'), 'loops'),
    ('in_a_cycle', NEXT % 'x * 2', by_proof('+numbers/Answers/next.antt', 'next-returns', 'no proof of that'), 'ensures'),
    ('a_sum', NEXT % 'x + 4000000000', open_goal(6, 'add-fits', 'next'), 'is refused by add-fits'),
    ('a_requires', SUM % 's = next(s + 9);', open_goal(14, 'next-requires', 'sum'), 'is refused by next-requires'),
    ('an_index', SUM % 's = [0][s];', open_goal(14, 'index', 'sum'), 'is refused by index'),
    ('a_name', NEXT % 'y', 'note: src/lib.rt:6:5: there is no y\nfn small::next: not proved\n', 'not refused'),
    ('another_function', NEXT % 'x + 5', open_goal(14, 'returns', 'sum'), 'not refused'),
    ('another_proof', NEXT % 'x + 6', by_proof('next/Answers.antt', 'returns', 'stands on what is not proved'), 'not refused'),
    ('a_contract', CONTRACT, open_goal(6, 'returns', 'next'), 'changes a contract'),
    ('a_definition', DEFINITION, open_goal(6, 'returns', 'next'), 'changes a definition'),
    ('a_stub', STUB, open_goal(14, 'for-preserved', 'sum'), 'calls a function of its own that promises nothing'),
    ('a_stub_of_itself', SAME, open_goal(14, 'for-preserved', 'sum'), 'calls a function of its own that promises nothing'),
    ('z_twin', NEXT % 'x + 2', open_goal(6, 'returns', 'next'), 'is the change of small/a_return once more'),
)


class Check:
    def __init__(self):
        self.passed = self.failed = 0

    def __call__(self, holds, *what):
        self.passed += bool(holds)
        self.failed += not holds
        if not holds:
            print('not so:', *what)


def verdict(edit, goals):
    """What becomes of an edit, and what is printed of it."""
    count = edits.Count()
    with contextlib.redirect_stdout(io.StringIO()):
        count.add(edit, goals)
    told = [line.split(' ', 2)[2] for line in count.rest]
    return 'ensures' if count.ensures else 'loops' if count.loops else 'not refused' if count.failed else told[0]


def held(listed, found):
    """How many failures it is where the list has these lines, and these are not counted."""
    with open(edit_counts.NOT_COUNTED, 'w', encoding='utf-8') as it:
        it.writelines('%s why\n' % line for line in ('# nothing', *listed))
    count = edits.Count()
    count.rest = ['%s is refused by index' % line for line in found]
    with contextlib.redirect_stdout(io.StringIO()):
        count.hold({'small/an_index', 'small/a_return'})
    return count.failed


def main():
    check = Check()
    with tempfile.TemporaryDirectory() as room:
        kit.TOP, kit.folder = room, lambda name: os.path.join(room, 'crates', name)
        edit_counts.NOT_COUNTED = os.path.join(room, 'not_counted.txt')
        home = kit.folder('small')
        for folder in ('src', 'must-fail'):
            os.makedirs(os.path.join(home, folder))
        files = {'src/lib.rt': SOURCE, **{'must-fail/%s.edit' % label: text for label, text, _, _ in ROWS}}
        for name, text in files.items():
            with open(os.path.join(home, name), 'w', encoding='utf-8') as it:
                it.write(text)
        check(held([], []) == 0, 'an empty list, and nothing that it needs')
        for label, _, said, wanted in ROWS:
            edit = os.path.join(home, 'must-fail', label + '.edit')
            names = [it for group in edits.groups_of(edit) for it in group.names]
            goals = {it: edits.goals_of(edits.messages(said), 'small', *it) for it in names}
            got = verdict(edit, goals)
            check(got == wanted, label, got, 'and not', wanted)
            # the one line that rt ci tells is enough exactly where it is of the function's return or loop
            line = said.split('\n')[0]
            told = edits.told_by_line(line, 'small', names)
            check(bool(told) == (wanted in ('ensures', 'loops') or wanted.startswith(('changes', 'calls', 'is the'))), label, 'by its line', told)
        check(held([], ['small/an_index sum']) == 1, 'one that the list lacks')
        check(held(['small/an_index sum'], ['small/an_index sum']) == 0, 'one that the list has')
        check(held(['small/a_return next'], []) == 1, 'one that counts, and is in the list')
        check(held(['small/gone next'], []) == 1, 'one that is gone, and is in the list')
    print('%d passed, %d failed' % (check.passed, check.failed))
    return 1 if check.failed else 0


if __name__ == '__main__':
    sys.exit(main())
