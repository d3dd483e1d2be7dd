"""How many wrong programs the edits under crates/*/must-fail have for each public function, and whether docs/TESTING.md names those that have fewer than two.

usage: edit_counts.py [--table]     the last line counts the public functions that have two; or the lines of the document's table

An edit counts for a function that it names, or in whose text its `old:` stands; for a public function, those of the private functions below it in its crate count, too.
What tests/edits_not_counted.txt lists does not count.
"""
import glob
import os
import re
import sys

sys.dont_write_bytecode = True
HERE = os.path.dirname(os.path.abspath(__file__))
sys.path.insert(0, os.path.join(os.path.dirname(HERE), 'tools'))
import kit

# They print, for tests: their contracts promise little.
PRINTING = ('scope_calls', 'tree_print')
HEAD = re.compile(r'^( *)(pub )?(?:const |unsafe |extern "C" )*fn (\w+)')
IMPL = re.compile(r'^impl(?:<[^>]*>)? (.* for )?(\w+)')
NOT_COUNTED = os.path.join(HERE, 'edits_not_counted.txt')
PAGE = os.path.join(kit.TOP, 'docs', 'TESTING.md')


def groups_of(edit):
    """Of each group of an edit the functions that it names, and the texts that it changes, with their files."""
    groups, file = [(set(), [])], None
    for line in open(edit, encoding='utf-8').read().split('\n'):
        if line.startswith(('fn ', 'law ')):
            if groups[-1][1]:
                groups.append((set(), []))
            if line.startswith('fn '):
                groups[-1][0].add(line[len('fn '):].strip())
        elif line.startswith('file: '):
            file = line[len('file: '):].strip()
        elif line.startswith('old: '):
            groups[-1][1].append((file, line[len('old: '):]))
    return groups


def not_counted():
    """The edits, CRATE/LABEL, and the functions for which they do not count."""
    with open(NOT_COUNTED, encoding='utf-8') as it:
        return {tuple(line.split()[:2]) for line in it if line.strip() and not line.startswith('#')}


class Function:
    def __init__(self, name, is_public):
        self.name, self.is_public, self.wrong, self.lines = name, is_public, 0, []

    def called(self):
        return set(re.findall(r'\b(\w+)(?:::<[^>]*>)?\(', re.sub(r'//.*', '', '\n'.join(self.lines))))


def functions_of(file, module):
    """The functions of a file, and of each line the function whose text it is in; attributes and comments are of the function behind them."""
    found, owners, here, kind = [], [], None, None
    lines = open(file, encoding='utf-8').read().split('\n')
    for line in lines:
        kind = IMPL.match(line) or kind
        head = HEAD.match(line)
        if head:
            inside = kind and head[1]
            name = '::'.join(module + ([kind[2]] if inside else []) + [head[3]])
            here = Function(name, bool(head[2] or inside and kind[1]))
            found.append(here)
        if here:
            here.lines.append(line)
        owners.append(here)
        if line == '}':
            here = kind = None
    for k in range(len(owners) - 2, -1, -1):
        if lines[k].lstrip().startswith(('//', '#')):
            owners[k] = owners[k] or owners[k + 1]
    return found, owners


class Crate:
    def __init__(self, name):
        self.functions, self.files = {}, {}
        home = kit.folder(name)
        for file in sorted(glob.glob(os.path.join(home, 'src', '**', '*.rt'), recursive=True)):
            path = os.path.relpath(file, os.path.join(home, 'src'))[:-len('.rt')]
            found, owners = functions_of(file, [] if path in ('lib', 'main') else path.split('/'))
            self.functions.update((it.name, it) for it in found)
            self.files[os.path.relpath(file, home)] = (open(file, encoding='utf-8').read(), owners)
        listed = not_counted()
        for edit in sorted(glob.glob(os.path.join(home, 'must-fail', '*.edit'))):
            label = '%s/%s' % (name, os.path.basename(edit)[:-len('.edit')])
            for names, changes in groups_of(edit):
                self.count(names, changes, {function for at, function in listed if at == label})

    def count(self, names, changes, without):
        for file, old in changes:
            text, owners = self.files.get(file, ('', []))
            at = text.find(old)
            owner = owners[text.count('\n', 0, at)] if at >= 0 else None
            names |= {owner.name} if owner else set()
        for name in (names & self.functions.keys()) - without:
            self.functions[name].wrong += 1

    def below(self, function, seen):
        """The private functions that a function calls, and those that they call."""
        for name in function.called():
            for it in self.functions.values():
                if it.name.split('::')[-1] == name and not it.is_public and it is not function and it not in seen:
                    seen.append(it)
                    self.below(it, seen)
        return seen

    def counts(self):
        """The public functions, and how many wrong programs they have."""
        for it in self.functions.values():
            if it.is_public:
                yield it.name, it.wrong + sum(each.wrong for each in self.below(it, []))


def table():
    """The lines of those that have fewer than two, and how many public functions have two."""
    rows, enough = [], 0
    for name in sorted(kit.read_crates()):
        counts = sorted(Crate(name).counts()) if name not in PRINTING else []
        few = [(function, count) for function, count in counts if count < 2]
        enough += len(counts) - len(few)
        if few:
            cells = [', '.join('`%s`' % function for function, count in few if count == wanted) for wanted in (1, 0)]
            rows.append('| %s | %s | %s |' % (name, *cells))
    return rows, enough


def main():
    wanted, enough = table()
    if '--table' in sys.argv[1:]:
        print('\n'.join(wanted))
        return 0
    lines = open(PAGE, encoding='utf-8').read().split('\n')
    start = lines.index('| Crate | One | None |') + 2
    found = lines[start:lines.index('', start)]
    apart = [line for line in wanted + found if (line in wanted) != (line in found)]
    for line in apart:
        print('docs/TESTING.md %s: %s' % ('lacks' if line in wanted else 'has', line))
    print('%d passed, %d failed' % (enough, len(apart)))
    return 1 if apart else 0


if __name__ == '__main__':
    sys.exit(main())
