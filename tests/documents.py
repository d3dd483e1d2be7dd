#!/usr/bin/env python3
"""What the documents name is there: crates, files, functions and laws; what they have to have is in them.

usage: documents.py     the last line is `N passed, M failed`

Of change notes (docs/PORT*.md and docs/DESIGN-PASS*.md), which also have names of before, only paths are looked at.
"""
import glob
import os
import re
import sys

sys.dont_write_bytecode = True
HERE = os.path.dirname(os.path.abspath(__file__))
sys.path.insert(0, os.path.join(os.path.dirname(HERE), 'tools'))
import kit

os.chdir(kit.TOP)
NOTES = ('docs/PORT', 'docs/DESIGN-PASS')
# a path of the repository, from its root on; what stands behind target/ is built, and behind out/ proved
PATH = re.compile(r'(?<![\w/.$~}\-])((?:crates|tests|docs|tools|script|oracle|caller|include|samples|\.ci)/[\w./*\-]+)')
BUILT = re.compile(r'(^|/)(target|out)(/|$)|/NAME/')
QUOTED = re.compile(r'`([^`]+)`')
COMMENT = re.compile(r'\s*(?://|--|#|\*|/\*)')
COMMENTED = ('.rt', '.antt', '.py', '.sh', '.bash', '.rs', '.h', '.c', '.js')
# the original's own, which the port has not
ORIGINAL = {'read_from_nested_scope', 'ident_type', 'with_child'}
NAME = re.compile(r'[A-Za-z_]\w*(?:-\w+)*(?:::[A-Za-z_]\w*)*')
# the first parts of crates' names, before a further one
LAYER = re.compile(r'(?<![\w`/.:\-])((?:def|file|laws|words|scope|walk|pass|resolve)_[a-z_]+)(?![\w(`])')
# tests that make copies with files of their own
OWN_COPIES = ('tests/gate_fails', 'tests/package.sh')
NUMBERS = 'none one two three four five six seven eight nine ten eleven twelve'.split()
# the headings of a request's note, and what it has to say under them, by document 02
HEADINGS = ('What moved, what stayed', "The check's time")
SAID = ('stayed', 'before', 'after')


class Count:
    def __init__(self):
        self.passed = self.failed = 0

    def check(self, holds, what):
        self.passed += bool(holds)
        self.failed += not holds
        if not holds:
            print('not so: ' + what)


def text_of(path):
    with open(path, encoding='utf-8', errors='replace') as it:
        return it.read()


def files_there():
    """All but what is built."""
    for at, folders, names in os.walk('.'):
        folders[:] = sorted(it for it in folders if it not in ('.git', 'target', 'out', '__pycache__'))
        yield from (os.path.relpath(os.path.join(at, it), '.') for it in sorted(names))


def is_there(path):
    """The file, folder or files of a pattern; of a name without its ending, as tools/build's, too."""
    return bool(glob.glob(path, recursive=True) or glob.glob(path + '.*') and '*' not in path)


def paths(count, files):
    """Each path that a document, a comment, a test or a tool names."""
    for file in files:
        if file.startswith(('tests/vectors/', 'wip/', 'samples/')) or file in OWN_COPIES or not file.endswith(ENDINGS) and '.' in os.path.basename(file):
            continue
        for number, line in enumerate(text_of(file).split('\n'), 1):
            for found in PATH.findall(line):
                path = re.split(r'[.,]?$', found.rstrip('/'))[0]
                if not BUILT.search(path) and not path.endswith(('-', '_')):
                    count.check(is_there(path), '%s:%d names %s' % (file, number, found))


ENDINGS = ('.md', '.rt', '.antt', '.py', '.sh', '.bash', '.rs', '.h', '.c', '.js', '.txt')


def words_of(files):
    """What the sources' lines have, but for comments, and the names of files and folders."""
    words = set(ORIGINAL)
    for file in files:
        if file.endswith('.md') or file.startswith(('tests/vectors/', 'wip/')):
            continue
        lines = text_of(file).split('\n')
        text = '\n'.join(line for line in lines if not (file.endswith(COMMENTED) and COMMENT.match(line)))
        words.update(re.findall(r'[A-Za-z_]\w*(?:-\w+)*', text))
        words.update(re.findall(r'[A-Za-z_]\w*', text))
        words.update((os.path.basename(file), os.path.basename(file).split('.')[0], *file.split('/')[:-1]))
    return words


def names(count, files, words):
    """Each name in backticks that could be one of the sources', and each crate, in documents and comments."""
    crates = kit.read_crates()
    for file in files:
        is_source = file.endswith(COMMENTED)
        if file.startswith(('wip/', *NOTES)) or not (is_source or file.endswith('.md')):
            continue
        for number, line in enumerate(text_of(file).split('\n'), 1):
            if is_source and not COMMENT.match(line):
                continue
            for quoted in QUOTED.findall(line):
                if NAME.fullmatch(quoted) and re.search(r'[_A-Z:]', quoted):
                    lost = [it for it in quoted.split('::') if it not in words]
                    count.check(not lost, '%s:%d names `%s`' % (file, number, quoted))
            for name in LAYER.findall(QUOTED.sub('', line)):
                count.check(name in crates or is_source and name in words, '%s:%d names the crate %s' % (file, number, name))


def layout(count):
    """README and ARCHITECTURE have each crate, and README each once."""
    readme, layers = text_of('README.md'), text_of('docs/ARCHITECTURE.md')
    rows = [line.split('|')[1] for line in readme[readme.index('## Layout'):].split('\n') if line.startswith('| crates/')]
    listed = [it for row in rows for it in re.findall(r'\w+', row.replace('crates/', ''))]
    for crate in kit.read_crates():
        count.check(listed.count(crate) == 1, "README's layout has the crate %s %d times" % (crate, listed.count(crate)))
        count.check(re.search(r'\b%s\b' % crate, layers), 'docs/ARCHITECTURE.md lacks the crate %s' % crate)
    for name in listed:
        count.check(os.path.isdir(kit.folder(name)), "README's layout has %s, which is no crate" % name)


def functions(count):
    """README says how many C functions the archive has, and names each that has no twin before its own."""
    header, readme = text_of('include/negbosun.h'), text_of('README.md')
    declared = re.findall(r'^struct \w+ (negbosun_\w+)\(', header, re.M)
    exported = re.findall(r'extern "C" fn (negbosun_\w+)', text_of('crates/pass_c/src/lib.rt'))
    count.check(sorted(declared) == sorted(exported), 'include/negbosun.h declares %s, crates/pass_c has %s' % (sorted(declared), sorted(exported)))
    told = re.search(r"The archive's C functions are (\w+)", readme)
    count.check(told and told[1] == NUMBERS[len(declared)], 'README says %s C functions; they are %d' % (told and told[1], len(declared)))
    for name in declared:
        count.check('`%s`' % name.removesuffix('_under') in readme, 'README lacks %s' % name)


def steps(count):
    """docs/TESTING.md has each step that is a script."""
    testing = text_of('docs/TESTING.md')
    for step in sorted({line.split()[0] for line in text_of('tests/steps.txt').split('\n') if line.startswith('tests/')}):
        count.check(step in testing, 'docs/TESTING.md lacks %s' % step)


def requests(count):
    """Each note has what document 02 asks of it."""
    for note in glob.glob('docs/requests/*.md'):
        lines = text_of(note).split('\n')
        for heading in HEADINGS:
            count.check('## ' + heading in lines, '%s lacks the heading: %s' % (note, heading))
        text = '\n'.join(line for line in lines if not line.startswith('#')).lower()
        for word in SAID:
            count.check(word in text, '%s does not say what there was or is: %s' % (note, word))


def decisions(count):
    """They are numbered one by one, and what is cited by number is there."""
    numbers = [int(it) for it in re.findall(r'^(\d+)\. \*\*', text_of('docs/DECISIONS.md'), re.M)]
    for wanted, number in enumerate(numbers, 1):
        count.check(number == wanted, 'docs/DECISIONS.md has a decision %d in the place of %d' % (number, wanted))
    for file in files_there():
        if file.endswith(ENDINGS) and not file.startswith('wip/'):
            for cited in re.findall(r'docs/DECISIONS\.md, ((?:\d+(?:, | and | to )?)+)', text_of(file)):
                for number in re.findall(r'\d+', cited):
                    count.check(int(number) in numbers, '%s cites decision %s' % (file, number))


def main():
    count, files = Count(), list(files_there())
    paths(count, files)
    names(count, files, words_of(files))
    layout(count)
    functions(count)
    steps(count)
    requests(count)
    decisions(count)
    print('%d passed, %d failed' % (count.passed, count.failed))
    return 1 if count.failed else 0


if __name__ == '__main__':
    sys.exit(main())
