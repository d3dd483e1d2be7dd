"""The crates of crates.txt, and how the kit's compiler is called over the libraries that `rt ci` has left in the crates' folders out/.

`rt check` and `rt lib` do not take those libraries, and prove each crate below anew; the compiler, which rt calls, does.
"""
import os
import re
import shutil

TOP = os.path.dirname(os.path.dirname(os.path.abspath(__file__)))


def kit():
    """The folder of the kit whose `rt` is in PATH, or None."""
    rt = shutil.which('rt')
    return rt and os.path.dirname(os.path.dirname(os.path.realpath(rt)))


def read_crates(top=TOP):
    """Of each crate its sort, '' or 'staticlib', and the libraries that its line lists."""
    crates = {}
    for line in open(os.path.join(top, 'crates.txt'), encoding='utf-8'):
        m = re.match(r'(\w+)(?: +(staticlib))? *:(.*)', line.split('#')[0])
        if m:
            crates[m[1]] = (m[2] or '', m[3].split())
    return crates


def below(crates, name):
    """The crates of the repository below a crate, lowest first."""
    found = []

    def visit(crate):
        for it in crates[crate][1]:
            if it in crates and it not in found:
                visit(it)
                found.append(it)

    visit(name)
    return found


def folder(name, top=TOP):
    return os.path.join(top, 'crates', name)


def library(name, top=TOP):
    return os.path.join(folder(name, top), 'out', 'rlib', name + '.rlib')


def words(crates, name, top=TOP):
    """The words behind `rattle check` and `rattle build` of a crate whose libraries below are built."""
    home = kit()
    sort, deps = crates[name]
    root = 'src/main.rt' if os.path.exists(os.path.join(folder(name, top), 'src', 'main.rt')) else 'src/lib.rt'
    found = ['--crate-name', name, root]
    for it in ['std'] + [it for it in deps if it not in crates]:
        found += ['--extern', '%s=%s/rlibs/%s.rlib' % (it, home, it)]
    found += ['-L', 'dependency=%s/rlibs' % home]
    for it in deps:
        if it in crates:
            found += ['--extern', '%s=%s' % (it, library(it, top))]
    for it in below(crates, name):
        found += ['-L', 'dependency=' + os.path.dirname(library(it, top))]
    found += ['--antt-project', home + '/rattle/logic/antt-project.json', '--logic-built', home + '/logic_built', '--links', name + '=']
    return found + (['--crate-type', sort] if sort else [])


def lacking(crates, name, top=TOP):
    """The crates below whose libraries are not built."""
    return [it for it in below(crates, name) if not os.path.isdir(library(it, top))]
