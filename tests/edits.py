"""Counts the wrong programs under crates/*/must-fail that are refused by what the changed function ensures, and tells those that are refused otherwise.

usage: edits.py [--anew] [--said LOG] [CRATE[/LABEL]..]     all edits, if none is named; LOG is what `rt ci` wrote

A wrong program is one change of one function's body: of an edit each_function*.edit each function that it names in a line `fn NAME`, and of any other edit of
src/ the function that it changes. It counts if a goal of that function's own proof does not hold any more that stands for what it ensures: at one of its
returns, or in a loop's invariant, by which the loop keeps that. It does not count if the prover refuses it by something else: an index, a sum or a
callee's `requires` that is out of bounds, a name that went. Nor does a change of a contract or of a definition count, nor one that calls a
function of its own which promises nothing, nor a change that another edit makes too. What does not count is told; it has to stand in tests/edits_not_counted.txt, by which tests/edit_counts.py
goes, and nothing else has.
Each statement that each_law*.edit names in a line `law NAME` must be refused by a fact of its own, too, and not only with another's; it is no program, and
is not counted.

Each change is tried once where that tells enough: `rt ci` says one line of each edit, and of the function whose return or loop it is of there is no more to
know. The others are tried here, on copies of their crates, over the libraries that `rt ci` left in crates/*/out. Where a
function stands on another one that the same edit changes, its goals are not tried: what is not refused yet is tried again without what is.
What tests/seeds.py kept of a crate under NEGBOSUN_SEEDS is what `rt ci` proved of it: its edits begin with that, and the others with a proof of the crate.
Of each edit of which all is refused a note is kept under ~/.cache/negbosun, by a sum of all that its checks read: the kit, the edit, the texts of its
crate and of those below, and this program. --anew looks at none of them.
"""
import concurrent.futures
import contextlib
import glob
import hashlib
import json
import os
import re
import shutil
import subprocess
import sys
import tempfile

sys.dont_write_bytecode = True
sys.path.insert(0, os.path.join(os.path.dirname(os.path.dirname(os.path.abspath(__file__))), 'tools'))
import edit_counts
import kit

PARTS = ('src', 'specs', 'proofs')
# What the prover says of a goal that does not hold. Of a name that is gone with the change, or of what stands on another's proof, it says something else.
FACTS = ('the two types', 'does not follow', 'no proof of', 'no occurrence of', 'but this has type', 'does not close', 'did not prove', 'does not hold')
OPEN = 'it is not proved that'
# A goal's name, and what of it stands for the `ensures`: those at a return, and of a loop the invariant at its start and after a turn. In a
# cycle of functions the function's name comes first.
GOAL = re.compile(r'`([\w.-]+)`')
ENSURES = re.compile(r'(?:^|-)returns(?:-|$)')
LOOP = re.compile(r'-(?:init|preserved)(?:-|$)')
CACHE = os.path.join(os.environ.get('XDG_CACHE_HOME') or os.path.expanduser('~/.cache'), 'negbosun', 'edits')


class Group:
    """What an edit names, each in a line `fn path::name` or `law name`, and the pairs of texts behind them."""

    def __init__(self):
        self.names, self.pairs, self.is_named = [], [], True


def groups_of(edit):
    """The groups of an edit; one that names nothing is of the functions in whose text its `old:` stand."""
    groups, file, old = [Group()], None, None
    with open(edit, encoding='utf-8') as it:
        lines = it.read().split('\n')
    for line in lines:
        if line.startswith(('fn ', 'law ')):
            if groups[-1].pairs:
                groups.append(Group())
            groups[-1].names.append(tuple(line.split(maxsplit=1)))
        elif line.startswith('file: '):
            file = line[len('file: '):].strip()
        elif line.startswith('old: '):
            old = line[len('old: '):]
        elif line.startswith('new:'):
            groups[-1].pairs.append((file, old, line[len('new:'):].removeprefix(' ')))
    if len(groups) == 1 and not groups[0].names:
        owners = {owner_of(crate_of(edit), file, old) for file, old, _ in groups[0].pairs if file.startswith('src/')} - {None}
        groups[0].names, groups[0].is_named = [('fn', name) for name in sorted(owners)], False
    return groups


def crate_of(edit):
    return edit.split('/')[-3]


def label_of(edit):
    return '%s/%s' % (crate_of(edit), os.path.basename(edit)[:-len('.edit')])


CRATES = {}


def functions_in(crate, file):
    """The text of a file of src/, and of each line the function that it is in."""
    if crate not in CRATES:
        CRATES[crate] = edit_counts.Crate(crate)
    return CRATES[crate].files.get(file, ('', []))


def owner_at(crate, file, line):
    owners = functions_in(crate, file)[1]
    return owners[line].name if line < len(owners) and owners[line] else None


def owner_of(crate, file, old):
    text = functions_in(crate, file)[0]
    at = text.find(old)
    return owner_at(crate, file, text.count('\n', 0, at)) if at >= 0 else None


def is_contract(crate, file, old):
    """Whether a text stands in a function's contract: behind the line of its `fn`, and before the line that opens its body."""
    text = functions_in(crate, file)[0]
    at = text.find(old)
    for line in reversed(text[:at].split('\n')[:-1] if at >= 0 else []):
        if line.strip() == '{':
            return False
        if edit_counts.HEAD.match(line):
            return not line.rstrip().endswith('{')
    return False


def is_stub(old, new):
    """Whether a function is put in that promises nothing: then whatever calls it cannot be proved, right or wrong."""
    return len(re.findall(r'\bfn \w+', new)) > len(re.findall(r'\bfn \w+', old)) and (
        'ensures' not in new or bool(re.search(r'ensures \{[ (]*result ≡ result', new)))


def first_of_twins(crate, name, pairs):
    """The first edit of a crate that makes this change of a function."""
    for edit in sorted(glob.glob(os.path.join(kit.folder(crate), 'must-fail', '*.edit'))):
        if any(('fn', name) in group.names and group.pairs == pairs for group in groups_of(edit)):
            return label_of(edit)
    return None


def why_never(edit, group, name):
    """Why a change of a function shows nothing of it, or nothing new, whatever refuses it."""
    crate, twin = crate_of(edit), first_of_twins(crate_of(edit), name, group.pairs)
    if twin != label_of(edit):
        return 'is the change of %s once more' % twin
    if any(not file.startswith('src/') for file, _, _ in group.pairs):
        return 'changes a definition'
    if all(is_contract(crate, file, old) for file, old, _ in group.pairs):
        return 'changes a contract'
    if any(is_stub(old, new) for _, old, new in group.pairs):
        return 'calls a function of its own that promises nothing'
    return None


def apply(groups, home):
    """Changes the texts of a copy of the crate, or says why it cannot."""
    for group in groups:
        for file, old, new in group.pairs:
            path = os.path.join(home, file)
            with open(path, encoding='utf-8') as it:
                text = it.read()
            if text.count(old) != 1:
                return '`%s` stands %d times in %s' % (old, text.count(old), file)
            with open(path, 'w', encoding='utf-8') as it:
                it.write(text.replace(old, new))
    return None


def messages(text):
    """What the prover said, each message in one line: where types are long, what goes with it stands indented in the lines behind it."""
    lines = []
    for line in text.split('\n'):
        if line.startswith('  ') and lines:
            lines[-1] += line
        else:
            lines.append(line)
    return lines


def goals_of(said, crate, sort, name):
    """The goals of a function's own proof that a fact refuses, or a word for a law's. What is open of a function stands right before the line that gives its verdict."""
    if sort == 'law':
        law = re.compile(r'(?:\./)?(?:proofs|specs)/\S+:\d+:\d+: error: `%s`:? (.*)' % re.escape(name))
        return {'law'} if any(m and any(it in m[1] for it in FACTS) for m in map(law.match, said)) else set()
    path, last = re.match(r'(.*?)(\w+)$', name.replace('::', '/')).groups()
    own = re.compile(r'(?:\./)?proofs/%s(?:\+?%s|\+[\w+]*%s[\w+]*)/(?:Answers|Invariants|Proof)\S*:\d+:\d+: error: (.*)' % (path, last, last))
    cycle = re.compile(r'(?:\./)?proofs/%s\+\w+/(?:Answers|Invariants|Proof)\S*:\d+:\d+: error: (`%s-.*)' % (path, last))
    goals, open_goals = set(), set()
    for line in said:
        m = own.match(line) or cycle.match(line)
        if m and any(it in m[1] for it in FACTS):
            goal = GOAL.match(m[1])
            goals.add(goal[1] if goal else 'a lemma')
        if re.match(r'note: (?:\./)?src/', line) and OPEN in line:
            open_goals.update(re.findall(r'\(`([\w.-]+)`\)', line) or ['a goal'])
        m = re.match(r'(?:fn|struct|enum|trait|impl|const) (\S+): ', line)
        if m:
            if m[1] == '%s::%s' % (crate, name):
                goals |= open_goals
            open_goals = set()
    return goals


def told_by_line(line, crate, names):
    """What the one line that rt says of an edit tells: the goals, at a return or in a loop, of the function or law that it is of."""
    found = {}
    m = re.match(r'note: (?:\./)?(src/\S+?):(\d+):\d+: it is not proved that .*\(`([\w.-]+)`\)', line)
    for it in names:
        goals = goals_of([line], crate, *it)
        if m and it == ('fn', owner_at(crate, m[1], int(m[2]) - 1)):
            goals.add(m[3])
        goals = {goal for goal in goals if it[0] == 'law' or ENSURES.search(goal) or LOOP.search(goal)}
        if goals:
            found[it] = goals
    return found


def lines_said(log):
    """Of each edit, CRATE/LABEL, the one line of what the prover said that `rt ci` tells."""
    found = {}
    for line in open(log, encoding='utf-8', errors='replace') if log else ():
        m = re.match(r'rt: must-fail (\w+)/(\S+)\.edit: refused, as it must be: (.*)', line)
        if m:
            found['%s/%s' % (m[1], m[2])] = m[3]
    return found


CHECKS = []


def check(crates, crate, home, seed):
    CHECKS.append(crate)
    words = [kit.kit() + '/bin/rattle', 'check', *kit.words(crates, crate), '--jobs', '1', '--incremental', seed]
    ran = subprocess.run(words, cwd=home, stdin=subprocess.DEVNULL, stdout=subprocess.PIPE, stderr=subprocess.STDOUT, errors='replace')
    return ran.returncode, ran.stdout


def linked(one, other):
    """Gives what was proved a second name where it can: a check replaces such a file, and changes none."""
    if one.endswith('.oantt'):
        with contextlib.suppress(OSError):
            return os.link(one, other)
    return shutil.copy2(one, other)


def copied(crate, home):
    for part in PARTS:
        shutil.rmtree(os.path.join(home, part), ignore_errors=True)
        if os.path.isdir(os.path.join(kit.folder(crate), part)):
            shutil.copytree(os.path.join(kit.folder(crate), part), os.path.join(home, part))


def tried(crates, crate, edit, seed, goals):
    """The goals that refuse each function and law that an edit names, and what to say of the edit. What rt's line tells of some is not tried."""
    told, goals = [], {name: set(found) for name, found in goals.items()}
    left = [(group, [it for it in group.names if it not in goals]) for group in groups_of(edit)]
    left = [(group, names) for group, names in left if names]
    with tempfile.TemporaryDirectory(prefix='edits-') as room:
        home, over = os.path.join(room, 'crate'), os.path.join(room, 'seed')
        os.mkdir(home)
        while left:
            copied(crate, home)
            why = apply([group for group, _ in left], home)
            if why:
                told.append(why)
                break
            # each begins with what the crate's own proof left
            shutil.rmtree(over, ignore_errors=True)
            shutil.copytree(seed, over, copy_function=linked)
            status, text = check(crates, crate, home, over)
            said = messages(text)
            if status != 1 or 'logic=not-proved' not in text:
                told.append('its check ended with status %d: %s' % (status, ' '.join(said[:2])[:300]))
            if os.environ.get('EDITS_LOGS'):
                with open(os.path.join(os.environ['EDITS_LOGS'], '%s-%s.log' % (crate, os.path.basename(edit))), 'a') as it:
                    it.write(text)
            before = sum(len(names) for _, names in left)
            for _, names in left:
                for it in names:
                    goals.setdefault(it, set()).update(goals_of(said, crate, *it))
            left = [(group, [it for it in names if not goals[it]]) for group, names in left]
            left = [(group, names) for group, names in left if names]
            if sum(len(names) for _, names in left) == before:
                break
    return goals, told


def sum_of(crates, crate, texts={}):
    """A sum of the texts of a crate and of those below."""
    whole = hashlib.sha256()
    for it in [*kit.below(crates, crate), crate]:
        if it not in texts:
            own = hashlib.sha256(repr((it, crates[it])).encode())
            for part in PARTS:
                for at, folders, files in os.walk(os.path.join(kit.folder(it), part)):
                    folders.sort()
                    for name in sorted(files):
                        with open(os.path.join(at, name), 'rb') as f:
                            own.update(repr((os.path.relpath(os.path.join(at, name), kit.TOP), f.read())).encode())
            texts[it] = own.hexdigest()
        whole.update(texts[it].encode())
    return whole.hexdigest()


def note_of(crates, crate, edit):
    """The file that says what refuses all that this edit names."""
    whole = hashlib.sha256()
    for path in (__file__, edit_counts.__file__, kit.__file__, kit.kit() + '/KIT-ID', edit):
        with open(path, 'rb') as it:
            whole.update(it.read())
    whole.update(repr((os.path.relpath(edit, kit.TOP), sum_of(crates, crate))).encode())
    return os.path.join(CACHE, whole.hexdigest())


def read_note(note):
    """What an earlier run found of an edit."""
    with contextlib.suppress(OSError, ValueError):
        with open(note, encoding='utf-8') as it:
            found = {(sort, name): set(goals) for sort, name, goals in json.load(it)}
        os.utime(note)
        return found
    return None


def write_note(note, goals):
    with contextlib.suppress(OSError):
        os.makedirs(CACHE, exist_ok=True)
        with open(note, 'w', encoding='utf-8') as it:
            json.dump([[*name, sorted(found)] for name, found in goals.items()], it)


class Count:
    """What the edits come to."""

    def __init__(self):
        self.ensures = self.loops = self.laws = self.failed = 0
        self.rest = []

    def add(self, edit, goals):
        """Adds what refuses each that an edit names."""
        where = os.path.relpath(edit, kit.TOP)
        for group in groups_of(edit):
            for sort, name in group.names:
                never = why_never(edit, group, name) if sort == 'fn' else None
                found = goals.get((sort, name), set())
                if not found and not group.is_named:
                    self.rest.append('%s %s is refused elsewhere' % (label_of(edit), name))
                elif not found:
                    print('%s: %s is not refused by a fact of its own' % (where, name))
                    self.failed += 1
                elif sort == 'law':
                    self.laws += 1
                elif never:
                    self.rest.append('%s %s %s' % (label_of(edit), name, never))
                elif any(map(ENSURES.search, found)):
                    self.ensures += 1
                elif any(map(LOOP.search, found)):
                    self.loops += 1
                else:
                    self.rest.append('%s %s is refused by %s' % (label_of(edit), name, ', '.join(sorted(found))))

    def hold(self, labels):
        """Holds what is not counted, of the edits that were looked at, to the list: what it lacks, and what it has for nothing, fails."""
        listed = edit_counts.not_counted()
        found = {tuple(line.split()[:2]) for line in self.rest}
        for line in self.rest:
            is_listed = tuple(line.split()[:2]) in listed
            print('not counted: %s%s' % (line, '' if is_listed else ', and tests/edits_not_counted.txt does not have it'))
            self.failed += not is_listed
        for label, name in sorted(listed - found):
            if label in labels or not os.path.exists(os.path.join(kit.folder(label.split('/')[0]), 'must-fail', label.split('/')[1] + '.edit')):
                print('tests/edits_not_counted.txt: %s %s is counted now, or is gone: its line goes' % (label, name))
                self.failed += 1

    def end(self, checks):
        print('%d wrong programs are refused by what their functions ensure, %d of them by a loop that has to keep it; %d others are not counted. %d statements of laws are refused.'
              % (self.ensures + self.loops, self.loops, len(self.rest), self.laws))
        print('%d edits were tried here' % checks)
        print('%d passed, %d failed' % (self.ensures + self.loops, self.failed))
        return 1 if self.failed else 0


def edits_of(argv):
    """All edits that name functions or laws or change a function, and of these those that are asked for."""
    for edit in sorted(glob.glob(os.path.join(kit.TOP, 'crates/*/must-fail/*.edit'))):
        if (not argv or crate_of(edit) in argv or label_of(edit) in argv) and any(group.names for group in groups_of(edit)):
            yield edit


def earlier(crates, edits, anew):
    """What an earlier run has found of edits."""
    notes = {} if anew else {edit: read_note(note_of(crates, crate_of(edit), edit)) for edit in edits}
    return {edit: goals for edit, goals in notes.items() if goals is not None}


def by_lines(edits, lines):
    """What rt's lines tell of edits, and of which of them that is all."""
    found = {edit: told_by_line(lines.get(label_of(edit), ''), crate_of(edit), [it for group in groups_of(edit) for it in group.names]) for edit in edits}
    return found, {edit for edit in edits if all(it in found[edit] for group in groups_of(edit) for it in group.names)}


class Trials:
    """Tries edits side by side: first the proofs that they begin with, then those of the crates with the most edits."""

    def __init__(self, crates, room, lines):
        self.crates, self.room, self.lines = crates, room, lines

    def seed_of(self, crate):
        """What the proof of a crate left, or where it goes."""
        kept = os.path.join(os.environ.get('NEGBOSUN_SEEDS') or self.room, crate)
        return kept if 'NEGBOSUN_SEEDS' in os.environ and os.path.isdir(kept) else os.path.join(self.room, crate + '-seed')

    def seeded(self, crate):
        """Proves the crate as it stands, so that an edit's check proves only what it changes; or says why it cannot."""
        lacking = kit.lacking(self.crates, crate)
        if lacking:
            return 'the libraries below are not built (run rt ci first): %s' % ' '.join(lacking)
        home, seed = os.path.join(self.room, crate), self.seed_of(crate)
        if os.path.isdir(seed):
            return None
        os.makedirs(home)
        copied(crate, home)
        kept = os.path.join(kit.folder(crate), 'out', 'incremental')
        if os.path.isdir(kept):
            shutil.copytree(kept, seed)
        status, text = check(self.crates, crate, home, seed)
        return None if status == 0 else 'the crate itself is not proved: %s' % ' '.join(messages(text)[-2:])[:300]

    def one(self, crate, edit, seed_done):
        why = seed_done.result()
        return ({}, [why]) if why else tried(self.crates, crate, edit, self.seed_of(crate), self.lines[edit])

    def run(self, edits, pool):
        """Gives each edit with what refuses it and what to say."""
        by_crate = {}
        for edit in edits:
            by_crate.setdefault(crate_of(edit), []).append(edit)
        order = sorted(by_crate, key=lambda it: -len(by_crate[it]))
        seeds = {crate: pool.submit(self.seeded, crate) for crate in order}
        results = {edit: pool.submit(self.one, crate, edit, seeds[crate]) for crate in order for edit in by_crate[crate]}
        for edit in sorted(results):
            yield (edit, *results[edit].result())


def main(argv):
    anew, log = '--anew' in argv, None
    if '--said' in argv:
        log = argv[argv.index('--said') + 1]
        argv = argv[:argv.index('--said')] + argv[argv.index('--said') + 2:]
    crates, count = kit.read_crates(), Count()
    edits = list(edits_of([it for it in argv if it != '--anew']))
    known = earlier(crates, edits, anew)
    if known:
        print('%d edits were tried by an earlier run on this machine, and nothing that they stand on has changed' % len(known))
    lines, enough = by_lines([it for it in edits if it not in known], lines_said(log))
    known.update((edit, lines[edit]) for edit in enough)
    if enough:
        print('of %d edits the line that rt ci says tells all' % len(enough))
    jobs = int(os.environ.get('JOBS') or os.cpu_count() or 1)
    for edit, goals in known.items():
        count.add(edit, goals)
    with tempfile.TemporaryDirectory(prefix='seeds-') as room, concurrent.futures.ThreadPoolExecutor(jobs) as pool:
        for edit, goals, told in Trials(crates, room, lines).run([it for it in edits if it not in known], pool):
            for line in told:
                print('%s: %s' % (os.path.relpath(edit, kit.TOP), line))
            count.failed += len(told)
            count.add(edit, goals)
            if not told and all(goals.get(it) for group in groups_of(edit) if group.is_named for it in group.names):
                write_note(note_of(crates, crate_of(edit), edit), goals)
    count.hold({label_of(it) for it in edits})
    return count.end(len(CHECKS))


if __name__ == '__main__':
    sys.exit(main(sys.argv[1:]))
