"""Scripts for the tests of the resolver: random ones over everything that opens a scope or declares, and those at its limits."""
from treefile import declared, pack, statement, tree

TEXTS = [b"a", b"b", b"c", b"arguments", b"f", b"g", *[b"n%d" % i for i in range(14)]]
ARGUMENTS = TEXTS.index(b"arguments")
THIS = tree(26)


def name(text, kind=20, context=0):
    return tree(kind, text=text, bits=context)


def declare(form, *texts):
    return tree(5, *[tree(6, name(text)) for text in texts], form=form)


def read(text):
    return tree(4, name(text, 21))


class Grower:
    """Random trees; contexts are random, since nothing may look at them."""

    def __init__(self, rng):
        self.rng = rng

    def context(self):
        return self.rng.choice((0, 0, 1, 2, 7, self.rng.getrandbits(64)))

    def text(self, wide=False):
        """Of few names most often, so that they hide one another; of many where two would clash."""
        return self.rng.randrange(len(TEXTS)) if wide or self.rng.random() < 0.2 else self.rng.randrange(6)

    def bound(self, wide=False):
        return name(self.text(wide), 20, self.context())

    def pattern(self, deep, wide, default=True):
        """A name, a pattern, or one of them with a default."""
        way = self.rng.randrange(8)
        if deep > 0 and way == 0:
            return tree(46, *[self.pattern(deep - 1, wide) for _ in range(self.rng.randrange(3))])
        if deep > 0 and way == 1:
            return tree(45, *[tree(47, self.pattern(deep - 1, wide), text=self.text()) for _ in range(self.rng.randrange(3))])
        if default and deep > 0 and way in (2, 3):
            return tree(48, self.pattern(deep - 1, wide, False), self.expression(deep - 1))
        return self.bound(wide)

    def function(self, kind, deep):
        form = 0 if kind == 7 else self.rng.randrange(2)
        named = kind == 7 or (kind == 39 and form == 1)
        parameters = [self.pattern(min(deep, 2), False) for _ in range(self.rng.randrange(3))]
        last = self.expression(deep - 1) if kind == 40 and form == 1 else tree(2, *self.statements(deep - 1))
        return tree(kind, *([self.bound()] if named else []), *parameters, last, form=form)

    def expression(self, deep):
        way = self.rng.randrange(12)
        if deep > 0:
            if way == 0:
                return tree(41, self.function(39, deep))
            if way == 1:
                return self.function(40, deep)
            if way == 2:
                return tree(27, *[self.expression(deep - 1) for _ in range(self.rng.randrange(4))])
            if way == 3:
                return tree(33, self.bound(), self.expression(deep - 1))
            if way == 4:
                return tree(33, self.pattern(1, False, False), self.expression(deep - 1))
            if way == 5:
                return tree(28, tree(29, self.expression(deep - 1), text=self.text()))
            if way == 6:
                return tree(31, name(self.text(), 21, self.context()), form=self.rng.randrange(4))
            if way == 7:
                return tree(37, self.expression(deep - 1), text=self.text())
        return tree(24, bits=self.rng.getrandbits(60)) if way == 8 else name(self.text(), 21, self.context())

    def declaration(self, deep, count=None, wide=True):
        form = self.rng.randrange(3)
        many = count or self.rng.choice((1, 1, 2))
        names = [self.pattern(min(deep, 2), wide and form > 0, False) for _ in range(many)]
        return tree(5, *[tree(6, it, *([self.expression(deep - 1)] if self.rng.random() < 0.5 else [])) for it in names], form=form)

    def statements(self, deep, most=4):
        return [self.statement(deep) for _ in range(self.rng.randrange(most + 1))]

    def block(self, deep):
        return tree(2, *self.statements(deep))

    def attempt(self, deep):
        form = self.rng.randrange(1, 4)
        binding = [self.pattern(2, True, False)] if self.rng.random() < 0.8 else []
        handler = [tree(17, *binding, self.block(deep))] if form & 1 else []
        return tree(16, self.block(deep), *handler, *([self.block(deep)] if form & 2 else []), form=form)

    def selection(self, deep):
        cases = [tree(19, *([self.expression(deep)] if form else []), *self.statements(deep, 2), form=form) for form in (1, self.rng.randrange(2))]
        return tree(18, self.expression(deep), *cases)

    def loop(self, deep):
        if self.rng.random() < 0.5:
            start = self.rng.choice((lambda: [], lambda: [self.declaration(deep)], lambda: [self.expression(deep)]))()
            test = [self.expression(deep)] if self.rng.random() < 0.5 else []
            return tree(12, *start, *test, self.statement(deep), form=len(start) + 2 * len(test))
        head = self.declaration(deep, 1) if self.rng.random() < 0.7 else self.pattern(1, False, False)
        return tree(self.rng.choice((13, 14)), head, self.expression(deep), self.statement(deep))

    def statement(self, deep):
        if deep <= 0:
            return self.rng.choice((lambda: read(self.text()), lambda: self.declaration(0, 1)))()
        deep -= 1
        ways = (
            (3, lambda: tree(4, self.expression(deep))), (4, lambda: self.declaration(deep)), (2, lambda: self.function(7, deep)), (2, lambda: self.block(deep)),
            (1, lambda: tree(9, self.expression(deep), self.statement(deep), *([self.statement(deep)] if self.rng.random() < 0.5 else []))),
            (1, lambda: tree(10, self.expression(deep), self.statement(deep))), (1, lambda: tree(11, self.expression(deep), self.statement(deep))),
            (3, lambda: self.loop(deep)), (2, lambda: self.attempt(deep)), (1, lambda: self.selection(deep)), (1, lambda: tree(8, self.expression(deep))),
        )
        return self.rng.choices([make for _, make in ways], [weight for weight, _ in ways])[0]()


def random_script(rng, deep=None):
    """A readable script of at most 1,024 nodes."""
    while True:
        grower = Grower(rng)
        nodes = tree(1, *grower.statements(deep or rng.randrange(1, 5), rng.choice((3, 5, 8))))
        if len(nodes) <= 1024:
            return pack(nodes, TEXTS)


def arrows(count, text=0):
    """So many arrows beside one another, each with a parameter of one name: as many identifiers."""
    return tree(4, tree(27, *[tree(40, name(text), THIS, form=1) for _ in range(count)]))


def limits():
    """Scripts one below, at and above each limit that the resolver's own rows have, with the row."""
    for more in (-1, 0, 1):
        yield "%+d identifiers" % more, pack(tree(1, arrows(256 + more)), [b"x"]), 7 if more > 0 else 0
        yield "%+d names" % more, pack(tree(1, arrows(250), tree(4, tree(27, *[name(1 + i, 21) for i in range(6 + more)]))), [b"%d" % i for i in range(20)]), 7 if more > 0 else 0
        for what, layers in NESTED.items():
            yield "%s, depth %+d" % (what, more), nested(what, 200 + more), 6 if more > 0 else 0
    many = tree(4, tree(27, *[name(0, 21, context) for context in range(257)]))
    yield "257 contexts of one name that nothing declares", pack(tree(1, many), [b"x"]), 0
    yield "the same, declared", pack(tree(1, declare(0, 0), many), [b"x"]), 0
    yield "13 before 7", pack(tree(1, declare(1, 1), declare(0, 1), arrows(257)), [b"x", b"y"]), 13
    yield "7 behind 13", pack(tree(1, declare(0, 1), declare(0, 1), arrows(257)), [b"x", b"y"]), 7
    yield "6 before 13", pack(tree(1, declare(1, 0), declare(1, 0), tree(3, text=1)), [b"x", b"y"]), 6
    yield "5 before 13", pack(tree(1, declare(1, 0), declare(1, 0)), [b"x", b"x"]), 5
    yield "256 texts and as many names", pack(tree(1, declare(1, *range(256)), tree(4, tree(27, *[name(i, 21) for i in range(256)]))), [b"%d" % i for i in range(256)]), 0
    yield "1,023 blocks", pack(tree(1, *[tree(2)] * 1023), [b"x"]), 0
    yield "510 empty arrows", pack(statement(tree(27, *[tree(40, THIS, form=1)] * 510)), [b"x"]), 0
    yield "no text and no name", pack(tree(1), []), 0
    yield "unused texts alone", pack(tree(1, tree(2)), [b"x", b"", b"arguments"]), 0
    yield "a text of 4,096 bytes", pack(declared(name(0)), [b"x" * 4096]), 0


# what nests: how many levels one layer adds, and the layer around statements; an expression's layer stands under a statement
NESTED = {
    "blocks": (1, lambda x: tree(2, x)),
    "functions": (2, lambda x: tree(7, name(1), name(0), tree(2, x))),
    "functions with a default": (2, lambda x: tree(7, name(1), tree(48, name(0), THIS), tree(2, x))),
    "function expressions": (3, lambda x: tree(4, tree(39, name(1), name(0), tree(2, x), form=1))),
    "unnamed function expressions with a default": (3, lambda x: tree(4, tree(39, tree(46, tree(48, name(0), THIS)), tree(2, x)))),
    "arrows": (3, lambda x: tree(4, tree(40, name(0), tree(2, x)))),
    "loops": (1, lambda x: tree(12, declare(1, 0), x, form=1)),
    "loops over": (1, lambda x: tree(14, tree(5, tree(6, name(0)), form=2), THIS, x)),
    "switches": (2, lambda x: tree(18, THIS, tree(19, x))),
    "catches": (3, lambda x: tree(16, tree(2), tree(17, name(0), tree(2, x)), form=1)),
    "catches with a default": (3, lambda x: tree(16, tree(2), tree(17, tree(46, tree(48, name(0), THIS)), tree(2, x)), form=1)),
    "branches": (1, lambda x: tree(9, THIS, x)),
}
# and around expressions
INNER = {
    "arrows in arrows": lambda x: tree(40, name(0), x, form=1),
    "arrows in defaults": lambda x: tree(40, tree(48, name(0), x), THIS, form=1),
    "arrays": lambda x: tree(27, x),
}


def nested(what, depth):
    """A script of that depth: layers around a read name, and statements of one more level where the layers' own do not divide the depth."""
    step, layer = NESTED[what]
    # a loop's own declaration is three levels deep
    inner, left = (tree(2, read(0)), depth - 4) if what.startswith("loops") else (read(0), depth - 3)
    while left % step:
        inner, left = tree(9, THIS, inner), left - 1
    for _ in range(left // step):
        inner = layer(inner)
    return pack(tree(1, inner), [b"x", b"f"])


def deepest():
    """Scripts of depth 200 of each sort of scope, alone and in turns, and expressions in one another under each."""
    for what in NESTED:
        yield what, nested(what, 200)
        for inside, layer in INNER.items():
            expression, levels = name(0, 21), 1
            while levels < 90:
                expression = layer(expression)
                levels += 2 if inside == "arrows in defaults" else 1
            step, around = NESTED[what]
            whole, left = tree(4, expression), 200 - 2 - levels
            while left % step:
                whole, left = tree(9, THIS, whole), left - 1
            for _ in range(left // step):
                whole = around(whole)
            yield "%s around %s" % (what, inside), pack(tree(1, whole), [b"x", b"f"])
    for inside, layer in INNER.items():
        expression, levels = name(0, 21), 1
        while levels + (2 if inside == "arrows in defaults" else 1) <= 198:
            expression = layer(expression)
            levels += 2 if inside == "arrows in defaults" else 1
        yield inside, pack(tree(1, tree(4, expression)), [b"x", b"f"])


def filled(make, most=1024):
    """The longest of `make(n)` that has at most so many nodes."""
    n = 0
    while len(make(n + 1)) <= most:
        n += 1
    return make(n)


def around(inner, count, layer):
    for i in range(count):
        inner = [layer(i, inner)]
    return inner


def costly():
    """Scripts of 1,024 nodes, or as near below as they go, with the most scopes, the most names, the deepest nesting: what the resolver takes longest for."""
    many = lambda n, form=0: tree(5, *[tree(6, name(i % 256)) for i in range(max(1, n))], form=form)
    block = lambda _, inner: tree(2, *inner)
    function = lambda i, inner: tree(7, name(i), tree(2, *inner))
    with_default = lambda i, inner: tree(7, name(i), tree(48, name((i + 7) % 256), THIS), tree(2, *inner))
    catch = lambda i, inner: tree(16, tree(2), tree(17, name(i), tree(2, *inner)), form=1)
    switch = lambda _, inner: tree(18, THIS, tree(19, *inner))
    loop = lambda _, inner: tree(12, declare(1, 0), *inner, form=1)

    def arrow_chain():
        inner = name(0, 21)
        for _ in range(196):
            inner = tree(40, inner, form=1)
        return tree(4, inner)

    scripts = {
        "1,023 blocks beside one another": lambda: tree(1, *[tree(2)] * 1023),
        "named function expressions beside one another": lambda: filled(lambda n: tree(1, *[tree(4, tree(41, tree(39, name(0), tree(2), form=1)))] * n)),
        "196 arrows in one another, five times": lambda: tree(1, *[arrow_chain()] * 5),
        "195 blocks in one another around var names": lambda: filled(lambda n: tree(1, *around([many(n)], 195, block))),
        "195 blocks in one another around 255 let names": lambda: tree(1, *around([many(255, 1)] + [tree(3)] * 317, 195, block)),
        "98 functions in one another": lambda: filled(lambda n: tree(1, *around([tree(3)] * n, 98, function))),
        "98 functions with a default in one another": lambda: filled(lambda n: tree(1, *around([tree(3)] * n, 98, with_default))),
        "64 catches in one another": lambda: filled(lambda n: tree(1, *around([tree(3)] * n, 64, catch))),
        "98 switches in one another": lambda: filled(lambda n: tree(1, *around([tree(3)] * n, 98, switch))),
        "190 for heads in one another": lambda: filled(lambda n: tree(1, *around([tree(2, *[tree(3)] * n)], 190, loop))),
        "256 let names, then reads": lambda: filled(lambda n: tree(1, many(256, 1), tree(4, tree(27, *[name(i % 256, 21) for i in range(n)])))),
        "1,021 reads of 256 names that nothing declares": lambda: filled(lambda n: tree(1, tree(4, tree(27, *[name(i % 256, 21) for i in range(n)])))),
    }
    for what, make in scripts.items():
        yield what, pack(make(), [b"v%d" % i for i in range(256)])


if __name__ == "__main__":
    # python3 tests/resolve_scripts.py FOLDER: the costly scripts as files, to count what the resolver takes for each
    import sys
    for number, (title, script) in enumerate(costly()):
        with open("%s/%02d.tree" % (sys.argv[1], number), "wb") as out:
            out.write(script)
        print("%02d.tree: %s" % (number, title))
