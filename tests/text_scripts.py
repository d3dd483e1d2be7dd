"""Scripts for the tests of the printer: random ones in which expressions of all kinds stand in one another without parentheses, the named cases of request 6, and
numbers."""
import random
import struct

from treefile import pack, statement, tree

NAMES = [b"a", b"b", b"c", b"let", b"async", b"of", b"yield", b"await", b"static", b"get", b"$", b"_1", b"x9"]
BAD_NAMES = [b"class", b"in", b"enum", b"null", b"1a", b"a-b", b"", "\u00e9".encode(), b"a\\u0061", b"a b"]
KEYS = [b"a", b"b", b"let", b"class", b"in", b"constructor", b"if", b"$"]
BAD_KEYS = [b"7", b"a-b", b"", "\u00e9".encode(), b" a"]
STRINGS = [b"", b"a", b"it's", b'"', b"\\", b'\\"\\\\', b"// no comment", b"</script>", b" ~", b"use strict"]
BAD_STRINGS = [b"\n", b"\x1f", b"\x7f", "\u00e4".encode(), b"\x00"]
FRESH = [b"n%d" % number for number in range(180)]
TEXTS = sorted(set(NAMES + BAD_NAMES + KEYS + BAD_KEYS + STRINGS + BAD_STRINGS)) + FRESH
NUMBER = {text: number for number, text in enumerate(TEXTS)}


def bits_of(value):
    return struct.unpack("<Q", struct.pack("<d", value))[0]


def variable(text, kind=21):
    return tree(kind, text=NUMBER[text])


def number(value):
    return tree(24, bits=bits_of(value))


def word(text):
    return tree(25, text=NUMBER[text])


A, B, C, D = variable(b"a"), variable(b"b"), variable(b"c"), variable(b"x9")
NAME_A, NAME_B = variable(b"a", 20), variable(b"b", 20)
FORM = {sign: form for form, sign in enumerate("&& || == != === !== < <= > >= << >> >>> + - * / % | ^ & in instanceof ** ??".split())}
SIGN = {sign: form for form, sign in enumerate("void typeof ! - + ~ delete".split())}


def binary(sign, one, two):
    return tree(32, one, two, form=FORM[sign])


def unary(sign, e):
    return tree(30, e, form=SIGN[sign])


class TextGrower:
    """Random trees; `bad` is how often a name, a key, a string or a number has no token, and how often a statement stands where the grammar has none. With `early`
    there may be early errors: names declared twice, a const without a value, a break outside loops."""

    def __init__(self, rng, bad=0.0, early=True):
        self.rng, self.bad, self.early = rng, bad, early
        self.fresh = 0

    def declared(self):
        """A name that is declared; one of its own where no early error is wanted."""
        if self.early:
            return self.name()
        self.fresh += 1
        return variable(FRESH[(self.fresh - 1) % len(FRESH)], 20)

    def is_bad(self):
        return self.rng.random() < self.bad

    def pick(self, good, bad):
        return NUMBER[self.rng.choice(bad if self.is_bad() else good)]

    def name(self, kind=20):
        return tree(kind, text=self.pick(NAMES, BAD_NAMES), bits=self.rng.choice((0, 0, 1, 2 ** 40)))

    def number(self):
        rng = self.rng
        if self.is_bad():
            return tree(24, bits=rng.choice((bits_of(-1.0), 1 << 63, 0x7FF << 52, 0x7FF8 << 48, bits_of(1e25), bits_of(1e-25), rng.getrandbits(64))))
        return number(rng.choice((0.0, 1.0, 0.5, 0.1, 7.25, 1e21, 2.0 ** 53, 1e-7, rng.randrange(10 ** 6) / 1000, float(rng.getrandbits(60)), rng.random())))

    def small(self):
        rng = self.rng
        return rng.choice((
            lambda: self.name(21), lambda: self.name(21), lambda: self.name(21), self.number, lambda: tree(25, text=self.pick(STRINGS, BAD_STRINGS)),
            lambda: tree(22), lambda: tree(23, form=rng.randrange(2)), lambda: tree(26), lambda: tree(27), lambda: tree(28), lambda: tree(39, tree(2)),
        ))()

    def some(self, make, most=3):
        return [make() for _ in range(self.rng.randrange(most))]

    def pattern(self, deep, name, default=True):
        """A name that `name` makes, a pattern, or one of them with a default."""
        way = self.rng.randrange(7)
        if deep > 0 and way == 0:
            return tree(46, *self.some(lambda: self.pattern(deep - 1, name)))
        if deep > 0 and way == 1:
            return tree(45, *self.some(lambda: tree(47, self.pattern(deep - 1, name), text=self.pick(KEYS, BAD_KEYS))))
        if default and deep > 0 and way == 2:
            return tree(48, self.pattern(deep - 1, name, False), self.expression(deep - 1))
        return name()

    def member(self, deep):
        if self.rng.random() < 0.5:
            return tree(37, self.expression(deep), text=self.pick(KEYS, BAD_KEYS))
        return tree(38, self.expression(deep), self.expression(deep - 1))

    def function(self, deep):
        named = self.rng.randrange(2)
        return tree(39, *([self.declared()] if named else []), *self.parameters(deep), self.body(deep), form=named)

    def parameters(self, deep):
        return self.some(lambda: self.pattern(deep, self.declared))

    def arrow(self, deep):
        parameters = self.parameters(deep)
        if self.rng.random() < 0.7:
            return tree(40, *parameters, self.expression(deep), form=1)
        return tree(40, *parameters, self.body(deep))

    def assignment(self, deep):
        form = self.rng.choice((0, 0, self.rng.randrange(16)))
        ways = [self.name, lambda: self.member(deep)] + ([lambda: self.pattern(deep, self.name, False)] * 2 if form == 0 else [])
        return tree(33, self.rng.choice(ways)(), self.expression(deep), form=form)

    def sequence(self, deep):
        least = 1 if self.is_bad() else 2
        return tree(42, *[self.expression(deep) for _ in range(self.rng.randrange(least, 4))])

    def expression(self, deep):
        if deep <= 0 or self.rng.random() < 0.1:
            return self.small()
        deep -= 1
        e, rng = (lambda: self.expression(deep)), self.rng
        update = lambda: tree(31, rng.choice((lambda: self.name(21), lambda: self.member(deep)))(), form=rng.randrange(4))
        ways = (
            (1, lambda: tree(27, *self.some(e))), (1, lambda: tree(28, *self.some(lambda: tree(29, e(), text=self.pick(KEYS, BAD_KEYS))))),
            (2, lambda: tree(30, e(), form=rng.randrange(7))), (2, update), (5, lambda: tree(32, e(), e(), form=rng.randrange(25))),
            (2, lambda: tree(32, e(), e(), form=rng.choice((0, 1, 24, 23, 21)))), (3, lambda: self.assignment(deep)), (2, lambda: tree(34, e(), e(), e())),
            (2, lambda: tree(35, e(), *self.some(e))), (2, lambda: tree(36, e(), *self.some(e), form=1)), (1, lambda: tree(36, e())), (4, lambda: self.member(deep)),
            (1, lambda: self.function(deep)), (2, lambda: self.arrow(deep)), (1, lambda: tree(41, e())), (1, lambda: self.sequence(deep)),
        )
        return rng.choices([make for _, make in ways], [weight for weight, _ in ways])[0]()

    def declaration(self, deep, head=False):
        form = self.rng.randrange(3)
        count = 1 if head else self.rng.choice((1, 1, 2))
        return tree(5, *[self.declarator(deep, head) for _ in range(count)], form=form)

    def declarator(self, deep, head):
        target = self.pattern(deep, self.declared, False)
        valued = self.is_bad() if head else (target[0][0] != 20 or not self.early) and not self.is_bad() or self.rng.random() < 0.6
        return tree(6, target, *([self.expression(deep)] if valued else []))

    def body(self, deep):
        return tree(2, *self.some(lambda: self.statement(deep - 1, True)))

    def branch(self, deep, inside):
        """What may be a branch or a loop's body."""
        while True:
            made = self.statement(deep, inside)
            if self.is_bad() or not (made[0][0] == 7 or (made[0][0] == 5 and made[0][1])):
                return made

    def choice(self, deep, inside):
        if self.rng.random() < 0.5:
            return tree(9, self.expression(deep), self.branch(deep, inside))
        then = self.branch(deep, inside) if self.is_bad() or self.rng.random() < 0.3 else tree(2, *self.some(lambda: self.statement(deep, inside)))
        return tree(9, self.expression(deep), then, self.branch(deep, inside))

    def loop(self, deep, inside):
        rng = self.rng
        if rng.random() < 0.5:
            start = rng.choice((lambda: [], lambda: [self.declaration(deep)], lambda: [self.expression(deep + 1)]))()
            test, update = (self.some(lambda: self.expression(deep), 2) for _ in range(2))
            return tree(12, *start, *test, *update, self.branch(deep, inside), form=len(start) + 2 * len(test) + 4 * len(update))
        head = self.declaration(deep, True) if rng.random() < 0.5 else self.pattern(deep, self.name, False)
        return tree(rng.choice((13, 14)), head, self.expression(deep), self.branch(deep, inside))

    def attempt(self, deep, inside):
        block = lambda: tree(2, *self.some(lambda: self.statement(deep, inside)))
        form = self.rng.randrange(1, 4)
        binding = [self.pattern(deep, self.declared, False)] if self.rng.random() < 0.7 else []
        return tree(16, block(), *([tree(17, *binding, block())] if form & 1 else []), *([block()] if form & 2 else []), form=form)

    def selection(self, deep, inside):
        cases, default = [], False
        for _ in range(self.rng.randrange(4)):
            form = self.rng.randrange(2)
            if form == 0 and default and not self.is_bad():
                form = 1
            default |= form == 0
            cases.append(tree(19, *([self.expression(deep)] if form else []), *self.some(lambda: self.statement(deep, inside)), form=form))
        return tree(18, self.expression(deep), *cases)

    def statement(self, deep, inside=False):
        if deep <= 0:
            return tree(4, self.expression(1))
        deep -= 1
        e = lambda: self.expression(deep)
        ways = (
            (12, lambda: tree(4, self.expression(deep + 2))), (3, lambda: self.declaration(deep)), (1, lambda: tree(2, *self.some(lambda: self.statement(deep, inside)))),
            (1, lambda: tree(7, self.declared(), *self.parameters(deep), self.body(deep))), (1, lambda: tree(3)), (2, lambda: self.choice(deep, inside)),
            (1, lambda: tree(10, e(), self.branch(deep, inside))), (1, lambda: tree(11, e(), self.branch(deep, inside))), (4, lambda: self.loop(deep, inside)),
            (1, lambda: tree(15, e())), (1, lambda: self.attempt(deep, inside)), (1, lambda: self.selection(deep, inside)), (0.3 if self.early else 0, lambda: tree(self.rng.choice((43, 44)))),
            (1 if inside or self.is_bad() else 0, lambda: tree(8, *self.some(e, 2))),
        )
        return self.rng.choices([make for _, make in ways], [weight for weight, _ in ways])[0]()

    def script(self, most=1024):
        while True:
            made = tree(1, *[self.statement(self.rng.randrange(1, 5)) for _ in range(self.rng.randrange(1, 4))])
            if len(made) <= most:
                return made


def random_text(rng, bad=0.0, most=1024, early=True):
    """A readable script, as a file that has the texts of its nodes alone, in their order of use."""
    return packed(TextGrower(rng, bad, early).script(most))


def packed(nodes, all_texts=None):
    """A file with the texts of its nodes, of those of TEXTS."""
    all_texts = TEXTS if all_texts is None else all_texts
    used = {}
    made = [(kind, form, arity, used.setdefault(text, len(used)), bits) if kind in (20, 21, 25, 29, 37, 47) else (kind, form, arity, text, bits)
            for kind, form, arity, text, bits in nodes]
    return pack(made, [all_texts[text] for text in used])


def fractions_of_steps(rng):
    """Numbers that lie between others in all ways: ties, halves of the last digit, neighbours of powers."""
    for power in range(-90, 90, 3):
        near = bits_of(2.0 ** power)
        yield from range(near - 2, near + 3)
    for power in range(-26, 27):
        near = bits_of(float("1e%d" % power))
        yield from range(near - 2, near + 3)
    for whole in (2 ** 50, 2 ** 51, 2 ** 52, 2 ** 53, 2 ** 54, 2 ** 60, 2 ** 63, 2 ** 64, 2 ** 83):
        for quarter in range(9):
            yield bits_of(float(whole) + quarter / 4)
        yield bits_of(float(whole)) + 1
    for _ in range(400):
        yield rng.getrandbits(64)
        yield bits_of(rng.randrange(10 ** rng.randrange(1, 18)) / 10 ** rng.randrange(18))
        yield bits_of(rng.randrange(2 ** 20) / 2 ** rng.randrange(40))


def numbers(rng):
    """Bits of numbers: small ones, ties, those with 25 and 26 digits, 2^53 and above, tiny ones, both signs, infinities and what is no number."""
    yield from (bits_of(float(n)) for n in range(120))
    yield from fractions_of_steps(rng)
    for text in ("9999999999999998758486016", "1e25", "1e24", "1e-24", "1e-25", "1.5e-24", "9e-24", "2.5e-23", "5e-324", "1e308", "1.7976931348623157e308",
                 "9007199254740991", "9007199254740992", "9007199254740993", "1e21", "1e23", "0.1", "0.30000000000000004", "5e-7", "123456789012345678"):
        near = bits_of(float(text))
        yield from range(max(0, near - 2), near + 3)
    for bits in (0, bits_of(1.0), bits_of(0.1), 0x7FF << 52, (0x7FF << 52) + 1, 0x7FF8 << 48, (1 << 63) - 1):
        yield bits
        yield bits | 1 << 63


def number_script(all_bits):
    """An array of numbers as a script."""
    return pack(statement(tree(27, *[tree(24, bits=bits) for bits in all_bits])), [])


LONGEST = 8369156


def longest():
    """The script with the longest text: `switch ( new S ( S , .. ) ) { }`, each S of 4,096 bytes that take a `\\` each."""
    return pack(tree(1, tree(18, tree(36, *[tree(25)] * 1021, form=1))), [b'"' * 4096])


def named():
    """The named scripts of request 6, and others where a pair has to stand or must not; each with its text, or None where there is none."""
    made = []

    def case(name, text, *statements):
        made.append((name, packed(tree(1, *statements)), None if text is None else text.encode()))

    def of(name, text, e):
        case(name, None if text is None else text + " ;\n", tree(4, e))

    let, asynchronous, of_name, f = variable(b"let"), variable(b"async"), variable(b"of"), variable(b"$")
    empty, block, function = tree(3), tree(2), tree(39, tree(2))
    named_let, named_async = variable(b"let", 20), variable(b"async", 20)
    minus = lambda e: unary("-", e)
    in_ab = binary("in", A, B)
    case("an empty script", "")
    case("two statements", "a ;\nb ;\n", tree(4, A), tree(4, B))
    # the named ones
    of("unary minus before minus", "- - a", minus(minus(A)))
    of("minus before an update", "- -- a", minus(tree(31, A, form=1)))
    of("plus before an update", "+ ++ a", unary("+", tree(31, A)))
    of("minus behind minus", "a - - b", binary("-", A, minus(B)))
    of("** after a unary", "( - a ) ** b", binary("**", minus(A), B))
    of("** before a unary", "a ** - b", binary("**", A, minus(B)))
    of("a unary of **", "- a ** b".replace("- a ** b", "- ( a ** b )"), minus(binary("**", A, B)))
    of("** to the left", "( a ** b ) ** c", binary("**", binary("**", A, B), C))
    of("** to the right", "a ** b ** c", binary("**", A, binary("**", B, C)))
    of("** after an update", "a ++ ** b", binary("**", tree(31, A, form=2), B))
    of("?? over ||", "( a || b ) ?? c", binary("??", binary("||", A, B), C))
    of("?? over && on the right", "a ?? ( b && c )", binary("??", A, binary("&&", B, C)))
    of("|| over ??", "( a ?? b ) || c", binary("||", binary("??", A, B), C))
    of("&& over ??", "a && ( b ?? c )", binary("&&", A, binary("??", B, C)))
    of("?? to the left", "a ?? b ?? c", binary("??", binary("??", A, B), C))
    of("?? to the right", "a ?? ( b ?? c )", binary("??", A, binary("??", B, C)))
    of("?? over |", "a | b ?? c", binary("??", binary("|", A, B), C))
    of("?? in a conditional", "a ?? b ? c : a", tree(34, binary("??", A, B), C, A))
    of("a call below new", "new ( a ( ) ) ( )", tree(36, tree(35, A), form=1))
    of("a call below new without a list", "new ( a ( ) )", tree(36, tree(35, A)))
    of("a call inside a member below new", "new ( a ( ) ) . b ( )", tree(36, tree(37, tree(35, A), text=NUMBER[b"b"]), form=1))
    of("a call in brackets below new", "new a [ b ( ) ] ( )", tree(36, tree(38, A, tree(35, B)), form=1))
    of("new of new", "new new a ( )", tree(36, tree(36, A, form=1)))
    of("new of new without a list", "new new a", tree(36, tree(36, A)))
    of("new with a list of new without", "new ( new a ) ( )", tree(36, tree(36, A), form=1))
    of("new with a list, called", "new a ( ) ( )", tree(35, tree(36, A, form=1)))
    of("new without a list, called", "( new a ) ( )", tree(35, tree(36, A)))
    of("a member of new without a list", "( new a ) . b", tree(37, tree(36, A), text=NUMBER[b"b"]))
    of("a member of new with one", "new a ( b ) . b", tree(37, tree(36, A, B, form=1), text=NUMBER[b"b"]))
    case("( async ) of", "for ( ( async ) of a ) ;\n", tree(14, named_async, A, empty))
    case("async in", "for ( async in a ) ;\n", tree(13, named_async, A, empty))
    case("( let ) of", "for ( ( let ) of a ) ;\n", tree(14, named_let, A, empty))
    case("let in", "for ( let in a ) ;\n", tree(13, named_let, A, empty))
    case("of of", "for ( of of of ) ;\n", tree(14, variable(b"of", 20), of_name, empty))
    case("var async of", "for ( var async of a ) ;\n", tree(14, tree(5, tree(6, named_async)), A, empty))
    case("in in a for's start", "for ( ( a in b ) ; ; ) ;\n", tree(12, in_ab, empty, form=1))
    case("in below in", "for ( ( a in b in c ) ; ; ) ;\n", tree(12, binary("in", in_ab, C), empty, form=1))
    case("in in its declaration", "for ( var a = ( a in b ) , b = [ a in b ] ; ; ) ;\n",
         tree(12, tree(5, tree(6, NAME_A, in_ab), tree(6, NAME_B, tree(27, in_ab))), empty, form=1))
    case("in where it may be", "for ( a ? b in c : ( b in c ) ; a in b ; a in b ) ;\n",
         tree(12, tree(34, A, binary("in", B, C), binary("in", B, C)), in_ab, in_ab, empty, form=7))
    case("in below an arrow in a for's start", "for ( ( a = a in b ) => ( a in b ) ; ; ) ;\n",
         tree(12, tree(40, tree(48, NAME_A, in_ab), in_ab, form=1), empty, form=1))
    case("in below a function in a for's start", "for ( function ( ) { a in b ; } ; ; ) ;\n", tree(12, tree(39, tree(2, tree(4, in_ab))), empty, form=1))
    case("in in parentheses", "for ( ( a in b ) ; ; ) ;\n", tree(12, tree(41, in_ab), empty, form=1))
    case("in a list of for-of", "for ( a of ( b , c ) ) ;\n", tree(14, NAME_A, tree(42, B, C), empty))
    case("in a list of for-in", "for ( a in b , c ) ;\n", tree(13, NAME_A, tree(42, B, C), empty))
    # what a statement, an arrow's body and a for's start may not begin with
    of("let [", "( let ) [ a ]", tree(38, let, A))
    of("let [ further in", "( let ) [ a ] . b ++", tree(31, tree(37, tree(38, let, A), text=NUMBER[b"b"]), form=2))
    of("let .", "let . b", tree(37, let, text=NUMBER[b"b"]))
    of("let (", "let ( a )", tree(35, let, A))
    of("let [ not first", "a , let [ a ]", tree(42, A, tree(38, let, A)))
    case("let [ in a for's start", "for ( ( let ) [ a ] ; ; ) ;\n", tree(12, tree(38, let, A), empty, form=1))
    of("an object first", "( { } ) . b", tree(37, tree(28), text=NUMBER[b"b"]))
    of("an object pattern first", "( { } = a )", tree(33, tree(45), A))
    of("an object pattern first of two", "( { } = a ) , b", tree(42, tree(33, tree(45), A), B))
    of("a function first", "( function ( ) { } ) ( )", tree(35, function))
    of("a function in parentheses", "( function ( ) { } )", tree(41, function))
    of("a function not first", "! function ( ) { }", unary("!", function))
    of("an arrow's body that is an object", "( ) => ( { } )", tree(40, tree(28), form=1))
    of("an arrow's body that begins so", "( ) => ( { } ) . b", tree(40, tree(37, tree(28), text=NUMBER[b"b"]), form=1))
    of("an arrow's body that begins so by a pattern", "( ) => ( { } = a )", tree(40, tree(33, tree(45), A), form=1))
    of("an arrow's body that is a function", "( ) => function ( ) { }", tree(40, function, form=1))
    of("an arrow's body that is a sequence", "( ) => ( a , b )", tree(40, tree(42, A, B), form=1))
    of("an arrow called", "( ( a ) => { } ) ( )", tree(35, tree(40, NAME_A, block)))
    of("an arrow before ?", "( ( ) => { } ) ? a : b", tree(34, tree(40, block), A, B))
    of("an arrow before **", "( ( ) => { } ) ** a", binary("**", tree(40, block), A))
    of("an arrow behind ||", "a || ( ( ) => b )", binary("||", A, tree(40, B, form=1)))
    # the rest of the grammar
    of("a sequence in a sequence", "( a , b ) , c", tree(42, tree(42, A, B), C))
    of("a sequence as an argument", "a ( ( b , c ) , b )", tree(35, A, tree(42, B, C), B))
    of("a conditional in its test", "( a ? b : c ) ? b : c", tree(34, tree(34, A, B, C), B, C))
    of("a conditional in its branches", "a ? b ? a : b : c ? a : b", tree(34, A, tree(34, B, A, B), tree(34, C, A, B)))
    of("an assignment in a conditional", "( a = b ) ? a = b : a = b", tree(34, tree(33, NAME_A, B), tree(33, NAME_A, B), tree(33, NAME_A, B)))
    of("assignments", "a = b += c", tree(33, NAME_A, tree(33, NAME_B, C, form=1)))
    of("an assignment to a member of a call", "a ( ) . b = c", tree(33, tree(37, tree(35, A), text=NUMBER[b"b"]), C))
    of("an assignment to a member of new", "( new a ) . b = c", tree(33, tree(37, tree(36, A), text=NUMBER[b"b"]), C))
    of("an array pattern", "[ a = b , [ ] , { class : a } ] = c",
       tree(33, tree(46, tree(48, NAME_A, B), tree(46), tree(45, tree(47, NAME_A, text=NUMBER[b"class"]))), C))
    of("an object", "( { a : ( b , c ) , class : a } )", tree(28, tree(29, tree(42, B, C), text=NUMBER[b"a"]), tree(29, A, text=NUMBER[b"class"])))
    of("minus of a sum", "- ( a + b ) * c", binary("*", minus(binary("+", A, B)), C))
    of("sums", "a + b + ( a + b )", binary("+", binary("+", A, B), binary("+", A, B)))
    of("comparisons", "a < b == ( a == b )", binary("==", binary("<", A, B), binary("==", A, B)))
    of("a member of a number", "1 . b", tree(37, number(1.0), text=NUMBER[b"b"]))
    of("a word of a unary", "typeof void delete a", unary("typeof", unary("void", unary("delete", A))))
    of("parentheses of the tree", "( ( a ) )", tree(41, tree(41, A)))
    of("parentheses of the tree before **", "( - a ) ** b", binary("**", tree(41, minus(A)), B))
    of("strings", '"" + "\\"" + "\\\\" + "it\'s"', binary("+", binary("+", binary("+", word(b""), word(b'"')), word(b"\\")), word(b"it's")))
    for value, text in ((0.0, "0"), (0.1, "0.1"), (1e21, "1000000000000000000000"), (1e23, "99999999999999991611392"), (2.0 ** 53, "9007199254740992"),
                        (2.0 ** 50 + 0.25, "1125899906842624.2"), (2.0 ** 50 + 0.75, "1125899906842624.8"), (1e-24, "0.000000000000000000000001"),
                        (9999999999999998758486016.0, "9999999999999998758486016"), (2.0 ** -24, "0.00000005960464477539063"), (1e-25, None), (1e25, None),
                        (-1.0, None), (-0.0, None), (float("inf"), None), (float("nan"), None), (5e-324, None)):
        of("the number %r" % value, text, number(value))
    case("all statements",
         "var a = b , b ;\nlet a ;\nconst a ;\n{ a ; { } }\nif ( a ) b ; else if ( b ) c ; else ;\nwhile ( a ) { }\ndo a ; while ( b ) ;\nthrow a ;\n"
         "switch ( a ) { case b : let a ; break ; default : function a ( ) { } }\ntry { } catch { } finally { }\ntry { } catch ( [ a ] ) { }\n"
         "function a ( b , [ a ] = b , { b : a } ) { return ; return a ; }\nfor ( ; ; ) continue ;\n",
         tree(5, tree(6, NAME_A, B), tree(6, NAME_B)), tree(5, tree(6, NAME_A), form=1), tree(5, tree(6, NAME_A), form=2), tree(2, tree(4, A), tree(2)),
         tree(9, A, tree(4, B), tree(9, B, tree(4, C), empty)), tree(10, A, block), tree(11, B, tree(4, A)), tree(15, A),
         tree(18, A, tree(19, B, tree(5, tree(6, NAME_A), form=1), tree(43), form=1), tree(19, tree(7, NAME_A, block))),
         tree(16, block, tree(17, block), block, form=3), tree(16, block, tree(17, tree(46, NAME_A), block), form=1),
         tree(7, NAME_A, NAME_B, tree(48, tree(46, NAME_A), B), tree(45, tree(47, NAME_A, text=NUMBER[b"b"])), tree(2, tree(8), tree(8, A))), tree(12, tree(44)))
    # early errors are no matter of the grammar
    case("let let", "let let ;\n", tree(5, tree(6, named_let), form=1))
    case("declared twice", "let a ;\nlet a ;\n", tree(5, tree(6, NAME_A), form=1), tree(5, tree(6, NAME_A), form=1))
    case("break outside loops", "break ;\n", tree(43))
    case("parameters of one name", "function a ( b , b ) { }\n", tree(7, NAME_A, NAME_B, NAME_B, block))
    case("use strict", '"use strict" ;\nyield ;\n', tree(4, word(b"use strict")), tree(4, variable(b"yield")))
    # no text
    if_a = tree(9, A, empty)
    no_text = (
        ("a reserved word", tree(4, variable(b"class"))), ("enum", tree(4, variable(b"enum"))), ("a name that begins with a digit", tree(4, variable(b"1a"))),
        ("no name", tree(4, variable(b""))), ("a name with a backslash", tree(4, variable(b"a\\u0061"))), ("a name with a blank", tree(4, variable(b"a b"))),
        ("a name of other letters", tree(4, variable("\u00e9".encode()))), ("a property that is no name", tree(4, tree(37, A, text=NUMBER[b"7"]))),
        ("a key that is no name", tree(4, tree(28, tree(29, A, text=NUMBER[b"a-b"])))), ("a key of a pattern", tree(4, tree(33, tree(45, tree(47, NAME_A, text=NUMBER[b""])), A))),
        ("a string with a line end", tree(4, word(b"\n"))), ("a string with byte 31", tree(4, word(b"\x1f"))), ("a string with byte 127", tree(4, word(b"\x7f"))),
        ("a string with other letters", tree(4, word("\u00e4".encode()))), ("a sequence of one", tree(4, tree(42, A))), ("return outside a function", tree(8)),
        ("return in a block outside a function", tree(2, tree(8, A))), ("let as a branch", tree(9, A, tree(5, tree(6, NAME_A), form=1))),
        ("const as a loop's body", tree(10, A, tree(5, tree(6, NAME_A, B), form=2))), ("a function as a branch", tree(9, A, empty, tree(7, NAME_A, block))),
        ("a function as a body", tree(12, tree(7, NAME_A, block))), ("an else taken by an inner if", tree(9, A, if_a, empty)),
        ("an else taken further in", tree(9, A, tree(10, B, tree(9, B, empty, if_a)), empty)), ("an else taken in a for", tree(9, A, tree(12, if_a), empty)),
        ("two defaults", tree(18, A, tree(19), tree(19, B, form=1), tree(19))), ("a value in a head", tree(13, tree(5, tree(6, NAME_A, B)), A, empty)),
        ("a value in a head of for-of", tree(14, tree(5, tree(6, NAME_A, B), form=1), A, empty)), ("a pattern without a value", tree(5, tree(6, tree(46)))),
        ("a pattern without a value in a for's start", tree(12, tree(5, tree(6, tree(45)), form=1), empty, form=1)),
    )
    for name, made_statement in no_text:
        case(name, None, made_statement)
    # near them
    case("an if before else", "if ( a ) { if ( a ) ; } else ;\n", tree(9, A, tree(2, if_a), empty))
    case("an if in a do before else", "if ( a ) do if ( a ) ; while ( b ) ; else ;\n", tree(9, A, tree(11, B, if_a), empty))
    case("an else of its own", "if ( a ) if ( a ) ; else ; else ;\n", tree(9, A, tree(9, A, empty, empty), empty))
    case("an if behind else", "if ( a ) ; else if ( a ) ;\n", tree(9, A, empty, if_a))
    case("var as a branch", "if ( a ) var a ;\n", tree(9, A, tree(5, tree(6, NAME_A))))
    case("return in an arrow", "( ) => { return ; } ;\n", tree(4, tree(40, tree(2, tree(8)))))
    case("a pattern without a value in a head", "for ( const [ ] of a ) ;\n", tree(14, tree(5, tree(6, tree(46)), form=2), A, empty))
    case("names that are no reserved words", "async ( await , yield , static , get , of , let ) ;\n",
         tree(4, tree(35, asynchronous, *[variable(name) for name in (b"await", b"yield", b"static", b"get", b"of", b"let")])))
    case("a call of a name", "$ ( ) ;\n", tree(4, tree(35, f)))
    return made
