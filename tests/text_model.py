"""A model of the printer, written from request 6 and ECMA-262's productions alone: a script's tree as JavaScript text, or that there is none.

It prints by hand, from the top down: each expression is asked for at a level, the nonterminal that the production around it has there, with what its first token
may not be and whether `in` may stand in it. Nothing here is a table of productions, and nothing follows the definitions of crates/def_text.
"""
import re
import struct
from fractions import Fraction

# Expression to PrimaryExpression. ?? stands on a branch of its own: HEAD is CoalesceExpressionHead, CHAIN what stands before `.`, `[` and `(` of a CallExpression.
EXPRESSION, ASSIGNMENT, CONDITIONAL, SHORT_CIRCUIT, OR, AND, BIT_OR, BIT_XOR, BIT_AND, EQUALITY, RELATIONAL, SHIFT, ADDITIVE, MULTIPLICATIVE, POWER, UNARY, UPDATE, \
    LEFT_HAND_SIDE, NEW, MEMBER, PRIMARY = range(21)
HEAD, CHAIN = "head", "chain"
BINARY = "&& || == != === !== < <= > >= << >> >>> + - * / % | ^ & in instanceof ** ??".split()
ASSIGN = "= += -= *= /= %= <<= >>= >>>= |= ^= &= **= &&= ||= ??=".split()
UNARIES = "void typeof ! - + ~ delete".split()
LEVEL = {"&&": AND, "||": OR, "|": BIT_OR, "^": BIT_XOR, "&": BIT_AND, "**": POWER, "??": SHORT_CIRCUIT}
LEVEL.update({word: EQUALITY for word in ("==", "!=", "===", "!==")})
LEVEL.update({word: RELATIONAL for word in ("<", "<=", ">", ">=", "in", "instanceof")})
LEVEL.update({word: SHIFT for word in ("<<", ">>", ">>>")})
LEVEL.update({"+": ADDITIVE, "-": ADDITIVE, "*": MULTIPLICATIVE, "/": MULTIPLICATIVE, "%": MULTIPLICATIVE})

# what a first token may not be
NOTHING = frozenset()
STATEMENT = frozenset(["{", "function", "let ["])
FOR_START = frozenset(["let ["])
FOR_OF = frozenset(["let", "async of"])
BODY = frozenset(["{"])

RESERVED = set("""break case catch class const continue debugger default delete do else enum export extends false finally for function if import in instanceof new
null return super switch this throw true try typeof var void while with""".split())
NAME = re.compile(rb"[A-Za-z$_][A-Za-z0-9$_]*\Z")
MOST_DIGITS = 25


class NoText(Exception):
    """The script has no text; says why."""


def decimal(bits):
    """The shortest exact decimal: the fewest digits behind the point that read as the number, of several the nearest; at most 25 digits."""
    value = struct.unpack("<d", struct.pack("<Q", bits))[0]
    if bits >> 63 or value != value or value in (float("inf"), float("-inf")):
        raise NoText("a number with its sign bit set, or that is not finite")
    exact = Fraction(value)
    for places in range(MOST_DIGITS):
        scaled = exact * 10 ** places
        low = scaled.numerator // scaled.denominator
        reads = [d for d in (low, low + 1) if float_of(d, places) == value]
        if reads:
            best = min(reads, key=lambda d: (abs(d - scaled), d % 2))
            digits = str(best).rjust(places + 1, "0")
            if len(digits) > MOST_DIGITS:
                break
            return digits if places == 0 else digits[:-places] + "." + digits[-places:]
    raise NoText("a number of over 25 digits")


def float_of(digits, places):
    try:
        return digits / 10 ** places
    except OverflowError:
        return float("inf")


class Tree:
    def __init__(self, node, children, text):
        self.kind, self.form, _, _, self.bits = node
        self.children, self.text = children, text


def tree_of(nodes, texts):
    """The tree of nodes in preorder; nodes with a text have its bytes."""
    rest = iter(nodes)

    def take():
        node = next(rest)
        return Tree(node, [take() for _ in range(node[2])], texts[node[3]] if node[0] in (20, 21, 25, 29, 37, 47) else None)

    return take()


def name(text):
    if not NAME.match(text):
        raise NoText("a property that is no name: %r" % text)
    return text.decode()


def variable(text):
    if name(text) in RESERVED:
        raise NoText("a variable that is a reserved word: %s" % text.decode())
    return text.decode()


def quoted(text):
    if any(not 32 <= byte <= 126 for byte in text):
        raise NoText("a string with a byte outside 32 to 126: %r" % text)
    return '"' + text.decode().replace("\\", "\\\\").replace('"', '\\"') + '"'


class Printer:
    """Tokens are put one after the other; an added pair is put as the tokens OPEN and CLOSE, so that a test can leave it out."""

    OPEN, CLOSE = ("(",), (")",)

    def __init__(self):
        self.tokens, self.lines = [], []

    def put(self, *words):
        self.tokens += words

    # expressions

    def fits(self, e, level):
        """Is the expression of this level, or does it come from it by productions of one nonterminal alone."""
        own = {42: EXPRESSION, 33: ASSIGNMENT, 40: ASSIGNMENT, 34: CONDITIONAL, 30: UNARY, 31: UPDATE, 35: CHAIN}.get(e.kind, PRIMARY)
        if e.kind == 32:
            own = LEVEL[BINARY[e.form]]
            if BINARY[e.form] == "??":
                return level == HEAD or (level != CHAIN and level <= SHORT_CIRCUIT)
        if e.kind == 36:
            own = MEMBER if e.form else NEW
        if e.kind in (37, 38):
            own = MEMBER
        if own == CHAIN:
            return level == CHAIN or level == HEAD or level <= LEFT_HAND_SIDE
        if level == HEAD:
            return own >= BIT_OR
        return own >= (MEMBER if level == CHAIN else level)

    def barred(self, e, bars, following):
        """Does it begin, as it stands, with what may not stand there; of what begins it, the smallest is asked."""
        if e.kind == 28 or (e.kind == 33 and e.children[0].kind == 45):
            return "{" in bars
        if e.kind == 39:
            return "function" in bars
        return e.kind == 21 and e.text == b"let" and "let [" in bars and following == "["

    def expression(self, e, level, in_allowed=True, bars=NOTHING, following=None):
        is_in = e.kind == 32 and BINARY[e.form] == "in" and not in_allowed
        if not self.fits(e, level) or is_in or self.barred(e, bars, following):
            self.put(self.OPEN)
            self.bare(e, EXPRESSION, True, NOTHING)
            self.put(self.CLOSE)
        else:
            self.bare(e, level, in_allowed, bars)

    def bare(self, e, level, in_allowed, bars):
        kind, form, children = e.kind, e.form, e.children
        plain = {22: "null", 26: "this"}
        if kind in plain:
            self.put(plain[kind])
        elif kind == 21:
            self.put(variable(e.text))
        elif kind == 23:
            self.put("true" if form else "false")
        elif kind == 24:
            self.put(decimal(e.bits))
        elif kind == 25:
            self.put(quoted(e.text))
        elif kind == 27:
            self.between("[", children, lambda x: self.expression(x, ASSIGNMENT), "]")
        elif kind == 28:
            self.between("{", children, self.property, "}")
        elif kind == 30:
            self.put(UNARIES[form])
            self.expression(children[0], UNARY)
        elif kind == 31:
            if form < 2:
                self.put(("++", "--")[form])
                self.expression(children[0], UNARY)
            else:
                self.expression(children[0], LEFT_HAND_SIDE, True, bars)
                self.put(("++", "--")[form - 2])
        elif kind == 32:
            self.binary(e, in_allowed, bars)
        elif kind == 33:
            self.target(children[0], bars)
            self.put(ASSIGN[form])
            self.expression(children[1], ASSIGNMENT, in_allowed)
        elif kind == 34:
            self.expression(children[0], SHORT_CIRCUIT, in_allowed, bars)
            self.put("?")
            self.expression(children[1], ASSIGNMENT)
            self.put(":")
            self.expression(children[2], ASSIGNMENT, in_allowed)
        elif kind == 35:
            self.expression(children[0], CHAIN, True, bars)
            self.between("(", children[1:], lambda x: self.expression(x, ASSIGNMENT), ")")
        elif kind == 36:
            self.put("new")
            self.expression(children[0], MEMBER if form else NEW)
            if form:
                self.between("(", children[1:], lambda x: self.expression(x, ASSIGNMENT), ")")
        elif kind in (37, 38):
            # only where a CallExpression may stand is the object one
            call = level in (CHAIN, HEAD) or level <= LEFT_HAND_SIDE
            self.expression(children[0], CHAIN if call else MEMBER, True, bars, "[" if kind == 38 else ".")
            if kind == 37:
                self.put(".", name(e.text))
            else:
                self.put("[")
                self.expression(children[1], EXPRESSION)
                self.put("]")
        elif kind == 39:
            self.function(children[1:] if form else children, children[0] if form else None)
        elif kind == 40:
            self.between("(", children[:-1], self.element, ")")
            self.put("=>")
            if form:
                self.expression(children[-1], ASSIGNMENT, in_allowed, BODY)
            else:
                self.block(children[-1], True)
        elif kind == 41:
            self.put("(")
            self.expression(children[0], EXPRESSION)
            self.put(")")
        elif kind == 42:
            if len(children) < 2:
                raise NoText("a sequence of one expression")
            for index, child in enumerate(children):
                if index:
                    self.put(",")
                self.expression(child, ASSIGNMENT, in_allowed, NOTHING if index else bars)
        else:
            raise AssertionError(kind)

    def binary(self, e, in_allowed, bars):
        word = BINARY[e.form]
        left = {"??": HEAD, "**": UPDATE}.get(word, LEVEL[word])
        right = {"??": BIT_OR, "**": POWER}.get(word, LEVEL[word] + 1)
        self.expression(e.children[0], left, in_allowed, bars)
        self.put(word)
        self.expression(e.children[1], right, in_allowed)

    def property(self, x):
        self.put(name(x.text), ":")
        self.expression(x.children[0], ASSIGNMENT)

    def between(self, first, items, put, last):
        self.put(first)
        for index, item in enumerate(items):
            if index:
                self.put(",")
            put(item)
        self.put(last)

    # names and patterns

    def target(self, x, bars=NOTHING):
        """What an assignment sets."""
        if x.kind in (37, 38):
            self.expression(x, LEFT_HAND_SIDE, True, bars)
        else:
            self.element(x)

    def element(self, x):
        """A name, a pattern, or one of them with a default."""
        if x.kind == 20:
            self.put(variable(x.text))
        elif x.kind == 45:
            self.between("{", x.children, self.pattern_property, "}")
        elif x.kind == 46:
            self.between("[", x.children, self.element, "]")
        else:
            self.element(x.children[0])
            self.put("=")
            self.expression(x.children[1], ASSIGNMENT)

    def pattern_property(self, x):
        self.put(name(x.text), ":")
        self.element(x.children[0])

    def function(self, rest, of=None):
        self.put("function")
        if of:
            self.put(variable(of.text))
        self.between("(", rest[:-1], self.element, ")")
        self.block(rest[-1], True)

    # statements

    def block(self, x, returns):
        self.put("{")
        for child in x.children:
            self.item(child, returns)
        self.put("}")

    def item(self, s, returns):
        """What stands in a list of statements."""
        if s.kind == 7:
            self.function(s.children[1:], s.children[0])
        elif s.kind == 5:
            self.declaration(s)
            self.put(";")
        else:
            self.statement(s, returns)

    def declaration(self, s, in_allowed=True):
        self.put(("var", "let", "const")[s.form])
        for index, x in enumerate(s.children):
            if index:
                self.put(",")
            if x.children[0].kind != 20 and len(x.children) == 1:
                raise NoText("a pattern is declared without a value")
            self.element(x.children[0])
            if len(x.children) == 2:
                self.put("=")
                self.expression(x.children[1], ASSIGNMENT, in_allowed)

    def asked(self, word, e):
        self.put(word, "(")
        self.expression(e, EXPRESSION)
        self.put(")")

    def statement(self, s, returns):
        kind, children = s.kind, s.children
        if kind == 7 or (kind == 5 and s.form):
            raise NoText("a let, a const or a function is a branch or a loop's body")
        if kind in (2, 5):
            self.item(s, returns) if kind == 5 else self.block(s, returns)
        elif kind == 3:
            self.put(";")
        elif kind == 4:
            self.expression(children[0], EXPRESSION, True, STATEMENT)
            self.put(";")
        elif kind in (8, 15):
            if kind == 8 and not returns:
                raise NoText("a return outside a function")
            self.put("return" if kind == 8 else "throw")
            for child in children:
                self.expression(child, EXPRESSION)
            self.put(";")
        elif kind == 9:
            self.asked("if", children[0])
            if len(children) == 3 and is_open(children[1]):
                raise NoText("an if without else before an else")
            self.statement(children[1], returns)
            if len(children) == 3:
                self.put("else")
                self.statement(children[2], returns)
        elif kind == 10:
            self.asked("while", children[0])
            self.statement(children[1], returns)
        elif kind == 11:
            self.put("do")
            self.statement(children[1], returns)
            self.asked("while", children[0])
            self.put(";")
        elif kind == 12:
            self.loop(s, returns)
        elif kind in (13, 14):
            self.put("for", "(")
            self.head(children[0], kind)
            self.put("in" if kind == 13 else "of")
            self.expression(children[1], EXPRESSION if kind == 13 else ASSIGNMENT)
            self.put(")")
            self.statement(children[2], returns)
        elif kind == 16:
            self.attempt(s, returns)
        elif kind == 18:
            self.selection(s, returns)
        else:
            self.put({43: "break", 44: "continue"}[kind], ";")

    def loop(self, s, returns):
        rest = list(s.children)
        self.put("for", "(")
        if s.form & 1:
            start = rest.pop(0)
            if start.kind == 5:
                self.declaration(start, False)
            else:
                self.expression(start, EXPRESSION, False, FOR_START)
        for bit, after in ((2, ";"), (4, ";")):
            self.put(after)
            if s.form & bit:
                self.expression(rest.pop(0), EXPRESSION)
        self.put(")")
        self.statement(rest[0], returns)

    def head(self, x, kind):
        if x.kind == 5:
            declared = x.children[0]
            if len(declared.children) == 2:
                raise NoText("a declaration in the head of a for-in or for-of has a value")
            self.put(("var", "let", "const")[x.form])
            self.element(declared.children[0])
        elif x.kind == 20 and kind == 14 and x.text in (b"let", b"async"):
            self.put(self.OPEN)
            self.element(x)
            self.put(self.CLOSE)
        else:
            self.element(x)

    def attempt(self, s, returns):
        rest = list(s.children)
        self.put("try")
        self.block(rest.pop(0), returns)
        if s.form & 1:
            handler = rest.pop(0)
            self.put("catch")
            if len(handler.children) == 2:
                self.put("(")
                self.element(handler.children[0])
                self.put(")")
            self.block(handler.children[-1], returns)
        if s.form & 2:
            self.put("finally")
            self.block(rest[0], returns)

    def selection(self, s, returns):
        self.asked("switch", s.children[0])
        self.put("{")
        if sum(x.form == 0 for x in s.children[1:]) > 1:
            raise NoText("two defaults in a switch")
        for x in s.children[1:]:
            rest = x.children
            if x.form:
                self.put("case")
                self.expression(rest[0], EXPRESSION)
                rest = rest[1:]
            else:
                self.put("default")
            self.put(":")
            for child in rest:
                self.item(child, returns)
        self.put("}")

    def script(self, root):
        for child in root.children:
            self.tokens = []
            self.item(child, False)
            self.lines.append(self.tokens)
        return self.lines


def is_open(s):
    """Does the statement end in an if without else, which would take the else that follows."""
    if s.kind == 9:
        return len(s.children) == 2 or is_open(s.children[2])
    return s.kind in (10, 12, 13, 14) and is_open(s.children[-1])


def lines_of(nodes, texts):
    """The tokens of each statement; NoText where there is no text. An added pair is Printer.OPEN and Printer.CLOSE."""
    return Printer().script(tree_of(nodes, texts))


def joined(lines):
    return "".join(" ".join(word if isinstance(word, str) else word[0] for word in line) + "\n" for line in lines).encode()


def without_each_pair(lines):
    """The text with each of its added pairs left out in turn."""
    for at, line in enumerate(lines):
        opened = []
        for index, word in enumerate(line):
            if word is Printer.OPEN:
                opened.append(index)
            elif word is Printer.CLOSE:
                first = opened.pop()
                yield joined(lines[:at] + [line[:first] + line[first + 1:index] + line[index + 1:]] + lines[at + 1:])
