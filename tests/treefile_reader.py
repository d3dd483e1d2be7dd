"""A reader of tree files written from document 01 and request 4 alone: which of rows 2 to 7 refuses a file, or 0.

The kinds are regular expressions over the kinds of the children, in document 01's own notation; nothing here follows the definitions of
crates/def_file.
"""
import re
import struct

# of each kind: by form the children. A form that is missing is out of range. A word is a kind, or s, e or b; h is the head of a
# for-in or for-of, f the start of a for, u what an update changes, a what an assignment sets, d the same of `=`; n is a name (20 or a
# pattern), t a target
ONE = {
    1: "s*", 2: "s*", 3: "", 4: "e", 6: "n e?", 7: "b t* 2", 8: "e?", 9: "e s s?", 10: "e s", 11: "e s", 13: "h e s", 14: "h e s",
    15: "e", 17: "n? 2", 18: "e 19*", 20: "", 21: "", 22: "", 24: "", 25: "", 26: "", 27: "e*", 28: "29*", 29: "e", 34: "e e e",
    35: "e e*", 37: "e", 38: "e e", 41: "e", 42: "e e*", 43: "", 44: "", 45: "47*", 46: "t*", 47: "t", 48: "n e",
}
MANY = {5: (3, "6 6*"), 23: (2, ""), 30: (7, "e"), 31: (4, "u"), 32: (25, "e e")}
BY_FORM = {
    12: {f: " ".join(["f"] * (f & 1) + ["e"] * (f >> 1 & 1) + ["e"] * (f >> 2 & 1) + ["s"]) for f in range(8)},
    16: {1: "2 17", 2: "2 2", 3: "2 17 2"},
    19: {0: "s*", 1: "e s*"},
    33: {f: "a e" if f else "d e" for f in range(16)},
    36: {0: "e", 1: "e e*"},
    39: {0: "t* 2", 1: "b t* 2"},
    40: {0: "t* 2", 1: "t* e"},
}
STATEMENTS = [*range(2, 6), *range(7, 17), 18, 43, 44]
EXPRESSIONS = [*range(21, 29), *range(30, 43)]
TEXT = {20, 21, 25, 29, 37, 47}
BITS = {20, 21, 24}
# a declaration of one declarator, as a child
SINGLE = 99


def forms():
    """Kind to form to the children."""
    table = {k: {0: p} for k, p in ONE.items()}
    table.update({k: {f: p for f in range(n)} for k, (n, p) in MANY.items()})
    table.update(BY_FORM)
    return table


def letter(kind):
    return chr(0x4E00 + kind)


def group(kinds):
    """A class of kinds in a regular expression."""
    return "[" + "".join(letter(k) for k in kinds) + (letter(SINGLE) if 5 in kinds else "") + "]"


NAMES = [20, 45, 46]
WORDS = {
    "s": STATEMENTS, "e": EXPRESSIONS, "b": [20], "f": [5, *EXPRESSIONS], "u": [21, 37, 38], "a": [20, 37, 38], "n": NAMES,
    "t": [*NAMES, 48], "d": [*NAMES, 37, 38],
}


def pattern(children):
    parts = []
    for word in children.split():
        name, mark = (word[:-1], word[-1]) if word[-1] in "*?" else (word, "")
        if name == "h":
            parts.append(group([*NAMES, SINGLE]))
        else:
            parts.append(group(WORDS[name] if name in WORDS else [int(name)]) + mark)
    return re.compile("".join(parts))


FORMS = forms()
PATTERNS = {k: {f: pattern(p) for f, p in by.items()} for k, by in FORMS.items()}


def row5(ends, data):
    at, seen = 0, set()
    for end in ends:
        if end < at or end > len(data):
            return True
        at = end
    if at != len(data):
        return True
    starts = [0, *ends[:-1]]
    for start, end in zip(starts, ends):
        if data[start:end] in seen:
            return True
        seen.add(data[start:end])
    return False


def fields_bad(node, texts):
    kind, form, _, text, bits = node
    if kind not in FORMS or form not in FORMS[kind]:
        return True
    if text >= texts if kind in TEXT else text != 0:
        return True
    return kind not in BITS and bits != 0


def row6(nodes, texts):
    """The open nodes are a stack of [node, children still missing, kinds of those seen]."""
    stack, done = [], False
    for node in nodes:
        if done or len(stack) == 200 or fields_bad(node, texts):
            return True
        if not stack and node[0] != 1:
            return True
        stack.append([node, node[2], ""])
        while stack and stack[-1][1] == 0:
            (kind, form, arity, _, _), _, seen = stack.pop()
            if not PATTERNS[kind][form].fullmatch(seen):
                return True
            if not stack:
                done = True
                break
            stack[-1][1] -= 1
            stack[-1][2] += letter(SINGLE if kind == 5 and arity == 1 else kind)
    return not done


def refusal(file):
    if len(file) < 32 or struct.unpack_from("<I", file)[0] != 1:
        return 2
    _, total, n, at, t, ends_at, bytes_at, b = struct.unpack_from("<8I", file)
    if not 1 <= n <= 1024 or t > 256 or b > 4096:
        return 3
    if (total, at, ends_at, bytes_at) != (len(file), 32, 32 + 16 * n, 32 + 16 * n + 4 * t) or total != bytes_at + b:
        return 4
    if row5(struct.unpack_from("<%dI" % t, file, ends_at), file[bytes_at:]):
        return 5
    nodes = [struct.unpack_from("<BBHIQ", file, 32 + 16 * i) for i in range(n)]
    if row6(nodes, t):
        return 6
    return 7 if len({x[3:] for x in nodes if x[0] in (20, 21)}) > 256 else 0
