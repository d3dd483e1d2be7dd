#!/usr/bin/env python3
"""Counts the places of docs/DESIGN-PASS.md in another way than tools/forms.py: by what a line or a header says, over all crates and with no name known beforehand.

    tools/forms_again.py [--at COMMIT] [--show]

--show prints the places below each count.
"""
import collections
import re
import sys

sys.dont_write_bytecode = True
import forms

WORD = r"w(?:ords)?\[[^\[\]]*(?:\[[^\[\]]*\][^\[\]]*)*\]"


def spelled(fact):
    """A fact with one spelling for what is said in several ways: the words, their reads, and names of one letter."""
    fact = re.sub(r"\b(w|words|s|file|res|self)\.(old|now|new)\b", r"\1", fact)
    fact = re.sub(r"get_or (\w+) (\([^()]*\)|\w+) 0", r"slice_index \1 \2", fact)
    fact = re.sub(r"\b(words)\b", "w", fact)
    return re.sub(r"\s+", " ", fact).strip()


def renamed(body):
    """A body with its names numbered in the order in which they come, and its numbers as one: two bodies that differ in these are twins."""
    seen = {}

    def number(m):
        return seen.setdefault(m[0], f"x{len(seen)}")

    text = re.sub(r"//.*", "", body)
    text = re.sub(r"\b\d[\d_]*\b", "N", text)
    return re.sub(r"\b[a-z_][A-Za-z0-9_]*(?:::\w+)*\b", number, text)


def places(commit):
    found = collections.defaultdict(list)
    facts = collections.defaultdict(set)
    groups = collections.defaultdict(set)
    bodies = collections.defaultdict(list)
    for path, lines in forms.sources(commit):
        text = "\n".join(lines)
        for m in re.finditer(r"(?:pub )?enum (\w+) \{(.*?)\n\}", text, re.S):
            found["1 enums, all"].append(f"{path} {m[1]}")
        for name, line, head, clauses, body in forms.functions(path, lines):
            where = f"{path}:{line} {name}"
            code = "\n".join(t for _, t in body)
            for at, t in body:
                bare = re.sub(r"//.*", "", t)
                here = f"{path}:{at} {name}: {t.strip()}"
                if re.search(r"\b\w*(?:kind|form)\w*(?:\([^()]*\))? ?(?:==|!=|<=|>=|<|>) ?\d+\b|% 64 ?[=!]= ?\d", bare):
                    found["1 kinds and forms against numbers"].append(here)
                if re.search(rf"{WORD} (?:==|!=) 0\b", bare):
                    found["1 words against 0"].append(here)
                if re.search(r"\b(?:while|loop)\b", bare):
                    found["3 while, loop"].append(here)
                if re.search(r"^\s*\w+ \+= 1;", bare):
                    found["3 counted by one"].append(here)
                if re.search(r"^\s*(?:\w+|_|\d+(?: \| \d+)*) =>", bare) and re.search(r"^\s*\d+", bare):
                    found["7 arms by numbers"].append(here)
            given = head[head.find("(") + 1 : head.rfind(")")]
            params = re.findall(r"(\w+): (&(?:mut )?[^,]+|[^,]+)", given)
            flags = [n for n, t in params if t.strip() == "bool"]
            if len(flags) >= 2:
                found["1 two flags side by side"].append(f"{where}({', '.join(flags)})")
            if re.search(r"\[\w+; ?\d+\]", head):
                found["6 arrays of a fixed length in a header"].append(where)
            small = [(n, t.strip()) for n, t in params if t.strip() not in ("&[u32]", "&mut [u32]", "&impl Print", "&[u8]", "&mut [u8]")]
            for i in range(len(small)):
                for j in range(i + 1, len(small)):
                    for k in range(j + 1, len(small)):
                        groups[(small[i], small[j], small[k])].add(where)
            for c in clauses:
                if c.strip().startswith("requires"):
                    for f in forms.parts(c):
                        facts[spelled(f)].add(where)
            shape = renamed(code)
            if len(code) > 60:
                bodies[shape].append(where)
    for shape, who in bodies.items():
        if len(who) > 1:
            found["2 bodies alike but for names and numbers"].append(" ~ ".join(who))
    for fact, who in sorted(facts.items(), key=lambda x: -len(x[1])):
        if len(who) >= 3 and len(fact) > 3:
            found["5 facts in three contracts or more, over all crates"].append(f"{len(who)} times: {fact}")
    for group, who in sorted(groups.items(), key=lambda x: -len(x[1])):
        if len(who) >= 4:
            found["5 three parameters in four functions or more"].append(f"{len(who)} times: " + ", ".join(f"{n}: {t}" for n, t in group))
    return found


def main():
    args = sys.argv[1:]
    commit = args[args.index("--at") + 1] if "--at" in args else None
    found = places(commit)
    for key in sorted(found):
        print(f"{len(found[key]):4} {key}")
        if "--show" in args:
            for one in found[key]:
                print(f"       {one}")


try:
    main()
except BrokenPipeError:
    pass
