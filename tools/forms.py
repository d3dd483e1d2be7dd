#!/usr/bin/env python3
"""Counts, in src/ of every crate, the places of older forms that docs/DESIGN-PASS.md speaks of, one line for each place.

    tools/forms.py [--at COMMIT] [POINT ..]

Without a commit it reads the working tree. POINT is 1 to 8; without one it prints all, and last a count for each.
It reads text alone: a place is where one may look, and the page says of each what became of it.
"""
import collections
import re
import subprocess
import sys


def sources(commit):
    """Yields (path, lines) of each source file, as it stands in the tree or at a commit."""
    if commit:
        names = subprocess.run(["git", "ls-tree", "-r", "--name-only", commit, "crates"], capture_output=True, text=True, check=True).stdout.split()
    else:
        names = subprocess.run(["git", "ls-files", "crates"], capture_output=True, text=True, check=True).stdout.split()
    for name in sorted(names):
        if "/src/" in name and name.endswith(".rt"):
            if commit:
                text = subprocess.run(["git", "show", f"{commit}:{name}"], capture_output=True, text=True, check=True).stdout
            else:
                try:
                    text = open(name, encoding="utf-8").read()
                except FileNotFoundError:
                    continue
            yield name, text.split("\n")


def functions(path, lines):
    """Yields (name, first line, header, clauses, body) of each function: the texts before the clauses, the clauses, and what follows."""
    at = 0
    while at < len(lines):
        m = re.match(r'\s*(?:pub )?(?:const )?(?:extern "C" )?fn (\w+)', lines[at])
        if not m:
            at += 1
            continue
        head, clauses, body, i = [], [], [], at
        indent = len(lines[at]) - len(lines[at].lstrip())
        while i < len(lines) and not re.match(r"\s*(requires|ensures)", lines[i]) and lines[i].strip() != "{" and not lines[i].rstrip().endswith("{"):
            head.append(lines[i])
            i += 1
        if i < len(lines) and lines[i].rstrip().endswith("{") and not re.match(r"\s*(requires|ensures)", lines[i]):
            head.append(lines[i].rstrip()[:-1])
        while i < len(lines) and re.match(r"\s*(requires|ensures)", lines[i]):
            clauses.append(lines[i])
            i += 1
        while i < len(lines):
            body.append((i + 1, lines[i]))
            if lines[i] == " " * indent + "}":
                break
            i += 1
        yield m[1], at + 1, " ".join(x.strip() for x in head), clauses, body
        at = i + 1


def parts(clause):
    """The facts of a clause: what stands between × at the outermost level, without its parentheses."""
    inner = clause[clause.find("{") + 1 : clause.rfind("}")].strip()
    out, depth, now = [], 0, ""
    for c in inner:
        depth += c in "([{"
        depth -= c in ")]}"
        if c == "×" and depth == 0:
            out.append(now)
            now = ""
        else:
            now += c
    out.append(now)
    strip = lambda s: re.sub(r"^\((.*)\)$", r"\1", s.strip())
    return [strip(s) for s in out]


def places(commit):
    found = collections.defaultdict(list)
    facts = collections.defaultdict(list)
    bodies = collections.defaultdict(list)
    for path, lines in sources(commit):
        crate = path.split("/")[1]
        text = "\n".join(lines)
        # 1: an enum with a case that holds nothing or a refusal, beside one that holds a value
        for m in re.finditer(r"(?:pub )?enum (\w+) \{(.*?)\n\}", text, re.S):
            cases = [c for c in re.findall(r"^    (\w+(?:\(.*?\))?)(?: \{|,)", m[2], re.M)]
            with_number = [c for c in cases if re.search(r"\(u32\)", c)]
            if len(cases) == 2 or (with_number and len(cases) <= 3):
                found["1 enum"].append(f"{path}:{text[:m.start()].count(chr(10)) + 1} {m[1]} {{ {', '.join(cases)} }}")
        for name, line, head, clauses, body in functions(path, lines):
            where = f"{path}:{line} {name}"
            said = ""
            k = line - 2
            while k >= 0 and lines[k].startswith(("//", "#[")):
                said = lines[k] + " " + said
                k -= 1
            result = head.split("->")[-1].strip() if "->" in head else ""
            # a number that may say that there is none, or that a call is refused
            if re.search(r"\b(0|256|their count|e|no bytes) (if|where|past) |1 \+ the place|how many these are, where", said) and result in ("u32", "usize"):
                found["1 number for none"].append(where + " -> " + result)
            writes_refusal = any(re.search(r"\b(Refused|Stopped|Halted|refused)\(\d", t) for _, t in body)
            if writes_refusal:
                found["1 refusal by number"].append(where)
            if result == "u32" and re.search(r"Act w\.old w\.new result|result \(on_rest|-> u32.*no\b", " ".join(clauses) + head):
                found["1 refusal by number"].append(where + " -> u32")
            # flags and kinds as words
            given = head[head.find("(") + 1 : head.rfind(")")]
            for p in re.findall(r"(\w+): u32", given):
                if re.search(r"^(kind|alias|prevented|undef|sensitive|hoisted|named|called|call|inl|decl|mode|test|code)$", p) and not re.match(r"(put_node|add_node|grow|text_in)$", name) or p == "v" and re.match(r"set_(changed|inlining|is_first_run|var_decl_kind|pat_mode|in_test)$", name):
                    found["1 flag or kind as a word"].append(f"{where}({p}: u32)")
            if result == "u32" and re.search(r"yes result|to_nat|flag_at|var_type_of result|alias_at result|scope_kind_of result", " ".join(clauses)):
                found["1 flag or kind as a word"].append(where + " -> u32")
            n = len(re.findall(r"\w+:(?!:)", given))
            if n >= 7:
                found["5 seven parameters or more"].append(f"{where} ({n})")
            # 3: a loop that counts an index by hand
            for at, t in body:
                if re.match(r"\s*(\} )?while\b", t):
                    found["3 while"].append(f"{path}:{at} {name}: {t.strip()}")
            # 4: what a library's trait or method does
            if re.match(r"(same_\w+|copy|either|choose|flag|mark|number|down|up|wipe|window|one_more|u16_at|u32_at|u64_at|put8|put16|put32|put64|at_most|\w+_code|type_of|scope_kind|var_kind)$", name) and "w: &mut" not in head:
                found["4 by hand"].append(where)
            elif re.match(r"(down|up|wipe|mark_all|put4|put5)$", name):
                found["4 by hand"].append(where)
            # kinds by their numbers: of nodes, scopes, declarations and patterns
            for at, t in body:
                kinds = r"(\bkind\b|kind_at\([^()]*\)|\.kind\b|layout::(KIND|VAR_DECL_KIND|PAT_MODE)\]|layout::SCOPES \+ [^\]]*\])"
                by_k = r"\bk\b" if re.match(r"(is_stmt|is_expr|allows|row_of|uses_\w+|is_inline_prevented|always_prevented|logic|after|own|nameless|bare|settled|has_this|aims|is_function|outside|is_name|mark_caught|assign_first|kept_value|init|over_none|over_some)$", name) else r"(?!)"
                by_m = r"\bm\b" if re.match(r"(costly|var_inline_prevented|has_same_this|pat_step)$", name) else r"(?!)"
                who = f"({kinds}|{by_k}|{by_m})"
                if re.search(rf"{who} ?(==|!=|<=|<|>=) ?\d+\b|\b\d+ <=? {who}", t):
                    found["1 kind by its number"].append(f"{path}:{at} {name}: {t.strip()}")
            # 5: facts in the contracts of three functions or more
            for c in clauses:
                if c.strip().startswith("requires"):
                    for f in parts(c):
                        facts[(crate, re.sub(r"w\.(old|now)|words\.(old|now)", "w", f))].append(where)
            # 2: bodies of one shape
            shape = re.sub(r"\b(\d+|0x\w+)\b", "N", " ".join(t.strip() for _, t in body))
            shape = re.sub(r"layout::\w+", "L", shape)
            if len(shape) > 40:
                bodies[shape].append(where)
            # 6: arrays with a length beside them
            if re.search(r"\[\w+; \d+\]", head):
                found["6 array of a fixed length"].append(where)
            # 7: a switch on a number
            for at, t in body:
                if re.match(r"\s*match \w+ \{", t):
                    nxt = next((x for i, x in body if i == at + 1), "")
                    if re.match(r"\s*(//.*|\d+.* =>.*)", nxt):
                        found["7 switch on a number"].append(f"{path}:{at} {name}")
    for (crate, fact), who in sorted(facts.items()):
        if len(set(who)) >= 3 and len(fact) > 30:
            found["5 fact in three contracts or more"].append(f"{crate}: {len(set(who))} times: {fact}")
    for shape, who in bodies.items():
        if len(who) > 1:
            found["2 bodies of one shape"].append(" ~ ".join(who))
    return found


def main():
    args = sys.argv[1:]
    commit = None
    if "--at" in args:
        k = args.index("--at")
        commit = args[k + 1]
        del args[k : k + 2]
    found = places(commit)
    for key in sorted(found):
        if not args or key[0] in args:
            for one in found[key]:
                print(f"{key}: {one}")
    print()
    for key in sorted(found):
        if not args or key[0] in args:
            print(f"{len(found[key]):4} {key}")


if __name__ == "__main__":
    try:
        main()
    except BrokenPipeError:
        pass
