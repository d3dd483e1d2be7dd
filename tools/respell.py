#!/usr/bin/env python3
"""Brings the repository's own definitions, lemmas, fields and constructors to the spelling of today's library: snake case for what is no type.

usage: respell.py [--check] FOLDER

A name that an .antt file below crates/ declares and whose parts between dashes have a small first letter is respelled part by part: `nodeOf` to `node_of`,
`ok-addConst` to `ok-add_const`. Types, modules, functions of src/ and strings of programs keep their names. It turns whole words in .antt, .rt and .edit files,
and in code spans of .md files and in the .py files of tools/ and tests/. It stops where two names would fall together. --check writes nothing.
A second run changes nothing.
"""
import glob
import os
import re
import sys

STOP = r'\s(){}.;,@"«»`'
WORD = re.compile(rf"[^{STOP}]+")
# A word that is no field and no step of a path.
BARE = re.compile(rf"(?<![^{STOP}]|\.)[^{STOP}]+(?![^{STOP}]|\.)")
NAME = rf"[^{STOP}:=]+"
DECLARED = re.compile(rf"(?m)^ *(?:(?:pub|abbrev|unfoldable|private) +)*({NAME})(?: \{{[^{{}}\n]*\}})*(?: \([^()\n]*\))* :(?=\s)")
DATA = re.compile(r"(?m)^(?:abbrev )?(?:pub )?data .*?where\n((?:  .*\n)+)")
# Lemmas that would get the name of a definition, by the files in which they stand: each gets `_lem`.
LEMMAS = {
    "file_copy/proofs/Again.antt": ["node_at"],
    "file_read/proofs/+children_declarator_node/Proof.antt": ["node_at"],
    "laws_pass/proofs/ReadsAgain.antt": ["one_more"],
    "laws_pass/proofs/TreeLaws.antt": ["in_scope", "put_const"],
    "laws_roundtrip/proofs/Header.antt": ["head_bytes"],
    "laws_roundtrip/proofs/Round.antt": ["head_bytes"],
    "pass_run/proofs/Turns.antt": ["told_of"],
    "scope_declare/proofs/Declares.antt": ["no_value"],
    "scope_find/proofs/Facts.antt": ["in_scope"],
    "scope_find/proofs/Placed.antt": ["place_here"],
    "scope_read_write/proofs/Again.antt": ["same_id"],
    "walk_ident/proofs/Idents.antt": ["by_value"],
    "walk_laws/proofs/Declrs.antt": ["node_in"],
    "walk_laws/proofs/Ways.antt": ["bare_of"],
    "walk_write/proofs/AssignLast.antt": ["is_name"],
    "walk_write/proofs/Shapes.antt": ["but_last"],
    "words_scopes/proofs/Index.antt": ["place_here"],
    "walk/proofs/": ["bare_of"],
}


def respelled(name):
    parts = []
    for part in name.split("-"):
        if re.match(r"[a-zα-ωκμ]", part) and re.search(r"[a-z0-9][A-Z]", part):
            part = re.sub(r"(?<=[a-z0-9])(?=[A-Z])", "_", part).lower()
        parts.append(part)
    return "-".join(parts)


def with_lemmas(path):
    """Returns a file's text with the lemmas of the table under their new names."""
    with open(path, encoding="utf-8") as f:
        text = f.read()
    names = [n for where, ns in LEMMAS.items() if f"/crates/{where}" in path for n in ns]
    return WORD.sub(lambda m: m[0] + "_lem" if m[0] in names else m[0], text) if names else text


def main(argv):
    check = "--check" in argv
    root = [a for a in argv if a != "--check"][0]
    antt = sorted(glob.glob(os.path.join(root, "crates/*/specs/**/*.antt"), recursive=True) + glob.glob(os.path.join(root, "crates/*/proofs/**/*.antt"), recursive=True))
    declared, bare = set(), {}
    for path in antt:
        text = with_lemmas(path)
        bare[path] = set(BARE.findall(re.sub(r"(?m)(?:^|(?<=\s))--(?=\s).*$", "", text)))
        declared |= {m[1] for m in DECLARED.finditer(text)}
        for m in DATA.finditer(text):
            for line in m[1].splitlines():
                declared |= set(line.split(" : ")[0].split())
    turned = {n: respelled(n) for n in declared if respelled(n) != n}
    if not turned:
        print("nothing to respell")
        return 0
    back = {}
    bad = False
    for old, new in sorted(turned.items()):
        both = [p for p in antt if old in bare[p] and new in bare[p]]
        if new in declared or new in back or both:
            print(f"falls together: {old} and {back.get(new, new)} at {new}: {' '.join(os.path.relpath(p, root) for p in both[:2])}")
            bad = True
        back[new] = old
    if bad:
        return 1
    extra = [p for e in ("rt", "edit") for p in glob.glob(os.path.join(root, f"crates/**/*.{e}"), recursive=True)]
    prose = glob.glob(os.path.join(root, "docs/**/*.md"), recursive=True) + glob.glob(os.path.join(root, "*.md"))
    tools = glob.glob(os.path.join(root, "tools/*.py")) + glob.glob(os.path.join(root, "tests/*.py"))
    tools = [p for p in tools if os.path.basename(p) != "respell.py"]
    swap = lambda text: WORD.sub(lambda m: turned.get(m[0], m[0]), text)
    changed = 0
    for path in antt + extra + tools + prose:
        if "/out/" in path:
            continue
        with open(path, encoding="utf-8") as f:
            old = f.read()
        text = with_lemmas(path)
        new = re.sub(r"`[^`\n]+`", lambda m: swap(m[0]), text) if path.endswith(".md") else swap(text)
        if new != old:
            changed += 1
            if not check:
                with open(path, "w", encoding="utf-8") as f:
                    f.write(new)
    print(f"{len(turned)} names, {changed} files")
    return 0


if __name__ == "__main__":
    sys.exit(main(sys.argv[1:]))
