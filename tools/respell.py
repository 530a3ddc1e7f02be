#!/usr/bin/env python3
"""Spells this repository's own definitions and lemmas in today's way: words in snake case, one form for each name.

usage: respell.py FOLDER      a checkout in which port.py has run, and nothing else

A name is turned if an .antt file of crates/ declares it, or a `use` line makes it with `as`, and it has a lower-case head with a capital or a dash in it.
It keeps its dash where the dash joins two functions, as in `length-listed`. A lemma that would meet a definition ends in `_lem`.
Functions of src/, types, modules, strings and the names of libraries stay. Run once: a second run finds nothing to turn.
"""

import collections
import os
import re
import sys

WORD = r'[^\s(){}.;,@"«»`]+'
DECLARED = re.compile(rf"^(\s*)((?:pub |abbrev |unfoldable |pattern )*)({WORD}) :(?= |$)")
ALIAS = re.compile(rf"(?<![^\s{{]){WORD} as ({WORD})")
MADE = re.compile(rf"^\s*(?:pub )?(?:data|record|ruleset) ({WORD})")
COMMENT = re.compile(r"(?m)(?<![^\s])--.*$")
RUST = re.compile(r'//[^\n]*|"(?:\\.|[^"\\])*"')
# A dash stays between these and a function of the repository's own.
LISTS = {"length", "getD", "get_or", "take", "drop", "set", "sets", "map", "append", "mem"}
RENAMED = {"getD": "get_or"}
# Names that would fall together with another in one file: the lemma gives way.
APART = [
    ("crates/link/", "stack_at", "stack_at_lem"),
    ("crates/link/", "zero_or", "zero_or_lem"),
    ("crates/link/", "at_leaf", "at_leaf_lem"),
    ("crates/points/proofs/Counted.antt", "at_leaf", "at_leaf_lem"),
    ("crates/points/", "no-row", "no_row_lem"),
    ("crates/points/", "step-refused", "step_refused_lem"),
    ("crates/points/", "start-refused", "start_refused_lem"),
    ("crates/session/", "start-refused", "start_refused_lem"),
    ("crates/", "row_done", "row_done_lem"),
    ("crates/script/", "ended_by", "ended_by_lem"),
    ("crates/script/", "start-in", "start_in_lem"),
]
# Fields and constructors have their record before them, and meet no definition.
PLAIN = {"non-empty", "is-full", "start-refused", "step-refused"}


def files(top):
    for folder, dirs, names in os.walk(os.path.join(top, "crates")):
        dirs[:] = sorted(d for d in dirs if d != "out")
        for name in sorted(names):
            if name.endswith((".antt", ".rt", ".edit")):
                yield os.path.join(folder, name)


def pages(top):
    """The pages, whose code spans are turned, and the stored patches, turned as code."""
    for folder in ("", "docs", "peer", "faults/definitions", "faults/useless"):
        for name in sorted(os.listdir(os.path.join(top, folder))):
            if name.endswith((".md", ".patch")):
                yield os.path.join(top, folder, name)


def read(path):
    with open(path, encoding="utf-8", newline="") as f:
        return f.read()


def declared(top):
    """The names that are declared, and those of them that are definitions of specs/ or marked so."""
    names, definitions = set(), set()
    for path in files(top):
        if not path.endswith(".edit"):
            names.update(a for a in ALIAS.findall(RUST.sub("", COMMENT.sub("", read(path)))) if re.search("[A-Z-]", a[1:]))
        if not path.endswith(".antt"):
            continue
        for line in read(path).split("\n"):
            m = DECLARED.match(line)
            if m and not line.lstrip().startswith("--"):
                names.add(m[3])
                if m[2].strip() not in ("", "pub"):
                    definitions.add(m[3])
            m = MADE.match(line)
            if m:
                names.add(m[1])
    return names, definitions


def odd(name):
    if name.startswith(("invariant-", "decreases-")):
        return False  # the kit's names of a loop's parts
    return re.match(r"[a-z]", name) and (re.search(r"[a-z0-9][A-Z]", name) or "-" in name)


def in_snake_case(name):
    words = re.sub(r"(?<=[a-z0-9])[A-Z]|(?<=[A-Z])[A-Z](?=[a-z])", lambda m: "_" + m[0], name)
    return words.replace("-", "_").lower() if re.search("[A-Z]", name) else name.replace("-", "_")


def spelled(name, definitions):
    parts = [RENAMED.get(p, p) for p in re.split("-", name)]
    bare = lambda p: re.sub("[₀-₉]+$", "", p)
    if len(parts) == 2 and any(p in LISTS for p in parts) and all(bare(p) in LISTS or bare(p) in definitions for p in parts):
        return "-".join(in_snake_case(p) for p in parts)
    return in_snake_case(name)


def table(top):
    names, definitions = declared(top)
    turned = {n: spelled(n, definitions) for n in names if odd(n)}
    taken = {m for n, m in turned.items() if "-" not in n} | {n for n in definitions if not odd(n)}
    for n, m in turned.items():
        if "-" in n and m in taken and n not in PLAIN:
            turned[n] = m + "_lem"
    return turned


def as_declared(text, by, names):
    """An edit or a page may still have the name that port.py has turned in the crates: it gets the one that is declared."""
    known = names | set(by.values())
    made = lambda w: in_snake_case(w) if odd(w) and w not in by and in_snake_case(w) in known else w
    return re.sub(WORD, lambda m: by.get(m[0]) or made(m[0]), text)


def turn(text, by):
    return re.sub(WORD, lambda m: by.get(m[0], m[0]), text)


def spans(text, by):
    """The code spans of a comment or a page."""
    return re.sub(r"`[^`\n]+`", lambda m: turn(m[0], by), text)


def page_spans(text, by, names):
    return re.sub(r"`[^`\n]+`", lambda m: as_declared(m[0], by, names), text)


def commented(text, by):
    capitals = {old: new for old, new in by.items() if "-" not in old}
    return turn(spans(text, by), capitals)


def turn_antt(text, by):
    out, at = [], 0
    for m in COMMENT.finditer(text):
        out += [turn(text[at : m.start()], by), commented(m[0], by)]
        at = m.end()
    text = "".join(out) + turn(text[at:], by)
    return re.sub(rf"(?<![^\s{{])({WORD}) as \1(?![^\s,}}])", r"\1", text)


def turn_rust(text, by):
    out, at = [], 0
    for m in RUST.finditer(text):
        out += [turn(text[at : m.start()], by), commented(m[0], by) if m[0].startswith("//") else m[0]]
        at = m.end()
    text = "".join(out) + turn(text[at:], by)
    return re.sub(rf"(?<![^\s{{])({WORD}) as \1(?![^\s,}}])", r"\1", text)


def main(top):
    by = table(top)
    names, _ = declared(top)
    changed, met = 0, 0
    for path in files(top):
        where = os.path.relpath(path, top)
        here = {**by, **{old: new for begin, old, new in APART if where.startswith(begin)}}
        text = read(path)
        if path.endswith(".antt"):
            words = set(re.findall(WORD, COMMENT.sub("", text)))
            falls = collections.defaultdict(set)
            for w in words:
                falls[here.get(w, w)].add(w)
            for new, olds in sorted(falls.items()):
                if len(olds) > 1:
                    print(f"{where}: {' and '.join(sorted(olds))} fall together as {new}")
                    met += 1
            new = turn_antt(text, here)
        elif path.endswith(".edit"):
            new = as_declared(text, here, names)
        else:
            new = turn_rust(text, here)
        if new != text:
            with open(path, "w", encoding="utf-8", newline="") as f:
                f.write(new)
            changed += 1
    for path in pages(top):
        text = read(path)
        new = as_declared(text, by, names) if path.endswith(".patch") else page_spans(text, by, names)
        if new != text:
            with open(path, "w", encoding="utf-8", newline="") as f:
                f.write(new)
            changed += 1
    print(f"{len(by)} names, {changed} files, {met} places to look at")


if __name__ == "__main__":
    main(sys.argv[1])
