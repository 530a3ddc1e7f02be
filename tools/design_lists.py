#!/usr/bin/env python3
"""What differs between a commit and the tree, old and new one below the other, for docs/DESIGN-PASS.md:
public functions (signature and clauses), public types, definitions of specs/, the statements of those laws that the pages name,
and the names of the lemmas and rulesets that went.
    tools/design_lists.py COMMIT        where the text is the same but for layout, nothing is printed"""
import collections
import re
import subprocess
import sys

COMMIT = sys.argv[1]


def git(*args):
    return subprocess.run(["git", *args], capture_output=True, text=True, check=True).stdout


def tree(commit):
    if commit:
        names = git("ls-tree", "-r", "--name-only", commit).split("\n")
        take = lambda name: git("show", f"{commit}:{name}")
    else:
        names = git("ls-files").split("\n")
        take = lambda name: open(name, encoding="utf-8").read()
    wanted = re.compile(r"crates/\w+/(src/.*\.rt|(specs|proofs)/.*\.antt)$|docs/(MAP|OUTCOMES|READING-ORDER|DECISIONS)\.md$|README\.md$")
    return {name: take(name) for name in names if wanted.match(name)}


def flat(text):
    return re.sub(r"\s+", " ", re.sub(r"(?m)^\s*//.*$|^\s*--.*$|^\s*#\[.*\]$", "", text)).strip()


def functions(files):
    """crate::Type::function: signature and clauses."""
    found = {}
    for name, text in files.items():
        m = re.match(r"crates/(\w+)/src/(\w+)\.rt$", name)
        if not m or m.group(2) == "main":
            continue
        holder = ""
        for part in re.split(r"(?m)^(?=(?:pub )?(?:fn|impl|trait|final fn)\b|    (?:pub |final )?fn )", text):
            head = re.match(r"(?:pub )?(?:impl(?:<[^>]*>)?|trait) (.*?)(?: \{|\n)", part)
            if head and not part.startswith("    "):
                holder = head.group(1)
            f = re.match(r"( *)(pub |final )?fn (\w+)", part)
            if not f:
                continue
            if not f.group(1):
                holder = ""
            if f.group(2) is None and " for " not in holder:
                continue
            promise = re.split(r"(?m)^ *\{$| \{$", part)[0]
            path = "::".join(x for x in (m.group(1), holder, f.group(3)) if x)
            found[path] = flat(promise)
    return found


def types(files):
    found = {}
    for name, text in files.items():
        m = re.match(r"crates/(\w+)/src/", name)
        if m:
            for t in re.finditer(r"(?ms)^pub (?:struct|enum) (\w+).*?^}", text):
                found[f"{m.group(1)}::{t.group(1)}"] = flat(t.group(0))
            for t in re.finditer(r"(?ms)^pub trait (\w+).*?^}", text):
                found[f"{m.group(1)}::{t.group(1)}"] = flat(t.group(0))
    return found


def declared(text):
    """The declarations of an .antt file by name, each with its equations; `module _` heads go with what stands below them."""
    out = collections.OrderedDict()
    for block in text.split("\n\n"):
        lines = [line for line in block.split("\n") if not re.match(r"\s*--", line) and not line.startswith("use ")]
        head = next((re.match(r"\s*(?:pub |abbrev |unfoldable |record |data |ruleset )+([^\s:(]+)", line) for line in lines if re.match(r"\s*(?:pub|abbrev|unfoldable)\b", line)), None)
        if head and "ruleset" not in head.group(0):
            out[head.group(1)] = flat("\n".join(lines))
    return out


def definitions(files):
    found = {}
    for name, text in files.items():
        m = re.match(r"crates/(\w+)/specs/(\w+)\.antt$", name)
        if m and m.group(2) != "Lib":
            for d, t in declared(text).items():
                found[f"{m.group(1)} {d}"] = t
    return found


def law_files(files):
    """The files of laws: crate, name and text."""
    for name, text in files.items():
        m = re.match(r"crates/(\w+)/proofs/([A-Z]\w*)\.antt$", name)
        if m:
            yield m.group(1), m.group(2), text


def laws(files, named):
    found = {}
    for crate, name, text in law_files(files):
        for d, t in declared(text).items():
            if (crate, name, d) in named:
                statement = re.search(re.escape(d) + r" : (.*?)(?: unfolding [^=]*)?(?= " + re.escape(d) + r"\b|$)", t)
                found[f"{crate} {name} {d}"] = statement.group(1) if statement else t
    return found


# A function that became a method, a conversion or another type's name.
BECAME = {
    "process::number_of": "process::Answer::number",
    "process::idle_record": "process::Process::idle",
    "tables::number_of": "tables::Refusal::number",
    "nodes::pending_of": "nodes::From<u32> for Pending::from",
    "nodes::word_of": "nodes::From<Pending> for u64::from",
    "print::Making": "tables::Making",
    "process::StepAnswer": "process::Progress",
    "held::HeldMade": "held::Held",
    "held::HeldStart": "held::Held",
    "held::HeldStep": "held::Held",
}


def became(old, new):
    """The new name of each old one that is gone: by the list above, or the method of its name in the same crate."""
    out = {}
    for k in old:
        if k not in new:
            crate, last = k.split("::")[0], k.split("::")[-1]
            same = [n for n in new if n not in old and n.split("::")[0] == crate and n.split("::")[-1] == last]
            if k in BECAME and BECAME[k] in new:
                out[k] = BECAME[k]
            elif "::" in k and len(same) == 1:
                out[k] = same[0]
    return out


def lemmas(files):
    """The names that a file of laws declares, by file."""
    found = collections.defaultdict(list)
    for crate, name, text in law_files(files):
        for block in text.split("\n\n"):
            head = re.search(r"(?m)^ *(?:pub |abbrev |unfoldable |record )*(ruleset )?([^\s:(]+) (?:: |\()", "\n".join(line for line in block.split("\n") if not re.match(r"\s*--|use |module ", line)))
            if head and not head.group(1):
                found[f"{crate} {name}"].append(head.group(2))
    return found


def rulesets(files):
    """The names of the lists of lemmas that a file declares, by file."""
    return {f"{crate} {name}": re.findall(r"(?m)^ *(?:pub )?ruleset (\S+)", text) for crate, name, text in law_files(files)}


def went(title, old, new):
    """What a file has no more, where it did not move to another file of its crate."""
    print(f"### {title}, by the file they stood in\n")
    moved = {(f.split()[0], n) for f, some in new.items() for n in some if n not in old.get(f, [])}
    for f in sorted(old):
        lost = [n for n in old[f] if n not in new.get(f, []) and (f.split()[0], n) not in moved]
        if lost:
            print(f"- {f}: " + ", ".join(f"`{n}`" for n in lost))
    print()


def quoted(text):
    return "`" + text.replace("`", "'") + "`" if text else "none"


def show(title, old, new):
    moved = became(old, new)
    changed = [k for k in old if k in moved or k in new and old[k] != new[k]]
    gone = [k for k in old if k not in new and k not in moved]
    fresh = [k for k in new if k not in old and k not in moved.values()]
    print(f"### {title}: {len(old)} then, {len(new)} now; the same {len(old) - len(changed) - len(gone)}, changed {len(changed)}, gone {len(gone)}, new {len(fresh)}\n")
    for k in sorted(changed):
        now = moved.get(k, k)
        print(f"- **{k}**{'' if now == k else f', now **{now}**'}\n  - old: {quoted(old[k])}\n  - new: {quoted(new[now])}")
    for k in sorted(gone):
        print(f"- **{k}**, gone\n  - old: {quoted(old[k])}")
    for k in sorted(fresh):
        print(f"- **{k}**, new\n  - new: {quoted(new[k])}")
    print()


before, after = tree(COMMIT), tree(None)
pages = "".join(text for name, text in before.items() if name.endswith(".md"))
named = {(c, f, law) for c, f, some in re.findall(r"(?:crates/)?(\w+)/proofs/(\w+)\.antt`?((?:[ ,and]* `[^`]+`)+)", pages) for law in re.findall(r"`([^`]+)`", some)}
show("Public functions", functions(before), functions(after))
show("Public types and traits", types(before), types(after))
show("Definitions of specs/", definitions(before), definitions(after))
show("Laws of proofs/ that the pages named", laws(before, named), laws(after, named))
went("Lemmas that went", lemmas(before), lemmas(after))
went("Rulesets that went", rulesets(before), rulesets(after))
