#!/usr/bin/env python3
"""Brings this repository's own names in specs/ and proofs/ to the library's spelling: words in snake case, facts and modules in camel case.

usage: tools/respell.py [--list]     at the top of the repository, once, after port.py

A word's humps and a dash behind a plain word become '_'; a dash stays between two names of definitions ("A dash joins two names", as length-append).
Functions and constants of src/, exported names, strings and files are left alone. --list prints old and new names, writes nothing.
Names of the library keep the library's spelling: a file that imports a name from elsewhere keeps it.
"""
import collections
import glob
import re
import sys

SEP = r"\s(){}\[\],;.∷→≡≤<+*/%∙×λ:=\"|@^↦↔⊎≢"
TOKEN = re.compile(rf"[^{SEP}]+")
DECL = re.compile(r"(?m)^[ ]*((?:abbrev|pub|unfoldable)[ ]+)*([A-Za-z][\w'\-]*)[ ]+:[ ]+(.*)$")
# Names whose mechanical spelling would fall together with another one, or with a word of src/.
BY_HAND = {
    # a lemma that would have its function's name
    "starts-command": "starts_command_lem",
    "flag-of": "flag_of_lem",
    "part_bytes": "part_bytes_lem",
    "text_in": "text_in_lem",
    "says-open": "says_open_lem",
    "field-list": "field_list_lem",
    "year-of": "year_of_lem",
    "option-in": "option_in_lem",
    "in-room": "in_room_lem",
    "after-head": "after_head_lem",
    "same-shape": "same_shape_lem",
    "of-whole": "of_whole_lem",
    "in-table": "in_table_lem",
    "entry-at": "entry_at_lem",
    "sent-by": "sent_by_lem",
    "piece_bytes": "piece_bytes_lem",
    "whole_by": "whole_by_lem",
    # a field, and the definition that goes on with it
    "recordAfter": "record_after_all",
    "keptAfter": "kept_after_all",
}


def files(kind):
    return sorted(glob.glob(f"crates/*/{kind}/**/*.antt", recursive=True))


def text(path):
    with open(path, encoding="utf-8") as f:
        return f.read()


def declared():
    """Each name that a file of specs/ or proofs/ declares, with its kind: a definition of specs/, or something else."""
    names, specs, types = collections.defaultdict(set), set(), set()
    for kind in ("specs", "proofs"):
        for path in files(kind):
            if path.endswith("/Proof.antt"):
                continue
            for m in DECL.finditer(text(path)):
                name, of = m[2], m[3]
                names[name].add(path)
                if kind == "specs":
                    specs.add(name)
                if re.search(r"(^|→ )Type \d$", of.strip()):
                    types.add(name)
    return names, specs, types


def library(path):
    """The names that a file imports from elsewhere."""
    found = set()
    for line in text(path).splitlines():
        m = re.match(r"\s*(?:ghost )?(?:pub )?use (.*?);?$", line)
        if not m or re.match(r"Rattle\.(?!std\b)", m[1]):
            continue
        for t in re.findall(r"[^\s{},.]+", m[1]):
            found.add(t)
    return found


def humps(word):
    word = re.sub(r"([a-z0-9])([A-Z])(?=[a-z0-9]|$|')", lambda m: m[1] + "_" + m[2].lower(), word)
    word = re.sub(r"([a-z0-9])([A-Z])", lambda m: m[1] + "_" + m[2].lower(), word)
    return word


def spelled(name, words):
    """The name in the library's spelling; words has the names of definitions."""
    if name in BY_HAND:
        return BY_HAND[name]
    parts = name.split("-")
    parts = [p if p[:1].isupper() else humps(p) for p in parts]
    out = parts[0]
    for i in range(1, len(parts)):
        left, right = parts[:i], "_".join(parts[i:])
        joins = ("_".join(left) in words or left[-1] in words) and (right in words or parts[i] in words)
        out += ("-" if joins else "_") + parts[i]
    return out

LIBRARY_WORDS = {"length", "append", "take", "drop", "map", "flatten", "sum", "set", "sets", "filter", "flat_map", "replicate", "get_or"}


def map_of_names():
    names, specs, _ = declared()
    words = {humps(n) for n in specs if "-" not in n} | LIBRARY_WORDS
    # a definition is a noun phrase in snake case; only a lemma joins names
    turned = {n: spelled(n, () if n in specs else words) for n in names}
    count = collections.Counter(turned.values())
    for n, t in turned.items():
        if "-" in n and n not in BY_HAND and (count[t] > 1 or (t in names and t != n)):
            turned[n] = "-".join(p if p[:1].isupper() else humps(p) for p in n.split("-"))
    return {n: t for n, t in turned.items() if t != n}


def turn_line(line, change, dotted):
    """The line with its names turned; comments keep their words, but for names with humps and those in backticks."""
    code, dash, comment = line, "", ""
    m = re.search(r"(^|\s)--( |$)", line)
    if m:
        code, comment = line[: m.start()], line[m.start() :]

    def one(m):
        t = m[0]
        if t not in change or (not dotted and m.start() and m.string[m.start() - 1] == "."):
            return t
        return change[t]

    def said(m):
        t = m[0]
        if t in change and (re.search("[a-z][A-Z]", t) or m.string[m.start() - 1 : m.start()] == "`"):
            return change[t]
        return t

    pieces = re.split(r'("[^"]*")', code)
    code = "".join(p if p.startswith('"') else TOKEN.sub(one, p) for p in pieces)
    return code + re.sub(rf"[^{SEP}`]+", said, comment)


def turn(path, change):
    old = text(path)
    kept = library(path)
    mine = {a: b for a, b in change.items() if a not in kept}
    if path.startswith("crates/transcript/"):
        mine["goes_on"] = "goes_on_lem"
    # imports of other modules keep their names
    out, said = [], []
    # a short name for a module, that a definition now has
    for a in re.findall(r"\bas ([\w'\-]+)", old):
        if a in mine.values():
            mine[a] = a + "_variants"
    before = set(TOKEN.findall(old))
    for line in old.splitlines(keepends=True):
        body = line.rstrip("\n")
        if re.match(r"\s*(?:ghost )?(?:pub )?use (?!Rattle\.(?!std\b))", body):
            out.append(line)
            continue
        out.append(turn_line(body, mine, not path.endswith("Proof.antt")) + line[len(body) :])
    new = "".join(out)
    for a, b in mine.items():
        if a in before and b in before and b not in change.values():
            said.append(f"{path}: {a} and {b} fall together")
        elif a in before and b in before:
            said.append(f"{path}: {a} becomes {b}, which stands there")
    return old, new, said


CLAUSE = re.compile(r"^\s*(requires|ensures|ghost)\b")


def turn_source(path, change):
    """In src/ only clauses and ghost lines are turned."""
    old, out, depth = text(path), [], 0
    for line in old.splitlines(keepends=True):
        body = line.rstrip("\n")
        if depth or CLAUSE.match(body):
            if not (body.lstrip().startswith("ghost use") and not re.search(r"use Rattle\.(?!std\b)", body)):
                body = turn_line(body, change, True)
            depth = max(0, depth + body.count("{") - body.count("}")) if not body.lstrip().startswith("ghost use") else 0
        out.append(body + line[len(line.rstrip("\n")) :])
    return old, "".join(out), []


def main(argv):
    change = map_of_names()
    if argv == ["--list"]:
        for a, b in sorted(change.items()):
            print(a, b)
    back = collections.defaultdict(list)
    for a, b in change.items():
        back[b].append(a)
    names = set(declared()[0])
    for b, a in back.items():
        if len(a) > 1 or (b in names):
            print("fall together:", b, a, "declared" if b in names else "", file=sys.stderr)
    for path in files("specs") + files("proofs") + sorted(glob.glob("crates/*/src/**/*.rt", recursive=True)):
        old, new, said = (turn_source if path.endswith(".rt") else turn)(path, change)
        for s in said:
            print(s, file=sys.stderr)
        if new != old and argv != ["--list"]:
            with open(path, "w", encoding="utf-8") as f:
                f.write(new)


if __name__ == "__main__":
    main(sys.argv[1:])
