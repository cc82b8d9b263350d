#!/usr/bin/env python3
"""Respells the definitions and lemmas of the repository: words in snake case, types and modules in camel case.

usage: tools/respell.py [--check]     at the top of the repository, once, over the sources as the toolchain's own port leaves them

A name that specs/ or a lemma file of proofs/ declares in camel case with a small first letter, or with dashes, gets underscores:
'freshNumber' becomes 'fresh_number', 'bytes-append' 'bytes_append'. So do the names that a function's proof declares for itself, but those of
its goals, which the toolchain makes. A lemma that would then have its definition's name ends in '_lem'; names that fall together are listed.
Functions of src/, strings, inputs and outputs are not touched; of a must-fail edit the lines 'in:', 'old:' and 'new:' are.
tools/respelled.tsv gets the table, for pages and for texts of before; as it is kept it also has the names that the toolchain's port respelled.
"""
import collections
import os
import re
import sys

WORD = re.compile(r'[^\s(){}.;,@"«»`]+')
QUIET = re.compile(r'"(?:[^"\\\n]|\\.)*"')
HEAD = re.compile(r'^( *)((?:(?:abbrev|unfoldable|pub|private|data|record|ruleset)\s+)*)([^\s(){}.;,@"«»`]+)((?:\s+[({].*?)?)\s+:(?:\s|$)')
ALIAS = re.compile(r'\bas ([^\s(){}.;,@"«»`]+)')
# lemmas that the port or their authors spelled already as a definition is spelled now: the new name, and the files where it is the lemma that is meant
MET = {
    ("end_fits", "end_fits_lem"): ("crates/reader/proofs/Offered.antt", "crates/reader/proofs/finish/Proof.antt"),
    ("room_after", "room_after_lem"): ("crates/earned/proofs/Cap.antt",),
    ("same_bits", "equal_by_bits"): ("crates/paper/proofs/Bits.antt", "crates/bits/proofs/OneByte.antt", "crates/packing/proofs/Rows.antt"),
}


def snake(name):
    if name[:1].isupper():
        return name
    return re.sub(r"(?<=[a-z0-9])[A-Z]+", lambda m: "_" + m[0].lower(), name).replace("-", "_")


def texts(end):
    for folder, dirs, files in os.walk("crates"):
        dirs[:] = sorted(d for d in dirs if d != "out")
        for f in sorted(files):
            if f.endswith(end):
                yield os.path.join(folder, f)


def is_function(path):
    return os.path.basename(path) in ("Proof.antt", "Answers.antt", "Invariants.antt")


def declared(lines):
    """The names that a file declares, with whether each is a goal's, and the aliases of its imports."""
    for line in lines:
        if line.lstrip().startswith("--"):
            continue
        if line.startswith("use "):
            for name in ALIAS.findall(line):
                yield name, None
            continue
        m = HEAD.match(line)
        if m:
            goal = bool(re.search(r":\s+(tie|goal)\.", line)) or m[3].endswith("-spec") and "statement M" in line
            yield m[3], goal


def main():
    write = "--check" not in sys.argv[1:]
    files = {p: open(p, encoding="utf-8").read() for p in texts((".antt", ".rt"))}
    words = {p: set(WORD.findall(t)) for p, t in files.items()}
    common, local, goals = set(), collections.defaultdict(set), collections.defaultdict(set)
    aliases = collections.defaultdict(set)
    for p, t in files.items():
        if not p.endswith(".antt"):
            continue
        for name, goal in declared(t.split("\n")):
            if goal is not None:
                declared_names.add(name)
            if goal:
                goals[p].add(name)
            elif is_function(p):
                local[p].add(name)
            else:
                common.add(name)
    every = set().union(common, *local.values())
    table = {n: snake(n) for n in every if snake(n) != n}
    # a lemma that would have its definition's name gets '_lem'; the name of an import stays
    by_new = collections.defaultdict(set)
    for old, new in table.items():
        by_new[new].add(old)
    for new, olds in sorted(by_new.items()):
        if len(olds) > 1 or new in every:
            for old in sorted(olds):
                if "-" in old and old not in declared_names:
                    del table[old]
                elif "-" in old:
                    table[old] = new + "_lem"
                    print(f"a lemma of its own name: {old} -> {new}_lem")
    taken = collections.defaultdict(set)
    for old, new in table.items():
        taken[new].add(old)
    for new, olds in sorted(taken.items()):
        if len(olds) > 1 or new in every:
            where = [p for p, ws in sorted(words.items()) if len(ws & (olds | {new})) > 1]
            print(f"falls together: {' '.join(sorted(olds))} -> {new}" + (" (declared)" if new in every else "") + f": {' '.join(where)}")
    for p, ws in sorted(words.items()):
        for old in sorted(ws & table.keys()):
            if table[old] in ws:
                print(f"stands beside: {old} -> {table[old]} in {p}")
    count = 0
    for p, t in files.items():
        rust = p.endswith(".rt")
        function = is_function(p)
        mine = local[p]

        def line_of(line):
            out, at = [], 0
            for m in QUIET.finditer(line):
                out += [turn(line[at : m.start()]), m[0]]
                at = m.end()
            return "".join(out + [turn(line[at:])])

        def turn(text):
            def one(m):
                w = m[0]
                for (met, other), where in MET.items():
                    if w == met and p in where:
                        return other
                if w not in table or w in goals[p]:
                    return w
                if function and w not in mine:
                    if w not in common:
                        return w
                    before = text[: m.start()]
                    if before.endswith(".") and not re.search(r"(^|[\s({,])Rattle\.[^\s(){},]*$", before):
                        fields_seen.add((w, p))
                        if w not in field_names:
                            return w
                elif not function and w not in common:
                    return w
                return table[w]

            return WORD.sub(one, text)

        new = "\n".join(line_of(l) for l in t.split("\n"))
        if new != t:
            count += 1
            if write:
                open(p, "w", encoding="utf-8").write(new)
    for w, p in sorted(fields_seen):
        print(f"behind a dot: {w} in {p}" + (" (turned)" if w in field_names else ""))
    edits = 0
    for p in texts(".edit"):
        t = open(p, encoding="utf-8").read()
        lines = t.split("\n")
        for i, l in enumerate(lines):
            if re.match(r"(in|old|new|file):", l):
                lines[i] = WORD.sub(lambda m: table.get(m[0], m[0]) if m[0] in common else m[0], l)
        if "\n".join(lines) != t:
            edits += 1
            if write:
                open(p, "w", encoding="utf-8").write("\n".join(lines))
    if write:
        with open("tools/respelled.tsv", "w", encoding="utf-8") as f:
            f.writelines(f"{old}\t{new}\n" for old, new in sorted(table.items()) if old in common)
    print(f"{len(table)} names, {count} files, {edits} edits")


fields_seen = set()
declared_names = set()
field_names = set()
for path in list(texts(".antt")):
    inside = False
    for line in open(path, encoding="utf-8"):
        if re.match(r"(pub )?record ", line):
            inside = True
        elif line.strip() and not line.startswith(" "):
            inside = False
        elif inside:
            m = HEAD.match(line.rstrip("\n"))
            if m:
                field_names.add(m[3])

if __name__ == "__main__":
    main()
