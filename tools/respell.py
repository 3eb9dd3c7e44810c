#!/usr/bin/env python3
"""Brings the definitions and lemmas of crates/ to today's spelling: words, lemmas, fields and constructors in snake case.

usage: python3 tools/respell.py [--dry]      at the top of the repository, once, right after port.py

`textLimit` becomes `text_limit`, the lemma `ends-refused` `ends_refused`; a dash stays where it joins two words, as in `take-length`. Turned are names
that specs/ or proofs/ declare and variables in camel case that the kit does not have, in antt files, in clauses of .rt files, and in must-fail edits.
Names of functions of src/, of goals that rt makes (`returns-2`), strings, inputs and outputs stay. A lemma that would get a word's name gets `_lem`.
"""

import collections
import glob
import os
import re
import subprocess
import sys

KIT = os.path.join(os.path.dirname(subprocess.run(["rt", "doc"], capture_output=True, text=True).stdout.strip().split("\n")[-1]), "rattle")
ANTT = re.compile(r"\"(?:[^\"\\\n]|\\.)*\"|--[^\n]*|[^\s(){}\[\].,;:\"@`\\λ]+|.", re.S)
RUST = re.compile(r"b?\"(?:[^\"\\]|\\.)*\"|//[^\n]*|b?'(?:[^'\\]|\\.)'|[A-Za-z_][A-Za-z0-9_'-]*|.", re.S)
WORD = re.compile(r"[a-z][A-Za-z0-9_'-]*$")
TOP = re.compile(r"^(?:(?:abbrev|unfoldable|pub|private|ruleset|data|record|inline|opaque)\s+)*([a-z][A-Za-z0-9_'-]*)\s*(?::(?!:)|(?=[({])|=)", re.M)
INNER = re.compile(r"^\s+(?:pub )?([a-z][A-Za-z0-9_'-]*(?:\s+[a-z][A-Za-z0-9_'-]*)*)\s+:\s", re.M)
GOAL = re.compile(r"^(?:abbrev )?(?:pub )?([a-z][A-Za-z0-9_'-]*)\s*:\s*(?:[^\n]*→\s*)?(?:tie|f-[\w-]+|[\w-]+-tie)\.(?:Need|invariant|decreases|[Mm]easure)", re.M)
LOCAL = re.compile(r"^( +)(?:(?:abbrev|unfoldable|pub|opaque) )*([a-z][A-Za-z0-9_'-]*)\s+:(?=\s)", re.M)
FROM = re.compile(r"^use Rattle\.(\w+)\.(specs|proofs)\.([\w.]+)(?:\.\{([^}]*)\}| as ([a-z][A-Za-z0-9_'-]*))", re.M)
USE = re.compile(r"^use [^\n]*?\{([^}]*)\}", re.M)


def snake(name):
    return re.sub(r"(?<=[a-z0-9])[A-Z]|(?<=[A-Z])[A-Z](?=[a-z])", lambda m: "_" + m.group(0).lower(), name)


def names(text, pattern=ANTT):
    return {s for s in (m.group(0) for m in pattern.finditer(text)) if WORD.match(s)}


def local(text):
    """Names that a file declares in a block: with a type, and with a clause at the same depth that is no field of a record."""
    made = set()
    for indent, name in LOCAL.findall(text):
        clause = re.compile("^" + indent + re.escape(name) + r"(?![\w'-])(?! +:\s)([^\n]*)$", re.M)
        if any(not line.rstrip().endswith(";") for line in clause.findall(text)):
            made.add(name)
    return made


def imports(text):
    """Each name that a file imports from a module of ours, with the module's file; and each module that has a short name."""
    names, aliases = {}, {}
    for crate, kind, path, group, alias in FROM.findall(text):
        file = f"crates/{crate}/{kind}/{path.replace('.', '/')}.antt"
        if alias:
            aliases[alias] = file
        for n in group.split(","):
            names[n.split(" as ")[0].strip()] = file
    return names, aliases


def read(path):
    with open(path, encoding="utf-8", errors="replace") as f:
        return f.read()


def main(argv):
    kit = set()
    for p in glob.glob(KIT + "/**/*.antt", recursive=True):
        kit |= names(read(p))
    prelude = names(read(KIT + "/std/specs/Prelude.antt"))
    antt = {p: read(p) for k in ("specs", "proofs") for p in sorted(glob.glob(f"crates/*/{k}/**/*.antt", recursive=True)) if "/out/" not in p}
    rust = {p: read(p) for p in sorted(glob.glob("crates/*/src/**/*.rt", recursive=True))}
    edits = {p: read(p) for p in sorted(glob.glob("crates/*/must-fail/*.edit"))}
    top, inner, goals, seen, words = collections.defaultdict(set), set(), set(), set(), set(prelude)
    scope = {}
    for p, t in antt.items():
        made = set(GOAL.findall(t))
        goals |= made
        declared = {n for n in TOP.findall(t) if n not in made and not n.endswith("-spec") and n not in ("use", "where", "unfolding", "module", "syntax", "infixl", "infixr")}
        for n in declared:
            top[n].add(p)
        if "/specs/" in p:
            words |= {snake(n) for n in declared if "-" not in n}
        for group in INNER.findall(t):
            inner |= set(group.split())
        seen |= names(t)
        scope[p] = declared | {n.strip() for g in USE.findall(t) for n in re.split(r",|\bas\b", g) if n.strip()}
    ours = set(top) | {n for n in inner if n not in kit and not n.endswith("-spec")} | {n for n in seen if re.search(r"[A-Z]", n) and n not in kit}

    def new_name(n):
        parts = snake(n).split("-")
        made = parts[0]
        for left, right in zip(parts, parts[1:]):
            made += ("-" if left in words and right in words else "_") + right
        return made

    turned = {n: new_name(n) for n in ours if n not in goals and new_name(n) != n and (n in top or n not in kit)}
    kept = sorted(n for n in ours if n in goals and new_name(n) != n and n in top)
    together = collections.defaultdict(set)
    for p, s in scope.items():
        by = collections.defaultdict(set)
        for n in s:
            by[turned.get(n, n)].add(n)
        for new, olds in by.items():
            if len(olds) > 1:
                together[new] |= olds
    lemmas, here = 0, {}
    # a lemma in a block that gets the name of something else in scope in its file: turned there, and where that file is imported
    blocks = {}
    for p, t in antt.items():
        inner_names = local(t) - scope[p] - goals
        by = collections.defaultdict(set)
        for n in scope[p] | inner_names:
            by[new_name(n)].add(n)
        blocks[p] = {}
        for new, olds in by.items():
            if len(olds) > 1:
                # of two in one block the one in camel case is the word
                word = olds - inner_names or {min(olds, key=lambda n: (not re.search(r"[A-Z]", n), n))}
                blocks[p] |= {n: new + "_lem" for n in olds & inner_names - word}
        for n, new in sorted(blocks[p].items()):
            print(f"look: {p}: {n} is {new}, since {', '.join(sorted(by[new_name(n)] - {n}))} is in scope")
    for new, olds in sorted(together.items()):
        word = next((n for n in sorted(olds, key=lambda n: (not re.search(r"[A-Z]", n), n not in kit, n)) if "-" not in n), None)
        for n in sorted(olds - {word}):
            lemmas += 1
            if n in turned:
                turned[n] = new + "_lem"
            else:
                # spelled so already: turned where it is in scope alone
                here[n] = new + "_lem"
        print(f"look: {', '.join(sorted(olds))} fall together as {new}: the word is {word}")
    print(f"{len(turned)} names turned, {lemmas} of them to _lem; {len(kept)} names also of a goal, kept: {', '.join(kept[:40])}")
    if "--dry" in argv:
        return 0
    done = 0
    for group, pattern in ((antt, ANTT), (rust, RUST), (edits, RUST)):
        for p, t in group.items():
            out, braces = [], []
            imported, aliases = imports(t) if p in antt else ({}, {})
            block = {n: blocks[f][n] for n, f in imported.items() if n in blocks.get(f, ())} | blocks.get(p, {})
            for m in pattern.finditer(t):
                s = m.group(0)
                if s == "{":
                    braces.append("".join(out[-8:]).rstrip().endswith("record"))
                elif s == "}" and braces:
                    braces.pop()
                dotted = bool(out) and out[-1] == "."
                source = aliases.get(out[-2]) if dotted and len(out) > 1 else None
                # a field that is given a value in `record { .. }` is no lemma
                field = bool(braces) and braces[-1] and re.match(r"\s*=", t[m.end() : m.end() + 99]) and re.search(r"[{;]\s*$", "".join(out[-12:]))
                if s in block and not dotted and not field:
                    s = block[s]
                elif source and s in blocks.get(source, ()):
                    s = blocks[source][s]
                elif source and s in here and source in top[s]:
                    s = here[s]
                elif s in here and s in scope.get(p, ()) and not dotted and not field:
                    s = here[s]
                elif s.startswith(("--", "//")):
                    s = re.sub(r"[a-z][A-Za-z0-9_'-]*", lambda w: turned[w.group(0)] if w.group(0) in turned and re.search(r"[A-Z]", w.group(0)) else w.group(0), s)
                else:
                    s = turned.get(s, s)
                out.append(s)
            new = "".join(out)
            if new != t:
                done += 1
                with open(p, "w", encoding="utf-8") as f:
                    f.write(new)
    print(f"{done} files written")
    return 0


sys.exit(main(sys.argv[1:]))
