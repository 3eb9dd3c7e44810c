#!/usr/bin/env python3
"""Compares docs/CHANGING.md with the repository. For each of its two sections it searches for an example, the field `epsilon` of spring and
the kind `morph`, and says which files the page lacks, which it has too many, whether its crates stand in the order of docs/MAP.md, and
whether its counts are right. Run from the repository's root. With --files it prints what it finds."""
import os, re, sys

PAGE = "docs/CHANGING.md"
FOLDERS = ["crates", "bindings", "bench", "docs", "oracle", "tools"]
# Not searched: what is built (target/, out/), stored cases (in hexadecimal), notes on requests and on the
# port, this page and this script.
SKIPPED = {"target", "out", "data", "requests"}
PASSED_OVER = {PAGE, "docs/PORT.md", "docs/DESIGN-PASS.md", "tools/changing.py"}
# A field: two fields of one kind that are alike; and what has a part for each field of the kind, with no name: the form's parts in their
# order, the cells, the rules of the rows.
WORDS = re.compile(r"\bepsilon\b"), re.compile(r"\bmass\b")
SPRING_PARTS = re.compile(r"\bof_spring\b|\bspring_cells\b|(?:\b|_)spring[-_]rows\b")
# A kind: its name; and what counts the kinds: 15 of them, 11 of these leaves, so that totals have 60 words, of which the last, 59, counts
# entries.
MORPH = ("morph", "Morph", "MORPH")
KIND_COUNT = re.compile(
    r"below 15|< 1[15]\b|\b44 15\b|at, 15\)|kind_words = 15|last[-_]kind\b|[wW]ord 59|(?:WORD|entries_word)(?:: usize)?(?: =)? 59"
    r"|u32; 60\b|[≡<] 60 ?[}→]|length \w+(?:\.now)? ≡ 60|\b60 - i|replicate 60|60 words|WORDS(?:: usize =)? 60|\(44, 60\)"
)


def touched_by_field(text):
    return "epsilon" in text and all(word.search(text) for word in WORDS) or "pring" in text and SPRING_PARTS.search(text)


def touched_by_kind(text):
    return any(name in text for name in MORPH) or KIND_COUNT.search(text)


SEARCHES = {"A new field of a node kind": touched_by_field, "A new node kind": touched_by_kind}


def searched():
    """Every file that is searched, with its text."""
    for folder in FOLDERS:
        for place, inner, names in os.walk(folder):
            inner[:] = sorted(set(inner) - SKIPPED)
            for path in sorted(os.path.join(place, name) for name in names):
                if path not in PASSED_OVER:
                    with open(path, encoding="utf-8", errors="replace") as file:
                        yield path, file.read()


def rows_of(section):
    """The rows of a section's tables: a crate or a folder, and its files."""
    for row in section.splitlines():
        cells = row.split("|")
        if row.startswith("| `") and len(cells) > 3:
            yield cells[1].strip(" `"), re.findall(r"`([^`]+)`", cells[2])


def crate_of(path):
    return path.split("/")[1] if path.startswith("crates/") else None


def compared(title, section, found, order):
    """What differs between a section and what was found."""
    crates, listed = [], []
    for name, files in rows_of(section):
        crates += [name] * (name in order)
        listed += [f"crates/{name}/{file}" if name in order else f"{name}/{file}" for file in files]
    for path in sorted(found - set(listed)):
        yield f"{title}: {path} is not there"
    for path in sorted(set(listed) - found):
        yield f"{title}: {path} is there, and is not found by the search"
    for path in sorted(path for path in set(listed) if listed.count(path) > 1):
        yield f"{title}: {path} is there more than once"
    for first, second in zip(crates, crates[1:]):
        if order.index(second) < order.index(first):
            yield f"{title}: {second} stands behind {first}, other than in docs/MAP.md"
    inside = [path for path in found if crate_of(path)]
    wanted = f"{len(inside)} files in {len({crate_of(path) for path in inside})} crates, and {len(found) - len(inside)} files beside them"
    if wanted not in section:
        yield f"{title}: what is found is {wanted}"


def main():
    order = re.findall(r"`([a-z0-9_]+)`", "".join(row.split("|")[1] for row in open("docs/MAP.md") if row.startswith("| `")))
    found = {title: set() for title in SEARCHES}
    for path, text in searched():
        for title, hit in SEARCHES.items():
            if hit(text):
                found[title].add(path)
    if sys.argv[1:] == ["--files"]:
        for title, paths in found.items():
            print(title, *sorted(paths), sep="\n  ")
        return
    page = open(PAGE).read()
    bad = []
    for title, paths in found.items():
        section = page.split(f"## {title}\n")[1].split("\n## ")[0]
        bad += compared(title, section, paths, order)
    print("\n".join(bad) if bad else f"{PAGE}: " + ", ".join(f"{len(paths)} files" for paths in found.values()) + " are as they are found")
    sys.exit(bool(bad))


main()
