#!/usr/bin/env python3
"""Counts the definitions that a reader must believe: the files of crates/NAME/specs that docs/SPEC.md and docs/REVIEW.md cite, those that
the contracts of the operations in docs/REVIEW.md and of the exports cite, and those that these use. The other files are vocabulary of
contracts between our own functions. Says where a document or such a contract cites a file called Means, and where README's count is off
by more than 5 %. Run from the repository's root. With --files it prints the files."""
import glob, os, re, sys

DOCUMENTS = ["docs/SPEC.md", "docs/REVIEW.md"]
OWN = r"Rattle\.(\w+)\.specs\.([A-Z]\w*)"
# In a file of definitions, and in a file of code, with the names that are imported.
USE = re.compile(rf"^use {OWN}", re.M)
GHOST_USE = re.compile(rf"^ghost use {OWN}(?:\.\{{([^}}]*)\}}| as ([^;]+))", re.M)


def text_of(path):
    with open(path) as file:
        return file.read()


def code_of(crate):
    return [text_of(path) for path in sorted(glob.glob(f"crates/{crate}/src/**/*.rt", recursive=True))]


FILES = {(path.split("/")[1], os.path.basename(path)[:-5]): text_of(path) for path in sorted(glob.glob("crates/*/specs/*.antt"))}
# Lib.antt only lists a crate's other files.
FILES = {key: text for key, text in FILES.items() if key[1] != "Lib"}
WITH_CODE = {crate for crate, _ in FILES if any(re.search(r"^\s*(?:pub )?(?:extern \"C\" )?fn ", text, re.M) for text in code_of(crate))}


def cited_by_documents():
    for document in DOCUMENTS:
        for crate, file in re.findall(r"`([a-z_]+)\.([A-Z]\w*)(?:\.[\w·'-]+)?`", text_of(document)):
            if (crate, file) in FILES:
                yield document, (crate, file)


def operations():
    """The operations of docs/REVIEW.md's promises, and those that are exported: a crate and a function."""
    promises = text_of("docs/REVIEW.md").split("The promises of step 2:")[1].split("\n# ")[0]
    yield from re.findall(r"^\| `([a-z_]+)::([a-z_]+)` \|", promises, re.M)
    for text in code_of("strip"):
        yield from (("strip", name) for name in re.findall(r"^pub fn (\w+)", text, re.M))


def cited_by_contract(crate, function):
    """The files of definitions that a function's contract cites, by the names that its file imports."""
    for text in code_of(crate):
        contract = re.search(rf"^pub (?:extern \"C\" )?fn {function}\b.*?^\{{", text, re.M | re.S)
        if contract:
            words = set(re.findall(r"[^\s(){},.;:]+", contract[0]))
            for owner, file, names, alias in GHOST_USE.findall(text):
                given = {name.split(" as ")[-1].strip() for name in names.split(",")} | {alias.strip()}
                if (owner, file) in FILES and words & given:
                    yield owner, file
            return
    sys.exit(f"{crate}::{function} is not there")


def with_what_they_use(roots):
    found, left = set(), list(roots)
    while left:
        key = left.pop()
        if key not in found:
            found.add(key)
            left += [use for use in USE.findall(FILES[key]) if use in FILES]
    return found


def lines(keys):
    return sum(FILES[key].count("\n") for key in keys)


def said(keys):
    """Files, lines, and the lines that are neither imports nor blank."""
    text = "\n".join(re.sub(r"^use [^\n{]*(?:\{[^}]*\})?[^\n]*\n", "", FILES[key], flags=re.M) for key in keys)
    own = sum(bool(row.strip()) for row in text.splitlines())
    return f"{len(keys)} files, {lines(keys)} lines, {own} of them neither imports nor blank"


def main():
    bad = []
    roots = set()
    by_documents = list(cited_by_documents())
    by_contracts = [(f"{crate}::{name}", key) for crate, name in operations() for key in cited_by_contract(crate, name)]
    for who, key in by_documents + by_contracts:
        roots.add(key)
        if key[1].endswith("Means"):
            bad.append(f"{who} cites {'.'.join(key)}, which is vocabulary of contracts")
    believed = with_what_they_use(roots)
    bad += [f"{'.'.join(key)} is used by a definition that must be believed" for key in sorted(believed - roots) if key[1].endswith("Means")]
    rest = set(FILES) - believed
    if sys.argv[1:] == ["--files"]:
        for key in sorted(believed):
            print(".".join(key), lines([key]))
        return
    print("definitions that a reader must believe:", said(believed))
    print("  in crates without code:", said({key for key in believed if key[0] not in WITH_CODE}))
    print("  in crates with code:", said({key for key in believed if key[0] in WITH_CODE}))
    print("vocabulary of contracts:", said(rest))
    print("  under another name than Means:", ", ".join(".".join(key) for key in sorted(rest) if not key[1].endswith("Means")))
    count = re.search(r"some ([\d,]+) lines in (\d+) files, which `tools/definitions.py --files` lists", text_of("README.md"))
    if not count:
        bad.append("README has no count of the lines that a reader must believe")
    elif abs(int(count[1].replace(",", "")) - lines(believed)) * 20 > lines(believed) or int(count[2]) != len(believed):
        bad.append(f"README has {count[1]} lines in {count[2]} files, and not {lines(believed)} in {len(believed)}")
    print("\n".join(bad), end="\n" * bool(bad))
    sys.exit(bool(bad))


main()
