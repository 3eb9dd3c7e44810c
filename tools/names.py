#!/usr/bin/env python3
"""Finds every name that the documents cite: a definition or law as `crate.File`: `name` or `crate.File.name`, a function or type as
`crate::name`, a must-fail edit; every edit is cited in docs/REVIEW.md; docs/MAP.md has every crate, each behind those that it uses; and
README's layers are those of docs/MAP.md. Prints what it does not find. Run from the repository's root."""
import glob, os, re, sys
from functools import lru_cache

DOCUMENTS = ["SPEC", "REVIEW", "PORT-OTHER", "DECISIONS"]
# The toolchain's libraries, whose names are not looked for.
KIT = {"std", "io", "os", "libc", "bytes", "check"}
bad = []


def dependencies():
    """Each crate of crates.txt and those that it uses."""
    rows = (row.split("#")[0] for row in open("crates.txt"))
    return {row.split(":")[0].split()[0]: row.split(":")[1].split() for row in rows if ":" in row}


CRATES = dependencies()


@lru_cache(maxsize=None)
def text_of(pattern):
    return "\n".join(open(path).read() for path in sorted(glob.glob(pattern, recursive=True)))


def in_logic(crate, file, name):
    """Whether a file of definitions or laws declares a name."""
    text = text_of(f"crates/{crate}/specs/{file}.antt") + "\n" + text_of(f"crates/{crate}/proofs/{file}.antt")
    words = r"(?:(?:abbrev|unfoldable|pub|data|record)\s+)*"
    return re.search(rf"^\s*{words}{re.escape(name)}(?=[\s:])", text, re.M) is not None


def defined(name):
    """Whether some file of definitions declares a name."""
    return re.search(rf"^(?:(?:abbrev|unfoldable|pub|data|record)\s+)*{re.escape(name)}\s+:", text_of("crates/*/specs/**/*.antt"), re.M) is not None


def in_code(crate, name):
    """Whether a crate's code declares a function, a type, a constant or a variant."""
    return re.search(rf"\b(?:fn|struct|enum|const|mod|type)\s+{name}\b|^\s+{name}\b\s*[,({{]", text_of(f"crates/{crate}/src/**/*.rt"), re.M) is not None


def has_file(crate, file):
    return any(os.path.exists(f"crates/{crate}/{part}/{file}.antt") for part in ("specs", "proofs"))


def cited_definitions(document, text):
    """`crate.File`: `name`, `name` ..; and `crate.File.name`."""
    for match in re.finditer(r"`([a-z_]+)\.([A-Z]\w*)`(:(?:[ ,]|the functions|`[^`]+`)*)?", text):
        crate, file, names = match.groups()
        if crate not in CRATES:
            continue
        if not has_file(crate, file):
            bad.append(f"{document}: no file {crate}.{file}")
            continue
        for name in re.findall(r"`([^`]+)`", names or ""):
            if re.fullmatch(r"[A-Za-z][\w·'-]*", name) and not in_logic(crate, file, name):
                bad.append(f"{document}: {crate}.{file} has no {name}")
    for crate, file, name in re.findall(r"`([a-z_]+)\.([A-Z]\w*)\.([\w·'-]+)`", text):
        if crate in CRATES and not in_logic(crate, file, name):
            bad.append(f"{document}: {crate}.{file} has no {name}")


def cited_code(document, text):
    """`crate::name`, `crate::module::name`."""
    for path in re.findall(r"`([a-z_]+(?:::\w+)+)", text):
        parts = path.split("::")
        if parts[0] in KIT or path == "a::b":
            continue
        if parts[0] not in CRATES:
            bad.append(f"{document}: no crate {parts[0]} ({path})")
        elif not all(in_code(parts[0], part) for part in parts[1:]):
            bad.append(f"{document}: {path} is not there")


def cited_edits(text):
    """The edits of docs/REVIEW.md's tables and walk, and whether every edit is among what it cites."""
    edits = {os.path.basename(path)[:-5] for path in glob.glob("crates/*/must-fail/*.edit")}
    cited = set(re.findall(r"`([a-z0-9_]+)`", text))
    bad.extend(f"REVIEW: the edit {name} is not cited" for name in sorted(edits - cited))
    table = text.split("# Wrong programs that the contracts rule out")[1].split("\n# ")[0]
    for row in table.splitlines():
        if row.startswith("| ") and "|" in row[2:]:
            for name in re.findall(r"`([a-z0-9_]+)`", row.split("|", 2)[2]):
                if name not in edits and name not in CRATES and "_" in name and not defined(name):
                    bad.append(f"REVIEW: no edit {name}")


def map_layers(text):
    """The layers of docs/MAP.md: each heading, and the crates of its table."""
    parts = re.split(r"^\*\*(.+?)\*\*.*$", text, flags=re.M)[1:]
    cells = lambda part: "".join(row.split("|")[1] for row in part.splitlines() if row.startswith("| `"))
    return [(heading, re.findall(r"`([a-z0-9_]+)`", cells(part))) for heading, part in zip(parts[::2], parts[1::2])]


def map_order(layers):
    """Whether the map has every crate once, each behind those that it uses."""
    names = [name for _, crates in layers for name in crates]
    for name in sorted(set(CRATES) ^ set(names)):
        bad.append(f"docs/MAP.md and crates.txt: {name} stands in one of them alone")
    bad.extend(f"docs/MAP.md: {name} stands there more than once" for name in sorted(set(names)) if names.count(name) > 1)
    place = {name: i for i, name in enumerate(names)}
    for name, uses in CRATES.items():
        bad.extend(f"docs/MAP.md: {name} stands before {use}, which it uses" for use in uses if place.get(use, -1) > place.get(name, 0))


def readme_layers(text, layers):
    """README's table of layers: those of the map in its order, each with a crate of it; the bindings behind them."""
    rows = [[cell.strip() for cell in row.split("|")[1:-1]] for row in text.split("## Map")[1].splitlines() if row.startswith("| ")]
    rows = [row for row in rows if len(row) == 3][1:]
    if [row[0] for row in rows] != [heading for heading, _ in layers] + ["Bindings"]:
        bad.append("README's layers are not those of docs/MAP.md")
    for (heading, _, first), (_, crates) in zip(rows, layers):
        if first.strip("`") not in crates:
            bad.append(f"README's layers: {heading} has no crate {first} in docs/MAP.md")


for document in DOCUMENTS:
    text = open(f"docs/{document}.md").read()
    cited_definitions(document, text)
    cited_code(document, text)
cited_edits(open("docs/REVIEW.md").read())
layers = map_layers(open("docs/MAP.md").read())
map_order(layers)
readme_layers(open("README.md").read(), layers)
print("\n".join(bad) if bad else "documents: every name is there")
sys.exit(bool(bad))
