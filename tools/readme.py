#!/usr/bin/env python3
"""Compiles and runs the Rust and the C of README.md and compares what is printed with the block behind each; compares the script and what
is printed for it with examples/, and runs the scripts of docs/REFUSALS.md. FOLDER is that of bindings/test.sh, with the C example and
the Rust crate built. Run from the repository's root. usage: tools/readme.py FOLDER"""
import os, re, subprocess, sys

OUT = sys.argv[1]
ARCHIVE = os.path.abspath("target/staticlib")
README = open("README.md").read()
REFUSALS = open("docs/REFUSALS.md").read()


def blocks():
    """The fenced blocks: language and text."""
    return re.findall(r"^```(\w+)\n(.*?)^```$", README, re.M | re.S)


def printed(command, text=""):
    return subprocess.run(command, input=text.encode(), stdout=subprocess.PIPE, check=True).stdout.decode()


def compiled(language, source):
    """Compiles a block: the program."""
    folder = os.path.join(OUT, "readme")
    os.makedirs(folder, exist_ok=True)
    file, program = os.path.join(folder, f"first.{'rs' if language == 'rust' else 'c'}"), os.path.join(folder, f"first-{language}")
    with open(file, "w") as out:
        out.write(source)
    if language == "rust":
        # the tests have compiled the crate; this puts it where it is found
        build = ["cargo", "build", "-q", "-j", "1", "--offline", "--manifest-path", "bindings/rust/Cargo.toml"]
        subprocess.run([*build, "--target-dir", f"{OUT}/rust"], check=True)
        crate = ["--extern", f"strip={OUT}/rust/debug/libstrip.rlib", "-L", f"native={ARCHIVE}"]
        command = ["rustc", "--edition", "2024", "-D", "warnings", *crate, "-o", program, file]
    else:
        warnings = ["-std=c99", "-Wall", "-Wextra", "-Werror"]
        command = [os.environ.get("CC", "cc"), *warnings, "-Ibindings/c", "-o", program, file, f"{ARCHIVE}/libstrip.a"]
    subprocess.run(command, check=True)
    return program


def same(what, got, wanted, page="README.md"):
    if got != wanted:
        sys.exit(f"{page}: {what}\nprinted:\n{got}{page} has:\n{wanted}")


def refusals():
    """Runs the scripts of the table of refusals: how many. A script that is described and not shown has no code around its whole cell."""
    rows = re.findall(r"^\| (\d+) \| .* \| `([^`]*)` \| `(refuse [^`]*)` \|$", REFUSALS, re.M)
    for number, script, wanted in rows:
        assert wanted.split()[1] == number, wanted
        same(f"the script of {number}", printed([f"{OUT}/example"], script), wanted + "\n", "docs/REFUSALS.md")
    return len(rows)


def main():
    found = blocks()
    (_, script), (_, lines) = found[:2]
    same("the script", script, open("examples/fade-sale.strip").read())
    same("what is printed for the script", lines, open("examples/fade-sale.out").read())
    same("what is printed for the script", printed([f"{OUT}/example"], script), lines)
    ran = []
    for (language, source), (_, wanted) in zip(found, found[1:]):
        if language in ("rust", "c"):
            same(f"its {language}", printed([compiled(language, source)]), wanted)
            ran.append(language)
    assert ran == ["rust", "c"], ran
    print(f"README.md and docs/REFUSALS.md: a script, its Rust and its C, and {refusals()} refusals are as they have them")


main()
