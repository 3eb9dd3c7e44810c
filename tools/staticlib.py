#!/usr/bin/env python3
"""Writes target/staticlib/libNAME.a, the archive of a crate that exports for C: strip, whose exports stand in strip_c, token_c or number_c.
`rt lib` makes it, which proves the crate and all below it; what is proved is not proved again. Run from the repository's root.

  staticlib.py NAME
  staticlib.py --after-ci NAME   right after `rt ci`: over the libraries that it has just proved and left in crates/*/out, so that they are
                                 not proved again. Where it gave back libraries of earlier checks, `rt lib` makes the archive all the same
"""
import os, shutil, subprocess, sys

OUT = "target/staticlib"


def listed():
    """Each crate of crates.txt and those that it uses."""
    rows = (row.split("#")[0].partition(":") for row in open("crates.txt"))
    return {name.split()[0]: uses.split() for name, colon, uses in rows if colon}


def exporting(crates, name):
    """The crate with the exports of an archive: a library's stand in a crate of their own."""
    return f"{name}_c" if f"{name}_c" in crates else name


def below(crates, name, found):
    """The repository's crates below one."""
    for used in crates[name]:
        if used in crates and used not in found:
            below(crates, used, found)
            found.append(used)
    return found


def after_ci(crates, name, archive):
    """Builds the archive over the libraries of `rt ci`; whether those are there."""
    libraries = below(crates, name, [])
    folder = "crates/{0}/out/rlib".format
    if not all(os.path.isfile(f"{folder(it)}/{it}.rlib/format") for it in libraries):
        return False
    # rt's own builds bear a stamp, and may be of an older text
    if any(os.path.exists(f"{folder(it)}/stamp") for it in libraries):
        return False
    kit = os.path.dirname(subprocess.run(["rt", "doc"], stdout=subprocess.PIPE, check=True, text=True).stdout.strip())
    words = ["--crate-name", name, "src/lib.rt", "--crate-type", "staticlib", "--extern", f"std={kit}/rlibs/std.rlib", "-L", f"dependency={kit}/rlibs"]
    for it in libraries:
        rlib = os.path.abspath(f"{folder(it)}/{it}.rlib")
        words += ["--extern", f"{it}={rlib}"] if it in crates[name] else []
        words += ["-L", f"dependency={os.path.dirname(rlib)}"]
    words += ["--antt-project", f"{kit}/rattle/logic/antt-project.json", "--logic-built", f"{kit}/logic_built", "--links", f"{name}="]
    words += ["--toolchain", f"{kit}/toolchain", "-o", archive]
    subprocess.run(["rattle", "build", *words], cwd=f"crates/{name}", check=True)
    return True


def main():
    names = [it for it in sys.argv[1:] if it != "--after-ci"]
    if len(names) != 1 or names[0].startswith("-"):
        sys.exit(__doc__)
    crates = listed()
    name = exporting(crates, names[0])
    archive = os.path.abspath(f"{OUT}/lib{names[0]}.a")
    os.makedirs(OUT, exist_ok=True)
    if "--after-ci" in sys.argv and after_ci(crates, name, archive):
        return
    subprocess.run(["rt", "lib"], cwd=f"crates/{name}", check=True)
    shutil.copyfile(f"crates/{name}/out/lib{name}.a", archive)


main()
