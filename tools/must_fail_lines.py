#!/usr/bin/env python3
"""Says which must-fail edits do not apply: those whose `old:` text does not stand exactly once in its file. Run from the repository's root.

  must_fail_lines.py                      in a second
  must_fail_lines.py --compile [CRATE..]  and which edits of code (of these crates; of all) no longer compile: the edited crate and those below it
                                          go through the compiler's front end, with no proof. Some seconds to a minute for each, to be run by hand
                                          before ./test.sh, which tells such an edit as bad only behind every proof
"""
import glob, os, re, shutil, subprocess, sys, tempfile


def edit_of(path):
    """The replacements of an edit: a file of its crate, a text that stands there, and what is put in its place."""
    file = old = None
    for row in open(path).read().splitlines():
        word, _, rest = row.partition(": ")
        if word == "file":
            file = rest
        elif word == "old":
            old = rest
        elif word == "new":
            yield file, old, rest


def crate_of(path):
    return path[: path.index("/must-fail/")]


def unapplied(path):
    """What of an edit does not apply. Each replacement is made in what the earlier ones left."""
    texts = {}
    for file, old, new in edit_of(path):
        if file not in texts:
            texts[file] = open(f"{crate_of(path)}/{file}").read()
        count = texts[file].count(old)
        if count != 1:
            yield f"{count} times: {old.strip()}"
        texts[file] = texts[file].replace(old, new)


def listed(path):
    """The crates of a crates.txt, and what each uses."""
    rows = (line.split("#")[0].partition(":") for line in open(path))
    return {name.split()[0]: uses.split() for name, colon, uses in rows if colon}


def compiled(path, home):
    """What the compiler says of a crate with an edit; nothing where it compiles. `--only ""` proves no function."""
    crate = os.path.basename(crate_of(path))
    ours = listed("crates.txt")
    with tempfile.TemporaryDirectory() as work:
        for part in ("src", "specs", "proofs"):
            if os.path.isdir(f"crates/{crate}/{part}"):
                shutil.copytree(f"crates/{crate}/{part}", f"{work}/{part}")
        for file, old, new in edit_of(path):
            text = open(f"{work}/{file}").read()
            open(f"{work}/{file}", "w").write(text.replace(old, new))
        root = next(file for file in ("src/main.rt", "src/lib.rt") if os.path.exists(f"{work}/{file}"))
        below, kit = [], {"core", "std"}

        def reach(name):
            for used in ours[name]:
                if used not in ours:
                    kit.add(used)
                elif used not in below:
                    reach(used)
                    below.append(used)

        reach(crate)
        words = ["--crate-name", crate, root, "-L", f"dependency={home}/rlibs"]
        for name in sorted(kit):
            words += ["--extern", f"{name}={home}/rlibs/{name}.rlib"]
        for name in below:  # each behind those that it uses
            uses = dict.fromkeys(["core", "std", *ours[name]])
            words += ["--lib", f"{name}:{','.join(uses)}={os.path.abspath(f'crates/{name}')}/src/lib.rt"]
        words += ["--antt-project", f"{home}/rattle/logic/antt-project.json", "--logic-built", f"{home}/logic_built", "--jobs", "1", "--only", ""]
        ended = subprocess.run([f"{home}/bin/rattle", "check", *words], cwd=work, stdout=subprocess.PIPE, stderr=subprocess.STDOUT, text=True)
        return None if re.search(r"^only=", ended.stdout, re.M) else ended.stdout.replace(work, f"crates/{crate}").strip()


def main():
    words = sys.argv[1:]
    if words and words[0] != "--compile":
        sys.exit(__doc__)
    edits, bad = sorted(glob.glob("crates/*/must-fail/*.edit")), 0
    for edit in edits:
        for fault in unapplied(edit):
            print(f"{edit}: {fault}")
            bad += 1
    print(f"{len(edits)} edits, {bad} do not apply")
    if words and not bad:
        home = os.path.dirname(subprocess.run(["rt", "doc"], capture_output=True, text=True, check=True).stdout.strip())
        of_code = [e for e in edits if all(file.startswith("src/") for file, _, _ in edit_of(e))]
        chosen = [e for e in of_code if not words[1:] or os.path.basename(crate_of(e)) in words[1:]]
        for edit in chosen:
            if said := compiled(edit, home):
                print(f"{edit}: does not compile\n{said}")
                bad += 1
        print(f"{len(chosen)} edits of code, {bad} do not compile")
    sys.exit(bad > 0)


if __name__ == "__main__":
    main()
