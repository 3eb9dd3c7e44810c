#!/usr/bin/env python3
"""Has the definitions computed on stored answers of the Rust.

    oracle/compare-definitions.py [LONGEST [FIRST [COUNT]]]

Each answer of oracle/answers/read.txt.gz and check.txt.gz becomes a case of an antt module, of which the checker computes whether
all agree. Texts and sheets of more than LONGEST bytes (600) are left out. Cases go in modules of 200; a module that the checker
refuses is halved until the cases that disagree are found. It works on a copy of the crates in the folder strip-compare of the
system's temporary files, with what was proved in them, and changes nothing else.
"""
import glob, gzip, os, re, shutil, subprocess, sys, tempfile

ROOT = os.path.dirname(os.path.dirname(os.path.abspath(__file__)))
WORK = os.path.join(tempfile.gettempdir(), "strip-compare")
PART = 200

HEAD = """-- Answers of the Rust, and those that the definitions do not give.
use Rattle.std.specs.Prelude.{ℕ, Bool, true, false, ◌&&◌, cond, List, [], ◌∷◌, T, replicate}
use Prim.Native.String.{String}
use Rattle.text.specs.Bytes.{bytes, same}
use Rattle.reading.specs.Reading.{reading}
use Rattle.checking.specs.Checking.{checking}
use Rattle.error.specs.Answer.{check_values}
use Rattle.script.specs.Table.{hex_bytes, sheet_values, check_read}

pub data Case : Type 0 where
  gives : String → String → List ℕ → Case
  refuses : String → List ℕ → Case
  checks : String → String → List ℕ → Case

abbrev read : String → List ℕ
read t = sheet_values (reading (hex_bytes (bytes t)) (replicate 64 0) (replicate 4096 0))

-- the sheet that reading gives, and checking's values of it; reading's refusal; checking's values of a sheet
abbrev agrees : Case → Bool
agrees (gives t s v) = cond (same (read t) (0 ∷ hex_bytes (bytes s))) (same (check_read (hex_bytes (bytes t)) (read t)) v) false
agrees (refuses t r) = same (read t) r
agrees (checks t s v) = same (check_values (checking 1 (hex_bytes (bytes t)) (hex_bytes (bytes s)))) v

abbrev every : List Case → Bool
every [] = true
every (c ∷ cs) = agrees c && every cs

"""


def values(verdict, more=""):
    if verdict == "accept":
        return "(0 ∷ [])"
    m = re.fullmatch(r"refuse (\d+) at (\d+)", verdict)
    return f"({m.group(1)} ∷ {m.group(2)} ∷ {more}[])"


def read_cases(longest):
    for n, line in enumerate(gzip.open(f"{ROOT}/oracle/answers/read.txt.gz", "rt"), 1):
        text, answer, *rest = line.rstrip("\n").split("\t")
        if len(text) > 2 * longest:
            continue
        if answer.startswith("accept"):
            sheet = answer.split(" ")[2]
            yield ("read", n, f'gives "{text}" "{sheet}" {values(rest[0])}')
        else:
            yield ("read", n, f'refuses "{text}" {values(answer, "0 ∷ ")}')


def check_cases(longest):
    for n, line in enumerate(gzip.open(f"{ROOT}/oracle/answers/check.txt.gz", "rt"), 1):
        text, sheet, verdict = line.rstrip("\n").split("\t")
        if len(text) <= 2 * longest and len(sheet) <= 2 * longest:
            yield ("check", n, f'checks "{text}" "{sheet}" {values(verdict)}')


def shut_names():
    names = []
    for path in sorted(glob.glob(f"{WORK}/crates/*/specs/*.antt")):
        crate, module = path.split("/")[-3], os.path.basename(path)[:-5]
        for line in open(path):
            if m := re.match(r"unfoldable pub (\S+)", line):
                names.append(f"Rattle.{crate}.specs.{module}.{m.group(1)}")
    return " ".join(names + [f"lib.Ieee.{x}" for x in "round div to_bits of_bits lt le sub".split()])


def run(cases):
    """The cases that disagree."""
    rows = "".join(f"    {c} ∷\n" for _, _, c in cases)
    with open(f"{WORK}/crates/compare/specs/Compare.antt", "w") as f:
        f.write(HEAD + f"abbrev cases : List Case\ncases =\n{rows}    []\n\n")
        f.write(f"pub lemma : T (every cases)\nunfolding {shut_names()}\nlemma = tt\n")
    out = subprocess.run(["rt", "check"], cwd=f"{WORK}/crates/compare", stdout=subprocess.PIPE, stderr=subprocess.STDOUT, text=True).stdout
    if "\nlogic=proved" in out:
        return []
    if "`lemma`: expected type" not in out:
        sys.exit(f"no verdict, see {WORK}:\n{out[-2000:]}")
    half = len(cases) // 2
    return [*run(cases[:half]), *run(cases[half:])] if half else [cases[0][:2]]


def main():
    args = [int(a) for a in sys.argv[1:]] + [600, 0, 10**9][len(sys.argv) - 1 :]
    cases = [c for c in list(read_cases(args[0])) + list(check_cases(args[0]))][args[1] : args[1] + args[2]]
    rows = [row for row in open(f"{ROOT}/crates.txt").read().split("\n") if ":" in row.split("#")[0]]
    uses = {row.split(":")[0].split()[0]: row.split("#")[0].split(":")[1].split() for row in rows}
    below = ["script"]
    for name in below:  # which grows
        below += [used for used in uses[name] if used in uses and used not in below]
    for name in [*below, "compare"]:
        shutil.rmtree(f"{WORK}/crates/{name}", ignore_errors=True)
    for name in below:
        shutil.copytree(f"{ROOT}/crates/{name}", f"{WORK}/crates/{name}", symlinks=True)
    for part in ("specs", "src"):
        os.makedirs(f"{WORK}/crates/compare/{part}")
    with open(f"{WORK}/crates.txt", "w") as f:
        f.write("".join(f"{name}: {' '.join(uses[name])}\n" for name in below) + f"compare: {' '.join(below)}\n")
    with open(f"{WORK}/crates/compare/specs/Lib.antt", "w") as f:
        f.write("pub mod Compare\n")
    with open(f"{WORK}/crates/compare/src/lib.rt", "w") as f:
        f.write("// Answers of the Rust.\n#![tactic(auto)]\n")
    bad = []
    print(f"{len(cases)} cases, {PART} at a time; the crates below `script` are proved first if they are not, in minutes", flush=True)
    for k in range(0, len(cases), PART):
        found = run(cases[k : k + PART])
        bad += found
        print(f"{k + len(cases[k : k + PART])} of {len(cases)}: {len(bad)} disagree", *found, flush=True)
    print(f"{len([c for c in cases if c[0] == 'read'])} scripts, {len([c for c in cases if c[0] == 'check'])} sheets, {len(bad)} disagree")
    sys.exit(1 if bad else 0)


main()
